//! Day files: those that are timed, and pseudo-random ones, valid and damaged.

use crate::plain;

pub const MOST_BYTES: usize = 16_384;
/// No listing is longer: a line has at most five bytes for each byte of the record that brings it about.
pub const ENOUGH_ROOM: usize = 5 * MOST_BYTES;

/// 32 nodes; length 13, minimum step distance 7.
const GALLERY: &[u8] = include_bytes!("../../samples/gallery.day");
const GALLERY_LENGTH: u16 = 13;

fn nodes(file: &mut Vec<u8>, nodes: u8) {
    file.extend([1, nodes]);
}

fn edge(file: &mut Vec<u8>, from: u8, to: u8) {
    file.extend([2, from, to]);
}

fn tree(file: &mut Vec<u8>, child: u8, parent: u8, slots: u8) {
    file.extend([3, child, parent, slots]);
}

fn query(file: &mut Vec<u8>, priority: u8, period: u16, deadline: u16) {
    file.extend([4, priority]);
    file.extend(period.to_le_bytes());
    file.extend(deadline.to_le_bytes());
}

fn release(file: &mut Vec<u8>, number: u32) {
    file.push(5);
    file.extend(number.to_le_bytes());
}

fn close(file: &mut Vec<u8>, number: u32) {
    file.push(6);
    file.extend(number.to_le_bytes());
}

fn run(file: &mut Vec<u8>, slots: u16) {
    file.push(7);
    file.extend(slots.to_le_bytes());
}

// What is timed

/// A full table on the gallery floor, its queries released in two halves, and so many slots run after each half.
/// The file has all 16,384 bytes.
pub fn long_day(slots: u16) -> Vec<u8> {
    let mut file = GALLERY.to_vec();
    for i in 0..32 {
        // priorities in another order than numbers
        query(&mut file, i * 7 % 32, 2 * slots, 0);
    }
    let half = 16 * 5 + 3;
    while file.len() + 2 * half + 8 <= MOST_BYTES {
        for half in [1..=16, 17..=32] {
            half.for_each(|number| release(&mut file, number));
            run(&mut file, slots);
        }
    }
    // records of 3 and 5 bytes make up every rest from 8 on
    while file.len() < MOST_BYTES {
        if (MOST_BYTES - file.len()).is_multiple_of(3) { run(&mut file, 0) } else { release(&mut file, 0) }
    }
    file
}

/// So many queries on the gallery floor, and slots without a release.
pub fn quiet_day(queries: u8, slots: u32) -> Vec<u8> {
    let mut file = GALLERY.to_vec();
    (0..queries).for_each(|i| query(&mut file, i, 6_000, 0));
    for _ in 0..slots / 50_000 {
        run(&mut file, 50_000);
    }
    run(&mut file, (slots % 50_000) as u16);
    file
}

/// A survey in which half of all pairs are edges, and a long branch with a leaf at each of its nodes.
pub fn dense_site(count: u8) -> Vec<u8> {
    let mut random = Random(7);
    let mut file = Vec::new();
    nodes(&mut file, count);
    for from in 0..count {
        (0..count).filter(|&to| to != from && random.chance(2)).for_each(|to| edge(&mut file, from, to));
    }
    for node in 1..count {
        // the odd numbers are the branch, each even one hangs on the odd one before it
        let parent = if node % 2 == 0 { node - 1 } else { node.saturating_sub(2) };
        tree(&mut file, node, parent, 1 + node % 4);
    }
    file
}

/// A survey in which only parent and child hear each other, and branches side by side.
pub fn sparse_site(count: u8) -> Vec<u8> {
    let mut file = Vec::new();
    nodes(&mut file, count);
    let parent = |node: u8| node.saturating_sub(7);
    for node in 1..count {
        edge(&mut file, node, parent(node));
        edge(&mut file, parent(node), node);
    }
    (1..count).for_each(|node| tree(&mut file, node, parent(node), 1 + node % 4));
    file
}

/// So many queries accepted on the gallery floor, then as many query records as said, all refused by 23: each would
/// rank first and make the last in rank late, so that all waits are reckoned.
pub fn refusals(accepted: u8, refused: usize) -> Vec<u8> {
    let mut file = GALLERY.to_vec();
    for i in 1..accepted {
        query(&mut file, i, 180 + 14 * u16::from(i), 0);
    }
    // the last has a deadline without a slot to spare: first booked with a long one, to learn its wait
    let mut trial = file.clone();
    query(&mut trial, 255, 60_000, 0);
    let text = plain_listing(&trial);
    let wait: u16 = text.rsplit([' ', '\n']).find(|word| !word.is_empty()).and_then(|word| word.parse().ok()).unwrap();
    query(&mut file, 255, 60_000, wait + GALLERY_LENGTH);
    (0..refused).for_each(|_| query(&mut file, 0, 60_000, 0));
    let text = plain_listing(&file);
    let all_refused = text.lines().filter(|line| line.starts_with("NO 23") && line.ends_with(&format!(" {accepted}")));
    assert_eq!((text.matches("QUERY").count(), all_refused.count()), (accepted.into(), refused));
    file
}

/// The most refused query records for which there is room in the file of `refusals(31, ..)`.
pub fn most_refused() -> usize {
    (MOST_BYTES - GALLERY.len() - 31 * 6) / 6
}

pub fn plain_listing(file: &[u8]) -> String {
    let mut out = vec![0; ENOUGH_ROOM];
    let ending = plain::list(file, &mut out);
    out.truncate(ending.length as usize);
    String::from_utf8(out).expect("lines of ASCII")
}

// What is compared

/// Xorshift: the same files on every machine.
pub struct Random(pub u64);

impl Random {
    pub fn below(&mut self, bound: u64) -> u64 {
        self.0 ^= self.0 << 13;
        self.0 ^= self.0 >> 7;
        self.0 ^= self.0 << 17;
        self.0.wrapping_mul(0x2545_f491_4f6c_dd1d) % (1 << 32) % bound
    }

    fn byte(&mut self, bound: u64) -> u8 {
        self.below(bound) as u8
    }

    /// Once in so many times.
    fn chance(&mut self, times: u64) -> bool {
        self.below(times) == 0
    }

    fn shuffle<T>(&mut self, list: &mut [T]) {
        for i in (1..list.len()).rev() {
            list.swap(i, self.below(i as u64 + 1) as usize);
        }
    }
}

/// A site: any tree over any survey, now and then with a record that makes it unsound.
fn random_site(random: &mut Random, file: &mut Vec<u8>) {
    let most = [3, 8, 64][random.below(3) as usize];
    let count = 1 + random.byte(most);
    nodes(file, count);
    // each node joins the tree below one that joined before it, node 0 first
    let mut joined: Vec<u8> = (1..count).collect();
    random.shuffle(&mut joined);
    joined.insert(0, 0);
    let deep = 1 + random.below(u64::from(count));
    let mut hops = Vec::new();
    for i in 1..joined.len() {
        let back = 1 + random.below(deep.min(i as u64)) as usize;
        hops.push((joined[i], joined[i - back]));
    }
    random.shuffle(&mut hops);
    if random.chance(8) && !hops.is_empty() {
        let at = random.below(hops.len() as u64) as usize;
        match random.below(3) {
            0 => hops[at].0 = random.byte(count.into()),
            1 => hops[at].1 = random.byte(count.into()),
            _ => hops.truncate(at),
        }
    }
    let edges = random.below(4) * u64::from(count) * u64::from(count) / 8;
    for _ in 0..edges {
        edge(file, random.byte(count.into()), random.byte(count.into()));
    }
    for (child, parent) in hops {
        let slots = 1 + random.byte(4);
        tree(file, child, parent, slots);
        if random.chance(20) {
            edge(file, parent, child);
        }
    }
}

fn random_period(random: &mut Random) -> u16 {
    match random.below(8) {
        0..3 => 1 + random.below(60) as u16,
        3..6 => 50 + random.below(600) as u16,
        6 => 1_000 + random.below(10_000) as u16,
        _ => 59_990 + random.below(20) as u16,
    }
}

/// A query's number, rather a small one: many bookings are refused.
fn random_number(random: &mut Random, booked: u64) -> u32 {
    let below = 2 + random.below(booked + 1);
    random.below(below) as u32
}

/// Records of kinds 4 to 7, as a day has them: bookings, releases in the rhythm of runs, closings.
fn random_calls(random: &mut Random, file: &mut Vec<u8>, length: usize, most_slots: u64) {
    let mut booked = 0;
    let mut slots = 0;
    let bookings = 2 + random.below(40);
    let steps = [4, 30, 300][random.below(3) as usize];
    while file.len() < length {
        match random.below(12) {
            0..3 if random.chance(1 + file.len() as u64 / 1_000) || booked < bookings => {
                let period = random_period(random);
                let deadline = match random.below(4) {
                    0 => random.below(u64::from(period) + 2) as u16,
                    1 => period / 2,
                    _ => 0,
                };
                let priorities = [2, 9, 256][random.below(3) as usize];
                let priority = random.byte(priorities);
                query(file, priority, period, deadline);
                booked += 1;
            }
            3..8 => release(file, random_number(random, booked)),
            8 if random.chance(12) => close(file, random_number(random, booked)),
            9.. => {
                let more = random.below(steps).min(most_slots - slots);
                slots += more;
                run(file, more as u16);
            }
            _ => {}
        }
    }
}

/// Any bytes that begin as records do.
fn random_records(random: &mut Random, file: &mut Vec<u8>, length: usize) {
    while file.len() < length {
        let (kind, size) = [(1, 2), (2, 3), (3, 4), (4, 6), (5, 5), (6, 5), (7, 3)][random.below(7) as usize];
        file.push(kind);
        for _ in 1..size {
            let byte = if random.chance(2) { random.byte(4) } else { 0 };
            file.push(byte);
        }
    }
}

fn damage(random: &mut Random, file: &mut Vec<u8>) {
    let Some(last) = file.len().checked_sub(1) else { return };
    let at = random.below(last as u64 + 1) as usize;
    match random.below(6) {
        0 => file.truncate(at),
        1 => file[at] = random.byte(256),
        2 => file[at] = random.byte(9),
        3 => file.insert(at, random.byte(9)),
        4 => drop(file.remove(at)),
        _ => {
            // near the front stand the survey and the tree
            let at = at.min(random.below(30) as usize);
            file[at] = random.byte(66);
        }
    }
}

/// A pseudo-random file, and the length of the output list to go with it. At most so many slots are run, unless a
/// damaged byte makes it more.
pub fn random_file(random: &mut Random, most_slots: u64) -> (Vec<u8>, usize) {
    let mut file = Vec::new();
    if random.chance(10) {
        let length = random.below(60) as usize;
        random_records(random, &mut file, length);
    } else {
        random_site(random, &mut file);
        let length = match random.below(10) {
            0 => file.len(),
            1..6 => file.len() + random.below(200) as usize,
            6..9 => file.len() + random.below(2_000) as usize,
            _ => MOST_BYTES - 6,
        };
        random_calls(random, &mut file, length, most_slots);
        if random.chance(3) {
            damage(random, &mut file);
        }
    }
    if random.chance(100) {
        file.resize(MOST_BYTES + random.below(3) as usize, 7);
    }
    let room = match random.below(6) {
        0 => random.below(40) as usize,
        1 => random.below(2_000) as usize,
        _ => ENOUGH_ROOM,
    };
    (file, room)
}
