//! The whole listing job as a plain Rust program: what the library is timed against. Written from the rules, not from
//! the library.

use std::cmp::Reverse;
use std::collections::BinaryHeap;
use std::mem;

const MOST_BYTES: usize = 16_384;
const MOST_NODES: usize = 64;
const MOST_QUERIES: usize = 32;
const MOST_NUMBER: u32 = 1_000_000;
const MOST_PERIOD: u32 = 60_000;

/// How a listing ended; the fields are those of `struct sundrixa_listing`.
#[derive(Clone, Copy, Debug, Default, PartialEq, Eq)]
pub struct Ending {
    pub length: u64,
    pub refusal: u64,
    pub offset: u64,
    pub inner: u64,
    pub position: u64,
}

/// The listing of a day file, slot by slot as the rules have it.
pub fn list(file: &[u8], out: &mut [u8]) -> Ending {
    list_file::<false>(file, out)
}

/// The same listing; a stretch of slots in which nothing can start is passed over at once.
pub fn list_skipping(file: &[u8], out: &mut [u8]) -> Ending {
    list_file::<true>(file, out)
}

/// The STOP line; its length, or none where it does not fit.
pub fn stop_line(refusal: u64, offset: u64, inner: u64, out: &mut [u8]) -> Option<usize> {
    let mut line = Line::new("STOP").number(refusal).number(offset);
    if refusal == 35 {
        line = line.number(inner);
    }
    let text = line.end();
    out.get_mut(..text.len())?.copy_from_slice(text);
    Some(text.len())
}

fn list_file<const SKIP: bool>(file: &[u8], out: &mut [u8]) -> Ending {
    let mut output = Output { list: out, length: 0 };
    let ended = Listing::default().read::<SKIP>(file, &mut output);
    let length = output.length as u64;
    match ended {
        Ok(()) => Ending { length, ..Ending::default() },
        Err((offset, Stop { refusal, inner, position })) => {
            Ending { length, refusal, offset: offset as u64, inner, position }
        }
    }
}

/// What ends a listing before its file does.
struct Stop {
    refusal: u64,
    inner: u64,
    position: u64,
}

impl Stop {
    fn new(refusal: u64) -> Stop {
        Stop { refusal, inner: 0, position: 0 }
    }

    fn site(inner: u64, position: usize) -> Stop {
        Stop { refusal: 35, inner, position: position as u64 }
    }
}

// Lines

/// A line in the making. The longest has a word and three numbers of 64 bits.
struct Line {
    text: [u8; 80],
    length: usize,
}

impl Line {
    fn new(word: &str) -> Line {
        let mut text = [0; 80];
        text[..word.len()].copy_from_slice(word.as_bytes());
        Line { text, length: word.len() }
    }

    fn number(mut self, mut value: u64) -> Line {
        let mut digits = [0; 20];
        let mut first = digits.len();
        loop {
            first -= 1;
            digits[first] = b'0' + (value % 10) as u8;
            value /= 10;
            if value == 0 {
                break;
            }
        }
        let digits = &digits[first..];
        self.text[self.length] = b' ';
        self.text[self.length + 1..][..digits.len()].copy_from_slice(digits);
        self.length += 1 + digits.len();
        self
    }

    fn end(&mut self) -> &[u8] {
        self.text[self.length] = b'\n';
        &self.text[..=self.length]
    }
}

struct Output<'a> {
    list: &'a mut [u8],
    length: usize,
}

impl Output<'_> {
    fn write(&mut self, mut line: Line) -> Result<(), Stop> {
        let text = line.end();
        let place = self.list[self.length..].get_mut(..text.len()).ok_or(Stop::new(34))?;
        place.copy_from_slice(text);
        self.length += text.len();
        Ok(())
    }
}

// Records

enum Record {
    Nodes(u8),
    Edge(u8, u8),
    Tree(Hop),
    Query { priority: u8, period: u16, deadline: u16 },
    Release(u32),
    Close(u32),
    Run(u16),
}

#[derive(Clone, Copy)]
struct Hop {
    child: u8,
    parent: u8,
    slots: u8,
}

/// The record at the front of the bytes, and its length.
fn read_record(bytes: &[u8]) -> Result<(Record, usize), Stop> {
    Ok(match *bytes {
        [1, nodes, ..] => (Record::Nodes(nodes), 2),
        [2, from, to, ..] => (Record::Edge(from, to), 3),
        [3, child, parent, slots, ..] => (Record::Tree(Hop { child, parent, slots }), 4),
        [4, priority, p0, p1, d0, d1, ..] => {
            let period = u16::from_le_bytes([p0, p1]);
            let deadline = u16::from_le_bytes([d0, d1]);
            (Record::Query { priority, period, deadline }, 6)
        }
        [5, a, b, c, d, ..] => (Record::Release(u32::from_le_bytes([a, b, c, d])), 5),
        [6, a, b, c, d, ..] => (Record::Close(u32::from_le_bytes([a, b, c, d])), 5),
        [7, a, b, ..] => (Record::Run(u16::from_le_bytes([a, b])), 3),
        [1..=7, ..] => return Err(Stop::new(32)),
        _ => return Err(Stop::new(31)),
    })
}

/// A query record's deadline of 0 means its period.
fn deadline_or_default(period: u16, deadline: u16) -> u16 {
    if deadline == 0 { period } else { deadline }
}

// The site and its plan

struct Site {
    nodes: u8,
    edges: Vec<(u8, u8)>,
    tree: Vec<Hop>,
}

/// The transmissions of a step, as sets of nodes.
#[derive(Clone, Copy, Default)]
struct Step {
    nodes: u64, // all senders and receivers
    receivers: u64,
    hearers: u64, // those that hear a sender
}

impl Step {
    fn of(from: usize, to: usize, heard: &[u64; MOST_NODES]) -> Step {
        Step { nodes: 1 << from | 1 << to, receivers: 1 << to, hearers: heard[from] }
    }

    /// Whether some transmission of one conflicts with some transmission of the other.
    fn conflicts(self, other: Step) -> bool {
        (self.nodes & other.nodes) | (self.hearers & other.receivers) | (self.receivers & other.hearers) != 0
    }

    fn join(&mut self, other: Step) {
        self.nodes |= other.nodes;
        self.receivers |= other.receivers;
        self.hearers |= other.hearers;
    }
}

impl Site {
    /// Length and minimum step distance of the site's plan.
    fn plan(&self) -> Result<(usize, usize), Stop> {
        let heard = self.survey()?;
        let (parent, depth) = self.routes()?;
        let steps = self.steps(&heard, &parent, &depth);
        Ok((steps.len(), distance(&steps)))
    }

    /// For each node the set of those that hear it.
    fn survey(&self) -> Result<[u64; MOST_NODES], Stop> {
        if !(1..=MOST_NODES).contains(&self.nodes.into()) {
            return Err(Stop::site(11, 0));
        }
        let mut heard = [0; MOST_NODES];
        for (position, &(from, to)) in self.edges.iter().enumerate() {
            if from >= self.nodes || to >= self.nodes {
                return Err(Stop::site(12, position));
            }
            heard[usize::from(from)] |= 1 << to;
        }
        Ok(heard)
    }

    /// Parent and depth of each node.
    fn routes(&self) -> Result<([usize; MOST_NODES], [usize; MOST_NODES]), Stop> {
        if self.tree.len() + 1 != usize::from(self.nodes) {
            return Err(Stop::site(1, 0));
        }
        let unfit = |hop: &Hop| {
            hop.child >= self.nodes
                || hop.parent >= self.nodes
                || !(1..=4).contains(&hop.slots)
                || hop.child == 0
                || hop.child == hop.parent
        };
        if let Some(position) = self.tree.iter().position(unfit) {
            return Err(Stop::site(2, position));
        }
        let mut parent = [0; MOST_NODES];
        let mut children = 0u64;
        for (position, hop) in self.tree.iter().enumerate() {
            if children & 1 << hop.child != 0 {
                return Err(Stop::site(3, position));
            }
            children |= 1 << hop.child;
            parent[usize::from(hop.child)] = hop.parent.into();
        }
        let mut depth = [0; MOST_NODES];
        for (position, hop) in self.tree.iter().enumerate() {
            let mut node = usize::from(hop.child);
            let mut hops = 0;
            while node != 0 {
                if hops == self.tree.len() {
                    return Err(Stop::site(4, position));
                }
                node = parent[node];
                hops += 1;
            }
            depth[usize::from(hop.child)] = hops;
        }
        Ok((parent, depth))
    }

    fn steps(&self, heard: &[u64; MOST_NODES], parent: &[usize; MOST_NODES], depth: &[usize; MOST_NODES]) -> Vec<Step> {
        if self.tree.is_empty() {
            return vec![Step::default()];
        }
        let mut left = [0; MOST_NODES];
        let mut unfinished_children = [0; MOST_NODES];
        for hop in &self.tree {
            left[usize::from(hop.child)] = hop.slots;
            unfinished_children[usize::from(hop.parent)] += 1;
        }
        let mut unfinished: Vec<usize> = (1..usize::from(self.nodes)).collect();
        unfinished.sort_by_key(|&node| (Reverse(depth[node]), node));
        let mut steps = Vec::new();
        while !unfinished.is_empty() {
            let mut step = Step::default();
            let mut finished = false;
            for &node in &unfinished {
                let transmission = Step::of(node, parent[node], heard);
                if unfinished_children[node] == 0 && !step.conflicts(transmission) {
                    step.join(transmission);
                    left[node] -= 1;
                    finished |= left[node] == 0;
                }
            }
            steps.push(step);
            if finished {
                // only now: a child that finishes in a step holds its parent back until the next
                unfinished.retain(|&node| {
                    if left[node] == 0 {
                        unfinished_children[parent[node]] -= 1;
                    }
                    left[node] > 0
                });
            }
        }
        steps
    }
}

/// The minimum step distance: one more than the farthest apart that two steps with a conflict lie.
fn distance(steps: &[Step]) -> usize {
    let mut farthest = 0;
    for (i, early) in steps.iter().enumerate() {
        let later = steps.get(i + farthest + 1..).unwrap_or_default();
        if let Some(more) = later.iter().rposition(|late| early.conflicts(*late)) {
            farthest += more + 1;
        }
    }
    farthest + 1
}

// The engine

/// A refusal of the engine, and the query that it names.
struct No {
    refusal: u64,
    named: Option<u32>,
}

impl No {
    fn new(refusal: u64) -> No {
        No { refusal, named: None }
    }
}

struct Query {
    priority: u8,
    number: u32,
    period: u32,
    deadline: u32,
    earliest: u64,
    waiting: bool,
    leaving: bool,
    /// At most its longest wait: where looking for that begins. It is exact until a query before it goes.
    wait: u32,
}

fn periods(queries: &[Query]) -> impl Iterator<Item = u32> + Clone {
    queries.iter().map(|query| query.period)
}

struct Engine {
    length: u32,
    distance: u32,
    slot: u64,
    /// The first slot in which a round may start again.
    next_start: u64,
    next_number: u32,
    /// In order of rank.
    queries: Vec<Query>,
    waiting: BinaryHeap<Reverse<(u8, u32)>>,
    /// Whether some query is leaving.
    leaving: bool,
}

impl Engine {
    fn new(length: usize, distance: usize) -> Engine {
        Engine {
            length: length as u32,
            distance: distance as u32,
            slot: 0,
            next_start: 0,
            next_number: 1,
            queries: Vec::with_capacity(MOST_QUERIES),
            waiting: BinaryHeap::with_capacity(MOST_QUERIES),
            leaving: false,
        }
    }

    /// The longest wait behind queries of these periods, looked for from `wait`, which is not above it; none where
    /// the deadline is not kept.
    fn longest_wait(&self, mut wait: u32, deadline: u32, periods: impl Iterator<Item = u32> + Clone) -> Option<u32> {
        while wait + self.length <= deadline {
            let rounds: u32 = periods.clone().map(|period| wait / period + 1).sum();
            let next = self.distance - 1 + self.distance * rounds;
            if next == wait {
                return Some(wait);
            }
            wait = next;
        }
        None
    }

    /// Books and confirms a query; its number and its longest wait.
    fn book(&mut self, priority: u8, period: u32, deadline: u32) -> Result<(u32, u32), No> {
        if !(1 <= deadline && deadline <= period && period <= MOST_PERIOD) {
            return Err(No::new(20));
        }
        let number = self.next_number;
        if number > MOST_NUMBER {
            return Err(No::new(21));
        }
        if self.queries.len() == MOST_QUERIES {
            return Err(No::new(22));
        }
        // those before the new query do not notice it, and kept their deadlines
        let place = self.queries.partition_point(|query| query.priority <= priority);
        let late = |number| No { refusal: 23, named: Some(number) };
        let wait = self.longest_wait(0, deadline, periods(&self.queries[..place])).ok_or(late(number))?;
        let mut waits = [0; MOST_QUERIES];
        for (at, query) in self.queries.iter().enumerate().skip(place) {
            let before = periods(&self.queries[..at]).chain([period]);
            waits[at] = self.longest_wait(query.wait, query.deadline, before).ok_or(late(query.number))?;
        }
        for (query, &wait) in self.queries.iter_mut().zip(&waits).skip(place) {
            query.wait = wait;
        }
        let query = Query { priority, number, period, deadline, earliest: 0, waiting: false, leaving: false, wait };
        self.queries.insert(place, query);
        self.next_number += 1;
        Ok((number, wait))
    }

    fn open_query(&mut self, number: u32) -> Result<&mut Query, No> {
        self.queries.iter_mut().find(|query| query.number == number && !query.leaving).ok_or(No::new(25))
    }

    fn release(&mut self, number: u32) -> Result<(), No> {
        let slot = self.slot;
        let query = self.open_query(number)?;
        if slot < query.earliest {
            return Err(No::new(26));
        }
        if query.waiting {
            return Err(No::new(27));
        }
        query.waiting = true;
        query.earliest = slot + u64::from(query.period);
        let rank = (query.priority, query.number);
        self.waiting.push(Reverse(rank));
        Ok(())
    }

    fn close(&mut self, number: u32) -> Result<(), No> {
        self.open_query(number)?.leaving = true;
        self.leaving = true;
        Ok(())
    }

    /// Runs the next slot; the number of the query whose round starts.
    fn run_slot(&mut self) -> Option<u32> {
        let slot = self.slot;
        self.slot += 1;
        if self.waiting.is_empty() {
            self.remove_leaving();
            return None;
        }
        if slot < self.next_start {
            return None;
        }
        let Reverse(rank) = self.waiting.pop()?;
        self.next_start = slot + u64::from(self.distance);
        if let Ok(at) = self.queries.binary_search_by_key(&rank, |query| (query.priority, query.number)) {
            self.queries[at].waiting = false;
        }
        Some(rank.1)
    }

    fn remove_leaving(&mut self) {
        if !mem::take(&mut self.leaving) {
            return;
        }
        let mut gone = false;
        self.queries.retain_mut(|query| {
            gone |= query.leaving;
            if gone {
                query.wait = 0;
            }
            !query.leaving
        });
    }

    /// Passes over the slots before `end` in which nothing starts, up to the next start; whether there is none.
    fn skip_to(&mut self, end: u64) -> bool {
        if self.waiting.is_empty() {
            self.remove_leaving();
            self.slot = end;
        } else {
            self.slot = self.slot.max(self.next_start).min(end);
        }
        self.slot == end
    }
}

// The listing

#[derive(Default)]
struct Listing {
    site: Option<Site>,
    engine: Option<Engine>,
}

impl Listing {
    /// Where it stops, the offset of the record being read.
    fn read<const SKIP: bool>(&mut self, file: &[u8], output: &mut Output) -> Result<(), (usize, Stop)> {
        if file.len() > MOST_BYTES {
            return Err((0, Stop::new(36)));
        }
        let mut at = 0;
        while at < file.len() {
            let length = self.record::<SKIP>(&file[at..], at, output).map_err(|stop| (at, stop))?;
            at += length;
        }
        self.engine(output).map_err(|stop| (at, stop))?;
        Ok(())
    }

    fn record<const SKIP: bool>(&mut self, bytes: &[u8], at: usize, output: &mut Output) -> Result<usize, Stop> {
        let (record, length) = read_record(bytes)?;
        let done = match record {
            Record::Nodes(nodes) => {
                if self.site.is_some() {
                    return Err(Stop::new(33));
                }
                self.site = Some(Site { nodes, edges: Vec::new(), tree: Vec::new() });
                Ok(())
            }
            Record::Edge(from, to) => {
                self.open_site()?.edges.push((from, to));
                Ok(())
            }
            Record::Tree(hop) => {
                self.open_site()?.tree.push(hop);
                Ok(())
            }
            Record::Query { priority, period, deadline } => {
                let deadline = deadline_or_default(period, deadline);
                match self.engine(output)?.book(priority, period.into(), deadline.into()) {
                    Ok((number, wait)) => {
                        output.write(Line::new("QUERY").number(number.into()).number(wait.into()))?;
                        Ok(())
                    }
                    Err(no) => Err(no),
                }
            }
            Record::Release(number) => self.engine(output)?.release(number),
            Record::Close(number) => self.engine(output)?.close(number),
            Record::Run(slots) => {
                let engine = self.engine(output)?;
                let end = engine.slot + u64::from(slots);
                while engine.slot < end {
                    if SKIP && engine.skip_to(end) {
                        break;
                    }
                    let slot = engine.slot;
                    if let Some(number) = engine.run_slot() {
                        output.write(Line::new("START").number(slot).number(number.into()))?;
                    }
                }
                Ok(())
            }
        };
        if let Err(No { refusal, named }) = done {
            let mut line = Line::new("NO").number(refusal).number(at as u64);
            if let Some(number) = named {
                line = line.number(number.into());
            }
            output.write(line)?;
        }
        Ok(length)
    }

    /// The site as long as its plan is not made.
    fn open_site(&mut self) -> Result<&mut Site, Stop> {
        match (&mut self.site, &self.engine) {
            (Some(site), None) => Ok(site),
            _ => Err(Stop::new(33)),
        }
    }

    /// The engine; the first call makes the plan.
    fn engine(&mut self, output: &mut Output) -> Result<&mut Engine, Stop> {
        let site = self.site.as_ref().ok_or(Stop::new(33))?;
        match &mut self.engine {
            Some(engine) => Ok(engine),
            none => {
                let (length, distance) = site.plan()?;
                output.write(Line::new("PLAN").number(length as u64).number(distance as u64))?;
                Ok(none.insert(Engine::new(length, distance)))
            }
        }
    }
}
