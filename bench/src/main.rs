//! Compares the library with a plain Rust program that does the same job, then times both.
//!
//!     bench                              compare, then print the tables of docs/PERFORMANCE.md
//!     bench answers WHO COUNT SEED       what WHO (plain, skipping, library) makes of pseudo-random files, for
//!                                        compare.py to hold against the reference in Python

mod inputs;
#[cfg(feature = "library")]
mod library;
#[forbid(unsafe_code)]
mod plain;
mod timing;

use std::env;
use std::io::{self, BufWriter, Write};
use std::process::ExitCode;

use inputs::{ENOUGH_ROOM, Random, random_file};
use plain::Ending;

/// One way to list a day file.
#[derive(Clone, Copy)]
pub struct Lister {
    name: &'static str,
    list: fn(&[u8], &mut [u8]) -> Ending,
    stop_line: fn(u64, u64, u64, &mut [u8]) -> Option<usize>,
}

/// The program that the library is timed against comes first.
const LISTERS: &[Lister] = &[
    Lister { name: "plain", list: plain::list, stop_line: plain::stop_line },
    Lister { name: "skipping", list: plain::list_skipping, stop_line: plain::stop_line },
    #[cfg(feature = "library")]
    Lister { name: "library", list: library::list, stop_line: library::stop_line },
];

/// Fills a list before it is lent out, so that a byte written past the answered length is noticed.
const UNTOUCHED: u8 = 0xa5;

#[derive(PartialEq)]
struct Answer {
    ending: Ending,
    listing: Vec<u8>,
    stop_line: Vec<u8>,
    rest_untouched: bool,
}

fn answer(lister: &Lister, file: &[u8], room: usize) -> Answer {
    let mut listing = vec![UNTOUCHED; room];
    let ending = (lister.list)(file, &mut listing);
    let rest = listing.split_off((ending.length as usize).min(room));
    let mut stop_line = vec![UNTOUCHED; 68];
    if ending.refusal == 0 {
        stop_line.clear();
    } else {
        let length = (lister.stop_line)(ending.refusal, ending.offset, ending.inner, &mut stop_line);
        stop_line.truncate(length.unwrap_or(0));
        // one byte too few
        let mut short = vec![UNTOUCHED; stop_line.len().saturating_sub(1)];
        let refused = (lister.stop_line)(ending.refusal, ending.offset, ending.inner, &mut short).is_none();
        if !refused || short.iter().any(|&byte| byte != UNTOUCHED) {
            stop_line.clear();
        }
    }
    let rest_untouched = rest.iter().all(|&byte| byte == UNTOUCHED);
    Answer { ending, listing, stop_line, rest_untouched }
}

/// Whether all listers answer alike.
fn agree(file: &[u8], room: usize) -> bool {
    let first = answer(&LISTERS[0], file, room);
    first.rest_untouched && LISTERS[1..].iter().all(|lister| answer(lister, file, room) == first)
}

fn compare() -> bool {
    let names: Vec<_> = LISTERS.iter().map(|lister| lister.name).collect();
    let timed = timing::all_inputs();
    let timed_agree = timed.iter().filter(|file| agree(file, ENOUGH_ROOM)).count();
    println!("{}: agree on {timed_agree} of {} timed files", names.join(", "), timed.len());
    let mut random = Random(2024);
    let files = 5_000;
    let mut good = 0;
    let mut stopped = 0;
    let mut bytes = 0;
    for _ in 0..files {
        let (file, room) = random_file(&mut random, 200_000);
        good += usize::from(agree(&file, room));
        stopped += usize::from(answer(&LISTERS[0], &file, room).ending.refusal != 0);
        bytes += file.len();
    }
    println!(
        "{}: agree on {good} of {files} pseudo-random files ({stopped} of them stop; {bytes} bytes in all)",
        names.join(", ")
    );
    timed_agree == timed.len() && good == files
}

/// Frames of file, room and answer, each number as 8 bytes, lowest first.
fn answers(lister: &Lister, count: usize, seed: u64) -> io::Result<()> {
    let mut out = BufWriter::new(io::stdout().lock());
    let mut random = Random(seed);
    for _ in 0..count {
        let (file, room) = random_file(&mut random, 3_000);
        let Answer { ending, listing, stop_line, rest_untouched } = answer(lister, &file, room);
        let numbers = [
            file.len() as u64,
            room as u64,
            ending.length,
            ending.refusal,
            ending.offset,
            ending.inner,
            ending.position,
            rest_untouched.into(),
            stop_line.len() as u64,
        ];
        for number in numbers {
            out.write_all(&number.to_le_bytes())?;
        }
        out.write_all(&file)?;
        out.write_all(&listing)?;
        out.write_all(&stop_line)?;
    }
    out.flush()
}

fn main() -> ExitCode {
    let words: Vec<String> = env::args().skip(1).collect();
    let words: Vec<&str> = words.iter().map(String::as_str).collect();
    let done = match words[..] {
        [] => {
            let agreed = compare();
            if agreed {
                timing::report();
            }
            agreed
        }
        ["answers", who, count, seed] => {
            let lister = LISTERS.iter().find(|lister| lister.name == who);
            match (lister, count.parse(), seed.parse()) {
                (Some(lister), Ok(count), Ok(seed)) => answers(lister, count, seed).is_ok(),
                _ => false,
            }
        }
        _ => false,
    };
    if done { ExitCode::SUCCESS } else { ExitCode::FAILURE }
}
