//! Times, printed as the tables of docs/PERFORMANCE.md.

use std::hint::black_box;
use std::time::{Duration, Instant};

use crate::inputs::{ENOUGH_ROOM, dense_site, long_day, most_refused, quiet_day, refusals, sparse_site};
use crate::{LISTERS, Lister};

/// A batch of calls is at least this long, so that the clock's grain does not matter.
const BATCH: Duration = Duration::from_millis(3);
const BATCHES: usize = 25;

/// Times of one call by lister, each from the best of its batches: what else the machine does only adds to a time.
/// The listers take turns, so that a change of the machine's pace falls on all of them. One output list serves all
/// calls and is not cleared between them.
fn times(file: &[u8]) -> Vec<Duration> {
    let mut out = vec![0; ENOUGH_ROOM];
    let mut batch = |lister: &Lister, calls: u32| {
        let begin = Instant::now();
        for _ in 0..calls {
            black_box((lister.list)(black_box(file), black_box(&mut out)));
        }
        begin.elapsed()
    };
    let calls: Vec<u32> = LISTERS
        .iter()
        .map(|lister| {
            let mut calls = 1;
            while batch(lister, calls) < BATCH {
                calls *= 2;
            }
            calls
        })
        .collect();
    let mut best = vec![Duration::MAX; LISTERS.len()];
    for _ in 0..BATCHES {
        for (at, lister) in LISTERS.iter().enumerate() {
            best[at] = best[at].min(batch(lister, calls[at]) / calls[at]);
        }
    }
    best
}

fn micros(time: Duration) -> String {
    let micros = time.as_secs_f64() * 1e6;
    if micros < 100.0 { format!("{micros:.1} µs") } else { format!("{micros:.0} µs") }
}

/// The cells of a row: the library's time, the plain program's, their ratio, and the plain program's where it skips
/// quiet slots.
fn cells(file: &[u8]) -> String {
    let times = times(file);
    let (library, ratio) = match times.get(2) {
        Some(&library) => (micros(library), format!("{:.2}", library.as_secs_f64() / times[0].as_secs_f64())),
        None => ("–".into(), "–".into()),
    };
    format!("{library} | {} | {ratio} | {}", micros(times[0]), micros(times[1]))
}

const COLUMNS: &str = "library | plain Rust | ratio | plain Rust, quiet slots skipped |";

fn table(first: &str, rows: &[(String, Vec<u8>)]) {
    println!("\n| {first} | file | {COLUMNS}\n|---|---|---|---|---|---|");
    for (name, file) in rows {
        println!("| {name} | {} bytes | {} |", file.len(), cells(file));
    }
}

fn jobs() -> Vec<(String, Vec<u8>)> {
    let refused = most_refused();
    vec![
        ("a long day: 32 queries, 300,800 slots".into(), long_day(1_600)),
        ("planning 64 nodes, dense survey, long branch".into(), dense_site(64)),
        ("planning 64 nodes, sparse survey, seven branches".into(), sparse_site(64)),
        (format!("admission: 31 queries, {refused} refused by 23"), refusals(31, refused)),
    ]
}

fn by_slots() -> Vec<(String, Vec<u8>)> {
    [200, 400, 800, 1_600].map(|slots| (format!("{}", 188 * u32::from(slots)), long_day(slots))).into()
}

fn by_quiet_slots() -> Vec<(String, Vec<u8>)> {
    [50_000, 100_000, 200_000, 400_000].map(|slots| (slots.to_string(), quiet_day(32, slots))).into()
}

fn by_queries_in_slots() -> Vec<(String, Vec<u8>)> {
    [1, 2, 4, 8, 16, 32].map(|queries| (queries.to_string(), quiet_day(queries, 200_000))).into()
}

fn by_queries() -> Vec<(String, Vec<u8>)> {
    [1, 2, 4, 8, 16, 31].map(|queries| (queries.to_string(), refusals(queries, 1_000))).into()
}

fn by_nodes() -> Vec<(String, Vec<u8>)> {
    [2, 4, 8, 16, 32, 64].map(|nodes| (nodes.to_string(), dense_site(nodes))).into()
}

pub fn all_inputs() -> Vec<Vec<u8>> {
    let tables = [jobs(), by_slots(), by_quiet_slots(), by_queries_in_slots(), by_queries(), by_nodes()];
    tables.into_iter().flatten().map(|(_, file)| file).collect()
}

pub fn report() {
    let millis = BATCH.as_millis();
    println!("\nTime of one call, from the best of {BATCHES} interleaved batches of about {millis} ms or more.");
    println!("The output list is not cleared between calls.");
    table("job", &jobs());
    println!("\nGrowth:");
    table("slots, with the same 3,008 rounds of 32 queries", &by_slots());
    table("slots in which no round waits, 32 queries", &by_quiet_slots());
    table("queries in the table, over 200,000 slots in which no round waits", &by_queries_in_slots());
    table("queries in the table, at 1,000 bookings refused by 23", &by_queries());
    table("nodes, planning alone, dense survey", &by_nodes());
}
