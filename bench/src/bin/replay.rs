//! Times the two judges on the same logs, in turns: the whole call each time,
//! from the log's bytes to the four numbers.
//!
//! `replay [SEED] [REPETITIONS]`

use claysaucer_bench::proved::{assert_agreed, judges, Named};
use claysaucer_bench::timing::{in_turns, micros};
use claysaucer_bench::{judge, Coverage, Event, Generator, Version, RECORD_LENGTH};
use std::process::ExitCode;

const SEED: u64 = 1;
const REPETITIONS: usize = 200;
/// The version, N and M of each log.
const SIZES: [Size; 4] = [
    (Version::One, 2, 4),
    (Version::One, 8, 3),
    (Version::One, 32, 4),
    (Version::Two, 64, 4),
];
type Size = (Version, u8, u8);
/// The records of each log, and the shorter ones it begins with.
const RECORDS: [usize; 4] = [1_000, 2_000, 4_000, 8_000];
/// What a log must have.
const EVENTS: [Event; 4] = [
    Event::Collected,
    Event::MarkRaceWon,
    Event::MarkRaceLost,
    Event::BufferFull,
];

/// A log of all the records that has each of the events, and how often it has
/// them.
fn busy_log(generator: &mut Generator, size: Size, records: usize) -> (Vec<u8>, String) {
    let (version, n, m) = size;
    loop {
        let log = generator.log_over(version, n, m, records);
        if let Some(told) = events_of(&log) {
            return (log, told);
        }
    }
}

/// How often the log has each event, if it has them all.
fn events_of(log: &[u8]) -> Option<String> {
    let mut coverage = Coverage::new();
    coverage.add(log);
    let told = EVENTS.map(|event| match coverage.times(event) {
        0 => None,
        times => Some(format!("{} {times}", event.name())),
    });
    let told: Option<Vec<_>> = told.into_iter().collect();
    told.map(|told| told.join(", "))
}

/// The columns: the times of each judge, and of each its ratio to the Rust
/// judge, which is the last.
fn head(judges: &[Named]) {
    print!("| records |");
    for (name, _) in judges {
        print!(" {name}, median us | least | ns a record |");
    }
    for (name, _) in &judges[..judges.len() - 1] {
        print!(" {name} to Rust, of medians | of least |");
    }
    println!("\n|{}", "---:|".repeat(5 * judges.len() - 1));
}

/// One row of the table: a log's first records.
fn row(judges: &[Named], log: &[u8], records: usize, repetitions: usize) {
    let times = in_turns(judges, log, repetitions, 1);
    let times: Vec<_> = times
        .iter()
        .map(|own| (micros(own.median()), micros(own.least())))
        .collect();
    print!("| {records} |");
    for (median, least) in &times {
        let each = median * 1e3 / records as f64;
        print!(" {median:.1} | {least:.1} | {each:.1} |");
    }
    let (rust_median, rust_least) = times[times.len() - 1];
    for (median, least) in &times[..times.len() - 1] {
        print!(" {:.2} | {:.2} |", median / rust_median, least / rust_least);
    }
    println!();
}

/// The table of one size.
fn replay(generator: &mut Generator, size: Size, repetitions: usize) {
    let (version, n, m) = size;
    let judges = judges(version);
    let longest = RECORDS[RECORDS.len() - 1];
    let (log, events) = busy_log(generator, size, longest);
    let steps = judge(&log).steps;
    assert_eq!(steps as usize, longest, "every record is taken");
    assert_agreed(&judges, &log);
    let version = version.number();
    println!("\nN = {n}, M = {m}, version {version}. In {longest} records: {events}.\n");
    head(&judges);
    let header = log.len() - longest * RECORD_LENGTH;
    for records in RECORDS {
        let log = &log[..header + records * RECORD_LENGTH];
        row(&judges, log, records, repetitions);
    }
}

fn main() -> ExitCode {
    let mut arguments = std::env::args().skip(1);
    let seed = arguments.next().map_or(Ok(SEED), |text| text.parse());
    let repetitions = arguments
        .next()
        .map_or(Ok(REPETITIONS), |text| text.parse());
    let (Ok(seed), Ok(repetitions @ 1..)) = (seed, repetitions) else {
        eprintln!("usage: replay [SEED] [REPETITIONS]");
        return ExitCode::FAILURE;
    };
    let mut generator = Generator::new(seed);
    for size in SIZES {
        replay(&mut generator, size, repetitions);
    }
    ExitCode::SUCCESS
}
