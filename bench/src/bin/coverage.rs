//! Prints the coverage table of the generator as Markdown, of so many logs of
//! each version.
//!
//! `coverage [SEED] [LOGS]`

use claysaucer_bench::Coverage;
use std::process::ExitCode;

const SEED: u64 = 1;
const LOGS: u64 = 20_000;

fn main() -> ExitCode {
    let mut arguments = std::env::args().skip(1);
    let mut number = |default| match arguments.next() {
        Some(text) => text.parse().ok(),
        None => Some(default),
    };
    let (Some(seed), Some(logs)) = (number(SEED), number(LOGS)) else {
        eprintln!("usage: coverage [SEED] [LOGS]");
        return ExitCode::FAILURE;
    };
    let coverage = Coverage::of_generated(seed, logs);
    print!("{}", coverage.markdown());
    for name in coverage.missing() {
        eprintln!("missing: {name}");
    }
    for log in &coverage.alarms {
        eprintln!("against the theorem: {log:02X?}");
    }
    match coverage.alarms.is_empty() {
        true => ExitCode::SUCCESS,
        false => ExitCode::FAILURE,
    }
}
