//! Holds the two judges against each other on generated logs of both versions:
//! half of them of the mix as it comes, half damaged.
//!
//! `compare SEED COUNT`

use claysaucer_bench::{Comparison, Damage, Generator};
use std::process::ExitCode;

/// The seed and the count that the arguments give.
fn arguments() -> Option<(u64, u64)> {
    let mut arguments = std::env::args().skip(1);
    let seed = arguments.next()?.parse().ok()?;
    let count = arguments.next()?.parse().ok()?;
    arguments.next().is_none().then_some((seed, count))
}

fn main() -> ExitCode {
    let Some((seed, count)) = arguments() else {
        eprintln!("usage: compare SEED COUNT");
        return ExitCode::FAILURE;
    };
    let mut generator = Generator::of_both(seed);
    let mut damages = Damage::ALL.into_iter().cycle();
    let mut comparison = Comparison::new();
    for i in 0..count {
        let log = match i % 2 {
            0 => generator.next_log(),
            _ => generator.damaged(damages.next().expect("a cycle has no end")),
        };
        comparison.add(&log);
    }
    print!("{comparison}");
    match comparison.differences {
        0 => ExitCode::SUCCESS,
        _ => ExitCode::FAILURE,
    }
}
