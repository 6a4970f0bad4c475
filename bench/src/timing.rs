//! What the benchmarks share: judges timed in turns on the same log.

use crate::log::Outcome;
use std::hint::black_box;
use std::time::{Duration, Instant};

/// A judge: from a log's bytes to the four numbers.
pub type Judge = fn(&[u8]) -> Outcome;

/// The times of one judge, each of so many calls.
pub struct Times {
    times: Vec<Duration>,
    calls: u32,
}

impl Times {
    pub fn median(&self) -> Duration {
        let mut sorted = self.times.clone();
        sorted.sort();
        sorted[sorted.len() / 2] / self.calls
    }

    pub fn least(&self) -> Duration {
        self.times.iter().copied().min().unwrap_or_default() / self.calls
    }
}

/// Each judge on one log, one after the other, so many times; a time is that
/// of so many calls.
pub fn in_turns(
    judges: &[(&str, Judge)],
    log: &[u8],
    repetitions: usize,
    calls: u32,
) -> Vec<Times> {
    let none = |_: &_| Times {
        times: Vec::new(),
        calls,
    };
    let mut all: Vec<Times> = judges.iter().map(none).collect();
    for _ in 0..repetitions {
        for ((_, judge), own) in judges.iter().zip(&mut all) {
            own.times.push(timed(*judge, log, calls));
        }
    }
    all
}

/// The time of so many calls.
fn timed(judge: Judge, log: &[u8], calls: u32) -> Duration {
    let start = Instant::now();
    for _ in 0..calls {
        black_box(judge(black_box(log)));
    }
    start.elapsed()
}

pub fn micros(time: Duration) -> f64 {
    time.as_secs_f64() * 1e6
}
