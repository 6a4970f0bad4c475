//! The two judges held against each other, log by log.

use crate::coverage::{READS, STOPS};
use crate::log::{judge, line, Outcome};
use crate::proved;
use std::collections::BTreeMap;
use std::fmt;

/// A log on which the two judges differ.
#[derive(Clone, Debug, PartialEq, Eq)]
pub struct Difference {
    pub log: Vec<u8>,
    pub independent: Outcome,
    pub proved: Outcome,
}

impl fmt::Display for Difference {
    /// The whole log as hexadecimal, and both answers.
    fn fmt(&self, f: &mut fmt::Formatter<'_>) -> fmt::Result {
        write!(f, "log, {} bytes: ", self.log.len())?;
        for byte in &self.log {
            write!(f, "{byte:02X}")?;
        }
        write!(f, "\nindependent: {}", four_numbers(self.independent))?;
        write!(f, "\nproved: {}", four_numbers(self.proved))
    }
}

/// The line the program writes, and the fourth number.
fn four_numbers(outcome: Outcome) -> String {
    format!("{} read {}", line(outcome).trim_end(), outcome.read)
}

/// What a comparison has seen.
#[derive(Clone, Debug, Default)]
pub struct Comparison {
    pub logs: u64,
    /// Records taken, by the proved judge.
    pub steps: u64,
    /// How often the proved judge gave each stop.
    pub stops: BTreeMap<u8, u64>,
    /// The same of each last read.
    pub reads: BTreeMap<u8, u64>,
    pub differences: u64,
    pub first: Option<Difference>,
}

impl Comparison {
    pub fn new() -> Comparison {
        Comparison::default()
    }

    /// Runs a log on both judges.
    pub fn add(&mut self, log: &[u8]) {
        self.note(log, judge(log), proved::judge(log));
    }

    fn note(&mut self, log: &[u8], independent: Outcome, proved: Outcome) {
        self.logs += 1;
        self.steps += u64::from(proved.steps);
        *self.stops.entry(proved.stop).or_default() += 1;
        *self.reads.entry(proved.read).or_default() += 1;
        if independent == proved {
            return;
        }
        self.differences += 1;
        self.first.get_or_insert_with(|| Difference {
            log: log.to_vec(),
            independent,
            proved,
        });
    }

    /// The stops that a log can reach and that none of these has.
    pub fn missing_stops(&self) -> Vec<u8> {
        missing(&STOPS, &self.stops)
    }

    /// The same of last reads.
    pub fn missing_reads(&self) -> Vec<u8> {
        missing(&READS, &self.reads)
    }
}

/// The numbers that were never given.
fn missing(numbers: &[u8], given: &BTreeMap<u8, u64>) -> Vec<u8> {
    let missing = numbers.iter().filter(|number| !given.contains_key(number));
    missing.copied().collect()
}

impl fmt::Display for Comparison {
    fn fmt(&self, f: &mut fmt::Formatter<'_>) -> fmt::Result {
        let Comparison {
            logs,
            steps,
            differences,
            ..
        } = self;
        writeln!(
            f,
            "{logs} logs, {steps} records taken, {differences} differences"
        )?;
        for (stop, times) in &self.stops {
            writeln!(f, "stop {stop}: {times}")?;
        }
        for (read, times) in &self.reads {
            writeln!(f, "read {read}: {times}")?;
        }
        match &self.first {
            Some(first) => writeln!(f, "first difference:\n{first}"),
            None => Ok(()),
        }
    }
}

#[cfg(test)]
mod tests {
    use super::*;

    const SOUND: Outcome = Outcome {
        steps: 3,
        stop: 0,
        verdict: 0,
        read: 255,
    };

    #[test]
    fn equal_answers_are_no_difference() {
        let mut comparison = Comparison::new();
        comparison.note(&[1], SOUND, SOUND);
        assert_eq!((comparison.logs, comparison.differences), (1, 0));
        assert_eq!(comparison.first, None);
    }

    /// Each of the four numbers counts, and the first difference is kept.
    #[test]
    fn every_number_is_compared() {
        let mut comparison = Comparison::new();
        let others = [
            Outcome { steps: 4, ..SOUND },
            Outcome { stop: 14, ..SOUND },
            Outcome {
                verdict: 1,
                ..SOUND
            },
            Outcome { read: 0, ..SOUND },
        ];
        for (log, other) in [[0xAB, 1], [2, 2], [3, 3], [4, 4]].iter().zip(others) {
            comparison.note(log, SOUND, other);
        }
        assert_eq!(comparison.differences, 4);
        let told = comparison.to_string();
        assert!(told.ends_with(
            "first difference:\nlog, 2 bytes: AB01\n\
             independent: steps 3 stop 0 verdict 0 read 255\n\
             proved: steps 4 stop 0 verdict 0 read 255\n"
        ));
    }

    /// Each number is missing until an outcome gives it.
    fn missing_until_given(
        numbers: &[u8],
        outcome: fn(u8) -> Outcome,
        missing: fn(&Comparison) -> Vec<u8>,
    ) {
        let mut comparison = Comparison::new();
        for &number in numbers {
            assert!(missing(&comparison).contains(&number));
            comparison.note(&[], outcome(number), outcome(number));
        }
        assert_eq!(missing(&comparison), Vec::<u8>::new());
    }

    #[test]
    fn a_stop_that_is_not_reached_is_missing() {
        let outcome = |stop| Outcome { stop, ..SOUND };
        missing_until_given(&STOPS, outcome, Comparison::missing_stops);
    }

    #[test]
    fn a_last_read_that_is_not_given_is_missing() {
        let outcome = |read| Outcome { read, ..SOUND };
        missing_until_given(&READS, outcome, Comparison::missing_reads);
    }
}
