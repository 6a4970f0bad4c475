//! "The log": a header, then records of 8 bytes.

use crate::choice::Choice;
use crate::header::{parse_header, Fault};
use crate::memory::Origin;
use crate::number::{
    READ_NOTHING, STOP_ENDED, STOP_FEW_LEFT, STOP_NOT_ADMITTED, STOP_WRONG_CHECK, VERDICT_MALFORMED,
};
use crate::state::State;
use crate::step::{attempt, number, Attempt};
use crate::verdict::verdict;

/// "A log is at most 65,536 bytes, else stop 12."
pub const LOG_LIMIT: usize = 65_536;
/// "Records of 8 bytes".
pub const RECORD_LENGTH: usize = 8;

/// What the judge says of a log.
#[derive(Clone, Copy, Debug, PartialEq, Eq)]
pub struct Outcome {
    /// "The count is of the records taken before the stop".
    pub steps: u32,
    pub stop: u8,
    /// "the verdict is that of the state then, 4 on stop 12".
    pub verdict: u8,
    /// R-6 of document 02: where the last value read by a record taken came
    /// from, "0 for memory, the place plus 1 for the own buffer, 255 if nothing
    /// was read".
    pub read: u8,
}

/// The line the program writes. R-6: "The program's line stays."
pub fn line(outcome: Outcome) -> String {
    let Outcome {
        steps,
        stop,
        verdict,
        ..
    } = outcome;
    format!("steps {steps} stop {stop} verdict {verdict}\n")
}

impl Choice {
    /// The record's bytes, with "a 16-bit check equal to the sum of those six
    /// plus 1".
    pub fn record(self) -> [u8; RECORD_LENGTH] {
        let [low, high] = self.check().to_le_bytes();
        let [process, kind, operation, x, f, y] = self.bytes();
        [process, kind, operation, x, f, y, low, high]
    }

    fn bytes(self) -> [u8; 6] {
        [
            self.process,
            self.kind,
            self.operation,
            self.x,
            self.f,
            self.y,
        ]
    }

    fn check(self) -> u16 {
        self.bytes().into_iter().map(u16::from).sum::<u16>() + 1
    }

    /// The choice of a record, `None` if the check is wrong.
    fn from_record(record: [u8; RECORD_LENGTH]) -> Option<Choice> {
        let [process, kind, operation, x, f, y, low, high] = record;
        let choice = Choice {
            process,
            kind,
            operation,
            x,
            f,
            y,
        };
        (choice.check() == u16::from_le_bytes([low, high])).then_some(choice)
    }
}

/// Runs a log. A state reached from an opening is well formed, so no record
/// is tested for that, and the one state is changed in place.
pub fn judge(log: &[u8]) -> Outcome {
    run(log, attempt).0
}

/// Runs a log and shows each record that has a right check to the observer:
/// state before, choice, number, state after. Also hands back the final
/// state, or the header's fault.
pub fn judge_observed(
    log: &[u8],
    mut observer: impl FnMut(&State, Choice, u8, &State),
) -> (Outcome, Result<State, Fault>) {
    run(log, |state, choice| {
        let before = state.clone();
        let answer = attempt(state, choice);
        observer(&before, choice, number(answer), state);
        answer
    })
}

/// The log's opening and its records, if the header keeps the rule.
fn open(log: &[u8]) -> Result<(State, &[u8]), Fault> {
    if log.len() > LOG_LIMIT {
        return Err(Fault::LogTooLong);
    }
    parse_header(log)
}

/// Runs a log with the given way of taking a step.
fn run(
    log: &[u8],
    take: impl FnMut(&mut State, Choice) -> Attempt,
) -> (Outcome, Result<State, Fault>) {
    match open(log) {
        Err(fault) => {
            let outcome = Outcome {
                steps: 0,
                stop: STOP_NOT_ADMITTED,
                verdict: VERDICT_MALFORMED,
                read: READ_NOTHING,
            };
            (outcome, Err(fault))
        }
        Ok((mut state, records)) => {
            let (taken, stop) = run_records(&mut state, records, take);
            let (verdict, _) = verdict(&state);
            let outcome = Outcome {
                steps: taken.steps,
                stop,
                verdict,
                read: taken.read.map_or(READ_NOTHING, Origin::number),
            };
            (outcome, Ok(state))
        }
    }
}

/// The records taken: how many, and where the last value they read came from.
#[derive(Default)]
struct Taken {
    steps: u32,
    read: Option<Origin>,
}

/// Takes the records in turn, and says what stopped them.
fn run_records(
    state: &mut State,
    mut records: &[u8],
    mut take: impl FnMut(&mut State, Choice) -> Attempt,
) -> (Taken, u8) {
    let mut taken = Taken::default();
    while let Some((record, rest)) = records.split_first_chunk() {
        let Some(choice) = Choice::from_record(*record) else {
            return (taken, STOP_WRONG_CHECK);
        };
        match take(state, choice) {
            Err(refusal) => return (taken, refusal.number()),
            Ok(read) => taken.read = read.or(taken.read),
        }
        taken.steps += 1;
        records = rest;
    }
    // "Fewer than 8 bytes left: stop 14. None left: stop 0."
    let stop = if records.is_empty() {
        STOP_ENDED
    } else {
        STOP_FEW_LEFT
    };
    (taken, stop)
}
