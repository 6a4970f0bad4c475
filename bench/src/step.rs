//! One choice, answered by the table "When the judge says no".

use crate::choice::Choice;
use crate::malformed::malformed;
use crate::memory::Origin;
use crate::number::{Refusal, TAKEN};
use crate::state::State;
use crate::{collector, mutator};

/// Answers a choice on any state, also a malformed one: 0 and the state the
/// step makes, or the refusal's number and "the same state".
pub fn step(state: &State, choice: Choice) -> (u8, State) {
    let mut after = state.clone();
    if malformed(state) {
        return (Refusal::Malformed.number(), after);
    }
    let number = apply(&mut after, choice);
    (number, after)
}

/// The same in place, for a state known to be well formed. A refused choice
/// leaves the state as it was.
pub fn apply(state: &mut State, choice: Choice) -> u8 {
    number(attempt(state, choice))
}

/// 0 if taken, else the refusal's number.
pub(crate) fn number(attempt: Attempt) -> u8 {
    attempt.map_or_else(Refusal::number, |_| TAKEN)
}

/// Of a choice that is taken, where the value it read came from, `None` if it
/// reads nothing; else why it is refused.
pub type Attempt = Result<Option<Origin>, Refusal>;

/// The same as `apply`, also telling of the read. "Checks run in number order":
/// 2, 3, then those of the step itself.
pub fn attempt(state: &mut State, choice: Choice) -> Attempt {
    if choice.process > state.m {
        return Err(Refusal::NoProcess);
    }
    match (choice.kind, choice.process) {
        (0, 0) => collector::own_step(state, choice),
        (0, _) => mutator::own_step(state, choice),
        (1, p) => {
            choice.bare()?;
            state.commit(p)?;
            Ok(None)
        }
        _ => Err(Refusal::NoKind),
    }
}
