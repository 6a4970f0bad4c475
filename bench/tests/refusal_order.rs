//! "Checks run in number order", and who is never blocked.

mod common;

use claysaucer_bench::number::*;
use claysaucer_bench::{
    field_bit, step, Choice, CollectorPlace, MarkStage, MutatorPlace, State, Store,
};
use common::{
    about_to_write, collector_marks, mutator_marks, next_choice, number, opening, scanning,
    FREE_CELL,
};

const FENCE: u8 = 4;
const ANSWER: u8 = 5;

fn operation(operation: u8, x: u8, f: u8, y: u8) -> Choice {
    Choice::operation(1, operation, x, f, y)
}

/// The state with the lock held by a process.
fn locked(mut state: State, holder: u8) -> State {
    state.lock = Some(holder);
    state
}

/// The state with so many stores pending for process p.
fn pending(mut state: State, p: u8, count: usize) -> State {
    for _ in 0..count {
        state.own_mut(p).buffer.push_back(Store::MarkSense(true));
    }
    state
}

#[test]
fn malformed_comes_first() {
    let mut state = opening();
    state.n = 0;
    let choice = Choice {
        process: 9,
        kind: 9,
        ..operation(9, 9, 9, 9)
    };
    assert_eq!(number(&state, choice), MALFORMED);
}

#[test]
fn process_before_kind_before_arguments() {
    let state = opening();
    let choice = Choice {
        process: 3,
        kind: 2,
        ..operation(9, 9, 9, 9)
    };
    assert_eq!(number(&state, choice), NO_PROCESS);
    assert_eq!(
        number(
            &state,
            Choice {
                process: 255,
                ..choice
            }
        ),
        NO_PROCESS
    );
    for p in 0..=2 {
        let choice = Choice {
            process: p,
            ..choice
        };
        assert_eq!(number(&state, choice), NO_KIND);
    }
}

#[test]
fn arguments_before_an_empty_buffer() {
    let state = opening();
    for p in 0..=2 {
        assert_eq!(number(&state, Choice::commit(p)), NONE_PENDING);
        let arguments = [(1, 0, 0, 0), (0, 1, 0, 0), (0, 0, 1, 0), (0, 0, 0, 1)];
        for (operation, x, f, y) in arguments {
            let choice = Choice {
                kind: 1,
                ..Choice::operation(p, operation, x, f, y)
            };
            assert_eq!(number(&state, choice), NOT_OFFERED);
        }
    }
}

#[test]
fn arguments_before_the_flag() {
    assert_eq!(number(&opening(), operation(ANSWER, 1, 0, 0)), NOT_OFFERED);
    assert_eq!(number(&opening(), operation(ANSWER, 0, 0, 0)), FLAG_DOWN);
}

#[test]
fn arguments_before_blocked() {
    let state = locked(opening(), 2);
    assert_eq!(number(&state, operation(0, 0, 0, 0)), NOT_OFFERED);
    assert_eq!(number(&state, operation(0, 4, 0, 0)), NOT_OFFERED);
    assert_eq!(number(&state, operation(2, FREE_CELL, 0, 0)), NOT_OFFERED);
    assert_eq!(number(&state, operation(3, 1, 2, 0)), NOT_OFFERED);
    assert_eq!(number(&state, operation(3, 1, 0, 0)), BLOCKED);
    let state = locked(scanning(CollectorPlace::Row7NextRead, field_bit(1)), 2);
    assert_eq!(number(&state, Choice::field_read(0, 0)), NOT_OFFERED);
    assert_eq!(number(&state, Choice::field_read(0, 1)), BLOCKED);
}

#[test]
fn arguments_before_pending_and_full() {
    let state = pending(opening(), 1, 1);
    assert_eq!(number(&state, operation(FENCE, 1, 0, 0)), NOT_OFFERED);
    assert_eq!(number(&state, operation(FENCE, 0, 0, 0)), PENDING);
    let state = pending(about_to_write(), 1, 8);
    assert_eq!(number(&state, Choice::naming(1, 1)), NOT_OFFERED);
    assert_eq!(number(&state, Choice::own(1)), FULL);
}

#[test]
fn an_empty_buffer_before_blocked() {
    let state = locked(opening(), 2);
    assert_eq!(number(&state, Choice::commit(1)), NONE_PENDING);
    assert_eq!(number(&pending(state, 1, 1), Choice::commit(1)), BLOCKED);
}

#[test]
fn blocked_before_occupied() {
    assert_eq!(number(&opening(), operation(0, 1, 0, 0)), OCCUPIED);
    let state = locked(opening(), 2);
    assert_eq!(number(&state, operation(0, 1, 0, 0)), BLOCKED);
    assert_eq!(number(&state, operation(0, FREE_CELL, 0, 0)), BLOCKED);
}

#[test]
fn blocked_before_a_free_cell() {
    for stage in [MarkStage::Look, MarkStage::LookAgain] {
        for state in mutator_marks(FREE_CELL, stage) {
            let state = locked(state, 2);
            assert_eq!(number(&state, next_choice(&state, 1)), BLOCKED);
        }
        for state in collector_marks(FREE_CELL, stage) {
            assert_eq!(number(&locked(state, 2), Choice::own(0)), BLOCKED);
        }
    }
    let mut state = locked(opening(), 2);
    state.mutators[0].roots |= 1 << (FREE_CELL - 1);
    assert_eq!(number(&state, operation(2, FREE_CELL, 0, 0)), BLOCKED);
    let store = Store::Mark {
        cell: FREE_CELL,
        mark: true,
    };
    state.mutators[0].own.buffer.push_back(store);
    assert_eq!(number(&state, Choice::commit(1)), BLOCKED);
}

#[test]
fn a_lock_step_needs_the_lock_free_even_of_oneself() {
    for holder in 0..=2 {
        for state in mutator_marks(1, MarkStage::Lock) {
            assert_eq!(number(&locked(state, holder), Choice::own(1)), BLOCKED);
        }
        for state in collector_marks(1, MarkStage::Lock) {
            assert_eq!(number(&locked(state, holder), Choice::own(0)), BLOCKED);
        }
    }
}

/// Each other read, commit and free while another holds the lock.
#[test]
fn reads_and_frees_are_blocked() {
    use CollectorPlace::{Row10Free, Row10Look, Row2Read, Row7FirstRead, Row7NextRead};
    for place in [Row2Read, Row7FirstRead, Row7NextRead, Row10Look, Row10Free] {
        let mut state = locked(opening(), 1);
        state.collector.place = place;
        state.collector.own.list = 0b1;
        state.collector.scanned = u8::from(place.in_scan());
        state.collector.unscanned = u8::from(place.keeps_fields());
        let sweeps = matches!(place, Row10Free | Row10Look);
        state.collector.unswept = if sweeps { 0b101 } else { 0 };
        state.collector.doomed = u8::from(place == Row10Free);
        let choices = match place {
            Row7FirstRead => vec![Choice::field_read(1, 0), Choice::field_read(1, 1)],
            Row10Look => vec![Choice::naming(0, 1), Choice::naming(0, FREE_CELL)],
            _ => vec![Choice::own(0)],
        };
        for choice in choices {
            assert_eq!(number(&state, choice), BLOCKED, "{place:?}");
            state.lock = Some(0);
            assert_eq!(number(&state, choice), TAKEN, "{place:?}");
            state.lock = Some(1);
        }
    }
    for stage in [MarkStage::ReadSense, MarkStage::ReadPhase] {
        for state in mutator_marks(1, stage) {
            assert_eq!(number(&locked(state, 2), Choice::own(1)), BLOCKED);
        }
        for state in collector_marks(1, stage) {
            assert_eq!(number(&locked(state, 2), Choice::own(0)), BLOCKED);
        }
    }
}

#[test]
fn writes_fences_and_unlocks_are_never_blocked() {
    let write = locked(about_to_write(), 2);
    assert_eq!(number(&write, Choice::own(1)), TAKEN);
    assert_eq!(number(&pending(write, 1, 8), Choice::own(1)), FULL);
    let fence = locked(opening(), 2);
    assert_eq!(number(&fence, operation(FENCE, 0, 0, 0)), TAKEN);
    let fence = pending(fence, 1, 1);
    assert_eq!(number(&fence, operation(FENCE, 0, 0, 0)), PENDING);
    for unlock in mutator_marks(1, MarkStage::Unlock) {
        let unlock = locked(unlock, 2);
        let (taken, after) = step(&unlock, Choice::own(1));
        assert_eq!((taken, after.lock), (TAKEN, None));
        let unlock = pending(unlock, 1, 1);
        assert_eq!(number(&unlock, Choice::own(1)), PENDING);
    }
}

#[test]
fn a_mark_needs_room_for_its_write() {
    for state in mutator_marks(1, MarkStage::Write) {
        assert_eq!(number(&pending(state.clone(), 1, 7), Choice::own(1)), TAKEN);
        assert_eq!(number(&pending(state, 1, 8), Choice::own(1)), FULL);
    }
    for state in collector_marks(1, MarkStage::Write) {
        assert_eq!(number(&pending(state, 0, 8), Choice::own(0)), FULL);
    }
}

#[test]
fn list_and_handshake_steps_are_never_blocked() {
    let mut state = locked(opening(), 2);
    assert_eq!(number(&state, operation(1, 1, 0, 0)), TAKEN);
    state.mutators[0].flag = true;
    assert_eq!(number(&state, operation(ANSWER, 0, 0, 0)), TAKEN);
    for place in [
        MutatorPlace::NoOpFinish,
        MutatorPlace::RootsFinish,
        MutatorPlace::WorkFinish,
    ] {
        state.mutators[0].place = place;
        assert_eq!(number(&state, Choice::own(1)), TAKEN);
    }
}

#[test]
fn room_is_usable_again_after_each_commit() {
    let state = pending(about_to_write(), 1, 8);
    let (taken, state) = step(&state, Choice::commit(1));
    assert_eq!(taken, TAKEN);
    assert_eq!(number(&state, Choice::own(1)), TAKEN);
}
