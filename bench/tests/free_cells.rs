//! Refusal 11: "a look, field read, or commit of a mark or field on a free
//! cell (the sweep's look excepted)".

mod common;

use claysaucer_bench::number::{FREE, TAKEN};
use claysaucer_bench::{field_bit, step, Choice, CollectorPlace, MarkStage, Phase, State, Store};
use common::{collector_marks, mutator_marks, next_choice, number, opening, scanning, FREE_CELL};

const FREE_BIT: u64 = 1 << (FREE_CELL - 1);

#[test]
fn the_first_look() {
    for state in mutator_marks(FREE_CELL, MarkStage::Look) {
        assert_eq!(number(&state, next_choice(&state, 1)), FREE);
    }
    for state in collector_marks(FREE_CELL, MarkStage::Look) {
        assert_eq!(number(&state, Choice::own(0)), FREE);
    }
}

#[test]
fn the_second_look() {
    for mut state in mutator_marks(FREE_CELL, MarkStage::LookAgain) {
        state.lock = Some(1);
        assert_eq!(number(&state, Choice::own(1)), FREE);
    }
    for mut state in collector_marks(FREE_CELL, MarkStage::LookAgain) {
        state.lock = Some(0);
        assert_eq!(number(&state, Choice::own(0)), FREE);
    }
}

#[test]
fn the_other_steps_of_a_mark_do_not_look() {
    use MarkStage::{Lock, ReadPhase, ReadSense, Unlock, Write};
    for stage in [ReadSense, ReadPhase, Lock, Write, Unlock] {
        for state in mutator_marks(FREE_CELL, stage) {
            assert_eq!(number(&state, Choice::own(1)), TAKEN, "{stage:?}");
        }
        for state in collector_marks(FREE_CELL, stage) {
            assert_eq!(number(&state, Choice::own(0)), TAKEN, "{stage:?}");
        }
    }
}

#[test]
fn the_mutators_field_reads() {
    let mut state = opening();
    state.mutators[0].roots |= FREE_BIT;
    for f in 0..=1 {
        for operation in [2, 3] {
            let choice = Choice::operation(1, operation, FREE_CELL, f, 0);
            assert_eq!(number(&state, choice), FREE);
        }
    }
}

#[test]
fn the_collectors_field_reads() {
    let mut state = opening();
    state.collector.place = CollectorPlace::Row7FirstRead;
    state.collector.own.list = FREE_BIT;
    for f in 0..=1 {
        assert_eq!(number(&state, Choice::field_read(FREE_CELL, f)), FREE);
        let mut next = scanning(CollectorPlace::Row7NextRead, field_bit(f));
        next.collector.scanned = FREE_CELL;
        assert_eq!(number(&next, Choice::field_read(0, f)), FREE);
    }
}

#[test]
fn ones_own_pending_store_does_not_help() {
    let mut state = opening();
    state.mutators[0].roots |= FREE_BIT;
    let store = Store::Field {
        cell: FREE_CELL,
        field: 0,
        value: 1,
    };
    state.mutators[0].own.buffer.push_back(store);
    let load = Choice::operation(1, 2, FREE_CELL, 0, 0);
    assert_eq!(number(&state, load), FREE);
}

fn with_store(p: u8, store: Store) -> State {
    let mut state = opening();
    state.own_mut(p).buffer.push_back(store);
    state
}

#[test]
fn commits_of_marks_and_fields() {
    for p in 0..=2 {
        let mark = Store::Mark {
            cell: FREE_CELL,
            mark: true,
        };
        assert_eq!(number(&with_store(p, mark), Choice::commit(p)), FREE);
        let field = Store::Field {
            cell: FREE_CELL,
            field: 1,
            value: 1,
        };
        assert_eq!(number(&with_store(p, field), Choice::commit(p)), FREE);
    }
}

#[test]
fn other_commits_do_not_touch_a_cell() {
    let into_occupied = Store::Field {
        cell: 1,
        field: 1,
        value: FREE_CELL,
    };
    let others = [
        into_occupied,
        Store::MarkSense(false),
        Store::AllocationSense(false),
        Store::Phase(Phase::Sweep),
    ];
    for store in others {
        assert_eq!(number(&with_store(1, store), Choice::commit(1)), TAKEN);
    }
}

#[test]
fn the_sweeps_look_is_excepted() {
    let mut state = opening();
    state.collector.place = CollectorPlace::Row10Look;
    state.collector.unswept = 0b111;
    let (taken, after) = step(&state, Choice::naming(0, FREE_CELL));
    assert_eq!(taken, TAKEN);
    assert_eq!(after.collector.place, CollectorPlace::Row10Look);
    assert_eq!(after.collector.unswept, 0b011);
}

#[test]
fn freeing_a_free_cell_is_taken() {
    let mut state = opening();
    state.collector.place = CollectorPlace::Row10Free;
    state.collector.doomed = FREE_CELL;
    let (taken, after) = step(&state, Choice::own(0));
    assert_eq!(taken, TAKEN);
    assert_eq!(after.cells, state.cells);
    assert_eq!(after.collector.place, CollectorPlace::Row11WriteIdle);
}
