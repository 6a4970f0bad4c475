//! "Verdicts", on states built by hand.

mod common;

use claysaucer_bench::{
    bit, verdict, Cell, HandshakePhase, HandshakeType, MarkStage, MutatorPlace, State, Store,
};
use common::{about_to_write, mutator_marks, opening, FREE_CELL};

/// Cells 1 to 4 with these fields, all occupied and marked, one mutator
/// without roots.
fn heap(fields: [[u8; 2]; 4]) -> State {
    State::opening(&fields.map(Some), &[0])
}

fn free(state: &mut State, r: u8) {
    *state.cell_mut(r) = Cell::default();
}

fn whiten(state: &mut State, r: u8) {
    state.cell_mut(r).mark = !state.mark_sense;
}

/// Mutator 1 in a handshake phase that fits nothing in the opening.
fn break_handshake(state: &mut State, mutator: usize) {
    state.mutators[mutator].phase = HandshakePhase::InitMark;
}

fn field_store(cell: u8, value: u8) -> Store {
    Store::Field {
        cell,
        field: 1,
        value,
    }
}

#[test]
fn an_opening_is_sound() {
    assert_eq!(verdict(&opening()), (0, 0));
}

#[test]
fn loose_by_a_free_root() {
    let mut state = opening();
    state.mutators[1].roots |= 1 << (FREE_CELL - 1);
    assert_eq!(verdict(&state), (1, FREE_CELL));
}

#[test]
fn loose_by_the_target_or_the_value_of_a_pending_store() {
    for p in 0..=2 {
        for (cell, value) in [(FREE_CELL, 0), (FREE_CELL, 1), (1, FREE_CELL)] {
            let mut state = opening();
            state.own_mut(p).buffer.push_back(Store::MarkSense(true));
            state.own_mut(p).buffer.push_back(field_store(cell, value));
            assert_eq!(verdict(&state), (1, FREE_CELL), "process {p}");
        }
    }
}

#[test]
fn loose_by_an_honorary_root() {
    let mut state = about_to_write();
    state.mutators[0].honorary = FREE_CELL;
    assert_eq!(verdict(&state), (1, FREE_CELL));
}

#[test]
fn loose_through_a_chain_of_fields() {
    let mut state = heap([[0, 2], [3, 1], [2, 4], [0, 0]]);
    free(&mut state, 4);
    assert_eq!(verdict(&state), (0, 0));
    state.mutators[0].roots = 1;
    assert_eq!(verdict(&state), (1, 4));
    state.cell_mut(2).fields = [0, 1];
    assert_eq!(verdict(&state), (0, 0));
}

#[test]
fn loose_through_a_chain_from_a_pending_store() {
    let mut state = heap([[2, 0], [0, 3], [0, 0], [0, 0]]);
    free(&mut state, 3);
    state.collector.own.buffer.push_back(field_store(4, 1));
    assert_eq!(verdict(&state), (1, 3));
}

#[test]
fn the_least_loose_cell_is_given() {
    let mut state = heap([[4, 0], [0, 0], [0, 0], [3, 0]]);
    free(&mut state, 2);
    free(&mut state, 3);
    state.mutators[0].roots = 1;
    assert_eq!(verdict(&state), (1, 3));
    state.mutators[0].roots = 0b1011;
    assert_eq!(verdict(&state), (1, 2));
}

#[test]
fn lists_notes_and_pending_marks_hold_nothing() {
    let mut state = opening();
    let mark = Store::Mark {
        cell: FREE_CELL,
        mark: true,
    };
    state.mutators[0].own.buffer.push_back(mark);
    let free_bit = 1 << (FREE_CELL - 1);
    state.mutators[0].own.list = free_bit;
    state.collector.own.list = free_bit;
    state.system.list = free_bit;
    assert_eq!(verdict(&state), (0, 0));
    let mut writing = about_to_write();
    writing.mutators[0].target = FREE_CELL;
    writing.mutators[0].value = FREE_CELL;
    assert_eq!(verdict(&writing), (0, 0));
}

#[test]
fn black_naming_white() {
    for field in 0..2 {
        let mut state = heap([[0, 0]; 4]);
        state.cell_mut(3).fields[field] = 2;
        whiten(&mut state, 2);
        assert_eq!(verdict(&state), (2, 3));
        state.mark_sense ^= true;
        assert_eq!(verdict(&state), (0, 0), "then 2 is black, 3 white");
    }
}

#[test]
fn the_least_black_cell_is_given() {
    let mut state = heap([[0, 0], [4, 0], [0, 4], [0, 0]]);
    whiten(&mut state, 4);
    assert_eq!(verdict(&state), (2, 2));
    whiten(&mut state, 2);
    assert_eq!(verdict(&state), (2, 3));
}

#[test]
fn a_grey_cell_is_not_black() {
    let mut naming = heap([[2, 0], [0, 0], [0, 0], [0, 0]]);
    whiten(&mut naming, 2);
    let lists: [fn(&mut State) -> &mut u64; 3] = [
        |state| &mut state.collector.own.list,
        |state| &mut state.mutators[0].own.list,
        |state| &mut state.system.list,
    ];
    for list in lists {
        let mut state = naming.clone();
        *list(&mut state) = 0b1;
        assert_eq!(verdict(&state), (0, 0));
        *list(&mut state) = 0b10;
        assert_eq!(verdict(&state), (2, 1), "a grey white cell is still white");
    }
}

#[test]
fn a_cell_being_greyed_is_not_black() {
    for mut state in mutator_marks(1, MarkStage::Unlock) {
        state.cell_mut(1).fields = [2, 0];
        whiten(&mut state, 2);
        assert_eq!(verdict(&state), (2, 1), "it lost the race");
        state.mutators[0].own.greying = 1;
        assert_eq!(verdict(&state), (0, 0), "it won");
    }
}

#[test]
fn grey_cells_may_be_white() {
    let mut state = heap([[2, 0], [0, 0], [0, 0], [0, 0]]);
    whiten(&mut state, 1);
    whiten(&mut state, 2);
    state.system.list = 0b1;
    assert_eq!(verdict(&state), (0, 0));
}

#[test]
fn a_free_cell_is_neither_white_nor_black() {
    let mut state = heap([[2, 0], [0, 0], [0, 0], [0, 0]]);
    free(&mut state, 2);
    state.mark_sense = true;
    assert_eq!(verdict(&state), (0, 0));
}

#[test]
fn pending_stores_do_not_colour() {
    let mut state = heap([[2, 0], [0, 0], [0, 0], [0, 0]]);
    whiten(&mut state, 2);
    let mark = Store::Mark {
        cell: 2,
        mark: state.mark_sense,
    };
    state.collector.own.buffer.push_back(mark);
    assert_eq!(verdict(&state), (2, 1));
}

/// The handshake table, line by line: type, in step, system, mutator.
fn table() -> Vec<(HandshakeType, bool, HandshakePhase, HandshakePhase)> {
    use HandshakePhase::{Idle, IdleInit, IdleMarkSweep, InitMark, Mark};
    use HandshakeType::{NoOp, Roots, Work};
    vec![
        (NoOp, true, Idle, Idle),
        (NoOp, true, IdleInit, IdleInit),
        (NoOp, true, InitMark, InitMark),
        (NoOp, true, Mark, Mark),
        (Roots, true, IdleMarkSweep, IdleMarkSweep),
        (Work, true, IdleMarkSweep, IdleMarkSweep),
        (NoOp, false, Idle, IdleMarkSweep),
        (NoOp, false, IdleInit, Idle),
        (NoOp, false, InitMark, IdleInit),
        (NoOp, false, Mark, InitMark),
        (Roots, false, IdleMarkSweep, Mark),
        (Work, false, IdleMarkSweep, IdleMarkSweep),
    ]
}

const PHASES: [HandshakePhase; 5] = [
    HandshakePhase::Idle,
    HandshakePhase::IdleInit,
    HandshakePhase::InitMark,
    HandshakePhase::Mark,
    HandshakePhase::IdleMarkSweep,
];

/// All 150 lines, in the table and out of it, each with the flag up and down.
#[test]
fn every_line_of_the_handshake_table() {
    use HandshakeType::{NoOp, Roots, Work};
    let table = table();
    let mut sound = 0;
    for kind in [NoOp, Roots, Work] {
        for in_step in [false, true] {
            for (system, mutator) in PHASES.iter().flat_map(|s| PHASES.map(|m| (*s, m))) {
                let mut state = heap([[0, 0]; 4]);
                state.system.kind = kind;
                state.system.phase = system;
                state.mutators[0].phase = mutator;
                state.mutators[0].in_step = in_step;
                let listed = table.contains(&(kind, in_step, system, mutator));
                let expected = if listed { (0, 0) } else { (3, 1) };
                assert_eq!(verdict(&state), expected);
                state.mutators[0].flag = true;
                let expected = if in_step { (3, 1) } else { expected };
                assert_eq!(verdict(&state), expected);
                sound += u32::from(listed);
            }
        }
    }
    assert_eq!(sound, 12);
}

#[test]
fn the_least_mutator_is_given() {
    let mut state = State::opening(&[None], &[0, 0, 0, 0]);
    break_handshake(&mut state, 3);
    assert_eq!(verdict(&state), (3, 4));
    break_handshake(&mut state, 1);
    assert_eq!(verdict(&state), (3, 2));
    state.mutators[0].flag = true;
    assert_eq!(verdict(&state), (3, 1));
}

#[test]
fn the_least_number_is_given() {
    let mut state = heap([[0, 0], [0, 0], [0, 0], [2, 0]]);
    break_handshake(&mut state, 0);
    assert_eq!(verdict(&state), (3, 1));
    whiten(&mut state, 2);
    assert_eq!(verdict(&state), (2, 4), "2 and 3");
    free(&mut state, 3);
    state.mutators[0].roots = 0b100;
    assert_eq!(verdict(&state), (1, 3), "1, 2 and 3");
    whiten(&mut state, 4);
    assert_eq!(verdict(&state), (1, 3), "1 and 3");
    state.mutators[0].phase = HandshakePhase::IdleMarkSweep;
    whiten(&mut state, 2);
    state.cell_mut(4).mark = true;
    assert_eq!(verdict(&state), (1, 3), "1 and 2");
}

#[test]
fn malformed_comes_before_all() {
    let mut state = heap([[0, 0], [0, 0], [0, 0], [2, 0]]);
    break_handshake(&mut state, 0);
    whiten(&mut state, 2);
    free(&mut state, 3);
    state.mutators[0].roots = 0b100;
    state.mutators[0].value = 1;
    assert_eq!(state.mutators[0].place, MutatorPlace::Top);
    assert_eq!(verdict(&state), (4, 0));
}

#[test]
fn cells_in_a_row() {
    for last in [32, 33, 63, 64] {
        let mut cells: Vec<_> = (2..=last).map(|next| Some([0, next])).collect();
        cells.push(Some([0, 0]));
        let mut state = State::opening(&cells, &[1]);
        assert_eq!(verdict(&state), (0, 0));
        free(&mut state, last);
        assert_eq!(verdict(&state), (1, last));
    }
}

/// 64 occupied cells without fields, and one mutator without roots.
fn sixty_four() -> State {
    State::opening(&[Some([0, 0]); 64], &[0])
}

/// Each way to hold a cell, and each cell.
#[test]
fn every_cell_may_be_held_and_loose() {
    let holds: [fn(&mut State, u8); 4] = [
        |state, r| state.mutators[0].roots = bit(r),
        |state, r| {
            state.mutators[0].place = MutatorPlace::StoreWrite;
            state.mutators[0].target = 1;
            state.mutators[0].honorary = r;
        },
        |state, r| state.collector.own.buffer.push_back(field_store(r, 0)),
        |state, r| {
            state
                .collector
                .own
                .buffer
                .push_back(field_store(r % 64 + 1, r))
        },
    ];
    for hold in holds {
        for r in 1..=64 {
            let mut state = sixty_four();
            hold(&mut state, r);
            assert_eq!(verdict(&state), (0, 0));
            free(&mut state, r);
            assert_eq!(verdict(&state), (1, r));
        }
    }
}

/// Of two free cells that are held, the less is given.
#[test]
fn the_least_free_cell_of_64_is_given() {
    for (less, more) in [(1, 64), (32, 33), (33, 64), (63, 64)] {
        let mut state = sixty_four();
        state.mutators[0].roots = bit(less) | bit(more);
        free(&mut state, more);
        assert_eq!(verdict(&state), (1, more));
        free(&mut state, less);
        assert_eq!(verdict(&state), (1, less));
    }
}

/// Each cell is black and names a white one; greyed, it is not black.
#[test]
fn every_cell_may_be_black() {
    for r in 1..=64 {
        let white = r % 64 + 1;
        let mut state = sixty_four();
        state.cell_mut(r).fields = [0, white];
        whiten(&mut state, white);
        assert_eq!(verdict(&state), (2, r));
        let mut listed = state.clone();
        listed.system.list = bit(r);
        assert_eq!(verdict(&listed), (0, 0));
        state.system.list = !bit(r);
        assert_eq!(verdict(&state), (2, r));
    }
}
