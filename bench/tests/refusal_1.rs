//! Refusal 1, each phrase broken alone.

mod common;

use claysaucer_bench::number::MALFORMED;
use claysaucer_bench::{
    bit, malformed, set_of, verdict, Choice, CollectorPlace, HandshakePhase, MarkStage,
    MutatorPlace, RoundStage, State, Store, BOTH_FIELDS,
};
use common::{about_to_write, collector_marks, mutator_marks, number, opening, FREE_CELL};

/// Breaks a sound state and sees refusal 1 and verdict 4, whatever is chosen.
fn breaks(name: &str, sound: &State, damage: impl Fn(&mut State)) {
    assert!(!malformed(sound), "{name}: sound before");
    let mut state = sound.clone();
    damage(&mut state);
    assert!(malformed(&state), "{name}");
    let choices = [
        Choice::own(0),
        Choice::own(1),
        Choice::naming(0, 1),
        Choice::commit(1),
        Choice::operation(1, 0, FREE_CELL, 0, 0),
        Choice::operation(9, 9, 9, 9, 9),
    ];
    for choice in choices {
        assert_eq!(number(&state, choice), MALFORMED, "{name}");
    }
    assert_eq!(verdict(&state), (4, 0), "{name}");
}

/// Sees that a change leaves the state well formed.
fn allows(name: &str, sound: &State, change: impl Fn(&mut State)) {
    let mut state = sound.clone();
    change(&mut state);
    assert!(!malformed(&state), "{name}");
}

#[test]
fn counts_out_of_range() {
    let state = opening();
    breaks("N 0", &state, |s| s.n = 0);
    breaks("N 65", &state, |s| s.n = 65);
    breaks("N 255", &state, |s| s.n = 255);
    breaks("M 0", &state, |s| s.m = 0);
    breaks("M 5", &state, |s| s.m = 5);
    breaks("M 255", &state, |s| s.m = 255);
    let largest = State::opening(&[Some([0, 0]); 64], &[u64::MAX; 4]);
    assert!(!malformed(&largest));
    breaks("N 65 from 64", &largest, |s| s.n = 65);
    breaks("N 63 from 64", &largest, |s| s.n = 63);
    breaks("M 5 from 4", &largest, |s| s.m = 5);
}

#[test]
fn cells_out_of_range() {
    let state = opening();
    breaks("field 0", &state, |s| s.cells[0].fields[0] = 4);
    breaks("field 1", &state, |s| s.cells[1].fields[1] = 255);
    allows("a field names a free cell", &state, |s| {
        s.cells[0].fields[0] = FREE_CELL;
    });
    let write = about_to_write();
    breaks("target null", &write, |s| s.mutators[0].target = 0);
    breaks("target", &write, |s| s.mutators[0].target = 4);
    breaks("field", &write, |s| s.mutators[0].field = 2);
    breaks("value", &write, |s| s.mutators[0].value = 4);
    breaks("honorary root", &write, |s| s.mutators[0].honorary = 4);
}

#[test]
fn a_null_or_foreign_cell_being_marked() {
    for stage in MarkStage::ALL {
        let [old, new, root] = mutator_marks(1, stage).try_into().expect("three sites");
        breaks("null old", &old, |s| s.mutators[0].honorary = 0);
        breaks("foreign old", &old, |s| s.mutators[0].honorary = 4);
        breaks("null y", &new, |s| s.mutators[0].value = 0);
        breaks("foreign y", &new, |s| s.mutators[0].value = 4);
        if stage == MarkStage::Look {
            breaks("root named early", &root, |s| s.mutators[0].root = 1);
        } else {
            breaks("null root", &root, |s| s.mutators[0].root = 0);
            breaks("foreign root", &root, |s| s.mutators[0].root = 4);
        }
        for state in collector_marks(1, stage) {
            breaks("null child", &state, |s| s.collector.child = 0);
            breaks("foreign child", &state, |s| s.collector.child = 4);
            breaks("null x", &state, |s| s.collector.scanned = 0);
            breaks("foreign x", &state, |s| s.collector.scanned = 4);
            allows("x off the list", &state, |s| s.collector.own.list = 0);
        }
    }
}

#[test]
fn the_lock_of_no_process() {
    breaks("lock", &opening(), |s| s.lock = Some(3));
    for holder in 0..=2 {
        allows("lock", &opening(), |s| s.lock = Some(holder));
    }
}

#[test]
fn sets_out_of_range() {
    let state = opening();
    breaks("roots", &state, |s| s.mutators[0].roots = 0b1000);
    for top in [31, 32, 63] {
        breaks("roots, top bit", &state, |s| s.mutators[1].roots = 1 << top);
    }
    breaks("mutator's list", &state, |s| {
        s.mutators[0].own.list = 0b1000
    });
    breaks("collector's list", &state, |s| {
        s.collector.own.list = 0b1000
    });
    breaks("system's list", &state, |s| s.system.list = 0b1000);
    allows("all of 1..N", &state, |s| {
        s.mutators[0].roots = 0b111;
        s.mutators[0].own.list = 0b111;
        s.collector.own.list = 0b111;
        s.system.list = 0b111;
    });
    let root = &mutator_marks(1, MarkStage::Look)[2];
    breaks("roots left", root, |s| s.mutators[0].unmarked = 0b1000);
    allows("no root left", root, |s| s.mutators[0].unmarked = 0);
    let mut sweep = opening();
    sweep.collector.place = CollectorPlace::Row10Look;
    breaks("cells left", &sweep, |s| s.collector.unswept = 0b1000);
    for place in CollectorPlace::all() {
        if place.keeps_fields() {
            fields_left(&collector_at(place));
        }
    }
    let mut round = opening();
    round.collector.place = CollectorPlace::Row1Round(RoundStage::Poll);
    breaks("mutators left", &round, |s| s.collector.awaited = 0b100);
    allows("mutators left", &round, |s| s.collector.awaited = 0b11);
}

/// "Raise N to 64". Each N has its own last cell and its own sets.
#[test]
fn every_number_of_cells() {
    for n in 1..=64u8 {
        let cells = vec![Some([0, 0]); usize::from(n)];
        let state = State::opening(&cells, &[set_of(n)]);
        allows("all roots", &state, |_| {});
        allows("the last cell", &state, |s| s.cells[0].fields = [n, n]);
        breaks("a cell above", &state, |s| s.cells[0].fields[0] = n + 1);
        if n < 64 {
            let above = bit(n + 1);
            breaks("roots", &state, |s| s.mutators[0].roots |= above);
            breaks("list", &state, |s| s.collector.own.list = above);
            breaks("system's list", &state, |s| s.system.list = above);
            breaks("unused cell", &state, |s| {
                s.cell_mut(n + 1).occupied = true;
            });
        }
    }
}

/// None, one or both of the two fields are left, and no third.
fn fields_left(state: &State) {
    for unscanned in 0..=BOTH_FIELDS {
        allows("fields left", state, |s| s.collector.unscanned = unscanned);
    }
    for unscanned in [0b100, 0b111, 1 << 7] {
        breaks("fields left", state, |s| s.collector.unscanned = unscanned);
    }
}

#[test]
fn a_buffer_too_long() {
    for p in 0..=2 {
        let mut full = opening();
        for _ in 0..8 {
            full.own_mut(p).buffer.push_back(Store::MarkSense(true));
        }
        breaks("nine stores", &full, |s| {
            s.own_mut(p).buffer.push_back(Store::MarkSense(true));
        });
    }
}

#[test]
fn pending_stores_out_of_range() {
    let field = |cell, field, value| Store::Field { cell, field, value };
    let mark = |cell| Store::Mark { cell, mark: true };
    let bad = [
        mark(0),
        mark(4),
        field(0, 0, 0),
        field(4, 0, 0),
        field(1, 2, 0),
        field(1, 0, 4),
    ];
    for p in 0..=2 {
        for store in bad {
            breaks("store", &opening(), |s| {
                s.own_mut(p).buffer.push_back(store);
            });
        }
        for store in [
            mark(FREE_CELL),
            field(FREE_CELL, 1, FREE_CELL),
            field(1, 0, 0),
        ] {
            allows("store", &opening(), |s| {
                s.own_mut(p).buffer.push_back(store);
            });
        }
    }
}

#[test]
fn a_free_cell_that_is_not_zero() {
    breaks("mark", &opening(), |s| s.cells[2].mark = true);
    breaks("field 0", &opening(), |s| s.cells[2].fields[0] = 1);
    breaks("field 1", &opening(), |s| s.cells[2].fields[1] = 1);
}

#[test]
fn cells_above_n_that_are_not_zero() {
    for r in [3, 31, 32, 63] {
        breaks("occupied", &opening(), |s| s.cells[r].occupied = true);
        breaks("mark", &opening(), |s| s.cells[r].mark = true);
        breaks("field", &opening(), |s| s.cells[r].fields[1] = 1);
    }
}

#[test]
fn processes_above_m_that_are_not_zero() {
    for q in 2..4 {
        let damages: [fn(&mut claysaucer_bench::Mutator); 12] = [
            |m| m.place = MutatorPlace::NoOpFence,
            |m| m.roots = 1,
            |m| m.honorary = 1,
            |m| m.target = 1,
            |m| m.unmarked = 1,
            |m| m.flag = true,
            |m| m.in_step = true,
            |m| m.phase = HandshakePhase::IdleInit,
            |m| m.own.list = 1,
            |m| m.own.greying = 1,
            |m| m.own.sense = true,
            |m| m.own.buffer.push_back(Store::MarkSense(false)),
        ];
        for damage in damages {
            breaks("above M", &opening(), |s| damage(&mut s.mutators[q]));
        }
    }
}

/// At every mutator place that does not use a note, the note must be zero.
#[test]
fn mutator_notes_out_of_use() {
    use MutatorPlace::*;
    let outside_store = [
        Top,
        NoOpFence,
        NoOpFinish,
        RootsFence,
        RootsMark(MarkStage::Look),
        RootsFinish,
        WorkFence,
        WorkFinish,
    ];
    for place in outside_store {
        let mut state = opening();
        state.mutators[0].place = place;
        breaks("target", &state, |s| s.mutators[0].target = 1);
        breaks("field", &state, |s| s.mutators[0].field = 1);
        breaks("value", &state, |s| s.mutators[0].value = 1);
        breaks("honorary root", &state, |s| s.mutators[0].honorary = 1);
        breaks("root", &state, |s| s.mutators[0].root = 1);
        if place != RootsMark(MarkStage::Look) {
            breaks("roots left", &state, |s| s.mutators[0].unmarked = 1);
        }
    }
    breaks("roots left", &about_to_write(), |s| {
        s.mutators[0].unmarked = 1;
    });
    breaks("root", &about_to_write(), |s| s.mutators[0].root = 1);
}

/// The notes of a mark: the first look from the second step on, a mutator's
/// fM from the third, greying at the unlock.
#[test]
fn mark_notes_out_of_use() {
    for place in MutatorPlace::all() {
        if place.mark_stage().is_none() {
            let mut state = if place.in_store() {
                about_to_write()
            } else {
                opening()
            };
            state.mutators[0].place = place;
            breaks("look", &state, |s| s.mutators[0].own.look = true);
            breaks("fM", &state, |s| s.mutators[0].own.sense = true);
            breaks("greying", &state, |s| s.mutators[0].own.greying = 1);
        }
    }
    for stage in MarkStage::ALL {
        let check = |used: bool, name: &str, state: &State, change: &dyn Fn(&mut State)| match used
        {
            true => allows(name, state, change),
            false => breaks(name, state, change),
        };
        let looked = stage > MarkStage::Look;
        let sensed = stage > MarkStage::ReadSense;
        let last = stage == MarkStage::Unlock;
        for state in mutator_marks(1, stage) {
            check(looked, "look", &state, &|s| s.mutators[0].own.look = true);
            check(sensed, "fM", &state, &|s| s.mutators[0].own.sense = true);
            check(last, "greying", &state, &|s| s.mutators[0].own.greying = 1);
            breaks("greying", &state, |s| s.mutators[0].own.greying = 4);
        }
        for state in collector_marks(1, stage) {
            check(looked, "look", &state, &|s| s.collector.own.look = true);
            check(last, "greying", &state, &|s| s.collector.own.greying = 1);
            allows("noted fM", &state, |s| s.collector.own.sense = true);
        }
    }
}

/// The collector at a place, with cell 1 for the notes it needs.
fn collector_at(place: CollectorPlace) -> State {
    let mut state = opening();
    state.collector.place = place;
    state.collector.scanned = u8::from(place.in_scan());
    state.collector.child = u8::from(place.mark_stage().is_some());
    state.collector.doomed = u8::from(place == CollectorPlace::Row10Free);
    state
}

/// At every collector place that does not use a note, the note must be zero.
#[test]
fn collector_notes_out_of_use() {
    for place in CollectorPlace::all() {
        let state = collector_at(place);
        allows("noted fM", &state, |s| s.collector.own.sense = true);
        if !place.in_scan() {
            breaks("x", &state, |s| s.collector.scanned = 1);
        }
        if !place.keeps_fields() {
            breaks("field 0 left", &state, |s| s.collector.unscanned = 1);
            breaks("field 1 left", &state, |s| s.collector.unscanned = 2);
        }
        if place.mark_stage().is_none() {
            breaks("child", &state, |s| s.collector.child = 1);
            breaks("look", &state, |s| s.collector.own.look = true);
            breaks("greying", &state, |s| s.collector.own.greying = 1);
        }
        if place != CollectorPlace::Row10Free {
            breaks("cell to free", &state, |s| s.collector.doomed = 1);
        }
        if !matches!(place, CollectorPlace::Row10Look | CollectorPlace::Row10Free) {
            breaks("cells left", &state, |s| s.collector.unswept = 1);
        }
        if place.round_stage() < Some(RoundStage::Raise) {
            breaks("mutators left", &state, |s| s.collector.awaited = 1);
        }
    }
}

#[test]
fn the_cell_to_free() {
    let state = collector_at(CollectorPlace::Row10Free);
    breaks("null", &state, |s| s.collector.doomed = 0);
    breaks("foreign", &state, |s| s.collector.doomed = 4);
}
