//! What a taken step makes: the "easy slips", and each argument's offer.

mod common;

use claysaucer_bench::number::{NOT_OFFERED, TAKEN};
use claysaucer_bench::{
    step, Choice, CollectorPlace, HandshakePhase, HandshakeType, MarkStage, MutatorPlace, Phase,
    RoundStage, State, Store,
};
use common::{collector_marks, mutator_marks, number, opening, FREE_CELL};

/// Takes a choice that must be taken.
fn take(state: &State, choice: Choice) -> State {
    let (number, after) = step(state, choice);
    assert_eq!(number, TAKEN, "{choice:?}");
    after
}

fn take_all(state: &State, choices: &[Choice]) -> State {
    choices
        .iter()
        .fold(state.clone(), |state, &choice| take(&state, choice))
}

#[test]
fn a_read_gives_ones_newest_pending_store() {
    let mut state = opening();
    for value in [2, 1] {
        state.mutators[1].own.buffer.push_back(Store::Field {
            cell: 1,
            field: 0,
            value,
        });
    }
    state.mutators[1].roots = 0b1;
    let after = take(&state, Choice::operation(2, 3, 1, 0, 0));
    assert_eq!(after.mutators[1].honorary, 1, "one's own newest");
    let after = take(&state, Choice::operation(1, 3, 1, 0, 0));
    assert_eq!(after.mutators[0].honorary, 0, "memory, for another");
}

/// The other reads: marks, fM and phase, each from one's own pending store.
#[test]
fn looks_and_global_reads_see_ones_own_stores() {
    let pending = |mut state: State, p: u8, store: Store| {
        state.own_mut(p).buffer.push_back(store);
        state
    };
    let mark = Store::Mark {
        cell: 2,
        mark: false,
    };
    for state in collector_marks(2, MarkStage::Look) {
        assert!(take(&state, Choice::own(0)).collector.own.look);
        let own = pending(state.clone(), 0, mark);
        assert!(!take(&own, Choice::own(0)).collector.own.look);
        let others = pending(state, 1, mark);
        assert!(take(&others, Choice::own(0)).collector.own.look);
    }
    for state in collector_marks(2, MarkStage::ReadSense) {
        let own = pending(state, 0, Store::MarkSense(false));
        let read = take(&own, Choice::own(0));
        assert!(!read.collector.own.sense);
        assert_eq!(read.mark_stage(0), None, "equal to the look");
    }
    for mut state in collector_marks(2, MarkStage::ReadPhase) {
        assert_eq!(take(&state, Choice::own(0)).mark_stage(0), None);
        state = pending(state, 0, Store::Phase(Phase::Mark));
        let read = take(&state, Choice::own(0));
        assert_eq!(read.mark_stage(0), Some(MarkStage::Lock));
    }
    let mut sweep = round(CollectorPlace::Row10Look);
    sweep.collector.unswept = 0b011;
    sweep.collector.own.sense = true;
    let kept = take(&sweep, Choice::naming(0, 2));
    assert_eq!(kept.collector.place, CollectorPlace::Row10Look);
    let doomed = take(&pending(sweep, 0, mark), Choice::naming(0, 2));
    assert_eq!(doomed.collector.place, CollectorPlace::Row10Free);
}

#[test]
fn a_mark_is_written_with_the_noted_sense() {
    for noted in [false, true] {
        for mut state in mutator_marks(2, MarkStage::Write) {
            state.mutators[0].own.sense = noted;
            let after = take(&state, Choice::own(1));
            let mark = Store::Mark {
                cell: 2,
                mark: noted,
            };
            assert_eq!(after.mutators[0].own.buffer, [mark]);
            assert_eq!(after.mutators[0].own.list, 0, "not before the unlock");
        }
    }
}

/// What the collector writes in one collection, with nothing to mark.
#[test]
fn the_stores_of_a_collection() {
    let mut state = State::opening(&[Some([0, 0])], &[0]);
    let mut written = Vec::new();
    while written.len() < 6 {
        if state.mutators[0].flag {
            let answer = Choice::operation(1, 5, 0, 0, 0);
            state = take_all(&state, &[answer, Choice::own(1), Choice::own(1)]);
        }
        let named = step(&state, Choice::naming(0, 1));
        state = match named {
            (TAKEN, after) => after,
            _ => take(&state, Choice::own(0)),
        };
        if let Some(&store) = state.collector.own.buffer.front() {
            written.push(store);
            state = take(&state, Choice::commit(0));
        }
    }
    let expected = [
        Store::MarkSense(false),
        Store::Phase(Phase::Init),
        Store::Phase(Phase::Mark),
        Store::AllocationSense(false),
        Store::Phase(Phase::Sweep),
        Store::Phase(Phase::Idle),
    ];
    assert_eq!(written, expected);
    assert!(!state.cell(1).occupied);
    assert_eq!(state.collector.place, CollectorPlace::default());
}

#[test]
fn allocation_takes_memorys_sense() {
    let mut state = opening();
    state.allocation_sense = false;
    let pending = Store::AllocationSense(true);
    state.mutators[0].own.buffer.push_back(pending);
    let after = take(&state, Choice::operation(1, 0, FREE_CELL, 0, 0));
    assert!(after.cell(FREE_CELL).occupied && !after.cell(FREE_CELL).mark);
    assert_eq!(after.cell(FREE_CELL).fields, [0, 0]);
    assert_eq!(after.mutators[0].roots, 0b111);
}

#[test]
fn a_store_of_null_still_marks_the_old() {
    let mut state = opening();
    state.cell_mut(1).fields = [2, 0];
    let after = take(&state, Choice::operation(1, 3, 1, 0, 0));
    assert_eq!(
        after.mutators[0].place,
        MutatorPlace::StoreMarkOld(MarkStage::Look)
    );
    let after = take_all(&after, &[Choice::own(1), Choice::own(1)]);
    assert_eq!(after.mutators[0].place, MutatorPlace::StoreWrite);
    assert_eq!(after.mutators[0].honorary, 2, "held until the write");
    let after = take(&after, Choice::own(1));
    assert_eq!(after.mutators[0].honorary, 0);
    assert_eq!(after.mutators[0].place, MutatorPlace::Top);
}

/// A store of root 2 over cell 1, both white, phase Init: two whole marks.
#[test]
fn a_store_marks_the_old_then_the_new() {
    let mut state = opening();
    state.cell_mut(1).fields = [1, 0];
    state.mark_sense = false;
    state.phase = Phase::Init;
    let mut state = take(&state, Choice::operation(1, 3, 1, 0, 2));
    for r in [1, 2] {
        state = take_all(&state, &[Choice::own(1); 6]);
        assert_eq!(state.mutators[0].own.greying, r);
        assert_eq!(state.lock, Some(1));
        assert_eq!(number(&state, Choice::own(1)), 8, "the mark is pending");
        state = take_all(&state, &[Choice::commit(1), Choice::own(1)]);
        assert_eq!((state.lock, state.mutators[0].own.greying), (None, 0));
    }
    assert_eq!(state.mutators[0].own.list, 0b11);
    assert_eq!(state.mutators[0].place, MutatorPlace::StoreWrite);
}

#[test]
fn the_loser_of_a_race_writes_nothing() {
    for mut state in mutator_marks(2, MarkStage::LookAgain) {
        state.lock = Some(1);
        state.mutators[0].own.look = false;
        state.mutators[0].own.sense = true;
        let after = take_all(&state, &[Choice::own(1), Choice::own(1)]);
        assert!(after.mutators[0].own.buffer.is_empty());
        assert_eq!((after.mutators[0].own.list, after.lock), (0, None));
        assert!(!after.mutators[0].own.look && !after.mutators[0].own.sense);
    }
}

#[test]
fn the_collectors_mark_renews_its_noted_sense() {
    for mut state in collector_marks(2, MarkStage::ReadSense) {
        state.collector.own.look = true;
        let after = take(&state, Choice::own(0));
        assert!(after.collector.own.sense, "kept after the mark is over");
        assert!(!after.collector.own.look);
        assert_eq!(after.collector.child, 0);
    }
}

/// The collector at the start of a round, everyone in step.
fn round(place: CollectorPlace) -> State {
    let mut state = opening();
    state.collector.place = place;
    state
}

#[test]
fn phases_advance_on_no_op_and_roots_only() {
    use CollectorPlace::{Row1Round, Row6Round, Row8Round};
    let cases = [
        (Row1Round(RoundStage::SetType), HandshakeType::NoOp, true),
        (Row6Round(RoundStage::SetType), HandshakeType::Roots, true),
        (Row8Round(RoundStage::SetType), HandshakeType::Work, false),
    ];
    for (place, kind, advances) in cases {
        let expected = match advances {
            true => HandshakePhase::Idle,
            false => HandshakePhase::IdleMarkSweep,
        };
        let mut state = round(place);
        state.mutators[0].roots = 0;
        let set = take(&state, Choice::own(0));
        assert_eq!((set.system.kind, set.system.phase), (kind, expected));
        assert!(!set.mutators[0].in_step && !set.mutators[1].in_step);
        let answered = take_all(
            &set,
            &[
                Choice::naming(0, 1),
                Choice::operation(1, 5, 0, 0, 0),
                Choice::own(1),
                Choice::own(1),
            ],
        );
        assert_eq!(answered.mutators[0].phase, expected);
        assert!(answered.mutators[0].in_step && !answered.mutators[0].flag);
    }
}

#[test]
fn only_roots_and_work_move_the_list() {
    use MutatorPlace::{NoOpFinish, RootsFinish, WorkFinish};
    for (place, moves) in [(NoOpFinish, false), (RootsFinish, true), (WorkFinish, true)] {
        let mut state = opening();
        state.mutators[0].place = place;
        state.mutators[0].own.list = 0b01;
        state.system.list = 0b10;
        let after = take(&state, Choice::own(1));
        let expected = if moves { (0, 0b11) } else { (0b01, 0b10) };
        assert_eq!((after.mutators[0].own.list, after.system.list), expected);
    }
}

#[test]
fn raises_and_polls_name_those_left() {
    let state = round(CollectorPlace::Row1Round(RoundStage::SetType));
    let state = take(&state, Choice::own(0));
    for x in [0, 3, 4, 9, 255] {
        assert_eq!(number(&state, Choice::naming(0, x)), NOT_OFFERED);
    }
    let state = take(&state, Choice::naming(0, 2));
    assert_eq!(number(&state, Choice::naming(0, 2)), NOT_OFFERED);
    let state = take(&state, Choice::naming(0, 1));
    assert_eq!(take(&state, Choice::naming(0, 2)), state, "the flag is up");
    let answer = [
        Choice::operation(2, 5, 0, 0, 0),
        Choice::own(2),
        Choice::own(2),
        Choice::naming(0, 2),
    ];
    let state = take_all(&state, &answer);
    assert_eq!(number(&state, Choice::naming(0, 2)), NOT_OFFERED);
    assert_eq!(number(&state, Choice::own(0)), NOT_OFFERED);
}

#[test]
fn a_take_replaces_the_collectors_list() {
    for place in [CollectorPlace::Row6Take, CollectorPlace::Row8Take] {
        let mut state = round(place);
        state.collector.own.list = 0b01;
        state.system.list = 0b10;
        let after = take(&state, Choice::own(0));
        assert_eq!((after.collector.own.list, after.system.list), (0b10, 0));
        assert_eq!(after.collector.place, CollectorPlace::Row7FirstRead);
        state.system.list = 0;
        let after = take(&state, Choice::own(0));
        assert_eq!(after.collector.own.list, 0);
        assert_eq!(after.collector.place, CollectorPlace::Row9WriteSweep);
    }
}

#[test]
fn the_sweep_frees_what_is_not_marked() {
    let mut state = round(CollectorPlace::Row9WriteSweep);
    state.collector.own.sense = true;
    state.cell_mut(2).mark = false;
    let state = take_all(&state, &[Choice::own(0), Choice::naming(0, 1)]);
    let state = take_all(
        &state,
        &[Choice::naming(0, FREE_CELL), Choice::naming(0, 2)],
    );
    assert_eq!(state.collector.place, CollectorPlace::Row10Free);
    assert_eq!((state.collector.unswept, state.collector.doomed), (0, 2));
    let state = take(&state, Choice::own(0));
    assert!(!state.cell(2).occupied && state.cell(1).occupied);
    assert_eq!(state.collector.place, CollectorPlace::Row11WriteIdle);
    let state = take(&state, Choice::own(0));
    assert_eq!(
        state.collector.place,
        CollectorPlace::Row1Round(RoundStage::Fence)
    );
}

#[test]
fn the_flip_notes_what_it_writes() {
    let state = round(CollectorPlace::Row2Read);
    let read = take(&state, Choice::own(0));
    assert!(read.collector.own.sense, "the value read");
    let written = take(&read, Choice::own(0));
    assert!(!written.collector.own.sense, "its opposite");
    assert_eq!(
        written.collector.own.buffer,
        [Store::MarkSense(false)],
        "pending"
    );
    assert!(written.mark_sense, "memory is unchanged");
}

/// Every place but a mutator's top: the arguments it does not use.
#[test]
fn unused_arguments_are_zero_everywhere() {
    let extra = [(1, 0, 0), (5, 0, 0), (0, 1, 0), (0, 0, 1)];
    for place in CollectorPlace::all() {
        let mut state = opening();
        state.collector.place = place;
        state.collector.scanned = u8::from(place.in_scan());
        state.collector.child = u8::from(place.mark_stage().is_some());
        state.collector.doomed = u8::from(place == CollectorPlace::Row10Free);
        for (operation, f, y) in extra {
            for x in 0..=3 {
                let choice = Choice::operation(0, operation, x, f, y);
                assert_eq!(number(&state, choice), NOT_OFFERED, "{place:?}");
            }
        }
        // Nothing is left to be named, and no other place uses x.
        assert_eq!(
            number(&state, Choice::naming(0, 1)),
            NOT_OFFERED,
            "{place:?}"
        );
    }
    for place in MutatorPlace::all().split_off(1) {
        let mut state = opening();
        let mutator = &mut state.mutators[0];
        mutator.place = place;
        let store = u8::from(place.in_store());
        (mutator.target, mutator.value, mutator.honorary) = (store, store, store);
        let named = matches!(place, MutatorPlace::RootsMark(stage) if stage != MarkStage::Look);
        mutator.root = u8::from(named);
        for (operation, f, y) in extra {
            let choice = Choice::operation(1, operation, 0, f, y);
            assert_eq!(number(&state, choice), NOT_OFFERED, "{place:?}");
        }
        assert_eq!(
            number(&state, Choice::naming(1, 1)),
            NOT_OFFERED,
            "{place:?}"
        );
    }
}

/// What top does not offer: operation, x, f, y.
const NOT_AT_TOP: [(u8, u8, u8, u8); 25] = [
    (0, 0, 0, 0),
    (0, 4, 0, 0),
    (0, 3, 1, 0),
    (0, 3, 0, 1),
    (1, 0, 0, 0),
    (1, 3, 0, 0),
    (1, 1, 1, 0),
    (1, 1, 0, 1),
    (2, 0, 0, 0),
    (2, 3, 0, 0),
    (2, 1, 2, 0),
    (2, 1, 0, 1),
    (3, 0, 0, 0),
    (3, 3, 0, 0),
    (3, 1, 2, 0),
    (3, 1, 0, 3),
    (3, 1, 0, 200),
    (4, 1, 0, 0),
    (4, 0, 1, 0),
    (4, 0, 0, 1),
    (5, 1, 0, 0),
    (5, 0, 1, 0),
    (5, 0, 0, 1),
    (6, 0, 0, 0),
    (255, 1, 0, 0),
];

/// What it offers.
const OFFERED: [(u8, u8, u8, u8); 6] = [
    (0, 3, 0, 0),
    (1, 2, 0, 0),
    (2, 1, 1, 0),
    (3, 2, 1, 1),
    (3, 1, 0, 0),
    (4, 0, 0, 0),
];

#[test]
fn arguments_at_top() {
    let state = opening();
    for (operation, x, f, y) in NOT_AT_TOP {
        let choice = Choice::operation(1, operation, x, f, y);
        assert_eq!(number(&state, choice), NOT_OFFERED, "{choice:?}");
    }
    for (operation, x, f, y) in OFFERED {
        take(&state, Choice::operation(1, operation, x, f, y));
    }
}
