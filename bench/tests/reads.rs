//! R-6 of document 02: "Where did that value come from?"

mod common;

use claysaucer_bench::number::{READ_MEMORY, READ_NOTHING, TAKEN};
use claysaucer_bench::{
    attempt, bit, judge_observed, malformed, Choice, CollectorPlace, Generator, HandshakeType,
    MarkStage, MutatorPlace, Origin, Phase, Random, RoundStage, State, Store, BOTH_FIELDS,
    BUFFER_ROOM,
};
use common::{
    about_to_write, collector_marks, likely_choice, mutator_marks, next_choice, opening,
    random_state, scanning, FREE_CELL,
};
use std::mem::discriminant;

/// The number of a choice that must be taken.
fn read(state: &State, choice: Choice) -> u8 {
    assert!(!malformed(state), "{state:?}");
    let answer = attempt(&mut state.clone(), choice);
    let origin = answer.unwrap_or_else(|refusal| panic!("{refusal:?} of {choice:?}"));
    origin.map_or(READ_NOTHING, Origin::number)
}

/// A step that reads, and a store that it would see. Only the spot of the store
/// counts, not its value.
struct Reader {
    state: State,
    choice: Choice,
    spot: Store,
}

impl Reader {
    fn new(state: State, choice: Choice, spot: Store) -> Reader {
        Reader {
            state,
            choice,
            spot,
        }
    }

    /// Its number with these stores pending in process p's buffer.
    fn with_pending(&self, p: u8, stores: &[Store]) -> u8 {
        let mut state = self.state.clone();
        state.own_mut(p).buffer = stores.iter().copied().collect();
        read(&state, self.choice)
    }

    /// Its number with these stores pending in its own buffer.
    fn with_own(&self, stores: &[Store]) -> u8 {
        self.with_pending(self.choice.process, stores)
    }
}

fn mark(cell: u8) -> Store {
    Store::Mark { cell, mark: true }
}

fn field(cell: u8, field: u8) -> Store {
    Store::Field {
        cell,
        field,
        value: 0,
    }
}

const SENSE: Store = Store::MarkSense(true);
const PHASE: Store = Store::Phase(Phase::Idle);
/// No read sees fA.
const UNSEEN: Store = Store::AllocationSense(true);

/// Every spot of a heap of three cells that a store may be pending to.
fn spots() -> Vec<Store> {
    let marks = (1..=3).map(mark);
    let fields = (1..=3).flat_map(|r| [field(r, 0), field(r, 1)]);
    marks.chain(fields).chain([SENSE, UNSEEN, PHASE]).collect()
}

fn same_spot(one: Store, other: Store) -> bool {
    match (one, other) {
        (Store::Mark { cell: r, .. }, Store::Mark { cell, .. }) => r == cell,
        (
            Store::Field {
                cell: r, field: f, ..
            },
            Store::Field { cell, field, .. },
        ) => (r, f) == (cell, field),
        _ => discriminant(&one) == discriminant(&other),
    }
}

/// A mutator's operations 2 and 3.
fn operations() -> Vec<Reader> {
    let operation = |operation, x, f, y| {
        let choice = Choice::operation(1, operation, x, f, y);
        Reader::new(opening(), choice, field(x, f))
    };
    let load = |x, f| operation(2, x, f, 0);
    let store = |x, f| operation(3, x, f, 2);
    vec![load(1, 0), load(2, 1), store(1, 1), store(2, 0)]
}

/// A stage of the mark of cell 2, at each marking site of both programs.
fn mark_steps(stage: MarkStage) -> Vec<(State, Choice)> {
    let mut steps = Vec::new();
    for (p, states) in [(1, mutator_marks(2, stage)), (0, collector_marks(2, stage))] {
        for state in states {
            let choice = next_choice(&state, p);
            steps.push((state, choice));
        }
    }
    steps
}

/// The four stages of a mark that read.
fn marks() -> Vec<Reader> {
    let stages = [
        (MarkStage::Look, mark(2)),
        (MarkStage::ReadSense, SENSE),
        (MarkStage::ReadPhase, PHASE),
        (MarkStage::LookAgain, mark(2)),
    ];
    let mut readers = Vec::new();
    for (stage, spot) in stages {
        let steps = mark_steps(stage).into_iter();
        readers.extend(steps.map(|(state, choice)| Reader::new(state, choice, spot)));
    }
    readers
}

/// The collector at a place, all its cells and fields left.
fn collector_at(place: CollectorPlace) -> State {
    let mut state = opening();
    state.collector.place = place;
    match place {
        CollectorPlace::Row7FirstRead => state.collector.own.list = bit(1),
        CollectorPlace::Row10Look => state.collector.unswept = 0b111,
        _ => {}
    }
    state
}

/// The collector's reads outside a mark: fM in row 2, fields in row 7, the
/// sweep's look in row 10, at a free cell too.
fn rows() -> Vec<Reader> {
    use CollectorPlace::{Row10Look, Row2Read, Row7FirstRead, Row7NextRead};
    let mut rows = vec![Reader::new(collector_at(Row2Read), Choice::own(0), SENSE)];
    for f in 0..=1 {
        let (first, next) = (Choice::field_read(1, f), Choice::field_read(0, f));
        let left = scanning(Row7NextRead, BOTH_FIELDS);
        rows.push(Reader::new(collector_at(Row7FirstRead), first, field(1, f)));
        rows.push(Reader::new(left, next, field(1, f)));
    }
    for x in [1, 2, FREE_CELL] {
        let look = Choice::naming(0, x);
        rows.push(Reader::new(collector_at(Row10Look), look, mark(x)));
    }
    rows
}

/// Every kind of step that reads memory.
fn readers() -> Vec<Reader> {
    let readers = [operations(), marks(), rows()];
    readers.into_iter().flatten().collect()
}

/// "0 for memory": nothing of the spot is pending in the own buffer.
#[test]
fn every_read_may_be_of_memory() {
    for reader in readers() {
        assert_eq!(reader.with_own(&[]), READ_MEMORY);
        let near_misses = spots().into_iter();
        for other in near_misses.filter(|&other| !same_spot(other, reader.spot)) {
            assert_eq!(reader.with_own(&[other; BUFFER_ROOM]), READ_MEMORY);
        }
    }
}

/// "the reader's own pending store": another's is not seen.
#[test]
fn no_read_sees_the_store_of_another() {
    for reader in readers() {
        for p in (0..=2).filter(|&p| p != reader.choice.process) {
            let pending = [reader.spot; BUFFER_ROOM];
            assert_eq!(reader.with_pending(p, &pending), READ_MEMORY);
        }
    }
}

/// "the place plus 1 for the own buffer", "oldest counted as 0", however many
/// stores are pending after it.
#[test]
fn every_read_may_be_of_each_place_of_the_own_buffer() {
    for reader in readers() {
        for place in 0..BUFFER_ROOM {
            for length in place + 1..=BUFFER_ROOM {
                let mut stores = vec![UNSEEN; length];
                stores[place] = reader.spot;
                assert_eq!(reader.with_own(&stores), place as u8 + 1);
            }
        }
    }
}

/// "A read gives the newest matching store".
#[test]
fn the_newest_of_two_is_read() {
    for reader in readers() {
        for newer in 1..BUFFER_ROOM {
            for older in 0..newer {
                let mut stores = [UNSEEN; BUFFER_ROOM];
                stores[older] = reader.spot;
                stores[newer] = reader.spot;
                assert_eq!(reader.with_own(&stores), newer as u8 + 1);
            }
        }
    }
}

/// Mutator 1's steps that read nothing.
fn silent_mutator_steps() -> Vec<(State, Choice)> {
    use MutatorPlace::{NoOpFence, NoOpFinish, RootsFence, RootsFinish, WorkFence, WorkFinish};
    let operation = |operation, x| (opening(), Choice::operation(1, operation, x, 0, 0));
    let mut steps = vec![operation(0, FREE_CELL), operation(1, 1), operation(4, 0)];
    for kind in [
        HandshakeType::NoOp,
        HandshakeType::Roots,
        HandshakeType::Work,
    ] {
        let (mut raised, answer) = operation(5, 0);
        raised.mutators[0].flag = true;
        raised.system.kind = kind;
        steps.push((raised, answer));
    }
    for place in [
        NoOpFence,
        RootsFence,
        WorkFence,
        NoOpFinish,
        RootsFinish,
        WorkFinish,
    ] {
        let mut state = opening();
        state.mutators[0].place = place;
        steps.push((state, Choice::own(1)));
    }
    steps.push((about_to_write(), Choice::own(1)));
    steps
}

/// The collector's steps outside a mark that read nothing.
fn silent_rows() -> Vec<(State, Choice)> {
    use CollectorPlace::*;
    let mut steps = Vec::new();
    for place in [
        Row2Write,
        Row4WriteInit,
        Row5WriteMark,
        Row5WriteSense,
        Row6Take,
        Row8Take,
        Row9WriteSweep,
        Row11WriteIdle,
    ] {
        steps.push((collector_at(place), Choice::own(0)));
    }
    for round in [
        Row1Round, Row3Round, Row4Round, Row5Round, Row6Round, Row8Round,
    ] {
        for stage in RoundStage::ALL {
            steps.push(round_step(round(stage), stage));
        }
    }
    let mut free = collector_at(Row10Free);
    free.collector.doomed = 1;
    steps.push((free, Choice::own(0)));
    steps.push((scanning(Row7Drop, 0), Choice::own(0)));
    steps
}

/// A step of a round. Raises and polls name mutator 2.
fn round_step(place: CollectorPlace, stage: RoundStage) -> (State, Choice) {
    let mut state = collector_at(place);
    if stage < RoundStage::Raise {
        return (state, Choice::own(0));
    }
    state.collector.awaited = 0b10;
    (state, Choice::naming(0, 2))
}

/// The other three stages of a mark.
fn silent_marks() -> Vec<(State, Choice)> {
    let stages = [MarkStage::Lock, MarkStage::Write, MarkStage::Unlock];
    stages.into_iter().flat_map(mark_steps).collect()
}

/// A commit of each kind of store.
fn commits() -> Vec<(State, Choice)> {
    let commit = |store| {
        let mut state = opening();
        state.mutators[0].own.buffer.push_back(store);
        (state, Choice::commit(1))
    };
    [mark(1), field(1, 0), SENSE, UNSEEN, PHASE]
        .map(commit)
        .into()
}

#[test]
fn the_other_steps_read_nothing() {
    let steps = [
        silent_mutator_steps(),
        silent_rows(),
        silent_marks(),
        commits(),
    ];
    for (state, choice) in steps.into_iter().flatten() {
        assert_eq!(read(&state, choice), READ_NOTHING, "{choice:?} {state:?}");
    }
}

/// Allocation takes memory's fA without a look.
#[test]
fn allocation_reads_nothing_past_its_own_stores() {
    let allocation = Reader::new(opening(), Choice::operation(1, 0, FREE_CELL, 0, 0), UNSEEN);
    for store in spots() {
        assert_eq!(allocation.with_own(&[store; BUFFER_ROOM]), READ_NOTHING);
    }
}

/// A store that the choice reads if it is pending in the own buffer; `None` for
/// a choice that reads nothing. Told from the place alone.
fn spot_of(state: &State, choice: Choice) -> Option<Store> {
    let Choice {
        process: p, x, f, ..
    } = choice;
    if choice.kind == 1 {
        return None;
    }
    match (state.mark_stage(p), p) {
        (Some(stage), _) => marked_spot(state, choice, stage),
        (None, 0) => match state.collector.place {
            CollectorPlace::Row2Read => Some(SENSE),
            CollectorPlace::Row7FirstRead => Some(field(x, f)),
            CollectorPlace::Row7NextRead => Some(field(state.collector.scanned, f)),
            CollectorPlace::Row10Look => Some(mark(x)),
            _ => None,
        },
        _ => {
            let top = state.mutator(p).place == MutatorPlace::Top;
            (top && matches!(choice.operation, 2 | 3)).then(|| field(x, f))
        }
    }
}

/// The same inside a mark. A root is named at its first look.
fn marked_spot(state: &State, choice: Choice, stage: MarkStage) -> Option<Store> {
    let named = choice.x.max(state.marked_cell(choice.process));
    match stage {
        MarkStage::Look | MarkStage::LookAgain => Some(mark(named)),
        MarkStage::ReadSense => Some(SENSE),
        MarkStage::ReadPhase => Some(PHASE),
        MarkStage::Lock | MarkStage::Write | MarkStage::Unlock => None,
    }
}

/// The number of a choice that is taken and reads, by the last position of its
/// spot.
fn expected(state: &State, choice: Choice) -> Option<u8> {
    let spot = spot_of(state, choice)?;
    let stores = &state.own(choice.process).buffer;
    let place = stores.iter().rposition(|&store| same_spot(store, spot));
    Some(place.map_or(READ_MEMORY, |place| place as u8 + 1))
}

/// The last record taken that reads decides.
#[test]
fn generated_logs_end_with_their_last_read() {
    let mut generator = Generator::of_both(16);
    for _ in 0..10_000 {
        let log = generator.next_log();
        let mut last = READ_NOTHING;
        let (outcome, _) = judge_observed(&log, |before, choice, number, _| {
            if number == TAKEN {
                last = expected(before, choice).unwrap_or(last);
            }
        });
        assert_eq!(outcome.read, last, "{log:02X?}");
    }
}

/// The same of states that no run reaches. Every number is met.
#[test]
fn random_states_are_read_by_place() {
    let mut random = Random::new(17);
    let mut met = [0; 256];
    for _ in 0..200_000 {
        let state = random_state(&mut random);
        let choice = likely_choice(&state, &mut random);
        if let Ok(origin) = attempt(&mut state.clone(), choice) {
            let number = origin.map(Origin::number);
            assert_eq!(number, expected(&state, choice), "{choice:?} {state:?}");
            met[usize::from(number.unwrap_or(READ_NOTHING))] += 1;
        }
    }
    let numbers: Vec<_> = (0..256).filter(|&number| met[number] > 0).collect();
    assert_eq!(numbers, [0, 1, 2, 3, 4, 5, 6, 7, 8, 255]);
}
