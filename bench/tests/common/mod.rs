//! Hand-made states for the tests.

#![allow(dead_code)]

use claysaucer_bench::{
    step, Choice, Collector, CollectorPlace, HandshakePhase, HandshakeType, MarkStage, Mutator,
    MutatorPlace, Phase, Process, Random, RoundStage, State, Store, BOTH_FIELDS,
};

/// Three cells, 1 and 2 occupied and 3 free; two mutators, both with root 1,
/// the first also with root 2.
pub fn opening() -> State {
    State::opening(&[Some([0, 0]), Some([0, 0]), None], &[0b11, 0b01])
}

/// The free cell of `opening`.
pub const FREE_CELL: u8 = 3;

/// Mutator 1 at the given stage of the mark of r, at each of its three
/// marking sites. An answer's root is named, unless it is at its look.
pub fn mutator_marks(r: u8, stage: MarkStage) -> Vec<State> {
    let mut old = opening();
    old.mutators[0].place = MutatorPlace::StoreMarkOld(stage);
    old.mutators[0].target = 1;
    old.mutators[0].honorary = r;
    let mut new = opening();
    new.mutators[0].place = MutatorPlace::StoreMarkNew(stage);
    new.mutators[0].target = 1;
    new.mutators[0].value = r;
    let mut root = opening();
    root.mutators[0].place = MutatorPlace::RootsMark(stage);
    match stage {
        MarkStage::Look => root.mutators[0].unmarked = 1 << (r - 1),
        _ => root.mutators[0].root = r,
    }
    vec![old, new, root]
}

/// The collector at the given stage of the mark of r, with each set of fields
/// left.
pub fn collector_marks(r: u8, stage: MarkStage) -> Vec<State> {
    let with_left = |unscanned| {
        let mut state = scanning(CollectorPlace::Row7Mark(stage), unscanned);
        state.collector.child = r;
        state
    };
    (0..=BOTH_FIELDS).map(with_left).collect()
}

/// The collector in row 7, past its first read of cell 1, with these fields
/// left.
pub fn scanning(place: CollectorPlace, unscanned: u8) -> State {
    let mut state = opening();
    state.collector.place = place;
    state.collector.own.list = 1;
    state.collector.scanned = 1;
    state.collector.unscanned = unscanned;
    state
}

/// Mutator 1 about to write field 0 of cell 1.
pub fn about_to_write() -> State {
    let mut state = opening();
    state.mutators[0].place = MutatorPlace::StoreWrite;
    state.mutators[0].target = 1;
    state
}

/// The bare own step, or the one that names the root an answer looks at.
pub fn next_choice(state: &State, p: u8) -> Choice {
    let named = match p {
        1.. if state.mutator(p).place == MutatorPlace::RootsMark(MarkStage::Look) => {
            state.mutator(p).unmarked.trailing_zeros() as u8 + 1
        }
        _ => 0,
    };
    Choice::naming(p, named)
}

/// The number of a choice, after seeing that a refusal leaves the state equal.
pub fn number(state: &State, choice: Choice) -> u8 {
    let (number, after) = step(state, choice);
    if number != 0 {
        assert_eq!(*state, after, "refusal {number} of {choice:?}");
    }
    number
}

/// A choice of small numbers, sometimes of any.
pub fn random_choice(random: &mut Random) -> Choice {
    let mut small = |limit| match random.percent(2) {
        true => random.byte(),
        false => random.below(limit) as u8,
    };
    Choice {
        process: small(5),
        kind: small(2),
        operation: small(7),
        x: small(5),
        f: small(3),
        y: small(3),
    }
}

/// A choice that fits its place more often than not.
pub fn likely_choice(state: &State, random: &mut Random) -> Choice {
    let p = random.below(3) as u8;
    let top = p > 0 && state.mutator(p).place == MutatorPlace::Top;
    let x = random.within(1, 3) as u8;
    match random.below(10) {
        0 => random_choice(random),
        1..=3 => Choice::commit(p),
        _ if top => {
            let f = random.below(2) as u8;
            match random.below(6) as u8 {
                operation @ (0 | 1) => Choice::operation(p, operation, x, 0, 0),
                2 => Choice::operation(p, 2, x, f, 0),
                3 => Choice::operation(p, 3, x, f, random.below(4) as u8),
                operation => Choice::operation(p, operation, 0, 0, 0),
            }
        }
        4..=6 => Choice::naming(p, x),
        7 => Choice {
            x: random.pick(&[0, x]),
            f: random.below(2) as u8,
            ..Choice::own(p)
        },
        _ => Choice::own(p),
    }
}

/// A well formed state of three cells and two mutators, most of them far from
/// what a run reaches.
pub fn random_state(random: &mut Random) -> State {
    let mut state = opening();
    for cell in &mut state.cells[..3] {
        cell.occupied = random.percent(70);
        cell.mark = cell.occupied && random.percent(50);
        let fields = [random.below(4) as u8, random.below(4) as u8];
        cell.fields = if cell.occupied { fields } else { [0, 0] };
    }
    state.mark_sense = random.percent(50);
    state.allocation_sense = random.percent(50);
    state.phase = phase(random);
    state.lock = random.percent(40).then(|| random.below(3) as u8);
    state.system.list = u64::from(random.below(8));
    if random.percent(40) {
        state.system.kind = hand_type(random);
        state.system.phase = hand_phase(random);
    }
    random_collector(&mut state.collector, random);
    random_mutator(&mut state.mutators[0], random);
    random_mutator(&mut state.mutators[1], random);
    state
}

fn random_process(own: &mut Process, stage: Option<MarkStage>, random: &mut Random) {
    own.list = u64::from(random.below(8));
    own.look = stage > Some(MarkStage::Look) && random.percent(50);
    own.sense = stage > Some(MarkStage::ReadSense) && random.percent(50);
    if stage == Some(MarkStage::Unlock) {
        own.greying = random.below(4) as u8;
    }
    let length = random.pick(&[0, 0, 0, 1, 2, 7, 8]);
    own.buffer = (0..length).map(|_| sound_store(random)).collect();
}

fn random_collector(collector: &mut Collector, random: &mut Random) {
    let place = random.pick(&CollectorPlace::all());
    let cell = random.within(1, 3) as u8;
    collector.place = place;
    random_process(&mut collector.own, place.mark_stage(), random);
    collector.own.sense = random.percent(50);
    if place.round_stage() > Some(RoundStage::SetType) {
        collector.awaited = random.below(4) as u8;
    }
    if place.in_scan() {
        collector.scanned = cell;
    }
    if place.keeps_fields() {
        collector.unscanned = random.below(4) as u8;
    }
    if place.mark_stage().is_some() {
        collector.child = random.within(1, 3) as u8;
    }
    if matches!(place, CollectorPlace::Row10Look | CollectorPlace::Row10Free) {
        collector.unswept = u64::from(random.below(8));
    }
    if place == CollectorPlace::Row10Free {
        collector.doomed = cell;
    }
}

fn random_mutator(mutator: &mut Mutator, random: &mut Random) {
    let place = random.pick(&MutatorPlace::all());
    mutator.place = place;
    random_process(&mut mutator.own, place.mark_stage(), random);
    mutator.roots = u64::from(random.below(8));
    mutator.flag = random.percent(30);
    if random.percent(40) {
        mutator.in_step = random.percent(50);
        mutator.phase = hand_phase(random);
    }
    if place.in_store() {
        mutator.target = random.within(1, 3) as u8;
        mutator.field = random.below(2) as u8;
        let marks_old = matches!(place, MutatorPlace::StoreMarkOld(_));
        let marks_new = matches!(place, MutatorPlace::StoreMarkNew(_));
        mutator.honorary = random.within(u32::from(marks_old), 3) as u8;
        mutator.value = random.within(u32::from(marks_new), 3) as u8;
    }
    if let MutatorPlace::RootsMark(stage) = place {
        mutator.unmarked = u64::from(random.below(8));
        if stage != MarkStage::Look {
            mutator.root = random.within(1, 3) as u8;
        }
    }
}

/// A store that three cells allow.
fn sound_store(random: &mut Random) -> Store {
    loop {
        let store = store(random);
        match store {
            Store::Mark { cell: 1..=3, .. } => return store,
            Store::Field {
                cell: 1..=3,
                value: 0..=3,
                ..
            } => return store,
            Store::Mark { .. } | Store::Field { .. } => {}
            _ => return store,
        }
    }
}

fn hand_type(random: &mut Random) -> HandshakeType {
    random.pick(&[
        HandshakeType::NoOp,
        HandshakeType::Roots,
        HandshakeType::Work,
    ])
}

/// Changes some one thing of a state, not always to something sensible.
pub fn disturb(state: &mut State, random: &mut Random) {
    match random.below(3) {
        0 => disturb_memory(state, random),
        1 => disturb_collector(state, random),
        _ => disturb_mutator(state, random),
    }
}

/// Mostly a small number.
fn small(random: &mut Random) -> u8 {
    match random.percent(5) {
        true => random.byte(),
        false => random.below(4) as u8,
    }
}

/// Mostly a small set.
fn set(random: &mut Random) -> u64 {
    match random.percent(5) {
        true => random.next_u64(),
        false => u64::from(random.below(8)),
    }
}

fn hand_phase(random: &mut Random) -> HandshakePhase {
    random.pick(&[
        HandshakePhase::Idle,
        HandshakePhase::IdleInit,
        HandshakePhase::InitMark,
        HandshakePhase::Mark,
        HandshakePhase::IdleMarkSweep,
    ])
}

fn phase(random: &mut Random) -> Phase {
    random.pick(&[Phase::Idle, Phase::Init, Phase::Mark, Phase::Sweep])
}

fn store(random: &mut Random) -> Store {
    match random.below(7) {
        0 | 1 => Store::Mark {
            cell: small(random),
            mark: random.percent(50),
        },
        2 | 3 => Store::Field {
            cell: small(random),
            field: random.below(2) as u8,
            value: small(random),
        },
        4 => Store::MarkSense(random.percent(50)),
        5 => Store::AllocationSense(random.percent(50)),
        _ => Store::Phase(phase(random)),
    }
}

fn disturb_memory(state: &mut State, random: &mut Random) {
    let cell = &mut state.cells[random.below(4) as usize];
    match random.below(12) {
        0 => cell.occupied ^= true,
        1 => *cell = Default::default(),
        2 => cell.mark ^= true,
        3 => cell.fields[random.below(2) as usize] = small(random),
        4 => state.mark_sense ^= true,
        5 => state.allocation_sense ^= true,
        6 => state.phase = phase(random),
        7 => state.lock = random.percent(60).then(|| random.below(3) as u8),
        8 => state.system.phase = hand_phase(random),
        9 => state.system.list = set(random),
        10 => state.n = small(random),
        _ => state.system.kind = hand_type(random),
    }
}

fn disturb_collector(state: &mut State, random: &mut Random) {
    let collector = &mut state.collector;
    match random.below(12) {
        0 => collector.place = random.pick(&CollectorPlace::all()),
        1 => collector.awaited = small(random),
        2 => collector.scanned = small(random),
        3 => collector.child = small(random),
        4 => collector.unswept = set(random),
        5 => collector.doomed = small(random),
        6 => collector.own.list = set(random),
        7 => collector.own.sense ^= true,
        8 => collector.own.look ^= true,
        9 => collector.own.greying = small(random),
        10 => collector.unscanned = small(random),
        _ => collector.own.buffer.push_back(store(random)),
    }
}

fn disturb_mutator(state: &mut State, random: &mut Random) {
    let mutator = &mut state.mutators[random.below(2) as usize];
    match random.below(16) {
        0 => mutator.place = random.pick(&MutatorPlace::all()),
        1 => mutator.roots = set(random),
        2 => mutator.honorary = small(random),
        3 => mutator.target = small(random),
        4 => mutator.field = small(random),
        5 => mutator.value = small(random),
        6 => mutator.unmarked = set(random),
        7 => mutator.root = small(random),
        8 => mutator.flag ^= true,
        9 => mutator.in_step ^= true,
        10 => mutator.phase = hand_phase(random),
        11 => mutator.own.list = set(random),
        12 => mutator.own.sense ^= true,
        13 => mutator.own.look ^= true,
        14 => mutator.own.greying = small(random),
        _ => mutator.own.buffer.push_back(store(random)),
    }
}
