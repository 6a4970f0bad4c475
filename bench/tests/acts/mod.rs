//! The ground of the tables of choices, and what a case changes of it.

use crate::places::{collector_place, mutator_place, Code};
use crate::script::Act;
use claysaucer_bench::{
    field_bit, Cell, Collector, HandshakePhase, MarkStage, Mutator, MutatorPlace, Process,
    RoundStage, State, Store, BUFFER_ROOM,
};

/// Three cells: 1, which names 2 in its field 0, and 2 are occupied, 3 is
/// free. Two mutators: 1 has the roots 1 and 2, 2 has the root 1.
pub fn ground() -> State {
    State::opening(&[Some([2, 0]), Some([0, 0]), None], &[0b11, 0b01])
}

impl Act {
    /// "A capital changes a process, any other letter memory."
    pub fn apply(&self, state: &mut State) {
        match (self.letter, self.p) {
            ('a'..='z', _) => self.in_memory(state),
            (_, 0) => self.in_collector(&mut state.collector),
            (_, p) => self.in_mutator(state.mutator_mut(p)),
        }
    }

    fn in_memory(&self, state: &mut State) {
        let Act { p, c, f, v, .. } = *self;
        let bit = v != 0;
        match self.letter {
            'l' => state.lock = Some(p),
            'a' => *state.cell_mut(c) = allocated(state),
            'd' => *state.cell_mut(c) = Cell::default(),
            'k' => commit(state, p),
            'e' => state.own_mut(p).buffer = [Store::MarkSense(true); BUFFER_ROOM].into(),
            'm' => pend(state, p, Store::Mark { cell: c, mark: bit }),
            'w' => pend(state, p, field(c, f, v)),
            's' => pend(state, p, Store::MarkSense(bit)),
            letter => panic!("no change of memory has the letter {letter}"),
        }
    }

    fn in_mutator(&self, mutator: &mut Mutator) {
        match self.letter {
            'P' => put_mutator(mutator, self.place()),
            'U' => raise(mutator),
            'Y' => mutator.value = self.v,
            'O' => mutator.honorary = self.v,
            'C' => mutator.root = self.v,
            'L' => mutator.unmarked = u64::from(self.v),
            'R' => mutator.roots = u64::from(self.v),
            letter => panic!("no change of a mutator has the letter {letter}"),
        }
    }

    fn in_collector(&self, collector: &mut Collector) {
        match self.letter {
            'P' => put_collector(collector, self.place()),
            'X' if collector.place.in_scan() => collector.scanned = self.v,
            'X' => collector.doomed = self.v,
            'C' => collector.child = self.v,
            'L' if collector.place.round_stage().is_some() => collector.awaited = self.v,
            'L' if collector.place.keeps_fields() => collector.unscanned = self.v,
            'L' => collector.unswept = u64::from(self.v),
            'W' => collector.own.list = u64::from(self.v),
            letter => panic!("no change of the collector has the letter {letter}"),
        }
    }
}

fn field(cell: u8, field: u8, value: u8) -> Store {
    Store::Field { cell, field, value }
}

/// A cell as allocation leaves it.
fn allocated(state: &State) -> Cell {
    Cell {
        occupied: true,
        mark: state.allocation_sense,
        fields: [0, 0],
    }
}

fn pend(state: &mut State, p: u8, store: Store) {
    state.own_mut(p).buffer.push_back(store);
}

/// The oldest store of process p goes to memory: fM or a mark.
fn commit(state: &mut State, p: u8) {
    match state.own_mut(p).buffer.pop_front() {
        Some(Store::MarkSense(sense)) => state.mark_sense = sense,
        Some(Store::Mark { cell, mark }) => state.cell_mut(cell).mark = mark,
        other => panic!("no case commits {other:?} before its choice"),
    }
}

fn raise(mutator: &mut Mutator) {
    mutator.flag = true;
    mutator.in_step = false;
    mutator.phase = HandshakePhase::IdleMarkSweep;
}

/// The mutator at that place, with notes that fit it: a store of 2 in field 0
/// of cell 1, over the old value 2; or an answer with the roots 1 and 2 left.
fn put_mutator(mutator: &mut Mutator, code: Code) {
    let place = mutator_place(code).expect("a place of a mutator");
    mutator.place = place;
    if place.in_store() {
        mutator.target = 1;
        mutator.value = 2;
        mutator.honorary = 2;
    }
    if let MutatorPlace::RootsMark(stage) = place {
        mutator.unmarked = 0b11;
        mutator.root = if stage == MarkStage::Look { 0 } else { 2 };
    }
    if let Some(stage) = place.mark_stage() {
        note_mark(&mut mutator.own, stage);
    }
}

/// The collector at that place, with notes that fit it: a round that awaits
/// mutators 1 and 2; row 7 with cell 1 in hand, field 1 of it left unless it
/// is at its drop, 1 and 2 on the list; row 10 with cells 1 to 3 left, or 1 to
/// free and the others left.
fn put_collector(collector: &mut Collector, code: Code) {
    use claysaucer_bench::CollectorPlace::{Row10Free, Row10Look, Row7FirstRead};
    let place = collector_place(code).expect("a place of the collector");
    collector.place = place;
    if place.round_stage() >= Some(RoundStage::Raise) {
        collector.awaited = 0b11;
    }
    if place == Row7FirstRead || place.in_scan() {
        collector.own.list = 0b11;
        collector.scanned = u8::from(place.in_scan());
    }
    if place.keeps_fields() {
        collector.unscanned = field_bit(1);
    }
    if let Some(stage) = place.mark_stage() {
        collector.child = 2;
        note_mark(&mut collector.own, stage);
    }
    match place {
        Row10Look => collector.unswept = 0b111,
        Row10Free => (collector.unswept, collector.doomed) = (0b110, 1),
        _ => {}
    }
}

/// The notes of a mark of cell 2: the first look from its second step on, the
/// noted fM from its third, the cell being greyed at its unlock.
fn note_mark(own: &mut Process, stage: MarkStage) {
    own.look = stage >= MarkStage::ReadSense;
    own.sense = stage >= MarkStage::ReadPhase;
    own.greying = if stage == MarkStage::Unlock { 2 } else { 0 };
}
