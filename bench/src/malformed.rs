//! Refusal 1: "a count, cell, process, set, place or buffer length out of
//! range, or something unused not zero".
//!
//! A place out of range and an entry past a buffer's length cannot be said
//! in these types. All else can.

use crate::place::{CollectorPlace, MarkStage, MutatorPlace, RoundStage};
use crate::state::{
    set_of, Cell, Collector, Mutator, Process, State, Store, BOTH_FIELDS, BUFFER_ROOM, CELLS,
    MUTATORS,
};

/// Whether the state is malformed.
pub fn malformed(state: &State) -> bool {
    !well_formed(state)
}

fn well_formed(state: &State) -> bool {
    let State { n, m, .. } = *state;
    let bounds = Bounds { n, m };
    let (used, unused) = state.mutators.split_at(usize::from(m).min(MUTATORS));
    (1..=CELLS as u8).contains(&n)
        && (1..=MUTATORS as u8).contains(&m)
        && cells_fit(state, bounds)
        && state.lock.is_none_or(|holder| holder <= m)
        && bounds.set(state.system.list)
        && collector_fits(&state.collector, bounds)
        && used.iter().all(|mutator| mutator_fits(mutator, bounds))
        && unused.iter().all(|mutator| *mutator == Mutator::default())
}

/// N and M, and what they allow.
#[derive(Clone, Copy)]
struct Bounds {
    n: u8,
    m: u8,
}

impl Bounds {
    /// A cell, not null.
    fn cell(self, r: u8) -> bool {
        (1..=self.n).contains(&r)
    }

    /// A cell or null.
    fn reference(self, r: u8) -> bool {
        r <= self.n
    }

    /// A set of cells.
    fn set(self, set: u64) -> bool {
        set & !set_of(self.n) == 0
    }

    /// A cell where the note is in use, and zero where it is not.
    fn cell_if(self, used: bool, r: u8) -> bool {
        if used {
            self.cell(r)
        } else {
            r == 0
        }
    }

    /// A set of cells where the note is in use, and empty where it is not.
    fn set_if(self, used: bool, set: u64) -> bool {
        if used {
            self.set(set)
        } else {
            set == 0
        }
    }
}

/// Fields name cells or null. "Unused: a free cell's mark and fields, cells
/// above N".
fn cells_fit(state: &State, bounds: Bounds) -> bool {
    let (used, unused) = state.cells.split_at(usize::from(bounds.n).min(CELLS));
    used.iter().all(|cell| cell_fits(cell, bounds))
        && unused.iter().all(|cell| *cell == Cell::default())
}

fn cell_fits(cell: &Cell, bounds: Bounds) -> bool {
    if cell.occupied {
        cell.fields.iter().all(|&r| bounds.reference(r))
    } else {
        *cell == Cell::default()
    }
}

/// What every process has. A first look is in use from the second step of a
/// mark on, a cell being greyed only at its unlock.
fn process_fits(own: &Process, stage: Option<MarkStage>, bounds: Bounds) -> bool {
    own.buffer.len() <= BUFFER_ROOM
        && own.buffer.iter().all(|store| store_fits(store, bounds))
        && bounds.set(own.list)
        && bounds.reference(own.greying)
        && (own.greying == 0 || stage == Some(MarkStage::Unlock))
        && (!own.look || stage > Some(MarkStage::Look))
}

fn store_fits(store: &Store, bounds: Bounds) -> bool {
    match *store {
        Store::Mark { cell, .. } => bounds.cell(cell),
        Store::Field { cell, field, value } => {
            bounds.cell(cell) && field <= 1 && bounds.reference(value)
        }
        Store::MarkSense(_) | Store::AllocationSense(_) | Store::Phase(_) => true,
    }
}

/// The collector's notes. Its noted fM is never unused.
fn collector_fits(collector: &Collector, bounds: Bounds) -> bool {
    use CollectorPlace::{Row10Free, Row10Look};
    let place = collector.place;
    let awaits = place.round_stage() >= Some(RoundStage::Raise);
    let sweeps = matches!(place, Row10Look | Row10Free);
    process_fits(&collector.own, place.mark_stage(), bounds)
        && u64::from(collector.awaited) & !set_of(bounds.m) == 0
        && (collector.awaited == 0 || awaits)
        && bounds.cell_if(place.in_scan(), collector.scanned)
        && collector.unscanned & !BOTH_FIELDS == 0
        && (collector.unscanned == 0 || place.keeps_fields())
        && bounds.cell_if(place.mark_stage().is_some(), collector.child)
        && bounds.set_if(sweeps, collector.unswept)
        && bounds.cell_if(place == Row10Free, collector.doomed)
}

/// A mutator's notes.
fn mutator_fits(mutator: &Mutator, bounds: Bounds) -> bool {
    let stage = mutator.place.mark_stage();
    process_fits(&mutator.own, stage, bounds)
        && (!mutator.own.sense || stage > Some(MarkStage::ReadSense))
        && bounds.set(mutator.roots)
        && store_notes_fit(mutator, bounds)
        && answer_notes_fit(mutator, bounds)
}

/// The notes of a running store. A null cell is not being marked.
fn store_notes_fit(mutator: &Mutator, bounds: Bounds) -> bool {
    let running = mutator.place.in_store();
    let marks_null = match mutator.place {
        MutatorPlace::StoreMarkOld(_) => mutator.honorary == 0,
        MutatorPlace::StoreMarkNew(_) => mutator.value == 0,
        _ => false,
    };
    bounds.cell_if(running, mutator.target)
        && mutator.field <= u8::from(running)
        && bounds.reference(mutator.value)
        && bounds.reference(mutator.honorary)
        && (running || (mutator.value, mutator.honorary) == (0, 0))
        && !marks_null
}

/// The notes of an answer that marks its roots. A root is named at its first
/// look, so there is none before.
fn answer_notes_fit(mutator: &Mutator, bounds: Bounds) -> bool {
    let marks = matches!(mutator.place, MutatorPlace::RootsMark(_));
    let named = marks && mutator.place.mark_stage() > Some(MarkStage::Look);
    bounds.set_if(marks, mutator.unmarked) && bounds.cell_if(named, mutator.root)
}
