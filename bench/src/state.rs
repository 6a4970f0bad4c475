//! "What a state holds". Plain numbers stand for cells, processes and sets,
//! so that a state built by hand may also be malformed.

use crate::place::{CollectorPlace, MarkStage, MutatorPlace};
use std::collections::VecDeque;

/// "Cells 1..N", and R-3: "Raise N to 64 for the new box."
pub const CELLS: usize = 64;
/// "M from 1 to 4".
pub const MUTATORS: usize = 4;
/// "a FIFO buffer of at most 8 pending stores".
pub const BUFFER_ROOM: usize = 8;

/// The set of a cell's two fields.
pub const BOTH_FIELDS: u8 = 0b11;

/// "A cell is free, or occupied with a mark bit and two fields."
#[derive(Clone, Copy, Debug, Default, PartialEq, Eq)]
pub struct Cell {
    pub occupied: bool,
    pub mark: bool,
    pub fields: [u8; 2],
}

/// Memory's phase.
#[derive(Clone, Copy, Debug, Default, PartialEq, Eq, PartialOrd, Ord)]
pub enum Phase {
    #[default]
    Idle,
    Init,
    Mark,
    Sweep,
}

/// "Handshakes: type (no-op, roots, work)".
#[derive(Clone, Copy, Debug, Default, PartialEq, Eq, PartialOrd, Ord)]
pub enum HandshakeType {
    #[default]
    NoOp,
    Roots,
    Work,
}

/// The handshake phases of the system and of each mutator.
#[derive(Clone, Copy, Debug, Default, PartialEq, Eq, PartialOrd, Ord)]
pub enum HandshakePhase {
    #[default]
    Idle,
    IdleInit,
    InitMark,
    Mark,
    IdleMarkSweep,
}

impl HandshakePhase {
    /// "The handshake phases run Idle, IdleInit, InitMark, Mark,
    /// IdleMarkSweep, Idle."
    pub fn next(self) -> Self {
        match self {
            Self::Idle => Self::IdleInit,
            Self::IdleInit => Self::InitMark,
            Self::InitMark => Self::Mark,
            Self::Mark => Self::IdleMarkSweep,
            Self::IdleMarkSweep => Self::Idle,
        }
    }
}

/// "A pending store is a mark, a field, fM, fA or phase with its value."
#[derive(Clone, Copy, Debug, PartialEq, Eq)]
pub enum Store {
    Mark { cell: u8, mark: bool },
    Field { cell: u8, field: u8, value: u8 },
    MarkSense(bool),
    AllocationSense(bool),
    Phase(Phase),
}

/// What every process has, collector and mutators alike.
#[derive(Clone, Debug, Default, PartialEq, Eq)]
pub struct Process {
    /// Pending stores, oldest first.
    pub buffer: VecDeque<Store>,
    /// The work list, bit 0 for cell 1.
    pub list: u64,
    /// The one cell it is greying, 0 if none.
    pub greying: u8,
    /// A running mark's first look.
    pub look: bool,
    /// The noted fM: a mutator's lasts as long as its mark, the collector's
    /// is its "one noted fM" and is always in use.
    pub sense: bool,
}

/// Process 0.
#[derive(Clone, Debug, Default, PartialEq, Eq)]
pub struct Collector {
    pub own: Process,
    pub place: CollectorPlace,
    /// A round's mutators still to raise, then still awaited; bit 0 for
    /// mutator 1.
    pub awaited: u8,
    /// Row 7's x.
    pub scanned: u8,
    /// The fields of it not yet scanned, bit 0 for field 0.
    pub unscanned: u8,
    /// The field value row 7 is marking.
    pub child: u8,
    /// Row 10's cells left.
    pub unswept: u64,
    /// The cell row 10 is about to free.
    pub doomed: u8,
}

/// Processes 1..M.
#[derive(Clone, Debug, Default, PartialEq, Eq)]
pub struct Mutator {
    pub own: Process,
    pub place: MutatorPlace,
    pub roots: u64,
    /// "the old value read by a running store (the honorary root)".
    pub honorary: u8,
    /// A running store's x, f and y.
    pub target: u8,
    pub field: u8,
    pub value: u8,
    /// The roots an answer has still to mark, and the one it is marking.
    pub unmarked: u64,
    pub root: u8,
    /// The raised flag, the in-step bit and the handshake phase.
    pub flag: bool,
    pub in_step: bool,
    pub phase: HandshakePhase,
}

/// The system's side of the handshakes.
#[derive(Clone, Debug, Default, PartialEq, Eq)]
pub struct System {
    pub kind: HandshakeType,
    pub phase: HandshakePhase,
    pub list: u64,
}

/// A whole state. `cells[0]` is cell 1 and `mutators[0]` is process 1.
#[derive(Clone, Debug, PartialEq, Eq)]
pub struct State {
    /// N, the number of cells.
    pub n: u8,
    /// M, the number of mutators.
    pub m: u8,
    pub cells: [Cell; CELLS],
    /// Memory's fM.
    pub mark_sense: bool,
    /// Memory's fA.
    pub allocation_sense: bool,
    pub phase: Phase,
    /// Who holds the lock.
    pub lock: Option<u8>,
    pub system: System,
    pub collector: Collector,
    pub mutators: [Mutator; MUTATORS],
}

impl Default for State {
    /// All zero, which is malformed.
    fn default() -> State {
        State {
            n: 0,
            m: 0,
            cells: [Cell::default(); CELLS],
            mark_sense: false,
            allocation_sense: false,
            phase: Phase::default(),
            lock: None,
            system: System::default(),
            collector: Collector::default(),
            mutators: Default::default(),
        }
    }
}

impl State {
    /// The opening of document 01, given each cell's fields (`None` for a
    /// free cell) and each mutator's roots. At most 64 cells and 4 mutators
    /// are heeded.
    pub fn opening(cells: &[Option<[u8; 2]>], roots: &[u64]) -> State {
        let mut state = State {
            n: cells.len() as u8,
            m: roots.len() as u8,
            mark_sense: true,
            allocation_sense: true,
            ..State::default()
        };
        state.system.kind = HandshakeType::Roots;
        state.system.phase = HandshakePhase::IdleMarkSweep;
        for (cell, fields) in state.cells.iter_mut().zip(cells) {
            if let Some(fields) = *fields {
                *cell = Cell {
                    occupied: true,
                    mark: true,
                    fields,
                };
            }
        }
        for (mutator, &roots) in state.mutators.iter_mut().zip(roots) {
            mutator.roots = roots;
            mutator.in_step = true;
            mutator.phase = HandshakePhase::IdleMarkSweep;
        }
        state
    }

    /// Cell r, from 1 to 64.
    pub fn cell(&self, r: u8) -> &Cell {
        &self.cells[usize::from(r) - 1]
    }

    pub fn cell_mut(&mut self, r: u8) -> &mut Cell {
        &mut self.cells[usize::from(r) - 1]
    }

    /// Mutator p, from 1 to 4.
    pub fn mutator(&self, p: u8) -> &Mutator {
        &self.mutators[usize::from(p) - 1]
    }

    pub fn mutator_mut(&mut self, p: u8) -> &mut Mutator {
        &mut self.mutators[usize::from(p) - 1]
    }

    /// The common part of process p, from 0 to 4.
    pub fn own(&self, p: u8) -> &Process {
        match p {
            0 => &self.collector.own,
            _ => &self.mutator(p).own,
        }
    }

    pub fn own_mut(&mut self, p: u8) -> &mut Process {
        match p {
            0 => &mut self.collector.own,
            _ => &mut self.mutator_mut(p).own,
        }
    }

    /// The mutators in use.
    pub fn live_mutators(&self) -> &[Mutator] {
        &self.mutators[..usize::from(self.m).min(MUTATORS)]
    }

    /// The common parts of the processes in use, the collector's first.
    pub fn processes(&self) -> impl Iterator<Item = &Process> {
        let mutators = self.live_mutators().iter().map(|mutator| &mutator.own);
        std::iter::once(&self.collector.own).chain(mutators)
    }

    /// The step of a mark that process p is at, if it is at one.
    pub fn mark_stage(&self, p: u8) -> Option<MarkStage> {
        match p {
            0 => self.collector.place.mark_stage(),
            _ => self.mutator(p).place.mark_stage(),
        }
    }

    /// The cell process p is marking, 0 if none. In an answer no root is
    /// named before its first look.
    pub fn marked_cell(&self, p: u8) -> u8 {
        if p == 0 {
            return self.collector.child;
        }
        let mutator = self.mutator(p);
        match mutator.place {
            MutatorPlace::StoreMarkOld(_) => mutator.honorary,
            MutatorPlace::StoreMarkNew(_) => mutator.value,
            _ => mutator.root,
        }
    }
}

/// The set of all members 1..count. The count is from 0 to 64.
pub fn set_of(count: u8) -> u64 {
    u64::MAX
        .checked_shr(64 - u32::from(count.min(64)))
        .unwrap_or(0)
}

/// The set of member r alone, "bit 0 for cell 1"; empty if r is not 1 to 64.
pub fn bit(r: u8) -> u64 {
    match r {
        1..=64 => 1 << (r - 1),
        _ => 0,
    }
}

/// The set of field f alone, bit 0 for field 0; empty if f is above 1.
pub fn field_bit(f: u8) -> u8 {
    match f {
        0 | 1 => 1 << f,
        _ => 0,
    }
}

/// The members of a set, least first.
pub fn members(set: u64) -> impl Iterator<Item = u8> {
    (1..=64).filter(move |&r| set & bit(r) != 0)
}
