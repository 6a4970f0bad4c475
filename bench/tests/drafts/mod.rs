//! The ground of the table of states, and what a case changes of it, by plain
//! numbers: a case may put together what the types of this judge can't say.

pub mod seat;

use crate::script::Act;
use claysaucer_bench::{State, Store, BUFFER_ROOM};
use seat::Seat;
use std::collections::VecDeque;

/// The collector and four mutators, those above M too.
const PROCESSES: usize = 5;

/// A state before it is said in the types of this judge.
pub struct Draft {
    /// Memory, the system, and the processes that no case has changed.
    rest: State,
    seats: [Option<Seat>; PROCESSES],
    buffers: [Pending; PROCESSES],
}

impl Draft {
    /// Three cells: 1, which names 2 in its field 0, and 2 are occupied, 3 is
    /// free. Two mutators: 1 has the root 1, 2 has none.
    pub fn ground() -> Draft {
        Draft::of(&[Some([2, 0]), Some([0, 0]), None], &[0b1, 0])
    }

    /// The ground, with process p as it sits there.
    pub fn seated(p: u8, seat: Seat) -> Draft {
        let mut draft = Draft::ground();
        draft.seats[usize::from(p)] = Some(seat);
        draft
    }

    fn of(cells: &[Option<[u8; 2]>], roots: &[u64]) -> Draft {
        Draft {
            rest: State::opening(cells, roots),
            seats: Default::default(),
            buffers: [Pending::EMPTY; PROCESSES],
        }
    }

    /// The state; none if it can't be said. Then a place is out of range, or
    /// something unused is not zero: a note that its process has not, or an
    /// entry past a buffer's length.
    pub fn state(&self) -> Option<State> {
        let mut state = self.rest.clone();
        if let Some(seat) = &self.seats[0] {
            state.collector = seat.collector()?;
        }
        for (mutator, seat) in state.mutators.iter_mut().zip(&self.seats[1..]) {
            if let Some(seat) = seat {
                *mutator = seat.mutator()?;
            }
        }
        for (p, pending) in (0..).zip(&self.buffers) {
            state.own_mut(p).buffer = pending.queue()?;
        }
        Some(state)
    }

    /// A capital changes a process.
    pub fn change(&mut self, act: &Act) {
        match act.letter {
            'A'..='Z' => self.change_seat(act),
            'b' | 'e' | 'm' | 's' | 'w' => self.buffers[usize::from(act.p)].change(act),
            'n' => *self = bare(act.number(), act.v),
            _ => self.change_memory(act),
        }
    }

    /// A process above M is all zero before; any other is put at a place first.
    fn change_seat(&mut self, act: &Act) {
        let seat = &mut self.seats[usize::from(act.p)];
        if act.letter == 'P' {
            *seat = Some(Seat::fitting(act.place()));
            return;
        }
        let zero = act.p > self.rest.m;
        assert!(zero || seat.is_some(), "process {} has no place", act.p);
        seat.get_or_insert_default().note(act.letter, act.v);
    }

    fn change_memory(&mut self, act: &Act) {
        let Act { p, v, .. } = *act;
        let number = act.number();
        let state = &mut self.rest;
        match act.letter {
            'l' => state.lock = v.checked_sub(1),
            'u' => occupy(state, number),
            'k' => state.cell_mut(number).mark = true,
            'd' => state.cell_mut(number).fields[usize::from(p)] = v,
            'h' => state.system.list = u64::from(v),
            letter => panic!("no change of a state has the letter {letter}"),
        }
    }
}

/// So many cells and processes; no cell is occupied, and there are no roots.
fn bare(cells: u8, processes: u8) -> Draft {
    let roots = vec![0; usize::from(processes) - 1];
    Draft::of(&vec![None; usize::from(cells)], &roots)
}

/// The occupied cells are those of the set.
fn occupy(state: &mut State, set: u8) {
    for (i, cell) in state.cells.iter_mut().enumerate() {
        cell.occupied = u64::from(set) >> i & 1 == 1;
    }
}

/// A buffer by its entries and its length, which may be more than there are.
struct Pending {
    entries: [Store; BUFFER_ROOM],
    len: usize,
}

impl Pending {
    const NO_STORE: Store = Store::Mark {
        cell: 0,
        mark: false,
    };

    const EMPTY: Pending = Pending {
        entries: [Pending::NO_STORE; BUFFER_ROOM],
        len: 0,
    };

    fn change(&mut self, act: &Act) {
        let Act { c, f, v, .. } = *act;
        let at = usize::from(f);
        match act.letter {
            'b' => self.len = usize::from(v),
            'e' => {
                self.entries = [Store::MarkSense(true); BUFFER_ROOM];
                self.len = usize::from(v);
            }
            'm' => {
                self.entries[at] = Store::Mark {
                    cell: c,
                    mark: true,
                }
            }
            's' => self.entries[at] = Store::MarkSense(v != 0),
            _ => {
                self.entries[0] = Store::Field {
                    cell: c,
                    field: f,
                    value: v,
                }
            }
        }
    }

    /// A queue has nothing past its length.
    fn queue(&self) -> Option<VecDeque<Store>> {
        let mut past = self.entries.iter().skip(self.len);
        let stores = self.entries.iter().cycle().take(self.len).copied();
        past.all(|store| *store == Pending::NO_STORE)
            .then(|| stores.collect())
    }
}
