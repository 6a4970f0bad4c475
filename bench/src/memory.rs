//! "Memory steps (x86-TSO)". Each function makes its checks in number order
//! and changes nothing when it refuses.

use crate::number::{Refusal, READ_MEMORY};
use crate::state::{bit, Cell, Phase, State, Store, BUFFER_ROOM};

/// R-6 of document 02: whether a read "saw the reader's own pending store or
/// memory, with the place in the buffer, oldest counted as 0".
#[derive(Clone, Copy, Debug, PartialEq, Eq)]
pub enum Origin {
    Memory,
    Own(u8),
}

impl Origin {
    /// "0 for memory, the place plus 1 for the own buffer".
    pub fn number(self) -> u8 {
        match self {
            Origin::Memory => READ_MEMORY,
            Origin::Own(place) => place + 1,
        }
    }
}

/// The value that a read gives and where it came from, or why it is refused.
type Read<T> = Result<(T, Origin), Refusal>;

impl State {
    /// "A process is blocked while another holds the lock."
    pub fn blocked(&self, p: u8) -> bool {
        self.lock.is_some_and(|holder| holder != p)
    }

    fn unblocked(&self, p: u8) -> Result<(), Refusal> {
        if self.blocked(p) {
            return Err(Refusal::Blocked);
        }
        Ok(())
    }

    fn occupied(&self, r: u8) -> Result<(), Refusal> {
        if !self.cell(r).occupied {
            return Err(Refusal::Free);
        }
        Ok(())
    }

    fn buffer_empty(&self, p: u8) -> Result<(), Refusal> {
        if !self.own(p).buffer.is_empty() {
            return Err(Refusal::Pending);
        }
        Ok(())
    }

    /// "A read gives the newest matching store of the reader's own buffer,
    /// else memory", here with where that was. Every read is one of these.
    fn seen<T>(&self, p: u8, memory: T, matching: impl Fn(&Store) -> Option<T>) -> (T, Origin) {
        let mut newest_first = self.own(p).buffer.iter().enumerate().rev();
        let own = newest_first
            .find_map(|(place, store)| Some((matching(store)?, Origin::Own(place as u8))));
        own.unwrap_or((memory, Origin::Memory))
    }

    /// The mark of r as process p sees it.
    fn seen_mark(&self, p: u8, r: u8) -> (bool, Origin) {
        self.seen(p, self.cell(r).mark, |store| match *store {
            Store::Mark { cell, mark } if cell == r => Some(mark),
            _ => None,
        })
    }

    /// A look at r's mark.
    pub fn look(&self, p: u8, r: u8) -> Read<bool> {
        self.unblocked(p)?;
        self.occupied(r)?;
        Ok(self.seen_mark(p, r))
    }

    /// The sweep's look, which refusal 11 excepts: `None` for a free cell. It
    /// reads there too, where a mark of the cell would be pending.
    pub fn sweep_look(&self, p: u8, r: u8) -> Read<Option<bool>> {
        self.unblocked(p)?;
        let (mark, origin) = self.seen_mark(p, r);
        Ok((self.cell(r).occupied.then_some(mark), origin))
    }

    /// A read of field f of r.
    pub fn read_field(&self, p: u8, r: u8, f: u8) -> Read<u8> {
        self.unblocked(p)?;
        self.occupied(r)?;
        let memory = self.cell(r).fields[usize::from(f)];
        Ok(self.seen(p, memory, |store| match *store {
            Store::Field { cell, field, value } if cell == r && field == f => Some(value),
            _ => None,
        }))
    }

    /// A read of fM.
    pub fn read_mark_sense(&self, p: u8) -> Read<bool> {
        self.unblocked(p)?;
        Ok(self.seen(p, self.mark_sense, |store| match *store {
            Store::MarkSense(sense) => Some(sense),
            _ => None,
        }))
    }

    /// A read of the phase.
    pub fn read_phase(&self, p: u8) -> Read<Phase> {
        self.unblocked(p)?;
        Ok(self.seen(p, self.phase, |store| match *store {
            Store::Phase(phase) => Some(phase),
            _ => None,
        }))
    }

    /// "A write appends." It is never blocked.
    pub fn write(&mut self, p: u8, store: Store) -> Result<(), Refusal> {
        let buffer = &mut self.own_mut(p).buffer;
        if buffer.len() >= BUFFER_ROOM {
            return Err(Refusal::Full);
        }
        buffer.push_back(store);
        Ok(())
    }

    /// "A fence needs one's own buffer empty."
    pub fn fence(&self, p: u8) -> Result<(), Refusal> {
        self.buffer_empty(p)
    }

    /// "Lock needs the lock free."
    pub fn take_lock(&mut self, p: u8) -> Result<(), Refusal> {
        if self.lock.is_some() {
            return Err(Refusal::Blocked);
        }
        self.lock = Some(p);
        Ok(())
    }

    /// "Unlock needs one's own buffer empty and leaves the lock with nobody."
    pub fn release_lock(&mut self, p: u8) -> Result<(), Refusal> {
        self.buffer_empty(p)?;
        self.lock = None;
        Ok(())
    }

    /// "A commit applies one's oldest store, unblocked."
    pub fn commit(&mut self, p: u8) -> Result<(), Refusal> {
        let oldest = self.own(p).buffer.front().copied();
        let store = oldest.ok_or(Refusal::NonePending)?;
        self.unblocked(p)?;
        match store {
            Store::Mark { cell, mark } => {
                self.occupied(cell)?;
                self.cell_mut(cell).mark = mark;
            }
            Store::Field { cell, field, value } => {
                self.occupied(cell)?;
                self.cell_mut(cell).fields[usize::from(field)] = value;
            }
            Store::MarkSense(sense) => self.mark_sense = sense,
            Store::AllocationSense(sense) => self.allocation_sense = sense,
            Store::Phase(phase) => self.phase = phase,
        }
        self.own_mut(p).buffer.pop_front();
        Ok(())
    }

    /// "allocate free cell x (mark = memory's fA, null fields, x becomes a
    /// root)".
    pub fn allocate(&mut self, p: u8, x: u8) -> Result<(), Refusal> {
        self.unblocked(p)?;
        if self.cell(x).occupied {
            return Err(Refusal::Occupied);
        }
        *self.cell_mut(x) = Cell {
            occupied: true,
            mark: self.allocation_sense,
            fields: [0, 0],
        };
        self.mutator_mut(p).roots |= bit(x);
        Ok(())
    }

    /// Freeing acts on memory at once. A free cell's mark and fields are 0.
    pub fn free(&mut self, p: u8, x: u8) -> Result<(), Refusal> {
        self.unblocked(p)?;
        *self.cell_mut(x) = Cell::default();
        Ok(())
    }
}
