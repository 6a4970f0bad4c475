//! Named events of a run, told from one record's state before and after.

use crate::choice::Choice;
use crate::named::named;
use crate::number::{BLOCKED, FLAG_DOWN, FULL, NONE_PENDING, NOT_OFFERED, PENDING, TAKEN};
use crate::place::{CollectorPlace, MarkStage, MutatorPlace, RoundStage};
use crate::state::{bit, State, Store, BUFFER_ROOM};
use crate::version::Version;
use Event::*;

named! {
/// Something worth reaching.
Event {
    MarkWon => "mark won",
    MarkRaceWon => "mark race won (another process is marking the same cell)",
    MarkRaceLost => "mark race lost (the two looks disagree)",
    MarkStopEqual => "mark stopped, equal to fM",
    MarkStopIdle => "mark stopped, phase Idle",
    BufferFull => "buffer full",
    OwnStoreRead => "read past memory, from one's own pending store",
    CommitMark => "commit of a mark",
    CommitField => "commit of a field",
    CommitMarkSense => "commit of fM",
    CommitAllocationSense => "commit of fA",
    CommitPhase => "commit of a phase",
    AllocatedBlack => "allocation of a black cell",
    AllocatedWhite => "allocation of a white cell",
    AllocatedAgain => "freed cell allocated again",
    RootDropped => "root dropped",
    LoadOfNull => "load of null",
    LoadOfReference => "load of a reference",
    StoreOverNull => "store over null",
    StoreOverReference => "store over a reference",
    StoreOfNull => "store of null",
    StoreOfNullOverReference => "store of null over a reference",
    TopFence => "fence at top",
    AnswerNoOp => "answer to no-op",
    AnswerRoots => "answer to roots",
    AnswerRootsNone => "answer to roots without a root",
    AnswerRootsMoved => "answer to roots that moves a list",
    AnswerWork => "answer to work",
    AnswerWorkMoved => "answer to work that moves a list",
    NoOpKeepsList => "answer to no-op that keeps a list",
    ListJoined => "list joined to one the system holds",
    PollUp => "poll that finds the flag up",
    PollDown => "poll that finds the flag down",
    Row6Empty => "row 6 take, empty",
    Row6Full => "row 6 take, not empty",
    Row8Empty => "row 8 take, empty",
    Row8Full => "row 8 take, not empty",
    Field0First => "row 7 scans both fields, field 0 first",
    Field1First => "row 7 scans both fields, field 1 first",
    ScanGrew => "row 7 list grown by its own marks",
    SweepKept => "sweep keeps a cell",
    SweepPassed => "sweep passes a free cell",
    CellFreed => "cell freed",
    Collected => "collection finished",
    CollectedTwice => "second collection finished in one log",
    CollectedFive => "fifth collection finished in one log",
    BadOperation => "refusal 4, operation above 5",
    BadArgumentTop => "refusal 4 at top",
    BadArgumentInside => "refusal 4 of a mutator inside an operation",
    BadArgumentCollector => "refusal 4 of the collector, no argument used",
    BadArgumentLeft => "refusal 4, not among those left",
    FieldScanned => "refusal 4, field already scanned",
    FieldAboveFirst => "refusal 4, field above 1 at row 7's first read",
    FieldAboveNext => "refusal 4, field above 1 at row 7's next read",
    BadArgumentCommit => "refusal 4 of a commit",
    CollectorNothingPending => "refusal 5 of the collector",
    MutatorNothingPending => "refusal 5 of a mutator",
    FlagDown => "refusal 6",
    BlockedAllocation => "refusal 7, allocation",
    BlockedLoad => "refusal 7, load or a store's first read",
    BlockedMark => "refusal 7, read of a mutator's mark",
    BlockedLock => "refusal 7, lock step",
    BlockedScan => "refusal 7, row 7's read of a field",
    BlockedCollectorMark => "refusal 7, read of the collector's mark",
    BlockedCommit => "refusal 7, commit",
    PendingTop => "refusal 8 at top",
    PendingAnswer => "refusal 8 at an answer's fence",
    PendingRound => "refusal 8 at a round's fence",
    PendingUnlock => "refusal 8 at an unlock",
    FullField => "refusal 9, write of a field",
    FullMark => "refusal 9, write of a mark",
    HighAllocated => "allocation of a cell above 32",
    HighDropped => "root above 32 dropped",
    HighLoaded => "load of a reference above 32",
    HighMarked => "mark won of a cell above 32",
    HighCommitted => "commit of a field of a cell above 32 that names one above 32",
    HighScanned => "row 7 scans both fields of a cell above 32",
    HighFreed => "cell above 32 freed",
}
}

/// One record: the state before, the choice, its number, the state after.
#[derive(Clone, Copy)]
pub struct Record<'a> {
    pub before: &'a State,
    pub choice: Choice,
    pub number: u8,
    pub after: &'a State,
}

impl Record<'_> {
    fn p(&self) -> u8 {
        self.choice.process
    }

    /// Where the mutator was, if the choice is a mutator's.
    fn mutator_place(&self) -> Option<MutatorPlace> {
        (1..=self.before.m)
            .contains(&self.p())
            .then(|| self.before.mutator(self.p()).place)
    }

    fn mark_stage(&self) -> Option<MarkStage> {
        self.before.mark_stage(self.p())
    }

    /// The events of this record.
    pub fn events(&self) -> Vec<Event> {
        let mut events = Vec::new();
        if self.number != TAKEN {
            events.extend(self.refusal());
        } else if self.choice.kind == 1 {
            events.extend(self.commit());
        } else {
            self.own_step(&mut events);
        }
        let high: Vec<_> = events
            .iter()
            .filter_map(|&event| self.high(event))
            .collect();
        events.extend(high);
        events
    }

    /// What the event is besides, where its cell is one that version 1 has not.
    fn high(&self, event: Event) -> Option<Event> {
        let Choice { x, f, .. } = self.choice;
        let collector = &self.before.collector;
        let (cell, high) = match event {
            AllocatedBlack | AllocatedWhite => (x, HighAllocated),
            RootDropped => (x, HighDropped),
            LoadOfReference => (self.before.read_field(self.p(), x, f).ok()?.0, HighLoaded),
            MarkWon => (self.before.own(self.p()).greying, HighMarked),
            CommitField => (self.committed_cell()?, HighCommitted),
            Field0First | Field1First => (collector.scanned, HighScanned),
            CellFreed => (collector.doomed, HighFreed),
            _ => return None,
        };
        (cell > Version::One.cells()).then_some(high)
    }

    /// Of a field that is committed, its cell or the one it then names,
    /// whichever is less.
    fn committed_cell(&self) -> Option<u8> {
        match *self.before.own(self.p()).buffer.front()? {
            Store::Field { cell, value, .. } => Some(cell.min(value)),
            _ => None,
        }
    }

    fn commit(&self) -> Option<Event> {
        let store = self.before.own(self.p()).buffer.front()?;
        Some(match store {
            Store::Mark { .. } => CommitMark,
            Store::Field { .. } => CommitField,
            Store::MarkSense(_) => CommitMarkSense,
            Store::AllocationSense(_) => CommitAllocationSense,
            Store::Phase(_) => CommitPhase,
        })
    }

    fn own_step(&self, events: &mut Vec<Event>) {
        let full = |state: &State| state.own(self.p()).buffer.len() == BUFFER_ROOM;
        if full(self.after) && !full(self.before) {
            events.push(BufferFull);
        }
        self.mark(events);
        match self.mutator_place() {
            Some(MutatorPlace::Top) => self.operation(events),
            Some(place) => self.answer(place, events),
            None => self.collector(events),
        }
    }

    fn mark(&self, events: &mut Vec<Event>) {
        let (p, r) = (self.p(), self.before.marked_cell(self.p()));
        let further = self.after.mark_stage(p);
        let over = further <= Some(MarkStage::Look);
        let lost = further == Some(MarkStage::Unlock);
        match self.mark_stage() {
            Some(MarkStage::ReadSense) if over => events.push(MarkStopEqual),
            Some(MarkStage::ReadPhase) if over => events.push(MarkStopIdle),
            Some(MarkStage::LookAgain) if lost => events.push(MarkRaceLost),
            Some(MarkStage::Unlock) if self.before.own(p).greying != 0 => {
                events.push(MarkWon);
                if (0..=self.before.m).any(|q| q != p && is_marking(self.before, q, r)) {
                    events.push(MarkRaceWon);
                }
            }
            _ => {}
        }
    }

    fn operation(&self, events: &mut Vec<Event>) {
        let Choice {
            operation, x, f, y, ..
        } = self.choice;
        match operation {
            0 if self.after.cell(x).mark == self.after.mark_sense => events.push(AllocatedBlack),
            0 => events.push(AllocatedWhite),
            1 => events.push(RootDropped),
            2 | 3 => self.first_read(x, f, y, events),
            4 => events.push(TopFence),
            _ => {}
        }
    }

    /// A load or the first step of a store.
    fn first_read(&self, x: u8, f: u8, y: u8, events: &mut Vec<Event>) {
        let Ok((value, _)) = self.before.read_field(self.p(), x, f) else {
            return;
        };
        if value != self.before.cell(x).fields[usize::from(f)] {
            events.push(OwnStoreRead);
        }
        match (self.choice.operation, value) {
            (2, 0) => events.push(LoadOfNull),
            (2, _) => events.push(LoadOfReference),
            (_, 0) => events.push(StoreOverNull),
            _ => events.push(StoreOverReference),
        }
        match (self.choice.operation, y, value) {
            (3, 0, 0) => events.push(StoreOfNull),
            (3, 0, _) => events.push(StoreOfNullOverReference),
            _ => {}
        }
    }

    fn answer(&self, place: MutatorPlace, events: &mut Vec<Event>) {
        let list = self.before.own(self.p()).list;
        let finishes = self.after.mutator(self.p()).place == MutatorPlace::RootsFinish;
        match place {
            MutatorPlace::RootsFence if finishes => events.push(AnswerRootsNone),
            MutatorPlace::NoOpFinish => {
                events.push(AnswerNoOp);
                events.extend((list != 0).then_some(NoOpKeepsList));
            }
            MutatorPlace::RootsFinish => {
                events.push(AnswerRoots);
                events.extend((list != 0).then_some(AnswerRootsMoved));
            }
            MutatorPlace::WorkFinish => {
                events.push(AnswerWork);
                events.extend((list != 0).then_some(AnswerWorkMoved));
            }
            _ => {}
        }
        let joined =
            self.before.system.list != 0 && self.after.system.list != self.before.system.list;
        events.extend(joined.then_some(ListJoined));
    }

    fn collector(&self, events: &mut Vec<Event>) {
        let (before, after) = (&self.before.collector, &self.after.collector);
        let empty = after.own.list == 0;
        let x_bit = bit(self.choice.x);
        match before.place {
            CollectorPlace::Row6Take => events.push(if empty { Row6Empty } else { Row6Full }),
            CollectorPlace::Row8Take => events.push(if empty { Row8Empty } else { Row8Full }),
            CollectorPlace::Row7NextRead => events.push(match self.choice.f {
                0 => Field1First,
                _ => Field0First,
            }),
            CollectorPlace::Row10Look => self.sweep_look(events),
            CollectorPlace::Row10Free => events.push(CellFreed),
            CollectorPlace::Row11WriteIdle => events.push(Collected),
            place if place.round_stage() == Some(RoundStage::Poll) => {
                let up = u64::from(after.awaited) & x_bit != 0;
                events.push(if up { PollUp } else { PollDown });
            }
            _ => {}
        }
        let grew = before.place.mark_stage().is_some() && after.own.list & !before.own.list != 0;
        events.extend(grew.then_some(ScanGrew));
    }

    fn sweep_look(&self, events: &mut Vec<Event>) {
        if !self.before.cell(self.choice.x).occupied {
            events.push(SweepPassed);
        } else if self.after.collector.place != CollectorPlace::Row10Free {
            events.push(SweepKept);
        }
    }

    fn refusal(&self) -> Option<Event> {
        match (self.number, self.mutator_place()) {
            (NOT_OFFERED, place) => Some(self.bad_argument(place)),
            (NONE_PENDING, None) => Some(CollectorNothingPending),
            (NONE_PENDING, Some(_)) => Some(MutatorNothingPending),
            (FLAG_DOWN, _) => Some(FlagDown),
            (BLOCKED, place) => Some(self.blocked(place)),
            (PENDING, place) => Some(self.pending(place)),
            (FULL, _) if self.mark_stage().is_some() => Some(FullMark),
            (FULL, Some(_)) => Some(FullField),
            _ => None,
        }
    }

    fn bad_argument(&self, place: Option<MutatorPlace>) -> Event {
        if self.choice.kind == 1 {
            return BadArgumentCommit;
        }
        match place {
            Some(MutatorPlace::Top) if self.choice.operation > 5 => BadOperation,
            Some(MutatorPlace::Top) => BadArgumentTop,
            Some(MutatorPlace::RootsMark(MarkStage::Look)) => BadArgumentLeft,
            Some(_) => BadArgumentInside,
            None => self.bad_collector_argument(),
        }
    }

    fn bad_collector_argument(&self) -> Event {
        use CollectorPlace::{Row10Look, Row7FirstRead, Row7NextRead};
        let Choice { x, f, .. } = self.choice;
        let collector = &self.before.collector;
        let x_fits = match collector.place {
            Row7FirstRead => collector.own.list & bit(x) != 0,
            _ => x == 0,
        };
        let f_alone_bad = x_fits && self.choice == Choice::field_read(x, f);
        match collector.place {
            Row7FirstRead if f_alone_bad => FieldAboveFirst,
            Row7NextRead if f_alone_bad && f > 1 => FieldAboveNext,
            Row7NextRead if f_alone_bad => FieldScanned,
            Row7FirstRead | Row7NextRead | Row10Look => BadArgumentLeft,
            place if place.round_stage() >= Some(RoundStage::Raise) => BadArgumentLeft,
            _ => BadArgumentCollector,
        }
    }

    fn blocked(&self, place: Option<MutatorPlace>) -> Event {
        if self.choice.kind == 1 {
            return BlockedCommit;
        }
        match (self.mark_stage(), place) {
            (Some(MarkStage::Lock), _) => BlockedLock,
            (Some(_), Some(_)) => BlockedMark,
            (Some(_), None) => BlockedCollectorMark,
            (None, Some(_)) if self.choice.operation == 0 => BlockedAllocation,
            (None, Some(_)) => BlockedLoad,
            (None, None) => BlockedScan,
        }
    }

    fn pending(&self, place: Option<MutatorPlace>) -> Event {
        match (self.mark_stage(), place) {
            (Some(_), _) => PendingUnlock,
            (None, Some(MutatorPlace::Top)) => PendingTop,
            (None, Some(_)) => PendingAnswer,
            (None, None) => PendingRound,
        }
    }
}

/// Whether process q has looked at r and has not finished marking it.
fn is_marking(state: &State, q: u8, r: u8) -> bool {
    state.mark_stage(q) > Some(MarkStage::Look) && state.marked_cell(q) == r
}
