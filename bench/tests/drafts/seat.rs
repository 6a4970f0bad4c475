//! A process of the table of states, by plain numbers.

use crate::places::{collector_place, mutator_place, of_mark, of_round, Code};
use claysaucer_bench::{Collector, HandshakePhase, MarkStage, Mutator, Process, RoundStage};

/// Its place and what it notes, by the names that the table uses.
#[derive(Clone, Default)]
pub struct Seat {
    pub place: u8,
    pub stage: u8,
    pub x: u8,
    pub f: u8,
    pub y: u8,
    pub old: u8,
    /// The cell being marked: a root, or what a field names.
    pub cell: u8,
    pub grey: u8,
    pub left: u64,
    pub work: u64,
    pub roots: u64,
    pub look: bool,
    pub sense: bool,
    pub part: Part,
}

/// The flag, the in-step bit and the handshake phase.
#[derive(Clone, Default, PartialEq, Eq)]
pub struct Part {
    flag: bool,
    in_step: bool,
    phase: HandshakePhase,
}

impl Seat {
    /// At that place, with notes that fit it: a store of 2 in field 1 of cell
    /// 1, over the old value 3; an answer with the roots 1 and 3 left; row 7
    /// with cell 1 in hand, field 1 of it left unless it is at its drop; row
    /// 10 with cells 1 to 3 left, or 1 to free and the others left; a round
    /// that awaits mutators 1 and 2. Cell 3 is on the list.
    pub fn fitting(code: Code) -> Seat {
        let (place, stage) = code;
        let mut seat = Seat {
            place,
            stage,
            work: 0b100,
            ..Seat::default()
        };
        match place {
            1..=3 => (seat.x, seat.f, seat.y, seat.old) = (1, 1, 2, 3),
            7 => seat.left = 0b101,
            23 | 24 => (seat.x, seat.left) = (1, 0b10),
            25 => seat.x = 1,
            29 => seat.left = 0b111,
            30 => (seat.x, seat.left) = (1, 0b110),
            _ => {}
        }
        match place {
            1 => seat.mark(0, 3),
            2 => seat.mark(0, 2),
            7 if stage == of_mark(MarkStage::Look) => seat.mark(0, 0),
            7 | 23 => seat.mark(2, 2),
            11 | 14 | 16 | 19 | 20 | 26 if stage >= of_round(RoundStage::Raise) => seat.left = 0b11,
            _ => {}
        }
        seat
    }

    /// The notes of a mark of r, which is noted as the cell unless it is the
    /// old value or y: the first look from its second step on, the noted fM
    /// from its third, the cell being greyed at its unlock.
    fn mark(&mut self, cell: u8, r: u8) {
        self.cell = cell;
        self.look = self.stage >= of_mark(MarkStage::ReadSense);
        self.sense = self.stage >= of_mark(MarkStage::ReadPhase);
        if self.stage == of_mark(MarkStage::Unlock) {
            self.grey = r;
        }
    }

    /// One note, by its letter.
    pub fn note(&mut self, letter: char, v: u8) {
        match letter {
            'S' => self.stage = v,
            'X' => self.x = v,
            'F' => self.f = v,
            'Y' => self.y = v,
            'O' => self.old = v,
            'C' => self.cell = v,
            'G' => self.grey = v,
            'N' => self.sense = v != 0,
            'L' => self.left = u64::from(v),
            'W' => self.work = u64::from(v),
            'R' => self.roots = u64::from(v),
            'U' => self.part.flag = true,
            'I' => self.part.in_step = true,
            'H' => self.part.phase = HandshakePhase::Mark,
            letter => panic!("no note has the letter {letter}"),
        }
    }

    /// As a mutator; none if the place is none of a mutator.
    pub fn mutator(&self) -> Option<Mutator> {
        Some(Mutator {
            own: self.own(),
            place: mutator_place((self.place, self.stage))?,
            roots: self.roots,
            honorary: self.old,
            target: self.x,
            field: self.f,
            value: self.y,
            unmarked: self.left,
            root: self.cell,
            flag: self.part.flag,
            in_step: self.part.in_step,
            phase: self.part.phase,
        })
    }

    /// As the collector; none if the place is none of its rows, or if it has
    /// what a mutator alone has: a store, roots, a part in the handshakes.
    pub fn collector(&self) -> Option<Collector> {
        let place = collector_place((self.place, self.stage))?;
        let store = (self.f, self.y, self.old) != (0, 0, 0);
        if store || self.roots != 0 || self.part != Part::default() {
            return None;
        }
        let mut collector = Collector {
            own: self.own(),
            place,
            child: self.cell,
            ..Collector::default()
        };
        match place.in_scan() {
            true => collector.scanned = self.x,
            false => collector.doomed = self.x,
        }
        match place.round_stage() {
            Some(_) => collector.awaited = self.left as u8,
            None if place.keeps_fields() => collector.unscanned = self.left as u8,
            None => collector.unswept = self.left,
        }
        Some(collector)
    }

    fn own(&self) -> Process {
        Process {
            list: self.work,
            greying: self.grey,
            look: self.look,
            sense: self.sense,
            ..Process::default()
        }
    }
}
