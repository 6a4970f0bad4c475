//! The generator's logs that end with a refused record.

use crate::choice::Choice;
use crate::generate::{Generator, Walk};
use crate::mood::Mood;
use crate::number::{
    BLOCKED, FLAG_DOWN, FULL, NONE_PENDING, NOT_OFFERED, NO_KIND, NO_PROCESS, OCCUPIED, PENDING,
    TAKEN,
};
use crate::place::CollectorPlace::{self, Row4WriteInit, Row7FirstRead, Row7NextRead};
use crate::state::State;

/// What a refused record is aimed at: a number, and for some numbers the
/// rare case of it.
#[derive(Clone, Copy)]
struct Aim {
    number: u8,
    rare: bool,
}

impl Aim {
    /// Whether this choice, refused by this number, is what was aimed at.
    /// Rare are the write of a mark into a full buffer, the collector
    /// blocked, and row 7's read of a field above 1 or already scanned.
    fn hit(self, state: &State, choice: Choice, number: u8) -> bool {
        let rare = match number {
            BLOCKED => choice.process == 0,
            FULL => state.mark_stage(choice.process).is_some(),
            NOT_OFFERED => matches!(state.collector.place, Row7FirstRead | Row7NextRead),
            _ => true,
        };
        number == self.number && (rare || !self.rare)
    }

    /// Where the collector is when the rare case may come.
    fn place(self) -> Option<CollectorPlace> {
        match self.number {
            BLOCKED | NOT_OFFERED if self.rare => Some(Row7FirstRead),
            FULL if self.rare => Some(Row4WriteInit),
            _ => None,
        }
    }
}

/// Logs that end with a refused record.
impl Generator {
    /// Walks, then seeks a record that hits an aim drawn before. One that is
    /// found is followed by two records that must not be taken.
    pub(crate) fn refused(&mut self) -> Vec<u8> {
        let aim = Aim {
            number: self.random.within(2, 10) as u8,
            rare: self.random.percent(40),
        };
        let mood = match aim.number {
            FULL => Mood::hoarding(&mut self.random),
            _ => self.mood(),
        };
        let mut walk = self.open();
        self.approach_aim(&mut walk, &mood, aim);
        if let Some(choice) = self.seek(&mut walk, &mood, aim) {
            let mut record = choice.record();
            if self.random.percent(3) {
                // A wrong check comes before any refusal.
                record[6] ^= self.random.within(1, 255) as u8;
            }
            walk.log.extend(record);
            self.walk(&mut walk, &mood, 2);
        }
        walk.log
    }

    fn approach_aim(&mut self, walk: &mut Walk, mood: &Mood, aim: Aim) {
        if let Some(place) = aim.place() {
            return self.approach_to(walk, place);
        }
        let length = self.length();
        self.approach(walk);
        self.walk(walk, mood, length);
    }

    /// Walks on until a choice hits the aim.
    fn seek(&mut self, walk: &mut Walk, mood: &Mood, aim: Aim) -> Option<Choice> {
        for _ in 0..400 {
            for _ in 0..6 {
                let choice = self.bad_choice(&walk.state, mood, aim);
                let number = walk.take(choice);
                if number != TAKEN && aim.hit(&walk.state, choice, number) {
                    return Some(choice);
                }
            }
            if !self.advance(walk, mood) {
                break;
            }
        }
        None
    }

    /// A choice that may well be what is aimed at.
    fn bad_choice(&mut self, state: &State, mood: &Mood, aim: Aim) -> Choice {
        let p = self.random.within(0, u32::from(state.m)) as u8;
        let own = mood.own_step(state, p, &mut self.random);
        match aim.number {
            NO_PROCESS => Choice {
                process: self.random.within(u32::from(state.m) + 1, 255) as u8,
                ..own
            },
            NO_KIND => Choice {
                kind: self.random.within(2, 255) as u8,
                ..own
            },
            NONE_PENDING => Choice::commit(p),
            FLAG_DOWN => Choice::operation(p, 5, 0, 0, 0),
            OCCUPIED => Choice::operation(p, 0, self.small(state.n), 0, 0),
            FULL => own,
            BLOCKED | PENDING => match self.random.below(6) {
                0 => Choice::commit(p),
                1 => Choice::operation(p, 0, self.small(state.n), 0, 0),
                2 => Choice::operation(p, 4, 0, 0, 0),
                _ => own,
            },
            NOT_OFFERED if aim.rare => Choice {
                f: self.small(0),
                ..mood.own_step(state, 0, &mut self.random)
            },
            _ => self.bad_argument(own, state.n),
        }
    }

    /// The choice with one argument, sometimes two, changed.
    fn bad_argument(&mut self, choice: Choice, n: u8) -> Choice {
        let mut choice = match self.random.percent(20) {
            true => Choice { kind: 1, ..choice },
            false => choice,
        };
        for _ in 0..self.random.within(1, 2) {
            let value = self.small(n);
            match self.random.below(4) {
                0 => choice.operation = value,
                1 => choice.x = value,
                2 => choice.f = value,
                _ => choice.y = value,
            }
        }
        choice
    }

    /// A number from 0 to a little above n, sometimes any byte.
    fn small(&mut self, n: u8) -> u8 {
        match self.random.percent(10) {
            true => self.random.byte(),
            false => self.random.below(u32::from(n) + 3) as u8,
        }
    }
}
