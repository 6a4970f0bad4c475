//! Logs of the mix that are damaged after they were made.

use crate::generate::Generator;
use crate::header::parse_header;
use crate::log::RECORD_LENGTH;
use crate::version::Version;

/// Where the version's low byte stands, and N.
const VERSION_AT: usize = 3;
const CELLS_AT: usize = 5;

/// What is done to a log.
#[derive(Clone, Copy, Debug, PartialEq, Eq)]
pub enum Damage {
    /// It ends anywhere.
    Cut,
    /// Some bytes are changed, wherever they are.
    Flipped,
    /// The end of another log stands after its beginning, at any byte.
    Joined,
    /// Records of another log stand between its own.
    Spliced,
    /// A record is given twice.
    Repeated,
    /// A record is left out.
    Dropped,
    /// Two records have changed places.
    Swapped,
    /// A record has another byte, and the check of it.
    Altered,
    /// It calls itself of the other version, 1 or 2.
    Renumbered,
}

impl Damage {
    pub const ALL: [Damage; 9] = [
        Damage::Cut,
        Damage::Flipped,
        Damage::Joined,
        Damage::Spliced,
        Damage::Repeated,
        Damage::Dropped,
        Damage::Swapped,
        Damage::Altered,
        Damage::Renumbered,
    ];
}

/// Logs that are damaged.
impl Generator {
    /// A log of the mix with this damage. One that has no record to damage
    /// stays as it is.
    pub fn damaged(&mut self, damage: Damage) -> Vec<u8> {
        let mut log = self.next_log();
        match damage {
            Damage::Cut => log.truncate(self.random.below(log.len() as u32 + 1) as usize),
            Damage::Flipped => self.flip(&mut log),
            Damage::Joined => self.join(&mut log),
            Damage::Spliced => self.splice(&mut log),
            Damage::Repeated => self.repeat(&mut log),
            Damage::Dropped => self.drop_record(&mut log),
            Damage::Swapped => self.swap(&mut log),
            Damage::Altered => self.alter(&mut log),
            Damage::Renumbered => renumber(&mut log),
        }
        log
    }

    fn flip(&mut self, log: &mut [u8]) {
        for _ in 0..self.random.within(1, 4) {
            if !log.is_empty() {
                let at = self.random.below(log.len() as u32) as usize;
                log[at] ^= self.random.within(1, 255) as u8;
            }
        }
    }

    fn join(&mut self, log: &mut Vec<u8>) {
        let other = self.next_log();
        log.truncate(self.random.below(log.len() as u32 + 1) as usize);
        let from = self.random.below(other.len() as u32 + 1) as usize;
        log.extend(&other[from..]);
    }

    fn splice(&mut self, log: &mut Vec<u8>) {
        let other = self.next_log();
        let (Some(at), Some(from)) = (self.record_of(log), self.record_of(&other)) else {
            return;
        };
        let count = self.random.within(1, 8) as usize * RECORD_LENGTH;
        let end = other.len().min(from + count);
        log.splice(at..at, other[from..end].iter().copied());
    }

    fn repeat(&mut self, log: &mut Vec<u8>) {
        if let Some(at) = self.record_of(log) {
            log.extend_from_within(at..at + RECORD_LENGTH);
            log[at..].rotate_right(RECORD_LENGTH);
        }
    }

    fn drop_record(&mut self, log: &mut Vec<u8>) {
        if let Some(at) = self.record_of(log) {
            log.drain(at..at + RECORD_LENGTH);
        }
    }

    fn swap(&mut self, log: &mut [u8]) {
        if let (Some(one), Some(other)) = (self.record_of(log), self.record_of(log)) {
            for i in 0..RECORD_LENGTH {
                log.swap(one + i, other + i);
            }
        }
    }

    fn alter(&mut self, log: &mut [u8]) {
        let Some(at) = self.record_of(log) else {
            return;
        };
        let wide = log[CELLS_AT] > Version::One.cells();
        if let Some([choice @ .., low, high]) = log[at..].first_chunk_mut::<RECORD_LENGTH>() {
            let limit = if wide { self.random.pick(&[6, 70]) } else { 6 };
            choice[self.random.below(6) as usize] = self.random.below(limit) as u8;
            let check = choice.iter().map(|&byte| u16::from(byte)).sum::<u16>() + 1;
            [*low, *high] = check.to_le_bytes();
        }
    }

    /// Where some whole record begins, if the log has a header and one.
    fn record_of(&mut self, log: &[u8]) -> Option<usize> {
        let (_, records) = parse_header(log).ok()?;
        let count = records.len() / RECORD_LENGTH;
        if count == 0 {
            return None;
        }
        let record = self.random.below(count as u32) as usize;
        Some(log.len() - records.len() + record * RECORD_LENGTH)
    }
}

/// Changes version 1 into 2 and 2 into 1.
fn renumber(log: &mut [u8]) {
    if let Some(low @ (1 | 2)) = log.get_mut(VERSION_AT) {
        *low = 3 - *low;
    }
}
