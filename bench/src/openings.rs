//! The generator's headers, those that keep the rule and those that do not.

use crate::generate::{open_with, Generator};
use crate::header::{Fault, Header};
use crate::log::LOG_LIMIT;
use crate::state::{bit, MUTATORS};
use crate::version::Version;

/// Headers that keep the rule.
impl Generator {
    /// A header of a random size, mostly small in version 1; in version 2
    /// half of them have more than 32 cells.
    pub(crate) fn header(&mut self) -> Header {
        let version = self.version();
        let n = match (version, self.random.below(10)) {
            (Version::One, 0..=6) => self.random.within(1, 5),
            (Version::One, 7..=8) => self.random.within(6, 12),
            (Version::One, _) => self.random.within(13, 32),
            (Version::Two, 0..=3) => self.random.within(1, 5),
            (Version::Two, 4) => self.random.within(6, 32),
            (Version::Two, 5..=8) => self.random.within(33, 63),
            (Version::Two, _) => 64,
        };
        let m = self.random.within(1, MUTATORS as u32);
        self.header_of(version, n as u8, m as u8)
    }

    /// A header with n cells and m mutators. In some of more than 32 cells
    /// few are roots, so that a collection takes fewer steps.
    pub(crate) fn header_of(&mut self, version: Version, n: u8, m: u8) -> Header {
        let crowd = self.random.pick(&[20, 50, 80, 100]);
        let occupied = (1..=n)
            .filter(|_| self.random.percent(crowd))
            .fold(0, |set, r| set | bit(r));
        let mut header = self.header_over(version, n, m, occupied);
        if n > Version::One.cells() && self.random.percent(70) {
            for roots in &mut header.roots {
                *roots &= self.random.next_u64() & self.random.next_u64() & self.random.next_u64();
            }
        }
        header
    }

    /// A header with these cells occupied.
    fn header_over(&mut self, version: Version, n: u8, m: u8, occupied: u64) -> Header {
        let cells = (1..=n)
            .map(|r| match occupied & bit(r) {
                0 => [0, 0, 0],
                _ => [1, self.reference(occupied), self.reference(occupied)],
            })
            .collect();
        let roots = (0..m).map(|_| occupied & self.random.next_u64()).collect();
        Header::new(version, cells, roots)
    }

    /// Null or an occupied cell.
    fn reference(&mut self, occupied: u64) -> u8 {
        match self.random.percent(35) {
            true => 0,
            false => self.random.member(occupied),
        }
    }
}

/// Headers that break one clause of the rule.
impl Generator {
    pub(crate) fn random_fault(&mut self) -> Vec<u8> {
        // A log that is too long is left to the sized ones.
        let fault = self.random.pick(&Fault::ALL[1..]);
        self.faulty(fault)
    }

    /// A log whose header breaks this clause and no other. The records
    /// after it are those of the header before it was broken.
    pub fn faulty(&mut self, fault: Fault) -> Vec<u8> {
        if fault == Fault::LogTooLong {
            return self.log_of(LOG_LIMIT + 1);
        }
        let version = self.version();
        let n = match version {
            Version::Two if self.random.percent(25) => 63,
            _ => self.random.within(2, u32::from(version.cells()) - 1) as u8,
        };
        let m = self.random.within(1, MUTATORS as u32) as u8;
        // Cell 1 is occupied and cell n is free.
        let some = self.random.next_u64();
        let occupied = (some | bit(1)) & (bit(n) - 1);
        let mut header = self.header_over(version, n, m, occupied);
        let mut walk = open_with(&header);
        if fault == Fault::Short {
            let length = self.short_length(version, walk.log.len() as u32);
            walk.log.truncate(length as usize);
            return walk.log;
        }
        let (old, mood) = (walk.log.len(), self.mood());
        self.walk(&mut walk, &mood, 5);
        self.break_front(&mut header, version, fault);
        self.break_content(&mut header, version, fault);
        let mut log = header.bytes();
        log.extend(&walk.log[old..]);
        log
    }

    /// A length at which a whole header is cut; in version 2 often by one byte.
    fn short_length(&mut self, version: Version, whole: u32) -> u32 {
        match version {
            Version::Two if self.random.percent(20) => whole - 1,
            _ => self.random.below(whole),
        }
    }

    /// Breaks a clause about the bytes before the cells.
    fn break_front(&mut self, header: &mut Header, version: Version, fault: Fault) {
        let other = self.random.within(1, 255) as u8;
        match fault {
            Fault::FirstByte => header.magic[0] ^= other,
            Fault::SecondByte => header.magic[1] ^= other,
            Fault::ThirdByte => header.magic[2] ^= other,
            Fault::VersionLowByte => header.version = self.wrong_low_byte(version, other),
            Fault::VersionHighByte => header.version = self.wrong_high_byte(version, other),
            Fault::NoCells => {
                header.cells.clear();
                header.roots.fill(0);
            }
            Fault::TooManyCells => {
                let count = self.random.pick(match version {
                    Version::One => &[33, 34, 40, 64, 255],
                    Version::Two => &[65, 66, 96, 128, 255],
                });
                header.cells.resize(count, [0, 0, 0]);
            }
            Fault::NoMutators => header.roots.clear(),
            Fault::TooManyMutators => {
                let count = self.random.pick(&[5, 6, 8, 255]);
                header.roots.resize(count, 0);
            }
            _ => {}
        }
    }

    /// A version whose low byte is neither 1 nor 2. In version 2 it is often a
    /// neighbour, or one of the two in the wrong byte order.
    fn wrong_low_byte(&mut self, version: Version, other: u8) -> u16 {
        if version == Version::Two && self.random.percent(60) {
            return self.random.pick(&[0, 3, 4, 1 << 8, 2 << 8, u16::MAX]);
        }
        match version.number() ^ u16::from(other) {
            // The other version is not wrong.
            1 | 2 => 3,
            wrong => wrong,
        }
    }

    /// A version whose low byte is 1 or 2, and its high byte is not 0.
    fn wrong_high_byte(&mut self, version: Version, other: u8) -> u16 {
        let wrong = version.number() ^ (u16::from(other) << 8);
        match version {
            Version::One => wrong,
            Version::Two => self
                .random
                .pick(&[wrong, 1 << 8 | 1, 1 << 8 | 2, 2 << 8 | 1]),
        }
    }

    /// Breaks a clause about the cells or the root sets.
    fn break_content(&mut self, header: &mut Header, version: Version, fault: Fault) {
        let n = header.cells.len() as u8;
        let free = usize::from(n).saturating_sub(1);
        let field = self.random.within(1, 2) as usize;
        let mutator = self.random.below(header.roots.len().max(1) as u32) as usize;
        match fault {
            Fault::OccupiedByte => header.cells[free][0] = self.random.within(2, 255) as u8,
            Fault::FieldAboveN => {
                header.cells[0][field] = self.random.within(u32::from(n) + 1, 255) as u8;
            }
            Fault::FieldNamesFreeCell => header.cells[0][field] = n,
            Fault::FreeCellWithField => {
                header.cells[free][field] = self.random.pick(&[1, 1, n, n + 1, 255]);
            }
            Fault::RootAtOrAboveN => {
                let last = u32::from(version.cells()) - 1;
                header.roots[mutator] |= 1 << self.random.within(u32::from(n), last);
            }
            Fault::RootNamesFreeCell => header.roots[mutator] |= bit(n),
            _ => {}
        }
    }
}
