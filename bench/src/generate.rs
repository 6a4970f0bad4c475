//! A seeded generator of logs, guided by the judge so that runs go deep.

use crate::choice::Choice;
use crate::header::{parse_header, Header};
use crate::log::{LOG_LIMIT, RECORD_LENGTH};
use crate::mood::Mood;
use crate::number::TAKEN;
use crate::place::CollectorPlace;
use crate::random::Random;
use crate::state::State;
use crate::step::apply;
use crate::version::Version;

/// How often a walk may be refused in a row before it ends.
const PATIENCE: u32 = 2_000;

/// Makes logs, long and short, valid and damaged. The same seed gives the
/// same logs. Those of version 1 alone are the ones it gave before R-3.
#[derive(Clone, Debug)]
pub struct Generator {
    pub(crate) random: Random,
    /// The versions of its logs.
    versions: &'static [Version],
}

/// A log being written, with the state its records have reached.
pub(crate) struct Walk {
    pub state: State,
    pub log: Vec<u8>,
}

impl Walk {
    /// Takes a choice. A refused one is not written.
    pub fn take(&mut self, choice: Choice) -> u8 {
        let number = apply(&mut self.state, choice);
        if number == TAKEN {
            self.log.extend(choice.record());
        }
        number
    }
}

impl Generator {
    /// A generator of logs of version 1.
    pub fn new(seed: u64) -> Generator {
        Generator::with(seed, &[Version::One])
    }

    /// A generator of logs of version 2.
    pub fn of_version_2(seed: u64) -> Generator {
        Generator::with(seed, &[Version::Two])
    }

    /// A generator of logs of both versions, drawn by lot.
    pub fn of_both(seed: u64) -> Generator {
        Generator::with(seed, &Version::ALL)
    }

    fn with(seed: u64, versions: &'static [Version]) -> Generator {
        Generator {
            random: Random::new(seed),
            versions,
        }
    }

    /// The version of the next header. Where there is but one, no lot is
    /// drawn.
    pub(crate) fn version(&mut self) -> Version {
        match *self.versions {
            [only] => only,
            _ => self.random.pick(self.versions),
        }
    }

    /// The next log of the mix.
    pub fn next_log(&mut self) -> Vec<u8> {
        match self.random.below(1000) {
            0..=1 => self.sized(),
            2..=59 => self.soup(),
            60..=159 => self.random_fault(),
            160..=239 => self.cut(),
            240..=299 => self.wrong_check(),
            300..=599 => self.refused(),
            _ => self.plain(),
        }
    }

    /// A log whose records are all taken.
    fn plain(&mut self) -> Vec<u8> {
        let (length, mood) = (self.length(), self.mood());
        let mut walk = self.open();
        self.approach(&mut walk);
        self.walk(&mut walk, &mood, length);
        walk.log
    }

    /// A log that ends anywhere.
    fn cut(&mut self) -> Vec<u8> {
        let mut log = self.plain();
        let limit = match self.random.percent(40) {
            true => log.len().min(60),
            false => log.len(),
        };
        log.truncate(self.random.below(limit as u32 + 1) as usize);
        log
    }

    /// A log with one byte of a record changed, which breaks its check.
    fn wrong_check(&mut self) -> Vec<u8> {
        let mut walk = self.open();
        let header = walk.log.len();
        // The collector's first fence is always taken.
        walk.take(Choice::own(0));
        let (length, mood) = (self.length(), self.mood());
        self.walk(&mut walk, &mood, length);
        let mut log = walk.log;
        let damaged = self.random.within(header as u32, log.len() as u32 - 1);
        log[damaged as usize] ^= self.random.within(1, 255) as u8;
        log
    }

    /// Bytes without sense, alone or after a header, or records without sense
    /// and with a right check.
    fn soup(&mut self) -> Vec<u8> {
        let header = match self.random.below(3) {
            0 => None,
            _ => Some(self.header()),
        };
        let mut log = header.as_ref().map(Header::bytes).unwrap_or_default();
        let length = self.random.below(120);
        if log.is_empty() || self.random.percent(20) {
            log.extend((0..length).map(|_| self.random.byte()));
        } else {
            let cells = header.map_or(0, |header| header.cells.len() as u32);
            log.extend((0..length).flat_map(|_| self.senseless(cells).record()));
        }
        log
    }

    /// A choice of mostly small numbers; over more than 32 cells, of any of
    /// them and a little above.
    fn senseless(&mut self, cells: u32) -> Choice {
        let (x, y) = match cells {
            0..=32 => (4, 3),
            _ => (cells + 2, cells + 2),
        };
        let mut small = |limit| match self.random.percent(1) {
            true => self.random.byte(),
            false => self.random.below(limit) as u8,
        };
        Choice {
            process: small(4),
            kind: small(2),
            operation: small(6),
            x: small(x),
            f: small(2),
            y: small(y),
        }
    }

    /// A walk's length: mostly short.
    pub(crate) fn length(&mut self) -> u32 {
        match self.random.below(100) {
            0..=64 => self.random.below(40),
            65..=89 => self.random.within(40, 200),
            90..=97 => self.random.within(200, 800),
            _ => self.random.within(800, 3_000),
        }
    }

    pub(crate) fn mood(&mut self) -> Mood {
        match self.random.percent(10) {
            true => Mood::hoarding(&mut self.random),
            false => Mood::random(&mut self.random),
        }
    }

    /// A new walk at a random opening.
    pub(crate) fn open(&mut self) -> Walk {
        let header = self.header();
        open_with(&header)
    }

    /// In some walks, brings the collector to a place drawn by lot.
    pub(crate) fn approach(&mut self, walk: &mut Walk) {
        if self.random.percent(30) {
            let place = self.random.pick(&CollectorPlace::all());
            self.approach_to(walk, place);
        }
    }

    pub(crate) fn approach_to(&mut self, walk: &mut Walk, place: CollectorPlace) {
        let mood = Mood::brisk();
        for _ in 0..400 {
            if walk.state.collector.place == place || !self.advance(walk, &mood) {
                return;
            }
        }
    }

    /// Takes so many steps, fewer if nothing is taken for long.
    pub(crate) fn walk(&mut self, walk: &mut Walk, mood: &Mood, steps: u32) {
        for _ in 0..steps {
            if !self.advance(walk, mood) {
                return;
            }
        }
    }

    /// Takes one step, if patience allows.
    pub(crate) fn advance(&mut self, walk: &mut Walk, mood: &Mood) -> bool {
        (0..PATIENCE).any(|_| {
            let choice = mood.propose(&walk.state, &mut self.random);
            walk.take(choice) == TAKEN
        })
    }
}

/// The walk that starts with this header, which keeps the rule.
pub(crate) fn open_with(header: &Header) -> Walk {
    let log = header.bytes();
    let state = match parse_header(&log) {
        Ok((state, _)) => state,
        Err(fault) => unreachable!("the generator's own header breaks {fault:?}"),
    };
    Walk { state, log }
}

/// Logs of a named length.
impl Generator {
    fn sized(&mut self) -> Vec<u8> {
        let length = self
            .random
            .within(LOG_LIMIT as u32 - 1, LOG_LIMIT as u32 + 1);
        self.log_of(length as usize)
    }

    /// A log of exactly the length asked, every record of it taken. The header
    /// is such that 65,536 bytes end with a whole record.
    pub fn log_of(&mut self, length: usize) -> Vec<u8> {
        let version = self.version();
        let (n, m) = self.random.pick(match version {
            Version::One => &[(3, 2), (3, 4), (7, 1), (7, 3), (11, 2)],
            Version::Two => &[(3, 2), (11, 4), (35, 1), (43, 3), (59, 2)],
        });
        let header = self.header_of(version, n, m);
        let mut walk = open_with(&header);
        while walk.log.len() < length {
            let mood = Mood::random(&mut self.random);
            for _ in 0..200 {
                if !self.advance(&mut walk, &mood) {
                    break;
                }
            }
        }
        walk.log.truncate(length);
        walk.log
    }

    /// A log of so many records, every one of them taken, over n cells and m
    /// mutators. It mostly has collections, races for a mark and full buffers.
    pub fn log_over(&mut self, version: Version, n: u8, m: u8, records: usize) -> Vec<u8> {
        let header = self.header_of(version, n, m);
        let mut walk = open_with(&header);
        let length = walk.log.len() + records * RECORD_LENGTH;
        while walk.log.len() < length {
            let mood = self.busy_mood();
            self.walk(&mut walk, &mood, 200);
        }
        walk.log.truncate(length);
        walk.log
    }

    fn busy_mood(&mut self) -> Mood {
        match self.random.below(4) {
            0 => Mood::random(&mut self.random),
            1 => Mood::hoarding(&mut self.random),
            _ => Mood::racing(&mut self.random),
        }
    }
}
