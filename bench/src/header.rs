//! The head of a log: bytes "MGT", version, N, M, cells and root sets. What
//! the versions differ in is in [`Version`].

use crate::state::{bit, set_of, State, MUTATORS};
use crate::version::Version;

/// "Bytes 4D 47 54".
const MAGIC: [u8; 3] = *b"MGT";
/// Bytes before the cells.
const FIXED: usize = 7;
/// Bytes of a cell.
const CELL_LENGTH: usize = 3;

/// The clause of the header's rule that a log breaks first. All of them are
/// stop 12. The version's low byte is wrong if it is neither 1 nor 2, and there
/// are too many cells if there are more than the version has room for.
#[derive(Clone, Copy, Debug, PartialEq, Eq, PartialOrd, Ord)]
pub enum Fault {
    LogTooLong,
    Short,
    FirstByte,
    SecondByte,
    ThirdByte,
    VersionLowByte,
    VersionHighByte,
    NoCells,
    TooManyCells,
    NoMutators,
    TooManyMutators,
    OccupiedByte,
    FieldAboveN,
    FieldNamesFreeCell,
    FreeCellWithField,
    RootAtOrAboveN,
    RootNamesFreeCell,
}

impl Fault {
    pub const ALL: [Fault; 17] = [
        Fault::LogTooLong,
        Fault::Short,
        Fault::FirstByte,
        Fault::SecondByte,
        Fault::ThirdByte,
        Fault::VersionLowByte,
        Fault::VersionHighByte,
        Fault::NoCells,
        Fault::TooManyCells,
        Fault::NoMutators,
        Fault::TooManyMutators,
        Fault::OccupiedByte,
        Fault::FieldAboveN,
        Fault::FieldNamesFreeCell,
        Fault::FreeCellWithField,
        Fault::RootAtOrAboveN,
        Fault::RootNamesFreeCell,
    ];
}

/// What a header says, as plain numbers, so that it may also be wrong.
#[derive(Clone, Debug, PartialEq, Eq)]
pub struct Header {
    pub magic: [u8; 3],
    pub version: u16,
    /// Occupied, field 0 and field 1 of each cell.
    pub cells: Vec<[u8; 3]>,
    /// Each mutator's root set.
    pub roots: Vec<u64>,
    /// The bytes that each root set is written in, the lowest ones.
    pub roots_length: usize,
}

impl Header {
    /// A header of a version, with the right bytes in front.
    pub fn new(version: Version, cells: Vec<[u8; 3]>, roots: Vec<u64>) -> Header {
        Header {
            magic: MAGIC,
            version: version.number(),
            cells,
            roots,
            roots_length: version.roots_length(),
        }
    }

    /// The header's bytes.
    pub fn bytes(&self) -> Vec<u8> {
        let mut bytes = self.magic.to_vec();
        bytes.extend(self.version.to_le_bytes());
        bytes.push(self.cells.len() as u8);
        bytes.push(self.roots.len() as u8);
        bytes.extend(self.cells.iter().flatten());
        for roots in &self.roots {
            bytes.extend(&roots.to_le_bytes()[..self.roots_length]);
        }
        bytes
    }

    /// The opening state it describes, if it keeps the rule.
    fn opening(&self) -> State {
        let fields = |&[occupied, first, second]: &[u8; 3]| match occupied {
            0 => None,
            _ => Some([first, second]),
        };
        let cells: Vec<_> = self.cells.iter().map(fields).collect();
        State::opening(&cells, &self.roots)
    }

    /// The cells the header calls occupied.
    fn occupied(&self) -> u64 {
        (1u8..)
            .zip(&self.cells)
            .filter(|(_, cell)| cell[0] == 1)
            .fold(0, |set, (r, _)| set | bit(r))
    }

    /// "A field of an occupied cell is 0 or names an occupied cell; roots
    /// name occupied cells; a free cell's fields are 0; no bit at or above N."
    fn content_fault(&self) -> Option<Fault> {
        let occupied = self.occupied();
        let all = set_of(self.cells.len() as u8);
        let cells = self
            .cells
            .iter()
            .map(|&cell| cell_fault(cell, all, occupied));
        let roots = self
            .roots
            .iter()
            .map(|&set| roots_fault(set, all, occupied));
        cells.chain(roots).flatten().next()
    }
}

/// The clause a cell breaks.
fn cell_fault([occupied_byte, first, second]: [u8; 3], all: u64, occupied: u64) -> Option<Fault> {
    let fields = [first, second];
    match occupied_byte {
        0 if fields == [0, 0] => None,
        0 => Some(Fault::FreeCellWithField),
        1 => fields
            .into_iter()
            .find_map(|field| field_fault(field, all, occupied)),
        _ => Some(Fault::OccupiedByte),
    }
}

/// The clause a field of an occupied cell breaks.
fn field_fault(field: u8, all: u64, occupied: u64) -> Option<Fault> {
    if field == 0 || occupied & bit(field) != 0 {
        None
    } else if all & bit(field) == 0 {
        Some(Fault::FieldAboveN)
    } else {
        Some(Fault::FieldNamesFreeCell)
    }
}

/// The clause a root set breaks.
fn roots_fault(set: u64, all: u64, occupied: u64) -> Option<Fault> {
    if set & !all != 0 {
        Some(Fault::RootAtOrAboveN)
    } else if set & !occupied != 0 {
        Some(Fault::RootNamesFreeCell)
    } else {
        None
    }
}

/// Reads a log's header: the opening state and the bytes after it, or the
/// clause that is broken first.
pub fn parse_header(log: &[u8]) -> Result<(State, &[u8]), Fault> {
    check_magic(log)?;
    let version = version(log)?;
    let (cells, mutators) = counts(log, version)?;
    let body = log.get(FIXED..).ok_or(Fault::Short)?;
    let (cell_bytes, rest) = split(body, cells * CELL_LENGTH)?;
    let (root_bytes, records) = split(rest, mutators * version.roots_length())?;
    let header = Header::new(
        version,
        cell_bytes
            .chunks_exact(CELL_LENGTH)
            .map(|c| [c[0], c[1], c[2]])
            .collect(),
        root_bytes
            .chunks_exact(version.roots_length())
            .map(little_endian)
            .collect(),
    );
    match header.content_fault() {
        Some(fault) => Err(fault),
        None => Ok((header.opening(), records)),
    }
}

/// A number of at most 8 bytes, the lowest first.
fn little_endian(bytes: &[u8]) -> u64 {
    bytes
        .iter()
        .rev()
        .fold(0, |number, &byte| number << 8 | u64::from(byte))
}

/// The bytes that are the same in every log.
fn check_magic(log: &[u8]) -> Result<(), Fault> {
    let [first, second, third] = MAGIC;
    let expected = [
        (first, Fault::FirstByte),
        (second, Fault::SecondByte),
        (third, Fault::ThirdByte),
    ];
    for (i, (expected, fault)) in expected.into_iter().enumerate() {
        if byte(log, i)? != expected {
            return Err(fault);
        }
    }
    Ok(())
}

/// The version, "16-bit" and "little-endian": one of the two.
fn version(log: &[u8]) -> Result<Version, Fault> {
    let low = u16::from(byte(log, 3)?);
    let version = Version::ALL
        .into_iter()
        .find(|version| version.number() == low)
        .ok_or(Fault::VersionLowByte)?;
    match byte(log, 4)? {
        0 => Ok(version),
        _ => Err(Fault::VersionHighByte),
    }
}

/// N and M: N from 1 to what the version has room for, "M from 1 to 4".
fn counts(log: &[u8], version: Version) -> Result<(usize, usize), Fault> {
    let n = byte(log, 5)?;
    let m = usize::from(byte(log, 6)?);
    if n == 0 {
        Err(Fault::NoCells)
    } else if n > version.cells() {
        Err(Fault::TooManyCells)
    } else if m == 0 {
        Err(Fault::NoMutators)
    } else if m > MUTATORS {
        Err(Fault::TooManyMutators)
    } else {
        Ok((usize::from(n), m))
    }
}

fn byte(log: &[u8], at: usize) -> Result<u8, Fault> {
    log.get(at).copied().ok_or(Fault::Short)
}

fn split(bytes: &[u8], at: usize) -> Result<(&[u8], &[u8]), Fault> {
    bytes.split_at_checked(at).ok_or(Fault::Short)
}
