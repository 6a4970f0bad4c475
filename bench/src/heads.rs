//! What R-3 makes of a log's header, told from its bytes.

use crate::header::{parse_header, Fault};
use crate::named::named;
use crate::state::{members, State};
use crate::version::Version;
use Head::*;

named! {
/// A header worth reaching.
Head {
    OneAdmitted => "version 1 admitted",
    TwoAdmitted => "version 2 admitted",
    TwoSmall => "version 2 admitted, N at most 32",
    TwoLarge => "version 2 admitted, N above 32",
    TwoFull => "version 2 admitted, N 64",
    HighRoot => "version 2 admitted, a root above cell 32",
    LastRoot => "version 2 admitted, cell 64 a root",
    HighField => "version 2 admitted, a field names a cell above 32",
    Version0 => "version 0 refused",
    Version3 => "version 3 refused",
    Version257 => "version 257 refused",
    Version512 => "version 512 refused, which is 2 in the wrong byte order",
    Version65535 => "version 65535 refused",
    OneTooMany => "version 1 refused, N above 32",
    OneWith33 => "version 1 refused, N 33",
    TwoTooMany => "version 2 refused, N above 64",
    TwoWith65 => "version 2 refused, N 65",
    OneShort => "version 1 refused, short by one byte",
    TwoShort => "version 2 refused, short by one byte",
    OneRootAboveN => "version 1 refused, a root at or above N",
    TwoRootAboveN => "version 2 refused, a root at or above N",
    TwoBit63 => "version 2 refused, root bit 63 at N 63",
    OneFreeRoot => "version 1 refused, a root names a free cell",
    TwoFreeRoot => "version 2 refused, a root names a free cell",
    HighFreeRoot => "version 2 refused, a root names a free cell above 32",
}
}

/// The bytes of a header that is long enough to be told of.
struct Bytes<'a> {
    log: &'a [u8],
    version: u16,
    n: u8,
    m: u8,
}

impl Head {
    /// What the header of this log is. The log is not too long.
    pub fn of(log: &[u8]) -> Vec<Head> {
        let &[_, _, _, low, high, n, m, ..] = log else {
            return Vec::new();
        };
        let bytes = Bytes {
            log,
            version: u16::from_le_bytes([low, high]),
            n,
            m,
        };
        match parse_header(log) {
            Ok((opening, _)) => bytes.admitted(&opening),
            Err(fault) => bytes.refused(fault),
        }
    }
}

/// Those that are so.
fn true_ones<const COUNT: usize>(heads: [(bool, Head); COUNT]) -> Vec<Head> {
    let so = heads.into_iter().filter(|(so, _)| *so);
    so.map(|(_, head)| head).collect()
}

/// Whether version 1 has no such cell.
fn is_high(r: u8) -> bool {
    r > Version::One.cells()
}

impl Bytes<'_> {
    fn is_one(&self) -> bool {
        self.version == Version::One.number()
    }

    fn is_two(&self) -> bool {
        self.version == Version::Two.number()
    }

    fn admitted(&self, opening: &State) -> Vec<Head> {
        if self.is_one() {
            return vec![OneAdmitted];
        }
        let roots = opening.mutators.iter().map(|mutator| mutator.roots);
        let roots = roots.fold(0, |all, roots| all | roots);
        let mut fields = opening.cells.iter().flat_map(|cell| cell.fields);
        true_ones([
            (true, TwoAdmitted),
            (!is_high(self.n), TwoSmall),
            (is_high(self.n), TwoLarge),
            (self.n == 64, TwoFull),
            (members(roots).any(is_high), HighRoot),
            (members(roots).any(|r| r == 64), LastRoot),
            (fields.any(is_high), HighField),
        ])
    }

    fn refused(&self, fault: Fault) -> Vec<Head> {
        let (one, two) = (self.is_one(), self.is_two());
        match fault {
            Fault::VersionLowByte | Fault::VersionHighByte => self.other_version(),
            Fault::TooManyCells => true_ones([
                (one, OneTooMany),
                (one && self.n == 33, OneWith33),
                (two, TwoTooMany),
                (two && self.n == 65, TwoWith65),
            ]),
            Fault::Short => true_ones([
                (one && self.missing(Version::One) == 1, OneShort),
                (two && self.missing(Version::Two) == 1, TwoShort),
            ]),
            Fault::RootAtOrAboveN => true_ones([
                (one, OneRootAboveN),
                (two, TwoRootAboveN),
                (two && self.n == 63, TwoBit63),
            ]),
            Fault::RootNamesFreeCell => true_ones([
                (one, OneFreeRoot),
                (two, TwoFreeRoot),
                (two && self.has_high_free_root(), HighFreeRoot),
            ]),
            _ => Vec::new(),
        }
    }

    fn other_version(&self) -> Vec<Head> {
        true_ones([
            (self.version == 0, Version0),
            (self.version == 3, Version3),
            (self.version == 257, Version257),
            (self.version == 512, Version512),
            (self.version == 65_535, Version65535),
        ])
    }

    /// Where the root sets begin: 7 bytes, then 3 for each cell.
    fn roots_at(&self) -> usize {
        7 + 3 * usize::from(self.n)
    }

    /// The bytes that a short header of this version has not.
    fn missing(&self, version: Version) -> usize {
        let length = self.roots_at() + version.roots_length() * usize::from(self.m);
        length - self.log.len()
    }

    /// Whether a 64-bit root set names a free cell above 32.
    fn has_high_free_root(&self) -> bool {
        let (sets, _) = self.log[self.roots_at()..].as_chunks();
        let sets = sets.iter().take(usize::from(self.m));
        let roots = sets.fold(0, |all, set| all | u64::from_le_bytes(*set));
        let free = |r: u8| self.log[7 + 3 * (usize::from(r) - 1)] == 0;
        members(roots).any(|r| is_high(r) && r <= self.n && free(r))
    }
}
