//! The two versions of a log, as R-3 of document 02 has them: "Version 2 logs
//! carry root sets of 64 bits; version 1 logs are still read, with N at most
//! 32".

/// A version that is read. All else of the two is alike.
#[derive(Clone, Copy, Debug, PartialEq, Eq, PartialOrd, Ord)]
pub enum Version {
    One,
    Two,
}

/// What a version has.
struct Shape {
    /// The number in the log.
    number: u16,
    /// The most cells, "N at most 32" and "Raise N to 64".
    cells: u8,
    /// The bytes of a root set, "a 32-bit root set" and "root sets of 64
    /// bits".
    roots_length: usize,
}

impl Version {
    pub const ALL: [Version; 2] = [Version::One, Version::Two];

    const fn shape(self) -> Shape {
        match self {
            Version::One => Shape {
                number: 1,
                cells: 32,
                roots_length: 4,
            },
            Version::Two => Shape {
                number: 2,
                cells: 64,
                roots_length: 8,
            },
        }
    }

    /// The number in the log.
    pub const fn number(self) -> u16 {
        self.shape().number
    }

    /// The most cells a log of it may have.
    pub const fn cells(self) -> u8 {
        self.shape().cells
    }

    /// The bytes of each root set.
    pub const fn roots_length(self) -> usize {
        self.shape().roots_length
    }

    /// The least version that has room for n cells.
    pub fn with_room(n: u8) -> Version {
        match n <= Version::One.cells() {
            true => Version::One,
            false => Version::Two,
        }
    }
}
