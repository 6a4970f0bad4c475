//! What a record asks for, and whether its arguments are offered.

use crate::number::Refusal;

/// What a record names: process, kind, operation, x, f and y.
#[derive(Clone, Copy, Debug, Default, PartialEq, Eq)]
pub struct Choice {
    pub process: u8,
    pub kind: u8,
    pub operation: u8,
    pub x: u8,
    pub f: u8,
    pub y: u8,
}

impl Choice {
    /// The bare own step of a process.
    pub fn own(process: u8) -> Choice {
        Choice {
            process,
            ..Choice::default()
        }
    }

    /// A commit of a process.
    pub fn commit(process: u8) -> Choice {
        Choice {
            kind: 1,
            ..Choice::own(process)
        }
    }

    /// The own step that names x.
    pub fn naming(process: u8, x: u8) -> Choice {
        Choice {
            x,
            ..Choice::own(process)
        }
    }

    /// The collector's read of field f in row 7. It names x at the first read
    /// of a cell; at the next x is 0.
    pub fn field_read(x: u8, f: u8) -> Choice {
        Choice {
            x,
            f,
            ..Choice::own(0)
        }
    }

    /// An operation of a mutator at top.
    pub fn operation(process: u8, operation: u8, x: u8, f: u8, y: u8) -> Choice {
        Choice {
            operation,
            x,
            f,
            y,
            ..Choice::own(process)
        }
    }

    /// Refusal 4 for a place that uses no argument.
    pub(crate) fn bare(self) -> Result<(), Refusal> {
        offered((self.operation, self.x, self.f, self.y) == (0, 0, 0, 0))
    }

    /// Refusal 4 for a place that uses x alone.
    pub(crate) fn only_x(self) -> Result<u8, Refusal> {
        offered((self.operation, self.f, self.y) == (0, 0, 0))?;
        Ok(self.x)
    }

    /// Refusal 4 for a place that uses f alone.
    pub(crate) fn only_f(self) -> Result<u8, Refusal> {
        offered((self.operation, self.x, self.y) == (0, 0, 0))?;
        Ok(self.f)
    }

    /// Refusal 4 for a place that uses x and f.
    pub(crate) fn only_x_and_f(self) -> Result<(u8, u8), Refusal> {
        offered((self.operation, self.y) == (0, 0))?;
        Ok((self.x, self.f))
    }
}

/// Refusal 4 unless the arguments are offered.
pub(crate) fn offered(yes: bool) -> Result<(), Refusal> {
    if yes {
        Ok(())
    } else {
        Err(Refusal::NotOffered)
    }
}
