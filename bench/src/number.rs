//! The numbers of document 01: refusals, stops and verdicts; and R-6's of
//! document 02: where the last value read came from.

/// A step that is taken.
pub const TAKEN: u8 = 0;

/// Why a step is refused.
#[derive(Clone, Copy, Debug, PartialEq, Eq)]
pub enum Refusal {
    /// The state is malformed.
    Malformed = 1,
    /// The process is above M.
    NoProcess = 2,
    /// The kind is not 0 or 1.
    NoKind = 3,
    /// An unused argument isn't zero, or a used one isn't offered.
    NotOffered = 4,
    /// A commit with an empty buffer.
    NonePending = 5,
    /// Operation 5, flag down.
    FlagDown = 6,
    /// Blocked, or a lock step while any process holds the lock.
    Blocked = 7,
    /// Fence or unlock, own buffer not empty.
    Pending = 8,
    /// A write, 8 stores pending.
    Full = 9,
    /// Allocation of an occupied cell.
    Occupied = 10,
    /// A look, field read or commit on a free cell.
    Free = 11,
}

impl Refusal {
    pub const fn number(self) -> u8 {
        self as u8
    }
}

// The same as plain numbers: what `step` answers, and a log's stop.
pub const MALFORMED: u8 = Refusal::Malformed.number();
pub const NO_PROCESS: u8 = Refusal::NoProcess.number();
pub const NO_KIND: u8 = Refusal::NoKind.number();
pub const NOT_OFFERED: u8 = Refusal::NotOffered.number();
pub const NONE_PENDING: u8 = Refusal::NonePending.number();
pub const FLAG_DOWN: u8 = Refusal::FlagDown.number();
pub const BLOCKED: u8 = Refusal::Blocked.number();
pub const PENDING: u8 = Refusal::Pending.number();
pub const FULL: u8 = Refusal::Full.number();
pub const OCCUPIED: u8 = Refusal::Occupied.number();
pub const FREE: u8 = Refusal::Free.number();

/// Stop 0: no record left.
pub const STOP_ENDED: u8 = 0;
/// Stop 12: the header breaks a rule, is short, or the log is too long.
pub const STOP_NOT_ADMITTED: u8 = 12;
/// Stop 13: a record's check is wrong.
pub const STOP_WRONG_CHECK: u8 = 13;
/// Stop 14: fewer than 8 bytes left.
pub const STOP_FEW_LEFT: u8 = 14;

/// Verdict 0: none of the others.
pub const VERDICT_SOUND: u8 = 0;
/// Verdict 1: a cell reachable from held references is free.
pub const VERDICT_LOOSE: u8 = 1;
/// Verdict 2: a black cell has a memory field naming a white one.
pub const VERDICT_BLACK_TO_WHITE: u8 = 2;
/// Verdict 3: the handshake table is broken.
pub const VERDICT_HANDSHAKE: u8 = 3;
/// Verdict 4: malformed state.
pub const VERDICT_MALFORMED: u8 = 4;

/// R-6: "0 for memory". From 1 to 8 it is "the place plus 1 for the own
/// buffer".
pub const READ_MEMORY: u8 = 0;
/// "255 if nothing was read".
pub const READ_NOTHING: u8 = 255;
