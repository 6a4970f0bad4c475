//! An independent judge of document 01, with the changes of
//! document 02: the non-moving Schism collector with mutators on x86-TSO.
//!
//! It is the second opinion for a proved judge written elsewhere and shares
//! nothing with it. It is written from these two documents alone.
//!
//! [`judge`] runs a whole log. [`step`] answers one choice on any state, also
//! a malformed one. [`verdict`] weighs a state. [`Generator`] makes logs and
//! [`Coverage`] says what they reached.
//!
//! With the feature `proved`, the module `proved` calls the proved judge, and
//! `Comparison` holds the two against each other.

#![deny(unsafe_code)]

mod choice;
mod collector;
#[cfg(feature = "proved")]
mod compare;
mod coverage;
mod damage;
mod events;
mod generate;
mod header;
mod heads;
mod log;
mod malformed;
mod marked;
mod marking;
mod memory;
mod mood;
mod mutator;
mod named;
pub mod number;
mod openings;
mod place;
#[cfg(feature = "proved")]
pub mod proved;
mod random;
mod refused;
mod state;
mod step;
pub mod timing;
mod verdict;
mod version;

pub use choice::Choice;
#[cfg(feature = "proved")]
pub use compare::{Comparison, Difference};
pub use coverage::Coverage;
pub use damage::Damage;
pub use events::Event;
pub use generate::Generator;
pub use header::{parse_header, Fault, Header};
pub use log::{judge, judge_observed, line, Outcome, LOG_LIMIT, RECORD_LENGTH};
pub use malformed::malformed;
pub use marked::{marked_cases, wide_cases, MarkedCase};
pub use memory::Origin;
pub use place::{CollectorPlace, MarkStage, MutatorPlace, RoundStage};
pub use random::Random;
pub use state::{
    bit, field_bit, members, set_of, Cell, Collector, HandshakePhase, HandshakeType, Mutator,
    Phase, Process, State, Store, System, BOTH_FIELDS, BUFFER_ROOM, CELLS, MUTATORS,
};
pub use step::{apply, attempt, step, Attempt};
pub use verdict::verdict;
pub use version::Version;
