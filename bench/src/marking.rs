//! "Marking a cell r", one function for each of the seven steps.

use crate::memory::Origin;
use crate::number::Refusal;
use crate::place::MarkStage;
use crate::state::{bit, Phase, State, Store};

/// The stage to go on with, or `None` when the mark is over.
type Further = Option<MarkStage>;
/// That, and where the value this step read came from, if it read one.
type Marked = (Further, Option<Origin>);

/// Takes the given step of process p's mark of r.
pub fn mark_step(state: &mut State, p: u8, r: u8, stage: MarkStage) -> Result<Marked, Refusal> {
    match stage {
        MarkStage::Look => look(state, p, r),
        MarkStage::ReadSense => read_sense(state, p),
        MarkStage::ReadPhase => read_phase(state, p),
        MarkStage::Lock => lock(state, p),
        MarkStage::LookAgain => look_again(state, p, r),
        MarkStage::Write => write(state, p, r),
        MarkStage::Unlock => unlock(state, p, r),
    }
}

/// "look at r's mark".
fn look(state: &mut State, p: u8, r: u8) -> Result<Marked, Refusal> {
    let (look, origin) = state.look(p, r)?;
    state.own_mut(p).look = look;
    Ok((Some(MarkStage::ReadSense), Some(origin)))
}

/// "read fM, stop if equal". "The collector's read of fM here renews its one
/// noted fM."
fn read_sense(state: &mut State, p: u8) -> Result<Marked, Refusal> {
    let (sense, origin) = state.read_mark_sense(p)?;
    state.own_mut(p).sense = sense;
    let further = if state.own(p).look == sense {
        over(state, p)
    } else {
        Some(MarkStage::ReadPhase)
    };
    Ok((further, Some(origin)))
}

/// "read phase, stop if Idle".
fn read_phase(state: &mut State, p: u8) -> Result<Marked, Refusal> {
    let (phase, origin) = state.read_phase(p)?;
    let further = match phase {
        Phase::Idle => over(state, p),
        _ => Some(MarkStage::Lock),
    };
    Ok((further, Some(origin)))
}

/// "lock".
fn lock(state: &mut State, p: u8) -> Result<Marked, Refusal> {
    state.take_lock(p)?;
    Ok((Some(MarkStage::LookAgain), None))
}

/// "look again; if the two looks agree, write".
fn look_again(state: &mut State, p: u8, r: u8) -> Result<Marked, Refusal> {
    let (look, origin) = state.look(p, r)?;
    let further = if look == state.own(p).look {
        MarkStage::Write
    } else {
        MarkStage::Unlock
    };
    Ok((Some(further), Some(origin)))
}

/// "write mark := noted fM (r is now being greyed)".
fn write(state: &mut State, p: u8, r: u8) -> Result<Marked, Refusal> {
    let mark = state.own(p).sense;
    state.write(p, Store::Mark { cell: r, mark })?;
    state.own_mut(p).greying = r;
    Ok((Some(MarkStage::Unlock), None))
}

/// "The unlock also puts a winner's r on its list and ends its greying."
fn unlock(state: &mut State, p: u8, r: u8) -> Result<Marked, Refusal> {
    state.release_lock(p)?;
    let own = state.own_mut(p);
    if own.greying != 0 {
        own.list |= bit(r);
        own.greying = 0;
    }
    Ok((over(state, p), None))
}

/// Zeroes the mark's notes. The collector's noted fM outlives the mark.
fn over(state: &mut State, p: u8) -> Further {
    let own = state.own_mut(p);
    own.look = false;
    if p != 0 {
        own.sense = false;
    }
    None
}
