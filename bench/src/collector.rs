//! "Collector": the rows of its table and the steps of a round. Row 7 is as
//! R-4 of document 02 mends it.

use crate::choice::{offered, Choice};
use crate::marking::mark_step;
use crate::number::Refusal;
use crate::place::{CollectorPlace, MarkStage, RoundStage};
use crate::state::{bit, field_bit, set_of, HandshakeType, Phase, State, Store, BOTH_FIELDS};
use crate::step::Attempt;
use CollectorPlace::*;
use HandshakeType::{NoOp, Roots, Work};

/// The collector's process number.
const COLLECTOR: u8 = 0;

/// The collector's own step.
pub fn own_step(state: &mut State, c: Choice) -> Attempt {
    match state.collector.place {
        Row1Round(stage) => round(state, c, (NoOp, stage), Row1Round, Row2Read),
        Row2Read => read_sense(state, c),
        Row2Write => flip_sense(state, c),
        Row3Round(stage) => round(state, c, (NoOp, stage), Row3Round, Row4WriteInit),
        Row4WriteInit => write_phase(state, c, Phase::Init, Row4Round(RoundStage::Fence)),
        Row4Round(stage) => round(state, c, (NoOp, stage), Row4Round, Row5WriteMark),
        Row5WriteMark => write_phase(state, c, Phase::Mark, Row5WriteSense),
        Row5WriteSense => write_allocation_sense(state, c),
        Row5Round(stage) => {
            let next = Row6Round(RoundStage::Fence);
            round(state, c, (NoOp, stage), Row5Round, next)
        }
        Row6Round(stage) => round(state, c, (Roots, stage), Row6Round, Row6Take),
        Row6Take | Row8Take => take_list(state, c),
        Row7FirstRead => first_read(state, c),
        Row7Mark(stage) => mark_child(state, c, stage),
        Row7NextRead => next_read(state, c),
        Row7Drop => drop_scanned(state, c),
        Row8Round(stage) => round(state, c, (Work, stage), Row8Round, Row8Take),
        Row9WriteSweep => start_sweep(state, c),
        Row10Look => sweep_look(state, c),
        Row10Free => sweep_free(state, c),
        Row11WriteIdle => write_phase(state, c, Phase::Idle, Row1Round(RoundStage::Fence)),
    }
}

/// "A round is: fence; set type; raise each flag once; poll". It stays
/// `here`, stage by stage, and goes on to `next` when it is over.
fn round(
    state: &mut State,
    c: Choice,
    (kind, stage): (HandshakeType, RoundStage),
    here: fn(RoundStage) -> CollectorPlace,
    next: CollectorPlace,
) -> Attempt {
    let further = match stage {
        RoundStage::Fence => round_fence(state, c)?,
        RoundStage::SetType => set_type(state, c, kind)?,
        RoundStage::Raise => raise(state, c)?,
        RoundStage::Poll => poll(state, c)?,
    };
    state.collector.place = further.map_or(next, here);
    Ok(None)
}

/// The fence of a round.
fn round_fence(state: &State, c: Choice) -> Result<Option<RoundStage>, Refusal> {
    c.bare()?;
    state.fence(COLLECTOR)?;
    Ok(Some(RoundStage::SetType))
}

/// "set type (all in-step bits off; the system's handshake phase advances
/// for no-op and roots)". Every flag is left to raise then.
fn set_type(
    state: &mut State,
    c: Choice,
    kind: HandshakeType,
) -> Result<Option<RoundStage>, Refusal> {
    c.bare()?;
    state.system.kind = kind;
    for mutator in &mut state.mutators {
        mutator.in_step = false;
    }
    if kind != Work {
        state.system.phase = state.system.phase.next();
    }
    state.collector.awaited = all_mutators(state);
    Ok(Some(RoundStage::Raise))
}

/// "raise each flag once, x naming the mutator". Every mutator is awaited
/// when all flags have been raised.
fn raise(state: &mut State, c: Choice) -> Result<Option<RoundStage>, Refusal> {
    let x = awaited(state, c)?;
    state.mutator_mut(x).flag = true;
    state.collector.awaited &= !mutator_bit(x);
    if state.collector.awaited != 0 {
        return Ok(Some(RoundStage::Raise));
    }
    state.collector.awaited = all_mutators(state);
    Ok(Some(RoundStage::Poll))
}

/// "poll, x naming one still awaited, until none is. A poll that finds the
/// flag up is taken and changes nothing."
fn poll(state: &mut State, c: Choice) -> Result<Option<RoundStage>, Refusal> {
    let x = awaited(state, c)?;
    if !state.mutator(x).flag {
        state.collector.awaited &= !mutator_bit(x);
    }
    let waiting = state.collector.awaited != 0;
    Ok(waiting.then_some(RoundStage::Poll))
}

/// The mutator that x names, one of those left.
fn awaited(state: &State, c: Choice) -> Result<u8, Refusal> {
    let x = c.only_x()?;
    offered(state.collector.awaited & mutator_bit(x) != 0)?;
    Ok(x)
}

fn mutator_bit(x: u8) -> u8 {
    bit(x) as u8
}

fn all_mutators(state: &State) -> u8 {
    set_of(state.m) as u8
}

/// Row 2: "read fM".
fn read_sense(state: &mut State, c: Choice) -> Attempt {
    c.bare()?;
    let (sense, origin) = state.read_mark_sense(COLLECTOR)?;
    state.collector.own.sense = sense;
    state.collector.place = Row2Write;
    Ok(Some(origin))
}

/// Row 2: "then write its opposite, which becomes the noted fM".
fn flip_sense(state: &mut State, c: Choice) -> Attempt {
    c.bare()?;
    let opposite = !state.collector.own.sense;
    state.write(COLLECTOR, Store::MarkSense(opposite))?;
    state.collector.own.sense = opposite;
    state.collector.place = Row3Round(RoundStage::Fence);
    Ok(None)
}

/// Rows 4, 5, 9 and 11: "write phase".
fn write_phase(state: &mut State, c: Choice, phase: Phase, next: CollectorPlace) -> Attempt {
    c.bare()?;
    state.write(COLLECTOR, Store::Phase(phase))?;
    state.collector.place = next;
    Ok(None)
}

/// Row 5: "write fA := noted fM".
fn write_allocation_sense(state: &mut State, c: Choice) -> Attempt {
    c.bare()?;
    let sense = state.collector.own.sense;
    state.write(COLLECTOR, Store::AllocationSense(sense))?;
    state.collector.place = Row5Round(RoundStage::Fence);
    Ok(None)
}

/// Rows 6 and 8: "take the system's list (one step, emptying it; it replaces
/// the collector's own)". Empty: row 9. Not empty: row 7.
fn take_list(state: &mut State, c: Choice) -> Attempt {
    c.bare()?;
    let taken = std::mem::take(&mut state.system.list);
    state.collector.own.list = taken;
    state.collector.place = match taken {
        0 => Row9WriteSweep,
        _ => Row7FirstRead,
    };
    Ok(None)
}

/// Row 7: "x from its list, named at the first read". No field of it has been
/// scanned then.
fn first_read(state: &mut State, c: Choice) -> Attempt {
    let (x, f) = c.only_x_and_f()?;
    offered(state.collector.own.list & bit(x) != 0)?;
    scan(state, x, f, BOTH_FIELDS)
}

/// Row 7: a further read, of the x noted at the first.
fn next_read(state: &mut State, c: Choice) -> Attempt {
    let f = c.only_f()?;
    let (x, unscanned) = (state.collector.scanned, state.collector.unscanned);
    scan(state, x, f, unscanned)
}

/// R-4: "at each field read in row 7 the choice's f names a field not yet
/// scanned, and x keeps its use at the first. Refusal 4 is then given for a
/// field already scanned." Null is not marked.
fn scan(state: &mut State, x: u8, f: u8, unscanned: u8) -> Attempt {
    offered(unscanned & field_bit(f) != 0)?;
    let (child, origin) = state.read_field(COLLECTOR, x, f)?;
    state.collector.scanned = x;
    state.collector.unscanned = unscanned & !field_bit(f);
    state.collector.child = child;
    state.collector.place = match child {
        0 => after_field(state),
        _ => Row7Mark(MarkStage::Look),
    };
    Ok(Some(origin))
}

/// Row 7: "mark it".
fn mark_child(state: &mut State, c: Choice, stage: MarkStage) -> Attempt {
    c.bare()?;
    let (further, origin) = mark_step(state, COLLECTOR, state.collector.child, stage)?;
    if further.is_none() {
        state.collector.child = 0;
    }
    state.collector.place = further.map_or(after_field(state), Row7Mark);
    Ok(origin)
}

/// A field is done: the next one is read, or x is dropped when none is left.
fn after_field(state: &State) -> CollectorPlace {
    match state.collector.unscanned {
        0 => Row7Drop,
        _ => Row7NextRead,
    }
}

/// Row 7: "drop x (one step); until empty". Then row 8.
fn drop_scanned(state: &mut State, c: Choice) -> Attempt {
    c.bare()?;
    let collector = &mut state.collector;
    let scanned = std::mem::take(&mut collector.scanned);
    collector.own.list &= !bit(scanned);
    collector.place = match collector.own.list {
        0 => Row8Round(RoundStage::Fence),
        _ => Row7FirstRead,
    };
    Ok(None)
}

/// Row 9: "write phase Sweep". Every cell number is left to sweep then.
fn start_sweep(state: &mut State, c: Choice) -> Attempt {
    write_phase(state, c, Phase::Sweep, Row10Look)?;
    state.collector.unswept = set_of(state.n);
    Ok(None)
}

/// Row 10: "x naming one left: look at the mark; occupied and unequal to
/// noted fM: free it, as a further step".
fn sweep_look(state: &mut State, c: Choice) -> Attempt {
    let x = c.only_x()?;
    offered(state.collector.unswept & bit(x) != 0)?;
    let (mark, origin) = state.sweep_look(COLLECTOR, x)?;
    let sense = state.collector.own.sense;
    state.collector.unswept &= !bit(x);
    if mark.is_some_and(|mark| mark != sense) {
        state.collector.doomed = x;
        state.collector.place = Row10Free;
    } else {
        state.collector.place = after_sweep(state);
    }
    Ok(Some(origin))
}

/// Row 10: the further step.
fn sweep_free(state: &mut State, c: Choice) -> Attempt {
    c.bare()?;
    state.free(COLLECTOR, state.collector.doomed)?;
    state.collector.doomed = 0;
    state.collector.place = after_sweep(state);
    Ok(None)
}

/// Row 10 is "for each cell number"; row 11 follows when none is left.
fn after_sweep(state: &State) -> CollectorPlace {
    match state.collector.unswept {
        0 => Row11WriteIdle,
        _ => Row10Look,
    }
}
