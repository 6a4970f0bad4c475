//! "Verdicts".

use crate::malformed::malformed;
use crate::number::{
    VERDICT_BLACK_TO_WHITE, VERDICT_HANDSHAKE, VERDICT_LOOSE, VERDICT_MALFORMED, VERDICT_SOUND,
};
use crate::state::{bit, members, HandshakePhase, HandshakeType, Mutator, State, Store, System};

/// "The least number from 1 to 3 that applies is given, with the least such
/// free cell (1), black cell (2) or mutator (3); 0 and 4 carry the number 0."
pub fn verdict(state: &State) -> (u8, u8) {
    if malformed(state) {
        return (VERDICT_MALFORMED, 0);
    }
    let loose = loose_cell(state).map(|r| (VERDICT_LOOSE, r));
    loose
        .or_else(|| black_naming_white(state).map(|r| (VERDICT_BLACK_TO_WHITE, r)))
        .or_else(|| out_of_table(state).map(|p| (VERDICT_HANDSHAKE, p)))
        .unwrap_or((VERDICT_SOUND, 0))
}

/// "Held: roots, honorary roots, targets and values of pending field stores".
fn held(state: &State) -> u64 {
    let mut held = 0;
    for mutator in state.live_mutators() {
        held |= mutator.roots | bit(mutator.honorary);
    }
    for store in state.processes().flat_map(|own| &own.buffer) {
        if let Store::Field { cell, value, .. } = *store {
            held |= bit(cell) | bit(value);
        }
    }
    held
}

/// "1 loose: some cell reachable from held references is free." "reach goes
/// through memory's fields of occupied cells".
fn loose_cell(state: &State) -> Option<u8> {
    let mut reached = held(state);
    let mut fresh = reached;
    while fresh != 0 {
        let named = members(fresh).fold(0, |named, r| named | named_by(state, r));
        fresh = named & !reached;
        reached |= fresh;
    }
    members(reached).find(|&r| !state.cell(r).occupied)
}

/// The cells that r's fields name. A free cell's fields are 0.
fn named_by(state: &State, r: u8) -> u64 {
    let [first, second] = state.cell(r).fields;
    bit(first) | bit(second)
}

/// "2: a black cell has a memory field naming a white one."
fn black_naming_white(state: &State) -> Option<u8> {
    let white = white_cells(state);
    let not_black = white | grey_cells(state);
    (1..=state.n).find(|&r| {
        let black = state.cell(r).occupied && not_black & bit(r) == 0;
        black && named_by(state, r) & white != 0
    })
}

/// "White: occupied, mark unequal to memory's fM."
fn white_cells(state: &State) -> u64 {
    (1..=state.n)
        .filter(|&r| state.cell(r).occupied && state.cell(r).mark != state.mark_sense)
        .fold(0, |white, r| white | bit(r))
}

/// "Grey: on any work list or being greyed."
fn grey_cells(state: &State) -> u64 {
    state.processes().fold(state.system.list, |grey, own| {
        grey | own.list | bit(own.greying)
    })
}

/// "3: the handshake table is broken."
fn out_of_table(state: &State) -> Option<u8> {
    (1..=state.m).find(|&p| !in_table(&state.system, state.mutator(p)))
}

/// "The handshake table". "A raised flag implies not in step."
fn in_table(system: &System, mutator: &Mutator) -> bool {
    if mutator.in_step {
        !mutator.flag && in_step(system.kind, system.phase, mutator.phase)
    } else {
        not_in_step(system.kind, system.phase, mutator.phase)
    }
}

/// "In step: no-op with both phases equal and one of Idle, IdleInit,
/// InitMark, Mark; roots or work with both IdleMarkSweep."
fn in_step(kind: HandshakeType, system: HandshakePhase, mutator: HandshakePhase) -> bool {
    let in_sweep = system == HandshakePhase::IdleMarkSweep;
    system == mutator && (kind == HandshakeType::NoOp) != in_sweep
}

/// "Not in step (system, mutator)".
fn not_in_step(kind: HandshakeType, system: HandshakePhase, mutator: HandshakePhase) -> bool {
    use HandshakePhase::{Idle, IdleInit, IdleMarkSweep, InitMark, Mark};
    match kind {
        HandshakeType::NoOp => matches!(
            (system, mutator),
            (Idle, IdleMarkSweep) | (IdleInit, Idle) | (InitMark, IdleInit) | (Mark, InitMark)
        ),
        HandshakeType::Roots => (system, mutator) == (IdleMarkSweep, Mark),
        HandshakeType::Work => (system, mutator) == (IdleMarkSweep, IdleMarkSweep),
    }
}
