//! "Mutator": the operations at top, and the steps of a store and an answer.

use crate::choice::{offered, Choice};
use crate::marking::mark_step;
use crate::number::Refusal;
use crate::place::{MarkStage, MutatorPlace};
use crate::state::{bit, HandshakeType, Mutator, State, Store};
use crate::step::Attempt;
use MutatorPlace::*;

/// The own step of the mutator that the choice names.
pub fn own_step(state: &mut State, c: Choice) -> Attempt {
    match state.mutator(c.process).place {
        Top => operation(state, c),
        StoreMarkOld(stage) => mark_old(state, c, stage),
        StoreMarkNew(stage) => mark_new(state, c, stage),
        StoreWrite => write_field(state, c),
        NoOpFence => fence(state, c, NoOpFinish),
        RootsFence => roots_fence(state, c),
        WorkFence => fence(state, c, WorkFinish),
        RootsMark(MarkStage::Look) => look_at_root(state, c),
        RootsMark(stage) => mark_root(state, c, stage),
        NoOpFinish => finish(state, c, HandshakeType::NoOp),
        RootsFinish => finish(state, c, HandshakeType::Roots),
        WorkFinish => finish(state, c, HandshakeType::Work),
    }
}

/// "At top the choice names an operation".
fn operation(state: &mut State, c: Choice) -> Attempt {
    match c.operation {
        0 => allocate(state, c),
        1 => drop_root(state, c),
        2 => load(state, c),
        3 => store(state, c),
        4 => {
            offered((c.x, c.f, c.y) == (0, 0, 0))?;
            state.fence(c.process)?;
            Ok(None)
        }
        5 => answer(state, c),
        _ => Err(Refusal::NotOffered),
    }
}

/// "0 allocate free cell x".
fn allocate(state: &mut State, c: Choice) -> Attempt {
    offered((1..=state.n).contains(&c.x) && (c.f, c.y) == (0, 0))?;
    state.allocate(c.process, c.x)?;
    Ok(None)
}

/// "1 drop root x".
fn drop_root(state: &mut State, c: Choice) -> Attempt {
    let mutator = state.mutator_mut(c.process);
    offered(is_root(mutator, c.x) && (c.f, c.y) == (0, 0))?;
    mutator.roots &= !bit(c.x);
    Ok(None)
}

/// "2 read field f of root x, a non-null value becomes a root".
fn load(state: &mut State, c: Choice) -> Attempt {
    offered(is_root(state.mutator(c.process), c.x) && c.f <= 1 && c.y == 0)?;
    let (value, origin) = state.read_field(c.process, c.x, c.f)?;
    state.mutator_mut(c.process).roots |= bit(value);
    Ok(Some(origin))
}

/// "3 store y (a root or 0) in field f of root x": "the first step reads the
/// old value".
fn store(state: &mut State, c: Choice) -> Attempt {
    let mutator = state.mutator(c.process);
    offered(is_root(mutator, c.x) && c.f <= 1 && (c.y == 0 || is_root(mutator, c.y)))?;
    let (old, origin) = state.read_field(c.process, c.x, c.f)?;
    let mutator = state.mutator_mut(c.process);
    mutator.honorary = old;
    (mutator.target, mutator.field, mutator.value) = (c.x, c.f, c.y);
    mutator.place = match old {
        0 => after_old(mutator),
        _ => StoreMarkOld(MarkStage::Look),
    };
    Ok(Some(origin))
}

/// "5 answer a raised handshake": "read the type".
fn answer(state: &mut State, c: Choice) -> Attempt {
    offered((c.x, c.f, c.y) == (0, 0, 0))?;
    let fence = match state.system.kind {
        HandshakeType::NoOp => NoOpFence,
        HandshakeType::Roots => RootsFence,
        HandshakeType::Work => WorkFence,
    };
    let mutator = state.mutator_mut(c.process);
    if !mutator.flag {
        return Err(Refusal::FlagDown);
    }
    mutator.place = fence;
    Ok(None)
}

fn is_root(mutator: &Mutator, x: u8) -> bool {
    mutator.roots & bit(x) != 0
}

/// "then mark the old".
fn mark_old(state: &mut State, c: Choice, stage: MarkStage) -> Attempt {
    c.bare()?;
    let old = state.mutator(c.process).honorary;
    let (further, origin) = mark_step(state, c.process, old, stage)?;
    let mutator = state.mutator_mut(c.process);
    mutator.place = further.map_or_else(|| after_old(mutator), StoreMarkOld);
    Ok(origin)
}

/// Where a store goes once its old value is marked or null: "mark y", and
/// for a null y nothing to mark.
fn after_old(mutator: &Mutator) -> MutatorPlace {
    match mutator.value {
        0 => StoreWrite,
        _ => StoreMarkNew(MarkStage::Look),
    }
}

/// "mark y".
fn mark_new(state: &mut State, c: Choice, stage: MarkStage) -> Attempt {
    c.bare()?;
    let y = state.mutator(c.process).value;
    let (further, origin) = mark_step(state, c.process, y, stage)?;
    state.mutator_mut(c.process).place = further.map_or(StoreWrite, StoreMarkNew);
    Ok(origin)
}

/// "write the field, clearing the honorary root".
fn write_field(state: &mut State, c: Choice) -> Attempt {
    c.bare()?;
    let mutator = state.mutator(c.process);
    let pending = Store::Field {
        cell: mutator.target,
        field: mutator.field,
        value: mutator.value,
    };
    state.write(c.process, pending)?;
    let mutator = state.mutator_mut(c.process);
    mutator.honorary = 0;
    (mutator.target, mutator.field, mutator.value) = (0, 0, 0);
    mutator.place = Top;
    Ok(None)
}

/// The fence of an answer.
fn fence(state: &mut State, c: Choice, next: MutatorPlace) -> Attempt {
    c.bare()?;
    state.fence(c.process)?;
    state.mutator_mut(c.process).place = next;
    Ok(None)
}

/// The fence of a roots answer. All roots are left to mark then.
fn roots_fence(state: &mut State, c: Choice) -> Attempt {
    c.bare()?;
    state.fence(c.process)?;
    let mutator = state.mutator_mut(c.process);
    mutator.unmarked = mutator.roots;
    mutator.place = after_root(mutator);
    Ok(None)
}

/// "for roots, mark each root": the next one, if any is left.
fn after_root(mutator: &Mutator) -> MutatorPlace {
    match mutator.unmarked {
        0 => RootsFinish,
        _ => RootsMark(MarkStage::Look),
    }
}

/// "the choice x naming which remaining one at its first look".
fn look_at_root(state: &mut State, c: Choice) -> Attempt {
    let x = c.only_x()?;
    offered(state.mutator(c.process).unmarked & bit(x) != 0)?;
    let (_, origin) = mark_step(state, c.process, x, MarkStage::Look)?;
    let mutator = state.mutator_mut(c.process);
    mutator.unmarked &= !bit(x);
    mutator.root = x;
    mutator.place = RootsMark(MarkStage::ReadSense);
    Ok(origin)
}

/// The further steps of a root's mark.
fn mark_root(state: &mut State, c: Choice, stage: MarkStage) -> Attempt {
    c.bare()?;
    let root = state.mutator(c.process).root;
    let (further, origin) = mark_step(state, c.process, root, stage)?;
    let mutator = state.mutator_mut(c.process);
    if further.is_none() {
        mutator.root = 0;
    }
    mutator.place = further.map_or_else(|| after_root(mutator), RootsMark);
    Ok(origin)
}

/// "then one step lowers the flag, sets in step, and, for roots or work,
/// moves its list to the system's". It "advances the mutator's handshake
/// phase for no-op and roots".
fn finish(state: &mut State, c: Choice, kind: HandshakeType) -> Attempt {
    c.bare()?;
    let mutator = state.mutator_mut(c.process);
    mutator.flag = false;
    mutator.in_step = true;
    mutator.place = Top;
    if kind != HandshakeType::Work {
        mutator.phase = mutator.phase.next();
    }
    if kind != HandshakeType::NoOp {
        let moved = std::mem::take(&mut mutator.own.list);
        state.system.list |= moved;
    }
    Ok(None)
}
