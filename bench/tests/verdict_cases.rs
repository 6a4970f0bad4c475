//! The states of the program verdict_cases, built anew in the types of this
//! judge and judged by it. Its lines must be those of the stored output.

mod stored;

use claysaucer_bench::{
    verdict, HandshakePhase, HandshakeType, MarkStage, MutatorPlace, State, Store,
};
use HandshakePhase::{Idle, IdleInit, IdleMarkSweep, InitMark, Mark};
use HandshakeType::{NoOp, Roots, Work};

const STORED: &str = "../crates/verdict_cases/stdout";

#[test]
fn every_line_is_as_stored() {
    let cases = [
        held(),
        chains(),
        colours(),
        senses(),
        greys(),
        in_step(),
        not_in_step(),
        phases(),
        several(),
        malformed(),
    ];
    let lines: Vec<String> = cases.iter().flatten().map(Case::judged).collect();
    stored::compare(&lines, STORED);
}

/// A line of the output: its name, and the states whose verdicts it has.
struct Case {
    name: &'static str,
    states: Vec<State>,
}

impl Case {
    /// The name, then verdict and number of each state.
    fn judged(&self) -> String {
        let judged = self.states.iter().map(verdict);
        judged.fold(format!("{}:", self.name), |line, (verdict, number)| {
            format!("{line} {verdict} {number}")
        })
    }
}

fn case(name: &'static str, state: State) -> Case {
    let states = vec![state];
    Case { name, states }
}

/// Six cells, of which 1 to 4 are occupied: 1 names 2 and 3, and 2 names 4.
/// Two mutators: the first has the root 1, the second none.
fn ground() -> State {
    let cells = [
        Some([2, 3]),
        Some([0, 4]),
        Some([0, 0]),
        Some([0, 0]),
        None,
        None,
    ];
    State::opening(&cells, &[0b1, 0])
}

/// The ground, changed.
fn changed(change: impl FnOnce(&mut State)) -> State {
    let mut state = ground();
    change(&mut state);
    state
}

/// The ground, with these roots of mutator p.
fn with_roots(p: u8, roots: u64) -> State {
    changed(|state| state.mutator_mut(p).roots = roots)
}

/// The ground, with a store of process p pending.
fn with_store(p: u8, store: Store) -> State {
    changed(|state| state.own_mut(p).buffer.push_back(store))
}

/// Mutator 1 is about to write y in field 0 of cell 1, and read old there.
fn storing(old: u8, y: u8) -> State {
    changed(|state| {
        let mutator = state.mutator_mut(1);
        mutator.place = MutatorPlace::StoreWrite;
        mutator.target = 1;
        mutator.value = y;
        mutator.honorary = old;
    })
}

/// What holds a cell, and what does not. Cells 5 and 6 are free.
fn held() -> Vec<Case> {
    let target = Store::Field {
        cell: 5,
        field: 0,
        value: 0,
    };
    let value = Store::Field {
        cell: 1,
        field: 1,
        value: 6,
    };
    let mark = Store::Mark {
        cell: 5,
        mark: true,
    };
    let listed = changed(|state| state.mutator_mut(1).own.list = 0b1_0000);
    vec![
        case("ground", ground()),
        case("free root", with_roots(1, 0b1_0001)),
        case("free root of mutator 2", with_roots(2, 0b10_0000)),
        case("two free roots", with_roots(2, 0b11_0000)),
        case("honorary root", storing(5, 0)),
        case("y is not held", storing(0, 5)),
        case("target of a store", with_store(1, target)),
        case("value of a store", with_store(2, value)),
        case("store of the collector", with_store(0, target)),
        case("pending mark", with_store(1, mark)),
        case("free cell on a list", listed),
    ]
}

/// The ground, with a field of cell 4 naming r.
fn from_four(field: usize, r: u8) -> State {
    changed(|state| state.cell_mut(4).fields[field] = r)
}

/// Reach goes on from cell to cell.
fn chains() -> Vec<Case> {
    let mut unreached = from_four(0, 5);
    unreached.mutator_mut(1).roots = 0;
    vec![
        case("chain to a first field", from_four(0, 5)),
        case("chain to a second field", from_four(1, 5)),
        case("ring", from_four(0, 1)),
        case("unreached chain", unreached),
        case("chain downwards", downwards()),
    ]
}

/// A pending store alone holds 4; 4 names 3, 3 names 2, 2 names 1, 1 names 6.
fn downwards() -> State {
    let start = Store::Field {
        cell: 4,
        field: 1,
        value: 4,
    };
    let mut state = with_store(2, start);
    let fields = [[6, 0], [0, 1], [2, 0], [3, 0]];
    for (cell, fields) in state.cells.iter_mut().zip(fields) {
        cell.fields = fields;
    }
    state.mutator_mut(1).roots = 0;
    state
}

/// The ground, with the marks of these cells not fM.
fn whitened(cells: &[u8]) -> State {
    changed(|state| {
        for &r in cells {
            state.cell_mut(r).mark = false;
        }
    })
}

/// Black cells that name white ones.
fn colours() -> Vec<Case> {
    vec![
        case("white in a first field", whitened(&[2])),
        case("white in a second field", whitened(&[3])),
        case("white of cell 2", whitened(&[4])),
        case("two black cells", whitened(&[3, 4])),
        case("white names white", whitened(&[2, 4])),
        case("white names black", whitened(&[1])),
    ]
}

/// fM is 0, so that 1 is the mark of a white cell; and a free cell, which
/// has no colour.
fn senses() -> Vec<Case> {
    let all_white = changed(|state| state.mark_sense = false);
    let mut one_black = whitened(&[1]);
    one_black.mark_sense = false;
    let names_free = changed(|state| {
        state.cell_mut(1).fields[0] = 5;
        state.mutator_mut(1).roots = 0;
    });
    vec![
        case("all white", all_white),
        case("one black", one_black),
        case("free is not white", names_free),
    ]
}

/// Cell 2 is white, which 1 names; and a further change.
fn white_two(change: impl FnOnce(&mut State)) -> State {
    let mut state = whitened(&[2]);
    change(&mut state);
    state
}

/// Mutator 1 is at the last step of its mark of y, which it is greying.
fn greying(state: &mut State, y: u8) {
    let mutator = state.mutator_mut(1);
    mutator.place = MutatorPlace::StoreMarkNew(MarkStage::Unlock);
    mutator.target = 1;
    mutator.value = y;
    mutator.own.greying = y;
}

/// A grey cell is not black, but may be white.
fn greys() -> Vec<Case> {
    let on_mutators = white_two(|state| state.mutator_mut(2).own.list = 0b1);
    let on_collectors = white_two(|state| state.collector.own.list = 0b1);
    let on_systems = white_two(|state| state.system.list = 0b1);
    let white_too = white_two(|state| state.mutator_mut(2).own.list = 0b10);
    vec![
        case("grey on a mutator's list", on_mutators),
        case("grey on the collector's list", on_collectors),
        case("grey on the system's list", on_systems),
        case("being greyed", white_two(|state| greying(state, 1))),
        case("grey and white", white_too),
        case("greyed and white", white_two(|state| greying(state, 2))),
    ]
}

/// A mutator's flag, in-step bit and handshake phase.
#[derive(Clone, Copy)]
struct Part {
    flag: bool,
    in_step: bool,
    phase: HandshakePhase,
}

/// The part of a mutator whose flag is down.
fn part(in_step: bool, phase: HandshakePhase) -> Part {
    Part {
        flag: false,
        in_step,
        phase,
    }
}

/// The ground, with this type, this phase of the system, and these parts of
/// the two mutators.
fn shaking(kind: HandshakeType, system: HandshakePhase, parts: [Part; 2]) -> State {
    changed(|state| {
        state.system.kind = kind;
        state.system.phase = system;
        for (mutator, part) in state.mutators.iter_mut().zip(parts) {
            mutator.flag = part.flag;
            mutator.in_step = part.in_step;
            mutator.phase = part.phase;
        }
    })
}

/// A line of the handshake table: both mutators on it; mutator 2 a phase
/// further; mutator 1 with the other in-step bit; mutator 1 with its flag up.
fn line(
    name: &'static str,
    in_step: bool,
    kind: HandshakeType,
    system: HandshakePhase,
    mutator: HandshakePhase,
) -> Case {
    let on = part(in_step, mutator);
    let further = part(in_step, mutator.next());
    let other = part(!in_step, mutator);
    let raised = Part { flag: true, ..on };
    let pairs = [[on, on], [on, further], [other, on], [raised, on]];
    let states = pairs.map(|parts| shaking(kind, system, parts)).to_vec();
    Case { name, states }
}

fn in_step() -> Vec<Case> {
    let sweep = IdleMarkSweep;
    vec![
        line("in step, no-op, Idle", true, NoOp, Idle, Idle),
        line("in step, no-op, IdleInit", true, NoOp, IdleInit, IdleInit),
        line("in step, no-op, InitMark", true, NoOp, InitMark, InitMark),
        line("in step, no-op, Mark", true, NoOp, Mark, Mark),
        line("in step, roots", true, Roots, sweep, sweep),
        line("in step, work", true, Work, sweep, sweep),
    ]
}

fn not_in_step() -> Vec<Case> {
    let sweep = IdleMarkSweep;
    vec![
        line("not in step, no-op, Idle", false, NoOp, Idle, sweep),
        line("not in step, no-op, IdleInit", false, NoOp, IdleInit, Idle),
        line(
            "not in step, no-op, InitMark",
            false,
            NoOp,
            InitMark,
            IdleInit,
        ),
        line("not in step, no-op, Mark", false, NoOp, Mark, InitMark),
        line("not in step, roots", false, Roots, sweep, Mark),
        line("not in step, work", false, Work, sweep, sweep),
    ]
}

/// Phases that go together, of a type that does not have them.
fn phases() -> Vec<Case> {
    let sweep = part(true, IdleMarkSweep);
    let idle = part(true, Idle);
    let mark = part(false, Mark);
    let of = |name, kind, system, parts| case(name, shaking(kind, system, parts));
    vec![
        of(
            "no-op with both IdleMarkSweep",
            NoOp,
            IdleMarkSweep,
            [sweep; 2],
        ),
        of("roots with both Idle", Roots, Idle, [idle; 2]),
        of(
            "no-op with IdleMarkSweep and Mark",
            NoOp,
            IdleMarkSweep,
            [mark; 2],
        ),
        of(
            "work with IdleMarkSweep and Mark",
            Work,
            IdleMarkSweep,
            [mark; 2],
        ),
        of(
            "roots, mutator 2 alone out",
            Roots,
            IdleMarkSweep,
            [mark, idle],
        ),
    ]
}

/// Mutator 1 has the free root 6 too.
fn loosen(state: &mut State) {
    state.mutator_mut(1).roots = 0b10_0001;
}

/// Mutator 2 has its flag up while it is in step.
fn flag(state: &mut State) {
    state.mutator_mut(2).flag = true;
}

/// More than one verdict applies.
fn several() -> Vec<Case> {
    let loose_and_flagged = |state: &mut State| {
        loosen(state);
        flag(state);
    };
    vec![
        case("table alone", changed(flag)),
        case("black and table", white_two(flag)),
        case("loose and table", changed(loose_and_flagged)),
        case("loose and black", white_two(loosen)),
        case("all three", white_two(loose_and_flagged)),
    ]
}

/// A root above N, and a note of no operation beside a free root.
fn malformed() -> Vec<Case> {
    let mut noted = with_roots(1, 0b1_0001);
    noted.mutator_mut(1).target = 1;
    vec![
        case("root above N", with_roots(1, 0b100_0001)),
        case("malformed and loose", noted),
    ]
}
