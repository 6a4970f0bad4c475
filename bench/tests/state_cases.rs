//! The states of the program state_cases, built anew in the types of this
//! judge and held against its own test of what is malformed. The lines must
//! be those of the stored output.

mod drafts;
mod places;
mod script;
mod stored;

use claysaucer_bench::{malformed, CollectorPlace, MutatorPlace};
use drafts::seat::Seat;
use drafts::Draft;
use places::{collector_code, mutator_code, Code};
use script::Act;

const STORED: &str = "../crates/state_cases/stdout";
const TABLE: &str = "../crates/state_cases/stdin";

#[test]
fn every_line_is_as_stored() {
    let table = stored::text(TABLE);
    let rows = table.lines().filter(|row| !row.starts_with(';'));
    let lines: Vec<String> = places().map(place_line).chain(rows.map(line)).collect();
    stored::compare(&lines, STORED);
}

/// Whether the state is well formed. What can't be said is not.
fn answer(draft: &Draft) -> &'static str {
    match draft.state() {
        Some(state) if !malformed(&state) => "yes",
        _ => "no",
    }
}

/// Every place and stage, the mutator's first.
fn places() -> impl Iterator<Item = Code> {
    let mutators = MutatorPlace::all().into_iter().map(mutator_code);
    mutators.chain(CollectorPlace::all().into_iter().map(collector_code))
}

/// Numbers above N = 3, a field above 1, sets with the bit of cell 4.
const BROKEN: [(&str, char, u8); 9] = [
    ("x", 'X', 4),
    ("f", 'F', 2),
    ("y", 'Y', 4),
    ("old", 'O', 4),
    ("cell", 'C', 4),
    ("grey", 'G', 4),
    ("left", 'L', 8),
    ("work", 'W', 8),
    ("roots", 'R', 8),
];

/// A well-formed state at the place, and the same with each note out of range
/// in turn; then with each bit that is not in use there.
fn place_line(code: Code) -> String {
    let (place, stage) = code;
    let seat = Seat::fitting(code);
    let p = u8::from(place <= 10);
    let told = |seat: Seat| answer(&Draft::seated(p, seat));
    let mut line = format!("{place}/{stage} {}, broken:", told(seat.clone()));
    for (name, letter, v) in BROKEN {
        let mut broken = seat.clone();
        broken.note(letter, v);
        line += &format!(" {name} {}", told(broken));
    }
    if !seat.look {
        let mut broken = seat.clone();
        broken.look = true;
        line += &format!(" look {}", told(broken));
    }
    if p > 0 && !seat.sense {
        let mut broken = seat.clone();
        broken.sense = true;
        line += &format!(" sense {}", told(broken));
    }
    line
}

/// A row is a name, the changes of the ground, and a question mark; a row
/// without one is a heading.
fn line(row: &str) -> String {
    let Some(case) = row.strip_suffix('?') else {
        return row.to_string();
    };
    let (name, changes) = case.split_at(case.find('+').unwrap_or(case.len()));
    let mut draft = Draft::ground();
    for act in Act::read_all(changes) {
        draft.change(&act);
    }
    format!("{name} {}", answer(&draft))
}
