//! The states and choices of the program engine_cases, built anew in the types
//! of this judge and answered by its `step`. The lines must be those of the
//! stored output.
//!
//! A row of the table is a name, the changes of the ground, each behind a +,
//! and the choice: behind a = for one answer, behind a # for four, with the
//! lock held by nobody, by the collector, by mutator 1 and by mutator 2.

mod acts;
mod places;
mod script;
mod stored;

use acts::ground;
use claysaucer_bench::{step, Choice, State};
use places::{collector_code, mutator_code};
use script::{digits, Act};

const STORED: &str = "../crates/engine_cases/stdout";
const TABLE: &str = "../crates/engine_cases/stdin";

#[test]
fn every_line_is_as_stored() {
    let table = stored::text(TABLE);
    let rows = table.lines().filter(|row| !row.starts_with(';'));
    let lines: Vec<String> = rows.map(line).collect();
    assert!(!lines.is_empty(), "{TABLE} has no row");
    stored::compare(&lines, STORED);
}

/// The line that a row makes: its name and the answers.
fn line(row: &str) -> String {
    let name_end = row.find(['+', '=', '#']).expect("a row has a choice");
    let (name, rest) = row.split_at(name_end);
    let choice_start = rest.find(['=', '#']).expect("a row has a choice");
    let (changes, choice) = rest.split_at(choice_start);
    let state = changed_ground(changes);
    let answers = holders(choice).iter().map(|&holder| {
        let mut state = state.clone();
        state.lock = holder.or(state.lock);
        answer(&state, read_choice(&choice[1..]))
    });
    answers.fold(name.to_string(), |line, answer| format!("{line} {answer}"))
}

/// Who holds the lock, by the sign before the choice; `None` leaves it as the
/// changes made it.
fn holders(choice: &str) -> &'static [Option<u8>] {
    match choice.starts_with('#') {
        true => &[None, Some(0), Some(1), Some(2)],
        false => &[None],
    }
}

fn changed_ground(changes: &str) -> State {
    let mut state = ground();
    for act in Act::read_all(changes) {
        act.apply(&mut state);
    }
    state
}

/// As a record has them: process, kind, operation, x, f, y.
fn read_choice(text: &str) -> Choice {
    let [process, kind, operation, x, f, y] = digits(text);
    Choice {
        process,
        kind,
        operation,
        x,
        f,
        y,
    }
}

/// The number; after a taken step where the process then is, after a refusal
/// an = if the state is the same, else an !.
fn answer(state: &State, choice: Choice) -> String {
    let (number, after) = step(state, choice);
    match number {
        0 => taken(&after, choice.process),
        _ if after == *state => format!("{number}="),
        _ => format!("{number}!"),
    }
}

fn taken(after: &State, p: u8) -> String {
    let (place, stage) = match p {
        0 => collector_code(after.collector.place),
        _ => mutator_code(after.mutator(p).place),
    };
    format!("0>{place}/{stage}")
}
