//! Times the verdict on heaps of several shapes: a log of a header and no
//! record, so that a call reads a heap, opens it and judges it. What the
//! shapes differ in is reach; where nothing is held there is none. A heap that
//! version 1 has no room for is of version 2.
//!
//! `verdicts [REPETITIONS]`

use claysaucer_bench::proved::{assert_agreed, judges, Named};
use claysaucer_bench::timing::{in_turns, micros};
use claysaucer_bench::{bit, set_of, Header, Version, CELLS};
use std::process::ExitCode;

const REPETITIONS: usize = 200;
/// One call is too short to be timed alone.
const CALLS: u32 = 200;

/// A heap of n occupied cells and one mutator.
struct Shape {
    name: &'static str,
    /// Both fields of the cell r.
    fields: fn(r: u8, n: u8) -> [u8; 2],
    roots: fn(n: u8) -> u64,
}

const SHAPES: [Shape; 4] = [
    Shape {
        name: "a chain from cell N down to 1, against the order of passes",
        fields: |r, _| [r - 1, 0],
        roots: bit,
    },
    Shape {
        name: "a full tree from cell 1",
        fields: |r, n| [2 * r, 2 * r + 1].map(|child| if child <= n { child } else { 0 }),
        roots: |_| bit(1),
    },
    Shape {
        name: "every cell a root",
        fields: |_, _| [0, 0],
        roots: set_of,
    },
    Shape {
        name: "nothing held",
        fields: |r, _| [r - 1, 0],
        roots: |_| 0,
    },
];

impl Shape {
    fn log(&self, n: u8) -> Vec<u8> {
        let cell = |r| {
            let [first, second] = (self.fields)(r, n);
            [1, first, second]
        };
        let cells = (1..=n).map(cell).collect();
        Header::new(Version::with_room(n), cells, vec![(self.roots)(n)]).bytes()
    }
}

/// The judges that have a column: all that read version 1.
fn columns() -> Vec<Named> {
    judges(Version::One)
}

/// One row: the heap of n cells on each judge, in nanoseconds a call. A judge
/// that does not read its version has a dash.
fn row(shape: &Shape, n: u8, repetitions: usize) {
    let log = shape.log(n);
    let judges = judges(Version::with_room(n));
    assert_agreed(&judges, &log);
    let times = in_turns(&judges, &log, repetitions, CALLS);
    let median = |(name, _): &Named| {
        let at = judges.iter().position(|(own, _)| own == name);
        at.map_or("-".to_string(), |at| {
            format!("{:.0}", micros(times[at].median()) * 1e3)
        })
    };
    let medians: Vec<_> = columns().iter().map(median).collect();
    println!("| {n} | {} |", medians.join(" | "));
}

fn table(shape: &Shape, repetitions: usize) {
    let names: Vec<_> = columns()
        .iter()
        .map(|(name, _)| format!("{name}, ns"))
        .collect();
    println!("\n{}:\n\n| N | {} |", shape.name, names.join(" | "));
    println!("|---:|{}", "---:|".repeat(names.len()));
    let sizes = (0..).map(|power| 1 << power);
    for n in sizes.take_while(|&n| n <= CELLS) {
        row(shape, n as u8, repetitions);
    }
}

fn main() -> ExitCode {
    let mut arguments = std::env::args().skip(1);
    let repetitions = arguments
        .next()
        .map_or(Ok(REPETITIONS), |text| text.parse());
    let Ok(repetitions @ 1..) = repetitions else {
        eprintln!("usage: verdicts [REPETITIONS]");
        return ExitCode::FAILURE;
    };
    for shape in &SHAPES {
        table(shape, repetitions);
    }
    ExitCode::SUCCESS
}
