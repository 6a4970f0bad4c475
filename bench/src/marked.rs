//! "Stalls we know (the marked table)": the logs of the twelve cases, with
//! the numbers document 01 gives for them. Case 12 has two logs, and is as R-3
//! of document 02 has it. Beside the table, logs of R-3.

use crate::choice::Choice;
use crate::header::Header;
use crate::log::Outcome;
use crate::state::bit;
use crate::version::Version;

/// "Base log, 17 bytes".
const BASE: [u8; 17] = [
    0x4D, 0x47, 0x54, 0x01, 0x00, 0x02, 0x01, 0x01, 0x00, 0x00, 0x00, 0x00, 0x00, 0x01, 0x00, 0x00,
    0x00,
];
/// "a is the record".
const A: [u8; 8] = [0x01, 0x00, 0x00, 0x02, 0x00, 0x00, 0x04, 0x00];

/// A case: its file name, its log, and what the judge must say.
pub struct MarkedCase {
    pub file: &'static str,
    pub log: Vec<u8>,
    pub expected: Outcome,
}

/// All thirteen logs, in the table's order.
pub fn marked_cases() -> Vec<MarkedCase> {
    let mut cases = openings();
    cases.extend(stores());
    cases.push(case("case-11.log", handshake(), (7, 0, 0, 255)));
    cases.extend(headers());
    cases
}

/// Cases 1 to 7: one record.
fn openings() -> Vec<MarkedCase> {
    let with = |choice: Choice| base(&[choice]);
    let allocate = |p, x| Choice::operation(p, 0, x, 0, 0);
    let first = [&BASE[..], &A].concat();
    let short = first[..first.len() - 1].to_vec();
    vec![
        case("case-01.log", first, (1, 0, 0, 255)),
        case("case-02.log", short, (0, 14, 0, 255)),
        case("case-03.log", with(allocate(1, 1)), (0, 10, 0, 255)),
        case("case-04.log", with(allocate(1, 3)), (0, 4, 0, 255)),
        case("case-05.log", with(allocate(2, 2)), (0, 2, 0, 255)),
        case("case-06.log", with(Choice::commit(1)), (0, 5, 0, 255)),
        case(
            "case-07.log",
            with(Choice::operation(1, 5, 0, 0, 0)),
            (0, 6, 0, 255),
        ),
    ]
}

/// Cases 8 to 10: stores. A store of 1 over null takes the read, two steps
/// of the mark of 1, and the write. A store of null over null takes two.
fn stores() -> Vec<MarkedCase> {
    let own = Choice::own(1);
    let fence = Choice::operation(1, 4, 0, 0, 0);
    let store = [Choice::operation(1, 3, 1, 0, 1), own, own, own];
    let null_store = [Choice::operation(1, 3, 1, 0, 0), own];
    let eighth = base(&[&store[..], &[fence]].concat());
    let ninth = base(&[&store[..], &[Choice::commit(1), fence]].concat());
    vec![
        case("case-08.log", eighth, (4, 8, 0, 0)),
        case("case-09.log", ninth, (6, 0, 0, 0)),
        case("case-10.log", base(&null_store.repeat(9)), (17, 9, 0, 8)),
    ]
}

/// Case 11: a whole no-op round.
fn handshake() -> Vec<u8> {
    base(&[
        Choice::own(0),
        Choice::own(0),
        Choice::naming(0, 1),
        Choice::operation(1, 5, 0, 0, 0),
        Choice::own(1),
        Choice::own(1),
        Choice::naming(0, 1),
    ])
}

/// Case 12: base and a, with the version or N changed. R-3: "Marked case 12
/// now refuses version 3, and N of 33 only in version 1."
fn headers() -> Vec<MarkedCase> {
    let changed = |at: usize, byte| {
        let mut log = [&BASE[..], &A].concat();
        log[at] = byte;
        log
    };
    vec![
        case("case-12-version.log", changed(3, 3), (0, 12, 4, 255)),
        case("case-12-cells.log", changed(5, 33), (0, 12, 4, 255)),
    ]
}

/// Logs of R-3 beside the table: 64 cells in use, and "N of 33 only in version
/// 1", told of two whole headers.
pub fn wide_cases() -> Vec<MarkedCase> {
    let free_33 = |version| Header::new(version, vec![[0, 0, 0]; 33], vec![0]).bytes();
    vec![
        case("sixty-four.log", sixty_four(), (7, 0, 0, 0)),
        case(
            "cells-33-version-1.log",
            free_33(Version::One),
            (0, 12, 4, 255),
        ),
        case(
            "cells-33-version-2.log",
            free_33(Version::Two),
            (0, 0, 0, 255),
        ),
    ]
}

/// Cells 1, 33 and 64 of 64 are occupied, and field 0 of cell 1 names 64.
/// Mutator 1 has the roots 1 and 64, mutator 2 the root 33. Mutator 1 reads
/// field 0 of cell 1; stores 64 in field 1 of cell 1, which takes the read, two
/// steps of the mark of 64, the write and its commit; and allocates cell 40.
fn sixty_four() -> Vec<u8> {
    let mut cells = vec![[0, 0, 0]; 64];
    cells[0] = [1, 64, 0];
    cells[32] = [1, 0, 0];
    cells[63] = [1, 0, 0];
    let roots = vec![bit(1) | bit(64), bit(33)];
    let choices = [
        Choice::operation(1, 2, 1, 0, 0),
        Choice::operation(1, 3, 1, 1, 64),
        Choice::own(1),
        Choice::own(1),
        Choice::own(1),
        Choice::commit(1),
        Choice::operation(1, 0, 40, 0, 0),
    ];
    let mut log = Header::new(Version::Two, cells, roots).bytes();
    log.extend(choices.into_iter().flat_map(Choice::record));
    log
}

/// The base log with these records.
fn base(choices: &[Choice]) -> Vec<u8> {
    let records = choices.iter().flat_map(|choice| choice.record());
    BASE.into_iter().chain(records).collect()
}

fn case(file: &'static str, log: Vec<u8>, numbers: (u32, u8, u8, u8)) -> MarkedCase {
    let (steps, stop, verdict, read) = numbers;
    let expected = Outcome {
        steps,
        stop,
        verdict,
        read,
    };
    MarkedCase {
        file,
        log,
        expected,
    }
}
