//! Inputs without sense never panic.

mod common;

use claysaucer_bench::number::READ_MEMORY;
use claysaucer_bench::{judge, Choice, Outcome, Random};
use common::random_choice;

/// A million inputs, a third each: bytes, bytes after a header, records with
/// a right check after a header. The header is of version 1 or of version 2.
#[test]
fn a_million_short_inputs() {
    const HEADERS: [&[u8]; 2] = [
        &[
            0x4D, 0x47, 0x54, 1, 0, 2, 2, 1, 0, 1, 0, 0, 0, 1, 0, 0, 0, 1, 0, 0, 0,
        ],
        &[
            0x4D, 0x47, 0x54, 2, 0, 2, 2, 1, 0, 1, 0, 0, 0, 1, 0, 0, 0, 0, 0, 0, 0, 1, 0, 0, 0, 0,
            0, 0, 0,
        ],
    ];
    let mut random = Random::new(13);
    let mut stops = [0u32; 15];
    let mut log = Vec::new();
    for round in 0..1_000_000 {
        log.clear();
        if round % 3 != 0 {
            log.extend(HEADERS[round % 2]);
        }
        for _ in 0..random.below(8) {
            match round % 3 {
                2 => log.extend(random_choice(&mut random).record()),
                _ => log.extend((0..random.below(9)).map(|_| random.byte())),
            }
        }
        let outcome = judge(&log);
        stops[usize::from(outcome.stop)] += 1;
        assert_eq!(outcome.verdict, if outcome.stop == 12 { 4 } else { 0 });
    }
    assert_eq!((stops[1], stops[11]), (0, 0), "{stops:?}");
}

/// Every change of a single byte of a short sound log, of either version.
#[test]
fn one_byte_changed() {
    let header = [0x4D, 0x47, 0x54, 1, 0, 2, 1, 1, 2, 1, 1, 0, 1, 3, 0, 0, 0];
    change_each_byte(&header);
    let mut wide = [&header[..], &[0; 4]].concat();
    wide[3] = 2;
    change_each_byte(&wide);
}

fn change_each_byte(header: &[u8]) {
    let mut log = header.to_vec();
    for choice in [
        Choice::operation(1, 3, 1, 0, 2),
        Choice::own(1),
        Choice::own(1),
    ] {
        log.extend(choice.record());
    }
    let whole = judge(&log);
    let expected = Outcome {
        steps: 3,
        stop: 0,
        verdict: 0,
        read: READ_MEMORY,
    };
    assert_eq!(whole, expected);
    for at in 0..log.len() {
        let byte = log[at];
        for other in (0..=255).filter(|&other| other != byte) {
            log[at] = other;
            let outcome = judge(&log);
            if let Some(after) = at.checked_sub(header.len()) {
                assert_eq!((outcome.steps, outcome.stop), (after as u32 / 8, 13));
            }
        }
        log[at] = byte;
    }
}
