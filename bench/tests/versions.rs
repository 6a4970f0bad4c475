//! R-3 of document 02: "Sixty-four cells. Raise N to 64 for the new box.
//! Version 2 logs carry root sets of 64 bits; version 1 logs are still read,
//! with N at most 32, and give the same three numbers as before."

mod common;

use claysaucer_bench::number::{
    NOT_OFFERED, OCCUPIED, STOP_ENDED, STOP_FEW_LEFT, STOP_NOT_ADMITTED, TAKEN,
};
use claysaucer_bench::{
    bit, judge, parse_header, set_of, step, Choice, CollectorPlace, Fault, Generator, Header,
    MutatorPlace, RoundStage, State, Version, LOG_LIMIT,
};
use common::number;

/// A header of n cells, all occupied or all free, and of these root sets.
fn header(version: Version, occupied: bool, n: u8, roots: &[u64]) -> Header {
    let cells = vec![[u8::from(occupied), 0, 0]; usize::from(n)];
    Header::new(version, cells, roots.to_vec())
}

/// The header's fault.
fn fault(header: &Header) -> Option<Fault> {
    parse_header(&header.bytes()).err()
}

/// What a version has, by the documents.
#[test]
fn what_a_version_has() {
    let told = Version::ALL.map(|own| (own.number(), own.cells(), own.roots_length()));
    assert_eq!(told, [(1, 32, 4), (2, 64, 8)]);
}

/// All 65,536 versions over the bytes of either. Those of version 1 are short
/// in version 2, and those of version 2 leave bytes in version 1.
#[test]
fn every_version_but_two_is_refused() {
    for version in Version::ALL {
        let mut header = header(version, true, 2, &[0]);
        for number in 0..=u16::MAX {
            header.version = number;
            let expected = match (version, number) {
                (Version::One, 1) | (Version::Two, 2) => STOP_ENDED,
                (Version::Two, 1) => STOP_FEW_LEFT,
                _ => STOP_NOT_ADMITTED,
            };
            assert_eq!(judge(&header.bytes()).stop, expected, "version {number}");
        }
    }
}

/// "with N at most 32", "Raise N to 64".
#[test]
fn every_number_of_cells() {
    for (version, most) in [(Version::One, 32), (Version::Two, 64)] {
        for occupied in [false, true] {
            for n in 0..=255 {
                let expected = match n {
                    0 => Some(Fault::NoCells),
                    n if n > most => Some(Fault::TooManyCells),
                    _ => None,
                };
                let header = header(version, occupied, n, &[0]);
                assert_eq!(fault(&header), expected, "{version:?}, N {n}");
            }
        }
    }
}

/// "roots name occupied cells"; "no bit at or above N". Each bit of a root set
/// alone, of the first mutator and of the last.
#[test]
fn every_bit_of_a_root_set() {
    for (version, bits) in [(Version::One, 32), (Version::Two, 64)] {
        for n in 1..=bits as u8 {
            for at in 0..bits {
                for roots in [[1 << at, 0, 0], [0, 0, 1 << at]] {
                    one_bit(version, n, at, &roots);
                }
            }
        }
    }
}

fn one_bit(version: Version, n: u8, at: u32, roots: &[u64]) {
    let inside = at < u32::from(n);
    let on_free = match inside {
        true => Fault::RootNamesFreeCell,
        false => Fault::RootAtOrAboveN,
    };
    assert_eq!(fault(&header(version, false, n, roots)), Some(on_free));
    let occupied = header(version, true, n, roots).bytes();
    match parse_header(&occupied) {
        Err(fault) => assert_eq!((fault, inside), (Fault::RootAtOrAboveN, false)),
        Ok((opening, records)) => {
            assert!(inside && records.is_empty(), "{version:?}, N {n}, bit {at}");
            let read = opening.mutators.iter().map(|mutator| mutator.roots);
            assert!(read.take(roots.len()).eq(roots.iter().copied()));
        }
    }
}

/// "a 16-bit version 1 (little-endian, as all here)"; "bit 0 for cell 1". The
/// bytes are set by hand.
#[test]
fn a_root_set_is_little_endian() {
    for (version, length) in [(Version::One, 4), (Version::Two, 8)] {
        let n = version.cells();
        let log = header(version, true, n, &[0, 0]).bytes();
        let roots_at = 7 + 3 * usize::from(n);
        for r in 1..=n {
            for mutator in 0..2 {
                let mut log = log.clone();
                let byte = usize::from((r - 1) / 8);
                log[roots_at + mutator * length + byte] = 1 << ((r - 1) % 8);
                let (opening, _) = parse_header(&log).expect("a sound header");
                assert_eq!(opening.mutators[mutator].roots, bit(r));
                assert_eq!(opening.mutators[1 - mutator].roots, 0);
            }
        }
    }
}

/// The header has 7 + 3N + 4M bytes in version 1 and 7 + 3N + 8M in version 2:
/// "or if short: stop 12".
#[test]
fn the_length_of_a_header() {
    for (version, length) in [(Version::One, 4), (Version::Two, 8)] {
        for n in [1, 2, 31, 32, 33, 63, 64] {
            if n > version.cells() {
                continue;
            }
            for m in 1..=4 {
                let log = header(version, true, n, &vec![set_of(n); m]).bytes();
                assert_eq!(log.len(), 7 + 3 * usize::from(n) + length * m);
                assert_eq!(judge(&log).stop, STOP_ENDED);
                for cut in 0..log.len() {
                    assert_eq!(parse_header(&log[..cut]).err(), Some(Fault::Short));
                }
                let longer = [&log[..], &[0]].concat();
                assert_eq!(judge(&longer).stop, STOP_FEW_LEFT);
            }
        }
    }
}

/// A field of an occupied cell names any cell up to N, and none above.
#[test]
fn every_field_of_64_cells() {
    for field in 1..=2 {
        for r in 0..=255u8 {
            let mut header = header(Version::Two, true, 64, &[0]);
            header.cells[63][field] = r;
            let expected = (r > 64).then_some(Fault::FieldAboveN);
            assert_eq!(fault(&header), expected);
            if (1..=63).contains(&r) {
                header.cells[usize::from(r) - 1] = [0, 0, 0];
                assert_eq!(fault(&header), Some(Fault::FieldNamesFreeCell));
            }
        }
    }
}

/// A log of version 1 with its header said in version 2. `None` if it has no
/// sound header.
fn widened(log: &[u8]) -> Option<Vec<u8>> {
    let (opening, records) = parse_header(log).ok()?;
    let mut wide = log.to_vec();
    wide.truncate(7 + 3 * usize::from(opening.n));
    wide[3] = 2;
    for mutator in opening.live_mutators() {
        wide.extend(mutator.roots.to_le_bytes());
    }
    wide.extend(records);
    Some(wide)
}

/// The same heap and the same records give the same numbers in both versions.
#[test]
fn what_version_1_says_version_2_can_say() {
    let mut generator = Generator::new(16);
    let mut said = 0;
    for _ in 0..3_000 {
        let log = generator.next_log();
        if let Some(wide) = widened(&log).filter(|wide| wide.len() <= LOG_LIMIT) {
            assert_eq!(judge(&wide), judge(&log), "{log:02X?}");
            said += 1;
        }
    }
    assert!(said > 2_000, "{said}");
}

/// 64 free cells: each is allocated, none above is offered.
#[test]
fn every_cell_is_allocated_once() {
    for n in [32, 33, 63, 64] {
        let mut state = State::opening(&vec![None; usize::from(n)], &[0]);
        let allocate = |x| Choice::operation(1, 0, x, 0, 0);
        for x in (1..=n).rev() {
            state = take(&state, allocate(x));
            assert_eq!(number(&state, allocate(x)), OCCUPIED);
        }
        assert_eq!(state.mutators[0].roots, set_of(n));
        for x in [0, n + 1, 65, 128, 255] {
            assert_eq!(number(&state, allocate(x)), NOT_OFFERED);
            assert_eq!(
                number(&state, Choice::operation(1, 1, x, 0, 0)),
                NOT_OFFERED
            );
            assert_eq!(
                number(&state, Choice::operation(1, 2, x, 0, 0)),
                NOT_OFFERED
            );
        }
        for x in 1..=n {
            state = take(&state, Choice::operation(1, 1, x, 0, 0));
        }
        assert_eq!(state.mutators[0].roots, 0);
    }
}

/// Takes a choice that must be taken.
fn take(state: &State, choice: Choice) -> State {
    let (number, after) = step(state, choice);
    assert_eq!(number, TAKEN, "{choice:?}");
    after
}

/// What may come next, the likeliest first: commits; the mutator's answer;
/// the collector, which names each cell and each field in turn.
fn candidates(state: &State) -> Vec<Choice> {
    let mut choices = vec![Choice::commit(0), Choice::commit(1)];
    match state.mutators[0].place {
        MutatorPlace::Top => choices.push(Choice::operation(1, 5, 0, 0, 0)),
        _ => choices.extend((0..=64).rev().map(|x| Choice::naming(1, x))),
    }
    for f in 0..=1 {
        choices.extend((0..=64).rev().map(|x| Choice::field_read(x, f)));
    }
    choices
}

/// One whole collection of this heap. Gives the records and shows each state.
fn collect(header: &Header, mut seen: impl FnMut(&State)) -> (State, Vec<u8>) {
    let mut log = header.bytes();
    let (mut state, _) = parse_header(&log).expect("a sound header");
    let mut swept = false;
    while !swept || state.collector.place != CollectorPlace::Row1Round(RoundStage::SetType) {
        let (choice, after) = candidates(&state)
            .into_iter()
            .find_map(|choice| match step(&state, choice) {
                (TAKEN, after) => Some((choice, after)),
                _ => None,
            })
            .expect("something is taken");
        log.extend(choice.record());
        state = after;
        swept |= state.collector.place == CollectorPlace::Row11WriteIdle;
        seen(&state);
    }
    (state, log)
}

/// The run, as a log.
fn assert_all_taken(header: &Header, log: &[u8]) {
    let outcome = judge(log);
    let records = (log.len() - header.bytes().len()) / 8;
    assert_eq!(outcome.steps as usize, records);
    assert_eq!((outcome.stop, outcome.verdict), (STOP_ENDED, 0));
}

/// 64 names 33, 33 names 1, and 64 is a root: the others are freed.
#[test]
fn a_collection_frees_what_64_cells_do_not_reach() {
    let mut header = header(Version::Two, true, 64, &[bit(64)]);
    header.cells[63][1] = 33;
    header.cells[32][2] = 1;
    let (end, log) = collect(&header, |_| {});
    let kept: Vec<u8> = (1..=64).filter(|&r| end.cell(r).occupied).collect();
    assert_eq!(kept, [1, 33, 64]);
    assert_all_taken(&header, &log);
}

/// All 64 are roots: all are on the list that row 6 takes, all are left when
/// row 10 begins, and none is freed.
#[test]
fn a_collection_keeps_64_roots() {
    let header = header(Version::Two, true, 64, &[u64::MAX]);
    let (mut listed, mut left) = (0, 0);
    let (end, log) = collect(&header, |state| {
        listed = state.collector.own.list.max(listed);
        left = state.collector.unswept.max(left);
    });
    assert_eq!((listed, left), (u64::MAX, u64::MAX));
    assert!(end.cells.iter().all(|cell| cell.occupied));
    assert_all_taken(&header, &log);
}

/// No root: all 64 are freed, and each may be allocated again.
#[test]
fn a_collection_frees_64_cells() {
    let header = header(Version::Two, true, 64, &[0]);
    let (mut end, log) = collect(&header, |_| {});
    assert!(end.cells.iter().all(|cell| !cell.occupied));
    assert_all_taken(&header, &log);
    for x in 1..=64 {
        end = take(&end, Choice::operation(1, 0, x, 0, 0));
    }
    assert_eq!(end.mutators[0].roots, u64::MAX);
}
