//! The proved judge and the independent one give the same four numbers.

use claysaucer_bench::{
    marked_cases, proved, wide_cases, Comparison, Damage, Fault, Generator, Version, LOG_LIMIT,
    RECORD_LENGTH,
};

/// The comparison of the logs that `add` makes of a seed, about half of them of
/// each version. Fails with the first difference in full.
fn compared(seed: u64, add: impl FnOnce(&mut Generator, &mut Comparison)) -> Comparison {
    let mut comparison = Comparison::new();
    add(&mut Generator::of_both(seed), &mut comparison);
    assert_eq!(comparison.differences, 0, "{comparison}");
    comparison
}

/// Every stop and every last read that a log can give is given.
fn assert_every_number(comparison: &Comparison) {
    let missing = (comparison.missing_stops(), comparison.missing_reads());
    assert_eq!(missing, (vec![], vec![]), "{comparison}");
}

/// These stops and no others are reached.
fn assert_stops(comparison: &Comparison, stops: &[u8]) {
    assert!(comparison.stops.keys().eq(stops), "{comparison}");
}

#[test]
fn the_marked_logs_give_their_numbers() {
    let (cases, wide) = (marked_cases(), wide_cases());
    assert_eq!((cases.len(), wide.len()), (13, 3));
    for case in cases.into_iter().chain(wide) {
        assert_eq!(proved::judge(&case.log), case.expected, "{}", case.file);
    }
}

/// The mix as it comes: long and short, valid, cut, refused, faulty, soup.
#[test]
fn they_agree_on_generated_logs() {
    let comparison = compared(21, |generator, comparison| {
        for _ in 0..200_000 {
            comparison.add(&generator.next_log());
        }
    });
    assert_every_number(&comparison);
}

/// Each damage done to logs of the mix, after they were made.
#[test]
fn they_agree_on_damaged_logs() {
    let comparison = compared(22, |generator, comparison| {
        for _ in 0..10_000 {
            for damage in Damage::ALL {
                comparison.add(&generator.damaged(damage));
            }
        }
    });
    assert_every_number(&comparison);
}

/// Each clause of the header broken alone.
#[test]
fn they_agree_on_faulty_headers() {
    let comparison = compared(23, |generator, comparison| {
        for fault in Fault::ALL {
            let times = if fault == Fault::LogTooLong { 4 } else { 1_000 };
            for _ in 0..times {
                comparison.add(&generator.faulty(fault));
            }
        }
    });
    assert_stops(&comparison, &[12]);
}

/// Every 16-bit version on one log of each version, and every N.
#[test]
fn they_agree_on_versions_and_numbers_of_cells() {
    let comparison = compared(26, |generator, comparison| {
        for version in Version::ALL {
            let mut log = generator.log_over(version, 32, 2, 20);
            for other in 0..=u16::MAX {
                log[3..5].copy_from_slice(&other.to_le_bytes());
                comparison.add(&log);
            }
            log[3..5].copy_from_slice(&version.number().to_le_bytes());
            for n in 0..=255 {
                log[5] = n;
                comparison.add(&log);
            }
        }
    });
    assert!(comparison.stops.contains_key(&0), "{comparison}");
    assert!(comparison.stops.contains_key(&12), "{comparison}");
}

/// No byte, every cut of a log, and the lengths about the limit.
#[test]
fn they_agree_on_lengths() {
    let comparison = compared(24, |generator, comparison| {
        for version in Version::ALL {
            let log = generator.log_over(version, version.cells(), 4, 200);
            for length in 0..=log.len() {
                comparison.add(&log[..length]);
            }
        }
        for length in LOG_LIMIT - 1..=LOG_LIMIT + 1 {
            for _ in 0..3 {
                comparison.add(&generator.log_of(length));
            }
            comparison.add(&vec![0x4D; length]);
        }
        comparison.add(&vec![0; 1_000_000]);
    });
    assert_stops(&comparison, &[0, 12, 14]);
}

/// The beginnings of some logs, one record longer each time: each record is the
/// last one once, so that what it has read is compared.
#[test]
fn they_agree_after_every_record() {
    const RECORDS: usize = 800;
    let comparison = compared(27, |generator, comparison| {
        for version in Version::ALL {
            for _ in 0..40 {
                let log = generator.log_over(version, 4, 3, RECORDS);
                let header = log.len() - RECORDS * RECORD_LENGTH;
                for length in (header..=log.len()).step_by(RECORD_LENGTH) {
                    comparison.add(&log[..length]);
                }
            }
        }
    });
    assert_stops(&comparison, &[0]);
    assert_eq!(comparison.missing_reads(), vec![], "{comparison}");
}

/// Long logs of both versions and of every number of mutators, all of whose
/// records are taken.
#[test]
fn they_agree_on_long_logs() {
    const RECORDS: u32 = 8_000;
    let one = [1, 2, 8, 31, 32].map(|n| (Version::One, n));
    let two = [1, 32, 33, 63, 64].map(|n| (Version::Two, n));
    let comparison = compared(25, |generator, comparison| {
        for (version, n) in one.into_iter().chain(two) {
            for m in 1..=4 {
                let log = generator.log_over(version, n, m, RECORDS as usize);
                let steps = proved::judge(&log).steps;
                assert_eq!(steps, RECORDS, "{version:?}, N {n}, M {m}");
                comparison.add(&log);
            }
        }
    });
    assert_stops(&comparison, &[0]);
}
