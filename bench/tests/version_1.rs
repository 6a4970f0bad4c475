//! R-3 of document 02: "version 1 logs are still read, with N at most 32, and
//! give the same three numbers as before".
//!
//! The stored list was made by the judge and the generator as they were before
//! R-3, which knew no other version: 300 logs of the mix of seed 31, then 100
//! damaged ones of seed 32. Each line has the log's index, the checksum of its
//! bytes, which shows that it is the same log, and the three numbers. It is
//! never made anew.

use claysaucer_bench::{judge, Damage, Generator, Outcome};

const STORED: &str = include_str!("version_1.txt");
const MIXED: usize = 300;
const DAMAGED: usize = 100;
/// The damages of that time.
const DAMAGES: usize = 8;

/// The same logs, made by the generator as it is now.
fn logs() -> Vec<Vec<u8>> {
    let (mut mix, mut other) = (Generator::new(31), Generator::new(32));
    let damages = Damage::ALL[..DAMAGES].iter().cycle();
    let mixed = (0..MIXED).map(|_| mix.next_log());
    let damaged = damages.take(DAMAGED).map(|&damage| other.damaged(damage));
    mixed.chain(damaged).collect()
}

/// FNV-1a of 64 bits.
fn checksum(log: &[u8]) -> u64 {
    log.iter().fold(0xCBF2_9CE4_8422_2325, |sum, &byte| {
        (sum ^ u64::from(byte)).wrapping_mul(0x0000_0100_0000_01B3)
    })
}

/// The judge gives each log the numbers of its stored line.
fn hold(judge: fn(&[u8]) -> Outcome) {
    assert_eq!(STORED.lines().count(), MIXED + DAMAGED);
    for ((i, log), stored) in logs().iter().enumerate().zip(STORED.lines()) {
        let Outcome {
            steps,
            stop,
            verdict,
            ..
        } = judge(log);
        let sum = checksum(log);
        let told = format!("{i} {sum:016X} {steps} {stop} {verdict}");
        assert_eq!(told, stored, "{log:02X?}");
    }
}

#[test]
fn the_same_three_numbers_as_before() {
    hold(judge);
}

#[cfg(feature = "proved")]
#[test]
fn the_same_three_numbers_of_the_proved_judge() {
    hold(claysaucer_bench::proved::judge);
}

/// None of the list's logs calls itself version 2, which was refused before.
#[test]
fn no_log_of_the_list_has_version_2() {
    assert!(logs().iter().all(|log| log.get(3..5) != Some(&[2, 0])));
}
