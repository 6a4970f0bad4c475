//! Generated logs: what they reach, and what holds along every run.

mod common;

use claysaucer_bench::number::{
    MALFORMED, READ_NOTHING, STOP_NOT_ADMITTED, TAKEN, VERDICT_MALFORMED,
};
use claysaucer_bench::{
    apply, judge, judge_observed, malformed, parse_header, step, verdict, Choice, Coverage, Fault,
    Generator, MarkStage, Outcome, Random, State,
};
use common::{disturb, likely_choice, random_choice, random_state};

/// The seed of the coverage table.
const SEED: u64 = 1;

/// Every named stop, place, stage, clause, size and event is reached, nothing
/// contradicts the published theorem, and the stored table says so.
#[test]
fn the_fixed_seed_reaches_everything() {
    let coverage = Coverage::of_generated(SEED, 20_000);
    assert_eq!(coverage.missing(), Vec::<String>::new());
    assert!(coverage.alarms.is_empty(), "{:02X?}", coverage.alarms);
    assert!(
        coverage.markdown() == include_str!("../COVERAGE.md"),
        "bench/COVERAGE.md is not what the program `coverage` prints: make it again"
    );
}

/// A process is inside its compare and swap exactly while it holds the lock.
fn lock_agrees(state: &State) -> bool {
    (0..=state.m).all(|p| {
        let inside = state.mark_stage(p) > Some(MarkStage::Lock);
        inside == (state.lock == Some(p))
    })
}

/// "a state reached from an opening is well formed", and its verdict is 0.
#[test]
fn every_reached_state_is_well_formed_and_sound() {
    let mut generator = Generator::of_both(2);
    for _ in 0..6_000 {
        let log = generator.next_log();
        let (outcome, _) = judge_observed(&log, |before, choice, number, after| {
            assert!(!malformed(after), "after {choice:?}: {log:02X?}");
            assert_eq!(verdict(after), (0, 0), "after {choice:?}: {log:02X?}");
            assert!(lock_agrees(after), "after {choice:?}: {log:02X?}");
            assert!(number == TAKEN || before == after, "{number} {log:02X?}");
        });
        assert_eq!(outcome, judge(&log));
        assert!(!matches!(outcome.stop, 1 | 11), "{log:02X?}");
    }
}

/// A refused choice leaves the state equal, in place too; a taken one makes a
/// well formed state. `step` is `apply` after the test for refusal 1.
fn try_choice(state: &State, choice: Choice) -> u8 {
    let (number, after) = step(state, choice);
    if malformed(state) {
        assert_eq!(number, MALFORMED);
    } else {
        let mut changed = state.clone();
        assert_eq!(apply(&mut changed, choice), number);
        assert_eq!(changed, after);
        assert!(!malformed(&after), "{choice:?} on {state:?}");
    }
    if number != TAKEN {
        assert_eq!(*state, after, "refusal {number} of {choice:?}");
    }
    number
}

#[test]
fn bad_choices_along_generated_runs_change_nothing() {
    let mut generator = Generator::of_both(3);
    let mut random = Random::new(4);
    let mut seen = [0u32; 12];
    for _ in 0..2_000 {
        let log = generator.next_log();
        let _ = judge_observed(&log, |_, _, _, after| {
            let choice = random_choice(&mut random);
            seen[usize::from(try_choice(after, choice))] += 1;
        });
    }
    let unseen: Vec<_> = (0..12).filter(|&number| seen[number] == 0).collect();
    assert_eq!(unseen, [1, 11], "all but these two are met: {seen:?}");
}

/// Well formed states that a run does not reach: every number but 1, and
/// every verdict but 4, is met.
#[test]
fn random_states_keep_the_rules() {
    let mut random = Random::new(5);
    let mut seen = [0u32; 12];
    let mut verdicts = [0u32; 5];
    for _ in 0..200_000 {
        let state = random_state(&mut random);
        assert!(!malformed(&state), "{state:?}");
        let (given, number) = verdict(&state);
        assert_eq!(number == 0, given == 0);
        verdicts[usize::from(given)] += 1;
        for _ in 0..4 {
            let choice = likely_choice(&state, &mut random);
            seen[usize::from(try_choice(&state, choice))] += 1;
        }
    }
    let unseen: Vec<_> = (0..12).filter(|&number| seen[number] < 50).collect();
    assert_eq!(unseen, [1], "{seen:?}");
    assert!(
        verdicts[..4].iter().all(|&times| times > 50),
        "{verdicts:?}"
    );
    assert_eq!(verdicts[4], 0);
}

/// The same with some things changed, often for the worse.
#[test]
fn disturbed_states_keep_the_rules() {
    let mut random = Random::new(14);
    let mut ill = 0;
    for _ in 0..100_000 {
        let mut state = random_state(&mut random);
        for _ in 0..random.within(1, 3) {
            disturb(&mut state, &mut random);
        }
        let (given, number) = verdict(&state);
        assert_eq!(given == VERDICT_MALFORMED, malformed(&state));
        assert_eq!(number == 0, matches!(given, 0 | 4));
        ill += u32::from(malformed(&state));
        for _ in 0..3 {
            try_choice(&state, likely_choice(&state, &mut random));
        }
    }
    assert!((20_000..95_000).contains(&ill), "{ill}");
}

/// The same from states at the end of a run.
#[test]
fn disturbed_deep_states_keep_the_rules() {
    let mut generator = Generator::of_both(6);
    let mut random = Random::new(7);
    let mut well_formed = 0;
    for _ in 0..4_000 {
        let (_, end) = judge_observed(&generator.next_log(), |_, _, _, _| {});
        let Ok(end) = end else { continue };
        for _ in 0..10 {
            let mut state = end.clone();
            for _ in 0..random.within(1, 3) {
                disturb(&mut state, &mut random);
            }
            well_formed += u32::from(!malformed(&state));
            for _ in 0..4 {
                try_choice(&state, random_choice(&mut random));
            }
        }
    }
    assert!(well_formed > 1_000, "{well_formed}");
}

/// What a log that is cut must give, by the run of its whole records.
fn cut_outcome(whole: Outcome, header: usize, length: usize) -> Option<(u32, u8)> {
    let bytes = length.checked_sub(header)?;
    let records = (bytes / 8) as u32;
    Some(match (records > whole.steps, bytes % 8) {
        (true, _) => (whole.steps, whole.stop),
        (false, 0) => (records, 0),
        (false, _) => (records, 14),
    })
}

/// "A log that ends after any byte gives the run of its whole records."
#[test]
fn truncation_after_every_byte() {
    let mut generator = Generator::of_both(8);
    let mut cut = 0;
    while cut < 300 {
        let log = generator.next_log();
        let Ok((_, records)) = parse_header(&log) else {
            continue;
        };
        if log.len() > 2_000 {
            continue;
        }
        cut += 1;
        let (whole, header) = (judge(&log), log.len() - records.len());
        for length in 0..log.len() {
            let outcome = judge(&log[..length]);
            match cut_outcome(whole, header, length) {
                Some(expected) => assert_eq!((outcome.steps, outcome.stop), expected),
                None => assert_eq!(outcome, header_outcome()),
            }
        }
    }
}

/// "stop 12": no steps, verdict 4, nothing read.
fn header_outcome() -> Outcome {
    Outcome {
        steps: 0,
        stop: STOP_NOT_ADMITTED,
        verdict: VERDICT_MALFORMED,
        read: READ_NOTHING,
    }
}

#[test]
fn every_clause_of_the_header_broken_alone() {
    for mut generator in [Generator::new(9), Generator::of_version_2(9)] {
        for fault in Fault::ALL {
            let times = if fault == Fault::LogTooLong { 2 } else { 200 };
            for _ in 0..times {
                broken_alone(&generator.faulty(fault), fault);
            }
        }
    }
}

fn broken_alone(log: &[u8], fault: Fault) {
    let (outcome, end) = judge_observed(log, |_, _, _, _| {});
    assert_eq!(end.err(), Some(fault), "{log:02X?}");
    assert_eq!(outcome, header_outcome());
    assert_eq!(outcome, judge(log));
}

#[test]
fn logs_at_the_limit() {
    let mut generator = Generator::of_both(10);
    for _ in 0..6 {
        let log = generator.log_of(65_537);
        assert_eq!(log.len(), 65_537);
        assert_eq!(judge(&log), header_outcome());
        let outcome = judge(&log[..65_536]);
        assert_eq!((outcome.stop, outcome.verdict), (0, 0));
        assert!(outcome.steps > 8_000);
        let shorter = judge(&log[..65_535]);
        assert_eq!((shorter.stop, shorter.verdict), (14, 0));
        assert_eq!(shorter.steps, outcome.steps - 1);
    }
    assert_eq!(judge(&[0x4D; 65_536]), header_outcome());
    assert_eq!(judge(&vec![0; 1_000_000]), header_outcome());
    assert_eq!(judge(&[]), header_outcome());
}

#[test]
fn the_same_seed_gives_the_same_logs() {
    for maker in [Generator::new, Generator::of_version_2, Generator::of_both] {
        let logs = |seed| {
            let mut generator = maker(seed);
            (0..50).map(|_| generator.next_log()).collect::<Vec<_>>()
        };
        assert_eq!(logs(11), logs(11));
        assert_ne!(logs(11), logs(12));
    }
}

/// What a generator's logs call themselves, where their header is admitted.
#[test]
fn a_generator_keeps_to_its_versions() {
    let versions = |mut generator: Generator| {
        let logs = (0..2_000).map(|_| generator.next_log());
        let admitted = logs.filter(|log| parse_header(log).is_ok());
        admitted.map(|log| log[3]).collect::<Vec<u8>>()
    };
    assert!(versions(Generator::new(15)).iter().all(|&own| own == 1));
    let two = versions(Generator::of_version_2(15));
    assert!(two.iter().all(|&own| own == 2));
    let both = versions(Generator::of_both(15));
    let twos = both.iter().filter(|&&own| own == 2).count();
    assert!(
        (both.len() * 2 / 5..both.len() * 3 / 5).contains(&twos),
        "{twos} of {}",
        both.len()
    );
}
