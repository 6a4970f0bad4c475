//! The marked table, and its logs as files.

use claysaucer_bench::{
    judge, judge_observed, line, marked_cases, wide_cases, HandshakePhase, MarkedCase, State,
};
use std::fs;
use std::path::{Path, PathBuf};

fn examples() -> PathBuf {
    Path::new(env!("CARGO_MANIFEST_DIR")).join("../examples")
}

/// The text of a file beside the logs.
fn table(file: &str) -> String {
    fs::read_to_string(examples().join(file)).expect(file)
}

/// Each line of expected.txt: the file it tells of, its log and its outcome.
fn told_logs() -> Vec<(String, Vec<u8>, String)> {
    let told = |line: &str| {
        let (file, outcome) = line.split_once(": ").expect("FILE: line");
        let log = fs::read(examples().join(file)).expect(file);
        (file.to_string(), log, outcome.to_string())
    };
    table("expected.txt").lines().map(told).collect()
}

/// What reads.txt must have: the logs of expected.txt, each with its fourth
/// number.
fn reads() -> String {
    let read = |(file, log, _): (_, Vec<u8>, _)| format!("{file} {}\n", judge(&log).read);
    told_logs().into_iter().map(read).collect()
}

fn log_of(file: &str) -> Vec<u8> {
    let case = marked_cases().into_iter().find(|case| case.file == file);
    case.expect("a marked case").log
}

/// The lines of expected.txt for these cases.
fn expected_lines(cases: &[MarkedCase]) -> String {
    let told = |case: &MarkedCase| format!("{}: {}", case.file, line(case.expected));
    cases.iter().map(told).collect()
}

#[test]
fn every_marked_case_gives_its_numbers() {
    let cases = marked_cases();
    assert_eq!(cases.len(), 13);
    for case in cases {
        assert_eq!(judge(&case.log), case.expected, "{}", case.file);
    }
}

/// R-3's logs beside the table.
#[test]
fn every_wide_case_gives_its_numbers() {
    let cases = wide_cases();
    assert_eq!(cases.len(), 3);
    for case in cases {
        assert_eq!(judge(&case.log), case.expected, "{}", case.file);
    }
}

/// "Marked case 12 now refuses version 3, and N of 33 only in version 1."
/// They are case 1 but for that byte.
#[test]
fn case_12_changes_one_byte() {
    let first = log_of("case-01.log");
    for (file, at, byte) in [("case-12-version.log", 3, 3), ("case-12-cells.log", 5, 33)] {
        let mut log = first.clone();
        log[at] = byte;
        assert_eq!(log_of(file), log, "{file}");
    }
}

/// The two headers of 33 cells differ in the version, and in the root set that
/// it has.
#[test]
fn thirty_three_cells_in_both_versions() {
    let [_, one, two] = wide_cases().try_into().unwrap_or_else(|_| panic!("three"));
    let mut expected = vec![0x4D, 0x47, 0x54, 1, 0, 33, 1];
    expected.extend([0; 99 + 4]);
    assert_eq!(one.log, expected);
    expected[3] = 2;
    expected.extend([0; 4]);
    assert_eq!(two.log, expected);
}

/// What the run of 64 cells leaves: cell 1 names 64 twice, and cell 40 is new.
#[test]
fn sixty_four_cells_end_as_told() {
    let log = &wide_cases()[0].log;
    assert_eq!(log.len(), 7 + 3 * 64 + 8 * 2 + 7 * 8);
    let (_, end) = judge_observed(log, |_, _, _, _| {});
    let end: State = end.expect("a sound header");
    assert_eq!(end.cell(1).fields, [64, 64]);
    let occupied: Vec<u8> = (1..=64).filter(|&r| end.cell(r).occupied).collect();
    assert_eq!(occupied, [1, 33, 40, 64]);
    assert_eq!(end.mutators[0].roots, 1 | 1 << 39 | 1 << 63);
    assert_eq!(end.mutators[1].roots, 1 << 32);
}

#[test]
fn case_1_is_written_byte_for_byte() {
    let log = [
        0x4D, 0x47, 0x54, 0x01, 0x00, 0x02, 0x01, 0x01, 0x00, 0x00, 0x00, 0x00, 0x00, 0x01, 0x00,
        0x00, 0x00, 0x01, 0x00, 0x00, 0x02, 0x00, 0x00, 0x04, 0x00,
    ];
    assert_eq!(log_of("case-01.log"), log);
    assert_eq!(line(judge(&log)), "steps 1 stop 0 verdict 0\n");
}

#[test]
fn case_11_ends_with_both_phases_idle() {
    let (_, end) = judge_observed(&log_of("case-11.log"), |_, _, _, _| {});
    let end: State = end.expect("a sound header");
    assert_eq!(end.system.phase, HandshakePhase::Idle);
    assert_eq!(end.mutators[0].phase, HandshakePhase::Idle);
    assert!(end.mutators[0].in_step && !end.mutators[0].flag);
}

#[test]
fn the_example_files_are_the_marked_logs() {
    for case in marked_cases().into_iter().chain(wide_cases()) {
        let log = fs::read(examples().join(case.file)).expect(case.file);
        assert_eq!(log, case.log, "{}", case.file);
    }
    let expected = table("expected.txt");
    assert!(expected.starts_with(&expected_lines(&marked_cases())));
    assert!(expected.ends_with(&expected_lines(&wide_cases())));
}

#[test]
fn expected_txt_agrees_with_the_judge() {
    let told = told_logs();
    assert_eq!(
        told.len(),
        19,
        "thirteen marked logs, three more, and three of R-3"
    );
    for (file, log, outcome) in told {
        assert_eq!(line(judge(&log)), format!("{outcome}\n"), "{file}");
    }
}

#[test]
fn reads_txt_agrees_with_the_judge() {
    assert_eq!(table("reads.txt"), reads());
}

/// No log of the folder is left out of the two tables.
#[test]
fn every_example_is_told() {
    let files = fs::read_dir(examples()).expect("examples");
    let names = files.map(|file| file.expect("a file").path());
    let logs = names.filter(|path| path.extension().is_some_and(|own| own == "log"));
    assert_eq!(logs.count(), told_logs().len());
}

/// Writes the marked logs anew, those of R-3, and reads.txt:
/// `cargo test --release --test marked -- --ignored`.
#[test]
#[ignore = "writes files"]
fn write_the_marked_logs() {
    for case in marked_cases().into_iter().chain(wide_cases()) {
        fs::write(examples().join(case.file), case.log).expect(case.file);
    }
    fs::write(examples().join("reads.txt"), reads()).expect("reads.txt");
}
