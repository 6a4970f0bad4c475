//! R-6 of document 02: "The last such answer of a run becomes a fourth number",
//! on logs written by hand.

use claysaucer_bench::number::{
    BLOCKED, NOT_OFFERED, NO_KIND, NO_PROCESS, READ_MEMORY, READ_NOTHING, STOP_ENDED,
    STOP_FEW_LEFT, STOP_NOT_ADMITTED, STOP_WRONG_CHECK,
};
use claysaucer_bench::{judge, Choice, Header, Version};

/// Two occupied cells and a free one; two mutators with the root 1.
fn log_of(choices: &[Choice]) -> Vec<u8> {
    let cells = vec![[1, 0, 0], [1, 0, 0], [0, 0, 0]];
    let mut log = Header::new(Version::One, cells, vec![1, 1]).bytes();
    log.extend(choices.iter().flat_map(|choice| choice.record()));
    log
}

/// The stop and the fourth number of these choices.
fn run(choices: &[Choice]) -> (u8, u8) {
    let outcome = judge(&log_of(choices));
    (outcome.stop, outcome.read)
}

/// Mutator 1 stores null in field f of cell 1, over null: two steps, the first
/// of which reads.
fn null_store(f: u8) -> [Choice; 2] {
    [Choice::operation(1, 3, 1, f, 0), Choice::own(1)]
}

fn null_stores(fields: &[u8]) -> Vec<Choice> {
    fields.iter().flat_map(|&f| null_store(f)).collect()
}

/// Mutator p reads field f of cell 1.
fn load(p: u8, f: u8) -> Choice {
    Choice::operation(p, 2, 1, f, 0)
}

/// Mutator 1 allocates the free cell.
fn allocation() -> Choice {
    Choice::operation(1, 0, 3, 0, 0)
}

/// A whole no-op round, which both mutators answer.
fn no_op_round() -> Vec<Choice> {
    let both = [Choice::naming(0, 1), Choice::naming(0, 2)];
    let answer = |p| {
        [
            Choice::operation(p, 5, 0, 0, 0),
            Choice::own(p),
            Choice::own(p),
        ]
    };
    let start = [Choice::own(0); 2];
    [&start[..], &both, &answer(1), &answer(2), &both].concat()
}

#[test]
fn a_log_without_a_read() {
    let (drop, fence) = (
        Choice::operation(1, 1, 1, 0, 0),
        Choice::operation(2, 4, 0, 0, 0),
    );
    for choices in [&[][..], &[allocation()], &[drop, fence], &no_op_round()] {
        assert_eq!(run(choices), (STOP_ENDED, READ_NOTHING));
    }
}

/// On stop 12 no record is taken, whatever stands after the header.
#[test]
fn a_log_that_is_not_admitted() {
    let refused = |log: &[u8]| {
        let outcome = judge(log);
        assert_eq!(
            (outcome.stop, outcome.read),
            (STOP_NOT_ADMITTED, READ_NOTHING)
        );
    };
    refused(&[]);
    let log = log_of(&[load(1, 0)]);
    assert_eq!(judge(&log).read, READ_MEMORY);
    for at in 0..5 {
        let mut other = log.clone();
        other[at] ^= 0x80;
        refused(&other);
    }
    refused(&log_of(&vec![load(1, 0); 8_192]));
}

/// The only record that would read is not taken: it is refused by number, has
/// a wrong check, or is cut.
#[test]
fn a_log_whose_only_read_is_refused() {
    let changes = [
        (NO_PROCESS, load(3, 0)),
        (
            NO_KIND,
            Choice {
                kind: 2,
                ..load(1, 0)
            },
        ),
        (NOT_OFFERED, load(1, 2)),
        (NOT_OFFERED, Choice { x: 2, ..load(1, 0) }),
        (NOT_OFFERED, Choice { y: 1, ..load(1, 0) }),
        (NOT_OFFERED, Choice::operation(1, 3, 1, 0, 2)),
    ];
    for (stop, choice) in changes {
        assert_eq!(run(&[choice]), (stop, READ_NOTHING));
        assert_eq!(run(&[allocation(), choice]), (stop, READ_NOTHING));
    }
    let mut log = log_of(&[load(1, 0)]);
    let cut = judge(&log[..log.len() - 1]);
    assert_eq!((cut.stop, cut.read), (STOP_FEW_LEFT, READ_NOTHING));
    *log.last_mut().expect("a check") += 1;
    let wrong = judge(&log);
    assert_eq!((wrong.stop, wrong.read), (STOP_WRONG_CHECK, READ_NOTHING));
}

/// A refused record keeps the number of the last one taken, though it would
/// have read elsewhere; so do the records after it.
#[test]
fn a_refused_read_is_not_the_last() {
    let own = null_stores(&[0]);
    let refused = Choice { y: 1, ..load(1, 0) };
    let memory = [&own[..], &[load(2, 0), refused, load(1, 0)]].concat();
    assert_eq!(run(&memory), (NOT_OFFERED, READ_MEMORY));
    let refused = Choice { y: 1, ..load(2, 0) };
    let place_0 = [&own[..], &[load(1, 0), refused, load(2, 0)]].concat();
    assert_eq!(run(&place_0), (NOT_OFFERED, 1));
}

/// Mutator 1 has a store of field 0 pending. Mutator 2 marks cell 1, which is
/// white once row 2 has flipped fM and row 4 has begun, and takes the lock: so
/// mutator 1's read of that field is refused, and the mark's of phase stays the
/// last one.
#[test]
fn a_blocked_read_is_not_the_last() {
    let (own, commit) = (Choice::own(0), Choice::commit(0));
    let round = no_op_round();
    let flip = [own, own, commit];
    let store = null_store(0);
    let mark = [
        Choice::operation(2, 3, 1, 1, 1),
        Choice::own(2),
        Choice::own(2),
        Choice::own(2),
    ];
    let lock = [Choice::own(2)];
    let marking = [&round[..], &flip, &round, &[own, commit], &store, &mark].concat();
    let unlocked = [&marking[..], &[load(1, 0)]].concat();
    assert_eq!(run(&unlocked), (STOP_ENDED, 1));
    let locked = [&marking[..], &lock, &[load(1, 0)]].concat();
    assert_eq!(run(&locked), (BLOCKED, READ_MEMORY));
}

/// So many null stores to one field: the newest is read, also by the next
/// store's first read. With nothing pending it is memory.
#[test]
fn a_log_reads_each_place_of_a_buffer() {
    for pending in 0..=8 {
        let stores = null_stores(&vec![0; pending]);
        for last in [load(1, 0), null_store(0)[0]] {
            let log = [&stores[..], &[last]].concat();
            assert_eq!(run(&log), (STOP_ENDED, pending as u8));
        }
        let other = [&stores[..], &[load(1, 1)]].concat();
        assert_eq!(run(&other), (STOP_ENDED, READ_MEMORY));
        let another = [&stores[..], &[load(2, 0)]].concat();
        assert_eq!(run(&another), (STOP_ENDED, READ_MEMORY));
    }
}

/// Fields 0, 1, 0, 1, 1 are stored: 0 is read at place 2 and 1 at place 4. A
/// commit brings each one place nearer the oldest, and reads nothing itself.
#[test]
fn places_fall_with_each_commit() {
    let mut choices = null_stores(&[0, 1, 0, 1, 1]);
    let mut next = |choice| {
        choices.push(choice);
        run(&choices)
    };
    for (zero, one) in [(3, 5), (2, 4), (1, 3), (0, 2), (0, 1)] {
        assert_eq!(next(load(1, 0)), (STOP_ENDED, zero));
        assert_eq!(next(load(1, 1)), (STOP_ENDED, one));
        assert_eq!(next(Choice::commit(1)), (STOP_ENDED, one));
    }
    assert_eq!(next(load(1, 1)), (STOP_ENDED, READ_MEMORY));
}

/// Records that read nothing keep the number of the last that does.
#[test]
fn later_records_without_a_read_keep_the_number() {
    let mut choices = null_stores(&[0, 0]);
    choices.push(load(1, 0));
    for silent in [
        allocation(),
        Choice::commit(1),
        Choice::commit(1),
        Choice::operation(1, 4, 0, 0, 0),
        Choice::operation(1, 1, 1, 0, 0),
        Choice::own(0),
    ] {
        choices.push(silent);
        assert_eq!(run(&choices), (STOP_ENDED, 2), "{silent:?}");
    }
}
