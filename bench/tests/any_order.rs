//! R-4 of document 02: "The fields are scanned in any order."

mod common;

use claysaucer_bench::number::{NOT_OFFERED, TAKEN};
use claysaucer_bench::{
    field_bit, judge_observed, step, Choice, CollectorPlace, MarkStage, State, BOTH_FIELDS,
};
use common::{collector_marks, number, opening, scanning};
use CollectorPlace::{Row7Drop, Row7FirstRead, Row7Mark, Row7NextRead};

/// A log of the time when the order was fixed: f is 0 at every read of row 7.
const OLD_LOG: &[u8] = include_bytes!("../../examples/field-0-twice.log");

/// The collector about to read cell 1, which has these fields.
fn listed(fields: [u8; 2]) -> State {
    let mut state = opening();
    state.cell_mut(1).fields = fields;
    state.collector.place = Row7FirstRead;
    state.collector.own.list = 1;
    state
}

/// The collector about to read cell 1 further, with these fields left.
fn left(unscanned: u8) -> State {
    scanning(Row7NextRead, unscanned)
}

/// Takes a choice that must be taken.
fn take(state: &State, choice: Choice) -> State {
    let (number, after) = step(state, choice);
    assert_eq!(number, TAKEN, "{choice:?}");
    after
}

/// The two steps that mark a cell which has its mark already.
fn marked(state: &State) -> State {
    assert_eq!(state.collector.place, Row7Mark(MarkStage::Look));
    take(&take(state, Choice::own(0)), Choice::own(0))
}

/// "at each field read in row 7 the choice's f names a field not yet scanned".
#[test]
fn both_orders_end_at_the_drop() {
    for (first, next, fields) in [(0, 1, [1, 2]), (1, 0, [2, 1])] {
        let read = take(&listed(fields), Choice::field_read(1, first));
        assert_eq!((read.collector.scanned, read.collector.child), (1, 1));
        assert_eq!(read.collector.unscanned, field_bit(next));
        let state = marked(&read);
        assert_eq!(state.collector.place, Row7NextRead);
        let read = take(&state, Choice::field_read(0, next));
        assert_eq!((read.collector.scanned, read.collector.child), (1, 2));
        assert_eq!(read.collector.unscanned, 0);
        let state = marked(&read);
        assert_eq!(state.collector.place, Row7Drop);
        let dropped = take(&state, Choice::own(0)).collector;
        assert_eq!((dropped.scanned, dropped.own.list), (0, 0));
    }
}

/// "Refusal 4 is then given for a field already scanned." The state is the
/// same then, as `number` sees.
#[test]
fn a_field_already_scanned_is_refused() {
    for f in 0..=1 {
        for fields in [[0, 0], [2, 2]] {
            let read = take(&listed(fields), Choice::field_read(1, f));
            let state = match fields {
                [0, 0] => read,
                _ => marked(&read),
            };
            assert_eq!(number(&state, Choice::field_read(0, f)), NOT_OFFERED);
            take(&state, Choice::field_read(0, 1 - f));
        }
        assert_eq!(number(&left(0), Choice::field_read(0, f)), NOT_OFFERED);
        take(&left(BOTH_FIELDS), Choice::field_read(0, f));
    }
}

#[test]
fn a_field_above_1_is_refused_at_both_reads() {
    for f in 2..=255 {
        let first = Choice::field_read(1, f);
        assert_eq!(number(&listed([2, 2]), first), NOT_OFFERED, "{f}");
        for unscanned in 0..=BOTH_FIELDS {
            let next = Choice::field_read(0, f);
            assert_eq!(number(&left(unscanned), next), NOT_OFFERED, "{f}");
        }
    }
}

/// "x keeps its use at the first", and no read uses operation or y.
#[test]
fn x_is_named_at_the_first_read_alone() {
    for f in 0..=1 {
        for x in [0, 2, 3, 4, 255] {
            let first = Choice::field_read(x, f);
            assert_eq!(number(&listed([2, 2]), first), NOT_OFFERED, "{x}");
        }
        for x in 1..=255 {
            let next = Choice::field_read(x, f);
            assert_eq!(number(&left(BOTH_FIELDS), next), NOT_OFFERED, "{x}");
        }
        for (operation, y) in [(1, 0), (0, 1)] {
            let first = Choice::operation(0, operation, 1, f, y);
            assert_eq!(number(&listed([2, 2]), first), NOT_OFFERED);
            let next = Choice::operation(0, operation, 0, f, y);
            assert_eq!(number(&left(BOTH_FIELDS), next), NOT_OFFERED);
        }
    }
}

/// Null is not marked: the next read comes, or the drop if no field is left.
#[test]
fn after_null_comes_what_is_left() {
    for f in 0..=1 {
        let other = field_bit(1 - f);
        let first = take(&listed([0, 0]), Choice::field_read(1, f));
        let next = take(&left(BOTH_FIELDS), Choice::field_read(0, f));
        for after in [first, next] {
            assert_eq!(after.collector, left(other).collector);
        }
        let last = take(&left(field_bit(f)), Choice::field_read(0, f));
        assert_eq!(last.collector, scanning(Row7Drop, 0).collector);
    }
}

/// The same after a mark. What is left is kept through it.
#[test]
fn after_a_mark_comes_what_is_left() {
    for state in collector_marks(2, MarkStage::Look) {
        let unscanned = state.collector.unscanned;
        let after = marked(&state).collector;
        let place = match unscanned {
            0 => Row7Drop,
            _ => Row7NextRead,
        };
        assert_eq!((after.place, after.unscanned), (place, unscanned));
    }
}

/// "old logs with f at 0 in both reads stop at the second with number 4".
#[test]
fn an_old_log_stops_at_the_second_read() {
    let mut places = Vec::new();
    let (outcome, _) = judge_observed(OLD_LOG, |before, choice, _, _| {
        if choice.process == 0 {
            places.push(before.collector.place);
        }
    });
    assert_eq!((outcome.steps, outcome.stop, outcome.verdict), (62, 4, 0));
    assert!(places.ends_with(&[Row7FirstRead, Row7NextRead]));
}
