//! The operations: their refusals in order, what they answer, the numbering of new records, and
//! what they leave behind.

mod common;

use common::{full_records, naive, random_records, walked, Naive, Random};
use second::operation::{and, difference, or, value, variable, AtPoint, Built};
use second::table::{sound, Record};
use std::collections::BTreeSet;

const MARK: Record = Record {
    level: 77,
    low: 77,
    high: 77,
};

fn record(level: u16, low: u16, high: u16) -> Record {
    Record::new(level, low, high)
}

fn done(root: usize, count: usize) -> Built {
    Built {
        number: 0,
        value: 0,
        root,
        count,
    }
}

fn refused(number: u32, count: usize) -> Built {
    Built {
        number,
        value: 0,
        root: 0,
        count,
    }
}

fn is(result: bool) -> AtPoint {
    AtPoint {
        number: 0,
        value: 0,
        result,
    }
}

fn denied(number: u32) -> AtPoint {
    AtPoint {
        number,
        value: 0,
        result: false,
    }
}

/// An operation of two roots, and what it is at a point.
type Operation = fn(usize, &mut [Record], usize, usize, usize) -> Built;
type Pointwise = fn(bool, bool) -> bool;

const OPERATIONS: [(Operation, Pointwise); 3] = [
    (and, |a, b| a && b),
    (or, |a, b| a || b),
    (difference, |a, b| a && !b),
];

/// The answer of a call that must leave every record as it is.
fn kept(records: &mut [Record], call: impl Fn(&mut [Record]) -> Built) -> Built {
    let before = records.to_vec();
    let answer = call(records);
    assert_eq!(records, before);
    answer
}

#[test]
fn two_roots_are_refused_in_order() {
    // Everything wrong at once, mended one by one.
    for (operation, _) in OPERATIONS {
        let mut records = vec![MARK; 4_097];
        let call = |columns, records: &mut [Record], count, a, b| {
            kept(records, |records| operation(columns, records, count, a, b))
        };
        assert_eq!(call(17, &mut records, 4_098, 9, 9), refused(1, 4_098));
        assert_eq!(call(16, &mut records, 4_098, 9, 9), refused(2, 4_098));
        assert_eq!(call(16, &mut records, 2, 9, 9), refused(2, 2));
        records.truncate(2);
        assert_eq!(call(16, &mut records, 3, 9, 9), refused(2, 3));
        assert_eq!(call(16, &mut records, 2, 9, 9), refused(3, 2));
        records.copy_from_slice(&[record(1, 0, 1), record(0, 0, 1)]);
        assert_eq!(call(1, &mut records, 2, 9, 9), refused(3, 2));
        assert_eq!(call(2, &mut records, 2, 9, 9), refused(4, 2));
        assert_eq!(call(2, &mut records, 2, 2, 4), refused(4, 2));
        assert_eq!(call(2, &mut records, 2, 4, 3), refused(4, 2));
        assert_eq!(call(2, &mut records, 2, 2, 3), refused(7, 2));
        records.push(MARK);
        assert_eq!(operation(2, &mut records, 2, 2, 3), done(4, 3));
    }
}

#[test]
fn variables_are_refused_in_order() {
    let mut records = vec![MARK; 4_097];
    let call = |columns, records: &mut [Record], count, column| {
        kept(records, |records| variable(columns, records, count, column))
    };
    assert_eq!(call(17, &mut records, 4_098, 17), refused(1, 4_098));
    assert_eq!(call(2, &mut records, 4_098, 2), refused(2, 4_098));
    assert_eq!(call(2, &mut records, 1, 2), refused(2, 1));
    records.truncate(1);
    assert_eq!(call(2, &mut records, 2, 2), refused(2, 2));
    assert_eq!(call(2, &mut records, 1, 2), refused(3, 1));
    records[0] = record(0, 0, 1);
    assert_eq!(call(2, &mut records, 1, 2), refused(4, 1));
    assert_eq!(call(2, &mut records, 1, 1), refused(7, 1));
    assert_eq!(call(2, &mut records, 1, 0), done(2, 1));
    records.push(MARK);
    assert_eq!(variable(2, &mut records, 1, 1), done(3, 2));
    assert_eq!(records, [record(0, 0, 1), record(1, 0, 1)]);
}

#[test]
fn values_are_refused_in_order() {
    let mut records = vec![MARK; 4_097];
    assert_eq!(value(17, &records, 4_098, 9, u32::MAX), denied(1));
    assert_eq!(value(2, &records, 4_098, 9, 4), denied(2));
    assert_eq!(value(2, &records, 1, 9, 4), denied(2));
    records.truncate(1);
    assert_eq!(value(2, &records, 2, 9, 4), denied(2));
    assert_eq!(value(2, &records, 1, 9, 4), denied(3));
    records[0] = record(0, 0, 1);
    assert_eq!(value(2, &records, 1, 9, 4), denied(4));
    assert_eq!(value(2, &records, 1, 3, 3), denied(4));
    assert_eq!(value(2, &records, 1, 2, 4), denied(4));
    assert_eq!(value(2, &records, 1, 2, u32::MAX), denied(4));
    assert_eq!(value(2, &records, 1, 2, 3), is(true));
    assert_eq!(value(2, &records, 1, 2, 2), is(false));
}

#[test]
fn new_records_come_low_half_first_then_high_then_themselves() {
    // Column 0 chooses between "columns 1 and 2" and "column 1 or 2".
    let mut records = vec![MARK; 9];
    assert_eq!(variable(3, &mut records, 0, 0), done(2, 1));
    assert_eq!(variable(3, &mut records, 1, 2), done(3, 2));
    assert_eq!(variable(3, &mut records, 2, 1), done(4, 3));
    assert_eq!(and(3, &mut records, 3, 3, 4), done(5, 4));
    assert_eq!(or(3, &mut records, 4, 3, 4), done(6, 5));
    assert_eq!(difference(3, &mut records, 5, 5, 2), done(7, 6));
    assert_eq!(and(3, &mut records, 6, 2, 6), done(8, 7));
    assert_eq!(or(3, &mut records, 7, 7, 8), done(9, 8));
    let told = [
        record(0, 0, 1),
        record(2, 0, 1),
        record(1, 0, 1),
        record(1, 0, 3),
        record(1, 3, 1),
        record(0, 5, 0),
        record(0, 0, 6),
        record(0, 5, 6),
        record(0, 0, 0),
    ];
    assert_eq!(records, told);
    // Not "columns 1 and 2" where column 0 is 0: the low half brings two nodes, the high half none.
    records.push(MARK);
    records.push(MARK);
    assert_eq!(difference(3, &mut records, 8, 1, 7), done(12, 11));
    let new = [record(2, 1, 0), record(1, 1, 10), record(0, 11, 1)];
    assert_eq!(records[8..], new);
    assert_eq!(records[..8], told[..8]);
}

#[test]
fn no_column() {
    let mut records = vec![MARK; 3];
    for a in 0..2 {
        for b in 0..2 {
            for (operation, on) in OPERATIONS {
                let told = usize::from(on(a == 1, b == 1));
                records.fill(MARK);
                assert_eq!(operation(0, &mut records, 0, a, b), done(told, 0));
                assert_eq!(records, [Record::default(); 3]);
            }
        }
        assert_eq!(value(0, &records, 0, a, 0), is(a == 1));
        assert_eq!(value(0, &records, 0, a, 1), denied(4));
        assert_eq!(and(0, &mut [], 0, a, 1), done(a, 0));
        assert_eq!(and(0, &mut [], 0, 2, a), refused(4, 0));
    }
    assert_eq!(variable(0, &mut records, 0, 0), refused(4, 0));
    assert_eq!(variable(0, &mut records, 1, 0), refused(3, 1));
}

#[test]
fn points_reach_to_two_to_the_columns() {
    for columns in 0..=16 {
        let last = (1u32 << columns) - 1;
        assert_eq!(value(columns, &[], 0, 1, last), is(true));
        assert_eq!(value(columns, &[], 0, 1, last + 1), denied(4));
        assert_eq!(value(columns, &[], 0, 1, u32::MAX), denied(4));
    }
    assert_eq!(value(17, &[], 0, 1, 0), denied(1));
}

#[test]
fn columns_reach_to_the_last() {
    for columns in 1..=16 {
        let mut records = [MARK; 2];
        let last = columns - 1;
        assert_eq!(variable(columns, &mut records, 0, last), done(2, 1));
        assert_eq!(records, [record(last as u16, 0, 1), Record::default()]);
        assert_eq!(variable(columns, &mut records, 1, columns), refused(4, 1));
        assert_eq!(variable(columns, &mut records, 1, 65_535), refused(4, 1));
    }
    let mut records = [MARK; 2];
    assert_eq!(variable(17, &mut records, 0, 0), refused(1, 0));
    assert_eq!(records, [MARK; 2]);
}

#[test]
fn tables_of_4096_and_4097() {
    for (length, told) in [(4_096, done(2, 1)), (4_097, refused(2, 0))] {
        let mut records = vec![MARK; length];
        assert_eq!(variable(16, &mut records, 0, 15), told);
        let zeros = records[1..].iter().all(|&r| r == Record::default());
        let marks = records.iter().all(|&r| r == MARK);
        assert_eq!((zeros, marks), (length == 4_096, length == 4_097));
    }
    // 4,096 records in use, none of them for column 14 alone.
    let mut full = full_records(&mut Random::new(63));
    assert!(sound(16, &full) && !full.contains(&record(14, 0, 1)));
    let before = full.clone();
    assert_eq!(variable(16, &mut full, 4_096, 15), done(2, 4_096));
    assert_eq!(variable(16, &mut full, 4_096, 14), refused(7, 4_096));
    assert_eq!(and(16, &mut full, 4_096, 4_097, 1), done(4_097, 4_096));
    assert_eq!(and(16, &mut full, 4_096, 4_097, 4_098), refused(4, 4_096));
    assert_eq!(full, before);
    full[4_095] = MARK;
    assert_eq!(variable(16, &mut full, 4_095, 14), done(4_097, 4_096));
    assert_eq!(full[4_095], record(14, 0, 1));
    assert_eq!(full[..4_095], before[..4_095]);
}

/// The function of a number by point number.
fn told_by_walk(columns: usize, records: &[Record], number: usize) -> Naive {
    (0..1u32 << columns)
        .map(|point| walked(records, number, point))
        .collect()
}

#[test]
fn results_are_pointwise_and_bring_exactly_the_missing_nodes() {
    let mut random = Random::new(61);
    let mut short = 0;
    for round in 0..400 {
        let columns = 2 + round % 5;
        let in_use = random_records(&mut random, columns, 30);
        let count = in_use.len();
        let mut number = || random.below(count + 2);
        let (a, b) = (number(), number());
        let (operation, on) = OPERATIONS[round % 3];
        let function = |number| told_by_walk(columns, &in_use, number);
        let result: Naive = function(a)
            .iter()
            .zip(&function(b))
            .map(|(&a, &b)| on(a, b))
            .collect();
        let mut nodes = BTreeSet::new();
        for number in 2..count + 2 {
            nodes.extend(naive::nodes(columns, &function(number)));
        }
        assert_eq!(nodes.len(), count);
        nodes.extend(naive::nodes(columns, &result));
        let need = nodes.len();

        for room in [need, need + 3] {
            let mut records = in_use.clone();
            records.resize(room, MARK);
            let answer = operation(columns, &mut records, count, a, b);
            assert_eq!(answer, done(answer.root, need));
            assert_eq!(records[..count], in_use);
            assert!(sound(columns, &records[..need]));
            assert!(records[need..].iter().all(|&r| r == Record::default()));
            assert_eq!(told_by_walk(columns, &records, answer.root), result);
            for point in 0..1u32 << columns {
                let told = is(result[point as usize]);
                assert_eq!(value(columns, &records, need, answer.root, point), told);
            }
        }
        if need > count {
            short += 1;
            let mut records = in_use.clone();
            records.resize(need - 1, MARK);
            let answer = operation(columns, &mut records, count, a, b);
            assert_eq!(answer, refused(7, count));
            assert_eq!(records[..count], in_use);
            assert!(records[count..].iter().all(|&r| r == Record::default()));
        }
    }
    assert!(short > 100);
}

#[test]
fn one_operation_after_another_keeps_equal_numbers_for_equal_functions() {
    let mut random = Random::new(62);
    for columns in 1..=6 {
        let mut records = vec![MARK; 300];
        let mut count = 0;
        for _ in 0..80 {
            let built = match random.below(4) {
                0 => variable(columns, &mut records, count, random.below(columns)),
                pick => {
                    let (operation, _) = OPERATIONS[pick - 1];
                    let (a, b) = (random.below(count + 2), random.below(count + 2));
                    operation(columns, &mut records, count, a, b)
                }
            };
            assert_eq!(built.number, 0);
            count = built.count;
        }
        let functions: BTreeSet<Naive> = (0..count + 2)
            .map(|number| told_by_walk(columns, &records, number))
            .collect();
        assert_eq!(functions.len(), count + 2);
    }
}
