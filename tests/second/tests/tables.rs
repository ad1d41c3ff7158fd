//! The node table: the rule of a record, the function of a number, and the numbering of new
//! records.

mod common;

use common::{full_records, function, naive, on_at, random_records, walked, Random};
use second::function::Function;
use second::refusal::{COLUMNS_OVER, OUTSIDE_RANGE, RECORD_BROKEN, TABLE_OVER};
use second::table::{judge_numbers, judge_table, sound, Record, Table};

fn record(level: u16, low: u16, high: u16) -> Record {
    Record::new(level, low, high)
}

#[test]
fn a_record_in_use_keeps_its_rule() {
    let good = [record(1, 0, 1), record(0, 2, 1), record(0, 1, 2)];
    assert!(sound(2, &good));
    assert!(sound(0, &[]));
    let broken = [
        // The level is not below the number of columns.
        vec![record(2, 0, 1)],
        // Low and high do not differ.
        vec![record(1, 1, 1)],
        vec![record(1, 0, 1), record(0, 2, 2)],
        // A number of the record itself, of a later one, of none.
        vec![record(1, 0, 2)],
        vec![record(1, 2, 0)],
        vec![record(0, 0, 3), record(1, 0, 1)],
        vec![record(0, 0, 9)],
        // An earlier record, but not of a greater level.
        vec![record(0, 0, 1), record(1, 2, 0)],
        vec![record(1, 0, 1), record(1, 0, 2)],
        // Two equal records.
        vec![record(1, 0, 1), record(0, 2, 1), record(0, 2, 1)],
        vec![record(1, 0, 1), record(1, 0, 1)],
    ];
    for in_use in broken {
        assert!(!sound(2, &in_use), "{in_use:?}");
    }
    assert!(!sound(0, &[record(0, 0, 1)]));
    assert!(sound(1, &[record(0, 0, 1)]));
    assert!(!sound(16, &[record(16, 0, 1)]));
    assert!(sound(16, &[record(15, 0, 1)]));
    assert!(!sound(16, &[record(65_535, 0, 1)]));
}

#[test]
fn tables_are_refused_in_order() {
    let number = |columns, records: &[Record], count| {
        judge_table(columns, records, count)
            .err()
            .map(|refusal| (refusal.number, refusal.value))
    };
    let broken = vec![record(0, 1, 1); 4_097];
    assert_eq!(number(17, &broken, 4_098), Some((COLUMNS_OVER, 0)));
    assert_eq!(number(16, &broken, 0), Some((TABLE_OVER, 0)));
    assert_eq!(number(16, &broken[..1], 2), Some((TABLE_OVER, 0)));
    assert_eq!(number(16, &broken[..1], 1), Some((RECORD_BROKEN, 0)));
    assert_eq!(number(16, &broken[..1], 0), None);
    assert_eq!(number(16, &broken[..4_096], 0), None);
    assert_eq!(number(0, &[], 0), None);
}

#[test]
fn numbers_reach_to_the_last_record_in_use() {
    let number = |count, numbers: &[usize]| {
        judge_numbers(count, numbers)
            .err()
            .map(|refusal| refusal.number)
    };
    assert_eq!(number(0, &[0, 1]), None);
    assert_eq!(number(0, &[2]), Some(OUTSIDE_RANGE));
    assert_eq!(number(3, &[4, 0]), None);
    assert_eq!(number(3, &[0, 5]), Some(OUTSIDE_RANGE));
}

#[test]
fn a_number_stands_for_what_walking_its_records_gives() {
    let mut random = Random::new(31);
    for round in 0..100 {
        let columns = 1 + round % 8;
        let in_use = random_records(&mut random, columns, 60);
        let table = Table::of(columns, &in_use);
        assert_eq!(table.records(), in_use);
        assert_eq!(table.nodes().count(), in_use.len());
        for number in 0..in_use.len() + 2 {
            let told = Function::from_points(columns, |point| walked(&in_use, number, point));
            assert_eq!(table.function(number), told);
        }
    }
}

#[test]
fn a_function_present_adds_nothing() {
    let mut random = Random::new(32);
    for round in 0..100 {
        let columns = 1 + round % 8;
        let in_use = random_records(&mut random, columns, 60);
        let mut table = Table::of(columns, &in_use);
        for number in 0..in_use.len() + 2 {
            let function = table.function(number);
            assert_eq!(table.add(&function, in_use.len()), Some(number));
        }
        assert_eq!(table.records(), in_use);
    }
}

#[test]
fn adding_brings_exactly_the_missing_nodes() {
    let mut random = Random::new(33);
    for round in 0..300 {
        let columns = round % 7;
        let (lower, upper) = random.roots(columns);
        let mut table = Table::new(columns);
        let mut told = naive::nodes(columns, &lower);
        let l = table.add(&function(columns, &lower), 500).unwrap();
        assert_eq!(table.count(), told.len());
        let before = table.records().to_vec();
        told.extend(naive::nodes(columns, &upper));
        let u = table.add(&function(columns, &upper), 500).unwrap();
        assert_eq!(table.count(), told.len());
        assert_eq!(table.records()[..before.len()], before);
        assert!(sound(columns, table.records()));
        assert_eq!(table.function(l), function(columns, &lower));
        assert_eq!(table.function(u), function(columns, &upper));
        let mut again = Table::of(columns, &before);
        let room = table.count();
        assert_eq!(again.add(&function(columns, &upper), room), Some(u));
        if room > before.len() {
            let mut again = Table::of(columns, &before);
            assert_eq!(again.add(&function(columns, &upper), room - 1), None);
        }
    }
}

#[test]
fn new_records_come_low_half_first_then_high_then_themselves() {
    let mut table = Table::new(3);
    // On 011, 100: low is "column 1 and 2 are 1", high is "both are 0".
    let number = table.add(&on_at(3, &["011", "100"]), 5).unwrap();
    let told = [
        record(2, 0, 1),
        record(1, 0, 2),
        record(2, 1, 0),
        record(1, 4, 0),
        record(0, 3, 5),
    ];
    assert_eq!(table.records(), told);
    assert_eq!(number, 6);
    let three = on_at(3, &["011", "111"]);
    assert_eq!(table.add(&three, 5), Some(3));
    assert_eq!(table.add(&Function::constant(3, false), 5), Some(0));
    assert_eq!(table.add(&Function::constant(3, true), 5), Some(1));
    assert_eq!(table.add(&on_at(3, &["011"]), 5), None);
    assert_eq!(table.records(), told);
    assert_eq!(table.add(&on_at(3, &["011"]), 6), Some(7));
}

#[test]
fn sixteen_columns_and_4096_records() {
    let mut random = Random::new(34);
    let in_use = full_records(&mut random);
    assert!(judge_table(16, &in_use, 4_096).is_ok());
    let table = Table::of(16, &in_use);
    assert_eq!(table.nodes().count(), 4_096);
    for point in (0..1u32 << 16).step_by(97) {
        assert_eq!(
            table.function(4_097).value(point),
            walked(&in_use, 4_097, point)
        );
    }
}
