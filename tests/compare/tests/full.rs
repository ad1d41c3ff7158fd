//! Tables of 4,096 records: all of them in use, exactly as many as are needed, and one short.

use compare::call::{Asked, Call};
use compare::random::Random;
use compare::tables::{good, lent, Damage};
use compare::tally::Tally;
use second::refusal::MOST_RECORDS;
use second::table::Record;

fn full(random: &mut Random, columns: usize) -> Vec<Record> {
    let in_use = good(random, columns, MOST_RECORDS);
    assert_eq!(in_use.len(), MOST_RECORDS);
    in_use
}

/// A call on the first records of a table of 4,096, with anything after them.
fn call(random: &mut Random, columns: usize, in_use: &[Record], asked: Asked) -> Call {
    Call {
        columns: columns as u16,
        table: lent(random, in_use, MOST_RECORDS),
        count: in_use.len(),
        asked,
    }
}

/// The same with a second operand that leaves the first as it is.
fn of_one(asked: Asked) -> Asked {
    match asked {
        Asked::And(a, _) => Asked::And(a, a),
        Asked::Or(a, _) => Asked::Or(a, 0),
        Asked::Difference(a, _) => Asked::Difference(a, 0),
        other => other,
    }
}

fn all_in_use(seed: u64, columns: &[usize], calls: usize) -> Tally {
    let mut random = Random::new(seed);
    let mut tally = Tally::new();
    for &columns in columns {
        let in_use = full(&mut random, columns);
        for round in 0..calls {
            let any = Asked::in_range(&mut random, round % 5, columns, MOST_RECORDS);
            let asked = if round < calls / 2 { any } else { of_one(any) };
            let need = asked.need(columns, &in_use);
            let call = call(&mut random, columns, &in_use, asked);
            let (kind, number) = if need == MOST_RECORDS {
                ("nothing missing", 0)
            } else {
                ("no room", 7)
            };
            let outcome = tally.call(kind, &call);
            assert_eq!(outcome.number, number);
            assert!(outcome.table == call.table);
        }
    }
    tally
}

#[test]
fn all_records_in_use() {
    let tally = all_in_use(31, &[5, 6, 8, 10], 60);
    tally.assert_every(&["nothing missing"], 10);
    tally.assert_each(&["no room"], &Asked::BUILDING, 10);
}

#[test]
fn all_records_in_use_with_16_columns() {
    let tally = all_in_use(32, &[16], 20);
    tally.assert_each(
        &["nothing missing"],
        &["and", "or", "difference", "value"],
        2,
    );
    tally.assert_each(&["no room"], &Asked::OF_TWO_ROOTS, 1);
}

/// One broken record among all that a table may have.
#[test]
fn all_records_in_use_and_one_broken() {
    let mut random = Random::new(35);
    let mut tally = Tally::new();
    let table = full(&mut random, 9);
    for damage in Damage::ALL {
        for round in 0..5 {
            let records = match damage {
                Damage::EqualRecords => MOST_RECORDS - 1,
                _ => MOST_RECORDS,
            };
            let mut in_use = table[..records].to_vec();
            while !damage.inflict(&mut random, 9, &mut in_use) {
                in_use = table[..records].to_vec();
            }
            assert_eq!(in_use.len(), MOST_RECORDS);
            let asked = Asked::in_range(&mut random, round, 9, MOST_RECORDS);
            let call = call(&mut random, 9, &in_use, asked);
            let outcome = tally.call(damage.name(), &call);
            assert_eq!(outcome.number, 3);
            assert!(outcome.table == call.table);
        }
    }
    tally.assert_every(&Damage::ALL.map(Damage::name), 1);
}

/// The first records of a table that, with what an operation is missing, are a number of records;
/// none if there is no such number of first records from `least` on. With one record more the
/// sum grows by one, or stays where that record was missing, so it passes every number.
fn first_records(
    columns: usize,
    table: &[Record],
    asked: Asked,
    least: usize,
    sum: usize,
) -> Option<usize> {
    let (mut low, mut high) = (least, table.len());
    while low < high {
        let middle = (low + high) / 2;
        if asked.need(columns, &table[..middle]) < sum {
            low = middle + 1;
        } else {
            high = middle;
        }
    }
    (asked.need(columns, &table[..low]) == sum).then_some(low)
}

fn exact_and_short(seed: u64, columns: &[usize], rounds: usize) -> Tally {
    let mut random = Random::new(seed);
    let mut tally = Tally::new();
    for &columns in columns {
        let table = full(&mut random, columns);
        for round in 0..rounds {
            // Operands among the first records, so that most of the table can be cut away.
            let asked = Asked::in_range(&mut random, round % 4, columns, 2_000);
            for (kind, sum, number) in [
                ("exactly 4,096 needed", MOST_RECORDS, 0),
                ("4,097 needed", MOST_RECORDS + 1, 7),
            ] {
                let Some(count) = first_records(columns, &table, asked, 2_000, sum) else {
                    continue;
                };
                if count == MOST_RECORDS && number == 0 {
                    continue;
                }
                let call = call(&mut random, columns, &table[..count], asked);
                assert_eq!(tally.call(kind, &call).number, number);
            }
        }
    }
    tally
}

#[test]
fn exactly_4096_needed_and_one_more() {
    let tally = exact_and_short(33, &[6, 8, 10, 12], 12);
    tally.assert_each(
        &["exactly 4,096 needed", "4,097 needed"],
        &Asked::BUILDING,
        5,
    );
}

#[test]
fn exactly_4096_needed_and_one_more_with_16_columns() {
    let tally = exact_and_short(34, &[16], 3);
    assert!(tally.calls() >= 4, "{} calls", tally.calls());
}
