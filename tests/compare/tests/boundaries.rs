//! Both sides of every boundary that a refusal has: columns, length, count, roots, columns of a
//! variable, and points.

use compare::call::{Asked, Call};
use compare::random::Random;
use compare::tables::{good, lent};
use compare::tally::Tally;
use second::table::Record;

/// Counts a call with room to spare, as its boundary and the side it lies on.
fn call(
    tally: &mut Tally,
    kind: &'static str,
    columns: usize,
    in_use: &[Record],
    asked: Asked,
    number: u32,
) {
    let mut random = Random::new(20);
    let call = Call {
        columns: columns as u16,
        table: lent(&mut random, in_use, in_use.len() + 200),
        count: in_use.len(),
        asked,
    };
    let outcome = tally.call(kind, &call);
    assert_eq!(
        outcome.number, number,
        "{kind}: {columns} columns, {asked:?}"
    );
}

/// The two operands, and both at once.
fn of_two(a: u16, b: u16) -> [Asked; 9] {
    [
        Asked::And(a, b),
        Asked::And(b, a),
        Asked::And(a, a),
        Asked::Or(a, b),
        Asked::Or(b, a),
        Asked::Or(a, a),
        Asked::Difference(a, b),
        Asked::Difference(b, a),
        Asked::Difference(a, a),
    ]
}

#[test]
fn columns_from_0_to_16() {
    let mut random = Random::new(21);
    let mut tally = Tally::new();
    for columns in 0..=16 {
        for most in [0, 1, 5, 12] {
            let in_use = good(&mut random, columns, most);
            for place in 0..5 {
                let asked = match (columns, place) {
                    (0, 3) => Asked::Variable(0),
                    _ => Asked::in_range(&mut random, place, columns, in_use.len()),
                };
                let number = if (columns, place) == (0, 3) { 4 } else { 0 };
                let kind = match columns {
                    0 => "no column",
                    16 => "16 columns",
                    _ => "between",
                };
                call(&mut tally, kind, columns, &in_use, asked, number);
                for over in [17, 18, 32, 33, 65_535] {
                    call(&mut tally, "over 16 columns", over, &in_use, asked, 1);
                }
            }
        }
    }
    tally.assert_every(&["no column", "16 columns"], 4);
    tally.assert_every(&["between", "over 16 columns"], 60);
}

#[test]
fn roots_up_to_the_last_record() {
    let mut random = Random::new(22);
    let mut tally = Tally::new();
    for round in 0..120 {
        let columns = round % 13;
        let most = random.pick(&[0, 1, 2, 10]);
        let in_use = good(&mut random, columns, most);
        let last = in_use.len() as u16 + 1;
        let other = random.below(usize::from(last) + 1) as u16;
        for (kind, number, root) in [
            ("the last root", 0, last),
            ("one past the last root", 4, last + 1),
            ("two past the last root", 4, last + 2),
            ("the greatest number", 4, 65_535),
        ] {
            for asked in of_two(root, other) {
                call(&mut tally, kind, columns, &in_use, asked, number);
            }
            let point = random.below(1 << columns) as u32;
            let asked = Asked::Value(root, point);
            call(&mut tally, kind, columns, &in_use, asked, number);
        }
    }
    let kinds = [
        "the last root",
        "one past the last root",
        "two past the last root",
        "the greatest number",
    ];
    tally.assert_each(&kinds, &Asked::OF_TWO_ROOTS, 360);
    tally.assert_each(&kinds, &["value"], 120);
}

#[test]
fn variables_up_to_the_last_column() {
    let mut random = Random::new(23);
    let mut tally = Tally::new();
    for columns in 1..=16 {
        for most in [0, 1, 4, 9] {
            let in_use = good(&mut random, columns, most);
            let last = columns as u16 - 1;
            for (kind, number, column) in [
                ("the first column", 0, 0),
                ("the last column", 0, last),
                ("one past the last column", 4, last + 1),
                ("two past the last column", 4, last + 2),
                ("the greatest number", 4, 65_535),
            ] {
                let asked = Asked::Variable(column);
                call(&mut tally, kind, columns, &in_use, asked, number);
            }
        }
    }
    assert_eq!(tally.calls(), 16 * 4 * 5);
}

#[test]
fn points_below_two_to_the_columns() {
    let mut random = Random::new(24);
    let mut tally = Tally::new();
    for columns in 0..=16 {
        for most in [0, 1, 4, 9] {
            let in_use = good(&mut random, columns, most);
            for root in 0..in_use.len() as u16 + 2 {
                let past = 1u32 << columns;
                for (kind, number, point) in [
                    ("the first point", 0, 0),
                    ("the last point", 0, past - 1),
                    ("one past the last point", 4, past),
                    ("two past the last point", 4, past + 1),
                    ("a high bit", 4, 1 << 31),
                    ("the greatest number", 4, u32::MAX),
                ] {
                    let asked = Asked::Value(root, point);
                    call(&mut tally, kind, columns, &in_use, asked, number);
                }
            }
        }
    }
    assert!(tally.calls() >= 17 * 4 * 2 * 6);
}

#[test]
fn lengths_and_counts() {
    let mut random = Random::new(25);
    let mut tally = Tally::new();
    for columns in 0..=16 {
        let in_use = good(&mut random, columns, 5);
        for place in [0, 1, 2, 4] {
            // A constant and a number in use, so that nothing is missing.
            let number = in_use.len() as u16 + 1;
            let asked = match place {
                0 => Asked::And(number, 1),
                1 => Asked::Or(0, number),
                2 => Asked::Difference(number, 0),
                _ => Asked::Value(number, 0),
            };
            let count = in_use.len();
            for (kind, length, count, number) in [
                ("count at the length", count, count, 0),
                ("count one below the length", count + 1, count, 0),
                ("count one over the length", count, count + 1, 2),
                ("the greatest count", count, usize::MAX, 2),
                ("4,096 records", 4_096, count, 0),
                ("4,097 records", 4_097, count, 2),
                ("5,000 records", 5_000, count, 2),
            ] {
                let call = Call {
                    columns: columns as u16,
                    table: lent(&mut random, &in_use, length),
                    count,
                    asked,
                };
                assert_eq!(tally.call(kind, &call).number, number, "{kind}");
            }
        }
    }
    assert_eq!(tally.calls(), 17 * 4 * 7);
}
