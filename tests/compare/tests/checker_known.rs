//! Verdicts that are known: document 01's cases, its errors that look right, points in reading
//! order, and the greatest lists.

use compare::check::{Judged, ACCEPT, CUBE, LITERAL, MISSING, OFF};
use compare::functions::{by_signs, Laid};
use compare::random::Random;
use compare::tally::Tally;
use second::cube::from_signs;
use second::point::{digits, from_digits, place_of};
use second::refusal::MOST_CUBES;

/// The function with a sign for each point, points in reading order.
fn laid(columns: usize, signs: &str) -> Laid {
    let roots = by_signs(columns, |point| signs.as_bytes()[place_of(point, columns)]);
    Laid::over(&mut Random::new(90), columns, &[], roots)
}

/// The verdict of both programs on rows.
fn verdict(laid: &Laid, list: Vec<u32>) -> Judged {
    let check = laid.checked(&mut Random::new(91), laid.count() + 3, list);
    Tally::new().check("known", &check)
}

/// Columns, the sign of each point, the rows, and the verdict.
type Case = (usize, &'static str, &'static [&'static str], u64, [u64; 2]);

const CASES: [Case; 25] = [
    (0, "1", &[""], ACCEPT, [0, 0]),
    (0, "1", &[], MISSING, [0, 0]),
    (0, "0", &[""], OFF, [1, 0]),
    (0, "-", &[""], CUBE, [1, 0]),
    (2, "----", &[], ACCEPT, [0, 0]),
    (2, "0110", &["01", "10"], ACCEPT, [0, 0]),
    (2, "0110", &["10", "01"], ACCEPT, [0, 0]),
    (2, "0111", &["1-", "-1"], ACCEPT, [0, 0]),
    (2, "0111", &["1-", "01"], LITERAL, [2, 0]),
    (2, "0001", &["11"], ACCEPT, [0, 0]),
    (2, "00-1", &["1-"], ACCEPT, [0, 0]),
    // A literal is tested against the off set, not the on set.
    (2, "00-1", &["11"], LITERAL, [1, 1]),
    // The leftmost of two that can go.
    (2, "---1", &["11"], LITERAL, [1, 0]),
    (2, "010-", &["-1"], ACCEPT, [0, 0]),
    (2, "010-", &["01"], LITERAL, [1, 0]),
    (3, "01111110", &["0-1", "1-0", "-01", "-10"], ACCEPT, [0, 0]),
    // Fewer rows, and as good.
    (3, "01111110", &["01-", "-01", "1-0"], ACCEPT, [0, 0]),
    (2, "0101", &["-1", "-1"], CUBE, [1, 0]),
    (3, "00110101", &["01-", "1-1", "-11"], CUBE, [3, 0]),
    // A cube that covers don't-care points only can go.
    (2, "01-0", &["01", "10"], CUBE, [2, 0]),
    // The first fault wins, whichever cube has the next one.
    (2, "0110", &["01", "-0"], OFF, [2, 0]),
    (2, "0100", &["01", "01", "1-"], OFF, [3, 1]),
    (3, "11110000", &["00-", "00-"], MISSING, [2, 0]),
    // 01 comes before 10, though its number is the greater.
    (2, "1001", &["--"], OFF, [1, 2]),
    (2, "0110", &[], MISSING, [2, 0]),
];

#[test]
fn known_cases() {
    for (columns, signs, rows, kind, values) in CASES {
        let list = rows.iter().map(|row| from_signs(row.as_bytes()).unwrap());
        let judged = verdict(&laid(columns, signs), list.collect());
        assert_eq!(judged, Judged::verdict(kind, values), "{signs} {rows:?}");
    }
}

/// The smallest point is the first when columns are read left to right, not the one with the least
/// number; the point itself is named by its number.
#[test]
fn the_smallest_point_is_not_the_one_with_the_least_number() {
    assert_eq!([from_digits("01"), from_digits("10")], [2, 1]);
    for columns in 2..=16 {
        // Two points: one with the last column alone, one with the first column alone.
        let (first, second) = (1 << (columns - 1), 1);
        assert!(digits(first, columns) < digits(second, columns));
        let sign = |inside, outside| {
            by_signs(columns, move |point| match point {
                _ if point == first || point == second => inside,
                _ => outside,
            })
        };
        let random = &mut Random::new(92);
        let on = Laid::over(random, columns, &[], sign(b'1', b'0'));
        let missing = Judged::verdict(MISSING, [u64::from(first), 0]);
        assert_eq!(verdict(&on, vec![]), missing);
        let off = Laid::over(random, columns, &[], sign(b'0', b'1'));
        let covered = Judged::verdict(OFF, [1, u64::from(first)]);
        assert_eq!(verdict(&off, vec![0]), covered);
    }
}

/// The greatest list slice, all of it the cube without literals.
#[test]
fn as_many_rows_without_literals_as_there_may_be() {
    for columns in [0, 6, 16] {
        let on = by_signs(columns, |_| b'1');
        let laid = Laid::over(&mut Random::new(93), columns, &[], on);
        let judged = verdict(&laid, vec![0; MOST_CUBES]);
        assert_eq!(judged, Judged::verdict(CUBE, [1, 0]));
    }
}

/// At least eight of 16 columns are 1: each choice of eight is a row, and none can go.
#[test]
fn threshold_8_of_16() {
    let roots = by_signs(16, |point| b"01"[usize::from(point.count_ones() >= 8)]);
    let laid = Laid::over(&mut Random::new(94), 16, &[], roots);
    let mut rows: Vec<u32> = (0..1 << 16)
        .filter(|row: &u32| row.count_ones() == 8)
        .collect();
    assert_eq!(rows.len(), 12_870);
    assert_eq!(
        verdict(&laid, rows.clone()),
        Judged::verdict(ACCEPT, [0, 0])
    );
    let last = rows.pop().unwrap();
    let missing = Judged::verdict(MISSING, [u64::from(last), 0]);
    assert_eq!(verdict(&laid, rows), missing);
}
