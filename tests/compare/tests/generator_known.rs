//! Lists that are known: document 01's cases, 9sym, and parity of 16 columns.

use compare::functions::{by_signs, Laid};
use compare::generation::Listed;
use compare::random::Random;
use compare::tally::Tally;
use second::cube::with_literal;
use second::refusal::{DONE, LIST_ROOM_LACKING, MOST_CUBES, NODE_ROOM_LACKING};

/// A cube by its signs, leftmost column first.
fn cube(signs: &str) -> u32 {
    let signs = signs.bytes().enumerate();
    signs.fold(0, |cube, (column, sign)| match sign {
        b'0' => with_literal(cube, column, false),
        b'1' => with_literal(cube, column, true),
        _ => cube,
    })
}

/// The function with a sign for each point, points in reading order.
fn laid(columns: usize, signs: &str) -> Laid {
    let place = |point: u32| (0..columns).fold(0, |place, k| 2 * place + (point >> k & 1));
    let roots = by_signs(columns, |point| signs.as_bytes()[place(point) as usize]);
    Laid::over(&mut Random::new(50), columns, &[], roots)
}

/// Generates with so much room, by both programs.
fn generate(laid: &Laid, records: usize, cubes: usize) -> Listed {
    let generation = laid.asked(&mut Random::new(51), records, cubes);
    Tally::new().generate("known", &generation)
}

/// Columns, the sign of each point, and the list.
const CASES: [(usize, &str, &[&str]); 10] = [
    (0, "1", &[""]),
    (2, "----", &[]),
    (2, "0110", &["01", "10"]),
    (2, "0111", &["1-", "-1"]),
    (2, "0001", &["11"]),
    (2, "00-1", &["1-"]),
    (2, "010-", &["-1"]),
    (3, "01111110", &["0-1", "1-0", "-01", "-10"]),
    // Step 1 before step 2, and the rests joined: the redundant -11 does not appear.
    (0, "-", &[]),
    (3, "00110101", &["01-", "1-1"]),
];

#[test]
fn known_cases() {
    for (columns, signs, list) in CASES {
        let laid = laid(columns, signs);
        let listed = generate(&laid, 64, 16);
        let length = list.len();
        assert_eq!(listed.numbers(), (DONE, 0, length as u64), "{signs}");
        let cubes: Vec<u32> = list.iter().map(|signs| cube(signs)).collect();
        assert_eq!(listed.room[..length], cubes, "{signs}");
        assert!(listed.room[length..].iter().all(|&cube| cube == 0));
    }
    assert_eq!([cube("01"), cube("10")], [65_538, 131_073]);
}

/// 9sym is 1 where three to six of nine columns are. Source 002, table 1, gives it 148 rows.
#[test]
fn nine_symmetric_columns_have_148_rows() {
    let roots = by_signs(9, |point| match point.count_ones() {
        3..=6 => b'1',
        _ => b'0',
    });
    let laid = Laid::over(&mut Random::new(52), 9, &[], roots);
    let need = laid.generation().need;
    assert_eq!(generate(&laid, need, 148).numbers(), (DONE, 0, 148));
    let numbers = generate(&laid, need, 147).numbers();
    assert_eq!(numbers, (LIST_ROOM_LACKING, 148, 0));
    let numbers = generate(&laid, need - 1, 148).numbers();
    assert_eq!(numbers, (NODE_ROOM_LACKING, 0, 0));
}

/// The greatest list that is named: half of all points, each a cube of its own.
#[test]
fn parity_of_16_columns() {
    let roots = by_signs(16, |point| b"01"[point.count_ones() as usize % 2]);
    let laid = Laid::over(&mut Random::new(53), 16, &[], roots);
    let need = laid.generation().need;
    for cubes in [0, 1_536, MOST_CUBES] {
        let listed = generate(&laid, need, cubes);
        assert_eq!(listed.numbers(), (LIST_ROOM_LACKING, 32_768, 0));
        assert!(listed.room == vec![0; cubes]);
    }
}

/// Half as many fit the greatest list slice exactly.
#[test]
fn parity_of_15_columns() {
    let roots = by_signs(15, |point| b"01"[point.count_ones() as usize % 2]);
    let laid = Laid::over(&mut Random::new(54), 15, &[], roots);
    let need = laid.generation().need;
    let listed = generate(&laid, need, MOST_CUBES);
    assert_eq!(listed.numbers(), (DONE, 0, 16_384));
    let numbers = generate(&laid, need, MOST_CUBES - 1).numbers();
    assert_eq!(numbers, (LIST_ROOM_LACKING, 16_384, 0));
}
