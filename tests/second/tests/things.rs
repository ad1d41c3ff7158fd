//! Points, cubes, functions and nodes: their numbers, signs and truth tables.

mod common;

use common::{function, naive, on_at, Random};
use second::cube;
use second::function::Function;
use second::nodes::Nodes;
use second::point::{digits, from_digits, place_of, point_at};

#[test]
fn a_point_number_has_bit_k_for_column_k() {
    assert_eq!(from_digits("100"), 1);
    assert_eq!(from_digits("001"), 4);
    assert_eq!(digits(1, 3), "100");
    assert_eq!(digits(4, 3), "001");
    assert_eq!(digits(0, 0), "");
    assert_eq!(digits(0x8001, 16), "1000000000000001");
}

#[test]
fn places_read_the_columns_from_the_left() {
    assert_eq!(place_of(from_digits("001"), 3), 1);
    assert_eq!(place_of(from_digits("100"), 3), 4);
    for columns in 0..=16 {
        for place in (0..1usize << columns).step_by(1 + (1 << columns) / 100) {
            let point = point_at(place, columns);
            assert_eq!(place_of(point, columns), place);
            assert_eq!(from_digits(&digits(point, columns)), point);
            assert!(u64::from(point) < 1 << columns);
        }
    }
}

#[test]
fn cube_numbers_and_signs() {
    for (signs, number) in [
        ("01", 65_538),
        ("10", 131_073),
        ("--", 0),
        ("-2", 0),
        ("1-", 1),
        ("", 0),
        ("1111111111111111", 0x0000_ffff),
        ("0000000000000000", 0xffff_0000),
        ("---------------0", 0x8000_0000),
    ] {
        assert_eq!(cube::from_signs(signs.as_bytes()), Some(number), "{signs}");
        let back = cube::signs(number, signs.len());
        assert_eq!(back, signs.replace('2', "-"));
    }
    for signs in ["3", "x", "~", ".", "0 1", "O"] {
        assert_eq!(cube::from_signs(signs.as_bytes()), None);
    }
}

#[test]
fn malformed_cubes() {
    assert!(cube::well_formed(0, 0));
    assert!(!cube::well_formed(1, 0));
    assert!(!cube::well_formed(1 << 16, 0));
    assert!(cube::well_formed(1 << 15, 16));
    assert!(cube::well_formed(1 << 31, 16));
    assert!(!cube::well_formed(1 << 15, 15));
    assert!(!cube::well_formed(1 << 31, 15));
    assert!(!cube::well_formed(1 << 3 | 1 << 19, 16));
    assert!(cube::well_formed(1 << 3 | 1 << 20, 5));
    assert!(!cube::well_formed(1 << 3 | 1 << 20, 4));
    let count = |columns| {
        (0..1u32 << 20)
            .filter(|&cube| cube::well_formed(cube, columns))
            .count()
    };
    // Columns 0 to 3 have both their bits below 2 to the 20, the others only one.
    assert_eq!(count(0), 1);
    assert_eq!(count(2), 9);
    assert_eq!(count(4), 81);
    assert_eq!(count(16), 81 << 12);
}

#[test]
fn a_cube_covers_the_points_with_its_values() {
    let mut random = Random::new(21);
    for columns in 0..=8 {
        for _ in 0..50 {
            let signs = random.signs(columns, b"01-2");
            let number = cube::from_signs(&signs).unwrap();
            let told = signs.iter().filter(|&&s| s == b'0' || s == b'1').count();
            assert_eq!(cube::literals(number) as usize, told);
            let points = Function::from_cube(columns, number);
            for point in 0..1u32 << columns {
                let fits = digits(point, columns)
                    .bytes()
                    .zip(&signs)
                    .all(|(digit, &sign)| sign == b'-' || sign == b'2' || sign == digit);
                assert_eq!(cube::covers(number, point), fits);
                assert_eq!(points.value(point), fits);
            }
        }
    }
}

#[test]
fn literals_come_and_go() {
    let number = cube::from_signs(b"01-").unwrap();
    assert!(cube::has_literal(number, 0) && cube::has_literal(number, 1));
    assert!(!cube::has_literal(number, 2));
    let signs = |cube| cube::signs(cube, 3);
    assert_eq!(signs(cube::without_literal(number, 0)), "-1-");
    assert_eq!(signs(cube::without_literal(number, 1)), "0--");
    assert_eq!(signs(cube::without_literal(number, 2)), "01-");
    assert_eq!(signs(cube::with_literal(number, 2, true)), "011");
    assert_eq!(signs(cube::with_literal(number, 2, false)), "010");
}

#[test]
fn halves_fix_the_first_column() {
    let mut random = Random::new(22);
    for columns in 1..=9 {
        let (naive, _) = random.roots(columns);
        let f = function(columns, &naive);
        let (low, high) = (f.low(), f.high());
        for point in 0..1u32 << columns {
            let half = if point & 1 == 1 { &high } else { &low };
            assert_eq!(f.value(point), naive[point as usize]);
            assert_eq!(half.value(point >> 1), naive[point as usize]);
        }
        assert_eq!(Function::join(&low, &high), f);
        assert_eq!(f.depends_on_first(), low != high);
    }
}

#[test]
fn sums_of_functions_are_pointwise() {
    let mut random = Random::new(23);
    for columns in 0..=9 {
        for _ in 0..20 {
            let (a, b) = (random.roots(columns).0, random.roots(columns).1);
            let (f, g) = (function(columns, &a), function(columns, &b));
            let of = |op: fn(bool, bool) -> bool| {
                function(
                    columns,
                    &a.iter().zip(&b).map(|(&a, &b)| op(a, b)).collect(),
                )
            };
            assert_eq!(f.and(&g), of(|a, b| a && b));
            assert_eq!(f.or(&g), of(|a, b| a || b));
            assert_eq!(f.less(&g), of(|a, b| a && !b));
            assert_eq!(f.not(), of(|a, _| !a));
            let pairs = || a.iter().zip(&b);
            assert_eq!(f.within(&g), pairs().all(|(&a, &b)| !a || b));
            assert_eq!(f.meets(&g), pairs().any(|(&a, &b)| a && b));
            assert_eq!(f.is_zero(), !a.contains(&true));
            assert_eq!(g.is_one(), !b.contains(&false));
            let first = (0..1usize << columns)
                .map(|place| point_at(place, columns))
                .find(|&point| a[point as usize]);
            assert_eq!(f.smallest_point(), first);
        }
    }
}

#[test]
fn the_same_function_of_more_columns_is_the_same_node() {
    let f = on_at(1, &["1"]);
    for columns in 1..=16 {
        let wide = f.widened(columns);
        assert_eq!(wide.columns(), columns);
        assert_eq!(
            wide,
            Function::from_cube(columns, cube::with_literal(0, columns - 1, true))
        );
        assert_eq!(wide.narrowed(), f);
        let mut nodes = Nodes::new();
        nodes.add(&wide);
        nodes.add(&f);
        assert_eq!(nodes.count(), 1);
    }
    assert_eq!(Function::constant(7, true).narrowed().columns(), 0);
}

#[test]
fn nodes_are_the_functions_got_by_fixing_first_columns() {
    let mut random = Random::new(24);
    for round in 0..600 {
        let columns = round % 7;
        let (lower, upper) = random.roots(columns);
        let mut told = naive::nodes(columns, &lower);
        let mut nodes = Nodes::new();
        nodes.add(&function(columns, &lower));
        assert_eq!(nodes.count(), told.len());
        told.extend(naive::nodes(columns, &upper));
        nodes.add(&function(columns, &upper));
        assert_eq!(nodes.count(), told.len());
        assert!(told.iter().all(|node| nodes.has(&function(columns, node))));
    }
}
