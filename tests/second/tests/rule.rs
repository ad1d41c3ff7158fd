//! The list rule against two naive tellings of it: document 01's steps on functions of all
//! columns, and the three-valued tables. All functions of up to three columns are tried.

mod common;

use common::three_valued::{list as by_values, Mistake, Value};
use common::{all_signs, function, naive, on_at, table_of, Naive, Random};
use second::cube::{literals, well_formed};
use second::function::Function;
use second::list::{generation, list, Generation};
use second::nodes::Nodes;
use second::point::point_at;
use second::verdict::{verdict, Verdict};

/// The generation with the nodes of L and U as the records at entry.
fn from_roots(l: &Function, u: &Function) -> Generation {
    let mut entry = Nodes::new();
    entry.add(l);
    entry.add(u);
    generation(l, u, entry)
}

/// The values of a function with don't cares in reading order.
fn values(columns: usize, lower: &Naive, upper: &Naive) -> Vec<Value> {
    (0..1usize << columns)
        .map(|place| point_at(place, columns) as usize)
        .map(|point| match (lower[point], upper[point]) {
            (true, _) => Value::On,
            (false, true) => Value::Free,
            (false, false) => Value::Off,
        })
        .collect()
}

/// Compares everything that is said of one function with don't cares.
fn compare(columns: usize, lower: &Naive, upper: &Naive) {
    let (l, u) = (function(columns, lower), function(columns, upper));
    let made = from_roots(&l, &u);
    let (cubes, nodes) = naive::list_and_need(columns, lower, upper);
    assert_eq!(made.cubes, cubes);
    assert_eq!(made.need, nodes.len());
    assert_eq!(list(&l, &u), cubes);
    let by_values = by_values(&values(columns, lower, upper), Mistake::None);
    assert_eq!(all_signs(&made.cubes, columns), by_values);
    assert!(cubes.iter().all(|&cube| well_formed(cube, columns)));
    assert_eq!(verdict(&l, &u, &cubes), Verdict::Accept);
}

/// The number-th way to give each of the points off, on or don't care.
fn numbered(columns: usize, number: usize) -> (Naive, Naive) {
    let points = 1usize << columns;
    let digit = |point: usize| number / 3usize.pow(point as u32) % 3;
    let lower = (0..points).map(|point| digit(point) == 1).collect();
    let upper = (0..points).map(|point| digit(point) != 0).collect();
    (lower, upper)
}

#[test]
fn all_functions_of_up_to_three_columns() {
    for columns in 0..=3 {
        for number in 0..3usize.pow(1 << columns) {
            let (lower, upper) = numbered(columns, number);
            compare(columns, &lower, &upper);
        }
    }
}

#[test]
fn random_functions_of_four_to_seven_columns() {
    let mut random = Random::new(1);
    for (columns, times) in [(4, 1500), (5, 400), (6, 60), (7, 12)] {
        for _ in 0..times {
            let (lower, upper) = random.roots(columns);
            compare(columns, &lower, &upper);
        }
    }
}

/// The same function with a column put in on which nothing depends.
fn with_idle_column(naive: &Naive, column: usize) -> Naive {
    let below = (1usize << column) - 1;
    (0..2 * naive.len())
        .map(|point| naive[point & below | point >> 1 & !below])
        .collect()
}

#[test]
fn columns_without_influence_are_passed_over() {
    let mut random = Random::new(2);
    for _ in 0..200 {
        let (lower, upper) = random.roots(4);
        for column in 0..=4 {
            let lower = with_idle_column(&lower, column);
            let upper = with_idle_column(&upper, column);
            compare(5, &lower, &upper);
        }
    }
}

#[test]
fn large_random_functions_give_accepted_lists() {
    let mut random = Random::new(3);
    for (columns, times) in [(8, 60), (9, 30), (10, 12), (11, 6), (12, 3)] {
        for _ in 0..times {
            let (lower, upper) = random.roots(columns);
            let (l, u) = (function(columns, &lower), function(columns, &upper));
            let made = from_roots(&l, &u);
            assert_eq!(verdict(&l, &u, &made.cubes), Verdict::Accept);
            let by_values = by_values(&values(columns, &lower, &upper), Mistake::None);
            assert_eq!(all_signs(&made.cubes, columns), by_values);
        }
    }
}

#[test]
fn records_at_entry_count_as_functions() {
    // L = U = on 01, 10, 11 has two records, and its generation makes "column 1 is 0" as well.
    let f = on_at(2, &["01", "10", "11"]);
    assert_eq!(from_roots(&f, &f).need, 3);
    // A record at entry that the generation would make anyway costs nothing more.
    let mut entry = Nodes::new();
    entry.add(&f);
    entry.add(&on_at(2, &["00", "10"]));
    assert_eq!(entry.count(), 3);
    assert_eq!(generation(&f, &f, entry.clone()).need, 3);
    // A record that has nothing to do with it costs its own nodes.
    entry.add(&on_at(2, &["11"]));
    assert_eq!(generation(&f, &f, entry).need, 4);
}

#[test]
fn exclusive_or_needs_its_own_nodes_only() {
    let f = on_at(2, &["01", "10"]);
    assert_eq!(from_roots(&f, &f).need, 3);
}

#[test]
fn nine_symmetric_columns_have_148_rows() {
    let f = Function::from_points(9, |point| (3..=6).contains(&point.count_ones()));
    let made = from_roots(&f, &f);
    assert_eq!(made.cubes.len(), 148);
    assert_eq!(verdict(&f, &f, &made.cubes), Verdict::Accept);
}

#[test]
fn parity_of_sixteen_columns_needs_32768_rows() {
    let f = Function::from_points(16, |point| point.count_ones() % 2 == 1);
    let made = from_roots(&f, &f);
    assert_eq!(made.cubes.len(), 32_768);
    assert!(made.cubes.iter().all(|&cube| literals(cube) == 16));
    // Two records at each level but the first.
    assert_eq!(table_of(&f, &f, 31).1, 31);
    assert_eq!(made.need, 31);
}

#[test]
fn a_random_function_of_sixteen_columns_is_practical() {
    let mut random = Random::new(4);
    let values: Vec<bool> = (0..1 << 16).map(|_| random.below(4) == 0).collect();
    let f = Function::from_points(16, |point| values[point as usize]);
    let made = list(&f, &f);
    assert!(made.len() > 1_000);
    let covered = made
        .iter()
        .fold(Function::constant(16, false), |cover, &cube| {
            cover.or(&Function::from_cube(16, cube))
        });
    assert_eq!(covered, f);
}

/// The list of a function with on and don't-care points, made with a mistake.
fn mistaken(columns: usize, on: &[&str], free: &[&str], mistake: Mistake) -> Vec<String> {
    let naive = |points: &[&str]| -> Naive {
        let f = on_at(columns, points);
        (0..1u32 << columns).map(|point| f.value(point)).collect()
    };
    let upper = [on, free].concat();
    by_values(&values(columns, &naive(on), &naive(&upper)), mistake)
}

/// The list by the rule.
fn right(columns: usize, on: &[&str], free: &[&str]) -> Vec<String> {
    let (l, u) = (on_at(columns, on), on_at(columns, &[on, free].concat()));
    all_signs(&list(&l, &u), columns)
}

#[test]
fn errors_that_look_right_are_noticed_by_their_cases() {
    let all = ["00", "01", "10", "11"];
    assert_eq!(right(2, &[], &all), Vec::<String>::new());
    assert_eq!(mistaken(2, &[], &all, Mistake::FreeAsOnInStep1), ["--"]);

    assert_eq!(right(2, &["01"], &["11"]), ["-1"]);
    assert_eq!(mistaken(2, &["01"], &["11"], Mistake::LessLower), ["01"]);

    let on = ["010", "011", "101", "111"];
    assert_eq!(right(3, &on, &[]), ["01-", "1-1"]);
    let redundant = mistaken(3, &on, &[], Mistake::NoRest);
    assert_eq!(redundant, ["01-", "1-1", "-11"]);
    let f = on_at(3, &on);
    let given = common::cubes(&["01-", "1-1", "-11"]);
    assert_eq!(verdict(&f, &f, &given), Verdict::Cube { cube: 3 });
}
