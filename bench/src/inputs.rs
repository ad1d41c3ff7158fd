//! Inputs of the programs: some of the corpus, and hard ones.

use compare::random::Random;
use programs::corpus::{cases, Case};
use programs::formula::{row, sign, text};
use programs::program::Program;
use second::point::digits;

/// Those of the corpus that are measured by themselves.
const NAMES: [&str; 9] = [
    "example",
    "9sym",
    "rd84_2",
    "life",
    "adder8_carry_in_turn",
    "majority11",
    "parity10",
    "heel8_beside_not",
    "list_1536",
];

pub fn named() -> Vec<Case> {
    let wanted = |case: &Case| NAMES.contains(&&case.name[..]);
    cases().into_iter().filter(wanted).collect()
}

pub fn hard() -> Vec<Case> {
    let mut made: Vec<Case> = (8..=11).map(random_points).collect();
    made.push(list("rows_1700_again", rows_again(1_700)));
    made.push(list("rows_1700_points", spread_points(12, 1_700)));
    made.push(list("runs_of_four_32_kb", runs_of_four()));
    made.push(check("dashes_1500_rows", dashes(1_500)));
    made.push(check("runs_of_four_32_kb", runs_of_four()));
    made
}

fn list(name: &str, input: Vec<u8>) -> Case {
    case(name, Program::List, input)
}

fn check(name: &str, input: Vec<u8>) -> Case {
    case(name, Program::Check, input)
}

fn case(name: &str, program: Program, input: Vec<u8>) -> Case {
    assert!(input.len() <= 32_768, "{name}: {} bytes", input.len());
    let name = name.to_string();
    Case {
        name,
        program,
        input,
    }
}

/// A third of the points of so many columns, in reading order.
fn random_points(columns: usize) -> Case {
    let mut random = Random::new(columns as u64);
    let points = (0..1 << columns).map(|place| second::point::point_at(place, columns));
    let on = points.filter(|_| random.below(3) == 0);
    let rows: Vec<String> = on.map(|point| digits(point, columns) + " 1").collect();
    list(&format!("random_{columns}"), text(columns, "f", &rows))
}

/// Eight rows again and again.
fn rows_again(rows: usize) -> Vec<u8> {
    let one = |i: usize| row(16, &[(2 * (i % 8), b'1'), (2 * (i % 8) + 1, b'1')]);
    text(16, "f", &(0..rows).map(one).collect::<Vec<_>>())
}

fn random_row(random: &mut Random, columns: usize, signs: &[u8], output: u8) -> String {
    let signs = (0..columns).map(|_| char::from(random.pick(signs)));
    signs.chain([' ', char::from(output)]).collect()
}

fn spread_points(columns: usize, rows: usize) -> Vec<u8> {
    let mut random = Random::new(12);
    let row = |_| random_row(&mut random, columns, b"01", b'1');
    text(columns, "f", &(0..rows).map(row).collect::<Vec<_>>())
}

/// Where four columns in a run are 1; then a don't care everywhere, more don't cares, and one row again
/// and again.
pub fn runs_of_four() -> Vec<u8> {
    let mut random = Random::new(9);
    let run = |from: usize| row(16, &[0, 1, 2, 3].map(|k| (from + k, sign(true))));
    let mut rows: Vec<String> = (0..13).map(run).collect();
    rows.push("---------------- -".to_string());
    rows.extend((0..220).map(|_| random_row(&mut random, 16, b"01", b'-')));
    rows.extend((0..1_450).map(|_| row(16, &[(15, b'1')])));
    text(16, "fd", &rows)
}

/// A function that is on everywhere, and so many rows of dashes.
fn dashes(rows: usize) -> Vec<u8> {
    let row = row(16, &[]);
    let function = text(16, "f", std::slice::from_ref(&row));
    [function, text(16, "f", &vec![row; rows])].concat()
}
