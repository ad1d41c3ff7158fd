//! A thousand functions with lists: the verdicts of the binary are those of the second program.

mod common;

use common::{top, Desk, Random};
use second::programs::{check_program, list_program};
use std::collections::BTreeMap;
use std::fs::File;
use std::path::Path;
use std::process::Command;

const PAIRS: usize = 1_000;

#[test]
fn verdicts_of_a_thousand_pairs() {
    let mut random = Random::new(9);
    let desk = Desk::new();
    let mut tally: BTreeMap<String, usize> = BTreeMap::new();
    for _ in 0..PAIRS {
        let function = function(&mut random);
        let list = list(&mut random, &function);
        desk.put("f.pla", &function);
        desk.put("l.pla", &list);
        let told = second(check_program, &[function.as_str(), &list].concat());
        let plain = desk.run(&["check", "--plain", "f.pla", "l.pla"]);
        assert_eq!((&plain.out, &*plain.err), (&told, ""), "{function}{list}");
        let words = desk.run(&["check", "f.pla", "l.pla"]);
        let kind = told.split([' ', '\n']).next().unwrap().to_string();
        let status = match &*kind {
            "accept" => 0,
            "refused" => 2,
            _ => 1,
        };
        assert_eq!((plain.status, words.status), (status, status), "{told}");
        let said = if status == 2 { &words.err } else { &words.out };
        assert!(agrees(said, &told, &list), "{said}{told}{function}{list}");
        *tally.entry(kind).or_default() += 1;
    }
    println!("{tally:?}");
    for kind in ["accept", "off", "missing", "literal", "cube", "refused"] {
        assert!(
            tally.get(kind).is_some_and(|&number| number >= 20),
            "{tally:?}"
        );
    }
}

#[test]
fn lists_of_functions() {
    let mut random = Random::new(10);
    let desk = Desk::new();
    for _ in 0..200 {
        let function = function(&mut random);
        let listed = desk.run_with(&["list", "-", "--plain"], &function);
        assert_eq!(listed.out, second(list_program, &function), "{function}");
    }
}

#[test]
fn the_built_programs_say_the_same() {
    let built = |name: &str| top().join("crates").join(name).join("out").join(name);
    let programs = ["pla_list", "pla_check"].map(built);
    if !programs.iter().all(|program| program.exists()) {
        println!("skipped: `rt ci` has not made the programs");
        return;
    }
    let mut random = Random::new(11);
    let desk = Desk::new();
    for _ in 0..100 {
        let function = function(&mut random);
        let list = list(&mut random, &function);
        desk.put("f.pla", &function);
        desk.put("l.pla", &list);
        desk.put("both.pla", &[function.as_str(), &list].concat());
        let listed = desk.run(&["list", "--plain", "f.pla"]).out;
        assert_eq!(listed, run_on(&programs[0], &desk.path("f.pla")));
        let checked = desk.run(&["check", "--plain", "f.pla", "l.pla"]).out;
        assert_eq!(checked, run_on(&programs[1], &desk.path("both.pla")));
    }
}

/// What a program writes with a file as its standard input.
fn run_on(program: &Path, input: &Path) -> String {
    let input = File::open(input).unwrap();
    let output = Command::new(program).stdin(input).output().unwrap();
    String::from_utf8(output.stdout).unwrap()
}

fn second(program: fn(&[u8]) -> Vec<u8>, input: &str) -> String {
    String::from_utf8(program(input.as_bytes())).unwrap()
}

/// Whether the words say what the line says: the row with its line and text, the point, the column.
fn agrees(said: &str, told: &str, list: &str) -> bool {
    let fields: Vec<&str> = told.split_whitespace().collect();
    let row = |number: &str| {
        let numbered = list.lines().zip(1..);
        let mut rows = numbered.filter(|(line, _)| line.starts_with(['0', '1', '-', '2']));
        let place = number.parse::<usize>().unwrap() - 1;
        let (text, line) = rows.nth(place).unwrap();
        format!("l.pla:{line}: row {number} \"{text}\" ")
    };
    match fields[..] {
        ["accept"] => said.starts_with("l.pla: accepted, "),
        ["off", number, point] => {
            said == format!(
                "{}covers point {point}, where the function is off\n",
                row(number)
            )
        }
        ["missing", point] => {
            said == format!("l.pla: no row covers point {point}, where the function is on\n")
        }
        ["literal", number, column] => said.starts_with(&format!(
            "{}has a literal too many in column {column}: ",
            row(number)
        )),
        ["cube", number] => said.starts_with(&format!("{}is a row too many: ", row(number))),
        ["refused", "11", line] => said.contains(&format!("pla:{line}: text fault (11)\n")),
        ["refused", number, _] => said.contains(&format!(" ({number})")),
        _ => false,
    }
}

/// A function text of one to eight columns, closed by `.e`; some have a fault.
fn function(random: &mut Random) -> String {
    let columns = 1 + random.below(8);
    let kind = random.pick(&["", "", ".type f\n", ".type fd\n", ".type fr\n"]);
    let from: &[char] = random.pick(&[&['0', '1', '-'], &['0', '1', '-', '-', '2'], &['0', '1']]);
    let outputs: &[&str] = random.pick(&[&["1"], &["1", "-"], &["1", "0", "-", "~"]]);
    let rows = random.pick(&[0, 1, 2, 3, 4, 5, 6, 7, 8, 9, 12, 15]);
    let row = |_| {
        let signs = random.signs(columns, from);
        format!("{signs} {}\n", random.pick(outputs))
    };
    let rows: String = (0..rows).map(row).collect();
    let fault = if random.below(25) == 0 { "0 1 1\n" } else { "" };
    format!(".i {columns}\n.o 1\n{kind}{rows}{fault}.e\n")
}

/// The function's list as the second program makes it, changed in some way or in none.
fn list(random: &mut Random, function: &str) -> String {
    let made = second(list_program, function);
    let rows: Vec<String> = made.lines().skip(3).map(str::to_string).collect();
    let mut rows: Vec<String> = rows.into_iter().filter(|row| row != ".e").collect();
    match random.below(10) {
        0 => {}
        1 => change(random, &mut rows),
        7 | 8 => widen(random, &mut rows),
        2 if !rows.is_empty() => {
            let lost = random.below(rows.len());
            rows.remove(lost);
        }
        3 if !rows.is_empty() => {
            let again = rows[random.below(rows.len())].clone();
            let at = random.below(rows.len() + 1);
            rows.insert(at, again);
        }
        4 | 5 => narrow(random, &mut rows),
        6 => {
            // A narrower row beside the one it comes from: nothing is missing then.
            let mut narrower = rows.clone();
            narrow(random, &mut narrower);
            rows.extend(
                narrower
                    .into_iter()
                    .filter(|row| !rows.contains(row))
                    .collect::<Vec<_>>(),
            );
        }
        _ => {
            let at = random.below(rows.len() + 1);
            let comment = random.pick(&["", "# a comment", "01 0", ".e"]);
            rows.insert(at, comment.to_string());
        }
    }
    let columns = function.lines().next().unwrap();
    format!("{columns}\n.o 1\n{}\n.e\n", rows.join("\n"))
}

/// One sign of one row becomes any other.
fn change(random: &mut Random, rows: &mut [String]) {
    replace(random, rows, &['0', '1', '-', '2'], &["0", "1", "-"]);
}

/// One literal becomes a dash.
fn widen(random: &mut Random, rows: &mut [String]) {
    replace(random, rows, &['0', '1'], &["-"]);
}

/// One dash becomes a literal.
fn narrow(random: &mut Random, rows: &mut [String]) {
    replace(random, rows, &['-'], &["0", "1"]);
}

fn replace(random: &mut Random, rows: &mut [String], of: &[char], by: &[&str]) {
    if rows.is_empty() {
        return;
    }
    let place = random.below(rows.len());
    let row = &mut rows[place];
    let signs = row.find(' ').unwrap_or(0);
    let places: Vec<usize> = (0..signs)
        .filter(|&place| row[place..].starts_with(of))
        .collect();
    if !places.is_empty() {
        let place = random.pick(&places);
        row.replace_range(place..=place, random.pick(by));
    }
}
