//! The corpus: its files are those of the formulas, and the built programs, the exports and the
//! second program give the answers in them.

use programs::corpus::{cases, folder, Case};
use programs::process::{quiet, Feed, Process};
use programs::program::{Program, ROOM};
use second::list::generation;
use second::nodes::Nodes;
use second::reading::{meaning, need};
use second::text::{read, Asked};
use std::collections::BTreeSet;
use std::fs::{self, File};

fn of(program: Program) -> impl Iterator<Item = Case> {
    cases()
        .into_iter()
        .filter(move |case| case.program == program)
}

fn answer(case: &Case) -> Vec<u8> {
    fs::read(case.answer_file()).unwrap()
}

#[test]
fn at_least_60_texts_of_each_program_and_no_other_file() {
    let mut files = BTreeSet::new();
    for program in Program::BOTH {
        assert!(of(program).count() >= 60);
        for case in of(program) {
            assert!(files.insert(case.input_file()), "{} twice", case.name);
            files.insert(case.answer_file());
        }
    }
    let found = fs::read_dir(folder()).unwrap();
    let found: BTreeSet<_> = found.map(|entry| entry.unwrap().path()).collect();
    let unlike: Vec<_> = found.symmetric_difference(&files).collect();
    assert!(unlike.is_empty(), "missing or unknown: {unlike:?}");
}

#[test]
fn the_files_are_those_of_the_formulas() {
    for case in cases() {
        let file = fs::read(case.input_file()).unwrap();
        assert!(file == case.input, "{}", case.name);
    }
}

#[test]
fn the_second_program_gives_the_answers() {
    for case in cases() {
        let told = case.program.by_second(&case.input);
        assert!(told == answer(&case), "{}", case.name);
    }
}

#[test]
fn the_exports_give_the_answers() {
    for case in cases() {
        for bytes in [ROOM - 1, ROOM, ROOM + 1] {
            case.program
                .assert_answer(&case.input, bytes, &answer(&case));
        }
    }
}

#[test]
fn the_built_programs_give_the_answers() {
    for program in Program::BOTH {
        let process = Process::of(program);
        for case in of(program) {
            let told = answer(&case);
            process.assert_answer(Feed::Whole, &case.input, &told);
            let output = process.with_input(File::open(case.input_file()).unwrap());
            assert!(quiet(&output) && output.stdout == told, "{}", case.name);
        }
    }
}

/// The records that the reading of a text needs, and with them its list.
fn needs(text: &[u8]) -> (usize, usize) {
    let parsed = read(text, Asked::Function).unwrap();
    let told = meaning(&parsed);
    let mut nodes = Nodes::new();
    told.named.iter().for_each(|function| nodes.add(function));
    let made = generation(&told.lower, &told.upper, nodes);
    (need(&parsed), made.need)
}

#[test]
fn tables_are_full_as_their_names_say() {
    let text = |name: &str| fs::read(folder().join(format!("table_{name}.pla"))).unwrap();
    assert_eq!(needs(&text("reading_4096")).0, 4_096);
    assert_eq!(needs(&text("reading_4097")).0, 4_097);
    assert_eq!(needs(&text("generation_4096")).1, 4_096);
    assert_eq!(needs(&text("generation_4097")).1, 4_097);
}

#[test]
fn every_answer_occurs() {
    let given: Vec<String> = cases()
        .iter()
        .map(|case| String::from_utf8(answer(case)).unwrap())
        .collect();
    let count = |word: &str| given.iter().filter(|line| line.starts_with(word)).count();
    for (word, least) in [
        (".i ", 80),
        ("accept", 30),
        ("off ", 15),
        ("missing ", 10),
        ("literal ", 5),
        ("cube ", 10),
        ("refused 7 0", 6),
        ("refused 8 ", 2),
        ("refused 10 0", 4),
        ("refused 11 ", 40),
        ("refused 12 0", 1),
    ] {
        assert!(count(word) >= least, "{word}: {}", count(word));
    }
}
