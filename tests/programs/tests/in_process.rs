//! Random and damaged inputs through the exports of both programs' answers. Each is answered in a room
//! that just fits and, now and then, in others; every byte is held against the second program's.

use compare::damage::{anything, change, Damage};
use compare::random::Random;
use compare::texts::{good, Form, Text};
use programs::candidate::{candidate, Change};
use programs::program::{Program, ROOM};
use std::collections::BTreeMap;

/// Other rooms: too short, and longer.
const ROOMS: [usize; 8] = [0, 1, 32, ROOM - 1, ROOM - 1, ROOM + 1, 32_768, 40_000];

/// How often each answer was given, by its first word, or its first two at a refusal.
#[derive(Default)]
struct Answers {
    counts: BTreeMap<String, usize>,
    asked: usize,
}

impl Answers {
    fn ask(&mut self, program: Program, input: &[u8]) {
        let told = program.by_second(input);
        program.assert_answer(input, ROOM, &told);
        if self.asked.is_multiple_of(16) {
            let other = ROOMS[self.asked / 16 % ROOMS.len()];
            program.assert_answer(input, other, &told);
        }
        self.asked += 1;
        *self.counts.entry(kind(&told)).or_default() += 1;
    }

    fn both(&mut self, input: &[u8]) {
        for program in Program::BOTH {
            self.ask(program, input);
        }
    }

    fn assert_each(&self, kinds: &[&str], least: usize) {
        for kind in kinds {
            let found = self.counts.get(*kind).copied().unwrap_or(0);
            assert!(found >= least, "{kind}: {found} answers");
        }
    }
}

fn kind(answer: &[u8]) -> String {
    let text = String::from_utf8_lossy(answer);
    let mut words = text.split_whitespace();
    match words.next() {
        Some("refused") => format!("refused {}", words.next().unwrap_or("")),
        word => word.unwrap_or("").to_string(),
    }
}

const VERDICTS: [&str; 5] = ["accept", "off", "missing", "literal", "cube"];

/// A good function text of at most so many rows.
fn function(random: &mut Random, columns: usize, most: usize) -> Vec<u8> {
    let rows = random.below(most + 1);
    good(random, Form::Function, columns, rows).bytes()
}

/// The text up to its end line, or with one.
fn ended(text: &[u8]) -> Vec<u8> {
    let (text, _) = second::programs::split(text);
    let mut text = text.to_vec();
    if text.last() != Some(&b'\n') {
        text.push(b'\n');
    }
    if second::programs::split(&[&text, &b"x"[..]].concat())
        .1
        .is_empty()
    {
        text.extend(b".e\n");
    }
    text
}

/// A function text with a candidate behind it, changed in some way.
fn with_some_candidate(random: &mut Random, text: &[u8], columns: usize) -> Vec<u8> {
    let text = ended(text);
    let made = match random.below(8) {
        0 => {
            let rows = random.below(4);
            good(random, Form::Candidate, columns, rows).bytes()
        }
        _ => candidate(&text, random.pick(&Change::ALL), random.below(1_000)),
    };
    [text, made].concat()
}

/// Function texts, then function texts with a candidate, then both with one to three changes.
fn changed(seed: u64, rounds: usize, columns: &[usize], most: usize) -> Answers {
    let mut random = Random::new(seed);
    let mut answers = Answers::default();
    for _ in 0..rounds {
        let columns = random.pick(columns);
        let mut text = function(&mut random, columns, most);
        let mut input = with_some_candidate(&mut random, &text, columns);
        for _ in 0..4 {
            answers.ask(Program::List, &text);
            answers.ask(Program::Check, &input);
            change(&mut random, &mut text);
            change(&mut random, &mut input);
        }
    }
    answers
}

#[test]
fn one_to_four_columns() {
    let answers = changed(201, 15_000, &[1, 2, 2, 3, 3, 4], 6);
    assert!(answers.asked >= 120_000);
    answers.assert_each(&VERDICTS, 300);
    answers.assert_each(&[".i", "refused 11", "refused 12"], 500);
}

#[test]
fn five_and_six_columns() {
    let answers = changed(202, 8_000, &[5, 6], 10);
    assert!(answers.asked >= 64_000);
    answers.assert_each(&VERDICTS, 100);
    answers.assert_each(&[".i", "refused 11", "refused 12"], 300);
}

#[test]
fn seven_to_nine_columns() {
    let answers = changed(203, 1_000, &[7, 8, 9], 12);
    assert!(answers.asked >= 8_000);
    answers.assert_each(&VERDICTS, 10);
}

#[test]
fn every_number_of_columns() {
    let columns: Vec<usize> = (1..=16).collect();
    let answers = changed(204, 150, &columns, 6);
    assert!(answers.asked >= 1_200);
}

/// A function text with a candidate, damaged in every way and place: both programs read it.
#[test]
fn damaged_in_every_place() {
    let mut answers = Answers::default();
    for (columns, text) in [
        (
            2,
            ".i 2\n.o 1\n01 1\n11 -\n.e\n.i 2\n.o 1\n.p 1\n-1 1\n.e\n",
        ),
        (
            1,
            ".o 1\n.i 1\n.type fr\n.p 2\n1 1\n0 0\n.e\n.i 1\n.type f\n.o 1\n- 1",
        ),
    ] {
        let good = Text::of(columns, text);
        for damage in Damage::ALL {
            for input in damage.everywhere(&good) {
                answers.both(&input);
            }
        }
    }
    assert!(answers.asked >= 100_000, "{}", answers.asked);
    answers.assert_each(&["accept", "off", "missing", "literal", "refused 11"], 5);
}

#[test]
fn pieces_in_any_order() {
    let mut random = Random::new(205);
    let mut answers = Answers::default();
    for _ in 0..10_000 {
        let mut text = anything(&mut random, 12);
        answers.both(&text);
        text.splice(0..0, *b".i 1\n.o 1\n1 1\n.e\n.i 1\n.o 1\n");
        answers.both(&text);
    }
    assert!(answers.asked >= 40_000);
}

/// Inputs about the greatest length, of any bytes behind the end of a text.
#[test]
fn long_inputs() {
    let mut random = Random::new(206);
    let mut answers = Answers::default();
    for _ in 0..300 {
        let columns = 1 + random.below(3);
        let text = function(&mut random, columns, 4);
        let mut input = with_some_candidate(&mut random, &text, columns);
        let byte = random.pick(b"\n #x");
        input.resize(32_766 + random.below(6), byte);
        answers.both(&input);
    }
    answers.assert_each(&["refused 10", ".i", "accept"], 20);
}
