//! Random texts with random faults: bytes changed, set in and taken out, texts cut and joined, and
//! pieces of texts in any order.

use compare::damage::{anything, change};
use compare::random::Random;
use compare::reader::Reader;
use compare::tally::COLUMNS;
use compare::text_entry::{Candidate, FunctionText};
use compare::texts::{good, Form, Text};
use second::refusal::TEXT_FAULT;
use second::refusal::{COLUMNS_OVER, DONE, LIST_ROOM_LACKING, NODE_ROOM_LACKING, ON_AND_OFF};

/// A good text of at most so many rows.
fn some(random: &mut Random, columns: usize, most: usize) -> Text {
    let form = random.pick(&[Form::Function, Form::Candidate]);
    let rows = random.below(most + 1);
    good(random, form, columns, rows)
}

fn assert_returned(reader: &Reader, least: usize) {
    let numbers = [DONE, COLUMNS_OVER, LIST_ROOM_LACKING, TEXT_FAULT];
    reader.tally.assert_returned::<Candidate>(&numbers, least);
    let numbers = [DONE, NODE_ROOM_LACKING, TEXT_FAULT];
    reader
        .tally
        .assert_returned::<FunctionText>(&numbers, least);
}

#[test]
fn changed_bytes() {
    let mut random = Random::new(130);
    let mut reader = Reader::new(131);
    let kinds = ["one change", "two changes", "three changes", "four changes"];
    for _ in 0..30_000 {
        let columns = 1 + random.below(7);
        let mut text = some(&mut random, columns, 5).bytes();
        reader.read("good", columns, text.clone());
        for kind in kinds {
            change(&mut random, &mut text);
            reader.read(kind, columns, text.clone());
        }
    }
    reader.tally.assert_texts(&["good"], 25_000);
    reader.tally.assert_texts(&kinds, 20_000);
    assert!(reader.tally.texts() >= 120_000);
    assert_returned(&reader, 20_000);
    reader
        .tally
        .assert_returned::<FunctionText>(&[ON_AND_OFF], 500);
}

/// Good texts of each number of columns, and with one change.
#[test]
fn every_number_of_columns() {
    let mut random = Random::new(132);
    let mut reader = Reader::new(133);
    for round in 0..1_600 {
        let columns = 1 + round % 16;
        let mut text = some(&mut random, columns, 12).bytes();
        for _ in 0..2 {
            reader.read(COLUMNS[columns], columns, text.clone());
            change(&mut random, &mut text);
        }
    }
    reader.tally.assert_texts(&COLUMNS[1..], 180);
    assert_returned(&reader, 1_000);
}

/// A text after another, and the start of one with the end of another.
#[test]
fn joined_texts() {
    let mut random = Random::new(134);
    let mut reader = Reader::new(135);
    for _ in 0..10_000 {
        let columns = 1 + random.below(4);
        let mut part = || some(&mut random, columns, 3).bytes();
        let (first, second) = (part(), part());
        reader.read("both", columns, [&first[..], &second].concat());
        let (end, start) = (random.below(first.len()), random.below(second.len()));
        let parts = [&first[..end], &second[start..]];
        reader.read("parts", columns, parts.concat());
    }
    reader.tally.assert_texts(&["both", "parts"], 9_000);
    assert_returned(&reader, 1_000);
}

#[test]
fn pieces_in_any_order() {
    let mut random = Random::new(136);
    let mut reader = Reader::new(137);
    for _ in 0..40_000 {
        let columns = 1 + random.below(2);
        let mut text = anything(&mut random, 12);
        reader.read("pieces", columns, text.clone());
        let directives = format!(".i {columns}\n.o 1\n");
        text.splice(0..0, directives.bytes());
        reader.read("pieces behind directives", columns, text);
    }
    let kinds = ["pieces", "pieces behind directives"];
    reader.tally.assert_texts(&kinds, 30_000);
    assert_returned(&reader, 100);
}
