//! Every single damage of good texts, in every line, field and byte: both programs name the same line,
//! or the same list and function, and leave the same behind.

use compare::damage::Damage;
use compare::random::Random;
use compare::reader::Reader;
use compare::text_entry::{Candidate, FunctionText};
use compare::texts::{good, Form, Text};
use second::refusal::{COLUMNS_OVER, DONE, LIST_ROOM_LACKING, NODE_ROOM_LACKING, TEXT_FAULT};

/// Texts with every directive, with few, with each type, and of 1, 2, 3 and 16 columns.
const GOOD: [(usize, &str); 8] = [
    (2, ".i 2\n.o 1\n.type fd\n.p 3\n01 1\n1- 1\n-2 1\n.e\n"),
    (2, ".i 2\n.o 1\n01 1\n10 1\n11 -\n.e\n"),
    (3, ".type fr\n.o 1\n.i 3\n0-1 1\n1-0 0\n-11 ~\n"),
    (1, ".p 2\n.i 1\n.o 1\n.type f\n0 1\n1 1"),
    (4, ".i 04\n.p 00000\n.o 1\n.e"),
    (2, ".i 2\n.o 1\n-1 1\n.e\n.e x\n"),
    (16, ".i 16\n.o 1\n.p 1\n0011--220011--22 1\n.e\n"),
    (3, "\n.o 1\n\n.i 3\n.p 1\n\n111 1\n"),
];

/// Reads a text, and all that one damage makes of it.
fn read_damaged(reader: &mut Reader, text: &Text) {
    reader.read("good", text.columns, text.bytes());
    for damage in Damage::ALL {
        for damaged in damage.everywhere(text) {
            reader.read(damage.name(), text.columns, damaged);
        }
    }
}

/// Every damage was there, and every number was returned.
fn assert_damaged(reader: &Reader, texts: usize) {
    let tally = &reader.tally;
    tally.assert_texts(&Damage::ALL.map(Damage::name), 5);
    tally.assert_texts(&["a byte changed", "a byte added"], texts / 3);
    assert!(tally.texts() >= texts, "{} texts", tally.texts());
    let numbers = [DONE, COLUMNS_OVER, LIST_ROOM_LACKING, TEXT_FAULT];
    tally.assert_returned::<Candidate>(&numbers, 5_000);
    let numbers = [DONE, NODE_ROOM_LACKING, TEXT_FAULT];
    tally.assert_returned::<FunctionText>(&numbers, 5_000);
}

#[test]
fn every_damage_of_chosen_texts() {
    let mut reader = Reader::new(120);
    for (columns, text) in GOOD {
        read_damaged(&mut reader, &Text::of(columns, text));
    }
    assert_damaged(&reader, 130_000);
}

/// The same of texts with comments, tabs, empty lines and bytes after their end.
#[test]
fn every_damage_of_random_texts() {
    let mut shapes = Random::new(121);
    let mut reader = Reader::new(122);
    for round in 0..8 {
        let form = [Form::Function, Form::Candidate][round % 2];
        let columns = [1, 2, 3, 5][round / 2];
        let rows = shapes.below(4);
        let text = good(&mut shapes, form, columns, rows);
        read_damaged(&mut reader, &text);
    }
    assert_damaged(&reader, 250_000);
}
