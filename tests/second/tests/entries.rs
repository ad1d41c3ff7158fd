//! The entries: their refusals in order, the values returned, and what they leave behind.

mod common;

use common::{cubes, on_at, table_of, Random};
use second::candidate::{read_candidate, CandidateText};
use second::checker::{check, Checked};
use second::function::Function;
use second::generator::{generate, Generated};
use second::list::generation;
use second::reading::{read_function, FunctionText};
use second::table::{Record, Table};
use second::verdict::Verdict;
use second::writing::{write_list, Written};

const NO_RECORD: Record = Record {
    level: 0,
    low: 0,
    high: 0,
};
const MARK: Record = Record {
    level: 77,
    low: 77,
    high: 77,
};

/// Everything that the generator is lent.
#[derive(Clone, PartialEq, Debug)]
struct Lent {
    columns: usize,
    records: Vec<Record>,
    count: usize,
    lower: usize,
    upper: usize,
    list: Vec<u32>,
}

impl Lent {
    fn generate(&mut self) -> (u32, usize, usize) {
        let Generated {
            number,
            value,
            length,
        } = generate(
            self.columns,
            &mut self.records,
            self.count,
            self.lower,
            self.upper,
            &mut self.list,
        );
        (number, value, length)
    }

    fn check(&self) -> Checked {
        check(
            self.columns,
            &self.records,
            self.count,
            self.lower,
            self.upper,
            &self.list,
        )
    }

    /// Generates, and nothing lent has changed.
    fn refused(&mut self) -> (u32, usize, usize) {
        let before = self.clone();
        let answer = self.generate();
        assert_eq!(*self, before);
        answer
    }
}

/// Case 4, on 01, 10, 11, with a table of so many records and a marked list room.
fn case_4(records: usize, room: usize) -> Lent {
    let f = on_at(2, &["01", "10", "11"]);
    let (mut table, count, lower, upper) = table_of(&f, &f, records);
    table[count..].fill(MARK);
    Lent {
        columns: 2,
        records: table,
        count,
        lower,
        upper,
        list: vec![9; room],
    }
}

#[test]
fn generator_refuses_in_order() {
    // Everything wrong at once, mended one by one.
    let mut lent = Lent {
        columns: 17,
        records: vec![MARK; 4_097],
        count: 4_098,
        lower: 4,
        upper: 9_999,
        list: vec![9; 16_385],
    };
    assert_eq!(lent.refused(), (1, 0, 0));
    lent.columns = 2;
    assert_eq!(lent.refused(), (2, 0, 0));
    lent.count = 3;
    assert_eq!(lent.refused(), (2, 0, 0));
    lent.records.truncate(2);
    assert_eq!(lent.refused(), (2, 0, 0));
    lent.count = 2;
    assert_eq!(lent.refused(), (3, 0, 0));
    lent.records = vec![Record::new(1, 0, 1), Record::new(0, 2, 1)];
    assert_eq!(lent.refused(), (4, 0, 0));
    lent.lower = 3;
    assert_eq!(lent.refused(), (4, 0, 0));
    lent.upper = 2;
    assert_eq!(lent.refused(), (5, 0, 0));
    lent.upper = 3;
    assert_eq!(lent.refused(), (6, 0, 0));
    lent.list.truncate(1);
    assert_eq!(lent.generate(), (7, 0, 0));
    assert_eq!(lent.list, [0]);
    lent.records.push(MARK);
    assert_eq!(lent.generate(), (8, 2, 0));
    assert_eq!(lent.list, [0]);
    lent.list.push(9);
    assert_eq!(lent.generate(), (0, 0, 2));
    assert_eq!(lent.list, cubes(&["1-", "-1"]));
}

#[test]
fn generator_leaves_zeros_past_what_is_in_use() {
    for (records, room, number) in [(2, 4, 7), (5, 1, 8), (5, 0, 8), (5, 4, 0), (3, 2, 0)] {
        let mut lent = case_4(records, room);
        let in_use = lent.records[..2].to_vec();
        let (found, value, length) = lent.generate();
        assert_eq!(found, number);
        assert_eq!(value, if number == 8 { 2 } else { 0 });
        assert_eq!(length, if number == 0 { 2 } else { 0 });
        assert_eq!(lent.records[..2], in_use);
        assert!(lent.records[2..].iter().all(|&record| record == NO_RECORD));
        let mut told = vec![0; room];
        if number == 0 {
            told[..2].copy_from_slice(&cubes(&["1-", "-1"]));
        }
        assert_eq!(lent.list, told);
    }
}

#[test]
fn node_room_is_asked_before_list_room() {
    let mut lent = case_4(2, 0);
    assert_eq!(lent.generate(), (7, 0, 0));
}

#[test]
fn roots_reach_to_the_last_record_in_use() {
    let mut lent = case_4(5, 4);
    for (lower, upper, number) in [(0, 3, 0), (0, 4, 4), (4, 1, 4), (2, 3, 0), (3, 1, 0)] {
        (lent.lower, lent.upper) = (lower, upper);
        assert_eq!(lent.generate().0, number);
    }
    let mut lent = case_4(5, 4);
    (lent.count, lent.lower, lent.upper) = (0, 1, 1);
    assert_eq!(lent.generate(), (0, 0, 1));
    (lent.lower, lent.upper) = (1, 0);
    assert_eq!(lent.generate(), (5, 0, 0));
}

#[test]
fn list_rooms_of_16384_and_16385() {
    let mut lent = case_4(3, 16_384);
    assert_eq!(lent.generate(), (0, 0, 2));
    assert!(lent.list[2..].iter().all(|&cube| cube == 0));
    let mut lent = case_4(3, 16_385);
    assert_eq!(lent.refused(), (6, 0, 0));
}

#[test]
fn tables_of_4096_and_4097() {
    let mut lent = case_4(4_096, 2);
    assert_eq!(lent.generate(), (0, 0, 2));
    let mut lent = case_4(4_097, 2);
    assert_eq!(lent.refused(), (2, 0, 0));
    assert_eq!(lent.check().number, 2);
}

#[test]
fn a_list_longer_than_any_room_tells_its_length() {
    let parity = Function::from_points(16, |point| point.count_ones() % 2 == 1);
    let (mut records, count, lower, upper) = table_of(&parity, &parity, 31);
    let mut list = vec![9; 16_384];
    let answer = generate(16, &mut records, count, lower, upper, &mut list);
    let told = Generated {
        number: 8,
        value: 32_768,
        length: 0,
    };
    assert_eq!(answer, told);
    assert!(list.iter().all(|&cube| cube == 0));
}

#[test]
fn the_need_is_exact() {
    let mut random = Random::new(51);
    let mut short = 0;
    for round in 0..300 {
        let columns = 1 + round % 6;
        let (lower, upper) = random.roots(columns);
        let l = common::function(columns, &lower);
        let u = common::function(columns, &upper);
        let (records, count, lower, upper) = table_of(&l, &u, 400);
        let entry = Table::of(columns, &records[..count]).nodes();
        assert_eq!(entry.count(), count);
        let told = generation(&l, &u, entry);
        let lent = |length: usize| Lent {
            columns,
            records: records[..length].to_vec(),
            count,
            lower,
            upper,
            list: vec![9; told.cubes.len()],
        };
        let mut enough = lent(told.need);
        assert_eq!(enough.generate(), (0, 0, told.cubes.len()));
        assert_eq!(enough.list, told.cubes);
        if told.need > count {
            short += 1;
            assert_eq!(lent(told.need - 1).generate(), (7, 0, 0));
        }
    }
    assert!(short > 100);
}

#[test]
fn checker_refuses_in_order() {
    let mut lent = Lent {
        columns: 17,
        records: vec![MARK; 4_097],
        count: 4_098,
        lower: 4,
        upper: 4,
        list: vec![0; 16_385],
    };
    lent.list[2] = 1 << 2;
    lent.list[3] = 1 | 1 << 16;
    let refused = |lent: &Lent| {
        let checked = lent.check();
        assert_eq!(checked.verdict, None);
        (checked.number, checked.value)
    };
    assert_eq!(refused(&lent), (1, 0));
    lent.columns = 2;
    assert_eq!(refused(&lent), (2, 0));
    lent.records.truncate(2);
    assert_eq!(refused(&lent), (2, 0));
    lent.count = 2;
    assert_eq!(refused(&lent), (3, 0));
    lent.records = vec![Record::new(1, 0, 1), Record::new(0, 2, 1)];
    assert_eq!(refused(&lent), (4, 0));
    lent.lower = 3;
    assert_eq!(refused(&lent), (4, 0));
    lent.upper = 2;
    assert_eq!(refused(&lent), (5, 0));
    lent.upper = 3;
    assert_eq!(refused(&lent), (6, 0));
    lent.list.truncate(16_384);
    assert_eq!(refused(&lent), (9, 3));
    lent.list[2] = 0;
    assert_eq!(refused(&lent), (9, 4));
    lent.list.truncate(3);
    // A malformed cube is told before any fault of the list.
    let checked = lent.check();
    assert_eq!((checked.number, checked.value), (0, 0));
    assert_eq!(checked.verdict, Some(Verdict::Off { cube: 1, point: 0 }));
    lent.list = cubes(&["1-", "-1"]);
    assert_eq!(lent.check().verdict, Some(Verdict::Accept));
}

#[test]
fn checker_needs_no_node_room() {
    let mut lent = case_4(2, 2);
    assert_eq!(lent.generate().0, 7);
    lent.list = cubes(&["-1", "1-"]);
    assert_eq!(lent.check().verdict, Some(Verdict::Accept));
}

fn text_refused(number: u32, value: usize) -> FunctionText {
    FunctionText {
        number,
        value,
        ..FunctionText::default()
    }
}

/// A text of so many bytes: a good one, filled up by a comment.
fn filled(text: &str, bytes: usize) -> Vec<u8> {
    let mut text = format!("{text}#").into_bytes();
    text.resize(bytes, b'x');
    text
}

#[test]
fn function_text_refuses_in_order() {
    let mut records = vec![MARK; 4_097];
    let clash = ".i 2\n.o 1\n.type fr\n01 1\n0- 0\n";
    let faulty = format!("{clash}x\n");
    let answer = read_function(&filled(&faulty, 32_769), &mut records);
    assert_eq!(answer, text_refused(10, 0));
    assert!(records.iter().all(|&record| record == MARK));
    let answer = read_function(&filled(&faulty, 32_768), &mut records);
    assert_eq!(answer, text_refused(2, 0));
    assert!(records.iter().all(|&record| record == MARK));
    for (length, text, number, value) in [
        (4_096, faulty.as_str(), 11, 6),
        (0, faulty.as_str(), 11, 6),
        (2, clash, 7, 0),
        (3, clash, 7, 0),
        (4, clash, 12, 0),
        (4_096, clash, 12, 0),
    ] {
        let mut records = vec![MARK; length];
        let answer = read_function(text.as_bytes(), &mut records);
        assert_eq!(answer, text_refused(number, value), "{length} {text}");
        assert!(records.iter().all(|&record| record == NO_RECORD));
    }
}

#[test]
fn texts_of_32768_and_32769_bytes() {
    let text = ".i 2\n.o 1\n01 1\n.e\n";
    let mut records = vec![MARK; 2];
    let answer = read_function(&filled(text, 32_769), &mut records);
    assert_eq!(answer, text_refused(10, 0));
    let answer = read_function(&filled(text, 32_768), &mut records);
    assert_eq!((answer.number, answer.count), (0, 2));
    let mut list = [9; 2];
    let answer = read_candidate(&filled(text, 32_769), 2, &mut list);
    assert_eq!((answer.number, answer.value), (10, 0));
    assert_eq!(list, [9; 2]);
    let answer = read_candidate(&filled(text, 32_768), 2, &mut list);
    assert_eq!((answer.number, answer.length), (0, 1));
    assert_eq!(list, [65_538, 0]);
}

#[test]
fn a_reading_clears_what_was_in_the_table() {
    let mut records = vec![MARK; 6];
    let answer = read_function(b".i 2\n.o 1\n-1 1\n", &mut records);
    assert_eq!((answer.number, answer.count), (0, 1));
    assert_eq!((answer.lower, answer.upper), (2, 2));
    assert_eq!(records[0], Record::new(1, 0, 1));
    assert!(records[1..].iter().all(|&record| record == NO_RECORD));
    let answer = read_function(b".i 2\n.o 1\n-- 1\n", &mut []);
    assert_eq!((answer.number, answer.count), (0, 0));
    assert_eq!((answer.lower, answer.upper), (1, 1));
    let answer = read_function(b".i 2\n.o 1\n-1 1\n", &mut []);
    assert_eq!(answer, text_refused(7, 0));
}

/// On so far at the third row is not on at the end, and its nodes stay all the same.
#[test]
fn sets_on_the_way_count() {
    let text = b".i 2\n.o 1\n01 1\n10 1\n11 1\n00 1\n";
    let mut records = vec![NO_RECORD; 16];
    let answer = read_function(text, &mut records);
    // Columns 1 is 1 and is 0; four cubes; on after the second and the third row.
    assert_eq!((answer.number, answer.count), (0, 8));
    assert_eq!((answer.lower, answer.upper), (1, 1));
}

fn candidate_refused(number: u32, value: usize) -> CandidateText {
    CandidateText {
        number,
        value,
        length: 0,
    }
}

#[test]
fn candidate_text_refuses_in_order() {
    let rows = ".i 2\n.o 1\n01 1\n10 1\n11 1\n";
    let faulty = format!("{rows}11 0\n");
    let long = filled(&faulty, 32_769);
    let short = filled(&faulty, 32_768);
    let mut list = vec![9; 16_385];
    for columns in [0, 17, usize::MAX] {
        assert_eq!(
            read_candidate(&long, columns, &mut list),
            candidate_refused(1, 0)
        );
    }
    assert_eq!(
        read_candidate(&long, 2, &mut list),
        candidate_refused(10, 0)
    );
    assert_eq!(
        read_candidate(&short, 2, &mut list),
        candidate_refused(6, 0)
    );
    assert!(list.iter().all(|&cube| cube == 9));
    list.truncate(16_384);
    assert_eq!(
        read_candidate(&short, 2, &mut list),
        candidate_refused(11, 6)
    );
    assert!(list.iter().all(|&cube| cube == 0));
    let mut list = vec![9; 2];
    assert_eq!(
        read_candidate(&short, 2, &mut list),
        candidate_refused(11, 6)
    );
    assert_eq!(list, [0; 2]);
    let mut list = vec![9; 2];
    let answer = read_candidate(rows.as_bytes(), 2, &mut list);
    assert_eq!(answer, candidate_refused(8, 3));
    assert_eq!(list, [0; 2]);
    let mut list = vec![9; 5];
    let answer = read_candidate(rows.as_bytes(), 2, &mut list);
    assert_eq!((answer.number, answer.value, answer.length), (0, 0, 3));
    assert_eq!(list[..3], cubes(&["01", "10", "11"]));
    assert_eq!(list[3..], [0; 2]);
}

fn writing_refused(number: u32, value: usize) -> Written {
    Written {
        number,
        value,
        length: 0,
    }
}

#[test]
fn writing_refuses_in_order() {
    let mut list = vec![0; 16_385];
    list[4] = 1 << 2;
    let mut room = [9; 20];
    for columns in [0, 17, usize::MAX] {
        assert_eq!(write_list(columns, &list, &mut room), writing_refused(1, 0));
    }
    assert_eq!(write_list(2, &list, &mut room), writing_refused(6, 0));
    list.truncate(16_384);
    assert_eq!(write_list(2, &list, &mut room), writing_refused(9, 5));
    list[4] = 0;
    // 5 + 5 + 9 bytes in front, 5 for each cube, 3 behind.
    let bytes = 5 + 5 + 9 + 5 * 16_384 + 3;
    assert_eq!(write_list(2, &list, &mut room), writing_refused(13, bytes));
    assert_eq!(room, [9; 20]);
    let mut room = vec![9; bytes];
    let answer = write_list(2, &list, &mut room);
    assert_eq!((answer.number, answer.value, answer.length), (0, 0, bytes));
}

#[test]
fn writing_into_rooms_of_every_length() {
    let list = cubes(&["01-", "1--"]);
    let text = b".i 3\n.o 1\n.p 2\n01- 1\n1-- 1\n.e\n";
    for length in 0..40 {
        let mut room = vec![9; length];
        let answer = write_list(3, &list, &mut room);
        if length < text.len() {
            assert_eq!(answer, writing_refused(13, text.len()));
            assert_eq!(room, vec![9; length]);
        } else {
            assert_eq!((answer.number, answer.length), (0, text.len()));
            assert_eq!(room[..text.len()], text[..]);
            assert!(room[text.len()..].iter().all(|&byte| byte == 0));
        }
    }
}

#[test]
fn writing_the_empty_list_and_sixteen_columns() {
    let mut room = [9; 64];
    let answer = write_list(1, &[], &mut room);
    assert_eq!(room[..answer.length], b".i 1\n.o 1\n.p 0\n.e\n"[..]);
    let answer = write_list(16, &[0x8000_0001], &mut room);
    let text = b".i 16\n.o 1\n.p 1\n1--------------0 1\n.e\n";
    assert_eq!(room[..answer.length], text[..]);
}
