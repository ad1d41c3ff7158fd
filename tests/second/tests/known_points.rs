//! The known points of document 01 on both sides: what the generator gives and what the checker
//! says, and the others that stand under them.

mod common;

use common::{all_signs, cubes, on_at, table_of};
use second::checker::{check, Checked};
use second::function::Function;
use second::generator::{generate, Generated};
use second::reading::read_function;
use second::refusal::{COLUMNS_OVER, LIST_ROOM_LACKING, NODE_ROOM_LACKING, TEXT_FAULT};
use second::table::Record;
use second::verdict::Verdict;

/// One marked case: columns, on points, don't-care points, and the list.
struct Case {
    columns: usize,
    on: &'static [&'static str],
    free: &'static [&'static str],
    list: &'static [&'static str],
}

const CASES: [Case; 8] = [
    Case {
        columns: 0,
        on: &[""],
        free: &[],
        list: &[""],
    },
    Case {
        columns: 2,
        on: &[],
        free: &["00", "01", "10", "11"],
        list: &[],
    },
    Case {
        columns: 2,
        on: &["01", "10"],
        free: &[],
        list: &["01", "10"],
    },
    Case {
        columns: 2,
        on: &["01", "10", "11"],
        free: &[],
        list: &["1-", "-1"],
    },
    Case {
        columns: 2,
        on: &["11"],
        free: &[],
        list: &["11"],
    },
    Case {
        columns: 2,
        on: &["11"],
        free: &["10"],
        list: &["1-"],
    },
    Case {
        columns: 2,
        on: &["01"],
        free: &["11"],
        list: &["-1"],
    },
    Case {
        columns: 3,
        on: &["001", "010", "011", "100", "101", "110"],
        free: &[],
        list: &["0-1", "1-0", "-01", "-10"],
    },
];

impl Case {
    fn roots(&self) -> (Function, Function) {
        let upper = [self.on, self.free].concat();
        (on_at(self.columns, self.on), on_at(self.columns, &upper))
    }

    fn generated(&self) -> (Generated, Vec<u32>) {
        let (l, u) = self.roots();
        let (mut records, count, lower, upper) = table_of(&l, &u, 64);
        let mut list = vec![7; 16];
        let columns = self.columns;
        let answer = generate(columns, &mut records, count, lower, upper, &mut list);
        (answer, list)
    }

    fn checked(&self, list: &[u32]) -> Checked {
        let (l, u) = self.roots();
        let (records, count, lower, upper) = table_of(&l, &u, 64);
        check(self.columns, &records, count, lower, upper, list)
    }
}

fn done(verdict: Verdict) -> Checked {
    Checked {
        number: 0,
        value: 0,
        verdict: Some(verdict),
    }
}

#[test]
fn marked_cases_on_both_sides() {
    for case in &CASES {
        let (answer, list) = case.generated();
        let length = case.list.len();
        let told = Generated {
            number: 0,
            value: 0,
            length,
        };
        assert_eq!(answer, told);
        assert_eq!(list[..length], cubes(case.list));
        assert!(list[length..].iter().all(|&cube| cube == 0));
        assert_eq!(case.checked(&list[..length]), done(Verdict::Accept));
    }
}

#[test]
fn numbers_of_cases_1_and_3() {
    assert_eq!(CASES[0].generated().1[0], 0);
    assert_eq!(CASES[0].generated().0.length, 1);
    assert_eq!(CASES[2].generated().1[..2], [65_538, 131_073]);
}

#[test]
fn case_2_holds_for_every_number_of_columns() {
    for columns in 0..=16 {
        let mut list = [7; 3];
        let answer = generate(columns, &mut [], 0, 0, 1, &mut list);
        assert_eq!(answer, Generated::default());
        assert_eq!(list, [0; 3]);
    }
}

#[test]
fn case_8_accepts_the_three_rows_too() {
    let rows = cubes(&["01-", "-01", "1-0"]);
    assert_eq!(CASES[7].checked(&rows), done(Verdict::Accept));
}

#[test]
fn case_9_the_same_row_twice() {
    let f = on_at(2, &["01", "11"]);
    let (records, count, lower, upper) = table_of(&f, &f, 8);
    let list = cubes(&["-1", "-1"]);
    assert_eq!(
        check(2, &records, count, lower, upper, &list),
        done(Verdict::Cube { cube: 1 })
    );
}

#[test]
fn case_10_a_point_in_both_is_on() {
    let mut records = vec![Record::default(); 64];
    let text = b".i 2\n.o 1\n.type fd\n11 1\n11 -\n.e\n";
    let read = read_function(text, &mut records);
    let mut list = vec![0; 4];
    let answer = generate(
        read.columns,
        &mut records,
        read.count,
        read.lower,
        read.upper,
        &mut list,
    );
    assert_eq!((answer.number, answer.length), (0, 1));
    assert_eq!(all_signs(&list[..1], 2), ["11"]);
}

#[test]
fn room_for_exactly_the_list_and_for_one_less() {
    let (l, u) = CASES[7].roots();
    let (mut records, count, lower, upper) = table_of(&l, &u, 64);
    let mut list = vec![7; 4];
    let answer = generate(3, &mut records, count, lower, upper, &mut list);
    assert_eq!((answer.number, answer.value, answer.length), (0, 0, 4));
    assert_eq!(list, cubes(CASES[7].list));
    let mut list = vec![7; 3];
    let answer = generate(3, &mut records, count, lower, upper, &mut list);
    let told = (LIST_ROOM_LACKING, 4, 0);
    assert_eq!((answer.number, answer.value, answer.length), told);
    assert_eq!(list, [0; 3]);
}

#[test]
fn a_table_one_record_short() {
    // Case 4 has two records at entry and needs three.
    let (l, u) = CASES[3].roots();
    let mut list = vec![7; 2];
    let (mut records, count, lower, upper) = table_of(&l, &u, 3);
    assert_eq!(count, 2);
    let answer = generate(2, &mut records, count, lower, upper, &mut list);
    assert_eq!((answer.number, answer.length), (0, 2));
    let (mut records, count, lower, upper) = table_of(&l, &u, 2);
    let answer = generate(2, &mut records, count, lower, upper, &mut list);
    assert_eq!(
        (answer.number, answer.value, answer.length),
        (NODE_ROOM_LACKING, 0, 0)
    );
    assert_eq!(list, [0; 2]);
}

#[test]
fn sixteen_and_seventeen_columns() {
    let mut list = [7; 1];
    let mut records = [Record::new(15, 0, 1)];
    let answer = generate(16, &mut records, 1, 2, 2, &mut list);
    assert_eq!((answer.number, answer.length), (0, 1));
    assert_eq!(list, [1 << 15]);
    let answer = generate(17, &mut records, 1, 2, 2, &mut list);
    assert_eq!((answer.number, answer.value), (COLUMNS_OVER, 0));
    let checked = check(17, &records, 1, 2, 2, &list);
    assert_eq!((checked.number, checked.verdict), (COLUMNS_OVER, None));
}

#[test]
fn the_empty_text() {
    let read = read_function(b"", &mut [Record::default(); 4]);
    assert_eq!((read.number, read.value), (TEXT_FAULT, 1));
}
