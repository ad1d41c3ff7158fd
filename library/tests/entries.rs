//! The safe functions, each called as its caller would, at done and at refusals.

use dowrhesk::numbers;
use dowrhesk::rows::{self, Node};
use dowrhesk::{check_answer, list_answer, literals, read_candidate, write_list};
use dowrhesk::{
    Function, Refusal, Refused, Sign, Table, Verdict, ANSWER_ROOM, MOST_BYTES, MOST_RECORDS,
};

const TEXT: &[u8] = b".i 2\n.o 1\n01 1\n10 1\n11 -\n.e\n";

fn function(text: &[u8]) -> Function {
    Function::read(text, MOST_RECORDS).unwrap()
}

fn refused<T>(refusal: Refusal, returned: usize) -> Result<T, Refused> {
    Err(Refused { refusal, returned })
}

#[test]
fn the_whole_example() {
    let mut function = function(TEXT);
    assert_eq!(function.columns(), 2);
    assert!(function.records() > 0);
    let list = function.list(2).unwrap();
    assert_eq!(list, [1, 2]);
    assert_eq!(literals(&list), 2);
    let text = write_list(2, &list).unwrap();
    assert_eq!(text, b".i 2\n.o 1\n.p 2\n1- 1\n-1 1\n.e\n");
    assert_eq!(read_candidate(2, &text, 2), Ok(list.clone()));
    assert_eq!(function.check(&list), Ok(Verdict::Accept));
}

#[test]
fn what_a_function_says_at_each_point() {
    let function = function(TEXT);
    let signs = [Sign::Off, Sign::On, Sign::On, Sign::DontCare];
    for (point, sign) in (0..).zip(signs) {
        assert_eq!(function.at(point), Ok(sign));
    }
    assert_eq!(function.at(4), refused(Refusal::OutOfRange, 0));
}

#[test]
fn every_verdict() {
    let function = function(TEXT);
    let off = Verdict::Off { cube: 2, point: 0 };
    assert_eq!(function.check(&[1, 0]), Ok(off));
    assert_eq!(function.check(&[1]), Ok(Verdict::Missing { point: 2 }));
    let literal = Verdict::Literal { cube: 1, column: 0 };
    assert_eq!(function.check(&[2 | 1 << 16, 1]), Ok(literal));
    assert_eq!(function.check(&[1, 2, 2]), Ok(Verdict::Cube { cube: 2 }));
}

#[test]
fn refusals_carry_their_number_and_value() {
    let long = vec![b'#'; MOST_BYTES + 1];
    let read = |text, records| Function::read(text, records).map(|_| ());
    assert_eq!(read(&long, MOST_RECORDS), refused(Refusal::TextOver, 0));
    assert_eq!(read(TEXT, MOST_RECORDS + 1), refused(Refusal::TableOver, 0));
    assert_eq!(read(b"", MOST_RECORDS), refused(Refusal::TextFault, 1));
    assert_eq!(read(TEXT, 1), refused(Refusal::NodesLack, 0));
    let both = b".i 1\n.o 1\n.type fr\n1 1\n- 0\n";
    assert_eq!(read(both, 9), refused(Refusal::OnAndOff, 0));

    let mut function = function(TEXT);
    assert_eq!(function.list(1), refused(Refusal::ListLacks, 2));
    assert_eq!(function.list(16_385), refused(Refusal::ListOver, 0));
    assert_eq!(function.check(&[1, 4]), refused(Refusal::CubeMalformed, 2));
    assert_eq!(read_candidate(2, TEXT, 9), refused(Refusal::TextFault, 5));
    let two = b".i 2\n.o 1\n1- 1\n-1 1\n";
    assert_eq!(read_candidate(2, two, 1), refused(Refusal::ListLacks, 2));
    assert_eq!(read_candidate(17, two, 1), refused(Refusal::ColumnsOver, 0));
    assert_eq!(write_list(2, &[4]), refused(Refusal::CubeMalformed, 1));
    assert_eq!(Refusal::TextLacks.number(), 13);
}

#[test]
fn a_table_and_its_operations() {
    let mut table = Table::new(2, 4);
    let first = table.variable(0).unwrap();
    let second = table.variable(1).unwrap();
    let both = table.and(first, second).unwrap();
    assert_eq!((table.columns(), table.count()), (2, 3));
    let values: Vec<bool> = (0..4)
        .map(|point| table.value(both, point).unwrap())
        .collect();
    assert_eq!(values, [false, false, false, true]);
    assert_eq!(table.or(first, both), Ok(first));
    assert_eq!(table.difference(both, first), Ok(0));
    assert_eq!(table.variable(2), refused(Refusal::OutOfRange, 0));
    assert_eq!(table.generate(1, 0, 4), refused(Refusal::NotWithin, 0));
    assert_eq!(table.generate(both, both, 4), Ok(vec![3]));
    assert_eq!(table.check(both, first, &[1]), Ok(Verdict::Accept));
    let either = table.or(first, second).unwrap();
    assert_eq!(table.count(), 4);
    assert_eq!(
        table.difference(either, both),
        refused(Refusal::NodesLack, 0)
    );
    assert_eq!(table.count(), 4);
}

#[test]
fn the_whole_example_on_a_row() {
    let mut row = [Node::default(); 16];
    let read = rows::read_function(TEXT, &mut row);
    let (count, lower, upper) = (read.count as usize, read.lower as u16, read.upper as u16);
    assert_eq!((read.status, read.returned, read.columns), (0, 0, 2));
    assert!(row[count..].iter().all(|&node| node == Node::default()));
    let before = row;
    let mut room = [7; 3];
    let told = rows::generate(2, &mut row, count, lower, upper, &mut room);
    assert_eq!((told.length(), room), (Ok(2), [1, 2, 0]));
    assert_eq!(row, before);
    let verdict = rows::check(2, &row, count, lower, upper, &room[..2]).verdict();
    assert_eq!(verdict, Ok(Verdict::Accept));
    let told = rows::generate(2, &mut row, count, lower, upper, &mut room[..1]);
    assert_eq!(told.length(), refused(Refusal::ListLacks, 2));
}

#[test]
fn a_row_and_its_operations() {
    let mut row = [Node::default(); 4];
    let numbers = |built: numbers::Built| (built.status, built.root, built.count);
    assert_eq!(numbers(rows::variable(2, &mut row, 0, 0)), (0, 2, 1));
    assert_eq!(numbers(rows::variable(2, &mut row, 1, 1)), (0, 3, 2));
    assert_eq!(numbers(rows::and(2, &mut row, 2, 2, 3)), (0, 4, 3));
    assert_eq!(numbers(rows::or(2, &mut row, 3, 2, 4)), (0, 2, 3));
    assert_eq!(numbers(rows::or(2, &mut row, 3, 2, 3)), (0, 5, 4));
    let (level, low, high) = (0, 3, 1);
    assert_eq!(row[3], Node { level, low, high });
    assert_eq!(numbers(rows::difference(2, &mut row, 4, 5, 4)), (7, 0, 4));
    let at = |point| rows::value(2, &row, 4, 4, point).value;
    assert_eq!([at(0), at(1), at(2), at(3)], [0, 0, 0, 1]);
    let mut long = vec![row[0]; MOST_RECORDS + 1];
    assert_eq!(numbers(rows::and(2, &mut long, 1, 2, 2)), (2, 0, 1));
    assert_eq!(numbers(rows::and(17, &mut long, 1, 2, 2)), (1, 0, 1));
    assert!(long.iter().all(|&node| node == row[0]));
}

#[test]
fn the_two_programs() {
    let list = list_answer(TEXT);
    assert_eq!(list, b".i 2\n.o 1\n.p 2\n1- 1\n-1 1\n.e\n");
    assert_eq!(check_answer(&[TEXT, &list].concat()), b"accept\n");
    assert_eq!(check_answer(&[TEXT, TEXT].concat()), b"refused 11 5\n");
    assert_eq!(list_answer(b""), b"refused 11 1\n");
    let mut short = vec![7; ANSWER_ROOM - 1];
    assert_eq!(numbers::list_answer(TEXT, &mut short), 0);
    assert!(short.iter().all(|&byte| byte == 7));
}
