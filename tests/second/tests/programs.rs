//! The built program, run as `second list` and `second check` with its input on standard input.

mod common;

use common::{function, Random};
use second::function::Function;
use second::list::{generation, list};
use second::nodes::Nodes;
use second::programs::{check_program, list_program, split};
use second::reading::{meaning, need, Meaning};
use second::text::{read, Asked};
use second::writing::text_of;
use std::io::Write;
use std::process::{Command, Stdio};

/// What the built program writes for an input.
fn run(program: &str, input: &[u8]) -> String {
    let mut child = Command::new(env!("CARGO_BIN_EXE_second"))
        .arg(program)
        .stdin(Stdio::piped())
        .stdout(Stdio::piped())
        .spawn()
        .unwrap();
    child.stdin.take().unwrap().write_all(input).unwrap();
    let output = child.wait_with_output().unwrap();
    assert!(output.status.success());
    String::from_utf8(output.stdout).unwrap()
}

fn listed(input: &str) -> String {
    run("list", input.as_bytes())
}

fn checked(input: &str) -> String {
    run("check", input.as_bytes())
}

#[test]
fn the_whole_example() {
    let input = ".i 2\n.o 1\n01 1\n10 1\n11 -\n.e\n";
    assert_eq!(listed(input), ".i 2\n.o 1\n.p 2\n1- 1\n-1 1\n.e\n");
    let without_last = input.strip_suffix(".e\n").unwrap();
    assert_eq!(listed(without_last), listed(input));
    let not_closed = input.strip_suffix('\n').unwrap();
    assert_eq!(listed(not_closed), listed(input));
}

#[test]
fn lists_and_refusals_of_the_first_program() {
    for (input, output) in [
        ("", "refused 11 1\n"),
        (".i 2\n.o 1\n.e\n", ".i 2\n.o 1\n.p 0\n.e\n"),
        (".i 1\n.o 1\n- 1\n", ".i 1\n.o 1\n.p 1\n- 1\n.e\n"),
        (".i 2\n.o 1\n11 1\n11 -\n", ".i 2\n.o 1\n.p 1\n11 1\n.e\n"),
        (
            ".i 2\n.o 1\n.type fr\n01 1\n00 0\n",
            ".i 2\n.o 1\n.p 1\n-1 1\n.e\n",
        ),
        (".i 2\n.o 1\n.type fr\n01 1\n-1 0\n", "refused 12 0\n"),
        (".i 2\n.o 1\n01 1\n.p 1\n", "refused 11 4\n"),
        (".i 17\n.o 1\n", "refused 11 1\n"),
        (".i 2\n.o 1\n.p 2\n01 1\n.e\nrest", "refused 11 5\n"),
        (
            ".i 2\n.o 1\n11 1\n.e\n.e\nx\n",
            ".i 2\n.o 1\n.p 1\n11 1\n.e\n",
        ),
    ] {
        assert_eq!(listed(input), output, "{input:?}");
    }
}

/// A text filled up by spaces to so many bytes.
fn filled(text: &str, bytes: usize) -> Vec<u8> {
    let mut text = text.as_bytes().to_vec();
    text.resize(bytes, b' ');
    text
}

#[test]
fn input_of_32768_and_32769_bytes() {
    let text = ".i 1\n.o 1\n1 1\n.e\n";
    let list = ".i 1\n.o 1\n.p 1\n1 1\n.e\n";
    assert_eq!(run("list", &filled(text, 32_768)), list);
    assert_eq!(run("list", &filled(text, 32_769)), "refused 10 0\n");
    assert_eq!(run("list", &vec![b'x'; 200_000]), "refused 10 0\n");
    let both = format!("{text}{text}");
    assert_eq!(run("check", &filled(&both, 32_768)), "accept\n");
    assert_eq!(run("check", &filled(&both, 32_769)), "refused 10 0\n");
    // The input in all comes before any fault of the function text.
    assert_eq!(run("check", &vec![b'x'; 32_769]), "refused 10 0\n");
    assert_eq!(run("check", &vec![b'x'; 32_768]), "refused 11 1\n");
}

#[test]
fn too_many_records() {
    // Many rows far from each other: the sets so far take more than 4,096 records.
    let mut random = Random::new(61);
    let mut text = ".i 16\n.o 1\n".to_string();
    for _ in 0..1_000 {
        let signs = random.signs(16, b"01");
        text.push_str(std::str::from_utf8(&signs).unwrap());
        text.push_str(" 1\n");
    }
    assert_eq!(listed(&text), "refused 7 0\n");
    assert_eq!(checked(&format!("{text}.e\nx\n")), "refused 7 0\n");
}

#[test]
fn the_generator_starts_from_all_that_the_reading_left() {
    // More and more rows: the reading fits at first, and from some row on the generation does
    // not, though the nodes of L and U alone would leave it room.
    let mut random = Random::new(64);
    let mut text = ".i 14\n.o 1\n".to_string();
    let mut lacking = 0;
    loop {
        for _ in 0..4 {
            let signs = random.signs(14, b"001101-");
            text.push_str(std::str::from_utf8(&signs).unwrap());
            text.push_str([" 1\n", " 1\n", " -\n"][random.below(3)]);
        }
        let parsed = read(text.as_bytes(), Asked::Function).unwrap();
        if need(&parsed) > 4_096 {
            break;
        }
        let Meaning {
            lower,
            upper,
            named,
            ..
        } = meaning(&parsed);
        let of = |functions: &[Function]| {
            let mut nodes = Nodes::new();
            functions.iter().for_each(|function| nodes.add(function));
            generation(&lower, &upper, nodes)
        };
        let told = of(&named);
        let output = list_program(text.as_bytes());
        if told.need > 4_096 {
            lacking += 1;
            assert_eq!(output, b"refused 7 0\n");
            assert!(of(&[lower.clone(), upper.clone()]).need <= 4_096);
        } else {
            assert_eq!(output, text_of(14, &told.cubes).into_bytes());
        }
    }
    assert!(lacking > 0);
    assert_eq!(list_program(text.as_bytes()), b"refused 7 0\n");
}

/// A text of all cubes of an odd number of ones among so many columns.
fn parity(columns: usize) -> String {
    let f = Function::from_points(columns, |point| point.count_ones() % 2 == 1);
    text_of(columns, &list(&f, &f))
}

#[test]
fn parity_through_both_programs() {
    let text = parity(8);
    assert_eq!(listed(&text), text);
    assert_eq!(checked(&format!("{text}{text}")), "accept\n");
}

/// The rows got by turning the signs of one row.
fn turned(row: &str) -> Vec<String> {
    (0..row.len())
        .map(|k| format!("{}{}", &row[k..], &row[..k]))
        .collect()
}

/// The text whose function is on where each block of columns is covered by one of its rows.
fn product(blocks: &[Vec<String>]) -> String {
    let mut rows = vec![String::new()];
    for block in blocks {
        let longer = |row: &String| -> Vec<String> {
            block.iter().map(|signs| format!("{row}{signs}")).collect()
        };
        rows = rows.iter().flat_map(longer).collect();
    }
    let body: String = rows.iter().map(|row| format!("{row} 1\n")).collect();
    format!(".i {}\n.o 1\n{body}.e\n", rows[0].len())
}

#[test]
fn a_list_that_fills_the_list_room() {
    // Where not all of three columns are equal there are four rows, of four columns six, and
    // blocks of columns multiply: 4 * 4 * 4 * 4 * 6.
    let (three, four) = (turned("01-"), turned("01--"));
    let text = product(&[three.clone(), three.clone(), three.clone(), three, four]);
    let made = listed(&text);
    assert!(made.starts_with(".i 16\n.o 1\n.p 1536\n"));
    assert_eq!(checked(&format!("{text}{text}")), "accept\n");
    // Each fits by itself, but not both together.
    assert!(text.len() < 32_768 && made.len() < 32_768);
    assert_eq!(checked(&format!("{text}{made}")), "refused 10 0\n");
}

#[test]
fn a_list_longer_than_the_list_room() {
    // Two or three of five columns are 1: 14 rows. Then 4, 4 and 8 rows as above.
    let two_or_three = [turned("11-00"), turned("101-0")].concat();
    let three = turned("01-");
    let text = product(&[two_or_three, three.clone(), three, turned("01---")]);
    assert_eq!(listed(&text), "refused 8 1792\n");
    assert_eq!(checked(&format!("{text}{text}")), "accept\n");
}

#[test]
fn a_candidate_longer_than_the_list_room() {
    let function = ".i 1\n.o 1\n1 1\n.e\n";
    let rows = "1 1\n".repeat(1_536);
    let with = |more: &str| checked(&format!("{function}.i 1\n.o 1\n{rows}{more}.e\n"));
    assert_eq!(with(""), "cube 1\n");
    assert_eq!(with("1 1\n"), "refused 8 1537\n");
    // A fault comes before the length.
    assert_eq!(with("1 1\n1 0\n"), "refused 11 1540\n");
}

#[test]
fn verdicts_of_the_second_program() {
    let function = ".i 2\n.o 1\n01 1\n10 1\n11 -\n.e\n";
    for (candidate, output) in [
        (".i 2\n.o 1\n1- 1\n-1 1\n.e\n", "accept\n"),
        (".i 2\n.o 1\n-1 1\n1- 1\n", "accept\n"),
        (".i 2\n.o 1\n-1 1\n-- 1\n", "off 2 00\n"),
        (".i 2\n.o 1\n-1 1\n", "missing 10\n"),
        (".i 2\n.o 1\n", "missing 01\n"),
        (".i 2\n.o 1\n1- 1\n01 1\n", "literal 2 1\n"),
        (".i 2\n.o 1\n10 1\n01 1\n", "literal 1 2\n"),
        (".i 2\n.o 1\n1- 1\n-1 1\n1- 1\n", "cube 1\n"),
        ("", "refused 11 1\n"),
        ("\n", "refused 11 2\n"),
        (".i 3\n.o 1\n", "refused 11 1\n"),
        (".i 2\n.o 1\n.type fr\n", "refused 11 3\n"),
        (".i 2\n.o 1\n01 -\n", "refused 11 3\n"),
        (".i 2\n.o 1\n.p 3\n01 1\n.e\nx\n", "refused 11 5\n"),
    ] {
        assert_eq!(checked(&format!("{function}{candidate}")), output);
    }
}

#[test]
fn the_function_text_is_refused_first() {
    let bad = "x\n";
    assert_eq!(checked(&format!("y\n.e\n{bad}")), "refused 11 1\n");
    assert_eq!(
        checked(&format!(".i 2\n.o 1\nx\n.e\n{bad}")),
        "refused 11 3\n"
    );
    assert_eq!(checked(&format!(".i 2\n\n.e\n{bad}")), "refused 11 3\n");
    let clash = ".i 1\n.o 1\n.type fr\n1 1\n- 0\n.e\n";
    assert_eq!(checked(&format!("{clash}{bad}")), "refused 12 0\n");
    assert_eq!(checked(""), "refused 11 1\n");
}

#[test]
fn without_an_end_the_candidate_is_empty() {
    assert_eq!(checked(".i 2\n.o 1\n01 1\n"), "refused 11 1\n");
    assert_eq!(checked(".i 2\n.o 1\n01 1\n.e"), "refused 11 1\n");
    assert_eq!(checked(".i 2\n.o 1\n01 1\n.e x\n"), "refused 11 4\n");
    assert_eq!(checked(".i 2\n.o 1\n01 1\n.i 2\n"), "refused 11 4\n");
}

#[test]
fn splitting_after_the_first_end_line() {
    let parts = |input: &str| {
        let (text, candidate) = split(input.as_bytes());
        (
            String::from_utf8(text.to_vec()).unwrap(),
            String::from_utf8(candidate.to_vec()).unwrap(),
        )
    };
    for (text, candidate) in [
        (".e\n", ".e\n"),
        ("x\n \t.e # end\n", "rest"),
        ("#.e\n.e x\n.ee\n.e", ""),
        ("no end\n", ""),
        ("", ""),
        ("\n\n.e\n", "\n\n"),
    ] {
        let told = (text.to_string(), candidate.to_string());
        assert_eq!(parts(&format!("{text}{candidate}")), told);
    }
}

#[test]
fn generated_lists_are_accepted() {
    let mut random = Random::new(62);
    for round in 0..300 {
        let columns = 1 + round % 8;
        let mut text = format!(".i {columns}\n.o 1\n");
        for _ in 0..random.below(12) {
            let signs = random.signs(columns, b"01-");
            text.push_str(std::str::from_utf8(&signs).unwrap());
            text.push_str([" 1\n", " 1\n", " -\n", " ~\n"][random.below(4)]);
        }
        text.push_str(".e\n");
        let made = list_program(text.as_bytes());
        let both = [text.as_bytes(), &made].concat();
        assert_eq!(check_program(&both), b"accept\n");
    }
}

#[test]
fn the_programs_and_the_library_write_the_same() {
    let mut random = Random::new(63);
    for columns in 1..=5 {
        let (on, _) = random.roots(columns);
        let f = function(columns, &on);
        let text = text_of(columns, &list(&f, &f));
        assert_eq!(listed(&text), text);
    }
}

#[test]
fn nine_symmetric_columns() {
    let f = Function::from_points(9, |point| (3..=6).contains(&point.count_ones()));
    let text = text_of(9, &list(&f, &f));
    assert!(text.contains(".p 148\n"));
    assert_eq!(listed(&text), text);
    assert_eq!(checked(&format!("{text}{text}")), "accept\n");
}

#[test]
fn other_uses_are_told_on_the_error_stream() {
    for arguments in [vec![], vec!["lists"], vec!["list", "check"]] {
        let output = Command::new(env!("CARGO_BIN_EXE_second"))
            .args(arguments)
            .stdin(Stdio::null())
            .output()
            .unwrap();
        assert!(!output.status.success());
        assert!(output.stdout.is_empty());
    }
}
