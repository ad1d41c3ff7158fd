//! Texts: which line carries the first fault, what a text without fault means, and the records
//! that its reading leaves.

mod common;

use common::{all_signs, naive, on_at, Naive, Random};
use second::function::Function;
use second::line::Type;
use second::reading::{meaning, need, read_function, FunctionText};
use second::table::{Record, Table};
use second::text::{read, Asked, Text};
use second::writing::text_of;
use std::collections::BTreeSet;

/// The line of the first fault of a function text, or 0.
fn fault(text: &[u8]) -> usize {
    read(text, Asked::Function).err().unwrap_or(0)
}

/// The line of the first fault of a candidate for two columns, or 0.
fn candidate_fault(text: &[u8]) -> usize {
    let asked = Asked::Candidate { columns: 2 };
    read(text, asked).err().unwrap_or(0)
}

fn good(text: &str) -> Text {
    read(text.as_bytes(), Asked::Function).unwrap()
}

/// Compares the fault lines of texts with what is told.
fn told(cases: &[(&str, usize)]) {
    for (text, line) in cases {
        assert_eq!(fault(text.as_bytes()), *line, "{text:?}");
    }
}

#[test]
fn the_end_of_a_text_and_its_lines() {
    told(&[
        ("", 1),
        ("\n", 2),
        ("\n\n", 3),
        (" ", 2),
        ("#", 2),
        (".e", 1),
        (".e\n", 1),
        ("\n\n.e", 3),
        (".i 2", 2),
        (".i 2\n", 2),
        (".i 2\n\n", 3),
        (".o 1", 2),
        (".o 1\n.e", 2),
        (".i 2\n.o 1", 0),
        (".i 2\n.o 1\n", 0),
        (".i 2\n.o 1\n.e", 0),
        (".i 2\n.o 1\n.e\n", 0),
        (".o 1\n.i 2\n.e\n", 0),
        (".i 2\n.o 1\n01 1", 0),
        (".i 2\n.o 1\n01 1\n", 0),
    ]);
}

#[test]
fn bytes_after_the_end_are_unread() {
    told(&[
        (".i 2\n.o 1\n.e\nnothing of this counts\n", 0),
        (".i 2\n.o 1\n.e\n.i 2\n\r\u{7f}", 0),
        (".i 2\n.o 1\n.p 1\n.e\n01 1\n", 4),
        (".i 2\n.e\n.o 1\n", 2),
    ]);
    let text = good(".i 2\n.o 1\n01 1\n.e\n10 1\n");
    assert_eq!(text.rows.len(), 1);
}

#[test]
fn the_end_line_has_one_field() {
    told(&[
        (".i 2\n.o 1\n.e x\n", 3),
        (".i 2\n.o 1\n.e .e\n", 3),
        (".i 2\n.o 1\n.ex\n", 3),
        (".i 2\n.o 1\n.end\n", 3),
        (".i 2\n.o 1\n.E\n", 3),
        (".i 2\n.o 1\n \t.e\t # done\nrest", 0),
        (".i 2\n.o 1\n.e#\nrest", 0),
        (".i 2\n.o 1\n#.e\nrest", 4),
    ]);
}

#[test]
fn comments_blanks_and_tabs() {
    told(&[
        ("# a\n\n\t \n.i 2 # two\n.o\t1\n \t01\t \t1 #row\n.e", 0),
        (".i 2\n.o 1\n01 1#\n01#1\n", 4),
        (".i 2\n.o 1\n# \r \u{e9} anything\n", 0),
        (".i 2#\n.o 1#\n", 0),
        ("#.i 2\n.o 1\n", 3),
        (".i#2\n.o 1\n", 1),
        ("##\n# #\n.i 2\n.o 1\n", 0),
    ]);
    for byte in [0u8, 1, 8, 11, 12, 13, 27, 127, 128, 160, 255] {
        let mut text = b".i 2\n.o 1\n01 1\n.e\n".to_vec();
        text.insert(14, byte);
        assert_eq!(fault(&text), 3, "{byte}");
        let mut text = b".i 2\n.o 1\n\n.e\n".to_vec();
        text.insert(10, byte);
        assert_eq!(fault(&text), 3, "{byte}");
        let mut text = b".i 2\n.o 1\n#\n.e\n".to_vec();
        text.insert(11, byte);
        assert_eq!(fault(&text), 0, "{byte}");
    }
    told(&[(".i 2\r\n.o 1\r\n.e\r\n", 1), (".i 2\n.o 1\n.e\r", 3)]);
}

#[test]
fn numbers_have_one_to_five_digits() {
    told(&[
        (".i 1\n.o 1\n", 0),
        (".i 16\n.o 1\n", 0),
        (".i 016\n.o 1\n", 0),
        (".i 00016\n.o 1\n", 0),
        (".i 000016\n.o 1\n", 1),
        (".i 0\n.o 1\n", 1),
        (".i 00000\n.o 1\n", 1),
        (".i 17\n.o 1\n", 1),
        (".i 99999\n.o 1\n", 1),
        (".i 65537\n.o 1\n", 1),
        (".i -1\n.o 1\n", 1),
        (".i +1\n.o 1\n", 1),
        (".i 1.\n.o 1\n", 1),
        (".i 0x1\n.o 1\n", 1),
        (".i a\n.o 1\n", 1),
        (".i\n.o 1\n", 1),
        (".i 2 2\n.o 1\n", 1),
        (".i2\n.o 1\n", 1),
        (".I 2\n.o 1\n", 1),
    ]);
    let three = "00 1\n01 1\n10 1\n";
    for (stated, line) in [
        ("3", 0),
        ("03", 0),
        ("00003", 0),
        ("000003", 3),
        ("2", 8),
        ("4", 8),
        ("0", 8),
        ("99999", 8),
        ("100000", 3),
        ("3 3", 3),
        ("", 3),
        ("x", 3),
        ("-3", 3),
    ] {
        let text = format!("\n.i 2\n.p {stated}\n.o 1\n{three}.e\n");
        assert_eq!(fault(text.as_bytes()), line, "{stated:?}");
    }
}

#[test]
fn a_wrong_count_of_rows_is_known_at_the_end() {
    told(&[
        (".i 1\n.o 1\n.p 0\n", 0),
        (".i 1\n.o 1\n.p 0\n0 1\n", 5),
        (".i 1\n.o 1\n.p 0\n0 1", 5),
        (".i 1\n.o 1\n.p 0\n0 1\n\n.e\n", 6),
        (".i 1\n.o 1\n.p 1\n", 4),
        (".i 1\n.o 1\n.p 1\n0 1\n1 1\n1 1\n# last\n", 8),
        // A later fault of a line comes before what is known only at the end.
        (".i 1\n.o 1\n.p 0\n0 1\nx\n.e\n", 5),
        (".p 1\n.i 1\n.e\n", 3),
    ]);
    // Rows without meaning count as rows.
    told(&[
        (".i 1\n.o 1\n.p 4\n0 1\n0 0\n0 -\n0 ~\n.e\n", 0),
        (".i 1\n.o 1\n.p 1\n0 1\n0 0\n0 -\n0 ~\n.e\n", 8),
    ]);
}

#[test]
fn outputs_and_types_are_exact() {
    told(&[
        (".i 1\n.o 01\n", 2),
        (".i 1\n.o 2\n", 2),
        (".i 1\n.o 0\n", 2),
        (".i 1\n.o\n", 2),
        (".i 1\n.o 1 1\n", 2),
        (".i 1\n.O 1\n", 2),
        (".i 1\n.o 1\n.type f\n", 0),
        (".i 1\n.o 1\n.type fd\n", 0),
        (".i 1\n.o 1\n.type fr\n", 0),
        (".i 1\n.o 1\n.type fdr\n", 3),
        (".i 1\n.o 1\n.type F\n", 3),
        (".i 1\n.o 1\n.type\n", 3),
        (".i 1\n.o 1\n.type f d\n", 3),
        (".i 1\n.o 1\n.types f\n", 3),
        (".i 1\n.o 1\n.ilb a\n", 3),
        (".i 1\n.o 1\n.\n", 3),
        (".i 1\n.o 1\n. e\n", 3),
        (".type fr\n.p 0\n.o 1\n.i 1\n", 0),
    ]);
    assert_eq!(good(".i 1\n.o 1\n").kind, Type::Fd);
    assert_eq!(good(".i 1\n.o 1\n.type f\n").kind, Type::F);
    assert_eq!(good(".i 1\n.o 1\n.type fr\n").kind, Type::Fr);
}

#[test]
fn a_directive_given_again_or_after_a_row_is_a_fault() {
    told(&[
        (".i 1\n.i 1\n.o 1\n", 2),
        (".i 1\n.o 1\n\n.o 1\n", 4),
        (".type f\n.type f\n.i 1\n.o 1\n", 2),
        (".p 0\n.i 1\n.o 1\n.p 0\n", 4),
        (".i 1\n.o 1\n0 1\n.type f\n", 4),
        (".i 1\n.o 1\n0 1\n.p 1\n", 4),
        (".i 1\n.o 1\n0 1\n.i 1\n", 4),
        (".i 1\n.o 1\n0 1\n.o 1\n", 4),
        (".i 1\n.o 1\n0 1\n.e\n.p 1\n", 0),
    ]);
}

#[test]
fn a_row_wants_both_directives_first() {
    told(&[
        ("0 1\n", 1),
        ("0 1\n.i 1\n.o 1\n", 1),
        (".i 1\n0 1\n.o 1\n", 2),
        (".o 1\n0 1\n.i 1\n", 2),
        (".i 1\n.i 2\n0 1\n", 2),
    ]);
}

#[test]
fn rows_have_two_fields_of_known_signs() {
    let row = |row: &str| {
        let text = format!(".i 3\n.o 1\n{row}\n.e\n");
        fault(text.as_bytes())
    };
    for good in [
        "01- 1",
        "222 -",
        "2-1 ~",
        "000 0",
        "  111\t1  ",
        "-2- 1 # 1",
    ] {
        assert_eq!(row(good), 0, "{good}");
    }
    let bad = [
        "01 1",
        "01-1 1",
        "01-1",
        "01-",
        "1",
        "0 1- 1",
        "01- 2",
        "01- 11",
        "01- x",
        "01x 1",
        "01~ 1",
        "013 1",
        "01- 1 1",
        "01- |1",
        "01-|1",
        "4",
        "~",
        "01- .",
        ".01 1",
        "0l- 1",
        "01\u{2212} 1",
        "1 01-",
    ];
    for bad in bad {
        assert_eq!(row(bad), 3, "{bad}");
    }
    let long = format!(".i 16\n.o 1\n{} 1\n", "0".repeat(17));
    assert_eq!(fault(long.as_bytes()), 3);
    let longer = format!(".i 16\n.o 1\n{} 1\n", "0".repeat(400));
    assert_eq!(fault(longer.as_bytes()), 3);
}

#[test]
fn the_first_faulty_line_is_told() {
    told(&[
        (".i 1\n.o 1\n0 1\nx\n.i 1\n", 4),
        ("x\n.e\n", 1),
        (".i 0\n0 1\n", 1),
        (".o 1\n.i 1\n0 1\n01 1\n0 x\n", 4),
    ]);
}

#[test]
fn a_candidate_has_fewer_choices() {
    let cases = [
        ("", 1),
        (".i 2\n.o 1\n.e\n", 0),
        (".i 2\n.o 1\n01 1\n.e\n", 0),
        (".i 02\n.o 1\n01 1\n", 0),
        (".i 2\n.o 1\n.type f\n01 1\n", 0),
        (".i 2\n.o 1\n.type fd\n01 1\n", 0),
        (".i 2\n.o 1\n.type fr\n01 1\n", 3),
        (".i 3\n.o 1\n011 1\n", 1),
        (".i 1\n.o 1\n0 1\n", 1),
        (".o 1\n.i 1\n0 1\n", 2),
        (".i 2\n.o 1\n01 1\n01 0\n", 4),
        (".i 2\n.o 1\n01 -\n", 3),
        (".i 2\n.o 1\n01 ~\n", 3),
        (".i 2\n.o 1\n.p 2\n01 1\n01 1\n", 0),
        (".i 2\n.o 1\n.p 1\n01 1\n01 1\n.e\n", 6),
        (".i 2\n01 1\n", 2),
    ];
    for (text, line) in cases {
        assert_eq!(candidate_fault(text.as_bytes()), line, "{text:?}");
    }
}

/// L and U of a text.
fn roots(text: &str) -> (Function, Function) {
    let meaning = meaning(&good(text));
    (meaning.lower, meaning.upper)
}

#[test]
fn types_decide_what_rows_mean() {
    let rows = "00 0\n01 1\n1- -\n11 1\n-0 ~\n";
    let of = |kind: &str| roots(&format!(".i 2\n.o 1\n{kind}{rows}.e\n"));
    let on = on_at(2, &["01", "11"]);
    assert_eq!(of(".type f\n"), (on.clone(), on.clone()));
    let with_free = on_at(2, &["01", "11", "10"]);
    assert_eq!(of(".type fd\n"), (on.clone(), with_free.clone()));
    assert_eq!(of(""), (on.clone(), with_free));
    let not_off = on_at(2, &["01", "10", "11"]);
    assert_eq!(of(".type fr\n"), (on, not_off));
}

#[test]
fn a_text_without_meaningful_rows() {
    let zero = Function::constant(2, false);
    let one = Function::constant(2, true);
    for rows in ["", "-- ~\n", "-- 0\n"] {
        let text = format!(".i 2\n.o 1\n{rows}.e\n");
        assert_eq!(roots(&text), (zero.clone(), zero.clone()));
    }
    let text = ".i 2\n.o 1\n.type f\n-- -\n-- 0\n.e\n";
    assert_eq!(roots(text), (zero.clone(), zero.clone()));
    let text = ".i 2\n.o 1\n.type fr\n-- -\n-- ~\n.e\n";
    assert_eq!(roots(text), (zero, one));
    let mut records = [Record::new(1, 2, 3); 2];
    let answer = read_function(text.as_bytes(), &mut records);
    let told = FunctionText {
        columns: 2,
        upper: 1,
        ..FunctionText::default()
    };
    assert_eq!(answer, told);
    assert_eq!(records, [Record::default(); 2]);
}

#[test]
fn the_table_of_the_whole_example() {
    let text = b".i 2\n.o 1\n01 1\n10 1\n11 -\n.e\n";
    let mut records = [Record::new(9, 9, 9); 9];
    let answer = read_function(text, &mut records);
    let told = [
        (1, 0, 1), // 2: column 1 is 1
        (0, 2, 0), // 3: cube 01, and on so far
        (1, 1, 0), // 4: column 1 is 0
        (0, 0, 4), // 5: cube 10
        (0, 2, 4), // 6: on so far
        (0, 0, 2), // 7: cube 11, and don't care so far
        (0, 2, 1), // 8: U
        (0, 0, 0),
        (0, 0, 0),
    ];
    let told = told.map(|(level, low, high)| Record::new(level, low, high));
    assert_eq!(records, told);
    let told = FunctionText {
        number: 0,
        value: 0,
        columns: 2,
        lower: 6,
        upper: 8,
        count: 7,
    };
    assert_eq!(answer, told);
}

#[test]
fn signs_without_meaning_name_nothing() {
    let with = ".i 3\n.o 1\n.type f\n01- 1\n1-0 -\n-11 0\n010 ~\n";
    let without = ".i 3\n.o 1\n.type f\n01- 1\n";
    let table = |text: &str| {
        let mut records = vec![Record::default(); 32];
        let answer = read_function(text.as_bytes(), &mut records);
        (answer, records)
    };
    assert_eq!(table(with), table(without));
    let fr = table(".i 3\n.o 1\n.type fr\n01- 1\n1-0 -\n");
    assert_eq!(fr.0.count, 2);
    assert_eq!((fr.0.lower, fr.0.upper), (3, 1));
    let fd = table(".i 3\n.o 1\n01- 1\n1-0 0\n");
    assert_eq!(fd, table(without));
}

/// A random text, its type, and its rows as signs and output.
fn random_text(random: &mut Random, columns: usize) -> (String, usize, Vec<(Vec<u8>, u8)>) {
    let kind = random.below(4);
    let line = ["", ".type f\n", ".type fd\n", ".type fr\n"][kind];
    let outputs: &[u8] = if random.below(2) == 0 { b"01-~" } else { b"1-" };
    let rows: Vec<(Vec<u8>, u8)> = (0..random.below(7))
        .map(|_| (random.signs(columns, b"01-2-"), random.pick(outputs)))
        .collect();
    let mut text = format!(".i {columns}\n.o 1\n{line}");
    for (signs, output) in &rows {
        text.push_str(std::str::from_utf8(signs).unwrap());
        text.push(' ');
        text.push(char::from(*output));
        text.push('\n');
    }
    (text, kind, rows)
}

/// The points of a row's signs.
fn points_of(signs: &[u8]) -> Naive {
    (0..1usize << signs.len())
        .map(|point| {
            let fits = |(k, &sign): (usize, &u8)| match sign {
                b'0' => point >> k & 1 == 0,
                b'1' => point >> k & 1 == 1,
                _ => true,
            };
            signs.iter().enumerate().all(fits)
        })
        .collect()
}

fn any_of(rows: &[&Naive], columns: usize) -> Naive {
    (0..1usize << columns)
        .map(|point| rows.iter().any(|row| row[point]))
        .collect()
}

/// L, U, whether a point is both on and off, and every node named, told point by point.
fn naive_reading(
    columns: usize,
    kind: usize,
    rows: &[(Vec<u8>, u8)],
) -> (Naive, Naive, bool, BTreeSet<Naive>) {
    let meaningful: &[u8] = [b"1-".as_slice(), b"1", b"1-", b"10"][kind];
    let mut nodes = BTreeSet::new();
    let cubes: Vec<(Naive, u8)> = rows
        .iter()
        .map(|(signs, output)| (points_of(signs), *output))
        .collect();
    let so_far = |upto: usize, sign: u8| {
        let chosen: Vec<&Naive> = cubes[..upto]
            .iter()
            .filter(|(_, output)| *output == sign)
            .map(|(points, _)| points)
            .collect();
        any_of(&chosen, columns)
    };
    for (i, (points, output)) in cubes.iter().enumerate() {
        if meaningful.contains(output) {
            nodes.extend(naive::nodes(columns, points));
            nodes.extend(naive::nodes(columns, &so_far(i + 1, *output)));
        }
    }
    let on = so_far(rows.len(), b'1');
    let off = so_far(rows.len(), b'0');
    let upper: Naive = match kind {
        1 => on.clone(),
        3 => off.iter().map(|&off| !off).collect(),
        _ => any_of(&[&on, &so_far(rows.len(), b'-')], columns),
    };
    nodes.extend(naive::nodes(columns, &upper));
    let both = kind == 3 && on.iter().zip(&off).any(|(&on, &off)| on && off);
    (on, upper, both, nodes)
}

#[test]
fn readings_agree_with_asking_points_one_at_a_time() {
    let mut random = Random::new(41);
    let mut clashes = 0;
    for round in 0..3_000 {
        let columns = 1 + round % 5;
        let (text, kind, rows) = random_text(&mut random, columns);
        let (lower, upper, both, nodes) = naive_reading(columns, kind, &rows);
        assert_eq!(need(&good(&text)), nodes.len());
        let mut records = vec![Record::new(1, 1, 1); nodes.len() + 3];
        let answer = read_function(text.as_bytes(), &mut records);
        if both {
            clashes += 1;
            assert_eq!((answer.number, answer.value, answer.count), (12, 0, 0));
            assert!(records.iter().all(|&record| record == Record::default()));
        } else {
            assert_eq!((answer.number, answer.columns), (0, columns), "{text}");
            assert_eq!(answer.count, nodes.len());
            let table = Table::of(columns, &records[..answer.count]);
            let f = |naive: &Naive| common::function(columns, naive);
            assert_eq!(table.function(answer.lower), f(&lower));
            assert_eq!(table.function(answer.upper), f(&upper));
            let held = table.nodes();
            assert!(nodes.iter().all(|node| held.has(&f(node))));
            assert_eq!(records[answer.count..], [Record::default(); 3]);
        }
        // Exactly enough room, and one record less.
        let mut records = vec![Record::default(); nodes.len()];
        let exact = read_function(text.as_bytes(), &mut records);
        assert_eq!(exact, answer);
        if let Some(less) = nodes.len().checked_sub(1) {
            let mut records = vec![Record::new(1, 1, 1); less];
            let answer = read_function(text.as_bytes(), &mut records);
            let lacking = FunctionText {
                number: 7,
                ..FunctionText::default()
            };
            assert_eq!(answer, lacking);
            assert!(records.iter().all(|&record| record == Record::default()));
        }
    }
    assert!(clashes > 50, "{clashes}");
}

#[test]
fn blanks_and_comments_change_nothing() {
    let mut random = Random::new(42);
    for round in 0..300 {
        let columns = 1 + round % 6;
        let (text, _, _) = random_text(&mut random, columns);
        let mut loose = String::new();
        for line in text.lines() {
            for _ in 0..random.below(2) {
                loose.push_str([" \n", "\t\n", "#\n", "\n"][random.below(4)]);
            }
            loose.push_str(["", " ", "\t "][random.below(3)]);
            loose.push_str(&line.replace(' ', ["\t", "  ", " \t "][random.below(3)]));
            loose.push_str(["", " ", "\t", "#.e", " # 1"][random.below(5)]);
            loose.push('\n');
        }
        assert_eq!(good(&loose), good(&text));
        loose.push_str(".e\n%");
        assert_eq!(good(&loose), good(&text));
    }
}

#[test]
fn any_bytes_have_a_meaning_or_a_fault() {
    let mut random = Random::new(43);
    for _ in 0..3_000 {
        let (text, _, _) = random_text(&mut random, 2);
        let mut bytes = text.into_bytes();
        for _ in 0..1 + random.below(3) {
            let at = random.below(bytes.len());
            match random.below(3) {
                0 => bytes[at] = random.pick(b"01-2~.eiop# \t\n\r\x00\xff"),
                1 => bytes.insert(at, random.pick(b"01-2~.eiop# \t\n\r\x00\xff")),
                _ => drop(bytes.remove(at)),
            }
        }
        let lines = second::line::lines(&bytes).count();
        let line = fault(&bytes);
        assert!(line <= lines + 1);
        // Nothing after the faulty line can mend it.
        if line > 0 && line <= lines {
            let kept: Vec<u8> = second::line::lines(&bytes)
                .take(line)
                .flatten()
                .copied()
                .collect();
            assert_eq!(fault(&kept), line);
        }
    }
}

#[test]
fn what_is_written_reads_back() {
    let mut random = Random::new(44);
    for round in 0..500 {
        let columns = 1 + round % 16;
        let list: Vec<u32> = (0..random.below(30))
            .map(|_| random.cube(columns))
            .collect();
        let text = text_of(columns, &list);
        let back = read(text.as_bytes(), Asked::Candidate { columns }).unwrap();
        let cubes: Vec<u32> = back.rows.iter().map(|row| row.cube).collect();
        assert_eq!(all_signs(&cubes, columns), all_signs(&list, columns));
        assert_eq!(cubes, list);
        assert_eq!(fault(text.as_bytes()), 0);
    }
}
