//! The texts of the corpus, by name. `corpus/NAME.pla` is an input of the first program and
//! `NAME.out` its answer; `NAME.check` is an input of the second program and `NAME.verdict` its.

use crate::candidate::{with_candidate, Change};
use crate::formula::{
    bit, decided_points, from_right, number, points, product, row, rows_from_right, sign, text,
    turns, Sign,
};
use crate::program::Program;
use std::path::{Path, PathBuf};

/// An input of a program, and its name.
pub struct Case {
    pub name: String,
    pub program: Program,
    pub input: Vec<u8>,
}

impl Case {
    fn list(name: impl Into<String>, input: impl Into<Vec<u8>>) -> Case {
        Case {
            name: name.into(),
            program: Program::List,
            input: input.into(),
        }
    }

    fn check(name: impl Into<String>, input: impl Into<Vec<u8>>) -> Case {
        Case {
            name: name.into(),
            program: Program::Check,
            input: input.into(),
        }
    }

    /// The file of the input.
    pub fn input_file(&self) -> PathBuf {
        self.file(["pla", "check"])
    }

    /// The file of the answer.
    pub fn answer_file(&self) -> PathBuf {
        self.file(["out", "verdict"])
    }

    fn file(&self, kinds: [&str; 2]) -> PathBuf {
        let kind = kinds[usize::from(self.program == Program::Check)];
        folder().join(format!("{}.{kind}", self.name))
    }
}

pub fn folder() -> PathBuf {
    Path::new(env!("CARGO_MANIFEST_DIR")).join("corpus")
}

/// All inputs: of each text that gives a list one for either program, its candidate changed in one
/// way after the other; then those of one program alone.
pub fn cases() -> Vec<Case> {
    let mut cases = Vec::new();
    let texts = [
        known(),
        arithmetic(),
        selectors(),
        symmetric(),
        heels(),
        games(),
    ]
    .concat();
    for (i, (name, text)) in texts.into_iter().enumerate() {
        let change = Change::ALL[i % Change::ALL.len()];
        cases.push(Case::check(&name, with_candidate(&text, change, i)));
        cases.push(Case::list(name, text));
    }
    cases.extend(known_verdicts());
    cases.extend(damaged());
    cases.extend(damaged_candidates());
    cases.extend(long_inputs());
    cases.extend(long_lists());
    cases.extend(long_candidates());
    cases.extend(full_tables());
    cases
}

type Named = Vec<(String, Vec<u8>)>;

fn named(name: &str, text: impl Into<Vec<u8>>) -> (String, Vec<u8>) {
    (name.to_string(), text.into())
}

/// A text of two columns in document 01's words.
fn pair(rows: &str) -> String {
    format!(".i 2\n.o 1\n{rows}.e\n")
}

/// Document 01's known points as texts, and its whole example.
fn known() -> Named {
    let not_all_equal: Sign = &|point| sign(point != 0 && point != 7);
    vec![
        named("example", pair("01 1\n10 1\n11 -\n")),
        named("known_01_constant", ".i 1\n.o 1\n- 1\n.e\n"),
        named("known_02_dont_care", pair("-- -\n")),
        named("known_03_either", pair("01 1\n10 1\n")),
        named("known_04_or", pair("01 1\n10 1\n11 1\n")),
        named("known_05_and", pair("11 1\n")),
        named("known_06_dont_care_10", pair("11 1\n10 -\n")),
        named("known_07_dont_care_11", pair("01 1\n11 -\n")),
        named("known_08_not_all_equal", points(3, not_all_equal)),
        named(
            "known_08_three_rows",
            ".i 3\n.o 1\n01- 1\n-01 1\n1-0 1\n.e\n",
        ),
        named("known_10_in_both", pair("11 1\n11 -\n")),
        named(
            "known_16_columns",
            text(16, "", &[row(16, &[(0, b'1'), (15, b'0')])]),
        ),
        named("no_rows", ".i 16\n.o 1\n.p 0\n.e\n"),
        named("off_rows_only", ".i 3\n.o 1\n.type fr\n0-1 0\n110 0\n.e\n"),
        named(
            "errors_rests_skipped",
            points(3, &|point| {
                sign([0b010, 0b110, 0b101, 0b111].contains(&point))
            }),
        ),
    ]
}

/// Verdicts of document 01's cases, which a list of the generator does not have.
fn known_verdicts() -> Vec<Case> {
    let three = ".i 3\n.o 1\n01- 1\n-01 1\n1-0 1\n.e\n";
    let verdict =
        |name: &str, function: String, rows: &str| Case::check(name, function + &pair(rows));
    vec![
        Case::check("known_08_accepted", format!("{three}{three}")),
        verdict("known_09_twice", pair("01 1\n11 1\n"), "-1 1\n-1 1\n"),
        verdict("known_06_literal", pair("11 1\n10 -\n"), "11 1\n"),
        verdict("known_07_literal", pair("01 1\n11 -\n"), "01 1\n"),
        verdict("known_04_off", pair("01 1\n10 1\n11 1\n"), "1- 1\n-- 1\n"),
        verdict("known_03_missing", pair("01 1\n10 1\n"), ""),
        verdict("known_02_cube", pair("-- -\n"), "-- 1\n"),
    ]
}

/// Counts of ones, sums and carries, each output by itself.
fn arithmetic() -> Named {
    let mut made = Vec::new();
    for (name, columns, outputs) in [("rd53", 5, 3), ("rd73", 7, 3), ("rd84", 8, 4)] {
        for k in 0..outputs {
            let count: Sign = &|point| sign(bit(point.count_ones(), k));
            let name = format!("{name}_{k}");
            made.push((
                name,
                if columns == 8 {
                    from_right(columns, count)
                } else {
                    points(columns, count)
                },
            ));
        }
    }
    for bits in [1, 2, 3, 4] {
        for k in 0..=bits {
            let sum: Sign = &|point| {
                let carry = point >> (2 * bits) & 1;
                sign(bit(
                    number(point, 0, bits) + number(point, bits, bits) + carry,
                    k,
                ))
            };
            let what = if k == bits {
                "carry".into()
            } else {
                format!("sum_{k}")
            };
            made.push((
                format!("adder{bits}_{what}"),
                from_right(2 * bits as usize + 1, sum),
            ));
        }
    }
    let carry: Sign = &|point| {
        let (odd, even) = (
            |k: u32| point >> (2 * k) & 1,
            |k: u32| point >> (2 * k + 1) & 1,
        );
        let sum = |of: &dyn Fn(u32) -> u32| (0..8).fold(0, |sum, k| sum * 2 + of(k));
        sign(sum(&odd) + sum(&even) > 255)
    };
    made.push(named("adder8_carry_in_turn", from_right(16, carry)));
    for k in 0..4 {
        let times: Sign = &|point| sign(bit(number(point, 0, 2) * number(point, 2, 2), k));
        made.push((format!("times2_{k}"), points(4, times)));
    }
    made
}

/// Multiplexers, the columns that choose first, and decoders with an enabling column.
fn selectors() -> Named {
    let mut made = Vec::new();
    for chosen in 1..=3u32 {
        let columns = chosen as usize + (1 << chosen);
        let rows: Vec<String> = (0..1u32 << chosen)
            .map(|way| {
                let choice = (0..chosen).map(|k| {
                    let digit = sign(bit(way, chosen - 1 - k));
                    (k as usize, digit)
                });
                let data = (chosen as usize + way as usize, b'1');
                row(columns, &choice.chain([data]).collect::<Vec<_>>())
            })
            .collect();
        made.push((
            format!("multiplexer{}", 1 << chosen),
            text(columns, "f", &rows),
        ));
    }
    for output in 0..8 {
        let decoded: Sign = &|point| sign(point & 1 == 1 && number(point, 1, 3) == output);
        made.push((format!("decoder8_{output}"), points(4, decoded)));
    }
    for (segment, digits) in SEGMENTS.iter().enumerate() {
        let lit: Sign = &|point| match number(point, 0, 4) {
            digit @ 0..=9 => sign(digits.contains(&digit)),
            _ => b'-',
        };
        let name = format!("segment_{}", char::from(b'a' + segment as u8));
        made.push((
            name,
            if segment % 2 == 0 {
                points(4, lit)
            } else {
                decided_points(4, lit)
            },
        ));
    }
    made
}

/// The digits at which each of seven segments is lit.
const SEGMENTS: [&[u32]; 7] = [
    &[0, 2, 3, 5, 6, 7, 8, 9],
    &[0, 1, 2, 3, 4, 7, 8, 9],
    &[0, 1, 3, 4, 5, 6, 7, 8, 9],
    &[0, 2, 3, 5, 6, 8, 9],
    &[0, 2, 6, 8],
    &[0, 4, 5, 6, 8, 9],
    &[2, 3, 4, 5, 6, 8, 9],
];

/// Functions of the number of ones.
fn symmetric() -> Named {
    let mut made = Vec::new();
    for columns in [4, 5, 8, 10] {
        let odd: Sign = &|point| sign(point.count_ones() % 2 == 1);
        made.push((format!("parity{columns}"), points(columns, odd)));
    }
    for columns in [3, 5, 7, 9, 11] {
        let most: Sign = &|point| sign(point.count_ones() as usize > columns / 2);
        made.push((format!("majority{columns}"), from_right(columns, most)));
    }
    made.push(named(
        "9sym",
        from_right(9, &|point| sign((3..=6).contains(&point.count_ones()))),
    ));
    made.push(named(
        "co14",
        from_right(14, &|point| sign(point.count_ones() == 1)),
    ));
    made.push(named(
        "two_of_five_or_care_not",
        decided_points(5, &|point| match point.count_ones() {
            2 => b'1',
            3 => b'-',
            _ => b'0',
        }),
    ));
    made
}

/// Achilles-heel functions, pairs of columns of which both are 1, beside one another and far from
/// one another; and their complements.
fn heels() -> Named {
    let mut made = Vec::new();
    for pairs in [2usize, 3, 4, 5, 8] {
        let columns = 2 * pairs;
        let beside = |i: usize| (2 * i, 2 * i + 1);
        let far = |i: usize| (i, i + pairs);
        for (name, places) in [
            ("beside", &beside as &dyn Fn(usize) -> (usize, usize)),
            ("far", &far),
        ] {
            let rows: Vec<String> = (0..pairs)
                .map(|i| row(columns, &[(places(i).0, b'1'), (places(i).1, b'1')]))
                .collect();
            made.push((format!("heel{pairs}_{name}"), text(columns, "f", &rows)));
            let none: Sign = &|point| {
                let both = |i: usize| point >> places(i).0 & point >> places(i).1 & 1 == 1;
                sign(!(0..pairs).any(both))
            };
            let rows = rows_from_right(columns, none);
            made.push((
                format!("heel{pairs}_{name}_not"),
                text(columns, "fd", &rows),
            ));
        }
    }
    made
}

/// The next state of a cell of nine, the middle one, in the game of life.
fn games() -> Named {
    let alive: Sign = &|point| {
        let others = (point & !(1 << 4)).count_ones();
        sign(others == 3 || others == 2 && point >> 4 & 1 == 1)
    };
    vec![named("life", from_right(9, alive))]
}

/// Function texts with a fault, or with what is close to one, by what is in them.
const TEXTS: [(&str, &str); 38] = [
    ("empty", ""),
    ("empty_line", "\n"),
    ("end_only", ".e\n"),
    ("no_i", ".o 1\n.e\n"),
    ("no_o", ".i 2\n.e\n"),
    ("no_i_before_row", ".o 1\n01 1\n.e\n"),
    ("no_o_before_row", ".i 2\n01 1\n.o 1\n.e\n"),
    ("i_0", ".i 0\n.o 1\n.e\n"),
    ("i_17", ".i 17\n.o 1\n.e\n"),
    ("i_65538", ".i 65538\n.o 1\n11 1\n.e\n"),
    ("i_of_six_digits", ".i 000002\n.o 1\n11 1\n.e\n"),
    ("i_of_five_digits", ".i 00002\n.o 1\n11 1\n.e\n"),
    ("i_twice", ".i 2\n.i 2\n.o 1\n.e\n"),
    ("i_negative", ".i -2\n.o 1\n.e\n"),
    ("o_2", ".i 2\n.o 2\n.e\n"),
    ("o_01", ".i 2\n.o 01\n11 1\n.e\n"),
    ("o_twice", ".i 2\n.o 1\n.o 1\n.e\n"),
    ("type_unknown", ".i 2\n.o 1\n.type fdr\n.e\n"),
    ("type_twice", ".i 2\n.o 1\n.type f\n.type f\n.e\n"),
    ("type_after_row", ".i 2\n.o 1\n11 1\n.type f\n.e\n"),
    ("p_too_great", ".i 2\n.o 1\n.p 3\n01 1\n11 -\n.e\n"),
    ("p_too_small", ".i 2\n.o 1\n.p 1\n01 1\n11 -\n"),
    ("p_right", ".i 2\n.o 1\n.p 00002\n01 1\n11 -\n"),
    ("p_99999", ".i 2\n.o 1\n.p 99999\n01 1\n.e\n"),
    ("p_after_row", ".i 2\n.o 1\n01 1\n.p 1\n.e\n"),
    ("directive_unknown", ".i 2\n.o 1\n.ilb a b\n01 1\n.e\n"),
    ("row_short", ".i 3\n.o 1\n01 1\n.e\n"),
    ("row_long", ".i 2\n.o 1\n011 1\n.e\n"),
    ("row_without_output", ".i 2\n.o 1\n01\n.e\n"),
    ("row_of_three_fields", ".i 2\n.o 1\n01 1 1\n.e\n"),
    ("sign_unknown", ".i 2\n.o 1\n0x 1\n.e\n"),
    ("output_unknown", ".i 2\n.o 1\n01 2\n.e\n"),
    ("two_for_dash", ".i 2\n.o 1\n02 1\n11 ~\n.e\n"),
    ("carriage_returns", ".i 2\r\n.o 1\r\n01 1\r\n.e\r\n"),
    ("nul_byte", ".i 2\n.o 1\n01 1\0\n.e\n"),
    ("end_with_more", ".i 2\n.o 1\n01 1\n.e x\n"),
    (
        "blanks_and_comments",
        "# all\n\n \t.i\t2 # two\n.o  1\n\t01 1#\n\n.e # .e\nunread\n",
    ),
    ("on_and_off", ".i 2\n.o 1\n.type fr\n0- 1\n-1 0\n.e\n"),
];

/// These texts, and some of them before a candidate that has a fault of its own.
fn damaged() -> Vec<Case> {
    let both = TEXTS.iter().enumerate().flat_map(|(i, (name, text))| {
        let name = format!("text_{name}");
        let check = [text.as_bytes(), b"anything\n"].concat();
        let check = (i % 3 == 0).then(|| Case::check(&name, check));
        check.into_iter().chain([Case::list(name, *text)])
    });
    both.collect()
}

/// Candidates with a fault, for the whole example's function.
const CANDIDATE_FAULTS: [(&str, &str); 12] = [
    ("empty", ""),
    ("empty_line", "\n"),
    ("other_columns", ".i 3\n.o 1\n1-- 1\n.e\n"),
    ("type_fr", ".i 2\n.o 1\n.type fr\n1- 1\n.e\n"),
    ("type_fd", ".i 2\n.o 1\n.type fd\n1- 1\n-1 1\n.e\n"),
    ("output_dash", ".i 2\n.o 1\n1- 1\n-1 -\n.e\n"),
    ("output_0", ".i 2\n.o 1\n1- 1\n-1 1\n00 0\n.e\n"),
    ("p_wrong", ".i 2\n.o 1\n.p 1\n1- 1\n-1 1\n.e\n"),
    ("p_wrong_no_end", ".i 2\n.o 1\n.p 1\n1- 1\n-1 1"),
    ("no_o", ".i 2\n1- 1\n-1 1\n.e\n"),
    ("row_long", ".i 2\n.o 1\n1-- 1\n.e\n"),
    ("more_behind", ".i 2\n.o 1\n1- 1\n-1 1\n.e\nunread\n"),
];

fn damaged_candidates() -> Vec<Case> {
    let function = pair("01 1\n10 1\n11 -\n");
    let case = |&(name, text): &(&str, &str)| {
        Case::check(format!("candidate_{name}"), format!("{function}{text}"))
    };
    CANDIDATE_FAULTS.iter().map(case).collect()
}

/// A text filled up by a sign to so many bytes.
fn filled(text: &str, byte: u8, bytes: usize) -> Vec<u8> {
    let mut text = text.as_bytes().to_vec();
    text.resize(bytes, byte);
    text
}

/// Inputs of the most bytes, and of one more.
fn long_inputs() -> Vec<Case> {
    let text = ".i 1\n.o 1\n1 1\n.e\n";
    let open = ".i 1\n.o 1\n1 1\n#";
    let both = format!("{text}{text}");
    let mut made = Vec::new();
    for bytes in [32_767, 32_768, 32_769] {
        made.push(Case::list(
            format!("bytes_{bytes}"),
            filled(text, b'\n', bytes),
        ));
        made.push(Case::list(
            format!("bytes_{bytes}_no_end"),
            filled(open, b' ', bytes),
        ));
        made.push(Case::check(
            format!("bytes_{bytes}"),
            filled(&both, b' ', bytes),
        ));
        made.push(Case::check(
            format!("bytes_{bytes}_faulty"),
            filled("x", b'\n', bytes),
        ));
    }
    made.push(Case::list("lines_32768", filled("", b'\n', 32_768)));
    made
}

/// Lists that fill the list room, and one that is longer.
fn long_lists() -> Vec<Case> {
    let three = turns("01-");
    let threes = || [three.clone(), three.clone(), three.clone(), three.clone()];
    let fills = product(&[&threes()[..], &[turns("01--")]].concat());
    let two_or_three = [turns("11-00"), turns("101-0")].concat();
    let over = product(&[two_or_three, three.clone(), three.clone(), turns("01---")]);
    let odd = rows_from_right(11, &|point| sign(point.count_ones() % 2 == 1));
    let mut made = Vec::new();
    for (name, columns, rows) in [
        ("list_1536", 16, fills),
        ("list_1792", 16, over),
        ("parity11", 11, odd),
    ] {
        let text = text(columns, "f", &rows);
        made.push(Case::check(name, [&text[..], &text].concat()));
        made.push(Case::list(name, text));
    }
    made
}

/// Candidates that fill the list room, and that are longer.
fn long_candidates() -> Vec<Case> {
    let function = ".i 1\n.o 1\n1 1\n.e\n";
    let candidate = |name: &str, rows: usize, more: &str| {
        let rows = "1 1\n".repeat(rows);
        Case::check(name, format!("{function}.i 1\n.o 1\n{rows}{more}.e\n"))
    };
    let dashes = "- 1\n".repeat(1_536);
    vec![
        candidate("candidate_1536", 1_536, ""),
        candidate("candidate_1537", 1_537, ""),
        candidate("candidate_1537_faulty", 1_537, "1 0\n"),
        Case::check(
            "candidate_dashes_1536",
            format!(".i 1\n.o 1\n- 1\n.e\n.i 1\n.o 1\n.p 1536\n{dashes}.e\n"),
        ),
        Case::list(
            "rows_8000",
            format!(".i 1\n.o 1\n.p 08000\n{}", "1 1\n".repeat(8_000)),
        ),
    ]
}

/// A text of points far from each other.
fn spread(columns: usize, factor: u32, rows: u32) -> Vec<u8> {
    let row = |i: u32| {
        let point = i.wrapping_mul(factor).wrapping_add(i * i);
        let signs = (0..columns as u32).map(|k| char::from(sign(bit(point, k))));
        signs.collect::<String>() + " 1"
    };
    text(columns, "f", &(0..rows).map(row).collect::<Vec<_>>())
}

/// Texts whose reading, or whose reading and list, need so many records: by the second program's
/// count, which a test holds against the names.
const NEEDS: [(&str, u32, u32); 4] = [
    ("reading_4096", 40_513, 543),
    ("reading_4097", 40_509, 545),
    ("generation_4096", 40_523, 497),
    ("generation_4097", 40_535, 495),
];

/// Tables that are just full, or one record short, or far too short.
fn full_tables() -> Vec<Case> {
    let odd: Sign = &|point| sign(point.count_ones() % 2 == 1);
    let mut made = vec![Case::list("table_parity12", from_right(12, odd))];
    let points = [
        ("points_200", 16, 40_503, 200),
        ("points_1500", 16, 40_503, 1_500),
    ];
    let needs = NEEDS.map(|(name, factor, rows)| (name, 12, factor, rows));
    for (name, columns, factor, rows) in points.into_iter().chain(needs) {
        let name = format!("table_{name}");
        let text = spread(columns, factor, rows);
        let twice = [&text[..], &text].concat();
        made.push(Case::check(&name, twice));
        made.push(Case::list(name, text));
    }
    made
}
