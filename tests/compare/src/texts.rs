//! Texts without fault, of random shape.

use crate::random::Random;

/// A line: its fields, and what stands before, between and after them.
#[derive(Clone, Debug)]
pub struct Line {
    pub fields: Vec<Vec<u8>>,
    pub before: Vec<u8>,
    pub between: Vec<u8>,
    pub after: Vec<u8>,
}

impl Line {
    /// Fields with a space between them, and nothing else.
    pub fn of(fields: &[&str]) -> Line {
        Line {
            fields: fields
                .iter()
                .map(|field| field.as_bytes().to_vec())
                .collect(),
            before: Vec::new(),
            between: b" ".to_vec(),
            after: Vec::new(),
        }
    }

    /// The same fields with any blanks around them, and perhaps a comment.
    fn laid_out(mut self, random: &mut Random) -> Line {
        self.before = random.pick(&BEFORE).to_vec();
        self.between = random.pick(&BETWEEN).to_vec();
        self.after = random.pick(&AFTER).to_vec();
        self
    }

    fn bytes(&self) -> Vec<u8> {
        let fields = self.fields.join(&self.between[..]);
        [&self.before[..], &fields, &self.after].concat()
    }
}

const BEFORE: [&[u8]; 5] = [b"", b"", b" ", b"\t", b" \t "];
const BETWEEN: [&[u8]; 4] = [b" ", b"\t", b"  ", b"\t \t"];
const AFTER: [&[u8]; 8] = [
    b"",
    b"",
    b" ",
    b"\t",
    b"#",
    b" # 01 1",
    b"#.e",
    b"\t# \r\0\x7f\x80\xff",
];

/// A text in lines, each closed by byte 10; the last perhaps not.
#[derive(Clone, Debug)]
pub struct Text {
    pub columns: usize,
    pub lines: Vec<Line>,
    pub closed: bool,
}

impl Text {
    /// A text whose fields stand with one space between them.
    pub fn of(columns: usize, text: &str) -> Text {
        let fields = |line: &str| Line::of(&line.split(' ').collect::<Vec<_>>());
        Text {
            columns,
            lines: text.lines().map(fields).collect(),
            closed: text.ends_with('\n'),
        }
    }

    pub fn bytes(&self) -> Vec<u8> {
        let lines: Vec<Vec<u8>> = self.lines.iter().map(Line::bytes).collect();
        let mut text = lines.join(&b'\n');
        if self.closed && !lines.is_empty() {
            text.push(b'\n');
        }
        text
    }
}

/// What a text is to be.
#[derive(Clone, Copy, PartialEq, Eq, Debug)]
pub enum Form {
    Function,
    Candidate,
}

/// The output signs that the rows of a function text have.
#[derive(Clone, Copy, PartialEq, Eq, Debug)]
enum Outputs {
    One,
    Any,
    /// The sign of the first column, so that no point is both on and off.
    First,
}

/// A text without fault for so many columns, with so many rows. Its directives stand in any order,
/// and `.type`, `.p`, `.e` and the last byte 10 only in some; after `.e` stands anything.
pub fn good(random: &mut Random, form: Form, columns: usize, rows: usize) -> Text {
    let (kinds, outputs): (&[&str], _) = match form {
        Form::Candidate => (&["f", "fd"], Outputs::One),
        Form::Function => {
            let outputs = [Outputs::One, Outputs::Any, Outputs::Any, Outputs::First];
            (&["f", "fd", "fr"], random.pick(&outputs))
        }
    };
    let zeros = |random: &mut Random, number: usize| match random.below(4) {
        0 => format!("{number:05}"),
        1 => format!("0{number}"),
        _ => number.to_string(),
    };
    let mut lines = vec![
        Line::of(&[".o", "1"]),
        Line::of(&[".i", &zeros(random, columns)]),
    ];
    if random.below(3) > 0 {
        lines.push(Line::of(&[".type", random.pick(kinds)]));
    }
    if random.below(2) == 0 {
        lines.push(Line::of(&[".p", &zeros(random, rows)]));
    }
    for i in 1..lines.len() {
        lines.swap(i, random.below(i + 1));
    }
    lines.extend((0..rows).map(|_| row(random, columns, outputs)));
    if random.below(3) > 0 {
        lines.push(Line::of(&[".e"]));
        for _ in 0..random.below(3) {
            lines.push(Line::of(&[random.pick(&PAST_THE_END)]));
        }
    }
    if random.below(2) == 0 {
        lines = lines
            .into_iter()
            .map(|line| line.laid_out(random))
            .collect();
        for _ in 0..random.below(4) {
            let empty = Line::of(&[]).laid_out(random);
            lines.insert(random.below(lines.len() + 1), empty);
        }
    }
    Text {
        columns,
        lines,
        closed: random.below(4) > 0,
    }
}

const PAST_THE_END: [&str; 5] = [".e", ".i 2", "01 1", "anything\r\0", ".p 99999"];

fn row(random: &mut Random, columns: usize, outputs: Outputs) -> Line {
    let from: &[&str] = random.pick(&[&["0", "1"], &["0", "1", "-"], &["0", "1", "-", "2", "-"]]);
    let signs: String = (0..columns).map(|_| random.pick(from)).collect();
    let output = match outputs {
        Outputs::One => "1",
        Outputs::Any => random.pick(&["1", "1", "0", "0", "-", "~"]),
        Outputs::First => match &signs[..1] {
            "2" => "-",
            first => first,
        },
    };
    Line::of(&[&signs, output])
}

/// A text room filled with anything but zeros.
pub fn text_room(random: &mut Random, bytes: usize) -> Vec<u8> {
    let byte = || random.below(255) as u8 + 1;
    std::iter::repeat_with(byte).take(bytes).collect()
}
