//! What one line of a text means by itself, and how a text falls into lines.
//! Function texts, candidates and the splitting of the second program's input all use it.

use crate::cube;
use crate::refusal::MOST_COLUMNS;

/// The type of a function text.
#[derive(Clone, Copy, PartialEq, Eq, Debug)]
pub enum Type {
    F,
    Fd,
    Fr,
}

/// A row: the signs of its input as a cube, how many they are, and its output sign.
#[derive(Clone, Copy, PartialEq, Eq, Debug)]
pub struct Row {
    pub cube: u32,
    pub signs: usize,
    pub output: u8,
}

/// The meaning of a line by itself.
#[derive(Clone, Copy, PartialEq, Eq, Debug)]
pub enum Line {
    Empty,
    Inputs(usize),
    Outputs,
    Type(Type),
    Rows(usize),
    End,
    Row(Row),
    Fault,
}

/// The lines of a text, each with its closing byte 10. What is left after the last byte 10 is a
/// line if it is not empty.
pub fn lines(text: &[u8]) -> impl Iterator<Item = &[u8]> {
    text.split_inclusive(|&byte| byte == b'\n')
}

/// The meaning of a line.
pub fn meaning(line: &[u8]) -> Line {
    let fields = fields(line);
    let known = match fields[..] {
        [] => Some(Line::Empty),
        [b".e"] => Some(Line::End),
        [b".i", n] => number(n)
            .filter(|n| (1..=MOST_COLUMNS).contains(n))
            .map(Line::Inputs),
        [b".o", b"1"] => Some(Line::Outputs),
        [b".type", name] => type_named(name).map(Line::Type),
        [b".p", n] => number(n).map(Line::Rows),
        [signs, output] => row(signs, output).map(Line::Row),
        _ => None,
    };
    known.unwrap_or(Line::Fault)
}

/// The fields of a line, without its comment and its closing byte.
fn fields(line: &[u8]) -> Vec<&[u8]> {
    let line = line.strip_suffix(b"\n").unwrap_or(line);
    let kept = line.split(|&byte| byte == b'#').next().unwrap_or(line);
    kept.split(|&byte| byte == b' ' || byte == b'\t')
        .filter(|field| !field.is_empty())
        .collect()
}

/// One to five digits.
fn number(field: &[u8]) -> Option<usize> {
    if field.is_empty() || field.len() > 5 || !field.iter().all(u8::is_ascii_digit) {
        return None;
    }
    let value = |sum, digit: &u8| 10 * sum + usize::from(digit - b'0');
    Some(field.iter().fold(0, value))
}

fn type_named(name: &[u8]) -> Option<Type> {
    match name {
        b"f" => Some(Type::F),
        b"fd" => Some(Type::Fd),
        b"fr" => Some(Type::Fr),
        _ => None,
    }
}

/// A row of at most 16 input signs and one output sign.
fn row(signs: &[u8], output: &[u8]) -> Option<Row> {
    if signs.len() > MOST_COLUMNS {
        return None;
    }
    let cube = cube::from_signs(signs)?;
    match output {
        [output @ (b'0' | b'1' | b'-' | b'~')] => Some(Row {
            cube,
            signs: signs.len(),
            output: *output,
        }),
        _ => None,
    }
}
