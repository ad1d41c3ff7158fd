//! Verdicts and refusals in words.

use crate::judging::Judged;
use crate::place::{line, rows, Row};
use crate::{RECORDS, ROOM};
use dowrhesk::{literals, Function, Refusal, Refused, Sign, Verdict};

/// A number with a comma before each three digits, as 4,096.
pub fn grouped(number: usize) -> String {
    let digits = number.to_string();
    let groups: Vec<_> = digits.as_bytes().rchunks(3).rev().collect();
    String::from_utf8_lossy(&groups.join(&b',')).into_owned()
}

/// A number of things: `1 row`, `2 rows`.
pub fn counted(number: usize, thing: &str) -> String {
    let plural = if number == 1 { "" } else { "s" };
    format!("{} {thing}{plural}", grouped(number))
}

/// The rows and literals of a list.
pub fn size(list: &[u32]) -> String {
    let rows = counted(list.len(), "row");
    format!("{rows}, {}", counted(literals(list) as usize, "literal"))
}

/// A point as its column digits.
pub fn digits(point: u32, columns: u16) -> String {
    let digit = |column: u16| char::from(b"01"[(point >> column & 1) as usize]);
    (0..columns).map(digit).collect()
}

/// What is said of a list in a file.
pub fn verdict(name: &str, text: &[u8], function: &Function, judged: &Judged) -> String {
    let columns = function.columns();
    let at = |cube: usize| {
        let Row { line, text } = rows(text, columns, cube).pop().unwrap_or_else(nowhere);
        format!("{name}:{line}: row {cube} \"{text}\"")
    };
    let said = |point: u32| {
        let Ok(sign) = function.at(point) else {
            unreachable!("the point of a verdict is in range");
        };
        let (digits, sign) = (digits(point, columns), sign_word(sign));
        format!("point {digits}, where the function is {sign}")
    };
    match judged.verdict {
        Verdict::Accept => format!("{name}: accepted, {}", size(&judged.list)),
        Verdict::Off { cube, point } => format!("{} covers {}", at(cube), said(point)),
        Verdict::Missing { point } => format!("{name}: no row covers {}", said(point)),
        Verdict::Literal { cube, column } => format!(
            "{} has a literal too many in column {}: without it no off point is covered",
            at(cube),
            column + 1
        ),
        Verdict::Cube { cube } => format!(
            "{} is a row too many: without it every on point is still covered",
            at(cube)
        ),
    }
}

/// Every row that the library read stands in a line of its text.
fn nowhere() -> Row {
    unreachable!("a row that was read has no line")
}

/// What a function says at a point, in a word.
pub fn sign_word(sign: Sign) -> &'static str {
    match sign {
        Sign::On => "on",
        Sign::Off => "off",
        Sign::DontCare => "don't care",
    }
}

/// A verdict in a word or some, for a table.
pub fn in_short(verdict: Verdict) -> &'static str {
    match verdict {
        Verdict::Accept => "accepted",
        Verdict::Off { .. } => "faulty: covers an off point",
        Verdict::Missing { .. } => "faulty: misses an on point",
        Verdict::Literal { .. } => "faulty: a literal too many",
        Verdict::Cube { .. } => "faulty: a row too many",
    }
}

/// What is said of a text that was refused, or of a list that was not made: the place, the reason
/// and its number, and below it the faulty line if there is one.
pub fn refusal(name: &str, text: &[u8], refused: Refused) -> String {
    let reason = reason(refused);
    if refused.refusal != Refusal::TextFault {
        return format!("{name}: {reason}");
    }
    let number = refused.returned;
    let said = format!("{name}:{number}: {reason}");
    match line(text, number) {
        Some(line) => format!("{said}\n    {line}"),
        None => format!("{said}\n    (the end of the text)"),
    }
}

/// A refusal with its number, and at 7 and 8 what was needed and what there is.
pub fn reason(refused: Refused) -> String {
    let short = short_reason(refused);
    match refused.refusal {
        Refusal::NodesLack => short + &records_needed(),
        Refusal::ListLacks => short + &rows_needed(refused.returned),
        _ => short,
    }
}

/// A refusal with its number.
pub fn short_reason(refused: Refused) -> String {
    let what = match refused.refusal {
        Refusal::ColumnsOver => "more than 16 columns",
        Refusal::TableOver => "table too long",
        Refusal::RecordBroken => "a record breaks its rule",
        Refusal::OutOfRange => "a number out of its range",
        Refusal::NotWithin => "on points that are off",
        Refusal::ListOver => "list slice over 16,384 rows",
        Refusal::NodesLack => "node room lacking",
        Refusal::ListLacks => "list longer than its room",
        Refusal::CubeMalformed => "malformed row",
        Refusal::TextOver => "text over 32,768 bytes",
        Refusal::TextFault => "text fault",
        Refusal::OnAndOff => "a point is both on and off",
        Refusal::TextLacks => "text room too short",
    };
    format!("{what} ({})", refused.refusal.number())
}

fn records_needed() -> String {
    let there = grouped(RECORDS);
    format!(": more than {there} records are needed, there are {there}")
}

fn rows_needed(needed: usize) -> String {
    let (needed, there) = (grouped(needed), grouped(ROOM));
    format!(": {needed} rows are needed, there is room for {there}")
}
