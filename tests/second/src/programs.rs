//! The two programs of document 01, each from its input bytes to its output bytes.
//! Every line that they write ends in byte 10.

use crate::candidate::read_candidate;
use crate::checker::check;
use crate::generator::generate;
use crate::line::{lines, meaning, Line};
use crate::point::digits;
use crate::reading::{read_function, FunctionText};
use crate::refusal::{Refusal, DONE, MOST_BYTES, MOST_COLUMNS, MOST_RECORDS, TEXT_OVER};
use crate::table::Record;
use crate::verdict::Verdict;
use crate::writing::{text_of, write_list};

/// The list room of both programs.
pub const LIST_ROOM: usize = 1_536;

/// The first program: from a function text to its list.
pub fn list_program(input: &[u8]) -> Vec<u8> {
    list_text(input).unwrap_or_else(refused)
}

/// The second program: from a function text and a candidate to a verdict.
pub fn check_program(input: &[u8]) -> Vec<u8> {
    verdict_line(input).unwrap_or_else(refused)
}

fn list_text(input: &[u8]) -> Result<Vec<u8>, Refusal> {
    judge_input(input)?;
    let mut records = vec![Record::default(); MOST_RECORDS];
    let function = function_of(input, &mut records)?;
    let (columns, count) = (function.columns, function.count);
    let mut list = vec![0; LIST_ROOM];
    let (lower, upper) = (function.lower, function.upper);
    let made = generate(columns, &mut records, count, lower, upper, &mut list);
    done(made.number, made.value)?;
    let mut room = vec![0; text_room()];
    let written = write_list(columns, &list[..made.length], &mut room);
    done(written.number, written.value)?;
    room.truncate(written.length);
    Ok(room)
}

fn verdict_line(input: &[u8]) -> Result<Vec<u8>, Refusal> {
    judge_input(input)?;
    let (text, candidate) = split(input);
    let mut records = vec![Record::default(); MOST_RECORDS];
    let function = function_of(text, &mut records)?;
    let (columns, count) = (function.columns, function.count);
    let mut list = vec![0; LIST_ROOM];
    let read = read_candidate(candidate, columns, &mut list);
    done(read.number, read.value)?;
    let (lower, upper) = (function.lower, function.upper);
    let list = &list[..read.length];
    let checked = check(columns, &records, count, lower, upper, list);
    done(checked.number, checked.value)?;
    let said = checked.verdict.map(|verdict| said(verdict, columns));
    Ok(said.unwrap_or_default().into_bytes())
}

/// Refusal 10 for the input in all.
fn judge_input(input: &[u8]) -> Result<(), Refusal> {
    if input.len() > MOST_BYTES {
        return Err(Refusal::plain(TEXT_OVER));
    }
    Ok(())
}

fn function_of(text: &[u8], records: &mut [Record]) -> Result<FunctionText, Refusal> {
    let function = read_function(text, records);
    done(function.number, function.value)?;
    Ok(function)
}

/// The function text, which ends with its first `.e` line, and the candidate after it.
pub fn split(input: &[u8]) -> (&[u8], &[u8]) {
    let mut end = 0;
    for line in lines(input) {
        end += line.len();
        if meaning(line) == Line::End {
            break;
        }
    }
    input.split_at(end)
}

/// A text room that any list in the list room fits: rows of the most columns are the longest.
fn text_room() -> usize {
    text_of(MOST_COLUMNS, &[0; LIST_ROOM]).len()
}

fn done(number: u32, value: usize) -> Result<(), Refusal> {
    if number == DONE {
        Ok(())
    } else {
        Err(Refusal { number, value })
    }
}

fn refused(refusal: Refusal) -> Vec<u8> {
    format!("refused {} {}\n", refusal.number, refusal.value).into_bytes()
}

/// The line for a verdict: cubes and columns from 1, points as column digits.
fn said(verdict: Verdict, columns: usize) -> String {
    match verdict {
        Verdict::Accept => "accept\n".to_string(),
        Verdict::Off { cube, point } => format!("off {cube} {}\n", digits(point, columns)),
        Verdict::Missing { point } => format!("missing {}\n", digits(point, columns)),
        Verdict::Literal { cube, column } => format!("literal {cube} {}\n", column + 1),
        Verdict::Cube { cube } => format!("cube {cube}\n"),
    }
}
