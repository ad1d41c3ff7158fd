//! Where the rows of a list stand in its text. Which line is a row, the library is asked.

use dowrhesk::read_candidate;

/// A row as it stands in the text, without comment and outer blanks, and its line from 1.
#[derive(Clone, PartialEq, Eq, Debug)]
pub struct Row {
    pub line: usize,
    pub text: String,
}

/// The rows of a text that was read as a list of so many rows, in order.
pub fn rows(text: &[u8], columns: u16, count: usize) -> Vec<Row> {
    let lines = text.split(|&byte| byte == b'\n').zip(1..);
    let rows = lines.filter(|(line, _)| is_row(line, columns));
    let row = |(line, number): (&[u8], usize)| Row {
        line: number,
        text: bare(line),
    };
    rows.map(row).take(count).collect()
}

/// Whether a line after the two directives alone makes a list of one row.
fn is_row(line: &[u8], columns: u16) -> bool {
    let directives = format!(".i {columns}\n.o 1\n");
    let alone = [directives.as_bytes(), line].concat();
    read_candidate(columns, &alone, 1).is_ok_and(|list| list.len() == 1)
}

/// A line without its comment and its outer blanks, as a person reads it.
fn bare(line: &[u8]) -> String {
    let bytes = line.split(|&byte| byte == b'#').next().unwrap_or_default();
    let text = String::from_utf8_lossy(bytes);
    text.trim_matches([' ', '\t']).replace('\t', " ")
}

/// A line of a text by its number from 1, to be shown: what cannot be shown is escaped, and what is
/// long is cut. A number past the last line has none.
pub fn line(text: &[u8], number: usize) -> Option<String> {
    let mut lines = text.split_inclusive(|&byte| byte == b'\n');
    let line = lines.nth(number.checked_sub(1)?)?;
    let line = line.strip_suffix(b"\n").unwrap_or(line);
    let shown = line[..line.len().min(LONGEST)].escape_ascii().to_string();
    Some(if line.len() > LONGEST {
        shown + " ..."
    } else {
        shown
    })
}

const LONGEST: usize = 60;
