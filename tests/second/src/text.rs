//! What a whole text means: its columns, its type and its rows, or the line of its first fault.
//! A candidate is the same form with fewer choices.

use crate::line::{lines, meaning, Line, Row, Type};

/// A text without fault.
#[derive(Clone, PartialEq, Eq, Debug)]
pub struct Text {
    pub columns: usize,
    pub kind: Type,
    pub rows: Vec<Row>,
}

/// What the text is asked to be: any function, or a candidate for so many columns.
#[derive(Clone, Copy, PartialEq, Eq, Debug)]
pub enum Asked {
    Function,
    Candidate { columns: usize },
}

/// The meaning of a text, or the line of its first fault. What is known only at the end carries
/// the `.e` line, or one past the last line.
pub fn read(text: &[u8], asked: Asked) -> Result<Text, usize> {
    let mut taken = Taken::new(asked);
    let mut number = 1;
    for line in lines(text) {
        match meaning(line) {
            Line::End => break,
            line if !taken.take(line) => return Err(number),
            _ => number += 1,
        }
    }
    taken.end().ok_or(number)
}

/// What the lines so far have said.
struct Taken {
    asked: Asked,
    columns: Option<usize>,
    outputs: bool,
    kind: Option<Type>,
    stated_rows: Option<usize>,
    rows: Vec<Row>,
}

impl Taken {
    fn new(asked: Asked) -> Taken {
        Taken {
            asked,
            columns: None,
            outputs: false,
            kind: None,
            stated_rows: None,
            rows: Vec::new(),
        }
    }

    /// Takes a line in and says whether it was in order. `.e` is not asked here.
    fn take(&mut self, line: Line) -> bool {
        match line {
            Line::Empty => true,
            Line::Row(row) => self.take_row(row),
            Line::End | Line::Fault => false,
            directive => self.rows.is_empty() && self.take_directive(directive),
        }
    }

    /// A directive given again is out of order.
    fn take_directive(&mut self, directive: Line) -> bool {
        match directive {
            Line::Inputs(n) => self.allows_columns(n) && self.columns.replace(n).is_none(),
            Line::Outputs => !std::mem::replace(&mut self.outputs, true),
            Line::Type(kind) => self.allows_type(kind) && self.kind.replace(kind).is_none(),
            Line::Rows(n) => self.stated_rows.replace(n).is_none(),
            _ => false,
        }
    }

    fn take_row(&mut self, row: Row) -> bool {
        let fits = self.outputs && self.columns == Some(row.signs) && self.allows_output(row);
        if fits {
            self.rows.push(row);
        }
        fits
    }

    fn allows_columns(&self, n: usize) -> bool {
        match self.asked {
            Asked::Function => true,
            Asked::Candidate { columns } => n == columns,
        }
    }

    fn allows_type(&self, kind: Type) -> bool {
        self.asked == Asked::Function || kind != Type::Fr
    }

    fn allows_output(&self, row: Row) -> bool {
        self.asked == Asked::Function || row.output == b'1'
    }

    /// The text, unless a directive is missing or `.p` is wrong.
    fn end(self) -> Option<Text> {
        let columns = self.columns.filter(|_| self.outputs)?;
        let right = self.stated_rows.is_none_or(|n| n == self.rows.len());
        right.then_some(Text {
            columns,
            kind: self.kind.unwrap_or(Type::Fd),
            rows: self.rows,
        })
    }
}
