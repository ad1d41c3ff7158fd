//! One call of an entry that reads or writes a text, as the proved library and as the second program
//! answer it.

use crate::call::Slices;
use crate::library::{self, Delivered, FunctionRead};
use crate::rows;
use second::candidate::read_candidate;
use second::reading::read_function;
use second::refusal::{MOST_BYTES, TABLE_OVER, TEXT_OVER};
use second::writing::write_list;
use std::fmt;

/// A call that both programs answer.
pub trait Entry: fmt::Display {
    /// The name of the entry.
    const NAME: &'static str;
    /// What is lent to be written into.
    type Lent: PartialEq + fmt::Debug;

    fn by_library(&self) -> Given<Self::Lent>;
    fn by_second(&self) -> Given<Self::Lent>;

    /// What the proved library gives on a row of records, if the entry is lent one.
    fn by_row(&self) -> Option<Given<Self::Lent>> {
        None
    }

    /// What is given, which is one and the same by both.
    fn given(&self) -> Given<Self::Lent> {
        let told = self.by_second();
        self.assert_told("library", &self.by_library(), &told);
        told
    }

    /// Holds the same call on a row of records against what is given, if the entry is lent a table and
    /// its slices are of one length; tells whether that is so.
    fn holds_on_row(&self, told: &Given<Self::Lent>) -> bool {
        let Some(on_row) = self.by_row() else {
            return false;
        };
        self.assert_told("library, on a row", &on_row, told);
        true
    }

    fn assert_told(&self, whose: &str, proved: &Given<Self::Lent>, told: &Given<Self::Lent>) {
        if proved != told {
            let (proved, told) = (proved.in_short(), told.in_short());
            panic!("{self}\n{whose}: {proved}\nsecond program: {told}");
        }
    }
}

/// Everything that such an entry gives: the number returned, what it returns with it, the other
/// numbers of its answer, and what was lent, afterwards.
#[derive(Clone, PartialEq, Eq, Debug)]
pub struct Given<Lent> {
    pub number: u32,
    pub returned: u64,
    pub others: Vec<u64>,
    pub lent: Lent,
}

impl<Lent: fmt::Debug> Given<Lent> {
    /// The numbers, and no more than the first of what was lent.
    fn in_short(&self) -> String {
        format!("{self:?}").chars().take(600).collect()
    }

    /// The number, what it returns, and the other numbers.
    pub fn numbers(&self) -> (u32, u64, &[u64]) {
        (self.number, self.returned, &self.others)
    }
}

/// What the library gives of a list or a text in a room.
fn of_library<Lent>(told: Delivered, lent: Lent) -> Given<Lent> {
    Given {
        number: u32::from(told.status),
        returned: told.returned,
        others: vec![told.length],
        lent,
    }
}

/// What the library gives of a function text in a table.
fn of_reading(told: FunctionRead, table: Slices) -> Given<Slices> {
    Given {
        number: u32::from(told.status),
        returned: told.returned,
        others: vec![told.columns, told.count, told.lower, told.upper],
        lent: table,
    }
}

/// And what the second program gives of a list or a text in a room.
fn of_second<Lent>(number: u32, returned: usize, length: usize, lent: Lent) -> Given<Lent> {
    Given {
        number,
        returned: returned as u64,
        others: vec![length as u64],
        lent,
    }
}

/// The start of a text or a list, in signs that can be read.
fn shown(text: &[u8]) -> String {
    let start = &text[..text.len().min(400)];
    format!("{} bytes \"{}\"", text.len(), start.escape_ascii())
}

/// Everything that the reading of a candidate is given.
pub struct Candidate<'a> {
    pub columns: u16,
    pub text: &'a [u8],
    pub room: Vec<u32>,
}

impl fmt::Display for Candidate<'_> {
    fn fmt(&self, f: &mut fmt::Formatter) -> fmt::Result {
        let Candidate {
            columns,
            text,
            room,
        } = self;
        let (text, room) = (shown(text), room.len());
        write!(
            f,
            "candidate for {columns} columns, a room of {room}, {text}"
        )
    }
}

impl Entry for Candidate<'_> {
    const NAME: &'static str = "candidate";
    type Lent = Vec<u32>;

    fn by_library(&self) -> Given<Vec<u32>> {
        let mut room = self.room.clone();
        let text = self.text.to_vec();
        let told = library::read_candidate(self.columns, &text, &mut room);
        assert!(text == self.text, "{self}\nlibrary: the text has changed");
        of_library(told, room)
    }

    fn by_second(&self) -> Given<Vec<u32>> {
        let mut room = self.room.clone();
        let told = read_candidate(self.text, usize::from(self.columns), &mut room);
        of_second(told.number, told.value, told.length, room)
    }
}

/// Everything that the reading of a function text is given.
pub struct FunctionText<'a> {
    pub text: &'a [u8],
    pub table: Slices,
}

impl fmt::Display for FunctionText<'_> {
    fn fmt(&self, f: &mut fmt::Formatter) -> fmt::Result {
        let (text, table) = (shown(self.text), self.table.in_short(0));
        write!(f, "function text, {table} {text}")
    }
}

impl Entry for FunctionText<'_> {
    const NAME: &'static str = "function text";
    type Lent = Slices;

    fn by_library(&self) -> Given<Slices> {
        let mut table = self.table.clone();
        let text = self.text.to_vec();
        let (level, low, high) = (&mut table.level, &mut table.low, &mut table.high);
        let told = library::read_function(&text, level, low, high);
        assert!(text == self.text, "{self}\nlibrary: the text has changed");
        of_reading(told, table)
    }

    fn by_row(&self) -> Option<Given<Slices>> {
        let mut row = self.table.row()?;
        let text = self.text.to_vec();
        let told = rows::read_function(&text, &mut row);
        assert!(
            text == self.text,
            "{self}\nlibrary, on a row: the text has changed"
        );
        Some(of_reading(told, Slices::of_row(&row)))
    }

    fn by_second(&self) -> Given<Slices> {
        let Some(mut records) = self.table.records() else {
            return self.lengths_differ();
        };
        let told = read_function(self.text, &mut records);
        let others = [told.columns, told.count, told.lower, told.upper];
        Given {
            number: told.number,
            returned: told.value as u64,
            others: others.map(|number| number as u64).to_vec(),
            lent: Slices::of(&records),
        }
    }
}

impl FunctionText<'_> {
    /// Slices of different length are a table over its length: nothing changes, and only a text over
    /// its length comes first.
    fn lengths_differ(&self) -> Given<Slices> {
        let over = self.text.len() > MOST_BYTES;
        Given {
            number: if over { TEXT_OVER } else { TABLE_OVER },
            returned: 0,
            others: vec![0; 4],
            lent: self.table.clone(),
        }
    }
}

/// Everything that the writing of a list is given.
pub struct Writing<'a> {
    pub columns: u16,
    pub list: &'a [u32],
    pub room: Vec<u8>,
}

impl fmt::Display for Writing<'_> {
    fn fmt(&self, f: &mut fmt::Formatter) -> fmt::Result {
        let Writing {
            columns,
            list,
            room,
        } = self;
        let first = &list[..list.len().min(40)];
        let (cubes, bytes) = (list.len(), room.len());
        write!(f, "writing, {columns} columns, a room of {bytes}, ")?;
        write!(f, "{cubes} cubes {first:?}")
    }
}

impl Entry for Writing<'_> {
    const NAME: &'static str = "writing";
    type Lent = Vec<u8>;

    fn by_library(&self) -> Given<Vec<u8>> {
        let mut room = self.room.clone();
        let list = self.list.to_vec();
        let told = library::write_list(self.columns, &list, &mut room);
        assert!(list == self.list, "{self}\nlibrary: the list has changed");
        of_library(told, room)
    }

    fn by_second(&self) -> Given<Vec<u8>> {
        let mut room = self.room.clone();
        let told = write_list(usize::from(self.columns), self.list, &mut room);
        of_second(told.number, told.value, told.length, room)
    }
}
