//! One call of the generator on three slices or a row of records, and a list room, as the proved
//! library and as the second program answer it.

use crate::call::Slices;
use crate::library::{self, Delivered};
use crate::rows::{self, Node};
use second::generator;
use second::refusal::{COLUMNS_OVER, MOST_COLUMNS, TABLE_OVER};
use second::table::Record;
use std::fmt;

/// Everything that the generator is given.
#[derive(Clone, PartialEq, Eq, Debug)]
pub struct Generation {
    pub columns: u16,
    pub table: Slices,
    pub count: usize,
    pub lower: u16,
    pub upper: u16,
    pub room: Vec<u32>,
}

/// Everything that it gives: the number returned, what it returns with it, the length of the list,
/// and the three slices and the list room afterwards.
#[derive(Clone, PartialEq, Eq, Debug)]
pub struct Listed {
    pub number: u32,
    pub returned: u64,
    pub length: u64,
    pub table: Slices,
    pub room: Vec<u32>,
}

impl Listed {
    pub fn numbers(&self) -> (u32, u64, u64) {
        (self.number, self.returned, self.length)
    }
}

impl fmt::Display for Generation {
    fn fmt(&self, f: &mut fmt::Formatter) -> fmt::Result {
        write!(f, "generate, {} columns, ", self.columns)?;
        write!(f, "roots {} and {}, ", self.lower, self.upper)?;
        write!(f, "a room of {}, ", self.room.len())?;
        write!(f, "{}", self.table.in_short(self.count))
    }
}

fn of_library(generated: Delivered, table: Slices, room: Vec<u32>) -> Listed {
    Listed {
        number: u32::from(generated.status),
        returned: generated.returned,
        length: generated.length,
        table,
        room,
    }
}

impl Generation {
    /// The outcome, which is one and the same for both.
    pub fn listed(&self) -> Listed {
        let told = self.by_second();
        self.assert_told("library", &self.by_library(), &told);
        told
    }

    /// Holds the same call on a row of records against its outcome, if the slices are of one length;
    /// tells whether they are.
    pub fn holds_on_row(&self, told: &Listed) -> bool {
        let Some(row) = self.table.row() else {
            return false;
        };
        self.assert_told("library, on a row", &self.by_row(row), told);
        true
    }

    fn assert_told(&self, whose: &str, proved: &Listed, told: &Listed) {
        if proved != told {
            let pairs = proved.room.iter().zip(&told.room);
            panic!(
                "{self}\n{whose}: {:?}\nsecond program: {:?}\n{}, room {:?}",
                proved.numbers(),
                told.numbers(),
                proved.table.first_difference(&told.table),
                pairs.clone().position(|(a, b)| a != b)
            );
        }
    }

    pub fn by_library(&self) -> Listed {
        let mut table = self.table.clone();
        let mut room = self.room.clone();
        let generated = library::generate(
            self.columns,
            &mut table.level,
            &mut table.low,
            &mut table.high,
            self.count,
            self.lower,
            self.upper,
            &mut room,
        );
        of_library(generated, table, room)
    }

    fn by_row(&self, mut row: Vec<Node>) -> Listed {
        let mut room = self.room.clone();
        let (count, lower, upper) = (self.count, self.lower, self.upper);
        let generated = rows::generate(self.columns, &mut row, count, lower, upper, &mut room);
        of_library(generated, Slices::of_row(&row), room)
    }

    pub fn by_second(&self) -> Listed {
        match self.table.records() {
            Some(records) => self.by_second_on(records),
            None => self.lengths_differ(),
        }
    }

    fn by_second_on(&self, mut records: Vec<Record>) -> Listed {
        let mut room = self.room.clone();
        let generated = generator::generate(
            usize::from(self.columns),
            &mut records,
            self.count,
            usize::from(self.lower),
            usize::from(self.upper),
            &mut room,
        );
        Listed {
            number: generated.number,
            returned: generated.value as u64,
            length: generated.length as u64,
            table: Slices::of(&records),
            room,
        }
    }

    /// Slices of different length are a table over its length: nothing changes, and only too many
    /// columns come first.
    fn lengths_differ(&self) -> Listed {
        let over = usize::from(self.columns) > MOST_COLUMNS;
        Listed {
            number: if over { COLUMNS_OVER } else { TABLE_OVER },
            returned: 0,
            length: 0,
            table: self.table.clone(),
            room: self.room.clone(),
        }
    }
}
