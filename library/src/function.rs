//! A function text read into a table: its list, its verdicts, its points.

use crate::answer::{Refused, Verdict};
use crate::numbers;
use crate::table::Table;

/// What a function says at a point.
#[derive(Clone, Copy, PartialEq, Eq, Debug)]
pub enum Sign {
    On,
    Off,
    DontCare,
}

/// A function with don't cares: a table, L and U.
#[derive(Clone, PartialEq, Eq, Debug)]
pub struct Function {
    table: Table,
    lower: u16,
    upper: u16,
}

impl Function {
    /// The function of a text, in a table of so many records.
    pub fn read(text: &[u8], records: usize) -> Result<Function, Refused> {
        let mut table = Table::new(0, records);
        let Table {
            level, low, high, ..
        } = &mut table;
        let told = numbers::read_function(text, level, low, high);
        Refused::unless_done(told.status, told.returned)?;
        Ok(Function {
            table: table.holding(told.columns as u16, told.count as usize),
            lower: told.lower as u16,
            upper: told.upper as u16,
        })
    }

    pub fn columns(&self) -> u16 {
        self.table.columns()
    }

    /// The number of records that the text's reading uses.
    pub fn records(&self) -> usize {
        self.table.count()
    }

    /// The list of the rule, in a room of so many cubes.
    pub fn list(&mut self, room: usize) -> Result<Vec<u32>, Refused> {
        self.table.generate(self.lower, self.upper, room)
    }

    /// The verdict on any list.
    pub fn check(&self, list: &[u32]) -> Result<Verdict, Refused> {
        self.table.check(self.lower, self.upper, list)
    }

    /// What the function says at a point: on where L is 1, off where U is 0.
    pub fn at(&self, point: u32) -> Result<Sign, Refused> {
        let on = self.table.value(self.lower, point)?;
        let may = self.table.value(self.upper, point)?;
        Ok(match (on, may) {
            (true, _) => Sign::On,
            (false, true) => Sign::DontCare,
            (false, false) => Sign::Off,
        })
    }
}
