//! A node table that owns its records.

use crate::answer::{Refused, Verdict};
use crate::numbers::{self, Built};

/// A node table for some columns: its records, and how many of them are in use.
#[derive(Clone, PartialEq, Eq, Debug)]
pub struct Table {
    columns: u16,
    pub(crate) level: Vec<u16>,
    pub(crate) low: Vec<u16>,
    pub(crate) high: Vec<u16>,
    count: usize,
}

impl Table {
    /// A table of so many records, none of them in use.
    pub fn new(columns: u16, records: usize) -> Table {
        Table {
            columns,
            level: vec![0; records],
            low: vec![0; records],
            high: vec![0; records],
            count: 0,
        }
    }

    /// What a reading left in the records of a table.
    pub(crate) fn holding(self, columns: u16, count: usize) -> Table {
        Table {
            columns,
            count,
            ..self
        }
    }

    pub fn columns(&self) -> u16 {
        self.columns
    }

    /// The number of records in use.
    pub fn count(&self) -> usize {
        self.count
    }

    /// The root of the function that is 1 where both roots are.
    pub fn and(&mut self, a: u16, b: u16) -> Result<u16, Refused> {
        let Table {
            level, low, high, ..
        } = self;
        let built = numbers::and(self.columns, level, low, high, self.count, a, b);
        self.take(built)
    }

    /// The root of the function that is 1 where either root is.
    pub fn or(&mut self, a: u16, b: u16) -> Result<u16, Refused> {
        let Table {
            level, low, high, ..
        } = self;
        let built = numbers::or(self.columns, level, low, high, self.count, a, b);
        self.take(built)
    }

    /// The root of the function that is 1 where the first root is and the second is not.
    pub fn difference(&mut self, a: u16, b: u16) -> Result<u16, Refused> {
        let Table {
            level, low, high, ..
        } = self;
        let built = numbers::difference(self.columns, level, low, high, self.count, a, b);
        self.take(built)
    }

    /// The root of the function that is 1 where a column is 1.
    pub fn variable(&mut self, column: u16) -> Result<u16, Refused> {
        let Table {
            level, low, high, ..
        } = self;
        let built = numbers::variable(self.columns, level, low, high, self.count, column);
        self.take(built)
    }

    /// The root of what was built; the count is the one told.
    fn take(&mut self, built: Built) -> Result<u16, Refused> {
        self.count = built.count as usize;
        Refused::unless_done(built.status, 0)?;
        Ok(built.root as u16)
    }

    /// The value of a root at a point.
    pub fn value(&self, root: u16, point: u32) -> Result<bool, Refused> {
        let Table {
            level, low, high, ..
        } = self;
        let valued = numbers::value(self.columns, level, low, high, self.count, root, point);
        Refused::unless_done(valued.status, 0)?;
        Ok(valued.value == 1)
    }

    /// The list of the rule for a lower and an upper root, in a room of so many cubes.
    pub fn generate(&mut self, lower: u16, upper: u16, room: usize) -> Result<Vec<u32>, Refused> {
        let mut list = vec![0; room];
        let Table {
            level, low, high, ..
        } = self;
        let (columns, count) = (self.columns, self.count);
        let told = numbers::generate(columns, level, low, high, count, lower, upper, &mut list);
        list.truncate(told.length()?);
        Ok(list)
    }

    /// The verdict on any list for a lower and an upper root.
    pub fn check(&self, lower: u16, upper: u16, list: &[u32]) -> Result<Verdict, Refused> {
        let Table {
            level, low, high, ..
        } = self;
        let (columns, count) = (self.columns, self.count);
        numbers::check(columns, level, low, high, count, lower, upper, list).verdict()
    }
}
