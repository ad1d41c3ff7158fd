//! One call of the checker on three slices or a row of records, and a list, as the proved library and
//! as the second program answer it.

use crate::call::Slices;
use crate::library::{self, Checked};
use crate::rows;
use second::checker;
use second::refusal::{COLUMNS_OVER, DONE, MOST_COLUMNS, TABLE_OVER};
use second::table::Record;
use second::verdict::Verdict;
use std::fmt;

/// Everything that the checker is given.
#[derive(Clone, PartialEq, Eq, Debug)]
pub struct Check {
    pub columns: u16,
    pub table: Slices,
    pub count: usize,
    pub lower: u16,
    pub upper: u16,
    pub list: Vec<u32>,
}

/// Everything that it gives: the number returned; the kind of the verdict, or what a refusal
/// returns; and the verdict's values.
#[derive(Clone, Copy, PartialEq, Eq, Debug)]
pub struct Judged {
    pub number: u32,
    pub kind: u64,
    pub values: [u64; 2],
}

pub const ACCEPT: u64 = 0;
pub const OFF: u64 = 1;
pub const MISSING: u64 = 2;
pub const LITERAL: u64 = 3;
pub const CUBE: u64 = 4;

impl Judged {
    /// The name of each verdict, by its kind.
    pub const VERDICTS: [&'static str; 5] = ["accept", "off", "missing", "literal", "cube"];

    /// The name of the verdict, or that there is none.
    pub fn name(&self) -> &'static str {
        match self.number {
            DONE => Judged::VERDICTS[self.kind as usize],
            _ => "refused",
        }
    }

    pub fn verdict(kind: u64, values: [u64; 2]) -> Judged {
        Judged {
            number: DONE,
            kind,
            values,
        }
    }

    pub fn refusal(number: u32, returned: u64) -> Judged {
        Judged {
            number,
            kind: returned,
            values: [0, 0],
        }
    }
}

impl From<Verdict> for Judged {
    fn from(verdict: Verdict) -> Judged {
        match verdict {
            Verdict::Accept => Judged::verdict(ACCEPT, [0, 0]),
            Verdict::Off { cube, point } => Judged::verdict(OFF, [cube as u64, u64::from(point)]),
            Verdict::Missing { point } => Judged::verdict(MISSING, [u64::from(point), 0]),
            Verdict::Literal { cube, column } => {
                Judged::verdict(LITERAL, [cube as u64, column as u64])
            }
            Verdict::Cube { cube } => Judged::verdict(CUBE, [cube as u64, 0]),
        }
    }
}

impl From<Checked> for Judged {
    fn from(checked: Checked) -> Judged {
        Judged {
            number: u32::from(checked.status),
            kind: checked.kind,
            values: checked.values,
        }
    }
}

impl fmt::Display for Check {
    fn fmt(&self, f: &mut fmt::Formatter) -> fmt::Result {
        write!(f, "check, {} columns, ", self.columns)?;
        write!(f, "roots {} and {}, ", self.lower, self.upper)?;
        let first = &self.list[..self.list.len().min(40)];
        write!(f, "{} cubes {first:?}, ", self.list.len())?;
        write!(f, "{}", self.table.in_short(self.count))
    }
}

impl Check {
    /// The answer, which is one and the same for both; and nothing that was lent has changed.
    pub fn judged(&self) -> Judged {
        let lent = self.clone();
        let proved = lent.by_library();
        assert!(lent == *self, "{self}\nlibrary: something lent has changed");
        let told = self.by_second();
        assert_eq!(proved, told, "{self}\nleft: library, right: second program");
        proved
    }

    /// Holds the same call on a row of records against its answer, if the slices are of one length;
    /// tells whether they are. Nothing that was lent has changed.
    pub fn holds_on_row(&self, told: &Judged) -> bool {
        let Some(row) = self.table.row() else {
            return false;
        };
        let lent = self.list.clone();
        let (count, lower, upper) = (self.count, self.lower, self.upper);
        let on_row = Judged::from(rows::check(self.columns, &row, count, lower, upper, &lent));
        let kept = lent == self.list && Slices::of_row(&row) == self.table;
        assert!(kept, "{self}\non a row: something lent has changed");
        assert_eq!(on_row, *told, "{self}\nleft: library, on a row");
        true
    }

    /// The answer of the proved library.
    pub fn by_library(&self) -> Judged {
        let checked = library::check(
            self.columns,
            &self.table.level,
            &self.table.low,
            &self.table.high,
            self.count,
            self.lower,
            self.upper,
            &self.list,
        );
        checked.into()
    }

    /// The answer of the second program.
    pub fn by_second(&self) -> Judged {
        match self.table.records() {
            Some(records) => self.by_second_on(&records),
            None => self.lengths_differ(),
        }
    }

    fn by_second_on(&self, records: &[Record]) -> Judged {
        let checked = checker::check(
            usize::from(self.columns),
            records,
            self.count,
            usize::from(self.lower),
            usize::from(self.upper),
            &self.list,
        );
        match checked.verdict {
            Some(verdict) => verdict.into(),
            None => Judged::refusal(checked.number, checked.value as u64),
        }
    }

    /// Slices of different length are a table over its length, and only too many columns come first.
    fn lengths_differ(&self) -> Judged {
        let over = usize::from(self.columns) > MOST_COLUMNS;
        Judged::refusal(if over { COLUMNS_OVER } else { TABLE_OVER }, 0)
    }
}
