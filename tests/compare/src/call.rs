//! One call of an operation on three slices and on a row of records, as the proved library and as the
//! second program answer it.

use crate::library;
use crate::random::Random;
use crate::rows::{self, Node};
use second::cube::with_literal;
use second::function::Function;
use second::operation;
use second::refusal::{COLUMNS_OVER, MOST_COLUMNS, TABLE_OVER};
use second::table::{Record, Table};
use std::fmt;

/// A table in three slices.
#[derive(Clone, PartialEq, Eq, Default, Debug)]
pub struct Slices {
    pub level: Vec<u16>,
    pub low: Vec<u16>,
    pub high: Vec<u16>,
}

impl Slices {
    pub fn of(records: &[Record]) -> Slices {
        Slices {
            level: records.iter().map(|record| record.level).collect(),
            low: records.iter().map(|record| record.low).collect(),
            high: records.iter().map(|record| record.high).collect(),
        }
    }

    /// The records, if the slices are of one length.
    pub fn records(&self) -> Option<Vec<Record>> {
        let length = self.level.len();
        let one_length = self.low.len() == length && self.high.len() == length;
        let record = |i: usize| Record::new(self.level[i], self.low[i], self.high[i]);
        one_length.then(|| (0..length).map(record).collect())
    }

    /// The row of the records, if the slices are of one length.
    pub fn row(&self) -> Option<Vec<Node>> {
        let node = |record: &Record| Node {
            level: record.level,
            low: record.low,
            high: record.high,
        };
        Some(self.records()?.iter().map(node).collect())
    }

    /// The slices of a row.
    pub fn of_row(row: &[Node]) -> Slices {
        Slices {
            level: row.iter().map(|node| node.level).collect(),
            low: row.iter().map(|node| node.low).collect(),
            high: row.iter().map(|node| node.high).collect(),
        }
    }

    /// The lengths and the records in use, no more than forty of them.
    pub fn in_short(&self, count: usize) -> String {
        let Slices { level, low, high } = self;
        let lengths = (level.len(), low.len(), high.len());
        let mut short = format!("{count} in use of {lengths:?}:");
        let records = level.iter().zip(low).zip(high);
        for ((level, low), high) in records.take(count.min(40)) {
            short += &format!(" {level} {low} {high},");
        }
        short
    }

    /// Where each slice first differs from another.
    pub fn first_difference(&self, other: &Slices) -> String {
        let of = |a: &[u16], b: &[u16]| a.iter().zip(b).position(|(a, b)| a != b);
        format!(
            "first difference: level {:?}, low {:?}, high {:?}",
            of(&self.level, &other.level),
            of(&self.low, &other.low),
            of(&self.high, &other.high)
        )
    }
}

/// What is asked.
#[derive(Clone, Copy, PartialEq, Eq, Debug)]
pub enum Asked {
    And(u16, u16),
    Or(u16, u16),
    Difference(u16, u16),
    Variable(u16),
    Value(u16, u32),
}

impl Asked {
    pub const NAMES: [&'static str; 5] = ["and", "or", "difference", "variable", "value"];
    pub const OF_TWO_ROOTS: [&'static str; 3] = ["and", "or", "difference"];
    pub const BUILDING: [&'static str; 4] = ["and", "or", "difference", "variable"];

    pub fn name(self) -> &'static str {
        match self {
            Asked::And(..) => "and",
            Asked::Or(..) => "or",
            Asked::Difference(..) => "difference",
            Asked::Variable(..) => "variable",
            Asked::Value(..) => "value",
        }
    }

    /// An operation by its place in `NAMES`, with random operands that are in range: only the
    /// variable of a table without columns has none.
    pub fn in_range(random: &mut Random, place: usize, columns: usize, count: usize) -> Asked {
        let mut number = || random.below(count + 2) as u16;
        match place {
            0 => Asked::And(number(), number()),
            1 => Asked::Or(number(), number()),
            2 => Asked::Difference(number(), number()),
            3 => Asked::Variable(random.below(columns) as u16),
            _ => Asked::Value(number(), random.below(1 << columns) as u32),
        }
    }

    /// A random operation in range.
    pub fn random(random: &mut Random, columns: usize, count: usize) -> Asked {
        let places: &[usize] = if columns == 0 {
            &[0, 1, 2, 4]
        } else {
            &[0, 1, 2, 3, 4]
        };
        let place = random.pick(places);
        Asked::in_range(random, place, columns, count)
    }

    /// The records that an operation in range needs: those in use and the missing nodes of its
    /// result.
    pub fn need(self, columns: usize, in_use: &[Record]) -> usize {
        let mut table = Table::of(columns, in_use);
        let of = |number: u16| table.function(usize::from(number));
        let result = match self {
            Asked::And(a, b) => of(a).and(&of(b)),
            Asked::Or(a, b) => of(a).or(&of(b)),
            Asked::Difference(a, b) => of(a).less(&of(b)),
            Asked::Variable(k) => {
                Function::from_cube(columns, with_literal(0, usize::from(k), true))
            }
            Asked::Value(..) => return in_use.len(),
        };
        table.add(&result, usize::MAX);
        table.count()
    }
}

/// Everything that an operation is given.
#[derive(Clone, PartialEq, Eq, Debug)]
pub struct Call {
    pub columns: u16,
    pub table: Slices,
    pub count: usize,
    pub asked: Asked,
}

/// Everything that it gives: the number returned, the other numbers of its answer (root and count,
/// or the value), and the three slices afterwards.
#[derive(Clone, PartialEq, Eq, Debug)]
pub struct Outcome {
    pub number: u32,
    pub others: Vec<u64>,
    pub table: Slices,
}

impl Outcome {
    fn numbers(&self) -> String {
        format!("{}, {:?}", self.number, self.others)
    }
}

impl fmt::Display for Call {
    fn fmt(&self, f: &mut fmt::Formatter) -> fmt::Result {
        write!(f, "{:?}, {} columns, ", self.asked, self.columns)?;
        write!(f, "{}", self.table.in_short(self.count))
    }
}

impl Call {
    /// The outcome, which is one and the same for both.
    pub fn outcome(&self) -> Outcome {
        let told = self.by_second();
        self.assert_told("library", &self.by_library(), &told);
        told
    }

    /// Holds the same call on a row of records against its outcome, if the slices are of one length;
    /// tells whether they are.
    pub fn holds_on_row(&self, told: &Outcome) -> bool {
        let Some(row) = self.table.row() else {
            return false;
        };
        self.assert_told("library, on a row", &self.by_row(row), told);
        true
    }

    fn assert_told(&self, whose: &str, proved: &Outcome, told: &Outcome) {
        if proved != told {
            panic!(
                "{self}\n{whose}: {}\nsecond program: {}\n{}",
                proved.numbers(),
                told.numbers(),
                proved.table.first_difference(&told.table)
            );
        }
    }

    fn by_library(&self) -> Outcome {
        let (columns, count) = (self.columns, self.count);
        let mut table = self.table.clone();
        let (level, low, high) = (&mut table.level, &mut table.low, &mut table.high);
        let built = match self.asked {
            Asked::And(a, b) => library::and(columns, level, low, high, count, a, b),
            Asked::Or(a, b) => library::or(columns, level, low, high, count, a, b),
            Asked::Difference(a, b) => library::difference(columns, level, low, high, count, a, b),
            Asked::Variable(column) => library::variable(columns, level, low, high, count, column),
            Asked::Value(root, point) => {
                let valued = library::value(columns, level, low, high, count, root, point);
                return Outcome {
                    number: u32::from(valued.status),
                    others: vec![valued.value],
                    table,
                };
            }
        };
        Outcome {
            number: u32::from(built.status),
            others: vec![built.root, built.count],
            table,
        }
    }

    fn by_row(&self, mut row: Vec<Node>) -> Outcome {
        let (columns, count) = (self.columns, self.count);
        let built = match self.asked {
            Asked::And(a, b) => rows::and(columns, &mut row, count, a, b),
            Asked::Or(a, b) => rows::or(columns, &mut row, count, a, b),
            Asked::Difference(a, b) => rows::difference(columns, &mut row, count, a, b),
            Asked::Variable(column) => rows::variable(columns, &mut row, count, column),
            Asked::Value(root, point) => {
                let valued = rows::value(columns, &row, count, root, point);
                return Outcome {
                    number: u32::from(valued.status),
                    others: vec![valued.value],
                    table: Slices::of_row(&row),
                };
            }
        };
        Outcome {
            number: u32::from(built.status),
            others: vec![built.root, built.count],
            table: Slices::of_row(&row),
        }
    }

    fn by_second(&self) -> Outcome {
        match self.table.records() {
            Some(records) => self.by_second_on(records),
            None => self.lengths_differ(),
        }
    }

    fn by_second_on(&self, mut records: Vec<Record>) -> Outcome {
        let (columns, count) = (usize::from(self.columns), self.count);
        let number = usize::from;
        let lent = &mut records;
        let built = match self.asked {
            Asked::And(a, b) => operation::and(columns, lent, count, number(a), number(b)),
            Asked::Or(a, b) => operation::or(columns, lent, count, number(a), number(b)),
            Asked::Difference(a, b) => {
                operation::difference(columns, lent, count, number(a), number(b))
            }
            Asked::Variable(column) => operation::variable(columns, lent, count, number(column)),
            Asked::Value(root, point) => {
                let at_point = operation::value(columns, lent, count, number(root), point);
                assert_eq!(at_point.value, 0);
                return Outcome {
                    number: at_point.number,
                    others: vec![u64::from(at_point.result)],
                    table: Slices::of(&records),
                };
            }
        };
        assert_eq!(built.value, 0);
        Outcome {
            number: built.number,
            others: vec![built.root as u64, built.count as u64],
            table: Slices::of(&records),
        }
    }

    /// Slices of different length are a table over its length: nothing changes, and only too many
    /// columns come first.
    fn lengths_differ(&self) -> Outcome {
        let over = usize::from(self.columns) > MOST_COLUMNS;
        Outcome {
            number: if over { COLUMNS_OVER } else { TABLE_OVER },
            others: match self.asked {
                Asked::Value(..) => vec![0],
                _ => vec![0, self.count as u64],
            },
            table: self.table.clone(),
        }
    }
}
