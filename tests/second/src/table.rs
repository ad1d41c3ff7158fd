//! The node table as document 01 lends it: records of level, low and high, with a count of those
//! in use. Here is the rule of a record, and the way between records and functions. Nodes that a
//! function lacks are added low half first, then high half, then the function itself.

use crate::function::Function;
use crate::nodes::Nodes;
use crate::refusal::{refuse_if, Refusal};
use crate::refusal::{COLUMNS_OVER, MOST_COLUMNS, MOST_RECORDS, OUTSIDE_RANGE};
use crate::refusal::{RECORD_BROKEN, TABLE_OVER};
use std::collections::{HashMap, HashSet};

/// A node record. Record i has number i + 2; numbers 0 and 1 are the constants.
#[derive(Clone, Copy, PartialEq, Eq, Hash, Default, Debug)]
pub struct Record {
    pub level: u16,
    pub low: u16,
    pub high: u16,
}

impl Record {
    pub fn new(level: u16, low: u16, high: u16) -> Record {
        Record { level, low, high }
    }
}

/// A level or number as a record holds it. Tables are far too short for it not to fit.
fn field(number: usize) -> u16 {
    u16::try_from(number).expect("a table of at most 4,096 records")
}

/// The number of the first record.
pub const FIRST_NUMBER: usize = 2;

/// Refusals 1, 2 and 3 of every entry that is lent a table in use.
pub fn judge_table(columns: usize, records: &[Record], count: usize) -> Result<(), Refusal> {
    refuse_if(columns > MOST_COLUMNS, Refusal::plain(COLUMNS_OVER))?;
    let over = records.len() > MOST_RECORDS || count > records.len();
    refuse_if(over, Refusal::plain(TABLE_OVER))?;
    let sound = sound(columns, &records[..count]);
    refuse_if(!sound, Refusal::plain(RECORD_BROKEN))
}

/// Refusal 4 for numbers that have to be constants or records in use.
pub fn judge_numbers(count: usize, numbers: &[usize]) -> Result<(), Refusal> {
    let outside = numbers.iter().any(|&number| number >= count + FIRST_NUMBER);
    refuse_if(outside, Refusal::plain(OUTSIDE_RANGE))
}

/// Every record in use keeps its rule.
pub fn sound(columns: usize, in_use: &[Record]) -> bool {
    let distinct: HashSet<&Record> = in_use.iter().collect();
    distinct.len() == in_use.len() && (0..in_use.len()).all(|i| keeps_rule(columns, in_use, i))
}

/// The level is below the number of columns, and low and high are different numbers that each
/// are a constant or an earlier record of a greater level.
fn keeps_rule(columns: usize, in_use: &[Record], i: usize) -> bool {
    let record = in_use[i];
    let below = |number: u16| {
        let number = usize::from(number);
        number < FIRST_NUMBER
            || number < i + FIRST_NUMBER && in_use[number - FIRST_NUMBER].level > record.level
    };
    usize::from(record.level) < columns
        && record.low != record.high
        && below(record.low)
        && below(record.high)
}

/// The records in use together with their functions.
#[derive(Clone, Debug)]
pub struct Table {
    columns: usize,
    records: Vec<Record>,
    functions: Vec<Function>,
    numbers: HashMap<Function, usize>,
}

impl Table {
    /// A table with no record in use.
    pub fn new(columns: usize) -> Table {
        Table {
            columns,
            records: Vec::new(),
            functions: Vec::new(),
            numbers: HashMap::new(),
        }
    }

    /// The table of records that keep their rule.
    pub fn of(columns: usize, in_use: &[Record]) -> Table {
        let mut table = Table::new(columns);
        for &record in in_use {
            table.push(record);
        }
        table
    }

    pub fn records(&self) -> &[Record] {
        &self.records
    }

    pub fn count(&self) -> usize {
        self.records.len()
    }

    /// The function, of all columns, that a number stands for.
    pub fn function(&self, number: usize) -> Function {
        self.function_of(number, self.columns)
    }

    /// The records in use as a set of nodes.
    pub fn nodes(&self) -> Nodes {
        let mut nodes = Nodes::new();
        for function in &self.functions {
            nodes.add(function);
        }
        nodes
    }

    /// The number of a function, after its missing nodes have been added; none, and the table
    /// then of no further use, if they do not fit in a room of this many records.
    pub fn add(&mut self, function: &Function, room: usize) -> Option<usize> {
        let node = function.narrowed();
        if node.columns() == 0 {
            return Some(usize::from(node.is_one()));
        }
        if let Some(&number) = self.numbers.get(&node) {
            return Some(number);
        }
        let level = self.columns - node.columns();
        let low = self.add(&node.low(), room)?;
        let high = self.add(&node.high(), room)?;
        if self.count() < room {
            Some(self.push(Record::new(field(level), field(low), field(high))))
        } else {
            None
        }
    }

    /// Takes a record in and gives its number.
    fn push(&mut self, record: Record) -> usize {
        let below = self.columns - 1 - usize::from(record.level);
        let low = self.function_of(usize::from(record.low), below);
        let high = self.function_of(usize::from(record.high), below);
        let node = Function::join(&low, &high);
        let number = self.count() + FIRST_NUMBER;
        self.records.push(record);
        self.functions.push(node.clone());
        self.numbers.insert(node, number);
        number
    }

    /// The function of the last so many columns that a number stands for.
    fn function_of(&self, number: usize, columns: usize) -> Function {
        if number < FIRST_NUMBER {
            Function::constant(columns, number == 1)
        } else {
            self.functions[number - FIRST_NUMBER].widened(columns)
        }
    }
}

/// Puts the records at the front of a lent table and zeros after them.
pub fn lay(records: &[Record], table: &mut [Record]) {
    table.fill(Record::default());
    table[..records.len()].copy_from_slice(records);
}
