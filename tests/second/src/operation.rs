//! The operations as entries: variable, and, or, difference, and the value at a point, with
//! refusals 1, 2, 3, 4, 7 in order. Nothing changes at 1 to 4; at 7 and done the records past the
//! count are zero, and a refusal gives the old count. The value at a point writes nothing.

use crate::cube::with_literal;
use crate::function::Function;
use crate::refusal::{refuse_if, Refusal};
use crate::refusal::{NODE_ROOM_LACKING, OUTSIDE_RANGE};
use crate::table::{judge_numbers, judge_table, lay, Record, Table};

/// The answer of an operation that builds: the number returned, its value, the result's number
/// in the table, and the count of records in use.
#[derive(Clone, Copy, PartialEq, Eq, Default, Debug)]
pub struct Built {
    pub number: u32,
    pub value: usize,
    pub root: usize,
    pub count: usize,
}

/// The answer of the value at a point: the number returned, its value, and at done the value of
/// the function.
#[derive(Clone, Copy, PartialEq, Eq, Default, Debug)]
pub struct AtPoint {
    pub number: u32,
    pub value: usize,
    pub result: bool,
}

/// The function that is 1 where a column is 1.
pub fn variable(columns: usize, records: &mut [Record], count: usize, column: usize) -> Built {
    let judged = judge_variable(columns, records, count, column);
    deliver(records, count, judged)
}

/// The function that is 1 where both are.
pub fn and(columns: usize, records: &mut [Record], count: usize, a: usize, b: usize) -> Built {
    let judged = judge_two(columns, records, count, [a, b], Function::and);
    deliver(records, count, judged)
}

/// The function that is 1 where either is.
pub fn or(columns: usize, records: &mut [Record], count: usize, a: usize, b: usize) -> Built {
    let judged = judge_two(columns, records, count, [a, b], Function::or);
    deliver(records, count, judged)
}

/// The function that is 1 where the first is and the second is not.
pub fn difference(
    columns: usize,
    records: &mut [Record],
    count: usize,
    a: usize,
    b: usize,
) -> Built {
    let judged = judge_two(columns, records, count, [a, b], Function::less);
    deliver(records, count, judged)
}

/// The value of a root at a point.
pub fn value(columns: usize, records: &[Record], count: usize, root: usize, point: u32) -> AtPoint {
    match judge_point(columns, records, count, root, point) {
        Ok(table) => AtPoint {
            result: table.function(root).value(point),
            ..AtPoint::default()
        },
        Err(refusal) => AtPoint {
            number: refusal.number,
            value: refusal.value,
            result: false,
        },
    }
}

/// What an operation builds on: the table with its records in use, and the result.
type Judged = Result<(Table, Function), Refusal>;

/// Refusals 1 to 4, or the function of a column.
fn judge_variable(columns: usize, records: &[Record], count: usize, column: usize) -> Judged {
    judge_table(columns, records, count)?;
    refuse_if(column >= columns, Refusal::plain(OUTSIDE_RANGE))?;
    let result = Function::from_cube(columns, with_literal(0, column, true));
    Ok((Table::of(columns, &records[..count]), result))
}

/// Refusals 1 to 4, or the operation of two functions.
fn judge_two(
    columns: usize,
    records: &[Record],
    count: usize,
    operands: [usize; 2],
    operation: fn(&Function, &Function) -> Function,
) -> Judged {
    judge_table(columns, records, count)?;
    judge_numbers(count, &operands)?;
    let table = Table::of(columns, &records[..count]);
    let [a, b] = operands.map(|number| table.function(number));
    Ok((table, operation(&a, &b)))
}

/// Refusals 1 to 4, or the table.
fn judge_point(
    columns: usize,
    records: &[Record],
    count: usize,
    root: usize,
    point: u32,
) -> Result<Table, Refusal> {
    judge_table(columns, records, count)?;
    judge_numbers(count, &[root])?;
    let outside = u64::from(point) >= 1 << columns;
    refuse_if(outside, Refusal::plain(OUTSIDE_RANGE))?;
    Ok(Table::of(columns, &records[..count]))
}

/// Refusal 7, or the result with its missing nodes added to the lent table.
fn deliver(records: &mut [Record], count: usize, judged: Judged) -> Built {
    let (mut table, result) = match judged {
        Ok(judged) => judged,
        Err(refusal) => return refused(refusal, count),
    };
    match table.add(&result, records.len()) {
        Some(root) => {
            lay(table.records(), records);
            Built {
                root,
                count: table.count(),
                ..Built::default()
            }
        }
        None => {
            records[count..].fill(Record::default());
            refused(Refusal::plain(NODE_ROOM_LACKING), count)
        }
    }
}

fn refused(refusal: Refusal, count: usize) -> Built {
    Built {
        number: refusal.number,
        value: refusal.value,
        root: 0,
        count,
    }
}
