//! The list checker as an entry: refusals 1 to 6, then 9, then the verdict. It writes nothing.

use crate::cube::judge_cubes;
use crate::refusal::{refuse_if, Refusal};
use crate::refusal::{LIST_OVER, MOST_CUBES, NOT_WITHIN};
use crate::table::{judge_numbers, judge_table, Record, Table};
use crate::verdict::{verdict, Verdict};

/// The answer of the checker: the number returned, its value, and at done the verdict.
#[derive(Clone, Copy, PartialEq, Eq, Default, Debug)]
pub struct Checked {
    pub number: u32,
    pub value: usize,
    pub verdict: Option<Verdict>,
}

/// Checks a list against the function with these roots.
pub fn check(
    columns: usize,
    records: &[Record],
    count: usize,
    lower: usize,
    upper: usize,
    list: &[u32],
) -> Checked {
    match judge(columns, records, count, lower, upper, list) {
        Ok(verdict) => Checked {
            verdict: Some(verdict),
            ..Checked::default()
        },
        Err(refusal) => Checked {
            number: refusal.number,
            value: refusal.value,
            verdict: None,
        },
    }
}

fn judge(
    columns: usize,
    records: &[Record],
    count: usize,
    lower: usize,
    upper: usize,
    list: &[u32],
) -> Result<Verdict, Refusal> {
    judge_table(columns, records, count)?;
    judge_numbers(count, &[lower, upper])?;
    let table = Table::of(columns, &records[..count]);
    let l = table.function(lower);
    let u = table.function(upper);
    refuse_if(!l.within(&u), Refusal::plain(NOT_WITHIN))?;
    refuse_if(list.len() > MOST_CUBES, Refusal::plain(LIST_OVER))?;
    judge_cubes(columns, list)?;
    Ok(verdict(&l, &u, list))
}
