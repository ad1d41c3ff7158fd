//! The list generator as an entry: refusals 1 to 8 in order, and what it leaves behind.
//! Changes nothing at 1 to 6; at 7, 8 and done the records past the count and the list room are
//! zero, but for the cubes delivered.

use crate::list::{generation, Generation};
use crate::refusal::{refuse_if, Refusal};
use crate::refusal::{LIST_OVER, LIST_ROOM_LACKING, MOST_CUBES, NODE_ROOM_LACKING, NOT_WITHIN};
use crate::table::{judge_numbers, judge_table, Record, Table};

/// The answer of the generator: the number returned, its value, and the length of the list.
#[derive(Clone, Copy, PartialEq, Eq, Default, Debug)]
pub struct Generated {
    pub number: u32,
    pub value: usize,
    pub length: usize,
}

impl From<Refusal> for Generated {
    fn from(refusal: Refusal) -> Generated {
        Generated {
            number: refusal.number,
            value: refusal.value,
            length: 0,
        }
    }
}

/// Generates the list of the function with these roots into the list room.
pub fn generate(
    columns: usize,
    records: &mut [Record],
    count: usize,
    lower: usize,
    upper: usize,
    room: &mut [u32],
) -> Generated {
    let judged = judge(columns, records, count, lower, upper, room.len());
    let generation = match judged {
        Ok(generation) => generation,
        Err(refusal) => return refusal.into(),
    };
    // From here on, records past the count have served as work records.
    records[count..].fill(Record::default());
    room.fill(0);
    match deliver(&generation, records.len(), room) {
        Ok(length) => Generated {
            length,
            ..Generated::default()
        },
        Err(refusal) => refusal.into(),
    }
}

/// Refusals 1 to 6, or the generation.
fn judge(
    columns: usize,
    records: &[Record],
    count: usize,
    lower: usize,
    upper: usize,
    room: usize,
) -> Result<Generation, Refusal> {
    judge_table(columns, records, count)?;
    judge_numbers(count, &[lower, upper])?;
    let table = Table::of(columns, &records[..count]);
    let l = table.function(lower);
    let u = table.function(upper);
    refuse_if(!l.within(&u), Refusal::plain(NOT_WITHIN))?;
    refuse_if(room > MOST_CUBES, Refusal::plain(LIST_OVER))?;
    Ok(generation(&l, &u, table.nodes()))
}

/// Refusals 7 and 8, or the cubes put into the list room.
fn deliver(generation: &Generation, records: usize, room: &mut [u32]) -> Result<usize, Refusal> {
    let length = generation.cubes.len();
    let lacking = generation.need > records;
    refuse_if(lacking, Refusal::plain(NODE_ROOM_LACKING))?;
    let longer = length > room.len();
    refuse_if(longer, Refusal::with(LIST_ROOM_LACKING, length))?;
    room[..length].copy_from_slice(&generation.cubes);
    Ok(length)
}
