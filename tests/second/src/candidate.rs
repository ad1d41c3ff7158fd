//! Reading a candidate text as an entry: refusals 1 (also for 0 columns), 10, 6, 11, 8, and the
//! list room it leaves. Changes nothing at 1, 10 and 6.

use crate::refusal::{refuse_if, Refusal};
use crate::refusal::{COLUMNS_OVER, LIST_OVER, LIST_ROOM_LACKING, TEXT_FAULT, TEXT_OVER};
use crate::refusal::{MOST_BYTES, MOST_COLUMNS, MOST_CUBES};
use crate::text::{read, Asked};

/// The answer of the reading: the number returned, its value, and the length of the list.
#[derive(Clone, Copy, PartialEq, Eq, Default, Debug)]
pub struct CandidateText {
    pub number: u32,
    pub value: usize,
    pub length: usize,
}

impl From<Refusal> for CandidateText {
    fn from(refusal: Refusal) -> CandidateText {
        CandidateText {
            number: refusal.number,
            value: refusal.value,
            length: 0,
        }
    }
}

/// Reads a candidate for a function of so many columns into the list room.
pub fn read_candidate(text: &[u8], columns: usize, room: &mut [u32]) -> CandidateText {
    if let Err(refusal) = judge_sizes(text.len(), columns, room.len()) {
        return refusal.into();
    }
    room.fill(0);
    match cubes(text, columns, room.len()) {
        Ok(cubes) => {
            room[..cubes.len()].copy_from_slice(&cubes);
            CandidateText {
                length: cubes.len(),
                ..CandidateText::default()
            }
        }
        Err(refusal) => refusal.into(),
    }
}

/// Refusals 1, 10 and 6.
fn judge_sizes(bytes: usize, columns: usize, room: usize) -> Result<(), Refusal> {
    let none_or_over = columns == 0 || columns > MOST_COLUMNS;
    refuse_if(none_or_over, Refusal::plain(COLUMNS_OVER))?;
    refuse_if(bytes > MOST_BYTES, Refusal::plain(TEXT_OVER))?;
    refuse_if(room > MOST_CUBES, Refusal::plain(LIST_OVER))
}

/// Refusals 11 and 8, or the rows in order.
fn cubes(text: &[u8], columns: usize, room: usize) -> Result<Vec<u32>, Refusal> {
    let asked = Asked::Candidate { columns };
    let text = read(text, asked).map_err(|line| Refusal::with(TEXT_FAULT, line))?;
    let length = text.rows.len();
    refuse_if(length > room, Refusal::with(LIST_ROOM_LACKING, length))?;
    Ok(text.rows.iter().map(|row| row.cube).collect())
}
