//! Writing a list as text, as an entry: refusals 1 (also for 0 columns), 6, 9, 13.
//! A refusal changes nothing; at done the text room is the text and then zeros.

use crate::cube::{judge_cubes, signs};
use crate::refusal::{refuse_if, Refusal};
use crate::refusal::{COLUMNS_OVER, LIST_OVER, MOST_COLUMNS, MOST_CUBES, TEXT_ROOM_SHORT};

/// The answer of the writing: the number returned, its value, and the bytes written.
#[derive(Clone, Copy, PartialEq, Eq, Default, Debug)]
pub struct Written {
    pub number: u32,
    pub value: usize,
    pub length: usize,
}

impl From<Refusal> for Written {
    fn from(refusal: Refusal) -> Written {
        Written {
            number: refusal.number,
            value: refusal.value,
            length: 0,
        }
    }
}

/// Writes a list into the text room.
pub fn write_list(columns: usize, list: &[u32], room: &mut [u8]) -> Written {
    match judge(columns, list, room.len()) {
        Ok(text) => {
            room.fill(0);
            room[..text.len()].copy_from_slice(text.as_bytes());
            Written {
                length: text.len(),
                ..Written::default()
            }
        }
        Err(refusal) => refusal.into(),
    }
}

fn judge(columns: usize, list: &[u32], room: usize) -> Result<String, Refusal> {
    let none_or_over = columns == 0 || columns > MOST_COLUMNS;
    refuse_if(none_or_over, Refusal::plain(COLUMNS_OVER))?;
    refuse_if(list.len() > MOST_CUBES, Refusal::plain(LIST_OVER))?;
    judge_cubes(columns, list)?;
    let text = text_of(columns, list);
    let short = text.len() > room;
    refuse_if(short, Refusal::with(TEXT_ROOM_SHORT, text.len()))?;
    Ok(text)
}

/// The text of a list of well-formed cubes.
pub fn text_of(columns: usize, list: &[u32]) -> String {
    let rows: String = list
        .iter()
        .map(|&cube| format!("{} 1\n", signs(cube, columns)))
        .collect();
    format!(".i {columns}\n.o 1\n.p {}\n{rows}.e\n", list.len())
}
