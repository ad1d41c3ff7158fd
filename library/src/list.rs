//! Lists of cubes as texts.

use crate::answer::{Refusal, Refused};
use crate::numbers;

/// The list of a candidate text for a function of so many columns, in a room of so many cubes.
pub fn read_candidate(columns: u16, text: &[u8], room: usize) -> Result<Vec<u32>, Refused> {
    let mut list = vec![0; room];
    let told = numbers::read_candidate(columns, text, &mut list);
    list.truncate(told.length()?);
    Ok(list)
}

/// The text of a list, in a room of the bytes that it needs.
pub fn write_list(columns: u16, list: &[u32]) -> Result<Vec<u8>, Refused> {
    match in_room(columns, list, 0) {
        Err(refused) if refused.refusal == Refusal::TextLacks => {
            in_room(columns, list, refused.returned)
        }
        answer => answer,
    }
}

fn in_room(columns: u16, list: &[u32], bytes: usize) -> Result<Vec<u8>, Refused> {
    let mut room = vec![0; bytes];
    let told = numbers::write_list(columns, list, &mut room);
    room.truncate(told.length()?);
    Ok(room)
}

/// The literals of a list: the count of its cubes' set bits.
pub fn literals(list: &[u32]) -> u32 {
    list.iter().map(|cube| cube.count_ones()).sum()
}
