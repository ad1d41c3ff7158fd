//! The numbers that document 01 returns, each with its name, and the sizes they speak of.
//! An entry gives the first refusal that applies in its own order; done is 0.

pub const DONE: u32 = 0;
pub const COLUMNS_OVER: u32 = 1;
pub const TABLE_OVER: u32 = 2;
pub const RECORD_BROKEN: u32 = 3;
pub const OUTSIDE_RANGE: u32 = 4;
pub const NOT_WITHIN: u32 = 5;
pub const LIST_OVER: u32 = 6;
pub const NODE_ROOM_LACKING: u32 = 7;
pub const LIST_ROOM_LACKING: u32 = 8;
pub const CUBE_MALFORMED: u32 = 9;
pub const TEXT_OVER: u32 = 10;
pub const TEXT_FAULT: u32 = 11;
pub const ON_AND_OFF: u32 = 12;
pub const TEXT_ROOM_SHORT: u32 = 13;

/// The most columns of anything.
pub const MOST_COLUMNS: usize = 16;
/// The most records of a table.
pub const MOST_RECORDS: usize = 4_096;
/// The most cubes of a list slice.
pub const MOST_CUBES: usize = 16_384;
/// The most bytes of a text, and of a program's input.
pub const MOST_BYTES: usize = 32_768;

/// A refusal: its number and the value returned with it.
#[derive(Clone, Copy, PartialEq, Eq, Debug)]
pub struct Refusal {
    pub number: u32,
    pub value: usize,
}

impl Refusal {
    /// A refusal that returns 0.
    pub fn plain(number: u32) -> Refusal {
        Refusal { number, value: 0 }
    }

    /// A refusal that returns a place or a length.
    pub fn with(number: u32, value: usize) -> Refusal {
        Refusal { number, value }
    }
}

/// The refusal if its test holds.
pub fn refuse_if(test: bool, refusal: Refusal) -> Result<(), Refusal> {
    if test {
        Err(refusal)
    } else {
        Ok(())
    }
}
