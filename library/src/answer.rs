//! What the library answers, as enums.

use crate::numbers::{Checked, Delivered};

/// Document 01's refusals; `number` gives their numbers.
#[derive(Clone, Copy, PartialEq, Eq, Debug)]
pub enum Refusal {
    ColumnsOver = 1,
    TableOver = 2,
    RecordBroken = 3,
    OutOfRange = 4,
    NotWithin = 5,
    ListOver = 6,
    NodesLack = 7,
    ListLacks = 8,
    CubeMalformed = 9,
    TextOver = 10,
    TextFault = 11,
    OnAndOff = 12,
    TextLacks = 13,
}

const REFUSALS: [Refusal; 13] = [
    Refusal::ColumnsOver,
    Refusal::TableOver,
    Refusal::RecordBroken,
    Refusal::OutOfRange,
    Refusal::NotWithin,
    Refusal::ListOver,
    Refusal::NodesLack,
    Refusal::ListLacks,
    Refusal::CubeMalformed,
    Refusal::TextOver,
    Refusal::TextFault,
    Refusal::OnAndOff,
    Refusal::TextLacks,
];

impl Refusal {
    /// Document 01's number of this refusal.
    pub fn number(self) -> u16 {
        self as u16
    }
}

/// A refusal and the value returned with it: the length needed (8), the position of the first
/// malformed cube (9), the line of the first fault (11), the bytes needed (13), else 0.
#[derive(Clone, Copy, PartialEq, Eq, Debug)]
pub struct Refused {
    pub refusal: Refusal,
    pub returned: usize,
}

impl Refused {
    /// Nothing where the status is done, else the refusal of that number.
    pub(crate) fn unless_done(status: u16, returned: u64) -> Result<(), Refused> {
        match status {
            0 => Ok(()),
            _ => Err(Refused {
                refusal: REFUSALS[usize::from(status) - 1],
                returned: returned as usize,
            }),
        }
    }
}

/// What is said of a list. Cubes are named from 1, columns from 0, points by their numbers.
#[derive(Clone, Copy, PartialEq, Eq, Debug)]
pub enum Verdict {
    /// Every on point is covered and no off point, and no row and no literal is too many.
    Accept,
    /// The first cube covering an off point, and the smallest such point.
    Off { cube: usize, point: u32 },
    /// The smallest on point not covered.
    Missing { point: u32 },
    /// The first cube, and its leftmost column, whose literal can go.
    Literal { cube: usize, column: usize },
    /// The first cube that can go.
    Cube { cube: usize },
}

impl Checked {
    /// The verdict, or the refusal.
    pub fn verdict(self) -> Result<Verdict, Refused> {
        Refused::unless_done(self.status, self.kind)?;
        let [first, second] = self.values;
        let cube = first as usize;
        Ok(match self.kind {
            0 => Verdict::Accept,
            1 => Verdict::Off {
                cube,
                point: second as u32,
            },
            2 => Verdict::Missing {
                point: first as u32,
            },
            3 => Verdict::Literal {
                cube,
                column: second as usize,
            },
            4 => Verdict::Cube { cube },
            kind => unreachable!("the library knows no verdict of kind {kind}"),
        })
    }
}

impl Delivered {
    /// The length of what stands in the room, or the refusal.
    pub fn length(self) -> Result<usize, Refused> {
        Refused::unless_done(self.status, self.returned)?;
        Ok(self.length as usize)
    }
}
