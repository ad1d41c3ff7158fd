//! The generator on functions whose lists are too long for a program.

use crate::measure::counted;
use crate::plain;
use crate::Who;
use compare::functions::{by_signs, Laid};
use compare::generation::{Generation, Listed};
use compare::random::Random;

pub struct Case {
    pub name: &'static str,
    columns: usize,
    sign: fn(u32) -> u8,
    /// The cubes that the list room has.
    room: usize,
    /// The number returned, what it returns, and the length of the list.
    numbers: (u32, u64, u64),
}

pub const GENERATIONS: [Case; 4] = [
    Case {
        name: "9sym",
        columns: 9,
        sign: |point| b"01"[usize::from((3..=6).contains(&point.count_ones()))],
        room: 1_536,
        numbers: (0, 0, 148),
    },
    Case {
        name: "threshold_8_of_16",
        columns: 16,
        sign: |point| b"01"[usize::from(point.count_ones() >= 8)],
        room: 16_384,
        numbers: (0, 0, 12_870),
    },
    Case {
        name: "parity_15",
        columns: 15,
        sign: |point| b"01"[point.count_ones() as usize % 2],
        room: 16_384,
        numbers: (0, 0, 16_384),
    },
    Case {
        name: "parity_16",
        columns: 16,
        sign: |point| b"01"[point.count_ones() as usize % 2],
        room: 16_384,
        numbers: (8, 32_768, 0),
    },
];

impl Case {
    pub fn asked(&self) -> Generation {
        let roots = by_signs(self.columns, self.sign);
        let laid = Laid::over(&mut Random::new(1), self.columns, &[], roots);
        laid.asked(&mut Random::new(2), 4_096, self.room)
    }

    pub fn right(&self, listed: &Listed) {
        assert_eq!(listed.numbers(), self.numbers, "{}", self.name);
    }

    /// Generates the list once.
    pub fn generate(&self, who: Who) {
        let asked = self.asked();
        match who {
            Who::Library => self.right(&counted(|| asked.by_library())),
            Who::Second => self.right(&counted(|| asked.by_second())),
            Who::Plain => drop(counted(|| self.plainly(&asked))),
        }
    }

    /// The list by the plain version, as long as the case says.
    pub fn plainly(&self, asked: &Generation) -> Vec<u32> {
        let mut room = vec![0; asked.room.len()];
        let length = plain::length(asked, &mut room).unwrap() as u64;
        assert_eq!(length, self.numbers.1 + self.numbers.2, "{}", self.name);
        room
    }

    /// The answer in a word.
    pub fn answer(&self) -> String {
        match self.numbers {
            (0, _, rows) => format!("{rows} rows"),
            (number, value, _) => format!("refused {number} {value}"),
        }
    }
}

#[cfg(test)]
mod tests {
    use super::GENERATIONS;

    #[test]
    fn both_give_the_numbers() {
        for case in GENERATIONS {
            case.right(&case.asked().listed());
        }
    }
}
