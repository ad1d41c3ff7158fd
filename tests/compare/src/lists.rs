//! Lists of cubes for the checker: changes of a list in one place, and random cubes.

use crate::random::Random;
use second::cube::{has_literal, sign, with_literal, without_literal};
use second::refusal::MOST_COLUMNS;

/// A change of a list.
#[derive(Clone, Copy, PartialEq, Eq, Debug)]
pub enum Change {
    Nothing,
    LiteralTurned,
    LiteralRemoved,
    LiteralAdded,
    RowRemoved,
    RowDoubled,
    RowMoved,
    RowAdded,
    /// A row in two halves.
    RowSplit,
    /// A row and the next one as the literals that both have.
    RowsMerged,
    OtherOrder,
    Emptied,
    /// A column that must be both 0 and 1.
    BothBits,
    /// A literal for a column beyond the last.
    BitBeyond,
}

impl Change {
    pub const ALL: [Change; 14] = [
        Change::Nothing,
        Change::LiteralTurned,
        Change::LiteralRemoved,
        Change::LiteralAdded,
        Change::RowRemoved,
        Change::RowDoubled,
        Change::RowMoved,
        Change::RowAdded,
        Change::RowSplit,
        Change::RowsMerged,
        Change::OtherOrder,
        Change::Emptied,
        Change::BothBits,
        Change::BitBeyond,
    ];

    pub fn name(self) -> &'static str {
        match self {
            Change::Nothing => "as generated",
            Change::LiteralTurned => "a literal turned",
            Change::LiteralRemoved => "a literal removed",
            Change::LiteralAdded => "a literal added",
            Change::RowRemoved => "a row removed",
            Change::RowDoubled => "a row doubled",
            Change::RowMoved => "a row moved",
            Change::RowAdded => "a row added",
            Change::RowSplit => "a row split",
            Change::RowsMerged => "rows merged",
            Change::OtherOrder => "another order",
            Change::Emptied => "emptied",
            Change::BothBits => "both bits",
            Change::BitBeyond => "a bit beyond the columns",
        }
    }

    /// Changes a list; false where there is no place for it.
    pub fn make(self, random: &mut Random, columns: usize, list: &mut Vec<u32>) -> bool {
        let rows = list.len();
        match self {
            Change::Nothing => true,
            Change::Emptied => {
                list.clear();
                true
            }
            Change::RowAdded => {
                list.insert(random.below(rows + 1), some_cube(random, columns));
                true
            }
            _ if rows == 0 => false,
            Change::RowRemoved => {
                list.remove(random.below(rows));
                true
            }
            Change::RowDoubled => {
                let again = random.pick(list);
                list.insert(random.below(rows + 1), again);
                true
            }
            Change::RowMoved | Change::OtherOrder | Change::RowsMerged if rows == 1 => false,
            Change::RowMoved => {
                let row = list.remove(random.below(rows));
                list.insert(random.below(rows), row);
                true
            }
            Change::OtherOrder => {
                for i in 1..rows {
                    list.swap(i, random.below(i + 1));
                }
                true
            }
            Change::RowsMerged => {
                let i = random.below(rows - 1);
                list[i] &= list.remove(i + 1);
                true
            }
            _ => self.make_in_row(random, columns, list),
        }
    }

    /// Changes a random row at a random column.
    fn make_in_row(self, random: &mut Random, columns: usize, list: &mut Vec<u32>) -> bool {
        let i = random.below(list.len());
        let row = list[i];
        let beyond = self == Change::BitBeyond;
        let wanted = |&column: &usize| match self {
            Change::LiteralTurned | Change::LiteralRemoved => has_literal(row, column),
            Change::LiteralAdded | Change::RowSplit => !has_literal(row, column),
            _ => true,
        };
        let among = if beyond {
            columns..MOST_COLUMNS
        } else {
            0..columns
        };
        let places: Vec<usize> = among.filter(wanted).collect();
        if places.is_empty() {
            return false;
        }
        let column = random.pick(&places);
        let value = random.below(2) == 1;
        let without = without_literal(row, column);
        let changed = match self {
            Change::LiteralTurned => with_literal(without, column, sign(row, column) == b'0'),
            Change::LiteralRemoved => without,
            Change::RowSplit => {
                list.insert(i + 1, with_literal(row, column, !value));
                with_literal(row, column, value)
            }
            Change::BothBits => with_literal(with_literal(row, column, true), column, false),
            _ => with_literal(row, column, value),
        };
        list[i] = changed;
        true
    }
}

/// A random well-formed cube.
pub fn some_cube(random: &mut Random, columns: usize) -> u32 {
    let bound = random.pick(&[2, 3, 4, 8]);
    (0..columns).fold(0, |cube, column| match random.below(bound) {
        0 => with_literal(cube, column, random.below(2) == 1),
        _ => cube,
    })
}

/// At most so many random well-formed cubes.
pub fn some_cubes(random: &mut Random, columns: usize, most: usize) -> Vec<u32> {
    let rows = random.below(most + 1);
    (0..rows).map(|_| some_cube(random, columns)).collect()
}
