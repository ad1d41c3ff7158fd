//! Tables that keep their rule, and the same broken in one place.

use crate::call::Slices;
use crate::random::Random;
use second::table::Record;
use std::collections::HashSet;
use std::ops::Range;

/// At most so many random records that keep their rule; fewer where the columns have no more.
pub fn good(random: &mut Random, columns: usize, most: usize) -> Vec<Record> {
    let mut in_use = Vec::new();
    let mut present = HashSet::new();
    // For each level, the numbers that a record of that level may refer to.
    let mut deeper = vec![vec![0, 1]; columns];
    for _ in 0..8 * most {
        if columns == 0 || in_use.len() == most {
            break;
        }
        let level = random.below(columns);
        let (low, high) = (random.pick(&deeper[level]), random.pick(&deeper[level]));
        let new = Record::new(level as u16, low, high);
        if low != high && present.insert(new) {
            in_use.push(new);
            let number = in_use.len() as u16 + 1;
            deeper[..level].iter_mut().for_each(|d| d.push(number));
        }
    }
    in_use
}

/// Records in use at the front of a table of a length, with anything after them.
pub fn lent(random: &mut Random, in_use: &[Record], length: usize) -> Slices {
    let mut records = in_use.to_vec();
    records.resize_with(length.max(in_use.len()), || anything(random));
    records.truncate(length);
    Slices::of(&records)
}

fn anything(random: &mut Random) -> Record {
    Record::new(random.any(), random.any(), random.any())
}

/// A way for one record in use to break its rule, and no other record.
#[derive(Clone, Copy, PartialEq, Eq, Debug)]
pub enum Damage {
    LevelAtColumns,
    LevelOverColumns,
    EqualChildren,
    OwnChild,
    LaterChild,
    ChildPastCount,
    ChildOfSameLevel,
    ChildOfSmallerLevel,
    EqualRecords,
}

impl Damage {
    pub const ALL: [Damage; 9] = [
        Damage::LevelAtColumns,
        Damage::LevelOverColumns,
        Damage::EqualChildren,
        Damage::OwnChild,
        Damage::LaterChild,
        Damage::ChildPastCount,
        Damage::ChildOfSameLevel,
        Damage::ChildOfSmallerLevel,
        Damage::EqualRecords,
    ];

    pub fn name(self) -> &'static str {
        match self {
            Damage::LevelAtColumns => "level at the columns",
            Damage::LevelOverColumns => "level over the columns",
            Damage::EqualChildren => "equal children",
            Damage::OwnChild => "its own child",
            Damage::LaterChild => "a later child",
            Damage::ChildPastCount => "a child past the count",
            Damage::ChildOfSameLevel => "a child of the same level",
            Damage::ChildOfSmallerLevel => "a child of a smaller level",
            Damage::EqualRecords => "equal records",
        }
    }

    /// Breaks good records in one place; false, and then they are of no use, where there is no place
    /// for it. A level is changed only where both children are constants, since a child that is no
    /// longer deeper would be a second fault.
    pub fn inflict(self, random: &mut Random, columns: usize, in_use: &mut Vec<Record>) -> bool {
        if in_use.is_empty() {
            return false;
        }
        let i = random.below(in_use.len());
        let wrong = self.wrong_children(in_use, i);
        let record = &mut in_use[i];
        match self {
            Damage::LevelAtColumns => {
                record.level = columns as u16;
                record.low < 2 && record.high < 2
            }
            Damage::LevelOverColumns => {
                let over = random.pick(&[1, 2, 16, 65_535 - columns]);
                record.level = (columns + over) as u16;
                record.low < 2 && record.high < 2
            }
            Damage::EqualChildren => {
                let child = random.pick(&[record.low, record.high]);
                (record.low, record.high) = (child, child);
                true
            }
            Damage::EqualRecords => {
                let again = *record;
                in_use.push(again);
                true
            }
            _ if wrong.is_empty() => false,
            _ => {
                let number = random.pick(&wrong) as u16;
                if random.below(2) == 0 {
                    record.low = number;
                } else {
                    record.high = number;
                }
                record.low != record.high
            }
        }
    }

    /// The numbers that are wrong, in this way, as a child of record i.
    fn wrong_children(self, in_use: &[Record], i: usize) -> Vec<usize> {
        let own = in_use[i].level;
        let count = in_use.len();
        let numbers = |records: Range<usize>, test: fn(&u16, &u16) -> bool| {
            let found = records.filter(|&j| test(&in_use[j].level, &own));
            found.map(|j| j + 2).collect()
        };
        match self {
            Damage::OwnChild => vec![i + 2],
            Damage::LaterChild => numbers(i + 1..count, u16::gt),
            Damage::ChildPastCount => vec![count + 2, count + 3, 65_535],
            Damage::ChildOfSameLevel => numbers(0..i, u16::eq),
            Damage::ChildOfSmallerLevel => numbers(0..i, u16::lt),
            _ => vec![],
        }
    }
}
