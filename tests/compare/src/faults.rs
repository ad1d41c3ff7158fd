//! The faults of an input that the generator and the checker refuse alike, 1 to 5, put into a call.

use crate::call::Slices;
use crate::check::Check;
use crate::functions::{Laid, Making};
use crate::generation::Generation;
use crate::random::Random;
use crate::tables::{good, lent, Damage};
use second::refusal::{COLUMNS_OVER, MOST_RECORDS, NOT_WITHIN};
use second::refusal::{OUTSIDE_RANGE, RECORD_BROKEN, TABLE_OVER};
use second::table::Table;

/// What the calls of both have in common.
pub struct Parts<'a> {
    pub columns: &'a mut u16,
    pub table: &'a mut Slices,
    pub count: &'a mut usize,
    pub lower: &'a mut u16,
    pub upper: &'a mut u16,
}

pub trait Input {
    fn parts(&mut self) -> Parts<'_>;
}

impl Input for Check {
    fn parts(&mut self) -> Parts<'_> {
        Parts {
            columns: &mut self.columns,
            table: &mut self.table,
            count: &mut self.count,
            lower: &mut self.lower,
            upper: &mut self.upper,
        }
    }
}

impl Input for Generation {
    fn parts(&mut self) -> Parts<'_> {
        Parts {
            columns: &mut self.columns,
            table: &mut self.table,
            count: &mut self.count,
            lower: &mut self.lower,
            upper: &mut self.upper,
        }
    }
}

/// A function of 0 to 10 columns, behind a few other records.
pub fn some(random: &mut Random) -> Laid {
    let columns = random.below(11);
    let making = random.pick(&[Making::Cubes, Making::Records]);
    let free = random.below(2) == 0;
    let roots = making.roots(random, columns, free);
    let most = random.pick(&[0, 2, 9]);
    let earlier = good(random, columns, most);
    Laid::over(random, columns, &earlier, roots)
}

/// Columns over 16, and their names.
pub const OF_COLUMNS: [(&str, u16); 3] = [
    ("17 columns", 17),
    ("18 columns", 18),
    ("the greatest number of columns", 65_535),
];

/// Tables over their length.
pub const OF_LENGTH: [&str; 7] = [
    "count one over the length",
    "the greatest count",
    "4,097 records",
    "4,097 records in use",
    "one slice longer",
    "one slice shorter",
    "one slice empty",
];

/// Puts a fault of `OF_LENGTH` into a call, whose table becomes one record longer before.
pub fn break_length(random: &mut Random, kind: &str, laid: &Laid, call: &mut impl Input) {
    let Parts { table, count, .. } = call.parts();
    let length = table.level.len() + 1;
    *table = lent(random, &laid.in_use, length);
    let slice = match random.below(3) {
        0 => &mut table.level,
        1 => &mut table.low,
        _ => &mut table.high,
    };
    match kind {
        "count one over the length" => *count = length + 1,
        "the greatest count" => *count = usize::MAX,
        "4,097 records" => *table = lent(random, &laid.in_use, MOST_RECORDS + 1),
        "4,097 records in use" => {
            *table = lent(random, &laid.in_use, MOST_RECORDS + 1);
            *count = MOST_RECORDS + 1;
        }
        "one slice longer" => slice.push(random.any()),
        "one slice shorter" => slice.truncate(length - 1),
        _ => slice.clear(),
    }
}

/// Roots out of range.
pub const OF_RANGE: [&str; 3] = ["lower root", "upper root", "both roots"];

/// Puts a fault of `OF_RANGE` into a call.
pub fn break_range(random: &mut Random, kind: &str, laid: &Laid, call: &mut impl Input) {
    let past = laid.count() as u16 + 2;
    let number = random.pick(&[past, past + 1, 65_535]);
    let Parts { lower, upper, .. } = call.parts();
    if kind != "upper root" {
        *lower = number;
    }
    if kind != "lower root" {
        *upper = number;
    }
}

/// Puts the faults 5 and 3, where they are wanted, into what is laid; tells whether it could.
pub fn break_laid(random: &mut Random, faults: &[u32], laid: &mut Laid) -> bool {
    if faults.contains(&NOT_WITHIN) {
        let table = Table::of(laid.columns, &laid.in_use);
        let numbers = table.count() + 2;
        let (lower, upper) = (random.below(numbers), random.below(numbers));
        if table.function(lower).within(&table.function(upper)) {
            return false;
        }
        (laid.lower, laid.upper) = (lower as u16, upper as u16);
    }
    if faults.contains(&RECORD_BROKEN) {
        let damage = random.pick(&Damage::ALL);
        return damage.inflict(random, laid.columns, &mut laid.in_use);
    }
    true
}

/// Puts the faults 4, 2 and 1, where they are wanted, into a call.
pub fn break_call(random: &mut Random, faults: &[u32], laid: &Laid, call: &mut impl Input) {
    let parts = call.parts();
    if faults.contains(&OUTSIDE_RANGE) {
        let past = laid.count() as u16 + 2;
        if random.below(2) == 0 {
            *parts.lower = past;
        } else {
            *parts.upper = past;
        }
    }
    if faults.contains(&TABLE_OVER) {
        match random.below(3) {
            0 => *parts.count += 1 + random.below(3),
            1 => parts.table.high.push(0),
            _ => *parts.table = lent(random, &laid.in_use, MOST_RECORDS + 1),
        }
    }
    if faults.contains(&COLUMNS_OVER) {
        *parts.columns = random.pick(&[17, 18, 255, 65_535]);
    }
}
