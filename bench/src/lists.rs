//! The checker on the greatest lists: the proved library and the second program in one run, on the
//! same input, and the ratio of their times.

use crate::measure::best;
use compare::check::{Check, Judged, ACCEPT, CUBE};
use compare::functions::{by_signs, Laid};
use compare::random::Random;
use std::time::Duration;

/// A list for a function of 16 columns, and the verdict on it.
pub struct Case {
    pub name: &'static str,
    sign: fn(u32) -> u8,
    rows: fn() -> Vec<u32>,
    verdict: (u64, [u64; 2]),
}

pub const CASES: [Case; 4] = [
    Case {
        name: "threshold",
        sign: at_least_eight,
        rows: choices_of_eight,
        verdict: (ACCEPT, [0, 0]),
    },
    Case {
        name: "dashes",
        sign: |_| b'1',
        rows: || vec![0; 16_384],
        verdict: (CUBE, [1, 0]),
    },
    Case {
        name: "points",
        sign: |point| b"01"[usize::from(odd(point & 0x7fff) && point >> 15 == 1)],
        rows: odd_points,
        verdict: (ACCEPT, [0, 0]),
    },
    Case {
        name: "literals",
        sign: off_at_the_end,
        rows: || vec![LAST_SIX; 16_384],
        verdict: (CUBE, [1, 0]),
    },
];

/// The row whose literals are 1 in the last six columns.
const LAST_SIX: u32 = 0xfc00;

/// On where the last six columns are all 1; off where the other ten are all 1 and of the last six all but one: so each
/// literal of that row is needed, for an off point that stands in the last word of a table.
fn off_at_the_end(point: u32) -> u8 {
    let last = (point & LAST_SIX).count_ones();
    match (last, point & !LAST_SIX) {
        (6, _) => b'1',
        (5, 0x03ff) => b'0',
        _ => b'-',
    }
}

fn odd(point: u32) -> bool {
    point.count_ones() % 2 == 1
}

fn at_least_eight(point: u32) -> u8 {
    b"01"[usize::from(point.count_ones() >= 8)]
}

/// 12,870 rows of eight literals.
fn choices_of_eight() -> Vec<u32> {
    let numbers = 0..1 << 16;
    numbers.filter(|row: &u32| row.count_ones() == 8).collect()
}

/// 16,384 rows without a dash: the points with the last column 1 and an odd number of others.
fn odd_points() -> Vec<u32> {
    let points = (0..1 << 15).filter(|&point| odd(point));
    points
        .map(|point| point | 1 << 15 | (!point & 0x7fff) << 16)
        .collect()
}

impl Case {
    fn check(&self) -> Check {
        let laid = Laid::over(&mut Random::new(1), 16, &[], by_signs(16, self.sign));
        laid.checked(&mut Random::new(2), laid.count(), (self.rows)())
    }

    fn right(&self, judged: Judged) {
        let (kind, values) = self.verdict;
        assert_eq!(judged, Judged::verdict(kind, values), "{}", self.name);
    }

    fn time(&self, judge: impl Fn() -> Judged) -> Duration {
        best(|| self.right(judge()))
    }

    /// The time of the library.
    pub fn by_library(&self) -> Duration {
        let check = self.check();
        self.time(|| check.by_library())
    }

    /// Judges the list once.
    pub fn judge(&self, library: bool) {
        let check = self.check();
        self.right(if library {
            check.by_library()
        } else {
            check.by_second()
        });
    }

    pub fn compare(&self) {
        let check = self.check();
        let proved = self.time(|| check.by_library());
        let second = self.time(|| check.by_second());
        let ratio = second.as_secs_f64() / proved.as_secs_f64();
        let rows = check.list.len();
        println!(
            "{:10} {rows:6} rows  library {proved:>10.2?}  second {second:>10.2?}  ratio {ratio:.2}",
            self.name
        );
    }
}

#[cfg(test)]
mod tests {
    use super::CASES;

    #[test]
    fn both_give_the_verdict() {
        for case in CASES {
            case.right(case.check().judged());
        }
    }
}
