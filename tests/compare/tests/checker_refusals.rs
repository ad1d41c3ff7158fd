//! Each refusal of the checker, on both sides of its boundary, and several faults at once: the first
//! that applies is given. It returns 0, and with number 9 the position of the first malformed cube.

use compare::check::{Check, Judged};
use compare::faults::{break_call, break_laid, break_length, break_range, some};
use compare::faults::{OF_COLUMNS, OF_LENGTH, OF_RANGE};
use compare::functions::{Laid, Making};
use compare::lists::{some_cube, some_cubes, Change};
use compare::random::Random;
use compare::tables::{good, lent, Damage};
use compare::tally::Tally;
use second::cube::well_formed;
use second::refusal::{COLUMNS_OVER, CUBE_MALFORMED, DONE, LIST_OVER, MOST_CUBES};
use second::refusal::{MOST_RECORDS, NOT_WITHIN, OUTSIDE_RANGE, RECORD_BROKEN, TABLE_OVER};
use second::table::Table;

/// A check of the function's own list.
fn own(random: &mut Random, laid: &Laid) -> Check {
    let records = laid.count() + random.below(5);
    laid.checked(random, records, laid.list())
}

/// Checks, and the call is refused with a number that returns something.
fn refused(tally: &mut Tally, kind: &'static str, check: &Check, number: u32, returned: usize) {
    let judged = tally.check(kind, check);
    let refusal = Judged::refusal(number, returned as u64);
    assert_eq!(judged, refusal, "{kind}: {check}");
}

#[test]
fn columns_over_16() {
    let mut random = Random::new(101);
    let mut tally = Tally::new();
    for _ in 0..1_000 {
        let laid = some(&mut random);
        let mut check = own(&mut random, &laid);
        assert_eq!(tally.check("done", &check).name(), "accept");
        // All that is asked of records and cubes is kept at 16 columns too.
        check.columns = 16;
        assert_eq!(tally.check("16 columns", &check).number, DONE);
        let (kind, over) = random.pick(&OF_COLUMNS);
        check.columns = over;
        refused(&mut tally, kind, &check, COLUMNS_OVER, 0);
    }
    tally.assert_checked(&OF_COLUMNS.map(|(kind, _)| kind), 100);
}

#[test]
fn a_table_over_its_length() {
    let mut random = Random::new(102);
    let mut tally = Tally::new();
    for round in 0..3_500 {
        let laid = some(&mut random);
        let mut check = own(&mut random, &laid);
        let kind = OF_LENGTH[round % OF_LENGTH.len()];
        break_length(&mut random, kind, &laid, &mut check);
        refused(&mut tally, kind, &check, TABLE_OVER, 0);
    }
    tally.assert_checked(&OF_LENGTH, 500);
}

/// The greatest table that may be lent, and one without a record to spare.
#[test]
fn a_table_of_4096_and_one_that_is_full() {
    let mut random = Random::new(103);
    let mut tally = Tally::new();
    for _ in 0..300 {
        let laid = some(&mut random);
        for (kind, records) in [("4,096 records", MOST_RECORDS), ("full", laid.count())] {
            let check = laid.checked(&mut random, records, laid.list());
            assert_eq!(tally.check(kind, &check).name(), "accept");
        }
    }
}

/// A check with all 4,096 records in use.
#[test]
fn all_4096_records_in_use() {
    let mut random = Random::new(104);
    let mut tally = Tally::new();
    let in_use = good(&mut random, 16, MOST_RECORDS);
    assert_eq!(in_use.len(), MOST_RECORDS);
    let last = MOST_RECORDS as u16 + 1;
    let mut check = Check {
        columns: 16,
        table: lent(&mut random, &in_use, MOST_RECORDS),
        count: MOST_RECORDS,
        lower: last,
        upper: last,
        list: vec![0],
    };
    assert_eq!(tally.check("in use", &check).number, DONE);
    check.upper = last + 1;
    refused(&mut tally, "out of range", &check, OUTSIDE_RANGE, 0);
}

#[test]
fn a_record_that_breaks_its_rule() {
    let mut random = Random::new(105);
    let mut tally = Tally::new();
    while tally.calls() < 4_000 {
        let mut laid = some(&mut random);
        let damage = random.pick(&Damage::ALL);
        if laid.columns == 0 || !damage.inflict(&mut random, laid.columns, &mut laid.in_use) {
            continue;
        }
        let check = own(&mut random, &laid);
        refused(&mut tally, damage.name(), &check, RECORD_BROKEN, 0);
    }
    tally.assert_checked(&Damage::ALL.map(Damage::name), 40);
}

#[test]
fn roots_out_of_range() {
    let mut random = Random::new(106);
    let mut tally = Tally::new();
    for round in 0..3_000 {
        let laid = some(&mut random);
        let mut check = own(&mut random, &laid);
        let kind = OF_RANGE[round % OF_RANGE.len()];
        break_range(&mut random, kind, &laid, &mut check);
        refused(&mut tally, kind, &check, OUTSIDE_RANGE, 0);
    }
    tally.assert_checked(&OF_RANGE, 1_000);
}

/// Every pair of numbers of a table: refused where the first is not within the second, and a
/// verdict where it is.
#[test]
fn every_pair_of_roots_of_a_table() {
    let mut random = Random::new(107);
    let mut tally = Tally::new();
    for round in 0..110 {
        let columns = round % 11;
        let in_use = good(&mut random, columns, 9);
        let table = Table::of(columns, &in_use);
        for lower in 0..in_use.len() + 2 {
            for upper in 0..in_use.len() + 2 {
                let check = Check {
                    columns: columns as u16,
                    table: lent(&mut random, &in_use, 20),
                    count: in_use.len(),
                    lower: lower as u16,
                    upper: upper as u16,
                    list: some_cubes(&mut random, columns, 5),
                };
                let (l, u) = (table.function(lower), table.function(upper));
                if !l.within(&u) {
                    refused(&mut tally, "not within", &check, NOT_WITHIN, 0);
                } else {
                    let kind = if lower == upper { "equal" } else { "within" };
                    assert_eq!(tally.check(kind, &check).number, DONE);
                }
            }
        }
    }
    tally.assert_checked(&["not within"], 3_000);
    tally.assert_checked(&["equal", "within"], 500);
}

/// The greatest list slice, and one over it; 6 comes before 9.
#[test]
fn a_list_slice_over_16384() {
    let mut random = Random::new(108);
    let mut tally = Tally::new();
    for _ in 0..40 {
        let laid = some(&mut random);
        let mut check = own(&mut random, &laid);
        let cube = some_cube(&mut random, laid.columns);
        check.list.resize(MOST_CUBES, cube);
        assert_eq!(tally.check("16,384 cubes", &check).number, DONE);
        check.list[MOST_CUBES - 1] = 0x1_0001;
        refused(
            &mut tally,
            "the last of 16,384",
            &check,
            CUBE_MALFORMED,
            MOST_CUBES,
        );
        check.list.push(0);
        refused(&mut tally, "16,385 cubes", &check, LIST_OVER, 0);
        check.list.resize(40_000, cube);
        refused(&mut tally, "40,000 cubes", &check, LIST_OVER, 0);
    }
    let kinds = ["16,384 cubes", "the last of 16,384", "16,385 cubes"];
    tally.assert_checked(&kinds, 40);
}

/// Every number with bits for columns at and about the last, alone: malformed or not.
#[test]
fn every_number_about_the_last_column() {
    let mut random = Random::new(109);
    let mut tally = Tally::new();
    for columns in 0..=16 {
        let roots = Making::Cubes.roots(&mut random, columns, true);
        let laid = Laid::over(&mut random, columns, &[], roots);
        let near: Vec<usize> = (columns.saturating_sub(2)..16.min(columns + 2)).collect();
        for bits in 0..1u32 << (2 * near.len()) {
            let cube = near.iter().enumerate().fold(0, |cube, (i, &column)| {
                cube | (bits >> (2 * i) & 1) << column | (bits >> (2 * i + 1) & 1) << (16 + column)
            });
            let check = laid.checked(&mut random, laid.count(), vec![cube]);
            if well_formed(cube, columns) {
                assert_eq!(tally.check("well formed", &check).number, DONE);
            } else {
                refused(&mut tally, "malformed", &check, CUBE_MALFORMED, 1);
            }
        }
    }
    tally.assert_checked(&["well formed", "malformed"], 100);
}

/// Any numbers at all: the position is that of the first malformed one.
#[test]
fn the_first_malformed_cube() {
    let mut random = Random::new(110);
    let mut tally = Tally::new();
    for _ in 0..3_000 {
        let laid = some(&mut random);
        let mut list = laid.list();
        list.extend(some_cubes(&mut random, laid.columns, 6));
        let malformed = [Change::BothBits, Change::BitBeyond];
        for _ in 0..1 + random.below(3) {
            random
                .pick(&malformed)
                .make(&mut random, laid.columns, &mut list);
        }
        if random.below(4) == 0 {
            list.push(random.below(1 << 32) as u32);
        }
        let first = list
            .iter()
            .position(|&cube| !well_formed(cube, laid.columns));
        let check = laid.checked(&mut random, laid.count(), list);
        match first {
            Some(0) => refused(&mut tally, "the first", &check, CUBE_MALFORMED, 1),
            Some(i) => refused(&mut tally, "a later one", &check, CUBE_MALFORMED, i + 1),
            None => assert_eq!(tally.check("none", &check).number, DONE),
        }
    }
    tally.assert_checked(&["the first", "a later one", "none"], 100);
}

/// Faults of several numbers in one call: the smallest is given.
#[test]
fn several_faults_at_once() {
    let mut random = Random::new(111);
    let mut tally = Tally::new();
    let (mut first, mut alone) = ([0; 10], [0; 10]);
    let all = [
        COLUMNS_OVER,
        TABLE_OVER,
        RECORD_BROKEN,
        OUTSIDE_RANGE,
        NOT_WITHIN,
        LIST_OVER,
        CUBE_MALFORMED,
    ];
    while tally.calls() < 6_000 {
        let mut faults = all.to_vec();
        faults.retain(|_| random.below(3) == 0);
        let mut laid = some(&mut random);
        let mut list = laid.list();
        if !break_laid(&mut random, &faults, &mut laid) {
            continue;
        }
        if faults.contains(&LIST_OVER) {
            list.resize(MOST_CUBES + 1, 0);
        }
        let mut returned = 0;
        if faults.contains(&CUBE_MALFORMED) {
            let place = random.below(list.len() + 1);
            list.insert(place, 0x8000_8000);
            returned = place + 1;
        }
        let mut check = laid.checked(&mut random, laid.count(), list);
        break_call(&mut random, &faults, &laid, &mut check);
        let number = match faults.first() {
            Some(&CUBE_MALFORMED) => {
                refused(&mut tally, "faults", &check, CUBE_MALFORMED, returned);
                CUBE_MALFORMED
            }
            Some(&number) => {
                refused(&mut tally, "faults", &check, number, 0);
                number
            }
            None => tally.check("none", &check).number,
        };
        let counted = if faults.len() > 1 {
            &mut first
        } else {
            &mut alone
        };
        counted[number as usize] += 1;
    }
    for fault in all {
        assert!(alone[fault as usize] >= 50, "{alone:?}");
        // Nothing comes after 9.
        let before_another = fault == CUBE_MALFORMED || first[fault as usize] >= 50;
        assert!(before_another, "{first:?}");
    }
}
