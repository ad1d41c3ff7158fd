//! Each refusal of the generator from 1 to 6, on both sides of its boundary, and several faults at
//! once: the first that applies is given, and nothing changes.

use compare::faults::{break_call, break_laid, break_length, break_range, some};
use compare::faults::{OF_COLUMNS, OF_LENGTH, OF_RANGE};
use compare::functions::{room, Laid};
use compare::generation::{Generation, Listed};
use compare::random::Random;
use compare::tables::{good, lent, Damage};
use compare::tally::Tally;
use second::refusal::{COLUMNS_OVER, DONE, LIST_OVER, LIST_ROOM_LACKING};
use second::refusal::{MOST_CUBES, MOST_RECORDS, NOT_WITHIN, OUTSIDE_RANGE};
use second::refusal::{RECORD_BROKEN, TABLE_OVER};
use second::table::Table;

/// A call with all that is needed and a little more.
fn ample(random: &mut Random, laid: &Laid) -> Generation {
    let told = laid.generation();
    let records = told.need + random.below(5);
    let cubes = told.cubes.len() + random.below(5);
    laid.asked(random, records, cubes)
}

/// Generates, and the call is refused with a number and changes nothing.
fn refused(tally: &mut Tally, kind: &'static str, generation: &Generation, number: u32) {
    let Generation { table, room, .. } = generation.clone();
    let unchanged = Listed {
        number,
        returned: 0,
        length: 0,
        table,
        room,
    };
    let listed = tally.generate(kind, generation);
    assert!(listed == unchanged, "{kind}: {generation}");
}

#[test]
fn columns_over_16() {
    let mut random = Random::new(61);
    let mut tally = Tally::new();
    for _ in 0..2_000 {
        let laid = some(&mut random);
        let mut generation = ample(&mut random, &laid);
        assert_eq!(tally.generate("done", &generation).number, DONE);
        let (kind, over) = random.pick(&OF_COLUMNS);
        generation.columns = over;
        refused(&mut tally, kind, &generation, COLUMNS_OVER);
    }
    tally.assert_generated(&OF_COLUMNS.map(|(kind, _)| kind), 200);
}

#[test]
fn a_table_over_its_length() {
    let mut random = Random::new(62);
    let mut tally = Tally::new();
    for round in 0..3_500 {
        let laid = some(&mut random);
        let mut generation = ample(&mut random, &laid);
        let kind = OF_LENGTH[round % OF_LENGTH.len()];
        break_length(&mut random, kind, &laid, &mut generation);
        refused(&mut tally, kind, &generation, TABLE_OVER);
    }
    tally.assert_generated(&OF_LENGTH, 500);
}

/// The greatest table that may be lent.
#[test]
fn a_table_of_4096() {
    let mut random = Random::new(63);
    let mut tally = Tally::new();
    for _ in 0..300 {
        let laid = some(&mut random);
        let told = laid.generation();
        let generation = laid.asked(&mut random, MOST_RECORDS, told.cubes.len());
        let listed = tally.generate("4,096 records", &generation);
        assert_eq!(listed.numbers(), (DONE, 0, told.cubes.len() as u64));
    }
}

#[test]
fn a_record_that_breaks_its_rule() {
    let mut random = Random::new(64);
    let mut tally = Tally::new();
    while tally.calls() < 4_000 {
        let mut laid = some(&mut random);
        let damage = random.pick(&Damage::ALL);
        if laid.columns == 0 || !damage.inflict(&mut random, laid.columns, &mut laid.in_use) {
            continue;
        }
        let records = laid.count() + random.below(20);
        let cubes = random.below(20);
        let generation = laid.asked(&mut random, records, cubes);
        refused(&mut tally, damage.name(), &generation, RECORD_BROKEN);
    }
    tally.assert_generated(&Damage::ALL.map(Damage::name), 40);
}

#[test]
fn roots_out_of_range() {
    let mut random = Random::new(65);
    let mut tally = Tally::new();
    for round in 0..3_000 {
        let laid = some(&mut random);
        let mut generation = ample(&mut random, &laid);
        let kind = OF_RANGE[round % OF_RANGE.len()];
        break_range(&mut random, kind, &laid, &mut generation);
        refused(&mut tally, kind, &generation, OUTSIDE_RANGE);
    }
    tally.assert_generated(&OF_RANGE, 1_000);
}

/// Every pair of numbers of a table: refused where the first is not within the second, and a list
/// where it is.
#[test]
fn every_pair_of_roots_of_a_table() {
    let mut random = Random::new(66);
    let mut tally = Tally::new();
    for round in 0..110 {
        let columns = round % 11;
        let in_use = good(&mut random, columns, 9);
        let table = Table::of(columns, &in_use);
        for lower in 0..in_use.len() + 2 {
            for upper in 0..in_use.len() + 2 {
                let generation = Generation {
                    columns: columns as u16,
                    table: lent(&mut random, &in_use, 200),
                    count: in_use.len(),
                    lower: lower as u16,
                    upper: upper as u16,
                    room: room(&mut random, 60),
                };
                let (l, u) = (table.function(lower), table.function(upper));
                if !l.within(&u) {
                    refused(&mut tally, "not within", &generation, NOT_WITHIN);
                } else {
                    let kind = if lower == upper { "equal" } else { "within" };
                    assert_eq!(tally.generate(kind, &generation).number, DONE);
                }
            }
        }
    }
    tally.assert_generated(&["not within"], 3_000);
    tally.assert_generated(&["equal", "within"], 500);
}

/// The greatest list slice, and one over it; 6 comes before 7.
#[test]
fn a_list_slice_over_16384() {
    let mut random = Random::new(67);
    let mut tally = Tally::new();
    for _ in 0..150 {
        let laid = some(&mut random);
        let told = laid.generation();
        let at = laid.asked(&mut random, told.need, MOST_CUBES);
        let listed = tally.generate("16,384 cubes", &at);
        assert_eq!(listed.numbers(), (DONE, 0, told.cubes.len() as u64));
        for records in [laid.count(), told.need] {
            let over = laid.asked(&mut random, records, MOST_CUBES + 1);
            refused(&mut tally, "16,385 cubes", &over, LIST_OVER);
        }
        let over = laid.asked(&mut random, told.need, 40_000);
        refused(&mut tally, "40,000 cubes", &over, LIST_OVER);
    }
    tally.assert_generated(&["16,384 cubes", "40,000 cubes"], 150);
    tally.assert_generated(&["16,385 cubes"], 300);
}

/// Faults of several numbers in one call: the smallest is given. No list room and no work record
/// is lent, so that 7 or 8 could be given for any fault that is overlooked.
#[test]
fn several_faults_at_once() {
    let mut random = Random::new(68);
    let mut tally = Tally::new();
    let (mut first, mut alone) = ([0; 9], [0; 9]);
    while tally.calls() < 6_000 {
        let mut faults = Vec::new();
        for fault in COLUMNS_OVER..=LIST_OVER {
            if random.below(3) == 0 {
                faults.push(fault);
            }
        }
        let mut laid = some(&mut random);
        if !break_laid(&mut random, &faults, &mut laid) {
            continue;
        }
        let cubes = if faults.contains(&LIST_OVER) {
            MOST_CUBES + 1
        } else {
            0
        };
        let mut generation = laid.asked(&mut random, laid.count(), cubes);
        break_call(&mut random, &faults, &laid, &mut generation);
        let number = match faults.first() {
            Some(&number) => {
                refused(&mut tally, "faults", &generation, number);
                number
            }
            None => tally.generate("rooms", &generation).number,
        };
        let counted = if faults.len() > 1 {
            &mut first
        } else {
            &mut alone
        };
        counted[number as usize] += 1;
    }
    let least = |counts: &[usize]| counts.iter().all(|&count| count >= 50);
    assert!(least(&alone[..=LIST_ROOM_LACKING as usize]), "{alone:?}");
    let before_another = &first[COLUMNS_OVER as usize..=NOT_WITHIN as usize];
    assert!(least(before_another), "{first:?}");
}
