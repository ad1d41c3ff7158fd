//! Tables damaged in one place of each kind, and several faults at once: the first refusal that
//! applies is given, and nothing changes.

use compare::call::{Asked, Call, Slices};
use compare::random::Random;
use compare::tables::{good, lent, Damage};
use compare::tally::Tally;
use second::table::Record;

/// Good records of a random number of columns, from 1 to 10.
fn some(random: &mut Random) -> (usize, Vec<Record>) {
    let columns = 1 + random.below(10);
    let most = random.pick(&[1, 3, 8, 25]);
    (columns, good(random, columns, most))
}

/// Calls, and the call is refused with a number and changes nothing.
fn refused(tally: &mut Tally, kind: &'static str, call: &Call, number: u32) {
    let outcome = tally.call(kind, call);
    assert_eq!(outcome.number, number, "{kind}: {call}");
    assert!(outcome.table == call.table, "{kind}: {call}");
    let others = match call.asked {
        Asked::Value(..) => vec![0],
        _ => vec![0, call.count as u64],
    };
    assert_eq!(outcome.others, others);
}

#[test]
fn a_record_that_breaks_its_rule() {
    let mut random = Random::new(11);
    let mut tally = Tally::new();
    while tally.calls() < 20_000 {
        let (columns, mut in_use) = some(&mut random);
        let damage = random.pick(&Damage::ALL);
        let before = in_use.len();
        if !damage.inflict(&mut random, columns, &mut in_use) {
            continue;
        }
        let count = in_use.len();
        let length = count + random.below(10);
        let call = Call {
            columns: columns as u16,
            table: lent(&mut random, &in_use, length),
            count,
            asked: Asked::random(&mut random, columns, before),
        };
        refused(&mut tally, damage.name(), &call, 3);
    }
    tally.assert_every(&Damage::ALL.map(Damage::name), 100);
}

/// The record just past the count may be anything.
#[test]
fn a_broken_record_past_the_count() {
    let mut random = Random::new(12);
    let mut tally = Tally::new();
    while tally.calls() < 5_000 {
        let (columns, good) = some(&mut random);
        let mut in_use = good.clone();
        let damage = random.pick(&Damage::ALL);
        if !damage.inflict(&mut random, columns, &mut in_use) {
            continue;
        }
        let first = (0..in_use.len())
            .find(|&i| good.get(i) != Some(&in_use[i]))
            .unwrap();
        let asked = Asked::random(&mut random, columns, first);
        let length = in_use.len().max(asked.need(columns, &in_use[..first]));
        let call = Call {
            columns: columns as u16,
            table: lent(&mut random, &in_use, length),
            count: first,
            asked,
        };
        assert_eq!(tally.call(damage.name(), &call).number, 0);
    }
    tally.assert_every(&Damage::ALL.map(Damage::name), 20);
}

/// A name, and the way to it from a good call whose table is longer than its records in use.
type Wrong = (&'static str, fn(&mut Random, &mut Call));

const OF_LENGTH: [Wrong; 6] = [
    ("count one over the length", |_, call| {
        call.count = call.table.level.len() + 1;
    }),
    ("count far over the length", |random, call| {
        let length = call.table.level.len();
        call.count = random.pick(&[length + 2, 4_096, 4_097, usize::MAX]);
    }),
    ("4,097 records", |random, call| {
        let records = call.table.records().unwrap();
        call.table = lent(random, &records, 4_097);
    }),
    ("one slice longer", |random, call| {
        one_slice(random, &mut call.table).push(0);
    }),
    ("one slice shorter", |random, call| {
        one_slice(random, &mut call.table).pop();
    }),
    ("one slice empty", |random, call| {
        one_slice(random, &mut call.table).clear();
    }),
];

fn one_slice<'a>(random: &mut Random, table: &'a mut Slices) -> &'a mut Vec<u16> {
    match random.below(3) {
        0 => &mut table.level,
        1 => &mut table.low,
        _ => &mut table.high,
    }
}

#[test]
fn a_table_over_its_length() {
    let mut random = Random::new(13);
    let mut tally = Tally::new();
    while tally.calls() < 6_000 {
        let (columns, in_use) = some(&mut random);
        let count = in_use.len();
        let length = count + 1 + random.below(6);
        let mut call = Call {
            columns: columns as u16,
            table: lent(&mut random, &in_use, length),
            count,
            asked: Asked::random(&mut random, columns, count),
        };
        let (kind, damage) = random.pick(&OF_LENGTH);
        damage(&mut random, &mut call);
        refused(&mut tally, kind, &call, 2);
    }
    tally.assert_every(&OF_LENGTH.map(|(kind, _)| kind), 100);
}

/// Faults of several numbers in one call: the smallest is given.
#[test]
fn several_faults_at_once() {
    let mut random = Random::new(14);
    let mut tally = Tally::new();
    while tally.calls() < 10_000 {
        let faults: Vec<u32> = [1, 2, 3, 4]
            .into_iter()
            .filter(|_| random.below(2) == 0)
            .collect();
        let (columns, mut in_use) = some(&mut random);
        if faults.contains(&3) {
            let damage = random.pick(&Damage::ALL);
            if !damage.inflict(&mut random, columns, &mut in_use) {
                continue;
            }
        }
        let count = in_use.len();
        // No room to spare, so that 7 could be given for any fault that is overlooked.
        let mut call = Call {
            columns: columns as u16,
            table: lent(&mut random, &in_use, count),
            count,
            asked: Asked::random(&mut random, columns, count),
        };
        if faults.contains(&4) {
            call.asked = out_of_range(&mut random, call.asked, columns, count);
        }
        if faults.contains(&2) {
            match random.below(3) {
                0 => call.count += 1 + random.below(3),
                1 => call.table.high.push(0),
                _ => call.table = lent(&mut random, &in_use, 4_097),
            }
        }
        if faults.contains(&1) {
            call.columns = random.pick(&[17, 18, 255, 65_535]);
        }
        let kind = kind_of(&faults);
        match faults.first() {
            Some(&number) => refused(&mut tally, kind, &call, number),
            None => {
                let number = tally.call(kind, &call).number;
                assert!(number == 0 || number == 7);
            }
        }
    }
    tally.assert_every(&SEVERAL, 20);
}

/// The same operation with an operand, a column, a root or a point outside its range.
fn out_of_range(random: &mut Random, asked: Asked, columns: usize, count: usize) -> Asked {
    let past = count as u16 + 2;
    let far = random.pick(&[past, past + 1, 65_535]);
    match asked {
        Asked::And(a, _) => Asked::And(a, far),
        Asked::Or(_, b) => Asked::Or(far, b),
        Asked::Difference(..) => Asked::Difference(far, far),
        Asked::Variable(..) => Asked::Variable(random.pick(&[columns as u16, 65_535])),
        Asked::Value(root, _) => {
            let past = 1u32 << columns;
            let point = random.pick(&[past, past + 1, u32::MAX]);
            random.pick(&[Asked::Value(far, 0), Asked::Value(root, point)])
        }
    }
}

/// A name for each set of the faults 1 to 4, by the bits of its place.
const SEVERAL: [&str; 16] = [
    "none", "1", "2", "1 2", "3", "1 3", "2 3", "1 2 3", "4", "1 4", "2 4", "1 2 4", "3 4",
    "1 3 4", "2 3 4", "1 2 3 4",
];

fn kind_of(faults: &[u32]) -> &'static str {
    let place: usize = faults.iter().map(|fault| 1 << (fault - 1)).sum();
    SEVERAL[place]
}
