//! Operations in range on tables that keep their rule, with room to spare, with exactly the room
//! that is needed, and with one record less.

use compare::call::{Asked, Call, Outcome, Slices};
use compare::random::Random;
use compare::tables::{good, lent};
use compare::tally::Tally;
use second::table::Record;

/// Calls an operation with each room, and gives the outcome with room to spare.
fn call_with_each_room(
    random: &mut Random,
    tally: &mut Tally,
    columns: usize,
    in_use: &[Record],
    asked: Asked,
) -> Outcome {
    let count = in_use.len();
    let need = asked.need(columns, in_use);
    let mut call = |kind, length, number| {
        let call = Call {
            columns: columns as u16,
            table: lent(random, in_use, length),
            count,
            asked,
        };
        let outcome = tally.call(kind, &call);
        assert_eq!(outcome.number, number, "{kind}");
        outcome
    };
    if need > count {
        call("one record short", need - 1, 7);
    }
    call("exact room", need, 0);
    let spare = call("room to spare", need + 1 + need % 7, 0);
    if asked.name() != "value" {
        assert_eq!(spare.others[1], need as u64);
    }
    spare
}

fn call_random_tables(seed: u64, columns: &[usize], records: &[usize], tables: usize) -> Tally {
    let mut random = Random::new(seed);
    let mut tally = Tally::new();
    for round in 0..tables {
        let columns = columns[round % columns.len()];
        let most = random.pick(records);
        let in_use = good(&mut random, columns, most);
        for _ in 0..4 {
            let asked = Asked::random(&mut random, columns, in_use.len());
            call_with_each_room(&mut random, &mut tally, columns, &in_use, asked);
        }
    }
    tally.assert_each(&["one record short"], &Asked::BUILDING, tables / 30);
    tally.assert_every(&["exact room", "room to spare"], tables / 2);
    tally
}

#[test]
fn up_to_ten_columns() {
    let columns: Vec<usize> = (0..=10).collect();
    let tally = call_random_tables(1, &columns, &[0, 2, 6, 15, 40, 80], 12_000);
    assert!(tally.calls() >= 100_000, "{} calls", tally.calls());
}

#[test]
fn eleven_to_sixteen_columns() {
    let columns: Vec<usize> = (11..=16).collect();
    let tally = call_random_tables(2, &columns, &[0, 5, 12, 30], 300);
    assert!(tally.calls() >= 2_500, "{} calls", tally.calls());
}

/// Every pair of numbers of one table, and every value.
#[test]
fn every_pair_of_a_table() {
    let mut random = Random::new(3);
    let mut tally = Tally::new();
    for columns in 0..=4 {
        let in_use = good(&mut random, columns, 12);
        let numbers = 0..in_use.len() as u16 + 2;
        for a in numbers.clone() {
            for b in numbers.clone() {
                for asked in [Asked::And(a, b), Asked::Or(a, b), Asked::Difference(a, b)] {
                    call_with_each_room(&mut random, &mut tally, columns, &in_use, asked);
                }
            }
            for point in 0..1 << columns {
                let asked = Asked::Value(a, point);
                call_with_each_room(&mut random, &mut tally, columns, &in_use, asked);
            }
        }
        for column in 0..columns as u16 {
            let asked = Asked::Variable(column);
            call_with_each_room(&mut random, &mut tally, columns, &in_use, asked);
        }
    }
    tally.assert_each(&["one record short"], &Asked::OF_TWO_ROOTS, 10);
    tally.assert_each(&["exact room", "room to spare"], &["value"], 200);
}

/// Tables that grow from nothing by the operations themselves, until their room is full.
#[test]
fn grown_tables() {
    let mut random = Random::new(4);
    let mut tally = Tally::new();
    for round in 0..400 {
        let columns = 1 + round % 9;
        let length = random.pick(&[4, 20, 60, 120]);
        let mut table: Slices = lent(&mut random, &[], length);
        let mut count = 0;
        for _ in 0..60 {
            let call = Call {
                columns: columns as u16,
                table,
                count,
                asked: Asked::random(&mut random, columns, count),
            };
            let outcome = tally.call("grown", &call);
            if let [_, after] = outcome.others[..] {
                count = after as usize;
            }
            match outcome.number {
                0 => {}
                7 => tally.note("full", call.asked),
                number => panic!("refused {number}"),
            }
            table = outcome.table;
        }
    }
    tally.assert_every(&["grown"], 1_000);
    tally.assert_each(&["full"], &Asked::BUILDING, 50);
    assert_eq!(tally.calls(), 24_000);
}
