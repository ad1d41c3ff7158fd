//! Every entry on rows of no record, of one, of 4,096 and of 4,097: one record too many is refused
//! with 2 and changes nothing, after too many columns or too long a text.

use compare::call::{Asked, Call, Slices};
use compare::check::Check;
use compare::generation::Generation;
use compare::random::Random;
use compare::tables::{good, lent};
use compare::tally::Tally;
use compare::text_entry::FunctionText;
use second::refusal::{COLUMNS_OVER, MOST_BYTES, TABLE_OVER, TEXT_OVER};
use second::table::Record;

/// The lengths, and their names.
const LENGTHS: [usize; 4] = [0, 1, 4_096, 4_097];
const KINDS: [&str; 4] = ["no record", "one record", "4,096 records", "4,097 records"];
const COLUMNS: [usize; 5] = [1, 4, 16, 17, 65_535];

/// Tables of each length, with some records in use that fit, for each number of columns.
fn each_row(mut told: impl FnMut(&'static str, u16, &[Record], Slices)) {
    let mut random = Random::new(61);
    for (kind, length) in KINDS.into_iter().zip(LENGTHS) {
        for columns in COLUMNS {
            for most in [0, 1, 30] {
                let in_use = good(&mut random, columns.min(16), most.min(length));
                let table = lent(&mut random, &in_use, length);
                told(kind, columns as u16, &in_use, table);
            }
        }
    }
}

/// The refusal of the columns, then of the length; `None` where another may follow.
fn refusal(columns: u16, table: &Slices) -> Option<u32> {
    match (columns, table.level.len()) {
        (17.., _) => Some(COLUMNS_OVER),
        (_, 4_097..) => Some(TABLE_OVER),
        _ => None,
    }
}

#[test]
fn the_operations() {
    let mut random = Random::new(62);
    let mut tally = Tally::new();
    each_row(|kind, columns, in_use, table| {
        for place in 0..5 {
            let call = Call {
                columns,
                table: table.clone(),
                count: in_use.len(),
                asked: Asked::in_range(&mut random, place, 1, in_use.len()),
            };
            let outcome = tally.call(kind, &call);
            if let Some(number) = refusal(columns, &table) {
                assert_eq!((outcome.number, &outcome.table), (number, &table));
            }
        }
    });
    tally.assert_every(&KINDS, 15);
    assert_eq!((tally.calls(), tally.on_rows()), (300, 300));
}

#[test]
fn the_generator() {
    let mut random = Random::new(63);
    let mut tally = Tally::new();
    each_row(|kind, columns, in_use, table| {
        for cubes in [0, 3] {
            let upper = random.below(in_use.len() + 2) as u16;
            let generation = Generation {
                columns,
                table: table.clone(),
                count: in_use.len(),
                lower: random.pick(&[0, upper]),
                upper,
                room: vec![7; cubes],
            };
            let listed = tally.generate(kind, &generation);
            if let Some(number) = refusal(columns, &table) {
                assert_eq!((listed.number, &listed.table), (number, &table));
                assert_eq!(listed.room, generation.room);
            }
        }
    });
    tally.assert_generated(&KINDS, 30);
    assert_eq!((tally.calls(), tally.on_rows()), (120, 120));
}

#[test]
fn the_checker() {
    let mut random = Random::new(64);
    let mut tally = Tally::new();
    each_row(|kind, columns, in_use, table| {
        for list in [vec![], vec![0], vec![1, 1 << 16]] {
            let upper = random.below(in_use.len() + 2) as u16;
            let check = Check {
                columns,
                table: table.clone(),
                count: in_use.len(),
                lower: random.pick(&[0, upper]),
                upper,
                list,
            };
            let judged = tally.check(kind, &check);
            if let Some(number) = refusal(columns, &table) {
                assert_eq!(judged.number, number);
            }
        }
    });
    tally.assert_checked(&KINDS, 45);
    assert_eq!((tally.calls(), tally.on_rows()), (180, 180));
}

#[test]
fn function_texts() {
    let mut random = Random::new(65);
    let mut tally = Tally::new();
    let long = vec![b'#'; MOST_BYTES + 1];
    let texts: [&[u8]; 5] = [
        b"",
        b".i 1\n.o 1\n1 1\n",
        b".i 4\n.o 1\n01-1 1\n1-10 1\n0--0 -\n.e\n",
        b".i 2\n.o 1\n.type fr\n1- 1\n-1 0\n",
        &long,
    ];
    for (kind, length) in KINDS.into_iter().zip(LENGTHS) {
        for text in texts {
            let table = lent(&mut random, &[], length);
            let entry = FunctionText {
                text,
                table: table.clone(),
            };
            let given = tally.ask(kind, &entry);
            let over = text.len() > MOST_BYTES;
            if over || length > 4_096 {
                assert_eq!(given.number, if over { TEXT_OVER } else { TABLE_OVER });
                assert_eq!(given.lent, table);
            }
        }
    }
    tally.assert_each(&KINDS, &["function text"], 5);
    assert_eq!((tally.calls(), tally.on_rows()), (20, 20));
}
