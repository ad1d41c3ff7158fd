//! Function texts and the tables they are read into: of every length up to the need, of 4,096 records
//! and one over, of slices of different length; and several faults at once.

use compare::call::Slices;
use compare::random::Random;
use compare::tables::lent;
use compare::tally::Tally;
use compare::text_entry::{Entry, FunctionText, Given};
use compare::texts::{good, Form, Line, Text};
use second::reading::{meaning, need};
use second::refusal::{DONE, MOST_BYTES, MOST_RECORDS, NODE_ROOM_LACKING, ON_AND_OFF};
use second::refusal::{TABLE_OVER, TEXT_FAULT, TEXT_OVER};
use second::text::{read, Asked};

/// The records that a good text needs, and whether a point is both on and off.
fn told(text: &[u8]) -> (usize, bool) {
    let told = read(text, Asked::Function).unwrap();
    (need(&told), meaning(&told).on_and_off)
}

/// Reads a text into a table of so many records.
fn read_into(
    tally: &mut Tally,
    random: &mut Random,
    kind: &'static str,
    text: &[u8],
    records: usize,
) -> Given<Slices> {
    let table = lent(random, &[], records);
    tally.ask(kind, &FunctionText { text, table })
}

/// Reads a text, which is refused; 10 and 2 leave what was there, the others zeros.
fn refused(tally: &mut Tally, kind: &'static str, asked: &FunctionText, number: u32, line: usize) {
    let given = tally.ask(kind, asked);
    let numbers = (number, line as u64, &[0; 4][..]);
    assert_eq!(given.numbers(), numbers, "{kind}: {asked}");
    let mut left = asked.table.clone();
    if ![TEXT_OVER, TABLE_OVER].contains(&number) {
        for slice in [&mut left.level, &mut left.low, &mut left.high] {
            slice.fill(0);
        }
    }
    assert!(given.lent == left, "{kind}: {asked}");
}

/// Exactly the need is enough, and nothing less.
#[test]
fn tables_of_every_length() {
    let mut random = Random::new(160);
    let mut tally = Tally::new();
    for round in 0..900 {
        let columns = 1 + round % 10;
        let rows = random.below(8);
        let text = good(&mut random, Form::Function, columns, rows).bytes();
        let (need, on_and_off) = told(&text);
        for records in 0..=need + 2 {
            let given = read_into(&mut tally, &mut random, "every length", &text, records);
            let number = match () {
                _ if records < need => NODE_ROOM_LACKING,
                _ if on_and_off => ON_AND_OFF,
                _ => DONE,
            };
            assert_eq!(given.number, number, "{records} of {need}");
            if number == DONE {
                assert_eq!(given.others[1], need as u64);
            }
        }
    }
    tally.assert_returned::<FunctionText>(&[DONE, NODE_ROOM_LACKING], 1_500);
    tally.assert_returned::<FunctionText>(&[ON_AND_OFF], 30);
}

/// A text of which the reading names exactly as many nodes as the greatest table has records, found
/// by the library's own count; and the same with one row more, which needs more.
fn greatest(random: &mut Random) -> (Text, Text) {
    loop {
        let mut text = Text::of(16, ".i 16\n.o 1\n.type fr\n");
        let mut count = 0;
        for _ in 0..200 {
            let mut longer = text.clone();
            longer.lines.push(some_row(random, count));
            let table = lent(random, &[], MOST_RECORDS);
            let bytes = longer.bytes();
            let given = FunctionText {
                text: &bytes,
                table,
            }
            .by_library();
            if given.number == DONE {
                count = given.others[1] as usize;
                text = longer;
            } else if count == MOST_RECORDS {
                return (text, longer);
            }
        }
    }
}

#[test]
fn exactly_4096_needed_and_more() {
    let mut random = Random::new(161);
    let mut tally = Tally::new();
    let (exact, over) = greatest(&mut random);
    for (text, records, number) in [
        (&exact, MOST_RECORDS, DONE),
        (&exact, MOST_RECORDS - 1, NODE_ROOM_LACKING),
        (&over, MOST_RECORDS, NODE_ROOM_LACKING),
        (&over, MOST_RECORDS + 1, TABLE_OVER),
    ] {
        let text = text.bytes();
        let given = read_into(&mut tally, &mut random, "4,096 needed", &text, records);
        assert_eq!(given.number, number);
    }
}

/// A row that is on in the first column's 1, or off in its 0; the nearer the table is to be full,
/// the fewer literals.
fn some_row(random: &mut Random, count: usize) -> Line {
    let output = random.pick(&["0", "1"]);
    let bound = if count < 3_900 { 2 } else { 8 };
    let sign = |_| match random.below(bound) {
        0 => random.pick(&["0", "1"]),
        _ => "-",
    };
    let signs: String = (1..16).map(sign).collect();
    Line::of(&[&format!("{output}{signs}"), output])
}

const OF_LENGTH: [&str; 5] = [
    "one slice longer",
    "one slice shorter",
    "one slice empty",
    "4,097 records",
    "40,000 records",
];

#[test]
fn a_table_over_its_length() {
    let mut random = Random::new(162);
    let mut tally = Tally::new();
    for round in 0..1_000 {
        let columns = 1 + random.below(8);
        let rows = random.below(6);
        let text = good(&mut random, Form::Function, columns, rows).bytes();
        let (need, on_and_off) = told(&text);
        let done = read_into(&mut tally, &mut random, "done", &text, MOST_RECORDS);
        assert_eq!(done.number, if on_and_off { ON_AND_OFF } else { DONE });
        let kind = OF_LENGTH[round % OF_LENGTH.len()];
        let length = match kind {
            "4,097 records" => 4_097,
            "40,000 records" => 40_000,
            _ => need + 1,
        };
        let mut table = lent(&mut random, &[], length);
        let slice = match random.below(3) {
            0 => &mut table.level,
            1 => &mut table.low,
            _ => &mut table.high,
        };
        match kind {
            "one slice longer" => slice.push(random.any()),
            "one slice shorter" => slice.truncate(need),
            "one slice empty" => slice.clear(),
            _ => {}
        }
        let asked = FunctionText { text: &text, table };
        refused(&mut tally, kind, &asked, TABLE_OVER, 0);
    }
    tally.assert_returned::<FunctionText>(&[TABLE_OVER], 1_000);
    tally.assert_returned::<FunctionText>(&[DONE], 700);
}

/// Faults of several numbers in one call: the first in the order 10, 2, 11, 7, 12 is given.
#[test]
fn several_faults_at_once() {
    let mut random = Random::new(163);
    let mut tally = Tally::new();
    for _ in 0..3_000 {
        let mut text = Text::of(3, ".i 3\n.o 1\n.type fr\n1-1 1\n0-1 0\n10- 1\n");
        let mut number = DONE;
        let mut line = 0;
        if random.below(2) == 0 {
            let output = random.pick(&["0", "1"]);
            text.lines.push(Line::of(&["-11", output]));
            number = ON_AND_OFF;
        }
        let (need, _) = told(&text.bytes());
        let mut records = need + random.below(3);
        if random.below(2) == 0 {
            records = random.below(need);
            number = NODE_ROOM_LACKING;
        }
        if random.below(3) == 0 {
            let bad = random.below(text.lines.len());
            text.lines[bad].after.push(b'x');
            (number, line) = (TEXT_FAULT, bad + 1);
        }
        let mut table = lent(&mut random, &[], records);
        if random.below(4) == 0 {
            match random.below(4) {
                0 => table.level.push(0),
                1 => table.low.push(1),
                2 => table.high.push(2),
                _ => table = lent(&mut random, &[], 4_097),
            }
            (number, line) = (TABLE_OVER, 0);
        }
        let mut text = text.bytes();
        if random.below(6) == 0 {
            text.resize(MOST_BYTES + 1, b'\n');
            (number, line) = (TEXT_OVER, 0);
        }
        let asked = FunctionText { text: &text, table };
        if number == DONE {
            assert_eq!(tally.ask("done", &asked).number, DONE);
        } else {
            refused(&mut tally, "faults", &asked, number, line);
        }
    }
    let numbers = [
        TABLE_OVER,
        NODE_ROOM_LACKING,
        TEXT_OVER,
        TEXT_FAULT,
        ON_AND_OFF,
    ];
    tally.assert_returned::<FunctionText>(&numbers, 200);
    tally.assert_returned::<FunctionText>(&[DONE], 200);
}
