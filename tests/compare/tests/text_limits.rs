//! Both sides of every boundary of reading: bytes of a text, cubes of a room, columns, numbers of
//! lines and of rows; and several faults at once.

use compare::functions::room;
use compare::lists::some_cubes;
use compare::random::Random;
use compare::reader::Reader;
use compare::tables::lent;
use compare::tally::Tally;
use compare::text_entry::{Candidate, FunctionText, Given};
use compare::texts::Text;
use second::refusal::{COLUMNS_OVER, DONE, LIST_OVER, LIST_ROOM_LACKING, MOST_BYTES, MOST_CUBES};
use second::refusal::{MOST_RECORDS, NODE_ROOM_LACKING, TEXT_FAULT, TEXT_OVER};
use second::writing::text_of;

/// Ways to bring a text to a length.
const FILLINGS: [&str; 7] = [
    "rows of one column",
    "rows of sixteen columns",
    "a comment",
    "blanks",
    "empty lines",
    "signs in one field",
    "bytes after the end",
];

/// A text of exactly so many bytes, with its columns.
fn filled(kind: &str, bytes: usize) -> (usize, Vec<u8>) {
    let (columns, start, filling, end): (_, &[u8], &[u8], &[u8]) = match kind {
        "rows of one column" => (1, b".i 1\n.o 1\n", b"0 1\n", b"#\n.e\n"),
        "rows of sixteen columns" => (16, b".i 16\n.o 1\n", b"0------1-------- 1\n", b"#"),
        "a comment" => (2, b".i 2\n.o 1\n01 1 #", b"\r", b"\n.e"),
        "blanks" => (2, b".i 2\n.o 1\n01", b" \t", b"1\n"),
        "empty lines" => (2, b".i 2\n", b"\n", b".o 1\n01 1\n"),
        "signs in one field" => (16, b".i 16\n.o 1\n", b"01-", b" 1\n"),
        _ => (2, b".i 2\n.o 1\n01 1\n.e\n", b"\xff\n", b".i 2"),
    };
    // What is left over is filled with spaces where a line may have them, before the end.
    let most = (bytes - start.len() - end.len()) / filling.len();
    let text = [start, &filling.repeat(most)].concat();
    let left = bytes - text.len() - end.len();
    (columns, [&text, &b" ".repeat(left)[..], end].concat())
}

#[test]
fn texts_of_32768_and_32769_bytes() {
    let mut reader = Reader::new(150);
    for kind in FILLINGS {
        for bytes in [32_000, MOST_BYTES - 1, MOST_BYTES] {
            let (columns, text) = filled(kind, bytes);
            assert_eq!(text.len(), bytes);
            reader.read("as long as may be", columns, text);
        }
        for bytes in [MOST_BYTES + 1, MOST_BYTES + 2, 65_536, 65_537, 131_072] {
            let (columns, text) = filled(kind, bytes);
            assert_eq!(text.len(), bytes);
            for columns in [columns as u16, 1, 16] {
                let room = room(&mut reader.random, 5);
                refused(&mut reader.tally, (columns, &text), room, (TEXT_OVER, 0));
            }
            for records in [0, 5, MOST_RECORDS + 1] {
                let table = lent(&mut reader.random, &[], records);
                let asked = FunctionText { text: &text, table };
                let given = reader.tally.ask("too long", &asked);
                assert_eq!(given.numbers(), (TEXT_OVER, 0, &[0; 4][..]));
                assert!(given.lent == asked.table);
            }
            reader.read("too long", columns, text);
        }
    }
    reader.tally.assert_texts(&["as long as may be"], 21);
    reader.tally.assert_texts(&["too long"], 35);
    let numbers = [DONE, COLUMNS_OVER, LIST_ROOM_LACKING, TEXT_OVER, TEXT_FAULT];
    reader.tally.assert_returned::<Candidate>(&numbers, 10);
    let numbers = [DONE, NODE_ROOM_LACKING, TEXT_OVER, TEXT_FAULT];
    reader.tally.assert_returned::<FunctionText>(&numbers, 3);
}

/// Reads a candidate, which is refused; 8 and 11 leave zeros, the others what was there.
fn refused(
    tally: &mut Tally,
    (columns, text): (u16, &[u8]),
    room: Vec<u32>,
    (number, returned): (u32, usize),
) -> Given<Vec<u32>> {
    let candidate = Candidate {
        columns,
        text,
        room,
    };
    let given = tally.ask("refused", &candidate);
    let numbers = (number, returned as u64, &[0][..]);
    assert_eq!(given.numbers(), numbers, "{candidate}");
    let cleared = [LIST_ROOM_LACKING, TEXT_FAULT].contains(&number);
    let left = if cleared {
        vec![0; candidate.room.len()]
    } else {
        candidate.room.clone()
    };
    assert!(given.lent == left, "{candidate}");
    given
}

/// The fault of an unfinished text stands one past its last line, or at `.e`; a bad line has its own
/// number. No text has more lines than bytes.
#[test]
fn lines_up_to_the_last() {
    let mut reader = Reader::new(151);
    for lines in [0, 1, 2, 254, 255, 256, 257, 32_764, 32_766, 32_767, 32_768] {
        let empty = b"\n".repeat(lines);
        let mut told = vec![(empty.clone(), lines + 1)];
        for end in [&b".e"[..], b"x\n", b"#"] {
            let text = [&empty, end].concat();
            let line = lines + if end == b"#" { 2 } else { 1 };
            told.push((text, line));
        }
        for (text, line) in told {
            let told = match text.len() {
                0..=MOST_BYTES => (TEXT_FAULT, line),
                _ => (TEXT_OVER, 0),
            };
            let room = room(&mut reader.random, 3);
            refused(&mut reader.tally, (2, &text), room, told);
            reader.read("lines", 2, text);
        }
    }
    reader.tally.assert_texts(&["lines"], 40);
}

/// `.p` is the number of rows, and no number that is the same in fewer bits.
#[test]
fn numbers_of_rows() {
    let mut random = Random::new(152);
    let mut reader = Reader::new(153);
    for rows in [0, 1, 2, 255, 256, 257, 1_000, 6_500] {
        let list = vec![1; rows];
        let text = text_of(1, &list);
        let stated = format!(".p {rows}\n");
        for number in [
            rows,
            rows + 1,
            rows + 256,
            rows + 65_536,
            rows + 32_768,
            99_999,
            0,
        ] {
            let text = text.replace(&stated, &format!(".p {number}\n"));
            let candidate = Candidate {
                columns: 1,
                text: text.as_bytes(),
                room: room(&mut random, rows),
            };
            let right = number == rows;
            let told = if right {
                (DONE, 0, [rows as u64])
            } else {
                (TEXT_FAULT, rows as u64 + 4, [0])
            };
            let given = reader.tally.ask("stated rows", &candidate);
            assert_eq!(
                given.numbers(),
                (told.0, told.1, &told.2[..]),
                "{rows} {number}"
            );
            reader.read("stated rows", 1, text.into_bytes());
        }
    }
    reader.tally.assert_returned::<Candidate>(&[DONE], 8);
}

/// The greatest list room, and one over it.
#[test]
fn list_rooms_of_16384_and_16385() {
    let mut random = Random::new(154);
    let mut tally = Tally::new();
    for round in 0..60 {
        let columns = 1 + round % 16;
        let list = some_cubes(&mut random, columns, 30);
        let text = text_of(columns, &list);
        let asked = (columns as u16, text.as_bytes());
        let candidate = Candidate {
            columns: asked.0,
            text: asked.1,
            room: room(&mut random, MOST_CUBES),
        };
        let given = tally.ask("16,384 cubes", &candidate);
        assert_eq!(given.numbers(), (DONE, 0, &[list.len() as u64][..]));
        for cubes in [MOST_CUBES + 1, 40_000] {
            let room = room(&mut random, cubes);
            refused(&mut tally, asked, room, (LIST_OVER, 0));
        }
    }
}

/// Faults of several numbers in one call: the first in the order 1, 10, 6, 11, 8 is given.
#[test]
fn several_faults_at_once() {
    let mut random = Random::new(155);
    let mut tally = Tally::new();
    for round in 0..2_000 {
        let columns = 1 + random.below(16);
        let mut list = some_cubes(&mut random, columns, 6);
        list.push(0);
        let mut text = Text::of(columns, &text_of(columns, &list));
        let rows = list.len();
        let mut asked = columns as u16;
        let mut told = (DONE, 0);
        let mut cubes = rows;
        if random.below(2) == 0 {
            cubes = random.below(rows);
            told = (LIST_ROOM_LACKING, rows);
        }
        if random.below(2) == 0 {
            let line = random.below(text.lines.len());
            text.lines[line].after.push(b'x');
            told = (TEXT_FAULT, line + 1);
        }
        if round % 10 == 0 {
            cubes = MOST_CUBES + 1;
            told = (LIST_OVER, 0);
        }
        let mut text = text.bytes();
        if random.below(4) == 0 {
            text.resize(MOST_BYTES + 1, b'#');
            told = (TEXT_OVER, 0);
        }
        if random.below(4) == 0 {
            asked = random.pick(&[0, 17, 18, 65_535]);
            told = (COLUMNS_OVER, 0);
        }
        let room = room(&mut random, cubes);
        if told.0 == DONE {
            let candidate = Candidate {
                columns: asked,
                text: &text,
                room,
            };
            assert_eq!(tally.ask("done", &candidate).number, DONE);
        } else {
            refused(&mut tally, (asked, &text), room, told);
        }
    }
    let numbers = [
        DONE,
        COLUMNS_OVER,
        LIST_OVER,
        LIST_ROOM_LACKING,
        TEXT_OVER,
        TEXT_FAULT,
    ];
    tally.assert_returned::<Candidate>(&numbers, 80);
}
