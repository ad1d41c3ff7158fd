//! Lists written as text: into rooms of exactly the bytes, of one less and of more, with malformed
//! cubes, and on both sides of every boundary. What is written is read back.

use compare::functions::room;
use compare::lists::{some_cube, some_cubes, Change};
use compare::random::Random;
use compare::tally::{Tally, COLUMNS};
use compare::text_entry::{Candidate, Given, Writing};
use compare::texts::text_room;
use second::cube::well_formed;
use second::refusal::{COLUMNS_OVER, CUBE_MALFORMED, DONE, LIST_OVER, MOST_BYTES, MOST_CUBES};
use second::refusal::{TEXT_OVER, TEXT_ROOM_SHORT};
use second::writing::text_of;

/// A number, what it returns, and a length.
type Numbers = (u32, usize, usize);

/// Writes a list into a room of so many bytes, and it is answered with these numbers.
fn write(
    tally: &mut Tally,
    random: &mut Random,
    kind: &'static str,
    (columns, list): (u16, &[u32]),
    bytes: usize,
    numbers: Numbers,
) -> Given<Vec<u8>> {
    let room = text_room(random, bytes);
    let writing = Writing {
        columns,
        list,
        room,
    };
    let given = tally.ask(kind, &writing);
    let (number, returned, length) = numbers;
    let numbers = (number, returned as u64, &[length as u64][..]);
    assert_eq!(given.numbers(), numbers, "{kind}: {writing}");
    if number != DONE {
        assert!(given.lent == writing.room, "{kind}: {writing}");
    }
    given
}

/// Writes a list of well-formed cubes into each room, and reads it back from the one with bytes left.
fn write_into_each_room(tally: &mut Tally, random: &mut Random, columns: usize, list: &[u32]) {
    let need = text_of(columns, list).len();
    let asked = (columns as u16, list);
    let less = random.below(need);
    let short = (TEXT_ROOM_SHORT, need, 0);
    write(tally, random, "one byte short", asked, need - 1, short);
    write(tally, random, "fewer bytes", asked, less, short);
    write(tally, random, "exact room", asked, need, (DONE, 0, need));
    let more = need + 1 + random.below(40);
    let written = write(tally, random, "room to spare", asked, more, (DONE, 0, need));
    read_back(tally, random, columns, list, &written.lent[..need]);
}

/// Reads a written text, which is the same list again if it is no longer than a text may be.
fn read_back(tally: &mut Tally, random: &mut Random, columns: usize, list: &[u32], text: &[u8]) {
    let room = room(random, list.len());
    let candidate = Candidate {
        columns: columns as u16,
        text,
        room,
    };
    if text.len() <= MOST_BYTES {
        let given = tally.ask("read back", &candidate);
        assert_eq!(given.numbers(), (DONE, 0, &[list.len() as u64][..]));
        assert!(given.lent == list, "{candidate}");
    } else {
        let given = tally.ask("too long to be read", &candidate);
        assert_eq!(given.numbers(), (TEXT_OVER, 0, &[0][..]));
        assert!(given.lent == candidate.room, "{candidate}");
    }
}

#[test]
fn random_lists() {
    let mut random = Random::new(140);
    let mut tally = Tally::new();
    for round in 0..8_000 {
        let columns = 1 + round % 16;
        let most = random.pick(&[3, 12, 60]);
        let list = some_cubes(&mut random, columns, most);
        tally.note_text(COLUMNS[columns]);
        write_into_each_room(&mut tally, &mut random, columns, &list);
    }
    tally.assert_texts(&COLUMNS[1..], 500);
    tally.assert_returned::<Writing>(&[DONE, TEXT_ROOM_SHORT], 16_000);
    tally.assert_returned::<Candidate>(&[DONE], 8_000);
}

/// Every list of up to two numbers that have bits for the columns and one more.
#[test]
fn every_short_list_of_one_and_two_columns() {
    let mut random = Random::new(141);
    let mut tally = Tally::new();
    for columns in [1, 2] {
        let bits: u32 = (1 << (columns + 1)) - 1;
        let numbers: Vec<u32> = (0..=bits)
            .flat_map(|ones| (0..=bits).map(move |zeros| zeros << 16 | ones))
            .collect();
        let alone = numbers.iter().map(|&a| vec![a]);
        let pairs = numbers
            .iter()
            .flat_map(|&a| numbers.iter().map(move |&b| vec![a, b]));
        for list in alone.chain(pairs).chain([vec![]]) {
            match list.iter().position(|&cube| !well_formed(cube, columns)) {
                None => write_into_each_room(&mut tally, &mut random, columns, &list),
                Some(i) => {
                    let refused = (CUBE_MALFORMED, i + 1, 0);
                    let asked = (columns as u16, &list[..]);
                    write(&mut tally, &mut random, "malformed", asked, 60, refused);
                }
            }
        }
    }
    tally.assert_returned::<Writing>(&[DONE, TEXT_ROOM_SHORT, CUBE_MALFORMED], 150);
}

/// The number of cubes has one digit more from each power of ten on.
#[test]
fn numbers_of_cubes_around_powers_of_ten() {
    let mut random = Random::new(142);
    let mut tally = Tally::new();
    for cubes in [
        0, 1, 9, 10, 11, 99, 100, 101, 999, 1_000, 1_001, 9_999, 10_000, 10_001,
    ] {
        for columns in [1, 9, 10, 16] {
            let list: Vec<u32> = (0..cubes)
                .map(|_| some_cube(&mut random, columns))
                .collect();
            write_into_each_room(&mut tally, &mut random, columns, &list);
        }
    }
    assert_eq!(tally.calls(), 14 * 4 * 5);
}

/// Texts of 32,768 bytes and some fewer are read back; from 32,769 on they are too long.
#[test]
fn texts_of_up_to_32768_bytes_are_read_back() {
    let mut random = Random::new(143);
    let mut tally = Tally::new();
    for (columns, cubes, bytes) in [
        (1, 8_186, 32_765),
        (1, 8_187, 32_769),
        (8, 2_977, 32_768),
        (8, 2_978, 32_779),
        (16, 1_723, 32_759),
        (16, 1_724, 32_778),
    ] {
        let list: Vec<u32> = (0..cubes)
            .map(|_| some_cube(&mut random, columns))
            .collect();
        assert_eq!(text_of(columns, &list).len(), bytes);
        write_into_each_room(&mut tally, &mut random, columns, &list);
    }
    tally.assert_returned::<Candidate>(&[DONE, TEXT_OVER], 3);
}

/// The greatest list, and one over it, with and without a malformed cube.
#[test]
fn lists_of_16384_and_16385() {
    let mut random = Random::new(144);
    let mut tally = Tally::new();
    for columns in [1, 5, 16] {
        let cube = |_| some_cube(&mut random, columns);
        let mut list: Vec<u32> = (0..MOST_CUBES + 1).map(cube).collect();
        let greatest = &list[..MOST_CUBES];
        write_into_each_room(&mut tally, &mut random, columns, greatest);
        let bytes = text_of(columns, &list).len();
        for last in [0, 0x0001_0001] {
            list[MOST_CUBES] = last;
            for bytes in [0, bytes] {
                let asked = (columns as u16, &list[..]);
                let refused = (LIST_OVER, 0, 0);
                write(
                    &mut tally,
                    &mut random,
                    "16,385 cubes",
                    asked,
                    bytes,
                    refused,
                );
            }
            list[MOST_CUBES - 1] = last;
            let asked = (columns as u16, &list[..MOST_CUBES]);
            let told = match last {
                0 => (DONE, 0, bytes - columns - 3),
                _ => (CUBE_MALFORMED, MOST_CUBES, 0),
            };
            write(&mut tally, &mut random, "16,384 cubes", asked, bytes, told);
        }
    }
}

/// Faults of several numbers in one call: the smallest is given.
#[test]
fn several_faults_at_once() {
    let mut random = Random::new(145);
    let mut tally = Tally::new();
    for round in 0..4_000 {
        let columns = 1 + random.below(16);
        let mut list = some_cubes(&mut random, columns, 9);
        let need = text_of(columns, &list).len();
        let mut told = (DONE, 0, need);
        let mut bytes = need;
        if random.below(2) == 0 {
            bytes = random.pick(&[0, need - 1, need / 2]);
            told = (TEXT_ROOM_SHORT, need, 0);
        }
        if random.below(2) == 0 {
            let change = random.pick(&[Change::BothBits, Change::BitBeyond]);
            change.make(&mut random, columns, &mut list);
            // Another malformed cube after it is not the first.
            list.push(0x0001_0001);
            let first = list.iter().position(|&cube| !well_formed(cube, columns));
            told = (CUBE_MALFORMED, first.unwrap() + 1, 0);
        }
        if round % 20 == 0 {
            list.resize(MOST_CUBES + 1, 0);
            told = (LIST_OVER, 0, 0);
        }
        let mut asked = (columns as u16, &list[..]);
        if random.below(4) == 0 {
            asked.0 = random.pick(&[0, 17, 18, 65_535]);
            told = (COLUMNS_OVER, 0, 0);
        }
        write(&mut tally, &mut random, "faults", asked, bytes, told);
    }
    let numbers = [
        DONE,
        COLUMNS_OVER,
        LIST_OVER,
        CUBE_MALFORMED,
        TEXT_ROOM_SHORT,
    ];
    tally.assert_returned::<Writing>(&numbers, 100);
}
