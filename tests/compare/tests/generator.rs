//! The generator on functions with and without don't cares: with exactly the table and the list
//! room that are needed, with more, and with one less of either.

use compare::functions::{by_signs, Laid, Making, Roots};
use compare::random::Random;
use compare::tables::good;
use compare::tally::{Tally, COLUMNS};
use second::refusal::{DONE, LIST_ROOM_LACKING, NODE_ROOM_LACKING};
use second::refusal::{MOST_CUBES, MOST_RECORDS};
use std::collections::HashSet;

/// The length from which on a list is generated with few rooms: a long one takes its time.
const LONG: usize = 2_000;

/// Generates with each table and list room.
fn generate_with_each_room(random: &mut Random, tally: &mut Tally, laid: &Laid) {
    let told = laid.generation();
    let (need, length) = (told.need, told.cubes.len());
    let mut generate = |kind, records: usize, cubes: usize, numbers| {
        let generation = laid.asked(random, records, cubes);
        let listed = tally.generate(kind, &generation);
        assert_eq!(listed.numbers(), numbers, "{kind}: {generation}");
        listed
    };
    let done = (DONE, 0, length as u64);
    let nodes_lack = (NODE_ROOM_LACKING, 0, 0);
    let list_lacks = (LIST_ROOM_LACKING, length as u64, 0);

    if need > MOST_RECORDS {
        generate("over 4,096 needed", MOST_RECORDS, length, nodes_lack);
        return;
    }
    if length > MOST_CUBES {
        generate("over 16,384 cubes", need, MOST_CUBES, list_lacks);
        return;
    }
    let listed = generate("exactly what is needed", need, length, done);
    assert_eq!(listed.room, told.cubes);
    let records_lack = need > laid.count();
    if records_lack {
        generate("one record short", need - 1, length, nodes_lack);
    }
    if length > 0 {
        generate("list room one short", need, length - 1, list_lacks);
    }
    if length >= LONG {
        return;
    }
    let spare = 1 + need % 7;
    generate("records to spare", need + spare, length, done);
    generate("list room to spare", need, length + spare, done);
    if records_lack {
        generate("no work record", laid.count(), length, nodes_lack);
    }
    if length > 0 {
        generate("no list room", need, 0, list_lacks);
    }
    if records_lack && length > 0 {
        generate("both one short", need - 1, length - 1, nodes_lack);
    }
}

const EVERY_KIND: [&str; 8] = [
    "exactly what is needed",
    "records to spare",
    "list room to spare",
    "one record short",
    "no work record",
    "list room one short",
    "no list room",
    "both one short",
];

/// The functions that were generated, none counted twice.
#[derive(Default)]
struct Functions {
    met: HashSet<Roots>,
}

impl Functions {
    /// Counts a function by what it is; false if it was met before.
    fn take(&mut self, tally: &mut Tally, making: &'static str, roots: &Roots) -> bool {
        let new = self.met.insert(roots.clone());
        if new {
            tally.note_generation(making);
            tally.note_generation(COLUMNS[roots.0.columns()]);
            let free = roots.0 != roots.1;
            tally.note_generation(if free { WITH } else { WITHOUT });
        }
        new
    }
}

const WITH: &str = "with don't cares";
const WITHOUT: &str = "without don't cares";

/// Generates so many different functions, and counts what they are and each room.
fn generate_random_functions(
    seed: u64,
    columns: &[usize],
    makings: &[Making],
    functions: usize,
) -> Tally {
    let mut random = Random::new(seed);
    let mut tally = Tally::new();
    let mut met = Functions::default();
    let mut round = 0;
    while met.met.len() < functions {
        round += 1;
        let columns = columns[round % columns.len()];
        let making = random.pick(makings);
        let free = random.below(3) > 0;
        let roots = making.roots(&mut random, columns, free);
        if !met.take(&mut tally, making.name(), &roots) {
            continue;
        }
        let most = random.pick(&[0, 0, 3, 20]);
        let earlier = good(&mut random, columns, most);
        let laid = Laid::over(&mut random, columns, &earlier, roots);
        generate_with_each_room(&mut random, &mut tally, &laid);
    }
    for making in makings {
        tally.assert_generated(&[making.name()], functions / 10);
    }
    tally.assert_generated(&[WITH, WITHOUT], functions / 10);
    tally
}

/// Each point has one of three signs, so each function is a number in base three.
#[test]
fn every_function_of_up_to_three_columns() {
    let mut random = Random::new(41);
    let mut tally = Tally::new();
    let mut met = Functions::default();
    for columns in 0..=3 {
        for number in 0..3usize.pow(1 << columns) {
            let roots = by_signs(columns, |point| b"01-"[number / 3usize.pow(point) % 3]);
            assert!(met.take(&mut tally, "every function", &roots));
            let laid = Laid::over(&mut random, columns, &[], roots);
            generate_with_each_room(&mut random, &mut tally, &laid);
        }
    }
    assert_eq!(met.met.len(), 3 + 9 + 81 + 6_561);
    tally.assert_generated(&EVERY_KIND, 2_000);
    tally.assert_generated(&[WITHOUT], 2 + 4 + 16 + 256);
    tally.assert_generated(&[WITH], 6_000);
}

#[test]
fn four_to_seven_columns() {
    let tally = generate_random_functions(42, &[4, 5, 6, 7], &Making::ALL, 14_000);
    tally.assert_generated(&COLUMNS[4..=7], 2_000);
    tally.assert_generated(&EVERY_KIND, 5_000);
}

#[test]
fn eight_to_twelve_columns() {
    let makings = [Making::Symmetric, Making::Cubes, Making::Records];
    let tally = generate_random_functions(43, &[8, 9, 10, 11, 12], &makings, 1_600);
    tally.assert_generated(&COLUMNS[8..=12], 200);
    tally.assert_generated(&EVERY_KIND, 500);
}

#[test]
fn thirteen_to_sixteen_columns() {
    let makings = [Making::Cubes, Making::Records];
    let tally = generate_random_functions(44, &[13, 14, 15, 16], &makings, 400);
    tally.assert_generated(&COLUMNS[13..=16], 60);
    tally.assert_generated(&EVERY_KIND, 100);
}

/// Symmetric functions of many columns have long lists, beyond the most too.
#[test]
fn long_lists() {
    let tally = generate_random_functions(45, &[13, 14, 15, 16], &[Making::Symmetric], 20);
    let kinds = ["exactly what is needed", "one record short"];
    tally.assert_generated(&kinds, 5);
    tally.assert_generated(&["list room one short"], 5);
    tally.assert_generated(&["over 16,384 cubes"], 1);
}

/// Random points of many columns need many records, beyond the most too.
#[test]
fn many_records() {
    let tally = generate_random_functions(46, &[8, 9, 10, 11], &[Making::Points], 60);
    tally.assert_generated(&EVERY_KIND, 20);
    tally.assert_generated(&["over 4,096 needed"], 3);
}
