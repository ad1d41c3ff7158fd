//! Generations that need exactly 4,096 records, and one more.

use compare::functions::{Laid, Making, Roots};
use compare::random::Random;
use compare::tables::good;
use compare::tally::Tally;
use second::refusal::{DONE, MOST_RECORDS, NODE_ROOM_LACKING};
use second::table::Record;

/// The function behind the first records of a table.
fn laid(columns: usize, earlier: &[Record], roots: &Roots) -> Laid {
    Laid::over(&mut Random::new(70), columns, earlier, roots.clone())
}

/// The function behind as many first records of a table as let its generation need a number; none
/// if there is no such number of first records. With one record more the need grows by one, or
/// stays where that record was needed, so it passes every number.
fn needing(columns: usize, table: &[Record], roots: &Roots, need: usize) -> Option<Laid> {
    let (mut low, mut high) = (0, table.len());
    while low < high {
        let middle = (low + high) / 2;
        if laid(columns, &table[..middle], roots).generation().need < need {
            low = middle + 1;
        } else {
            high = middle;
        }
    }
    let found = laid(columns, &table[..low], roots);
    (found.generation().need == need).then_some(found)
}

#[test]
fn exactly_4096_needed_and_one_more() {
    let mut random = Random::new(71);
    let mut tally = Tally::new();
    for columns in [6, 7, 8, 9, 10, 11, 12, 13] {
        let table = good(&mut random, columns, MOST_RECORDS);
        for making in [Making::Points, Making::Symmetric, Making::Cubes] {
            if making == Making::Points && columns > 9 {
                continue;
            }
            let roots = making.roots(&mut random, columns, columns % 2 == 0);
            for (kind, need, number) in [
                ("exactly 4,096 needed", MOST_RECORDS, DONE),
                ("4,097 needed", MOST_RECORDS + 1, NODE_ROOM_LACKING),
            ] {
                let Some(laid) = needing(columns, &table, &roots, need) else {
                    continue;
                };
                if laid.count() > MOST_RECORDS {
                    continue;
                }
                let told = laid.generation();
                let generation = laid.asked(&mut random, MOST_RECORDS, told.cubes.len());
                let listed = tally.generate(kind, &generation);
                assert_eq!(listed.number, number, "{kind}: {generation}");
            }
        }
    }
    tally.assert_generated(&["exactly 4,096 needed", "4,097 needed"], 12);
}
