//! Lists that another tool made: `SOPform` of SymPy 1.14.0, a Quine-McCluskey minimiser. Each line of
//! the data, which `data/sopform.py` writes, has the columns, the sign of each point in reading order, and the rows.

use compare::check::Judged;
use compare::functions::{by_signs, Laid};
use compare::random::Random;
use compare::tally::Tally;
use second::cube::from_signs;
use second::point::place_of;

const LISTS: &str = include_str!("../data/sopform.txt");

/// The verdict of both programs on the list of one line.
fn verdict(line: &str, tally: &mut Tally) -> Judged {
    let mut words = line.split(' ');
    let columns: usize = words.next().unwrap().parse().unwrap();
    let signs = words.next().unwrap().as_bytes();
    assert_eq!(signs.len(), 1 << columns, "{line}");
    let rows: Vec<u32> = words
        .map(|row| from_signs(row.as_bytes()).unwrap())
        .collect();
    let roots = by_signs(columns, |point| signs[place_of(point, columns)]);
    let random = &mut Random::new(95);
    let laid = Laid::over(random, columns, &[], roots);
    let check = laid.checked(random, laid.count(), rows);
    tally.check("foreign", &check)
}

/// Both programs accept each of them. The expectation is what both were seen to answer: that tool
/// does not promise the four conditions, so an accept here is agreement and no proof.
#[test]
fn lists_of_another_tool() {
    let mut tally = Tally::new();
    for line in LISTS.lines() {
        let judged = verdict(line, &mut tally);
        assert_eq!(judged.name(), "accept", "{line}");
    }
    assert_eq!(LISTS.lines().count(), 345);
}
