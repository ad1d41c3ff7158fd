//! The checker on lists for functions with and without don't cares: the rule's own lists, the same
//! changed in one place and in two, lists for other functions, random ones, and every short list of
//! few columns.

use compare::check::{Judged, MISSING, OFF};
use compare::functions::{by_signs, Laid, Making};
use compare::lists::{some_cubes, Change};
use compare::random::Random;
use compare::tables::good;
use compare::tally::{Tally, COLUMNS};
use second::cube::{covers, well_formed};
use second::function::Function;
use second::refusal::{CUBE_MALFORMED, DONE};

/// A point that is named comes first when its columns are read; here another has a smaller number.
const NOT_BY_NUMBER: &str = "not the smallest by number";
const WITH: &str = "with don't cares";
const WITHOUT: &str = "without don't cares";

/// The columns up to which every point is looked at beside a named one.
const FEW_COLUMNS: usize = 7;

/// Checks a list, and counts what it is.
fn check(
    random: &mut Random,
    tally: &mut Tally,
    kind: &'static str,
    laid: &Laid,
    list: &[u32],
) -> Judged {
    let records = laid.count() + random.below(4);
    let check = laid.checked(random, records, list.to_vec());
    let judged = tally.check(kind, &check);
    let (l, u) = laid.roots();
    tally.note_check(if l == u { WITHOUT } else { WITH });
    if judged.number == DONE && laid.columns <= FEW_COLUMNS {
        let [first, second] = judged.values;
        let wrong = |point: u32| match judged.kind {
            OFF => covers(list[first as usize - 1], point) && !u.value(point),
            _ => l.value(point) && !list.iter().any(|&cube| covers(cube, point)),
        };
        let named = match judged.kind {
            OFF => second,
            MISSING => first,
            _ => 0,
        };
        if (0..named as u32).any(wrong) {
            tally.note_check(NOT_BY_NUMBER);
        }
    }
    judged
}

/// Checks the list of the rule, changed in each way, and other lists for the same function.
fn check_each_change(random: &mut Random, tally: &mut Tally, laid: &Laid, other: &[u32]) {
    let list = laid.list();
    let columns = laid.columns;
    for change in Change::ALL {
        let mut changed = list.clone();
        if !change.make(random, columns, &mut changed) {
            continue;
        }
        let judged = check(random, tally, change.name(), laid, &changed);
        match change {
            Change::Nothing | Change::RowMoved | Change::OtherOrder => {
                assert_eq!(judged.name(), "accept")
            }
            Change::BothBits | Change::BitBeyond => assert_eq!(judged.number, CUBE_MALFORMED),
            _ => assert_eq!(judged.number, DONE),
        }
    }
    let mut twice = list.clone();
    for _ in 0..2 {
        random.pick(&Change::ALL).make(random, columns, &mut twice);
    }
    check(random, tally, TWO_CHANGES, laid, &twice);
    check(random, tally, OTHERS_LIST, laid, other);
    let some = some_cubes(random, columns, 6);
    check(random, tally, RANDOM_CUBES, laid, &some);
}

const TWO_CHANGES: &str = "two changes";
const OTHERS_LIST: &str = "the list of another function";
const RANDOM_CUBES: &str = "random cubes";

/// Checks lists for so many random functions. Each kind of list, each verdict and each number of
/// columns occurs at least so often.
fn check_random_functions(
    seed: u64,
    columns: &[usize],
    makings: &[Making],
    functions: usize,
    least: usize,
) -> Tally {
    let mut random = Random::new(seed);
    let mut tally = Tally::new();
    for round in 0..functions {
        let columns = columns[round % columns.len()];
        let making = random.pick(makings);
        let free = random.below(3) > 0;
        let roots = making.roots(&mut random, columns, free);
        let (l, u) = making.roots(&mut random, columns, free);
        let other = second::list::list(&l, &u);
        let most = random.pick(&[0, 0, 3, 20]);
        let earlier = good(&mut random, columns, most);
        let laid = Laid::over(&mut random, columns, &earlier, roots);
        check_each_change(&mut random, &mut tally, &laid, &other);
        tally.note_check(COLUMNS[columns]);
    }
    for &columns in columns {
        tally.assert_checked(&[COLUMNS[columns]], functions / 20);
    }
    tally.assert_checked(&Change::ALL.map(Change::name), least);
    tally.assert_checked(&[TWO_CHANGES, OTHERS_LIST, RANDOM_CUBES], least);
    tally.assert_checked(&Judged::VERDICTS, least);
    tally.assert_checked(&["refused", WITH, WITHOUT], least);
    tally
}

/// Every list of at most so many cubes out of some, shortest first.
fn lists(cubes: &[u32], most: usize) -> Vec<Vec<u32>> {
    let mut all = vec![vec![]];
    let mut of_length = all.clone();
    for _ in 0..most {
        let longer = |list: &Vec<u32>| {
            let list = list.clone();
            cubes.iter().map(move |&cube| [&list[..], &[cube]].concat())
        };
        of_length = of_length.iter().flat_map(longer).collect();
        all.extend(of_length.iter().cloned());
    }
    all
}

/// Checks every list of at most so many cubes for every function; each point has one of three
/// signs, so each function is a number in base three.
fn check_every_list(random: &mut Random, tally: &mut Tally, columns: usize, most: usize) {
    let numbers =
        (0..1 << columns).flat_map(|ones| (0..1 << columns).map(move |zeros| ones | zeros << 16));
    let cubes: Vec<u32> = numbers.filter(|&cube| well_formed(cube, columns)).collect();
    assert_eq!(cubes.len(), 3usize.pow(columns as u32));
    let lists = lists(&cubes, most);
    for number in 0..3usize.pow(1 << columns) {
        let roots = by_signs(columns, |point| b"01-"[number / 3usize.pow(point) % 3]);
        let laid = Laid::over(random, columns, &[], roots);
        for list in &lists {
            let judged = check(random, tally, COLUMNS[columns], &laid, list);
            assert_eq!(judged.number, DONE);
        }
    }
}

#[test]
fn every_list_of_up_to_three_cubes_of_up_to_two_columns() {
    let mut random = Random::new(81);
    let mut tally = Tally::new();
    for columns in 0..=2 {
        check_every_list(&mut random, &mut tally, columns, 3);
    }
    assert_eq!(tally.calls(), 3 * 4 + 9 * 40 + 81 * 820);
    tally.assert_checked(&Judged::VERDICTS, 100);
    tally.assert_checked(&[NOT_BY_NUMBER], 500);
}

#[test]
fn every_list_of_up_to_one_cube_of_three_columns() {
    let mut random = Random::new(82);
    let mut tally = Tally::new();
    check_every_list(&mut random, &mut tally, 3, 1);
    assert_eq!(tally.calls(), 6_561 * 28);
    tally.assert_checked(&Judged::VERDICTS, 300);
    tally.assert_checked(&[NOT_BY_NUMBER], 10_000);
}

#[test]
fn up_to_three_columns() {
    check_random_functions(83, &[0, 1, 2, 3, 3, 3], &Making::ALL, 6_000, 500);
}

#[test]
fn four_to_seven_columns() {
    let tally = check_random_functions(84, &[4, 5, 6, 7], &Making::ALL, 6_000, 3_000);
    assert!(tally.calls() >= 80_000, "{}", tally.calls());
    tally.assert_checked(&[NOT_BY_NUMBER], 3_000);
}

#[test]
fn eight_to_twelve_columns() {
    let makings = [Making::Symmetric, Making::Cubes, Making::Records];
    check_random_functions(85, &[8, 9, 10, 11, 12], &makings, 500, 200);
}

#[test]
fn thirteen_to_sixteen_columns() {
    let makings = [Making::Cubes, Making::Records];
    check_random_functions(86, &[13, 14, 15, 16, 16], &makings, 60, 20);
}

/// The three constant functions, where U is 0, L is 1, or neither.
#[test]
fn constant_functions() {
    let mut random = Random::new(87);
    let mut tally = Tally::new();
    for columns in 0..=16 {
        for (name, l, u, empty, whole) in [
            ("all off", false, false, "accept", "off"),
            ("all on", true, true, "missing", "accept"),
            ("all free", false, true, "accept", "cube"),
        ] {
            let roots = (
                Function::constant(columns, l),
                Function::constant(columns, u),
            );
            let laid = Laid::over(&mut random, columns, &[], roots);
            let mut judge = |list: &[u32]| check(&mut random, &mut tally, name, &laid, list);
            assert_eq!(judge(&[]).name(), empty);
            assert_eq!(judge(&[0]).name(), whole);
            let doubled = if whole == "off" { "off" } else { "cube" };
            assert_eq!(judge(&[0, 0]).name(), doubled);
            if columns > 0 {
                let last = columns - 1;
                judge(&[1 << last]);
                judge(&[0x1_0000 << last]);
                judge(&[1 << last, 0x1_0000 << last]);
                judge(&[1 << last, 0]);
            }
            for _ in 0..20 {
                let list = some_cubes(&mut random, columns, 4);
                check(&mut random, &mut tally, name, &laid, &list);
            }
        }
    }
    tally.assert_checked(&["all off", "all on", "all free"], 400);
    tally.assert_checked(&Judged::VERDICTS, 20);
}
