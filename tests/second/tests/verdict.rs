//! The verdict against a naive one that asks points one at a time, and the cases that tell the
//! order of faults and the errors that look right.

mod common;

use common::{cubes, function, on_at, Naive, Random};
use second::cube::covers;
use second::function::Function;
use second::point::{from_digits, point_at};
use second::verdict::{verdict, Verdict};

/// The points in the order in which the smallest is looked for.
fn points(columns: usize) -> Vec<u32> {
    (0..1usize << columns)
        .map(|place| point_at(place, columns))
        .collect()
}

/// Document 01's four faults, one after the other.
fn naive_verdict(columns: usize, lower: &Naive, upper: &Naive, list: &[u32]) -> Verdict {
    let points = points(columns);
    let on = |p: u32| lower[p as usize];
    let off = |p: u32| !upper[p as usize];
    for (i, &cube) in list.iter().enumerate() {
        if let Some(&point) = points.iter().find(|&&p| covers(cube, p) && off(p)) {
            return Verdict::Off { cube: i + 1, point };
        }
    }
    let bare = |list: &[u32], p: u32| on(p) && !list.iter().any(|&cube| covers(cube, p));
    if let Some(&point) = points.iter().find(|&&p| bare(list, p)) {
        return Verdict::Missing { point };
    }
    for (i, &cube) in list.iter().enumerate() {
        for column in 0..columns {
            let wider = cube & !(1 << column) & !(1 << (16 + column));
            let stays = !points.iter().any(|&p| covers(wider, p) && off(p));
            if wider != cube && stays {
                return Verdict::Literal {
                    cube: i + 1,
                    column,
                };
            }
        }
    }
    for i in 0..list.len() {
        let others = [&list[..i], &list[i + 1..]].concat();
        if !points.iter().any(|&p| bare(&others, p)) {
            return Verdict::Cube { cube: i + 1 };
        }
    }
    Verdict::Accept
}

fn kind(verdict: Verdict) -> usize {
    match verdict {
        Verdict::Accept => 0,
        Verdict::Off { .. } => 1,
        Verdict::Missing { .. } => 2,
        Verdict::Literal { .. } => 3,
        Verdict::Cube { .. } => 4,
    }
}

/// A list that is near to being right: the generated one, with cubes changed, dropped or added.
fn near_list(random: &mut Random, columns: usize, l: &Function, u: &Function) -> Vec<u32> {
    let mut list = second::list::list(l, u);
    for _ in 0..random.below(3) {
        match random.below(4) {
            0 => {
                let at = random.below(list.len() + 1);
                list.insert(at, random.cube(columns));
            }
            1 if !list.is_empty() => {
                let at = random.below(list.len());
                list.remove(at);
            }
            2 if !list.is_empty() && columns > 0 => {
                let at = random.below(list.len());
                let column = random.below(columns);
                let narrower = second::cube::without_literal(list[at], column);
                list[at] = second::cube::with_literal(narrower, column, random.below(2) == 1);
            }
            _ => {
                let at = random.below(list.len() + 1);
                let again = list.get(random.below(list.len() + 1)).copied();
                list.insert(at, again.unwrap_or(0));
            }
        }
    }
    list
}

#[test]
fn verdicts_agree_with_asking_points_one_at_a_time() {
    let mut random = Random::new(11);
    let mut seen = [0; 5];
    for round in 0..6_000 {
        let columns = round % 6;
        let (lower, upper) = random.roots(columns);
        let (l, u) = (function(columns, &lower), function(columns, &upper));
        let list = if round % 3 == 0 {
            (0..random.below(4)).map(|_| random.cube(columns)).collect()
        } else {
            near_list(&mut random, columns, &l, &u)
        };
        let found = verdict(&l, &u, &list);
        assert_eq!(found, naive_verdict(columns, &lower, &upper, &list));
        seen[kind(found)] += 1;
    }
    assert!(seen.iter().all(|&times| times > 50), "{seen:?}");
}

#[test]
fn all_lists_of_up_to_three_cubes_of_two_columns() {
    let all: Vec<u32> = (0..1u32 << 18)
        .filter(|&cube| second::cube::well_formed(cube, 2))
        .collect();
    assert_eq!(all.len(), 9);
    let mut lists: Vec<Vec<u32>> = vec![vec![]];
    for from in 0..91 {
        let longer = |&cube: &u32| [lists[from].clone(), vec![cube]].concat();
        let longer: Vec<Vec<u32>> = all.iter().map(longer).collect();
        lists.extend(longer);
    }
    assert_eq!(lists.last().unwrap().len(), 3);
    for number in 0..81usize {
        let digit = |point: usize| number / 3usize.pow(point as u32) % 3;
        let lower: Naive = (0..4).map(|point| digit(point) == 1).collect();
        let upper: Naive = (0..4).map(|point| digit(point) != 0).collect();
        let (l, u) = (function(2, &lower), function(2, &upper));
        for list in &lists {
            let told = naive_verdict(2, &lower, &upper, list);
            assert_eq!(verdict(&l, &u, list), told);
        }
    }
}

/// The verdict on rows of signs, for on and don't-care points given as digits.
fn of(columns: usize, on: &[&str], free: &[&str], rows: &[&str]) -> Verdict {
    let (l, u) = (on_at(columns, on), on_at(columns, &[on, free].concat()));
    verdict(&l, &u, &cubes(rows))
}

#[test]
fn the_first_fault_wins() {
    // One list with all four faults, mended in order.
    let (on, free) = (["011", "111", "100"], ["010"]);
    let rows = ["01-", "-11", "1-0", "100"];
    let point = from_digits("110");
    assert_eq!(of(3, &on, &free, &rows), Verdict::Off { cube: 3, point });
    let point = from_digits("100");
    assert_eq!(
        of(3, &on, &free, &["01-", "-11"]),
        Verdict::Missing { point }
    );
    assert_eq!(
        of(3, &on, &free, &["01-", "-11", "100", "011"]),
        Verdict::Literal { cube: 4, column: 0 }
    );
    assert_eq!(
        of(3, &on, &free, &["01-", "-11", "100"]),
        Verdict::Cube { cube: 1 }
    );
    assert_eq!(of(3, &on, &free, &["-11", "100"]), Verdict::Accept);
}

#[test]
fn smallest_means_first_from_the_left() {
    // By number 10 (1) is below 01 (2); read from the left 01 comes first.
    let point = from_digits("01");
    assert_eq!(
        of(2, &["11", "00"], &[], &["--"]),
        Verdict::Off { cube: 1, point }
    );
    assert_eq!(of(2, &["01", "10"], &[], &[]), Verdict::Missing { point });
}

#[test]
fn the_first_cube_counts_before_the_smallest_point() {
    let point = from_digits("11");
    let rows = ["11", "00"];
    assert_eq!(
        of(2, &["01"], &["10"], &rows),
        Verdict::Off { cube: 1, point }
    );
}

#[test]
fn a_literal_is_tested_against_off_and_not_against_on() {
    // Case 6 given as 11: the literal of column 1 can go, as 10 is don't care.
    assert_eq!(
        of(2, &["11"], &["10"], &["11"]),
        Verdict::Literal { cube: 1, column: 1 }
    );
    assert_eq!(of(2, &["11"], &["10"], &["1-"]), Verdict::Accept);
}

#[test]
fn points_count_and_not_rows_and_literals() {
    // As many rows and literals as the right list, at the wrong points.
    let on = ["01", "10"];
    assert_eq!(of(2, &on, &[], &["01", "10"]), Verdict::Accept);
    let point = from_digits("00");
    assert_eq!(
        of(2, &on, &[], &["00", "11"]),
        Verdict::Off { cube: 1, point }
    );
    let point = from_digits("10");
    assert_eq!(of(2, &on, &[], &["01", "01"]), Verdict::Missing { point });
    // Fewer rows than the generated list, and right.
    let on = ["001", "010", "011", "100", "101", "110"];
    assert_eq!(of(3, &on, &[], &["01-", "-01", "1-0"]), Verdict::Accept);
}

#[test]
fn a_cube_that_covers_dont_cares_only_can_go() {
    assert_eq!(of(1, &["0"], &["1"], &["-"]), Verdict::Accept);
    assert_eq!(
        of(2, &["00"], &["11"], &["00", "11"]),
        Verdict::Cube { cube: 2 }
    );
}

#[test]
fn every_order_and_no_cube_at_all() {
    assert_eq!(of(2, &["01", "10"], &[], &["10", "01"]), Verdict::Accept);
    assert_eq!(of(2, &[], &["11"], &[]), Verdict::Accept);
    assert_eq!(of(0, &[""], &[], &[""]), Verdict::Accept);
    assert_eq!(of(0, &[], &[], &[]), Verdict::Accept);
    assert_eq!(of(0, &[""], &[], &[]), Verdict::Missing { point: 0 });
    assert_eq!(of(0, &[], &[], &[""]), Verdict::Off { cube: 1, point: 0 });
    assert_eq!(of(0, &[""], &[], &["", ""]), Verdict::Cube { cube: 1 });
}

#[test]
fn sixteen_columns_and_1536_rows_are_practical() {
    let mut random = Random::new(12);
    let mut rows: Vec<u32> = (0..1_536)
        .map(|_| {
            let point = random.below(1 << 16) as u32;
            point | (!point & 0xffff) << 16
        })
        .collect();
    let f = Function::from_points(16, |point| rows.iter().any(|&row| covers(row, point)));
    // Neighbours among the points make some literal removable; what is said must hold.
    match verdict(&f, &f, &rows) {
        Verdict::Literal { cube, column } => {
            let wider = second::cube::without_literal(rows[cube - 1], column);
            assert!(Function::from_cube(16, wider).within(&f));
        }
        Verdict::Cube { cube } => {
            let gone = rows.remove(cube - 1);
            assert!(rows.contains(&gone));
        }
        other => assert_eq!(other, Verdict::Accept),
    }
}
