//! The checker's rule: the first fault of a list in the order (a), (b), (c), (d), or accept.
//! Everything is asked of points: on is L, off is what U leaves.

use crate::cube::{has_literal, without_literal};
use crate::function::Function;

/// What is said of a list. Cubes are named from 1, columns from 0, points by their numbers.
#[derive(Clone, Copy, PartialEq, Eq, Debug)]
pub enum Verdict {
    Accept,
    /// (a) The first cube covering an off point, and the smallest such point.
    Off {
        cube: usize,
        point: u32,
    },
    /// (b) The smallest on point not covered.
    Missing {
        point: u32,
    },
    /// (c) The first cube, and its leftmost column, whose literal can go.
    Literal {
        cube: usize,
        column: usize,
    },
    /// (d) The first cube that can go.
    Cube {
        cube: usize,
    },
}

/// The verdict on well-formed cubes for L within U.
pub fn verdict(l: &Function, u: &Function, cubes: &[u32]) -> Verdict {
    let off = u.not();
    let covered = covered(l.columns(), cubes);
    covers_off(&off, cubes)
        .or_else(|| misses_on(l, &covered))
        .or_else(|| literal_can_go(&off, cubes))
        .or_else(|| cube_can_go(l, &covered, cubes))
        .unwrap_or(Verdict::Accept)
}

/// (a) The first cube covering an off point, with the smallest such point.
fn covers_off(off: &Function, cubes: &[u32]) -> Option<Verdict> {
    cubes.iter().enumerate().find_map(|(i, &cube)| {
        let wrong = Function::from_cube(off.columns(), cube).and(off);
        let point = wrong.smallest_point()?;
        Some(Verdict::Off { cube: i + 1, point })
    })
}

/// (b) The smallest on point not covered.
fn misses_on(on: &Function, covered: &Covered) -> Option<Verdict> {
    let point = on.less(&covered.once).smallest_point()?;
    Some(Verdict::Missing { point })
}

/// (c) The first cube and leftmost column whose literal can go without covering an off point.
fn literal_can_go(off: &Function, cubes: &[u32]) -> Option<Verdict> {
    cubes.iter().enumerate().find_map(|(i, &cube)| {
        let column = (0..off.columns()).find(|&column| {
            has_literal(cube, column)
                && !Function::from_cube(off.columns(), without_literal(cube, column)).meets(off)
        })?;
        Some(Verdict::Literal {
            cube: i + 1,
            column,
        })
    })
}

/// (d) The first cube of which every on point lies in another cube too.
fn cube_can_go(on: &Function, covered: &Covered, cubes: &[u32]) -> Option<Verdict> {
    let kept_by_one = on.less(&covered.twice);
    let i = cubes
        .iter()
        .position(|&cube| !Function::from_cube(on.columns(), cube).meets(&kept_by_one))?;
    Some(Verdict::Cube { cube: i + 1 })
}

/// The points in at least one cube, and those in at least two.
struct Covered {
    once: Function,
    twice: Function,
}

fn covered(columns: usize, cubes: &[u32]) -> Covered {
    let mut once = Function::constant(columns, false);
    let mut twice = once.clone();
    for &cube in cubes {
        let points = Function::from_cube(columns, cube);
        twice = twice.or(&once.and(&points));
        once = once.or(&points);
    }
    Covered { once, twice }
}
