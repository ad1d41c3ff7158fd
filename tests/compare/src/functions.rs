//! Functions with don't cares, as a lower root within an upper one, and tables that hold them.

use crate::check::Check;
use crate::generation::Generation;
use crate::random::Random;
use crate::tables::{good, lent};
use second::cube::with_literal;
use second::function::Function;
use second::list;
use second::table::{Record, Table};

/// A way to make a function.
#[derive(Clone, Copy, PartialEq, Eq, Debug)]
pub enum Making {
    /// Each point for itself.
    Points,
    /// Each number of ones for itself.
    Symmetric,
    /// A few cubes.
    Cubes,
    /// Roots of a table that was made at random.
    Records,
}

/// The function of on points and the one of on and don't-care points.
pub type Roots = (Function, Function);

/// What a point may be, each as often as it stands there.
const ON_AND_OFF: [&[u8]; 3] = [b"10", b"1000", b"1110"];
const WITH_FREE: [&[u8]; 5] = [b"10-", b"1000-", b"1110-", b"10---", b"1-"];

impl Making {
    pub const ALL: [Making; 4] = [
        Making::Points,
        Making::Symmetric,
        Making::Cubes,
        Making::Records,
    ];

    pub fn name(self) -> &'static str {
        match self {
            Making::Points => "by points",
            Making::Symmetric => "symmetric",
            Making::Cubes => "by cubes",
            Making::Records => "by records",
        }
    }

    /// A random function, with don't cares or without.
    pub fn roots(self, random: &mut Random, columns: usize, free: bool) -> Roots {
        match self {
            Making::Points => {
                let signs = signs(random, 1 << columns, free);
                by_signs(columns, |point| signs[point as usize])
            }
            Making::Symmetric => {
                let signs = signs(random, columns + 1, free);
                by_signs(columns, |point| signs[point.count_ones() as usize])
            }
            Making::Cubes => {
                let l = some_cubes(random, columns);
                let u = if free {
                    l.or(&some_cubes(random, columns))
                } else {
                    l.clone()
                };
                (l, u)
            }
            Making::Records => {
                let most = random.pick(&[1, 6, 20, 60]);
                let table = Table::of(columns, &good(random, columns, most));
                let last = table.count() + 1;
                let mut root = || table.function(last - random.below(last.min(6) + 1));
                let (a, b) = (root(), root());
                if free {
                    (a.and(&b), a.or(&b))
                } else {
                    (a.clone(), a)
                }
            }
        }
    }
}

fn signs(random: &mut Random, many: usize, free: bool) -> Vec<u8> {
    let from = if free {
        random.pick(&WITH_FREE)
    } else {
        random.pick(&ON_AND_OFF)
    };
    (0..many).map(|_| random.pick(from)).collect()
}

/// The function with a sign for each point: 1, 0, or - for a don't care.
pub fn by_signs(columns: usize, sign: impl Fn(u32) -> u8) -> Roots {
    let l = Function::from_points(columns, |point| sign(point) == b'1');
    let u = Function::from_points(columns, |point| sign(point) != b'0');
    (l, u)
}

/// The points of some random cubes.
fn some_cubes(random: &mut Random, columns: usize) -> Function {
    let mut points = Function::constant(columns, false);
    let bound = random.pick(&[2, 7, 13]);
    for _ in 0..random.below(bound) {
        let mut cube = 0;
        for column in 0..columns {
            match random.below(4) {
                0 => cube = with_literal(cube, column, false),
                1 => cube = with_literal(cube, column, true),
                _ => {}
            }
        }
        points = points.or(&Function::from_cube(columns, cube));
    }
    points
}

/// Records that hold a function, with its lower and its upper root.
#[derive(Clone, Debug)]
pub struct Laid {
    pub columns: usize,
    pub in_use: Vec<Record>,
    pub lower: u16,
    pub upper: u16,
    roots: Roots,
}

impl Laid {
    /// The function behind records that keep their rule; either root may be the first of its own.
    pub fn over(random: &mut Random, columns: usize, earlier: &[Record], roots: Roots) -> Laid {
        let mut table = Table::of(columns, earlier);
        let mut number = |function| table.add(function, usize::MAX).unwrap() as u16;
        let (lower, upper);
        if random.below(2) == 0 {
            lower = number(&roots.0);
            upper = number(&roots.1);
        } else {
            upper = number(&roots.1);
            lower = number(&roots.0);
        }
        Laid {
            columns,
            in_use: table.records().to_vec(),
            lower,
            upper,
            roots,
        }
    }

    pub fn count(&self) -> usize {
        self.in_use.len()
    }

    /// The function of on points and the one of on and don't-care points.
    pub fn roots(&self) -> &Roots {
        &self.roots
    }

    /// The list of the second program.
    pub fn list(&self) -> Vec<u32> {
        list::list(&self.roots.0, &self.roots.1)
    }

    /// A check of a list, with a table of so many records; past those in use stands anything.
    pub fn checked(&self, random: &mut Random, records: usize, list: Vec<u32>) -> Check {
        Check {
            columns: self.columns as u16,
            table: lent(random, &self.in_use, records),
            count: self.count(),
            lower: self.lower,
            upper: self.upper,
            list,
        }
    }

    /// The list of the second program, and the records that its generation needs.
    pub fn generation(&self) -> list::Generation {
        let nodes = Table::of(self.columns, &self.in_use).nodes();
        list::generation(&self.roots.0, &self.roots.1, nodes)
    }

    /// A call with a table and a list room of these lengths; past the records in use, and in the
    /// whole list room, stands anything.
    pub fn asked(&self, random: &mut Random, records: usize, cubes: usize) -> Generation {
        Generation {
            columns: self.columns as u16,
            table: lent(random, &self.in_use, records),
            count: self.count(),
            lower: self.lower,
            upper: self.upper,
            room: room(random, cubes),
        }
    }
}

/// A list room filled with anything but zeros.
pub fn room(random: &mut Random, cubes: usize) -> Vec<u32> {
    let cube = || random.below(u32::MAX as usize) as u32 + 1;
    std::iter::repeat_with(cube).take(cubes).collect()
}
