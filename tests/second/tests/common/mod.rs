//! What the tests share: a random generator, ways to write functions down, and a naive telling of
//! the two rules that uses nothing of the package but the cube numbers it is compared by.
#![allow(dead_code)]

use second::function::Function;
use second::table::{Record, Table};
use std::collections::BTreeSet;

/// A xorshift generator: the same numbers on every run.
pub struct Random(u64);

impl Random {
    pub fn new(seed: u64) -> Random {
        Random(seed.wrapping_mul(0x9e37_79b9_7f4a_7c15) | 1)
    }

    pub fn next(&mut self) -> u64 {
        self.0 ^= self.0 << 13;
        self.0 ^= self.0 >> 7;
        self.0 ^= self.0 << 17;
        self.0 >> 11
    }

    pub fn below(&mut self, bound: usize) -> usize {
        (self.next() % bound as u64) as usize
    }

    /// One of the bytes given.
    pub fn pick(&mut self, from: &[u8]) -> u8 {
        from[self.below(from.len())]
    }

    /// Random signs for so many columns.
    pub fn signs(&mut self, columns: usize, from: &[u8]) -> Vec<u8> {
        (0..columns).map(|_| self.pick(from)).collect()
    }

    /// A random well-formed cube.
    pub fn cube(&mut self, columns: usize) -> u32 {
        let signs = self.signs(columns, b"01--");
        second::cube::from_signs(&signs).unwrap()
    }

    /// Random roots, L within U, by point number. Some are thin, some are full.
    pub fn roots(&mut self, columns: usize) -> (Naive, Naive) {
        let weights = [(1, 1, 1), (1, 1, 6), (6, 1, 1), (1, 6, 1), (1, 1, 0)];
        let (off, on, free) = weights[self.below(weights.len())];
        let values: Vec<usize> = (0..1usize << columns)
            .map(|_| self.below(off + on + free))
            .collect();
        let lower = values.iter().map(|&v| v >= off && v < off + on).collect();
        let upper = values.iter().map(|&v| v >= off).collect();
        (lower, upper)
    }
}

/// A function by point number.
pub type Naive = Vec<bool>;

/// The truth table of a naive function.
pub fn function(columns: usize, naive: &Naive) -> Function {
    Function::from_points(columns, |point| naive[point as usize])
}

/// The function with these on points, given as column digits.
pub fn on_at(columns: usize, points: &[&str]) -> Function {
    let points: Vec<u32> = points
        .iter()
        .map(|p| second::point::from_digits(p))
        .collect();
    Function::from_points(columns, |point| points.contains(&point))
}

/// A table of so many records that holds two functions, with its count and their numbers.
pub fn table_of(l: &Function, u: &Function, length: usize) -> (Vec<Record>, usize, usize, usize) {
    let mut table = Table::new(l.columns());
    let lower = table.add(l, length).unwrap();
    let upper = table.add(u, length).unwrap();
    let mut records = vec![Record::default(); length];
    records[..table.count()].copy_from_slice(table.records());
    (records, table.count(), lower, upper)
}

/// The value at a point by walking the records.
pub fn walked(records: &[Record], number: usize, point: u32) -> bool {
    match number {
        0 | 1 => number == 1,
        _ => {
            let record = records[number - 2];
            let high = point >> record.level & 1 == 1;
            let next = if high { record.high } else { record.low };
            walked(records, usize::from(next), point)
        }
    }
}

/// Random records that keep their rule.
pub fn random_records(random: &mut Random, columns: usize, tries: usize) -> Vec<Record> {
    let mut in_use = Vec::new();
    for _ in 0..tries {
        let mut number = || random.below(in_use.len() + 2) as u16;
        let (low, high) = (number(), number());
        let level = random.below(columns) as u16;
        in_use.push(Record::new(level, low, high));
        if !second::table::sound(columns, &in_use) {
            in_use.pop();
        }
    }
    in_use
}

/// 4,096 random records of 16 columns that keep their rule: a chain through all columns, and
/// above it records of the first four.
pub fn full_records(random: &mut Random) -> Vec<Record> {
    let mut in_use: Vec<Record> = (0..16).map(|k| Record::new(15 - k, 0, 1 + k)).collect();
    in_use[0] = Record::new(15, 0, 1);
    while in_use.len() < 4_096 {
        let level = random.below(4) as u16;
        let low = random.below(14) as u16;
        let high = random.below(in_use.len() + 2) as u16;
        let new = Record::new(level, low, high);
        let greater = |n: u16| n < 2 || in_use[usize::from(n) - 2].level > level;
        if low != high && greater(low) && greater(high) && !in_use.contains(&new) {
            in_use.push(new);
        }
    }
    in_use
}

/// The signs of each cube.
pub fn all_signs(cubes: &[u32], columns: usize) -> Vec<String> {
    cubes
        .iter()
        .map(|&cube| second::cube::signs(cube, columns))
        .collect()
}

/// The cubes of rows of signs.
pub fn cubes(rows: &[&str]) -> Vec<u32> {
    rows.iter()
        .map(|row| second::cube::from_signs(row.as_bytes()).unwrap())
        .collect()
}

/// The naive list rule by document 01's steps, with the nodes that it names.
pub mod naive {
    use super::*;

    fn combine(a: &Naive, b: &Naive, f: fn(bool, bool) -> bool) -> Naive {
        a.iter().zip(b).map(|(&a, &b)| f(a, b)).collect()
    }

    fn less(a: &Naive, b: &Naive) -> Naive {
        combine(a, b, |a, b| a && !b)
    }

    /// The function with one column fixed, still asked at every point.
    fn fixed(f: &Naive, column: usize, value: bool) -> Naive {
        (0..f.len())
            .map(|point| f[point & !(1 << column) | usize::from(value) << column])
            .collect()
    }

    fn constant(f: &Naive) -> bool {
        f.iter().all(|&value| value == f[0])
    }

    /// The distinct non-constant functions got by fixing the first k columns in all ways.
    pub fn nodes(columns: usize, f: &Naive) -> BTreeSet<Naive> {
        let mut found = BTreeSet::new();
        for k in 0..=columns {
            for first in 0..1usize << k {
                let keep = !((1usize << k) - 1);
                let g: Naive = (0..f.len()).map(|point| f[point & keep | first]).collect();
                if !constant(&g) {
                    found.insert(g);
                }
            }
        }
        found
    }

    /// Whether a cube, as (column, value) pairs, covers a point.
    fn in_cube(cube: &[(usize, bool)], point: usize) -> bool {
        cube.iter()
            .all(|&(column, value)| (point >> column & 1 == 1) == value)
    }

    fn cover(points: usize, cubes: &[Vec<(usize, bool)>]) -> Naive {
        (0..points)
            .map(|point| cubes.iter().any(|cube| in_cube(cube, point)))
            .collect()
    }

    fn generate(
        columns: usize,
        l: &Naive,
        u: &Naive,
        nodes_named: &mut BTreeSet<Naive>,
    ) -> Vec<Vec<(usize, bool)>> {
        if l.iter().all(|&value| !value) {
            return vec![];
        }
        if u.iter().all(|&value| value) {
            return vec![vec![]];
        }
        let depends = |f: &Naive, k: usize| fixed(f, k, false) != fixed(f, k, true);
        let v = (0..columns)
            .find(|&k| depends(l, k) || depends(u, k))
            .unwrap();
        let (l0, l1) = (fixed(l, v, false), fixed(l, v, true));
        let (u0, u1) = (fixed(u, v, false), fixed(u, v, true));
        let (p0, p1) = (less(&l0, &u1), less(&l1, &u0));
        let a = generate(columns, &p0, &u0, nodes_named);
        let b = generate(columns, &p1, &u1, nodes_named);
        let (g0, g1) = (cover(l.len(), &a), cover(l.len(), &b));
        let (r0, r1) = (less(&l0, &g0), less(&l1, &g1));
        let rest = combine(&r0, &r1, |a, b| a || b);
        let both = combine(&u0, &u1, |a, b| a && b);
        let c = generate(columns, &rest, &both, nodes_named);
        let gs = cover(l.len(), &c);
        let with = |list: Vec<Vec<(usize, bool)>>, value| {
            list.into_iter()
                .map(move |cube| [vec![(v, value)], cube].concat())
        };
        let result: Vec<_> = with(a, false).chain(with(b, true)).chain(c).collect();
        let g = cover(l.len(), &result);
        for f in [&p0, &p1, &g0, &g1, &r0, &r1, &rest, &both, &gs, &g] {
            nodes_named.extend(nodes(columns, f));
        }
        result
    }

    fn number(cube: &[(usize, bool)]) -> u32 {
        cube.iter().fold(0, |number, &(column, value)| {
            number + (1 << if value { column } else { 16 + column })
        })
    }

    /// The cubes of the list, and the nodes needed from the nodes of L and U at entry.
    pub fn list_and_need(columns: usize, l: &Naive, u: &Naive) -> (Vec<u32>, BTreeSet<Naive>) {
        let mut named = nodes(columns, l);
        named.extend(nodes(columns, u));
        let list = generate(columns, l, u, &mut named);
        (list.iter().map(|cube| number(cube)).collect(), named)
    }
}

/// The rule at a point by the three-valued tables, and the errors that look right.
pub mod three_valued {
    /// A value at a point.
    #[derive(Clone, Copy, PartialEq, Eq, Debug)]
    pub enum Value {
        Off,
        On,
        Free,
    }
    use Value::{Free, Off, On};

    /// Rows of nine: first is off, on, free in turn, and within each second likewise.
    const KEEP: [Option<Value>; 9] = [
        Some(Off),
        Some(Off),
        Some(Off),
        Some(On),
        Some(Free),
        Some(Free),
        Some(Free),
        Some(Free),
        Some(Free),
    ];
    const REMOVE: [Option<Value>; 9] = [
        Some(Off),
        None,
        None,
        Some(On),
        Some(Free),
        None,
        Some(Free),
        Some(Free),
        None,
    ];
    const JOIN: [Option<Value>; 9] = [
        Some(Off),
        Some(Off),
        Some(Off),
        Some(Off),
        Some(On),
        Some(On),
        Some(Off),
        Some(On),
        Some(Free),
    ];

    /// Where the generation goes wrong on purpose.
    #[derive(Clone, Copy, PartialEq, Eq, Debug)]
    pub enum Mistake {
        None,
        FreeAsOnInStep1,
        LessLower,
        NoRest,
    }

    fn looked_up(table: &[Option<Value>; 9], first: &[Value], second: &[Value]) -> Vec<Value> {
        let at = |a: Value, b: Value| table[3 * a as usize + b as usize].expect("never");
        first.iter().zip(second).map(|(&a, &b)| at(a, b)).collect()
    }

    /// The list as signs, for values in reading order. Every column is expanded.
    pub fn list(values: &[Value], mistake: Mistake) -> Vec<String> {
        let columns = values.len().trailing_zeros() as usize;
        let empty = if mistake == Mistake::FreeAsOnInStep1 {
            values.iter().all(|&v| v == Off)
        } else {
            !values.contains(&On)
        };
        if empty {
            return vec![];
        }
        if !values.contains(&Off) {
            return vec!["-".repeat(columns)];
        }
        let (f0, f1) = values.split_at(values.len() / 2);
        let a = list(&keep(f0, f1, mistake), mistake);
        let b = list(&keep(f1, f0, mistake), mistake);
        let c = if mistake == Mistake::NoRest {
            list(&looked_up(&JOIN, f0, f1), mistake)
        } else {
            let rest0 = looked_up(&REMOVE, f0, &cover(&a, f0.len()));
            let rest1 = looked_up(&REMOVE, f1, &cover(&b, f1.len()));
            never_torn(&rest0, &rest1);
            list(&looked_up(&JOIN, &rest0, &rest1), mistake)
        };
        let parts = [("0", a), ("1", b), ("-", c)];
        parts
            .iter()
            .flat_map(|(sign, part)| part.iter().map(move |row| format!("{sign}{row}")))
            .collect()
    }

    fn keep(half: &[Value], other: &[Value], mistake: Mistake) -> Vec<Value> {
        if mistake == Mistake::LessLower {
            // L0 less L1 instead of L0 less U1.
            let other: Vec<Value> = other
                .iter()
                .map(|&v| if v == Free { Off } else { v })
                .collect();
            return looked_up(&KEEP, half, &other);
        }
        looked_up(&KEEP, half, other)
    }

    /// In join, "0 1" and "1 0" do not arise from the steps.
    fn never_torn(rest0: &[Value], rest1: &[Value]) {
        let torn = |(&a, &b): (&Value, &Value)| matches!((a, b), (Off, On) | (On, Off));
        assert!(!rest0.iter().zip(rest1).any(torn));
    }

    fn cover(rows: &[String], points: usize) -> Vec<Value> {
        let columns = points.trailing_zeros() as usize;
        let covers = |row: &String, place: usize| {
            row.bytes().enumerate().all(|(k, sign)| {
                let digit = place >> (columns - 1 - k) & 1;
                sign == b'-' || usize::from(sign - b'0') == digit
            })
        };
        (0..points)
            .map(|place| {
                if rows.iter().any(|row| covers(row, place)) {
                    On
                } else {
                    Off
                }
            })
            .collect()
    }
}
