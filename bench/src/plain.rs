//! The plain version of the generator, to measure against: the same records, the same search for a
//! record from the newest on and the same steps, but nothing is remembered.

use compare::generation::Generation;

/// An operation on two numbers, and where its result is known without taking columns apart.
#[derive(Clone, Copy)]
enum Op {
    And,
    Or,
    Difference,
}

fn known(op: Op, a: u16, b: u16) -> Option<u16> {
    match (op, a, b) {
        (Op::And, 0, _) | (Op::And, _, 0) => Some(0),
        (Op::And, 1, x) | (Op::And, x, 1) => Some(x),
        (Op::Or, 1, _) | (Op::Or, _, 1) => Some(1),
        (Op::Or, 0, x) | (Op::Or, x, 0) => Some(x),
        (Op::Difference, 0, _) | (Op::Difference, _, 1) => Some(0),
        (Op::Difference, x, 0) => Some(x),
        (Op::Difference, x, y) if x == y => Some(0),
        (_, x, y) if x == y => Some(x),
        _ => None,
    }
}

/// The records in use, and how many there may be.
struct Graph {
    level: Vec<u16>,
    low: Vec<u16>,
    high: Vec<u16>,
    most: usize,
}

/// No room for a record.
struct Full;

type Made = Result<u16, Full>;

impl Graph {
    fn half(&self, k: u16, second: bool, x: u16) -> u16 {
        if x < 2 || self.level[usize::from(x - 2)] != k {
            return x;
        }
        let halves = if second { &self.high } else { &self.low };
        halves[usize::from(x - 2)]
    }

    fn make(&mut self, k: u16, l: u16, h: u16) -> Made {
        if l == h {
            return Ok(l);
        }
        let same = |&i: &usize| self.level[i] == k && self.low[i] == l && self.high[i] == h;
        if let Some(i) = (0..self.level.len()).rev().find(same) {
            return Ok(i as u16 + 2);
        }
        if self.level.len() == self.most {
            return Err(Full);
        }
        self.level.push(k);
        self.low.push(l);
        self.high.push(h);
        Ok(self.level.len() as u16 + 1)
    }

    fn apply(&mut self, op: Op, k: u16, a: u16, b: u16) -> Made {
        if let Some(x) = known(op, a, b) {
            return Ok(x);
        }
        let (a0, a1) = (self.half(k, false, a), self.half(k, true, a));
        let (b0, b1) = (self.half(k, false, b), self.half(k, true, b));
        if a0 == a1 && b0 == b1 {
            return self.apply(op, k + 1, a0, b0);
        }
        let x = self.apply(op, k + 1, a0, b0)?;
        let y = self.apply(op, k + 1, a1, b1)?;
        self.make(k, x, y)
    }

    /// The cover of the list for the roots, and the place after it. `chosen` holds the literals of the columns before.
    fn list(
        &mut self,
        room: &mut [u32],
        at: usize,
        chosen: u32,
        k: u16,
        l: u16,
        u: u16,
    ) -> Result<(u16, usize), Full> {
        if l == 0 {
            return Ok((0, at));
        }
        if u == 1 {
            if let Some(cube) = room.get_mut(at) {
                *cube = chosen;
            }
            return Ok((1, at + 1));
        }
        let (l0, l1) = (self.half(k, false, l), self.half(k, true, l));
        let (u0, u1) = (self.half(k, false, u), self.half(k, true, u));
        let next = k + 1;
        let p0 = self.apply(Op::Difference, next, l0, u1)?;
        let p1 = self.apply(Op::Difference, next, l1, u0)?;
        let (g0, to_b) = self.list(room, at, chosen | 1 << (16 + k), next, p0, u0)?;
        let (g1, to_c) = self.list(room, to_b, chosen | 1 << k, next, p1, u1)?;
        let r0 = self.apply(Op::Difference, next, l0, g0)?;
        let r1 = self.apply(Op::Difference, next, l1, g1)?;
        let rest = self.apply(Op::Or, next, r0, r1)?;
        let top = self.apply(Op::And, next, u0, u1)?;
        let (gs, end) = self.list(room, to_c, chosen, next, rest, top)?;
        let x = self.apply(Op::Or, next, g0, gs)?;
        let y = self.apply(Op::Or, next, g1, gs)?;
        Ok((self.make(k, x, y)?, end))
    }
}

/// The length of the list of a good question with node room enough; as much of it as fits is in the room.
pub fn length(asked: &Generation, room: &mut [u32]) -> Option<usize> {
    let used = |field: &[u16]| field[..asked.count].to_vec();
    let mut graph = Graph {
        level: used(&asked.table.level),
        low: used(&asked.table.low),
        high: used(&asked.table.high),
        most: asked.table.level.len(),
    };
    let listed = graph.list(room, 0, 0, 0, asked.lower, asked.upper);
    listed.ok().map(|(_, length)| length)
}

#[cfg(test)]
mod tests {
    use super::length;
    use crate::generations::GENERATIONS;

    /// It lists what the library lists.
    #[test]
    fn the_plain_list_is_the_same() {
        for case in GENERATIONS {
            let asked = case.asked();
            let listed = asked.by_library();
            let mut room = vec![0; asked.room.len()];
            let many = length(&asked, &mut room).unwrap() as u64;
            assert_eq!(many, listed.returned + listed.length, "{}", case.name);
            if listed.number == 0 {
                assert_eq!(room, listed.room, "{}", case.name);
            }
        }
    }
}
