//! The list rule: the cubes of a function with don't cares, and the nodes their generation needs.
//! The letters are document 01's. A pair of roots that is reached again gives the same cubes and
//! the same nodes, so it is worked out once.

use crate::cube::with_literal;
use crate::function::Function;
use crate::nodes::Nodes;
use std::collections::HashMap;
use std::rc::Rc;

/// What a generation gives: the cubes in order, and the number of nodes it needs.
#[derive(Clone, PartialEq, Eq, Debug)]
pub struct Generation {
    pub cubes: Vec<u32>,
    pub need: usize,
}

/// The generation for L within U, from the records at entry.
pub fn generation(l: &Function, u: &Function, entry: Nodes) -> Generation {
    let mut rule = Rule {
        columns: l.columns(),
        nodes: entry,
        known: HashMap::new(),
    };
    let cubes = rule.part(l, u).cubes.clone();
    let need = rule.nodes.count();
    Generation { cubes, need }
}

/// The list for L within U, without regard to nodes.
pub fn list(l: &Function, u: &Function) -> Vec<u32> {
    generation(l, u, Nodes::new()).cubes
}

/// The list for one pair of roots, and the function it covers.
struct Part {
    cubes: Vec<u32>,
    cover: Function,
}

struct Rule {
    columns: usize,
    nodes: Nodes,
    known: HashMap<(Function, Function), Rc<Part>>,
}

impl Rule {
    /// The list for roots that are functions of the last columns only.
    fn part(&mut self, l: &Function, u: &Function) -> Rc<Part> {
        // L is asked first: where L is 0 and U is 1 there is no cube.
        if l.is_zero() {
            return Rc::new(Part {
                cubes: Vec::new(),
                cover: l.clone(),
            });
        }
        if u.is_one() {
            return Rc::new(Part {
                cubes: vec![0],
                cover: u.clone(),
            });
        }
        let roots = (l.clone(), u.clone());
        if let Some(part) = self.known.get(&roots) {
            return part.clone();
        }
        let part = Rc::new(if l.depends_on_first() || u.depends_on_first() {
            self.expand(l, u)
        } else {
            self.pass(l, u)
        });
        self.known.insert(roots, part.clone());
        part
    }

    /// Neither root depends on the first column: the list is that of the columns after it.
    fn pass(&mut self, l: &Function, u: &Function) -> Part {
        let rest = self.part(&l.low(), &u.low());
        Part {
            cubes: rest.cubes.clone(),
            cover: Function::join(&rest.cover, &rest.cover),
        }
    }

    /// Step 3 on the first column.
    fn expand(&mut self, l: &Function, u: &Function) -> Part {
        let (l0, l1) = (l.low(), l.high());
        let (u0, u1) = (u.low(), u.high());
        let p0 = l0.less(&u1);
        let p1 = l1.less(&u0);
        let a = self.part(&p0, &u0);
        let b = self.part(&p1, &u1);
        let r0 = l0.less(&a.cover);
        let r1 = l1.less(&b.cover);
        let rest = r0.or(&r1);
        let both = u0.and(&u1);
        let c = self.part(&rest, &both);
        let g = Function::join(&a.cover.or(&c.cover), &b.cover.or(&c.cover));
        let named = [
            &p0, &p1, &a.cover, &b.cover, &r0, &r1, &rest, &both, &c.cover, &g,
        ];
        for function in named {
            self.nodes.add(function);
        }
        let v = self.columns - l.columns();
        let cubes = joined(v, &a.cubes, &b.cubes, &c.cubes);
        Part { cubes, cover: g }
    }
}

/// A with v=0 added, then B with v=1 added, then C.
fn joined(v: usize, a: &[u32], b: &[u32], c: &[u32]) -> Vec<u32> {
    let a = a.iter().map(|&cube| with_literal(cube, v, false));
    let b = b.iter().map(|&cube| with_literal(cube, v, true));
    a.chain(b).chain(c.iter().copied()).collect()
}
