//! Sets of nodes. The nodes of a function are the distinct non-constant functions got by fixing
//! its first k columns in all ways. A node is kept without the columns in front of the first it
//! depends on, so that equal functions got at different k are one node.

use crate::function::Function;
use std::collections::HashSet;

/// A set that has, with each of its nodes, all nodes of that node.
#[derive(Clone, Default, Debug)]
pub struct Nodes {
    nodes: HashSet<Function>,
}

impl Nodes {
    pub fn new() -> Nodes {
        Nodes::default()
    }

    /// The number of nodes, which is the number of records they take.
    pub fn count(&self) -> usize {
        self.nodes.len()
    }

    /// The function's own node is in the set.
    pub fn has(&self, function: &Function) -> bool {
        self.nodes.contains(&function.narrowed())
    }

    /// Adds all nodes of a function. What is present has brought its nodes already.
    pub fn add(&mut self, function: &Function) {
        let node = function.narrowed();
        if node.columns() == 0 || self.nodes.contains(&node) {
            return;
        }
        self.add(&node.low());
        self.add(&node.high());
        self.nodes.insert(node);
    }
}
