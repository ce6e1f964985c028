//! Document 01's node. The order that `derive` gives is document 01's: operator, payload, child count, children.
use crate::{Id, Language};

#[derive(Debug, Clone, PartialEq, Eq, PartialOrd, Ord, Hash)]
pub struct Node {
    pub op: u32,
    pub payload: u32,
    count: usize,
    kids: Vec<Id>,
}

impl Node {
    pub fn new(op: u32, payload: u32, kids: Vec<Id>) -> Node {
        Node { op, payload, count: kids.len(), kids }
    }
}

impl Language for Node {
    type Discriminant = u32;

    fn discriminant(&self) -> u32 {
        self.op
    }
    fn matches(&self, other: &Node) -> bool {
        self.op == other.op && self.payload == other.payload && self.count == other.count
    }
    fn children(&self) -> &[Id] {
        &self.kids
    }
    fn children_mut(&mut self) -> &mut [Id] {
        &mut self.kids
    }
}
