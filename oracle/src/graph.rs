//! egg's e-graph behind document 01's limits and refusals. Every step is a call of egg's own functions; what is added
//! is what document 01 adds: the numbers of the refusals, the limits, the order of lists and forms.
use crate::node::Node;
use crate::{AstSize, CostFunction, EClass, EGraph, Extractor, Id, Language};
use std::collections::BTreeMap;

/// The answer, or the number of the refusal.
pub type Answer<T> = Result<T, u32>;

/// The words that a graph with limits n and m needs; layout::need of the port.
pub fn need(n: u64, m: u64) -> u64 {
    32 + 28 * n + 4 * m
}

pub struct Graph {
    egg: EGraph<Node, ()>,
    n: usize,
    m: usize,
    places: usize,
}

pub fn number(i: Id) -> u32 {
    usize::from(i) as u32
}

/// Operator, payload, child count, children.
fn push_node(words: &mut Vec<u32>, node: &Node) {
    words.extend([node.op, node.payload, node.len() as u32]);
    words.extend(node.children().iter().map(|k| number(*k)));
}

impl Graph {
    /// A fresh graph in so many lent words.
    pub fn setup(lent: u64, n: u32, m: u32) -> Answer<Graph> {
        if !(1..=65_536).contains(&n) || m > 262_144 {
            return Err(1);
        }
        if need(n.into(), m.into()) > lent {
            return Err(2);
        }
        Ok(Graph { egg: EGraph::new(()), n: n as usize, m: m as usize, places: 0 })
    }

    fn ids(&self) -> usize {
        self.egg.nodes().len()
    }

    fn known(&self, id: u32) -> Answer<Id> {
        if (id as usize) < self.ids() {
            Ok(Id::from(id as usize))
        } else {
            Err(4)
        }
    }

    fn node(&self, op: u32, payload: u32, kids: &[u32]) -> Answer<Node> {
        if kids.len() > 8 {
            return Err(5);
        }
        let kids: Answer<Vec<Id>> = kids.iter().map(|k| self.known(*k)).collect();
        Ok(Node::new(op, payload, kids?))
    }

    fn when_clean(&self) -> Answer<()> {
        if self.egg.clean {
            Ok(())
        } else {
            Err(7)
        }
    }

    /// The node to add, if there is room for it or it is found.
    fn node_to_add(&self, op: u32, payload: u32, kids: &[u32]) -> Answer<Node> {
        let node = self.node(op, payload, kids)?;
        let full = self.ids() >= self.n || self.places + kids.len() > self.m;
        if full && self.egg.lookup(node.clone()).is_none() {
            return Err(6);
        }
        Ok(node)
    }

    pub fn add_uncanonical(&mut self, op: u32, payload: u32, kids: &[u32]) -> Answer<u32> {
        let node = self.node_to_add(op, payload, kids)?;
        let before = self.ids();
        let id = self.egg.add_uncanonical(node);
        if self.ids() > before {
            self.places += kids.len();
        }
        Ok(number(id))
    }

    pub fn add(&mut self, op: u32, payload: u32, kids: &[u32]) -> Answer<u32> {
        let node = self.node_to_add(op, payload, kids)?;
        let before = self.ids();
        let id = self.egg.add(node);
        if self.ids() > before {
            self.places += kids.len();
        }
        Ok(number(id))
    }

    pub fn lookup(&self, op: u32, payload: u32, kids: &[u32]) -> Answer<Option<u32>> {
        let node = self.node(op, payload, kids)?;
        Ok(self.egg.lookup(node).map(number))
    }

    pub fn find(&self, id: u32) -> Answer<u32> {
        Ok(number(self.egg.find(self.known(id)?)))
    }

    pub fn union(&mut self, a: u32, b: u32) -> Answer<bool> {
        let (a, b) = (self.known(a)?, self.known(b)?);
        Ok(self.egg.union(a, b))
    }

    pub fn rebuild(&mut self) -> usize {
        self.egg.rebuild()
    }

    pub fn is_empty(&self) -> bool {
        self.egg.is_empty()
    }

    pub fn clean(&self) -> bool {
        self.egg.clean
    }

    pub fn number_of_classes(&self) -> usize {
        self.egg.number_of_classes()
    }

    pub fn total_number_of_nodes(&self) -> Answer<usize> {
        self.when_clean()?;
        Ok(self.egg.total_number_of_nodes())
    }

    /// egg's classes, in ascending root id.
    fn sorted_classes(&self) -> Vec<&EClass<Node, ()>> {
        let mut classes: Vec<_> = self.egg.classes().collect();
        classes.sort_by_key(|c| c.id);
        classes
    }

    pub fn classes(&self) -> Answer<Vec<u32>> {
        self.when_clean()?;
        let mut words = Vec::new();
        for class in self.sorted_classes() {
            words.extend([number(class.id), class.len() as u32]);
            class.iter().for_each(|node| push_node(&mut words, node));
        }
        Ok(words)
    }

    pub fn classes_for_op(&self, op: u32) -> Answer<Vec<u32>> {
        self.when_clean()?;
        let mut roots: Vec<u32> = match self.egg.classes_for_op(&op) {
            Some(ids) => ids.map(number).collect(),
            None => Vec::new(),
        };
        roots.sort();
        Ok(roots)
    }

    pub fn nodes(&self) -> Vec<u32> {
        let mut words = Vec::new();
        self.egg.nodes().iter().for_each(|node| push_node(&mut words, node));
        words
    }

    pub fn id_to_node(&self, id: u32) -> Answer<Vec<u32>> {
        let mut words = Vec::new();
        push_node(&mut words, self.egg.id_to_node(self.known(id)?));
        Ok(words)
    }

    /// egg's own size.
    pub fn find_best_cost(&self, id: u32) -> Answer<usize> {
        let id = self.known(id)?;
        self.when_clean()?;
        Ok(Extractor::new(&self.egg, AstSize).find_best_cost(id))
    }

    /// egg's own size, and the form that document 01's rule takes among egg's class nodes. Which tied form egg takes
    /// hangs on the order of a hash map; that its form and this one have the size that egg gives is asserted here.
    pub fn find_best(&self, id: u32) -> Answer<(usize, Vec<u32>)> {
        let id = self.known(id)?;
        self.when_clean()?;
        let extractor = Extractor::new(&self.egg, AstSize);
        let (size, form) = extractor.find_best(id);
        assert_eq!(AstSize.cost_rec(&form), size, "the size of egg's own form");
        let chosen = self.passes();
        for (root, (price, _)) in &chosen {
            assert_eq!(*price, extractor.find_best_cost(Id::from(*root as usize)), "the price of class {root}");
        }
        assert_eq!(chosen.len(), self.number_of_classes());
        let (form_size, words) = listing(&chosen, number(self.egg.find(id)));
        assert_eq!(form_size, size, "the size of the listed form");
        Ok((size, words))
    }

    /// Document 01's passes: classes in ascending root id until a pass changes nothing; the first node in node order
    /// with the least price is taken if the class has none yet or if it is strictly less.
    fn passes(&self) -> BTreeMap<u32, (usize, &Node)> {
        let classes = self.sorted_classes();
        let mut chosen: BTreeMap<u32, (usize, &Node)> = BTreeMap::new();
        loop {
            let mut changed = false;
            for class in &classes {
                let root = number(class.id);
                let priced = class.iter().filter_map(|node| Some((price(&chosen, node)?, node)));
                // of equals the first
                if let Some((price, node)) = priced.min_by_key(|(price, _)| *price) {
                    if chosen.get(&root).map_or(true, |(before, _)| price < *before) {
                        chosen.insert(root, (price, node));
                        changed = true;
                    }
                }
            }
            if !changed {
                return chosen;
            }
        }
    }
}

/// 1 plus the children's prices, left to right, saturating; none if a child has none.
fn price(chosen: &BTreeMap<u32, (usize, &Node)>, node: &Node) -> Option<usize> {
    let mut sum = 1usize;
    for kid in node.children() {
        sum = sum.saturating_add(chosen.get(&number(*kid))?.0);
    }
    Some(sum)
}

/// The form of a class by the chosen nodes, in words, and its own size: children first, leftmost first, each class
/// once, the asked class last; children are places in the list.
fn listing(chosen: &BTreeMap<u32, (usize, &Node)>, asked: u32) -> (usize, Vec<u32>) {
    let mut place: BTreeMap<u32, u32> = BTreeMap::new();
    let mut sizes: Vec<usize> = Vec::new();
    let mut words = Vec::new();
    // classes that are open, and how many of their children were visited
    let mut open = vec![(asked, 0)];
    while let Some((root, visited)) = open.pop() {
        let node = chosen[&root].1;
        let kids: Vec<u32> = node.children().iter().map(|k| number(*k)).collect();
        if visited < kids.len() {
            open.push((root, visited + 1));
            if !place.contains_key(&kids[visited]) {
                assert!(open.len() <= chosen.len(), "a form in a circle");
                open.push((kids[visited], 0));
            }
        } else {
            let places: Vec<u32> = kids.iter().map(|k| place[k]).collect();
            place.insert(root, sizes.len() as u32);
            sizes.push(places.iter().fold(1usize, |sum, p| sum.saturating_add(sizes[*p as usize])));
            words.extend([node.op, node.payload, places.len() as u32]);
            words.extend(places);
        }
    }
    (sizes[sizes.len() - 1], words)
}
