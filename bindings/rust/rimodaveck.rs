//! The proved e-graph for Rust: include/rimodaveck.h behind safe functions. No call asks anything of its numbers, and what C cannot
//! show, lengths, alignment, no overlap and one writer at a time, Rust's own slices and borrows show; so nothing here is unsafe to use.
//!
//! A graph is copied by `clone`: its words are all there is.
#![allow(dead_code)]
use std::fmt;

#[repr(C)]
#[derive(Clone, Copy)]
struct Reply {
    number: u32,
    count: u32,
    first: u64,
    second: u64,
}

extern "C" {
    fn rimo_need(n: usize, m: usize) -> usize;
    fn rimo_setup(ws: *mut u32, len: usize, n: usize, m: usize) -> Reply;
    fn rimo_add(ws: *mut u32, len: usize, op: u32, payload: u32, kids: *const u32, kids_len: usize) -> Reply;
    fn rimo_add_uncanonical(ws: *mut u32, len: usize, op: u32, payload: u32, kids: *const u32, kids_len: usize) -> Reply;
    fn rimo_union(ws: *mut u32, len: usize, id1: u32, id2: u32) -> Reply;
    fn rimo_rebuild(ws: *mut u32, len: usize) -> Reply;
    fn rimo_lookup(ws: *const u32, len: usize, op: u32, payload: u32, kids: *const u32, kids_len: usize) -> Reply;
    fn rimo_find(ws: *const u32, len: usize, id: u32) -> Reply;
    fn rimo_is_empty(ws: *const u32, len: usize) -> Reply;
    fn rimo_clean(ws: *const u32, len: usize) -> Reply;
    fn rimo_number_of_classes(ws: *const u32, len: usize) -> Reply;
    fn rimo_total_number_of_nodes(ws: *const u32, len: usize) -> Reply;
    fn rimo_classes(ws: *const u32, len: usize, list: *mut u32, list_len: usize) -> Reply;
    fn rimo_classes_for_op(ws: *const u32, len: usize, op: u32, list: *mut u32, list_len: usize) -> Reply;
    fn rimo_nodes(ws: *const u32, len: usize, list: *mut u32, list_len: usize) -> Reply;
    fn rimo_id_to_node(ws: *const u32, len: usize, id: u32, list: *mut u32, list_len: usize) -> Reply;
    fn rimo_find_best_cost(ws: *mut u32, len: usize, id: u32) -> Reply;
    fn rimo_find_best(ws: *mut u32, len: usize, id: u32, list: *mut u32, list_len: usize) -> Reply;
}

/// A call was refused, by the number of include/rimodaveck.h.
#[derive(Clone, Copy, Debug, PartialEq, Eq)]
pub struct Refused(pub u32);

impl fmt::Display for Refused {
    fn fmt(&self, f: &mut fmt::Formatter<'_>) -> fmt::Result {
        write!(f, "no {}", self.0)
    }
}

impl std::error::Error for Refused {}

pub type Answer<T> = Result<T, Refused>;

/// The number of the refusal that says that a list is too short.
const TOO_LONG: u32 = 8;

fn told(r: Reply) -> Answer<Reply> {
    if r.number == 0 { Ok(r) } else { Err(Refused(r.number)) }
}

#[derive(Clone)]
pub struct Graph {
    words: Vec<u32>,
}

impl Graph {
    /// A fresh graph with room for n ids and m child places in all.
    pub fn new(n: usize, m: usize) -> Answer<Graph> {
        let mut words = vec![0; unsafe { rimo_need(n, m) }];
        told(unsafe { rimo_setup(words.as_mut_ptr(), words.len(), n, m) })?;
        Ok(Graph { words })
    }

    /// Adds a node and answers the root of its class.
    pub fn add(&mut self, op: u32, payload: u32, kids: &[u32]) -> Answer<u32> {
        let r = unsafe { rimo_add(self.words.as_mut_ptr(), self.words.len(), op, payload, kids.as_ptr(), kids.len()) };
        Ok(told(r)?.first as u32)
    }

    /// Adds a node and answers the id that it has, which need not be a root.
    pub fn add_uncanonical(&mut self, op: u32, payload: u32, kids: &[u32]) -> Answer<u32> {
        let r = unsafe { rimo_add_uncanonical(self.words.as_mut_ptr(), self.words.len(), op, payload, kids.as_ptr(), kids.len()) };
        Ok(told(r)?.first as u32)
    }

    /// States that two ids are equal; whether that joined two classes.
    pub fn union(&mut self, id1: u32, id2: u32) -> Answer<bool> {
        Ok(told(unsafe { rimo_union(self.words.as_mut_ptr(), self.words.len(), id1, id2) })?.first == 1)
    }

    /// Draws what follows from the unions; how many more pairs of classes that joined.
    pub fn rebuild(&mut self) -> Answer<u64> {
        Ok(told(unsafe { rimo_rebuild(self.words.as_mut_ptr(), self.words.len()) })?.first)
    }

    /// The root of the class of a node that is there.
    pub fn lookup(&self, op: u32, payload: u32, kids: &[u32]) -> Answer<Option<u32>> {
        let r = told(unsafe { rimo_lookup(self.words.as_ptr(), self.words.len(), op, payload, kids.as_ptr(), kids.len()) })?;
        Ok(if r.count == 0 { None } else { Some(r.first as u32) })
    }

    /// The root of the id's class. Ids stay for good, roots may change with each union and rebuild.
    pub fn find(&self, id: u32) -> Answer<u32> {
        Ok(told(unsafe { rimo_find(self.words.as_ptr(), self.words.len(), id) })?.first as u32)
    }

    pub fn is_empty(&self) -> Answer<bool> {
        Ok(told(unsafe { rimo_is_empty(self.words.as_ptr(), self.words.len()) })?.first == 1)
    }

    /// Whether a rebuild has ended and no node or union has come since.
    pub fn clean(&self) -> Answer<bool> {
        Ok(told(unsafe { rimo_clean(self.words.as_ptr(), self.words.len()) })?.first == 1)
    }

    pub fn number_of_classes(&self) -> Answer<u64> {
        Ok(told(unsafe { rimo_number_of_classes(self.words.as_ptr(), self.words.len()) })?.first)
    }

    pub fn total_number_of_nodes(&self) -> Answer<u64> {
        Ok(told(unsafe { rimo_total_number_of_nodes(self.words.as_ptr(), self.words.len()) })?.first)
    }

    /// The words of all classes (include/rimodaveck.h has the order).
    pub fn classes(&self) -> Answer<Vec<u32>> {
        listed(|list, len| unsafe { rimo_classes(self.words.as_ptr(), self.words.len(), list, len) })
    }

    /// The roots of the classes that have a node with this operator.
    pub fn classes_for_op(&self, op: u32) -> Answer<Vec<u32>> {
        listed(|list, len| unsafe { rimo_classes_for_op(self.words.as_ptr(), self.words.len(), op, list, len) })
    }

    /// The words of the nodes as they were given.
    pub fn nodes(&self) -> Answer<Vec<u32>> {
        listed(|list, len| unsafe { rimo_nodes(self.words.as_ptr(), self.words.len(), list, len) })
    }

    /// The words of the node of one id as it was given.
    pub fn id_to_node(&self, id: u32) -> Answer<Vec<u32>> {
        listed(|list, len| unsafe { rimo_id_to_node(self.words.as_ptr(), self.words.len(), id, list, len) })
    }

    /// The least number of nodes of any form in the id's class.
    pub fn find_best_cost(&mut self, id: u32) -> Answer<u64> {
        Ok(told(unsafe { rimo_find_best_cost(self.words.as_mut_ptr(), self.words.len(), id) })?.first)
    }

    /// The same, and the words of a form of that size.
    pub fn find_best(&mut self, id: u32) -> Answer<(u64, Vec<u32>)> {
        let mut size = 0;
        let words = listed(|list, len| {
            let r = unsafe { rimo_find_best(self.words.as_mut_ptr(), self.words.len(), id, list, len) };
            size = r.first;
            Reply { first: r.second, ..r }
        })?;
        Ok((size, words))
    }
}

/// The words of a list that a call writes and counts in `first`. Where the list lent is too short a longer one is lent.
fn listed(mut call: impl FnMut(*mut u32, usize) -> Reply) -> Answer<Vec<u32>> {
    let mut list = vec![0; 256];
    loop {
        let r = call(list.as_mut_ptr(), list.len());
        if r.number == TOO_LONG {
            list.resize(2 * list.len(), 0);
            continue;
        }
        list.truncate(told(r)?.first as usize);
        return Ok(list);
    }
}
