//! A stand-in. `Justification` is egg's own text; `Explain` cannot be built (one of its fields has no value), so that
//! every `if let Some(explain)` in egraph.rs keeps its text and is never taken.
use crate::*;

/// A justification for a union, either via a rule or congruence.
/// A direct union with a justification is also stored as a rule.
#[derive(Debug, Clone, Hash, PartialEq, Eq)]
#[cfg_attr(feature = "serde-1", derive(serde::Serialize, serde::Deserialize))]
pub enum Justification {
    /// Justification by a rule with this name.
    Rule(Symbol),
    /// Justification by congruence.
    Congruence,
}

#[derive(Debug, Clone)]
pub struct Explain<L: Language> {
    pub uncanon_memo: HashMap<L, Id>,
    never: std::convert::Infallible,
}

impl<L: Language> Explain<L> {
    pub fn add(&mut self, _: L, _: Id) -> Id {
        match self.never {}
    }
    pub fn union(&mut self, _: Id, _: Id, _: Justification) {
        match self.never {}
    }
    pub fn alternate_rewrite(&mut self, _: Id, _: Id, _: Justification) {
        match self.never {}
    }
}
