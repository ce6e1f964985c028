//! oracle [N M]: reads a script of calls on standard input and answers each with egg 0.11.0's own e-graph. The words lent
//! are those that N ids and M child places need, 8,192 and 32,768 where none are named.
#![allow(dead_code, unused_imports, unused_macros, mismatched_lifetime_syntaxes, rustdoc::all)]

#[path = "egg/eclass.rs"]
mod eclass;
#[path = "egg/egraph.rs"]
mod egraph;
#[path = "egg/explain.rs"]
mod explain;
#[path = "egg/extract.rs"]
mod extract;
#[path = "egg/language.rs"]
mod language;
#[path = "egg/unionfind.rs"]
mod unionfind;
#[path = "egg/util.rs"]
mod util;

mod graph;
mod node;
mod script;

use std::io::{BufRead, Write};

fn main() -> std::io::Result<()> {
    let limits: Result<Vec<u32>, _> = std::env::args().skip(1).map(|a| a.parse()).collect();
    let lent = match limits.as_deref() {
        Ok([]) => graph::need(8_192, 32_768),
        Ok([n, m]) => graph::need((*n).into(), (*m).into()),
        _ => {
            eprintln!("usage: oracle [N M], with N and M numbers");
            std::process::exit(2)
        }
    };
    let mut out = std::io::BufWriter::new(std::io::stdout());
    let mut graph = None;
    for line in std::io::stdin().lock().split(b'\n') {
        if let Some(answer) = script::answer(&mut graph, lent, &line?) {
            writeln!(out, "{answer}")?;
        }
    }
    out.flush()
}

// ---- from egg's lib.rs, word for word ----

/// A key to identify [`EClass`]es within an
/// [`EGraph`].
#[derive(Clone, Copy, Default, Ord, PartialOrd, Eq, PartialEq, Hash)]
#[cfg_attr(feature = "serde-1", derive(serde::Serialize, serde::Deserialize))]
#[cfg_attr(feature = "serde-1", serde(transparent))]
pub struct Id(u32);

impl From<usize> for Id {
    fn from(n: usize) -> Id {
        Id(n as u32)
    }
}

impl From<Id> for usize {
    fn from(id: Id) -> usize {
        id.0 as usize
    }
}

impl std::fmt::Debug for Id {
    fn fmt(&self, f: &mut std::fmt::Formatter<'_>) -> std::fmt::Result {
        write!(f, "{}", self.0)
    }
}

impl std::fmt::Display for Id {
    fn fmt(&self, f: &mut std::fmt::Formatter<'_>) -> std::fmt::Result {
        write!(f, "{}", self.0)
    }
}

pub(crate) use {explain::Explain, unionfind::UnionFind};

pub use {eclass::EClass, egraph::EGraph, explain::Justification, extract::*, language::*, util::*};
