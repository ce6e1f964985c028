//! Two pupils' answers, 0.50 and 0.05, are marked against the key 0.5: examples/half.script, from Rust.
//!
//!     rustc --edition 2021 bindings/rust/half.rs -L native=target/lib -l static=rimodaveck && ./half
//!
//! The numbers of operators are the author's own: 1 is a digit, its payload says which; 2 is what stands behind the point, its
//! children the digits; 3 is a decimal number, its children the digit before the point and what stands behind it.
//!
//! A mark has three outcomes. An answer is right or wrong only where every call that the mark rests on was carried out; where
//! one was refused, the answer is not marked: the refusal is handed on by `?`, and ends in `report`.
mod rimodaveck;
use rimodaveck::{Answer, Graph};

const DIGIT: u32 = 1;
const BEHIND: u32 = 2;
const DECIMAL: u32 = 3;

fn behind(g: &mut Graph, digits: &[u32]) -> Answer<u32> {
    let kids = digits.iter().map(|d| g.add(DIGIT, *d, &[])).collect::<Answer<Vec<u32>>>()?;
    g.add(BEHIND, 0, &kids)
}

fn decimal(g: &mut Graph, before: u32, digits: &[u32]) -> Answer<u32> {
    let kids = [g.add(DIGIT, before, &[])?, behind(g, digits)?];
    g.add(DECIMAL, 0, &kids)
}

/// The author states that .50 is .5, and what follows is drawn: how many more pairs that joined.
fn state(g: &mut Graph) -> Answer<u64> {
    let (half, padded) = (behind(g, &[5])?, behind(g, &[5, 0])?);
    g.union(half, padded)?;
    g.rebuild()
}

fn right(g: &Graph, stated: Answer<u64>, answer: Answer<u32>, key: Answer<u32>) -> Answer<bool> {
    stated?;
    Ok(g.find(answer?)? == g.find(key?)?)
}

fn report(name: &str, right: Answer<bool>) {
    match right {
        Ok(true) => println!("{name} is right"),
        Ok(false) => println!("{name} is wrong"),
        Err(refused) => println!("{name} is not marked: {refused}"),
    }
}

/// Marks both answers in a graph with room for n forms and 32 children.
fn mark_sheet(n: usize, tell: bool) -> Answer<()> {
    let mut g = Graph::new(n, 32)?;
    let key = decimal(&mut g, 0, &[5]);
    let careful = decimal(&mut g, 0, &[5, 0]);
    let mistaken = decimal(&mut g, 0, &[0, 5]);
    let stated = state(&mut g);
    report("0.50", right(&g, stated, careful, key));
    report("0.05", right(&g, stated, mistaken, key));
    if tell {
        println!("the rebuild joined {} more", stated?);
        let (size, words) = g.find_best(careful?)?;
        let words: Vec<String> = words.iter().map(u32::to_string).collect();
        println!("0.50 can be written with {size} forms: {}", words.join(" "));
    }
    Ok(())
}

fn main() -> Answer<()> {
    mark_sheet(16, true)?;
    println!("with room for 5 forms only:");
    mark_sheet(5, false)
}
