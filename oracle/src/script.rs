//! One line of the script: what it says, and the line that answers it.
use crate::graph::{Answer, Graph};

/// A longer line is no call.
const LONGEST: usize = 4_096;
/// A line with more numbers is no call.
const MOST: usize = 24;

/// A line without a byte-order mark at its start and a carriage return at its end.
fn bare(line: &[u8]) -> &[u8] {
    let line = line.strip_prefix(b"\xef\xbb\xbf").unwrap_or(line);
    line.strip_suffix(b"\r").unwrap_or(line)
}

/// Digits, no 0 in front of others, below 2^32.
fn number(field: &[u8]) -> Option<u32> {
    if field.is_empty() || !field.iter().all(u8::is_ascii_digit) || (field.len() > 1 && field[0] == b'0') {
        return None;
    }
    std::str::from_utf8(field).ok()?.parse().ok()
}

fn words(list: Vec<u32>) -> String {
    list.iter().map(|w| format!(" {w}")).collect()
}

fn yes(is: bool) -> String {
    (if is { " yes" } else { " no" }).to_string()
}

/// What stands after the 0 of the answer, or the number of a refusal; none if the bare line is no call.
fn call(graph: &mut Option<Graph>, lent: u64, line: &[u8]) -> Option<Answer<String>> {
    let mut fields = line.split(|b| *b == b' ');
    let verb = std::str::from_utf8(fields.next()?).ok()?;
    let a: Vec<u32> = fields.map(number).collect::<Option<_>>()?;
    let takes = match verb {
        "setup" | "union" => 2..=2,
        "add" | "add_uncanonical" | "lookup" => 2..=MOST,
        "find" | "classes_for_op" | "id_to_node" | "find_best_cost" | "find_best" => 1..=1,
        "rebuild" | "classes" | "nodes" | "is_empty" | "clean" | "number_of_classes" | "total_number_of_nodes" => 0..=0,
        _ => return None,
    };
    if !takes.contains(&a.len()) {
        return None;
    }
    if verb == "setup" {
        return Some(Graph::setup(lent, a[0], a[1]).map(|fresh| {
            *graph = Some(fresh);
            String::new()
        }));
    }
    let Some(graph) = graph else { return Some(Err(3)) };
    Some(match verb {
        "add" => graph.add(a[0], a[1], &a[2..]).map(|id| format!(" {id}")),
        "add_uncanonical" => graph.add_uncanonical(a[0], a[1], &a[2..]).map(|id| format!(" {id}")),
        "lookup" => graph.lookup(a[0], a[1], &a[2..]).map(|found| match found {
            Some(id) => format!(" {id}"),
            None => " none".to_string(),
        }),
        "find" => graph.find(a[0]).map(|id| format!(" {id}")),
        "union" => graph.union(a[0], a[1]).map(yes),
        "rebuild" => Ok(format!(" {}", graph.rebuild())),
        "classes" => graph.classes().map(words),
        "classes_for_op" => graph.classes_for_op(a[0]).map(words),
        "nodes" => Ok(words(graph.nodes())),
        "id_to_node" => graph.id_to_node(a[0]).map(words),
        "is_empty" => Ok(yes(graph.is_empty())),
        "clean" => Ok(yes(graph.clean())),
        "number_of_classes" => Ok(format!(" {}", graph.number_of_classes())),
        "total_number_of_nodes" => graph.total_number_of_nodes().map(|k| format!(" {k}")),
        "find_best_cost" => graph.find_best_cost(a[0]).map(|size| format!(" {size}")),
        _ => graph.find_best(a[0]).map(|(size, form)| format!(" {size}{}", words(form))),
    })
}

/// The line that answers a line, both without line feeds; none for what is passed over. `lent` is the number of words lent.
pub fn answer(graph: &mut Option<Graph>, lent: u64, line: &[u8]) -> Option<String> {
    if line.len() > LONGEST {
        return Some("?".to_string());
    }
    let line = bare(line);
    if line.is_empty() || line[0] == b'#' {
        return None;
    }
    Some(match call(graph, lent, line) {
        None => "?".to_string(),
        Some(Err(refusal)) => format!("no {refusal}"),
        Some(Ok(rest)) => format!("0{rest}"),
    })
}
