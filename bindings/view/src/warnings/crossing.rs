//! Edges that meet and are no neighbours.

use super::slits::Start;
use super::{NAMED, Numbered, Warning, on_axis, turn};
use jorghipa::Vertex;

fn between(a: Vertex, b: Vertex, p: Vertex) -> bool {
    let within = |x: f64, y: f64, t: f64| x.min(y) <= t && t <= x.max(y);
    within(a.z, b.z, p.z) && within(a.radius, b.radius, p.radius)
}

/// Whether two edges have a point in common off the axis.
fn meet(a: Vertex, b: Vertex, c: Vertex, d: Vertex) -> bool {
    let (at_c, at_d, at_a, at_b) = (turn(a, b, c), turn(a, b, d), turn(c, d, a), turn(c, d, b));
    if at_c * at_d < 0.0 && at_a * at_b < 0.0 {
        return true;
    }
    let touches = |turned: f64, a, b, p: Vertex| turned == 0.0 && between(a, b, p) && !on_axis(p);
    touches(at_c, a, b, c) || touches(at_d, a, b, d) || touches(at_a, c, d, a) || touches(at_b, c, d, b)
}

/// The pairs of edges that meet where they should not, in order, by the numbers of the edges. At most 256 edges are tried.
fn crossing_edges(starts: &[Start]) -> Vec<(usize, usize)> {
    let count = starts.len();
    let edge = |i: usize| (starts[i].1, starts[(i + 1) % count].1);
    let wrong = |i: usize, j: usize| {
        let ((a, b), (c, d)) = (edge(i), edge(j));
        j != i + 1 && !(i == 0 && j + 1 == count) && meet(a, b, c, d)
    };
    let pairs = (0..count).flat_map(|i| (i + 1..count).map(move |j| (i, j)));
    pairs.filter(|&(i, j)| wrong(i, j)).map(|(i, j)| (starts[i].0, starts[j].0)).collect()
}

/// The crossings of an outline without slits; the vertices are all of them, with their records.
pub fn crossings(vertices: &[Numbered], starts: &[Start]) -> Vec<Warning> {
    let found = crossing_edges(starts);
    let start = |edge: usize| vertices[edge].0;
    let warning = |&(i, j): &(usize, usize)| Warning {
        kind: "self-crossing",
        records: vec![start(i), start(j)],
        text: format!(
            "self-crossing: edge {i} (from record {}) meets edge {j} (from record {}); what is covered twice counts as outside",
            start(i),
            start(j)
        ),
    };
    let mut warnings: Vec<Warning> = found.iter().take(NAMED).map(warning).collect();
    if found.len() > NAMED {
        let text = format!("self-crossing: {} more pairs of edges meet", found.len() - NAMED);
        warnings.push(Warning { kind: "self-crossing", records: Vec::new(), text });
    }
    warnings
}

#[cfg(test)]
mod tests {
    use crate::samples::numbered;
    use crate::warnings::tests::{QUIET, kinds, records};
    use crate::warnings::{Warning, warnings};

    #[test]
    fn self_crossing() {
        let bow = [[0.0, 0.0], [0.0, 30.0], [40.0, 10.0], [40.0, 30.0], [10.0, 10.0], [10.0, 0.0]];
        assert_eq!((kinds(&bow), records(&bow)), (vec!["self-crossing"], vec![2, 4]));
        // A vertex on another edge.
        assert_eq!(kinds(&[[0.0, 0.0], [0.0, 30.0], [20.0, 30.0], [0.0, 15.0], [20.0, 0.0]]), ["self-crossing"; 2]);
        // Near to it, and not on it.
        assert_eq!(kinds(&[[0.0, 0.0], [0.0, 30.0], [20.0, 30.0], [0.001, 15.0], [20.0, 0.0]]), QUIET);
        // Many: five are named, the rest is counted.
        let comb: Vec<[f64; 2]> = (0..20).map(|i| [f64::from(i % 2) * 40.0, f64::from(i * 7 % 20) + 1.0]).collect();
        let found = warnings(&numbered(&comb), &[], None);
        let crossing: Vec<&Warning> = found.iter().filter(|warning| warning.kind == "self-crossing").collect();
        assert_eq!(crossing.len(), 6);
        assert!(crossing[5].text.ends_with("more pairs of edges meet"));
    }
}
