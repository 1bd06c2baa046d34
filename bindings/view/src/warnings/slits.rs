//! An edge that runs back along the one before it: a slit or a fin of no width.

use super::{Numbered, Warning, capped, on_axis, same, turn};
use jorghipa::Vertex;

/// Whether the second of two joined edges runs back along the first.
fn folds(a: Vertex, joint: Vertex, b: Vertex) -> bool {
    let ahead = (joint.z - a.z) * (b.z - joint.z) + (joint.radius - a.radius) * (b.radius - joint.radius);
    turn(a, joint, b) == 0.0 && ahead < 0.0 && !(on_axis(a) && on_axis(b))
}

fn length(a: Vertex, b: Vertex) -> f64 {
    (a.z - b.z).hypot(a.radius - b.radius)
}

/// A vertex and the number of the edge that starts there.
pub type Start = (usize, Vertex);

/// The warnings, and the outline without its slits and without repeated vertices.
pub fn slits(vertices: &[Numbered]) -> (Vec<Warning>, Vec<Start>) {
    let mut rest: Vec<Start> = vertices.iter().map(|(_, v)| *v).enumerate().collect();
    let mut found = Vec::new();
    let mut i = 0;
    while i < rest.len() && rest.len() > 2 {
        let (before, after) = ((i + rest.len() - 1) % rest.len(), (i + 1) % rest.len());
        let ((first, a), (second, joint), (_, b)) = (rest[before], rest[i], rest[after]);
        let fold = folds(a, joint, b);
        if fold {
            found.push((first, second));
            // What is left is a part of the longer edge.
            rest[before].0 = if length(a, joint) < length(joint, b) { second } else { first };
        }
        if fold || same(joint, b) {
            rest.remove(i);
            i = 0;
        } else {
            i += 1;
        }
    }
    found.sort_unstable();
    (capped(found.into_iter().map(|pair| slit(vertices, pair)).collect(), "slit", "slits of no width"), rest)
}

fn slit(vertices: &[Numbered], (i, j): (usize, usize)) -> Warning {
    let (first, second) = (vertices[i].0, vertices[j].0);
    let text = format!(
        "slit or fin of no width: edge {j} (from record {second}) runs back along edge {i} (from record {first}); it counts as \
         surface, so that a body in the material reads less deep, and one beside a fin nearer"
    );
    Warning { kind: "slit", records: vec![first, second], text }
}

#[cfg(test)]
mod tests {
    use crate::warnings::tests::{QUIET, kinds, records};

    #[test]
    fn slits_and_fins() {
        let slit = |bottom: f64| {
            [[0.0, 10.0], [10.0, 10.0], [10.0, 1.0], [bottom, 10.0], [20.0, 10.0], [20.0, 0.0], [0.0, 0.0]]
        };
        assert_eq!((kinds(&slit(10.0)), records(&slit(10.0))), (vec!["slit"], vec![2, 3]));
        assert_eq!(kinds(&slit(10.001)), QUIET);
        // A fin, and a bore that a profile builder closed to the axis by a membrane.
        assert_eq!(kinds(&[[0.0, 0.0], [0.0, 30.0], [40.0, 30.0], [40.0, 50.0], [40.0, 0.0]]), ["slit"]);
        assert_eq!(kinds(&[[1.0, 20.0], [41.0, 20.0], [41.0, 5.0], [1.0, 5.0], [1.0, 0.0]]), ["not-closed", "slit"]);
        // The last edge runs back along the first, and the first along the last.
        let closing = [[0.0, 20.0], [0.0, 30.0], [40.0, 30.0], [40.0, 0.0], [0.0, 0.0], [0.0, 25.0]];
        assert_eq!(kinds(&closing), ["slit"]);
        // A slit with a bend is one behind the other.
        let bent = [
            [0.0, 20.0],
            [9.0, 20.0],
            [9.0, 9.0],
            [5.0, 5.0],
            [9.0, 9.0],
            [9.0, 20.0],
            [30.0, 20.0],
            [30.0, 0.0],
            [0.0, 0.0],
        ];
        assert_eq!(kinds(&bent), ["slit"; 2]);
    }

    /// The longest outline, there and back: all of it is a slit, and the first few are named.
    #[test]
    fn there_and_back() {
        let there: Vec<[f64; 2]> = (0..129).map(|i| [f64::from(i), 20.0 + f64::from(i * i % 31)]).collect();
        let all: Vec<[f64; 2]> = there.iter().chain(there[1..128].iter().rev()).copied().collect();
        assert_eq!(all.len(), 256);
        assert_eq!(kinds(&all), ["not-closed", "slit", "slit", "slit", "slit", "slit", "slit"]);
    }
}
