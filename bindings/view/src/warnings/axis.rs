//! The outline at the axis, and close to it.

use super::{AXIS, Numbered, Warning, edges, on_axis};

/// From here up two radii that differ do so by more than the 1e-18 within which the library takes an edge for level.
const SMALL: f64 = 1.0 / 128.0;

/// No edge lies on the axis: a ring, or a half-profile that was not closed.
pub fn open(vertices: &[Numbered]) -> Option<Warning> {
    if edges(vertices).any(|((_, a), (_, b))| on_axis(a) && on_axis(b)) {
        return None;
    }
    let bore = vertices.iter().map(|(_, v)| v.radius).fold(f64::INFINITY, f64::min);
    let (last, first) = (vertices.last()?.0, vertices.first()?.0);
    let text = if bore > AXIS {
        format!("not closed to the axis: it is measured as a ring with a bore of radius {bore}")
    } else {
        format!(
            "not closed to the axis: no edge lies on it, and record {last} joins record {first} through the material"
        )
    };
    let text = format!("{text}; a half-profile has to be closed before it is stored");
    Some(Warning { kind: "not-closed", records: vec![last, first], text })
}

/// The axis run along twice, as where two parts are joined along it: what is on it there reads as inside.
pub fn joined(vertices: &[Numbered]) -> Option<Warning> {
    let level: Vec<(Numbered, Numbered)> =
        edges(vertices).filter(|((_, a), (_, b))| on_axis(*a) && on_axis(*b)).collect();
    let ends = |((_, a), (_, b)): &(Numbered, Numbered)| (a.z.min(b.z), a.z.max(b.z));
    let shared = |i: usize, j: usize| {
        let ((a, b), (c, d)) = (ends(&level[i]), ends(&level[j]));
        (a.max(c), b.min(d))
    };
    let mut pairs = (0..level.len()).flat_map(|i| (i + 1..level.len()).map(move |j| (i, j)));
    let (i, j) = pairs.find(|&(i, j)| shared(i, j).0 < shared(i, j).1)?;
    let ((from, to), records) = (shared(i, j), vec![level[i].0.0, level[j].0.0]);
    let text = format!(
        "joined along the axis: the outline runs along it twice from z {from} to z {to}, by the edges from records {} and {}; \
         what touches the axis there may read as inside; if these are two parts, store them apart",
        records[0], records[1]
    );
    Some(Warning { kind: "joined", records, text })
}

/// Edges that count as the axis and stand a little over it.
pub fn needles(vertices: &[Numbered]) -> Option<Warning> {
    let needle = |((_, a), (_, b)): &(Numbered, Numbered)| {
        on_axis(*a) && on_axis(*b) && a.radius.max(b.radius) > 0.0 && a.z != b.z
    };
    let records: Vec<u32> = edges(vertices).filter(needle).map(|((record, _), _)| record).collect();
    let first = records.first()?;
    let text = format!(
        "needle: the edge from record {first} stands at most 1e-9 mm over the axis; to a point or a sphere it is the axis, \
         and is passed over"
    );
    Some(Warning { kind: "needle", records, text })
}

/// Radii over 0 and under 1/128 mm, those of needles too.
pub fn small_radii(vertices: &[Numbered]) -> Option<Warning> {
    let small: Vec<&Numbered> = vertices.iter().filter(|(_, v)| v.radius > 0.0 && v.radius < SMALL).collect();
    let (first, vertex) = small.first()?;
    let text = format!(
        "radius under 1/128 mm: {} in record {first}; so near to the axis an edge may be taken for level, and the wrong side of \
         it for the inside; give 0 or at least {SMALL}",
        vertex.radius
    );
    Some(Warning { kind: "small-radius", records: small.iter().map(|(record, _)| *record).collect(), text })
}

#[cfg(test)]
mod tests {
    use crate::warnings::tests::{QUIET, kinds, records};

    #[test]
    fn not_closed() {
        // A ring, and a half-profile that joins its last point to its first.
        assert_eq!(kinds(&[[1.0, 20.0], [40.0, 20.0], [40.0, 30.0], [1.0, 30.0]]), ["not-closed"]);
        assert_eq!(kinds(&[[1.0, 20.0], [40.0, 20.0], [40.0, 30.0]]), ["not-closed"]);
        let one_end = [[1.0, 20.0], [40.0, 20.0], [40.0, 0.0]];
        assert_eq!((kinds(&one_end), records(&one_end)), (vec!["not-closed"], vec![3, 1]));
    }

    #[test]
    fn joined_along_the_axis() {
        let parts = |neck: f64| {
            let first = [[0.0, 10.0], [20.0, 10.0], [20.0, neck], [80.0, neck]];
            [&first[..], &[[80.0, 10.0], [100.0, 10.0], [100.0, 0.0], [0.0, 0.0]]].concat()
        };
        assert_eq!((kinds(&parts(0.0)), records(&parts(0.0))), (vec!["joined"], vec![3, 7]));
        assert_eq!(kinds(&parts(1.0)), QUIET);
        // Beyond the part's end; and the axis in two edges, one behind the other.
        assert_eq!(kinds(&[[0.0, 0.0], [0.0, 15.0], [30.0, 15.0], [30.0, 0.0], [50.0, 0.0]]), ["joined"]);
        assert_eq!(kinds(&[[0.0, 15.0], [30.0, 15.0], [30.0, 0.0], [20.0, 0.0], [0.0, 0.0]]), QUIET);
    }

    #[test]
    fn needles_and_small_radii() {
        let step = |radius: f64| [[0.0, 10.0], [20.0, 10.0], [20.0, radius], [100.0, radius], [100.0, 0.0], [0.0, 0.0]];
        assert_eq!(kinds(&step(1e-9)), ["joined", "needle", "small-radius"]);
        assert_eq!(kinds(&step(1.1e-9)), ["small-radius"]);
        assert_eq!((kinds(&step(0.0078)), records(&step(0.0078))), (vec!["small-radius"], vec![3, 4]));
        assert_eq!(kinds(&step(1.0 / 128.0)), QUIET);
        // At radius 0 it is the axis itself, and no needle.
        assert_eq!(kinds(&step(0.0)), ["repeated-vertex", "joined"]);
    }
}
