//! Sections that nobody should doubt, and what the tests of each doubt use.

use super::*;
use crate::View;
use crate::samples::{self, numbered};

pub const QUIET: [&str; 0] = [];

/// The kinds of doubt about a section by itself.
pub fn kinds(vertices: &[[f64; 2]]) -> Vec<&'static str> {
    warnings(&numbered(vertices), &[], None).iter().map(|warning| warning.kind).collect()
}

/// The records of the first.
pub fn records(vertices: &[[f64; 2]]) -> Vec<u32> {
    warnings(&numbered(vertices), &[], None).swap_remove(0).records
}

/// The kinds and records of all doubts about a store of this section and these bodies, with a move at clearance 1.
pub fn of_store(section: &[[f64; 2]], bodies: &[(u32, [f64; 4])], word: &str) -> Vec<(&'static str, Vec<u32>)> {
    let bytes = samples::store(section, bodies);
    let view = View::new("x", &bytes, 1.0, crate::moving::parse(word)).unwrap();
    view.warnings.into_iter().map(|warning| (warning.kind, warning.records)).collect()
}

#[test]
fn good_sections_are_quiet() {
    let s = [[0.0, 10.0], [20.0, 10.0], [20.0, 0.0], [0.0, 0.0]];
    let stepped = [[-80.0, 100.0], [-20.0, 100.0], [-20.0, 60.0], [0.0, 60.0], [0.0, 0.0], [-80.0, 0.0]];
    let cone = [[0.0, 0.0], [0.0, 30.0], [60.0, 0.0]];
    // Two cones on one axis: the edge along it passes their common tip.
    let beads = [[0.0, 0.0], [10.0, 20.0], [20.0, 0.0], [30.0, 20.0], [40.0, 0.0]];
    for section in [&s[..], &stepped, &cone, &beads] {
        assert_eq!(kinds(section), QUIET, "{section:?}");
        let turned: Vec<[f64; 2]> = section.iter().rev().copied().collect();
        assert_eq!(kinds(&turned), QUIET, "{turned:?}");
    }
}
