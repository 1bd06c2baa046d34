//! The two builders: which points are kept, and the lent space afterwards.

use crate::{first, numbers, pairs, radii, shapes};

/// How many numbers are kept, and the whole lent space afterwards.
#[derive(Clone, Debug, PartialEq)]
pub struct Built {
    pub kept: usize,
    pub space: Vec<f64>,
}

type Point = (f64, f64);

/// Within 1e-12 in both coordinates.
fn same(a: Point, b: Point) -> bool {
    (a.0 - b.0).abs() <= 1e-12 && (a.1 - b.1).abs() <= 1e-12
}

/// Keeps a point unless it repeats the last kept one.
fn keep(kept: &mut Vec<Point>, point: Point) {
    if kept.last().is_none_or(|&last| !same(last, point)) {
        kept.push(point);
    }
}

/// The given points with radii below 0 raised to 0, each kept unless it repeats the last kept one.
fn kept_points(points: &[f64]) -> Vec<Point> {
    let mut kept = Vec::new();
    for (z, radius) in pairs(points) {
        keep(&mut kept, (z, if radius < 0.0 { 0.0 } else { radius }));
    }
    kept
}

/// The points that a section keeps, with the closing points at the end.
fn section_points(points: &[f64]) -> Vec<Point> {
    let mut kept = kept_points(points);
    if let (Some(&first), Some(&last)) = (kept.first(), kept.last()) {
        keep(&mut kept, (last.0, 0.0));
        keep(&mut kept, (first.0, 0.0));
    }
    kept
}

/// The vertices that a polygon keeps, without a repeated closing one.
fn polygon_points(points: &[f64]) -> Vec<Point> {
    let mut kept = kept_points(points);
    if kept.len() >= 2 && same(kept[0], kept[kept.len() - 1]) {
        kept.pop();
    }
    kept
}

/// The kept points in front of the rest of the space.
fn filled(kept: &[Point], space: &[f64]) -> Built {
    let mut filled: Vec<f64> = kept.iter().flat_map(|point| [point.0, point.1]).collect();
    let count = filled.len();
    filled.extend_from_slice(&space[count..]);
    Built { kept: count, space: filled }
}

/// 2 to 254 points; a radius in [-1e-9, 0) becomes 0; the closing points follow.
pub fn build_section(points: &[f64], space: &[f64]) -> Result<Built, u32> {
    let kept = section_points(points);
    let own = [radii(points), (7, space.len() < 2 * (points.len() / 2 + 2)), (8, kept.len() < 3)];
    first(&[&shapes(&[points], 2, 254), &numbers(&[points]), &own])?;
    Ok(filled(&kept, space))
}

/// 3 to 256 vertices; a radius in [-1e-9, 0) becomes 0; a repeated closing vertex is dropped.
pub fn build_polygon(points: &[f64], space: &[f64]) -> Result<Built, u32> {
    let kept = polygon_points(points);
    let own = [radii(points), (7, space.len() < 2 * (points.len() / 2)), (8, kept.len() < 3)];
    first(&[&shapes(&[points], 3, 256), &numbers(&[points]), &own])?;
    Ok(filled(&kept, space))
}

#[cfg(test)]
mod tests {
    use super::*;

    #[test]
    fn sections() {
        let bar = build_section(&[0.0, 10.0, 20.0, 10.0], &[7.0; 9]).unwrap();
        assert_eq!(bar.kept, 8);
        assert_eq!(bar.space, [0.0, 10.0, 20.0, 10.0, 20.0, 0.0, 0.0, 0.0, 7.0]);
        assert_eq!(build_section(&[0.0, 10.0, 20.0, 10.0], &[7.0; 7]), Err(7));
        assert_eq!(build_section(&[0.0, 10.0], &[7.0; 8]), Err(2));
        assert_eq!(build_section(&[0.0; 510], &[7.0; 600]), Err(3));
        assert_eq!(build_section(&[0.0, -1.0, 1.0, 1.0], &[7.0; 2]), Err(6));
        assert_eq!(build_section(&[0.0, 10.0, 0.0, 0.0], &[7.0; 8]), Err(8));
        assert_eq!(build_section(&[0.0, 0.0, 20.0, 0.0], &[7.0; 8]).unwrap().kept, 6);
        assert_eq!(build_section(&[0.0, -1e-9, 20.0, 1.0], &[7.0; 8]).unwrap().space[1], 0.0);
        // The closing point takes the last kept z.
        let closed = build_section(&[0.0, 10.0, 20.0, 10.0, 20.0 + 5e-13, 10.0], &[7.0; 10]).unwrap();
        assert_eq!(closed.space, [0.0, 10.0, 20.0, 10.0, 20.0, 0.0, 0.0, 0.0, 7.0, 7.0]);
    }

    #[test]
    fn polygons() {
        let closed = build_polygon(&[0.0, 3.0, 1.0, 1.0, 2.0, 0.0, 0.0, 3.0], &[7.0; 8]).unwrap();
        assert_eq!((closed.kept, closed.space), (6, vec![0.0, 3.0, 1.0, 1.0, 2.0, 0.0, 7.0, 7.0]));
        assert_eq!(build_polygon(&[0.0, -1.0, 1.0, 1.0, 2.0, 0.0, 0.0, -1.0], &[7.0; 8]), Err(6));
        // Before 7 and 8, which these would have too.
        assert_eq!(build_polygon(&[0.0, -1.0, 0.0, -1.0, 2.0, 0.0], &[7.0; 5]), Err(6));
        assert_eq!(build_polygon(&[0.0, -1.0, 1.0, 2e6, 2.0, 0.0], &[7.0; 6]), Err(5));
        assert_eq!(build_polygon(&[0.0, (-1e-9f64).next_down(), 1.0, 1.0, 2.0, 0.0], &[7.0; 6]), Err(6));
        // Raised before any point is dropped: the second repeats the first, and so does the closing vertex.
        let raised = build_polygon(&[0.0, -1e-9, 0.0, -5e-10, 1.0, 1.0, 2.0, 0.0, 0.0, 0.0], &[7.0; 10]).unwrap();
        assert_eq!((raised.kept, &raised.space[..6]), (6, [0.0, 0.0, 1.0, 1.0, 2.0, 0.0].as_slice()));
        assert_eq!(build_polygon(&[0.0, -1e-9, 0.0, -5e-10, 1.0, 1.0], &[7.0; 6]), Err(8));
        // -0.0 is not below 0.
        assert!(build_polygon(&[0.0, -0.0, 1.0, 1.0, 2.0, 0.0], &[7.0; 6]).unwrap().space[1].is_sign_negative());
        assert_eq!(build_polygon(&[0.0, 1.0, 1.0, 1.0, 2.0, 0.0], &[7.0; 5]), Err(7));
        assert_eq!(build_polygon(&[0.0, 1.0, 1.0, 1.0, 0.0, 1.0], &[7.0; 6]), Err(8));
        assert_eq!(build_polygon(&[0.0; 4], &[]), Err(2));
    }
}
