//! Request (vii): chuck and work together. Both sections are checked before the body, the chuck's list first.

use crate::{Test, axis, first, numbers, radii, vertices};

/// Every number of one section, 1 to 6.
fn one_section(section: &[f64]) -> Vec<Test> {
    [vertices(&[section]).as_slice(), &numbers(&[section]), &[radii(section)]].concat()
}

fn pair(chuck: &[f64], work: &[f64], own: &[Test]) -> Result<(), u32> {
    first(&[&one_section(chuck), &one_section(work), own])
}

/// The body is x, y, z, radius.
pub fn pair_sphere(chuck: &[f64], work: &[f64], body: [f64; 4]) -> Result<(), u32> {
    pair(chuck, work, &[numbers(&[&body]).as_slice(), &[(9, body[3] < 0.0)]].concat())
}

/// The body is z0, z1, r0, r1.
pub fn pair_box(chuck: &[f64], work: &[f64], body: [f64; 4]) -> Result<(), u32> {
    let [z0, z1, r0, r1] = body;
    pair(chuck, work, &[numbers(&[&body]).as_slice(), &[(10, z1 < z0 || r1 < r0)]].concat())
}

/// The body is ax, ay, az, bx, by, bz, radius.
pub fn pair_cylinder(chuck: &[f64], work: &[f64], body: [f64; 7]) -> Result<(), u32> {
    let own = [(9, body[6] < 0.0), (11, axis(body).is_none())];
    pair(chuck, work, &[numbers(&[&body]).as_slice(), &own].concat())
}

/// A convex body may lie below the axis.
pub fn pair_convex(chuck: &[f64], work: &[f64], convex: &[f64]) -> Result<(), u32> {
    pair(chuck, work, &[vertices(&[convex]).as_slice(), &numbers(&[convex])].concat())
}

#[cfg(test)]
mod tests {
    use super::*;

    const S: [f64; 8] = [0.0, 10.0, 20.0, 10.0, 20.0, 0.0, 0.0, 0.0];
    const LOW: [f64; 8] = [0.0, 10.0, 20.0, 10.0, 20.0, -1.0, 0.0, 0.0];

    #[test]
    fn all_of_the_chuck_then_all_of_the_work_then_the_body() {
        let bad = [f64::NAN, 0.0, 0.0, -1.0];
        assert_eq!(pair_sphere(&LOW, &S[..7], bad), Err(6));
        assert_eq!(pair_sphere(&[2e6; 6], &S[..7], bad), Err(5));
        assert_eq!(pair_sphere(&S, &S[..7], bad), Err(1));
        assert_eq!(pair_sphere(&S, &LOW, bad), Err(6));
        assert_eq!(pair_sphere(&S, &S, bad), Err(4));
        assert_eq!(pair_sphere(&S, &S, [0.0, 0.0, 0.0, -1.0]), Err(9));
        assert_eq!(pair_sphere(&S, &S, [0.0; 4]), Ok(()));
        assert_eq!(pair_box(&S, &S, [2e6, 4.0, 0.0, 5.0]), Err(5));
        assert_eq!(pair_box(&S, &S, [5.0, 4.0, 0.0, 5.0]), Err(10));
        assert_eq!(pair_cylinder(&S, &S, [0.0, 0.0, 0.0, 1.0, 0.0, 1.0, -1.0]), Err(9));
        assert_eq!(pair_cylinder(&S, &S, [0.0, 0.0, 0.0, 1.0, 0.0, 1.0, 1.0]), Err(11));
        assert_eq!(pair_convex(&S, &LOW, &S[..7]), Err(6));
        assert_eq!(pair_convex(&S, &S, &S[..7]), Err(1));
        assert_eq!(pair_convex(&S, &S, &LOW), Ok(()));
    }
}
