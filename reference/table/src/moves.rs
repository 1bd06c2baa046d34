//! Request (ix): trying a move. The numbers of section, clearance, given body, offsets and settings, then 19, before any placement.

use crate::{Body, Settings, first, numbers, radii, range, vertices};

/// `offsets` are the start's x, y, z and the end's. What is refused of the placements comes after this.
pub fn before_placing(
    section: &[f64],
    body: &Body,
    clearance: f64,
    offsets: [f64; 6],
    steps: u32,
    settings: Settings,
) -> Result<(), u32> {
    let given = numbers(&[section, body.numbers(), &[clearance], &offsets]);
    let rest = [(19, steps == 0 || steps > 4096)];
    first(&[&vertices(&[section]), &given, &[range(settings), radii(section)], &body.own(), &rest])
}

#[cfg(test)]
mod tests {
    use super::*;
    use crate::FINEST;

    const S: [f64; 8] = [0.0, 10.0, 20.0, 10.0, 20.0, 0.0, 0.0, 0.0];
    const LOW: [f64; 8] = [0.0, 10.0, 20.0, 10.0, 20.0, -1.0, 0.0, 0.0];

    #[test]
    fn one_list_over_all_that_is_given_then_nineteen() {
        let (bad, coarse, o) = (Body::Sphere([0.0, 0.0, 0.0, -1.0]), Settings { most: 0, ..FINEST }, [0.0; 6]);
        let at_end = |x| [0.0, 0.0, 0.0, 0.0, 0.0, x];
        assert_eq!(before_placing(&LOW[..7], &bad, f64::NAN, at_end(2e6), 0, coarse), Err(1));
        assert_eq!(before_placing(&LOW, &bad, 2e6, at_end(f64::NAN), 0, coarse), Err(4));
        assert_eq!(before_placing(&LOW, &bad, 1.0, at_end(2e6), 0, coarse), Err(5));
        assert_eq!(before_placing(&LOW, &bad, 1.0, o, 0, coarse), Err(18));
        assert_eq!(before_placing(&LOW, &bad, 1.0, o, 0, FINEST), Err(6));
        assert_eq!(before_placing(&S, &bad, 1.0, o, 0, FINEST), Err(9));
        assert_eq!(before_placing(&S, &Body::Box([5.0, 4.0, 0.0, 1.0]), 1.0, o, 4097, FINEST), Err(10));
        assert_eq!(
            before_placing(&S, &Body::Cylinder([0.0, 0.0, 0.0, 1.0, 0.0, 1.0, 1.0]), 1.0, o, 0, FINEST),
            Err(11)
        );
        let good = Body::Sphere([0.0; 4]);
        for (steps, expected) in [(0, Err(19)), (1, Ok(())), (4096, Ok(())), (4097, Err(19)), (u32::MAX, Err(19))] {
            assert_eq!(before_placing(&S, &good, 1.0, o, steps, FINEST), expected);
        }
    }
}
