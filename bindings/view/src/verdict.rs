//! How a body stands to the section: judged by the library against a clearance, and never more than was measured.

use crate::mm;
use jorghipa::{Body, Hit, Refusal, Section, Settings, Sphere};

/// The clearance unless one is given, in mm.
pub const CLEARANCE: f64 = 1.0;

/// The library calls collision what comes closer than the clearance by more than this. At a clearance over it contact collides.
const CONTACT: f64 = 1e-9;
/// The library takes no larger number.
const LARGEST: f64 = 1_048_576.0;

/// A clearance at which neither contact nor overlap is clear.
pub fn checked(clearance: f64) -> Result<f64, String> {
    if clearance > CONTACT && clearance <= LARGEST {
        return Ok(clearance);
    }
    Err(format!("{clearance} is no clearance: it has to be over {CONTACT:e} and at most {LARGEST} mm"))
}

/// What is said of a body that was accepted.
#[derive(Clone, Copy, Debug, PartialEq, Eq)]
pub enum Verdict {
    /// The library's verdict at the clearance.
    Clear,
    /// Apart or in contact, and closer than the clearance.
    Near,
    Overlap,
    /// The section lies on the axis, so that it has no surface.
    Nothing,
}

/// A body's hit and verdict.
#[derive(Clone, Copy, Debug, PartialEq)]
pub struct Judged {
    pub hit: Hit,
    pub verdict: Verdict,
    /// Of a sphere that overlaps.
    pub depth: Option<Depth>,
}

/// What the library measures of a sphere that overlaps. Its deepest point is not measured.
#[derive(Clone, Copy, Debug, PartialEq)]
pub struct Depth {
    /// How deep the centre lies; below 0 outside.
    pub centre: f64,
    /// The centre's depth and the radius: no point of the sphere lies deeper, and often none so deep.
    pub most: f64,
}

impl Judged {
    /// The gap: an overlap has none, nor has a body with nothing to hit.
    pub fn gap(&self) -> Option<f64> {
        matches!(self.verdict, Verdict::Clear | Verdict::Near).then_some(self.hit.distance)
    }
}

/// Measures and judges a body.
pub fn judged(section: &Section, body: Body, clearance: f64) -> Result<Judged, Refusal> {
    let asked = clearance + margin(body, Settings::FINEST);
    let (hit, collision) = match body {
        Body::Sphere(sphere) => (section.sphere(sphere)?, section.verdict_sphere(sphere, asked)?),
        Body::Box(bounds) => (section.aabb(bounds)?, section.verdict_box(bounds, asked)?),
        Body::Cylinder(cylinder) => {
            (section.cylinder(cylinder, Settings::FINEST)?.hit, section.verdict_cylinder(cylinder, asked)?)
        }
    };
    let verdict = match hit.distance {
        f64::INFINITY => Verdict::Nothing,
        distance if distance < 0.0 => Verdict::Overlap,
        _ if collision => Verdict::Near,
        _ => Verdict::Clear,
    };
    Ok(Judged { hit, verdict, depth: depth(section, body, hit)? })
}

fn depth(section: &Section, body: Body, hit: Hit) -> Result<Option<Depth>, Refusal> {
    match body {
        Body::Sphere(Sphere { center, .. }) if hit.distance < 0.0 => {
            Ok(Some(Depth { centre: -section.point(center)?.distance, most: -hit.distance }))
        }
        _ => Ok(None),
    }
}

/// What a walk at these settings may report beyond the truth: min(R, max(t, sqrt(2 R t))) at tolerance t and radius R. This is
/// proved beside sound sections (docs/TRUTH.md). Spheres, boxes and cylinders along the spindle are not walked.
pub fn margin(body: Body, Settings { tolerance, .. }: Settings) -> f64 {
    match body {
        Body::Cylinder(bar) if (bar.a.z - bar.b.z).abs() <= (bar.a.x - bar.b.x).hypot(bar.a.y - bar.b.y) => {
            bar.radius.min(tolerance.max((2.0 * bar.radius * tolerance).sqrt()))
        }
        _ => 0.0,
    }
}

/// The verdict in words; clear names its clearance.
pub fn words(verdict: Verdict, clearance: f64) -> String {
    match verdict {
        Verdict::Clear => format!("clear of {clearance} mm"),
        Verdict::Near => format!("under {clearance} mm"),
        Verdict::Overlap => "overlaps".into(),
        Verdict::Nothing => "nothing to hit".into(),
    }
}

/// How deep a sphere lies, as far as that is known.
pub fn depth_words(Depth { centre, most }: Depth) -> String {
    let side = if centre < 0.0 { "outside" } else { "inside" };
    format!("centre {} mm {side}, no point deeper than {} mm", mm(centre.abs()), mm(most))
}

#[cfg(test)]
mod tests {
    use super::*;
    use jorghipa::{Aabb, Cylinder, Point, Vertex};

    fn bar() -> Section {
        Section::new(Vertex::list(&[[0.0, 10.0], [20.0, 10.0], [20.0, 0.0], [0.0, 0.0]])).unwrap()
    }

    fn holder(z0: f64) -> Body {
        Body::Box(Aabb { z0, z1: z0 + 5.0, r0: 0.0, r1: 5.0 })
    }

    fn ball(z: f64) -> Body {
        Body::Sphere(Sphere { center: Point { x: 0.0, y: 0.0, z }, radius: 4.0 })
    }

    #[test]
    fn clear_is_against_the_clearance() {
        let verdict = |body, clearance| judged(&bar(), body, clearance).unwrap().verdict;
        assert_eq!((verdict(holder(21.0), 1.0), verdict(holder(20.999), 1.0)), (Verdict::Clear, Verdict::Near));
        assert_eq!((verdict(ball(25.0), 1.0), verdict(ball(25.0), 1.001)), (Verdict::Clear, Verdict::Near));
        // Within 1e-9 of the clearance it is clear; contact is not, however small the clearance.
        assert_eq!(verdict(holder(21.0 - 5e-10), 1.0), Verdict::Clear);
        assert_eq!((verdict(holder(20.0), 1.1e-9), verdict(holder(19.0), 1.1e-9)), (Verdict::Near, Verdict::Overlap));
    }

    #[test]
    fn clearances() {
        assert!(checked(CLEARANCE).is_ok() && checked(1.1e-9).is_ok() && checked(LARGEST).is_ok());
        for wrong in [1e-9, 0.0, -1.0, 1_048_577.0, f64::INFINITY, f64::NAN] {
            assert!(checked(wrong).is_err(), "{wrong}");
        }
    }

    #[test]
    fn no_depth_but_a_spheres() {
        // The box through the bar is marked -1e-8, the box in it -5 by a probe: neither is a depth.
        let through = Body::Box(Aabb { z0: -5.0, z1: 25.0, r0: 5.0, r1: 15.0 });
        for body in [through, holder(5.0)] {
            let told = judged(&bar(), body, 1.0).unwrap();
            assert_eq!((told.verdict, told.gap(), told.depth), (Verdict::Overlap, None, None));
        }
        // The centre is 10 deep, and so is the deepest point: 14 is a bound.
        let told = judged(&bar(), ball(10.0), 1.0).unwrap();
        assert_eq!((told.gap(), told.depth), (None, Some(Depth { centre: 10.0, most: 14.0 })));
        assert_eq!(depth_words(told.depth.unwrap()), "centre 10.0000 mm inside, no point deeper than 14.0000 mm");
        let told = judged(&bar(), ball(23.0), 1.0).unwrap();
        assert_eq!(told.depth, Some(Depth { centre: -3.0, most: 1.0 }));
        assert_eq!(judged(&bar(), ball(24.0), 1.0).unwrap().gap(), Some(0.0));
    }

    #[test]
    fn margins_of_walks() {
        let at = |x: f64, z: f64| Point { x, y: 0.0, z };
        let across = Body::Cylinder(Cylinder { a: at(20.0, 10.0), b: at(40.0, 10.0), radius: 8.0 });
        let along = Body::Cylinder(Cylinder { a: at(20.0, 10.0), b: at(20.0, 30.0), radius: 8.0 });
        let settings = |tolerance| Settings { tolerance, ..Settings::FINEST };
        assert_eq!((margin(across, settings(0.01)), margin(across, settings(1.0))), (0.4, 4.0));
        assert_eq!((margin(along, settings(1.0)), margin(ball(1.0), settings(1.0))), (0.0, 0.0));
    }
}
