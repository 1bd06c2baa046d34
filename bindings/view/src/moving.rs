//! A move of a body of the store, tried by the library.

use crate::Row;
use crate::verdict::{self, Judged, margin};
use jorghipa::{Aabb, Body, Cylinder, Point, Refusal, Report, Section, Settings, Sphere, Travel};

/// What is asked: which record's body moves, and how.
#[derive(Clone, Copy, Debug, PartialEq)]
pub struct Asked {
    pub record: u32,
    pub travel: Travel,
}

/// What came of it.
#[derive(Clone, Copy, Debug)]
pub struct Tried {
    pub asked: Asked,
    pub clearance: f64,
    pub body: Body,
    pub report: Result<Report, Refusal>,
    /// The body at the step of the smallest distance; that of a refused move is refused with it.
    pub nearest: Result<Judged, Refusal>,
}

/// Reads `RECORD:X,Y,Z:X,Y,Z:STEPS`.
pub fn parse(word: &str) -> Option<Asked> {
    let parts: Vec<&str> = word.split(':').collect();
    let [record, start, end, steps] = parts.as_slice() else { return None };
    let point = |text: &str| {
        let numbers: Option<Vec<f64>> = text.split(',').map(|number| number.parse().ok()).collect();
        let [x, y, z] = numbers?.try_into().ok()?;
        Some(Point { x, y, z })
    };
    let travel = Travel { start: point(start)?, end: point(end)?, steps: steps.parse().ok()? };
    Some(Asked { record: record.parse().ok()?, travel })
}

/// An error if the record holds no body. A body whose walk may report too much is asked about with that much more clearance.
pub fn tried(section: &Section, rows: &[Row], clearance: f64, asked: Asked) -> Result<Tried, String> {
    let row = rows.iter().find(|row| row.record == asked.record);
    let body = row.ok_or(format!("record {} is no body on the chain, so it cannot move", asked.record))?.body;
    let settings = Settings::FINEST;
    let report = section.try_move(body, clearance + margin(body, settings), asked.travel, settings);
    let at = |report: Report| verdict::judged(section, placed(body, asked.travel, report.step), clearance);
    Ok(Tried { asked, clearance, body, report, nearest: report.and_then(at) })
}

/// The body as the library places it at step i.
pub fn placed(body: Body, Travel { start, end, steps }: Travel, i: u32) -> Body {
    let offset = |start: f64, end: f64| start + (end - start) * f64::from(i) / f64::from(steps);
    let (x, y, z) = (offset(start.x, end.x), offset(start.y, end.y), offset(start.z, end.z));
    let moved = |p: Point| Point { x: p.x + x, y: p.y + y, z: p.z + z };
    match body {
        Body::Sphere(Sphere { center, radius }) => Body::Sphere(Sphere { center: moved(center), radius }),
        Body::Box(Aabb { z0, z1, r0, r1 }) => Body::Box(Aabb { z0: z0 + z, z1: z1 + z, r0: r0 + x, r1: r1 + x }),
        Body::Cylinder(Cylinder { a, b, radius }) => Body::Cylinder(Cylinder { a: moved(a), b: moved(b), radius }),
    }
}

#[cfg(test)]
mod tests {
    use super::*;
    use crate::{View, samples};

    #[test]
    fn words() {
        let asked = parse("5:0,0,0:1.5,-2,-30:6").unwrap();
        assert_eq!((asked.record, asked.travel.steps, asked.travel.end), (5, 6, Point { x: 1.5, y: -2.0, z: -30.0 }));
        for wrong in
            ["", "5", "5:0,0,0:0,0,0", "5:0,0:0,0,0:6", "5:0,0,0,0:0,0,0:6", "5:0,0,x:0,0,0:6", "5:0,0,0:0,0,0:-1"]
        {
            assert_eq!(parse(wrong), None, "{wrong}");
        }
    }

    /// Sphere 5 of the example comes from z 50 down to z 20, before the bar's end; the placement is the library's.
    #[test]
    fn a_move_towards_the_bar() {
        let asked = parse("5:0,0,20:0,0,-10:6");
        let view = View::new("bodies", &samples::bodies(), 1.0, asked).unwrap();
        let (tried, section) = (view.tried.unwrap(), view.verdict.unwrap());
        let report = tried.report.unwrap();
        assert_eq!((report.distance, report.step, report.colliding_step), (-4.0, 6, Some(6)));
        let at = |i| verdict::judged(&section, placed(tried.body, tried.asked.travel, i), 1.0).unwrap();
        let distances: Vec<f64> = (0..=6).map(|i| at(i).hit.distance).collect();
        assert_eq!(distances, [26.0, 21.0, 16.0, 11.0, 6.0, 1.0, -4.0]);
        assert_eq!(tried.nearest, Ok(at(6)));
    }

    #[test]
    fn refused_moves() {
        let view = |word: &str| View::new("bodies", &samples::bodies(), 1.0, parse(word));
        assert_eq!(view("5:0,0,0:0,0,0:0").unwrap().tried.unwrap().report.err(), Some(Refusal::BadSteps));
        assert!(view("4:0,0,0:0,0,0:1").unwrap_err().starts_with("record 4 is no body"));
    }
}
