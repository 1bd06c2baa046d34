//! Bodies, and moves of them, that are measured otherwise than they look.

use super::{Warning, capped};
use crate::Row;
use crate::moving::Tried;
use jorghipa::{Aabb, Body};

/// Up to this a box has no thickness: it may lie in the material and read as contact.
const THIN: f64 = 2e-9;

/// The accepted boxes with their records.
fn boxes(rows: &[Row]) -> impl Iterator<Item = (u32, Aabb)> {
    rows.iter().filter(|row| row.answer.is_ok()).filter_map(|row| match row.body {
        Body::Box(bounds) => Some((row.record, bounds)),
        _ => None,
    })
}

/// Boxes that reach below the axis.
pub fn below_axis(rows: &[Row]) -> Vec<Warning> {
    let warning = |(record, bounds): (u32, Aabb)| Warning {
        kind: "below-axis",
        records: vec![record],
        text: format!(
            "box below the axis: record {record} reaches to radius {}; it is not mirrored, and below the axis there is no \
             section; give its distances from the axis, 0 or more",
            bounds.r0
        ),
    };
    let found: Vec<Warning> = boxes(rows).filter(|(_, bounds)| bounds.r0 < 0.0).map(warning).collect();
    capped(found, "below-axis", "boxes below the axis")
}

/// Boxes of no thickness. A sphere of radius 0 is a point, and measured as one.
pub fn thin(rows: &[Row]) -> Vec<Warning> {
    let thin = |(_, b): &(u32, Aabb)| b.z1 - b.z0 <= THIN || b.r1 - b.r0 <= THIN;
    let warning = |(record, _): (u32, Aabb)| Warning {
        kind: "no-thickness",
        records: vec![record],
        text: format!("box of no thickness: record {record}; it may pass through the material and read as contact"),
    };
    capped(boxes(rows).filter(thin).map(warning).collect(), "no-thickness", "boxes of no thickness")
}

/// A box that a move takes below the axis, and steps so wide that something fits between them: half-way between two steps a body
/// stands half a step from both, so that what is clear at steps of up to twice the clearance touches nothing between them.
pub fn moving(tried: &Tried) -> Vec<Warning> {
    let (record, travel) = (tried.asked.record, tried.asked.travel);
    let below = match tried.body {
        Body::Box(bounds) if bounds.r0 >= 0.0 && bounds.r0 + travel.start.x.min(travel.end.x) < 0.0 => Some(format!(
            "move below the axis: the box in record {record} comes to radius {}, where there is no section",
            bounds.r0 + travel.start.x.min(travel.end.x)
        )),
        _ => None,
    };
    let (start, end) = (travel.start, travel.end);
    let way = (end.x - start.x).hypot(end.y - start.y).hypot(end.z - start.z);
    let step = way / f64::from(travel.steps.max(1));
    let wide = (step > 2.0 * tried.clearance).then(|| {
        format!(
            "wide steps: the move goes {step:.4} mm from step to step, over twice the clearance, and between them nothing is \
             measured: it may pass through what it clears; take more steps"
        )
    });
    let warning = |kind| move |text| Warning { kind, records: vec![record], text };
    let told = below.map(warning("move-below-axis")).into_iter().chain(wide.map(warning("wide-steps")));
    if tried.report.is_ok() { told.collect() } else { Vec::new() }
}

#[cfg(test)]
mod tests {
    use crate::warnings::tests::of_store;

    const S: [[f64; 2]; 4] = [[0.0, 15.0], [20.0, 15.0], [20.0, 0.0], [0.0, 0.0]];

    #[test]
    fn below_the_axis() {
        let found = |r0: f64| of_store(&S, &[(3, [25.0, 30.0, r0, 5.0])], "");
        assert_eq!(found(-0.5), [("below-axis", vec![5])]);
        assert_eq!((found(0.0), found(-0.0)), (Vec::new(), Vec::new()));
        // A refused box is not doubted besides; of many boxes five are named.
        assert_eq!(of_store(&S, &[(3, [25.0, 30.0, -5.0, -6.0])], ""), []);
        assert_eq!(of_store(&S, &[(3, [25.0, 30.0, -5.0, 5.0]); 300], "").len(), 6);
    }

    #[test]
    fn no_thickness() {
        let found = |long: f64, high: f64| of_store(&S, &[(3, [0.0, long, 0.0, high])], "");
        assert_eq!(found(2e-9, 30.0), [("no-thickness", vec![5])]);
        assert_eq!(found(30.0, 0.0), [("no-thickness", vec![5])]);
        assert_eq!(found(2.1e-9, 2.1e-9), []);
        // A point is no box.
        assert_eq!(of_store(&S, &[(2, [0.0, 0.0, 30.0, 0.0])], ""), []);
    }

    #[test]
    fn moves() {
        let box_to = |x: f64| of_store(&S, &[(3, [25.0, 30.0, 5.0, 9.0])], &format!("5:0,0,0:{x},0,0:40"));
        assert_eq!((box_to(-5.5), box_to(-5.0)), (vec![("move-below-axis", vec![5])], vec![]));
        let ball = |steps: u32| of_store(&S, &[(2, [0.0, 0.0, -20.0, 1.0])], &format!("5:0,0,0:0,0,60:{steps}"));
        assert_eq!((ball(29), ball(30)), (vec![("wide-steps", vec![5])], vec![]));
        assert_eq!(ball(0), []);
    }
}
