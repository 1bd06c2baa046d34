//! In a control's manner. A stepped chuck holds a stepped workpiece, both built from their profiles. A drill across the spindle
//! comes down beside the work's shoulder. What is refused was not measured, and stops the machine as a collision does.

use jorghipa::{Aabb, Body, Cylinder, Hit, Point, Refusal, Section, Settings, Vertex, pair};

/// What the machine needs, in mm.
const CLEARANCE: f64 = 0.5;
/// The settings of the second look.
const SECOND: Settings = Settings { tolerance: 0.001, ..Settings::FINEST };
/// What rounding may add where no magnitude is over 1,024 mm, `margin`'s own included.
const ROUNDING: f64 = 0.00125;
/// The lean of a cap, for each mm of radius.
const CAPS: f64 = 1.4143e-4;

/// A drill of radius 5 along x, its tip at x; its shank may lean towards z.
fn drill(x: f64, z: f64, lean: f64) -> Cylinder {
    Cylinder { a: Point { x, y: 15.0, z }, b: Point { x: 80.0, y: 15.0, z: z + lean }, radius: 5.0 }
}

/// How much more than the true distance a walk may report, an overlap as up to so much; proved
/// (docs/SCOPE.md). Rounding is on top.
fn margin(radius: f64, tolerance: f64) -> f64 {
    tolerance.max((2.0 * radius * tolerance).sqrt()).min(radius) + ROUNDING
}

/// The clearance to ask for, so that a drill that is called clear has the machine's.
fn needed(drill: Cylinder, settings: Settings) -> f64 {
    CLEARANCE + margin(drill.radius, settings.tolerance) + CAPS * drill.radius
}

/// Half of what the ends of a drill along x stand apart, seen along x. A verdict takes it off by itself, a distance does not.
fn lean(drill: Cylinder) -> f64 {
    0.5 * jorghipa::hypot(drill.a.y - drill.b.y, drill.a.z - drill.b.z)
}

/// What the control does next. A verdict keeps the finest settings, where a walk is often cut and comes out low; so it asks once
/// more with a coarser tolerance, which needs a larger margin.
fn judge(work: &Section, drill: Cylinder) -> Result<&'static str, Refusal> {
    let collision = work.verdict_cylinder(drill, needed(drill, Settings::FINEST))?;
    println!("drill at x {}: verdict {}", drill.a.x, if collision { "collision" } else { "clear" });
    if !collision {
        return Ok("feed");
    }
    let walk = work.cylinder(drill, SECOND)?;
    let Hit { distance, witness_z, witness_radius, edge } = walk.hit;
    let (cut, tolerance, needed) = (if walk.cut { "cut" } else { "uncut" }, SECOND.tolerance, needed(drill, SECOND));
    println!("  at {tolerance} mm: distance {distance:.3}, {cut}, needed {needed:.3}");
    println!("  nearest to edge {edge} at z {witness_z}, radius {witness_radius:.3}");
    Ok(if distance - lean(drill) > needed { "ask the operator" } else { "stop" })
}

/// The lamp is red unless the whole assembly was judged, and clear; at the finest settings, as the verdict.
fn lamp(work: &Section, drill: Cylinder) -> &'static str {
    let holder = Body::Box(Aabb { z0: 40.0, z1: 90.0, r0: 60.0, r1: 120.0 });
    match work.any_hit(&[drill.into(), holder], needed(drill, Settings::FINEST)) {
        Ok(false) => "green",
        Ok(true) | Err(_) => "red",
    }
}

fn main() -> Result<(), Refusal> {
    // Profiles are open towards the axis; the builder closes them.
    let chuck = Section::build_section(&Vertex::list(&[[-80.0, 100.0], [-30.0, 100.0], [-30.0, 60.0], [0.0, 60.0]]))?;
    let work = Section::build_section(&Vertex::list(&[[0.0, 25.0], [60.0, 25.0], [60.0, 15.0], [90.0, 15.0]]))?;

    let nearer = pair(&chuck, &work, drill(30.0, 65.0, 0.0).into())?;
    let (name, cut) = (if nearer.work { "work" } else { "chuck" }, if nearer.hit.cut { ", cut" } else { "" });
    println!("nearer: {name}, distance {:.3}{cut}", nearer.hit.hit.distance);

    for drill in [drill(30.0, 65.0, 0.0), drill(22.0, 65.0, 0.0), drill(18.0, 63.0, 0.0), drill(22.0, 65.0, 10.0)] {
        let next = judge(&work, drill).unwrap_or_else(|refusal| {
            println!("drill at x {}: {refusal}", drill.a.x);
            "stop"
        });
        println!("  {next}; lamp {}", lamp(&work, drill));
    }
    Ok(())
}
