//! Bodies, their witnesses with distance lines, and a move.

use super::canvas::{At, Canvas};
use super::frame::{Extent, Frame};
use super::labels::{Labels, around, beside, extent};
use crate::moving::{Tried, placed};
use crate::table::stands;
use crate::verdict::{self, Judged, Verdict};
use crate::{Row, kind, mm};
use jorghipa::{Aabb, Body, Section};

const SIZE: f64 = 13.0;

/// The class of a verdict.
fn judged_class(verdict: Verdict) -> &'static str {
    match verdict {
        Verdict::Clear => "clear",
        Verdict::Near => "near",
        Verdict::Overlap => "hit",
        Verdict::Nothing => "nothing",
    }
}

fn class(row: &Row) -> &'static str {
    row.answer.map_or("refused", |told| judged_class(told.verdict))
}

/// A gap, or that there is none, in full.
fn answered(told: &Judged) -> String {
    match (told.gap(), told.depth) {
        (Some(gap), _) => format!("distance {gap} mm"),
        (_, Some(depth)) => format!("overlaps, {}", verdict::depth_words(depth)),
        _ if told.verdict == Verdict::Nothing => "nothing to hit".into(),
        _ => "overlaps".into(),
    }
}

/// The outline of a body; it has an extent.
fn shape(canvas: &mut Canvas, frame: &Frame, body: Body, class: &str, told: &str) {
    let Some(Extent { z0, z1, r0, r1 }) = Extent::of_body(body) else { return };
    let (corner, size) = ((frame.x(z0), frame.y(r1)), ((z1 - z0) * frame.scale, (r1 - r0) * frame.scale));
    match body {
        Body::Sphere(_) => canvas.circle(class, middle(frame, body), (size.0 / 2.0).max(2.0), told),
        _ => canvas.rect(class, corner, (size.0.max(2.0), size.1.max(2.0)), told),
    }
}

fn middle(frame: &Frame, body: Body) -> At {
    let Extent { z0, z1, r0, r1 } = Extent::of_body(body).unwrap_or(frame.extent);
    (frame.x((z0 + z1) / 2.0), frame.y((r0 + r1) / 2.0))
}

/// The point of the body that is nearest to the witness, in the picture.
fn nearest(frame: &Frame, body: Body, witness: At) -> At {
    match body {
        Body::Sphere(sphere) => {
            let (x, y) = middle(frame, body);
            let (dx, dy) = (witness.0 - x, witness.1 - y);
            let part = sphere.radius * frame.scale / dx.hypot(dy).max(1e-9);
            (x + dx * part, y + dy * part)
        }
        Body::Box(Aabb { z0, z1, r0, r1 }) => {
            let (x, y) = (witness.0.clamp(frame.x(z0), frame.x(z1)), witness.1.clamp(frame.y(r1), frame.y(r0)));
            (x, y)
        }
        Body::Cylinder(_) => witness,
    }
}

/// A line from the witness to the body, and the distance beside it.
fn distance_line(canvas: &mut Canvas, labels: &mut Labels, frame: &Frame, body: Body, told: &Judged) {
    let (hit, class) = (told.hit, judged_class(told.verdict));
    let witness = (frame.x(hit.witness_z), frame.y(hit.witness_radius));
    let end = nearest(frame, body, witness);
    let hint = format!("{}; edge {}, at z {}, radius {}", answered(told), hit.edge, hit.witness_z, hit.witness_radius);
    canvas.line(&format!("line {class}"), witness, end, &hint);
    canvas.circle(&format!("dot {class}"), witness, 3.0, &hint);
    let text = told.gap().map_or("overlaps".into(), short);
    let (dx, dy) = (end.0 - witness.0, end.1 - witness.1);
    let length = dx.hypot(dy);
    let places = if length < 1.0 {
        around(witness, 5.0, &text, SIZE)
    } else {
        beside([witness, end], (dy / length, -dx / length), &text, SIZE)
    };
    if let Some(place) = labels.place(&text, SIZE, &places) {
        canvas.label(&format!("text {class}"), place, SIZE, &text);
    }
}

/// A thousandth of a mm is enough for a picture.
fn short(distance: f64) -> String {
    if distance == 0.0 || distance.abs() >= 0.0005 { format!("{:.3}", distance + 0.0) } else { mm(distance) }
}

fn named(canvas: &mut Canvas, labels: &mut Labels, frame: &Frame, body: Body, class: &str, text: &str) {
    let Some(Extent { z0, z1, r0, r1 }) = Extent::of_body(body) else { return };
    let half = (z1 - z0).min(r1 - r0) * frame.scale / 2.0;
    let at = middle(frame, body);
    let mut places = around(at, half.min(40.0) + 4.0, text, SIZE);
    if half > extent(text, SIZE).0 / 2.0 {
        places.insert(0, at);
    }
    if let Some(place) = labels.place(text, SIZE, &places) {
        canvas.label(&format!("text name {class}"), place, SIZE, text);
    }
}

/// The outlines of all bodies that are near enough.
pub fn draw(canvas: &mut Canvas, frame: &Frame, rows: &[&Row]) {
    for row in rows {
        let answer = row.answer.map_or_else(|refusal| refusal.to_string(), |told| answered(&told));
        let told = format!("record {}, {}: {}; {answer}", row.record, kind(row.body), stands(row.body));
        shape(canvas, frame, row.body, &format!("body {}", class(row)), &told);
    }
}

/// Their records and distances.
pub fn label(canvas: &mut Canvas, labels: &mut Labels, frame: &Frame, rows: &[&Row]) {
    for row in rows {
        named(canvas, labels, frame, row.body, class(row), &row.record.to_string());
    }
    for row in rows {
        if let Some(told) = row.answer.ok().filter(|told| told.verdict != Verdict::Nothing) {
            distance_line(canvas, labels, frame, row.body, &told);
        }
    }
}

/// A step of a move that is drawn.
pub struct Stop {
    pub body: Body,
    class: &'static str,
    name: String,
    told: Judged,
}

/// The steps that are drawn: the start, the first that is too near, and the nearest, which comes last.
pub fn stops(section: &Section, tried: &Tried) -> Vec<Stop> {
    let Ok(report) = tried.report else { return Vec::new() };
    let stop = |step: u32, class: Option<&'static str>, name: &dyn Fn(Verdict) -> String| {
        let body = placed(tried.body, tried.asked.travel, step);
        let told = verdict::judged(section, body, tried.clearance).ok()?;
        Some(Stop { body, class: class.unwrap_or(judged_class(told.verdict)), name: name(told.verdict), told })
    };
    let (nearest, first) = (report.step, report.colliding_step);
    let start = stop(0, Some("start"), &|_| "start".into());
    let colliding = first.filter(|step| *step != nearest).and_then(|step| {
        stop(step, None, &|verdict| match verdict {
            Verdict::Overlap => format!("overlaps from step {step}"),
            _ => format!("too near from step {step}"),
        })
    });
    let last = stop(nearest, None, &|verdict| match (verdict, first == Some(nearest)) {
        (Verdict::Overlap, true) => format!("overlaps from step {nearest}"),
        (Verdict::Overlap, false) => format!("overlaps: step {nearest}"),
        (_, true) => format!("too near, and nearest: step {nearest}"),
        (_, false) => format!("nearest: step {nearest}"),
    });
    start.into_iter().chain(colliding).chain(last).collect()
}

/// The body at those steps, and the way of its middle.
pub fn draw_move(canvas: &mut Canvas, labels: &mut Labels, frame: &Frame, section: &Section, tried: &Tried) {
    let (travel, stops) = (tried.asked.travel, stops(section, tried));
    let Some(last) = stops.last() else { return };
    let parts = travel.steps.min(64);
    let step = |k: u32| (u64::from(k) * u64::from(travel.steps) / u64::from(parts)) as u32;
    let way: Vec<At> = (0..=parts).map(|k| middle(frame, placed(tried.body, travel, step(k)))).collect();
    canvas.path("way", &way, "");
    for Stop { body, class, name, .. } in &stops {
        shape(canvas, frame, *body, &format!("body {class}"), name);
        let text = format!("{}: {name}", tried.asked.record);
        named(canvas, labels, frame, *body, class, &text);
    }
    if last.told.verdict != Verdict::Nothing {
        distance_line(canvas, labels, frame, last.body, &last.told);
    }
}
