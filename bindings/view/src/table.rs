//! The view as text, in decimal.

use crate::moving::Tried;
use crate::verdict::{self, Judged, Verdict};
use crate::{Row, View, kind, mm};
use jorghipa::{Aabb, Body, Sphere};
use std::fmt::Write;

/// The whole text; every line ends in a newline.
pub fn table(view: &View) -> String {
    let mut text = String::new();
    write_table(&mut text, view).expect("a text takes what is written");
    text
}

fn write_table(text: &mut String, view: &View) -> std::fmt::Result {
    let records = view.store.records.len();
    if let Err((refused, look)) = &view.verdict {
        writeln!(text, "{}: {}", view.name, refused.refusal)?;
        writeln!(text, "{}", look.text)?;
        let record = look.record.and_then(|record| Some((record, view.store.record(record)?)));
        return record.map_or(Ok(()), |(index, record)| {
            let (next, kind, [a, b, c, d]) = (record.next, record.content.kind(), record.content.numbers());
            writeln!(text, "record {index}: next {next}, kind {kind}, numbers {a}, {b}, {c}, {d}")
        });
    }
    let (vertices, bodies) = (view.store.vertices(), view.rows.len());
    writeln!(text, "{}: accepted, {records} records, {} vertices, {bodies} bodies", view.name, vertices.len())?;
    writeln!(text, "\n{:>6}  {:>6}  {:>14}  {:>14}", "edge", "record", "from z", "radius")?;
    for (edge, (record, vertex)) in vertices.iter().enumerate() {
        writeln!(text, "{edge:>6}  {record:>6}  {:>14}  {:>14}", mm(vertex.z), mm(vertex.radius))?;
    }
    if bodies > 0 {
        let judged = format!("at {} mm", view.clearance);
        let heads = ["record", "kind", "distance mm", "nearest z", "radius", "edge"];
        let [record, kind, distance, z, radius, edge] = heads;
        let wide = wide(view);
        writeln!(
            text,
            "\n{record:>6}  {kind:<6}  {distance:>14}  {judged:<wide$}  {z:>14}  {radius:>14}  {edge:>5}  where it stands"
        )?;
        view.rows.iter().try_for_each(|row| write_row(text, view.clearance, wide, row))?;
    }
    view.tried.iter().try_for_each(|tried| write_move(text, tried))?;
    write_notes(text, view)
}

/// How wide the verdicts are.
fn wide(view: &View) -> usize {
    let all = [Verdict::Clear, Verdict::Near, Verdict::Overlap, Verdict::Nothing];
    all.map(|verdict| verdict::words(verdict, view.clearance).len()).into_iter().max().unwrap_or(0)
}

fn write_row(text: &mut String, clearance: f64, wide: usize, Row { record, body, answer }: &Row) -> std::fmt::Result {
    let (kind, stands) = (kind(*body), stands(*body));
    match answer {
        Ok(told) => {
            let (z, radius, edge) = (mm(told.hit.witness_z), mm(told.hit.witness_radius), told.hit.edge);
            let (distance, judged) = (told.gap().map_or("-".into(), mm), verdict::words(told.verdict, clearance));
            let depth = told.depth.map_or(String::new(), |depth| format!("; {}", verdict::depth_words(depth)));
            write!(
                text,
                "{record:>6}  {kind:<6}  {distance:>14}  {judged:<wide$}  {z:>14}  {radius:>14}  {edge:>5}  "
            )?;
            writeln!(text, "{stands}{depth}")
        }
        Err(refusal) => writeln!(text, "{record:>6}  {kind:<6}  {refusal}: look at record {record}, {stands}"),
    }
}

/// A body's numbers, as they stand in the store.
pub fn stands(body: Body) -> String {
    match body {
        Body::Sphere(Sphere { center, radius }) => {
            format!("x {}, y {}, z {}, radius {radius}", center.x, center.y, center.z)
        }
        Body::Box(Aabb { z0, z1, r0, r1 }) => format!("z {z0} to {z1}, radius {r0} to {r1}"),
        Body::Cylinder(cylinder) => format!("{cylinder:?}"),
    }
}

/// What came of a move, in a line.
pub fn moved(tried: &Tried) -> String {
    let (record, steps, clearance) = (tried.asked.record, tried.asked.travel.steps, tried.clearance);
    let (report, nearest) = match (&tried.report, &tried.nearest) {
        (Ok(report), Ok(nearest)) => (report, nearest),
        (Err(refusal), _) | (_, Err(refusal)) => return format!("move of record {record}: {refusal}"),
    };
    let collides = match report.colliding_step {
        Some(step) => format!("first under {clearance} mm at step {step}"),
        None => format!("clear of {clearance} mm at every step"),
    };
    format!("move of record {record}: {} at step {} of {steps}, {collides}", at_nearest(nearest), report.step)
}

/// The least distance of a move, or what there is instead.
fn at_nearest(nearest: &Judged) -> String {
    match (nearest.gap(), nearest.verdict, nearest.depth) {
        (Some(gap), ..) => format!("nearest {} mm", mm(gap)),
        (_, Verdict::Nothing, _) => "nothing to hit".into(),
        (.., Some(depth)) => format!("overlaps ({})", verdict::depth_words(depth)),
        _ => "overlaps".into(),
    }
}

fn write_move(text: &mut String, tried: &Tried) -> std::fmt::Result {
    writeln!(text, "\n{}", moved(tried))
}

fn write_notes(text: &mut String, view: &View) -> std::fmt::Result {
    let is = |wanted: Verdict| view.rows.iter().any(|row| row.answer.is_ok_and(|told| told.verdict == wanted));
    let unreached = view.store.unreached().len();
    let overlap =
        is(Verdict::Overlap).then(|| "overlaps: no depth is measured, except of a sphere's centre".to_string());
    let none = is(Verdict::Nothing)
        .then(|| "nothing to hit: the section lies on the axis, and has no surface for a sphere".to_string());
    let left = (unreached > 0).then(|| format!("{unreached} records are not on the chain and were left out"));
    let warnings = view.warnings.iter().map(|warning| format!("warning: {}", warning.text));
    let notes: Vec<String> = overlap.into_iter().chain(none).chain(left).chain(warnings).collect();
    if !notes.is_empty() {
        writeln!(text)?;
    }
    notes.iter().try_for_each(|note| writeln!(text, "{note}"))
}

#[cfg(test)]
mod tests {
    use super::*;
    use crate::samples;

    #[test]
    fn the_example() {
        let text = table(&View::new("bodies.store", &samples::bodies(), 1.0, None).unwrap());
        let lines: Vec<&str> = text.lines().collect();
        assert_eq!(lines[0], "bodies.store: accepted, 13 records, 4 vertices, 8 bodies");
        let words = |line: &str| line.split_whitespace().map(String::from).collect::<Vec<_>>();
        let row = lines.iter().find(|line| line.trim_start().starts_with("6  box")).unwrap();
        assert_eq!(words(row)[..9], ["6", "box", "5.0000", "clear", "of", "1", "mm", "20.0000", "0.0000"]);
        assert!(row.ends_with("z 25 to 30, radius 0 to 5"));
        assert!(text.contains("  9  box                  -  overlaps      ") && !text.contains("-1e-8"));
        assert!(text.ends_with("overlaps: no depth is measured, except of a sphere's centre\n"));
    }

    #[test]
    fn a_refused_store_and_body() {
        let mut bytes = samples::bodies();
        bytes[200] = 2;
        let text = table(&View::new("x", &bytes, 1.0, None).unwrap());
        assert_eq!(
            text,
            "x: refused 13: next past the end of the store, or a record twice; mend the next of the record that is named\n\
             look at record 5: its next is 2, and it was met before\n\
             record 5: next 2, kind 2, numbers 0, 0, 30, 4\n"
        );
        let s = [[0.0, 10.0], [20.0, 10.0], [20.0, 0.0], [0.0, 0.0]];
        let text = table(&View::new("x", &samples::store(&s, &[(2, [0.0, 0.0, 30.0, -4.0])]), 1.0, None).unwrap());
        let line = "     5  sphere  refused 9: body radius below 0; give the body a radius of 0 or more: \
                    look at record 5, x 0, y 0, z 30, radius -4";
        assert_eq!(text.lines().last(), Some(line));
    }
}
