//! The view as a picture (SVG): the section with its edges numbered, its mirror image in grey, bodies, witnesses and distances.

mod bodies;
mod canvas;
mod frame;
mod labels;
mod legend;
mod numbers;

use crate::{Row, View, table};
use canvas::{At, Canvas};
use frame::{Extent, Frame};
use jorghipa::{Section, Vertex};
use labels::Labels;
use numbers::Numbers;

const STYLE: &str = "text{font-family:sans-serif;text-anchor:middle;fill:#333}\
.title{font-size:18px;text-anchor:start;fill:#111}.note{text-anchor:start}.warning{text-anchor:start;fill:#a15c00}\
.grid{stroke:#e9e9e9}.axis{stroke:#555;stroke-dasharray:14 4 3 4}\
.mirror{fill:#f1f1f1;stroke:#bbb;fill-rule:evenodd}.section{fill:#d7e3f4;fill-rule:evenodd}\
.edge{stroke:#1d3d73;stroke-width:1.6;stroke-linecap:round}.edge:hover{stroke:#e91e63;stroke-width:4}.vertex{fill:#1d3d73}\
.leader{stroke:#7a8db0;stroke-width:.6}.text{paint-order:stroke;stroke:#fff;stroke-width:3px;stroke-linejoin:round}\
.number{fill:#1d3d73}.name{font-weight:bold}.body{stroke-width:1.6}.line{stroke-width:1.3}\
.clear{fill:#0a7d32;stroke:#0a7d32}.near{fill:#c77700;stroke:#c77700}.hit{fill:#c62828;stroke:#c62828}\
.nothing{fill:#777;stroke:#777}\
.refused{fill:#8e24aa;stroke:#8e24aa;stroke-dasharray:5 4}\
.start{fill:#1565c0;stroke:#1565c0;stroke-dasharray:6 4}\
.way{fill:none;stroke:#1565c0;stroke-dasharray:2 4}.text{stroke-dasharray:none}\
.text.clear,.text.near,.text.hit,.text.nothing,.text.refused,.text.start{stroke:#fff}";

/// The picture of an accepted store.
pub fn picture(view: &View) -> Option<String> {
    let section = view.verdict.as_ref().ok()?;
    let vertices = section.vertices();
    let base = Extent::of_section(vertices);
    let (near, far): (Vec<&Row>, Vec<&Row>) =
        view.rows.iter().partition(|row| Extent::of_body(row.body).is_some_and(|extent| base.has_near(extent)));
    let stops = view.tried.iter().flat_map(|tried| bodies::stops(section, tried)).map(|stop| stop.body);
    let drawn = near.iter().map(|row| row.body).chain(stops).filter_map(Extent::of_body);
    let (within, beyond): (Vec<Extent>, Vec<Extent>) = drawn.partition(|extent| base.has_near(*extent));
    let frame = Frame::of(within.into_iter().fold(base, Extent::with));
    let mut canvas = Canvas::default();
    grid(&mut canvas, &frame);
    outline(&mut canvas, &frame, vertices);
    bodies::draw(&mut canvas, &frame, &near);
    let lines = edges(&frame, vertices);
    draw_edges(&mut canvas, view, &lines);
    let mut labels = Labels::new(frame.room(), lines.clone());
    bodies::label(&mut canvas, &mut labels, &frame, &near);
    if let Some(tried) = &view.tried {
        bodies::draw_move(&mut canvas, &mut labels, &frame, section, tried);
    }
    let numbers = Numbers::of(&lines);
    let witnesses: Vec<u32> = near.iter().filter_map(|row| row.answer.ok()).map(|told| told.hit.edge).collect();
    numbers.draw(&mut canvas, &mut labels, vertices, &lines, &witnesses);
    let mut omitted = omitted(&far, labels.left_out, numbers.every);
    omitted.extend((!beyond.is_empty()).then(|| "the move goes beyond the picture".to_string()));
    let height = notes(&mut canvas, &frame, view, omitted);
    title(&mut canvas, &frame, view, section);
    // Where many overlap, each is paler, so that the section shows through.
    let shade = if near.len() > 10 { 0.03 } else { 0.13 };
    Some(canvas.finish((frame.size().0, height), &format!("{STYLE}.body{{fill-opacity:{shade}}}")))
}

fn grid(canvas: &mut Canvas, frame: &Frame) {
    let Extent { z0, z1, r0, r1 } = frame.extent;
    let (top, bottom, left, right) = (frame.y(r1), frame.y(r0), frame.x(z0), frame.x(z1));
    for (z, text) in Frame::ticks(z0, z1) {
        canvas.line("grid", (frame.x(z), top - 8.0), (frame.x(z), bottom + 8.0), "");
        canvas.label("tick", (frame.x(z), bottom + 44.0), 11.0, &text);
    }
    for (r, text) in Frame::ticks(r0, r1) {
        canvas.line("grid", (left - 8.0, frame.y(r)), (right + 8.0, frame.y(r)), "");
        canvas.label("tick", (left - 68.0, frame.y(r)), 11.0, text.trim_start_matches('-'));
    }
    canvas.line("axis", (left - 40.0, frame.y(0.0)), (right + 40.0, frame.y(0.0)), "the spindle's axis");
}

/// The filled section, by the rule that what is covered twice is outside, and its image below the axis.
fn outline(canvas: &mut Canvas, frame: &Frame, vertices: &[Vertex]) {
    let at = |side: f64| vertices.iter().map(|v| (frame.x(v.z), frame.y(side * v.radius))).collect::<Vec<At>>();
    canvas.path("mirror", &at(-1.0), "Z");
    canvas.path("section", &at(1.0), "Z");
}

/// The edges in the picture; edge k starts at vertex k.
fn edges(frame: &Frame, vertices: &[Vertex]) -> Vec<[At; 2]> {
    let at = |v: &Vertex| (frame.x(v.z), frame.y(v.radius));
    vertices.iter().zip(vertices.iter().cycle().skip(1)).map(|(a, b)| [at(a), at(b)]).collect()
}

fn draw_edges(canvas: &mut Canvas, view: &View, lines: &[[At; 2]]) {
    let vertices = view.store.vertices();
    for (k, [a, b]) in lines.iter().enumerate() {
        let ((from, start), (to, end)) = (vertices[k], vertices[(k + 1) % vertices.len()]);
        let told = format!(
            "edge {k}: record {from} (z {}, radius {}) to record {to} (z {}, radius {})",
            start.z, start.radius, end.z, end.radius
        );
        canvas.line("edge", *a, *b, &told);
    }
    if lines.len() <= 80 {
        lines.iter().for_each(|[a, _]| canvas.circle("vertex", *a, 2.4, ""));
    }
}

fn title(canvas: &mut Canvas, frame: &Frame, view: &View, section: &Section) {
    let (vertices, bodies) = (section.vertices().len(), view.rows.len());
    // Of a long path the end.
    let name = match view.name.char_indices().rev().nth(57) {
        Some((start, _)) if start > 2 => format!("..{}", &view.name[start..]),
        _ => view.name.clone(),
    };
    let text = format!("{name}: {vertices} vertices, {bodies} bodies");
    let lines = legend::wrapped(&text, 18.0, frame.size().0 - 44.0);
    lines.iter().zip([28.0, 50.0]).for_each(|(line, y)| canvas.label("title", (22.0, y), 18.0, line));
}

/// What the picture does not show.
fn omitted(far: &[&Row], left_out: usize, every: usize) -> Vec<String> {
    let records: Vec<String> = far.iter().take(20).map(|row| row.record.to_string()).collect();
    let more = if far.len() > 20 { ", .." } else { "" };
    let why = "not drawn, too far away, too large or of no shape";
    let outside = (!far.is_empty()).then(|| format!("{why}: records {}{more}", records.join(", ")));
    let crowded = (left_out > 0).then(|| format!("{left_out} labels found no room; the table has them"));
    let told = "and those of a witness; point at an edge to read its number and its ends";
    let rule = (every > 1).then(|| format!("of the short edges those are numbered that {every} divides, {told}"));
    outside.into_iter().chain(crowded).chain(rule).collect()
}

/// Lines below the picture: the legend, what came of the move, what is omitted, and the warnings; returns where they end.
fn notes(canvas: &mut Canvas, frame: &Frame, view: &View, omitted: Vec<String>) -> f64 {
    let plain = view.tried.iter().map(table::moved).chain(omitted).map(|text| ("note", text));
    let doubts = view.warnings.iter().map(|warning| ("warning", format!("warning: {}", warning.text)));
    let (width, below) = (frame.size().0, frame.size().1 + 16.0);
    let y = legend::legend(canvas, width, below, view);
    plain.chain(doubts).fold(y, |y, (class, text)| legend::write(canvas, class, width, y, &text)) + 4.0
}

#[cfg(test)]
mod tests {
    use super::*;
    use crate::{moving, samples};

    fn count(svg: &str, what: &str) -> usize {
        svg.matches(what).count()
    }

    #[test]
    fn the_example() {
        let svg = picture(&View::new("a<b", &samples::bodies(), 1.0, None).unwrap()).unwrap();
        assert!(svg.starts_with("<svg ") && svg.ends_with("</svg>\n") && svg.contains("a&lt;b: 4 vertices"));
        assert_eq!((count(&svg, "class=\"edge\""), count(&svg, "class=\"text number\"")), (4, 4));
        assert_eq!((count(&svg, "class=\"mirror\""), count(&svg, "class=\"text name ")), (1, 8));
        assert_eq!(count(&svg, "class=\"dot "), 8);
        assert!(!svg.contains("NaN") && !svg.contains("inf"));
    }

    /// Of 256 edges every fifth is numbered, the two long ones and a witness's; a body at the limit does not shrink the rest.
    #[test]
    fn many_vertices_and_a_far_body() {
        let wave = (0..254).map(|i| [f64::from(i), 40.0 + 10.0 * (f64::from(i) / 9.0).sin()]);
        let vertices: Vec<[f64; 2]> = wave.chain([[253.0, 0.0], [0.0, 0.0]]).collect();
        let bad = [(2, [1e6, 0.0, 0.0, 1.0]), (3, [5.0, 4.0, 0.0, 1.0]), (2, [0.0, f64::NAN, 0.0, 1.0])];
        let bodies = [&bad[..], &[(2, [80.0, 0.0, 101.6, 4.0])]].concat();
        let view = View::new("wave", &samples::store(&vertices, &bodies), 1.0, None).unwrap();
        let (svg, edge) = (picture(&view).unwrap(), view.rows[3].answer.unwrap().hit.edge);
        assert!(edge % 5 != 0 && svg.contains(&format!(">{edge}</text>")));
        assert_eq!(count(&svg, "class=\"text number\""), 52 + 2 + 1);
        assert!(svg.contains(">253</text>") && svg.contains(">255</text>") && svg.contains("that 5 divides"));
        assert!(svg.contains("too large or of no shape: records 257, 258, 259"));
        assert!(!svg.contains("NaN"));
    }

    #[test]
    fn a_move_and_a_refused_store() {
        let drawn = |word: &str, clearance| {
            picture(&View::new("m", &samples::bodies(), clearance, moving::parse(word)).unwrap()).unwrap()
        };
        let svg = drawn("5:0,0,20:0,0,-10:6", 1.0);
        assert!(svg.contains("5: start") && svg.contains("5: overlaps from step 6"));
        assert_eq!(count(&svg, "class=\"way\""), 1);
        let svg = drawn("5:0,0,20:0,0,-10:6", 8.0);
        assert!(svg.contains("5: too near from step 4") && svg.contains("5: overlaps: step 6"));
        assert!(!svg.contains("goes beyond"));
        let svg = drawn("5:0,0,20:0,0,-5:5", 2.0);
        assert!(svg.contains("5: too near, and nearest: step 5"));
        let svg = drawn("5:0,0,20:0,0,0:5", 2.0);
        assert!(svg.contains("5: nearest: step 5") && svg.contains("clear of 2 mm at every step"));
        assert!(drawn("5:0,0,5000:0,0,-10:6", 8.0).contains("the move goes beyond the picture"));
        assert!(picture(&View::new("m", &[], 1.0, None).unwrap()).is_none());
    }

    #[test]
    fn long_names_end_within_the_picture() {
        let title = |name: &str| picture(&View::new(name, &samples::bodies(), 1.0, None).unwrap()).unwrap();
        assert!(title(&"é/".repeat(100)).contains(&format!(">..{}: 4", "é/".repeat(29))));
        assert!(title("a folder/x.store").contains(">a folder/x.store: 4 vertices, 8 bodies<"));
    }

    /// Green is at least as far away as the clearance; what a probe measured of an overlap is not drawn.
    #[test]
    fn colours_by_the_clearance() {
        let s = [[0.0, 10.0], [20.0, 10.0], [20.0, 0.0], [0.0, 0.0]];
        let bodies = [(3, [25.0, 30.0, 0.0, 5.0]), (3, [-5.0, 25.0, 5.0, 15.0]), (3, [5.0, 15.0, 2.0, 8.0])];
        let drawn =
            |clearance| picture(&View::new("m", &samples::store(&s, &bodies), clearance, None).unwrap()).unwrap();
        let named = |svg: &str, class: &str| count(svg, &format!("class=\"text name {class}\""));
        let (fine, coarse) = (drawn(5.0), drawn(5.1));
        assert_eq!((named(&fine, "clear"), named(&fine, "near"), named(&fine, "hit")), (1, 0, 2));
        assert_eq!((named(&coarse, "clear"), named(&coarse, "near"), named(&coarse, "hit")), (0, 1, 2));
        assert!(fine.contains("clear: 5 mm away or more") && !fine.contains("-1e-8"));
        assert_eq!(count(&fine, ">overlaps</text>"), 2);
    }
}
