//! Words around the picture: lines that fit its width, and what the colours mean.

use super::canvas::{At, Canvas};
use super::labels::extent;
use crate::View;
use crate::verdict::{CLEARANCE, Verdict};

const SIZE: f64 = 13.0;
/// From line to line.
pub const LINE: f64 = 19.0;
const LEFT: f64 = 22.0;

/// A text in lines that are no wider than this, broken between words; a longer word has a line of its own.
pub fn wrapped(text: &str, size: f64, width: f64) -> Vec<String> {
    let mut lines: Vec<String> = Vec::new();
    for word in text.split(' ') {
        match lines.last_mut() {
            Some(line) if extent(&format!("{line} {word}"), size).0 <= width => *line += &format!(" {word}"),
            _ => lines.push(word.to_string()),
        }
    }
    lines
}

/// Writes a text from this height on, and returns the height behind it.
pub fn write(canvas: &mut Canvas, class: &str, width: f64, y: f64, text: &str) -> f64 {
    let lines = wrapped(text, SIZE, width - 2.0 * LEFT);
    lines.iter().zip(0..).for_each(|(line, i)| canvas.label(class, (LEFT, y + f64::from(i) * LINE), SIZE, line));
    y + lines.len() as f64 * LINE
}

/// The colours with their meaning, side by side as far as there is room; clear names its clearance.
fn colours(canvas: &mut Canvas, width: f64, y: f64, view: &View) -> f64 {
    let clearance = view.clearance;
    let is = |nothing: bool| {
        view.rows.iter().any(|row| match row.answer {
            Ok(told) => nothing && told.verdict == Verdict::Nothing,
            Err(_) => !nothing,
        })
    };
    let refused = is(false).then(|| ("refused", "refused".to_string()));
    let nothing = is(true).then(|| ("nothing", "nothing to hit".to_string()));
    let started = view.tried.as_ref().map(|_| ("start", "start of the move".to_string()));
    let always = [
        ("clear", format!("clear: {clearance} mm away or more")),
        ("near", format!("too near: under {clearance} mm, or touching")),
        ("hit", "overlaps; how deep is not measured".to_string()),
    ];
    let entries = always.into_iter().chain(refused).chain(nothing).chain(started);
    let (mut at, start): (At, f64) = ((LEFT, y), LEFT + 1.0);
    for (class, text) in entries {
        let long = extent(&text, SIZE).0 + 44.0;
        if at.0 > start && at.0 + long > width {
            at = (LEFT, at.1 + LINE);
        }
        canvas.rect(&format!("body {class}"), (at.0, at.1 - 6.0), (18.0, 12.0), "");
        canvas.label("note", (at.0 + 25.0, at.1), SIZE, &text);
        at.0 += long;
    }
    at.1 + LINE
}

/// The legend from this height on; returns the height behind it.
pub fn legend(canvas: &mut Canvas, width: f64, y: f64, view: &View) -> f64 {
    let y = colours(canvas, width, y, view);
    let said = format!(
        "Clearance {} mm (--clearance; {CLEARANCE} mm unless given). z to the right, radius up, in mm. Edges are numbered \
         from 0, their mirror image is grey; bodies have the number of their record. Lines lead to the witness on the section.",
        view.clearance
    );
    write(canvas, "note", width, y, &said) + 4.0
}

#[cfg(test)]
mod tests {
    use super::*;
    use crate::samples;

    #[test]
    fn lines_keep_to_the_width() {
        let text = "one two three four five six seven";
        let lines = wrapped(text, 10.0, 80.0);
        assert!(lines.len() > 2 && lines.iter().all(|line| extent(line, 10.0).0 <= 80.0));
        assert_eq!(lines.join(" "), text);
        assert_eq!(wrapped("a-word-too-long b", 10.0, 20.0), ["a-word-too-long", "b"]);
    }

    #[test]
    fn clear_names_its_clearance() {
        let view = View::new("x", &samples::bodies(), 0.25, None).unwrap();
        let mut canvas = Canvas::default();
        let end = legend(&mut canvas, 760.0, 10.0, &view);
        let text = canvas.finish((760.0, end), "");
        assert!(
            text.contains("clear: 0.25 mm away or more")
                && text.contains("Clearance 0.25 mm (--clearance; 1 mm unless")
        );
    }
}
