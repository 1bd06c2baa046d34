//! The picture's text.

use std::fmt::Write;

/// A point of the picture.
pub type At = (f64, f64);

/// What was drawn so far.
#[derive(Default)]
pub struct Canvas {
    text: String,
}

/// A text with what XML takes for marks, or does not take at all, replaced.
pub fn escaped(text: &str) -> String {
    let escape = |c: char| match c {
        '<' => "&lt;".into(),
        '>' => "&gt;".into(),
        '&' => "&amp;".into(),
        '"' => "&quot;".into(),
        c if (c as u32) < 0x20 => "\u{fffd}".into(),
        c => c.to_string(),
    };
    text.chars().map(escape).collect()
}

/// What a browser shows of a thing under the pointer.
fn hint(text: &str) -> String {
    if text.is_empty() { String::new() } else { format!("<title>{}</title>", escaped(text)) }
}

impl Canvas {
    fn add(&mut self, line: std::fmt::Arguments) {
        writeln!(self.text, "{line}").expect("a text takes what is written");
    }

    pub fn line(&mut self, class: &str, (x1, y1): At, (x2, y2): At, told: &str) {
        let told = hint(told);
        self.add(format_args!("<path class=\"{class}\" d=\"M{x1:.2} {y1:.2}L{x2:.2} {y2:.2}\">{told}</path>"));
    }

    pub fn path(&mut self, class: &str, points: &[At], close: &str) {
        let joined: Vec<String> = points.iter().map(|(x, y)| format!("{x:.2} {y:.2}")).collect();
        self.add(format_args!("<path class=\"{class}\" d=\"M{}{close}\"/>", joined.join("L")));
    }

    pub fn circle(&mut self, class: &str, (x, y): At, radius: f64, told: &str) {
        let told = hint(told);
        self.add(format_args!(
            "<circle class=\"{class}\" cx=\"{x:.2}\" cy=\"{y:.2}\" r=\"{radius:.2}\">{told}</circle>"
        ));
    }

    pub fn rect(&mut self, class: &str, (x, y): At, (width, height): (f64, f64), told: &str) {
        let (told, size) = (hint(told), format!("width=\"{width:.2}\" height=\"{height:.2}\""));
        self.add(format_args!("<rect class=\"{class}\" x=\"{x:.2}\" y=\"{y:.2}\" {size}>{told}</rect>"));
    }

    /// A text about its middle.
    pub fn label(&mut self, class: &str, (x, y): At, size: f64, text: &str) {
        let (y, text) = (y + 0.36 * size, escaped(text));
        self.add(format_args!("<text class=\"{class}\" x=\"{x:.2}\" y=\"{y:.2}\" font-size=\"{size}\">{text}</text>"));
    }

    /// The whole file.
    pub fn finish(self, (width, height): (f64, f64), style: &str) -> String {
        let (width, height) = (width.ceil(), height.ceil());
        format!(
            "<svg xmlns=\"http://www.w3.org/2000/svg\" width=\"{width}\" height=\"{height}\" viewBox=\"0 0 {width} {height}\">\n\
             <style>{style}</style>\n<rect width=\"100%\" height=\"100%\" fill=\"#fff\"/>\n{}</svg>\n",
            self.text
        )
    }
}

#[cfg(test)]
mod tests {
    use super::*;

    #[test]
    fn escapes() {
        assert_eq!(escaped("a<b> & \"c\"\n\u{1}é"), "a&lt;b&gt; &amp; &quot;c&quot;\u{fffd}\u{fffd}é");
        let mut canvas = Canvas::default();
        canvas.label("t", (1.0, 2.0), 10.0, "<x>");
        assert!(canvas.finish((10.0, 10.0), "").contains("y=\"5.60\" font-size=\"10\">&lt;x&gt;</text>"));
    }
}
