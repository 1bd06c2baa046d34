//! Labels that neither overlap each other nor leave the picture.

/// A rectangle of the picture: left, top, right, bottom.
type Rect = [f64; 4];

/// The labels that were placed.
pub struct Labels {
    room: Rect,
    taken: Vec<Rect>,
    lines: Vec<[(f64, f64); 2]>,
    /// How many found no place.
    pub left_out: usize,
}

/// Width and height of a text at this size of letters.
pub fn extent(text: &str, size: f64) -> (f64, f64) {
    (0.6 * size * text.chars().count() as f64 + 2.0, size)
}

impl Labels {
    /// Within this room, and where it can be beside these lines.
    pub fn new(room: Rect, lines: Vec<[(f64, f64); 2]>) -> Labels {
        Labels { room, taken: Vec::new(), lines, left_out: 0 }
    }

    /// The first of the places, each the middle of the label, where nothing stands and no line passes; else the first where no
    /// other label stands.
    pub fn place(&mut self, text: &str, size: f64, places: &[(f64, f64)]) -> Option<(f64, f64)> {
        let (width, height) = extent(text, size);
        let rect = |&(x, y): &(f64, f64)| [x - width / 2.0, y - height / 2.0, x + width / 2.0, y + height / 2.0];
        let free = |place: &&(f64, f64)| self.is_free(rect(place));
        let clear = |place: &&(f64, f64)| free(place) && !self.lines.iter().any(|line| crosses(*line, rect(place)));
        let found = places.iter().find(clear).or_else(|| places.iter().find(free)).copied();
        match found {
            Some(place) => self.taken.push(rect(&place)),
            None => self.left_out += 1,
        }
        found
    }

    fn is_free(&self, rect: Rect) -> bool {
        let [left, top, right, bottom] = self.room;
        let inside = rect[0] >= left && rect[1] >= top && rect[2] <= right && rect[3] <= bottom;
        let apart = |t: &Rect| rect[2] <= t[0] || t[2] <= rect[0] || rect[3] <= t[1] || t[3] <= rect[1];
        inside && self.taken.iter().all(apart)
    }
}

/// Whether a line passes through a rectangle: the part of it between the rectangle's sides is not empty.
fn crosses([(x0, y0), (x1, y1)]: [(f64, f64); 2], rect: Rect) -> bool {
    let (mut from, mut to) = (0.0f64, 1.0f64);
    for (start, step, low, high) in [(x0, x1 - x0, rect[0], rect[2]), (y0, y1 - y0, rect[1], rect[3])] {
        if step == 0.0 {
            if start < low || start > high {
                return false;
            }
        } else {
            let (a, b) = ((low - start) / step, (high - start) / step);
            (from, to) = (from.max(a.min(b)), to.min(a.max(b)));
        }
    }
    from <= to
}

/// Places beside a line, from near to far: outwards first, then inwards, from its middle to its ends.
pub fn beside([a, b]: [(f64, f64); 2], outwards: (f64, f64), text: &str, size: f64) -> Vec<(f64, f64)> {
    let (width, height) = extent(text, size);
    let base = outwards.0.abs() * width / 2.0 + outwards.1.abs() * height / 2.0 + 3.0;
    let mut places = Vec::new();
    for away in [0.0, 5.0, 11.0, 18.0, 26.0, 36.0, 48.0, 62.0, 78.0, 96.0, 120.0, 150.0] {
        for side in [base + away, -base - away] {
            for t in [0.5, 0.42, 0.58, 0.34, 0.66, 0.26, 0.74, 0.18, 0.82] {
                let (x, y) = (a.0 + (b.0 - a.0) * t, a.1 + (b.1 - a.1) * t);
                places.push((x + outwards.0 * side, y + outwards.1 * side));
            }
        }
    }
    places
}

/// Places about a point, from near to far: to the right and above first.
pub fn around((x, y): (f64, f64), near: f64, text: &str, size: f64) -> Vec<(f64, f64)> {
    let (width, height) = extent(text, size);
    let mut places = Vec::new();
    for away in [0.0, 6.0, 14.0, 24.0, 36.0, 52.0, 72.0, 100.0] {
        for turn in [-1.0f64, 1.0, -2.0, 2.0, 0.0, 3.0, -3.0, 4.0] {
            let angle = turn * std::f64::consts::FRAC_PI_4;
            let (dx, dy) = (angle.cos(), angle.sin());
            places.push((x + dx * (near + away + width / 2.0), y + dy * (near + away + height / 2.0)));
        }
    }
    places
}

#[cfg(test)]
mod tests {
    use super::*;

    #[test]
    fn labels_keep_apart() {
        let mut labels = Labels::new([0.0, 0.0, 100.0, 20.0], vec![[(0.0, 5.0), (100.0, 5.0)]]);
        // Off the line first; then on it, where no label stands; then nowhere.
        let places = [(50.0, 5.0), (50.0, 15.0)];
        assert_eq!(labels.place("1", 9.0, &places), Some((50.0, 15.0)));
        assert_eq!(labels.place("2", 9.0, &places), Some((50.0, 5.0)));
        assert_eq!(labels.place("3", 9.0, &places), None);
        assert_eq!(labels.place("4", 9.0, &[(99.0, 10.0)]), None);
        assert_eq!(labels.left_out, 2);
    }

    #[test]
    fn lines_through_rectangles() {
        let rect = [0.0, 0.0, 10.0, 10.0];
        assert!(crosses([(-5.0, 5.0), (15.0, 5.0)], rect) && crosses([(2.0, 2.0), (3.0, 3.0)], rect));
        assert!(!crosses([(-5.0, 12.0), (15.0, 12.0)], rect) && !crosses([(-5.0, 5.0), (-1.0, 5.0)], rect));
        assert!(!crosses([(8.0, -8.0), (18.0, 8.0)], rect) && crosses([(8.0, -1.0), (11.0, 5.0)], rect));
    }
}
