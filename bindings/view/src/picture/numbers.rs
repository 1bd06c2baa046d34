//! The numbers of the edges, each beside its edge.

use super::canvas::{At, Canvas};
use super::labels::{Labels, beside, extent};
use jorghipa::Vertex;

/// Which edges are numbered: all of them, but of those that are shorter than a number one in so many.
pub struct Numbers {
    size: f64,
    short: f64,
    pub every: usize,
}

fn length([a, b]: &[At; 2]) -> f64 {
    (b.0 - a.0).hypot(b.1 - a.1)
}

impl Numbers {
    pub fn of(lines: &[[At; 2]]) -> Numbers {
        let size = match lines.len() {
            0..=40 => 13.0,
            41..=120 => 12.0,
            _ => 11.0,
        };
        let short = extent(&lines.len().to_string(), size).0 + 6.0;
        let lengths: Vec<f64> = lines.iter().map(length).filter(|length| *length < short).collect();
        let mean = lengths.iter().sum::<f64>() / lengths.len().max(1) as f64;
        let fits = |every: &usize| lengths.len() <= 40 || *every as f64 * mean >= short;
        let every = [1, 2, 5, 10, 20].into_iter().find(fits).unwrap_or(50);
        Numbers { size, short, every }
    }

    /// Outside where there is room, with a leader where the number stands away or the edge is short. Edges that hold a witness
    /// are numbered first, and however short they are.
    pub fn draw(
        &self,
        canvas: &mut Canvas,
        labels: &mut Labels,
        vertices: &[Vertex],
        lines: &[[At; 2]],
        witnesses: &[u32],
    ) {
        let pairs = || vertices.iter().zip(vertices.iter().cycle().skip(1));
        let turn: f64 = pairs().map(|(a, b)| a.z * b.radius - b.z * a.radius).sum();
        let (held, others): (Vec<usize>, Vec<usize>) = (0..lines.len()).partition(|k| witnesses.contains(&(*k as u32)));
        let wanted = |k: &usize| length(&lines[*k]) >= self.short || k.is_multiple_of(self.every);
        for k in held.into_iter().chain(others.into_iter().filter(wanted)) {
            self.number(canvas, labels, lines[k], turn.signum(), &k.to_string());
        }
    }

    fn number(&self, canvas: &mut Canvas, labels: &mut Labels, [a, b]: [At; 2], turn: f64, text: &str) {
        let (dx, dy) = (b.0 - a.0, b.1 - a.1);
        let long = dx.hypot(dy);
        let outwards = if long > 0.0 { (-dy / long * turn, dx / long * turn) } else { (0.0, -1.0) };
        let Some(place) = labels.place(text, self.size, &beside([a, b], outwards, text, self.size)) else { return };
        let along = ((place.0 - a.0) * dx + (place.1 - a.1) * dy) / (dx * dx + dy * dy).max(1e-9);
        let foot = (a.0 + dx * along.clamp(0.0, 1.0), a.1 + dy * along.clamp(0.0, 1.0));
        let away = (place.0 - foot.0).hypot(place.1 - foot.1);
        if away > 1.8 * self.size || long < self.short {
            let part = 1.0 - 0.45 * self.size / away.max(self.size);
            canvas.line("leader", foot, (foot.0 + (place.0 - foot.0) * part, foot.1 + (place.1 - foot.1) * part), "");
        }
        canvas.label("text number", place, self.size, text);
    }
}

#[cfg(test)]
mod tests {
    use super::*;

    #[test]
    fn short_edges_are_numbered_like_a_rule() {
        let lines = |count: usize, long: f64| -> Vec<[At; 2]> {
            (0..count).map(|k| [(k as f64 * long, 0.0), ((k + 1) as f64 * long, 0.0)]).collect()
        };
        assert_eq!(Numbers::of(&lines(4, 100.0)).every, 1);
        assert_eq!(Numbers::of(&lines(40, 3.0)).every, 1);
        assert_eq!(Numbers::of(&lines(256, 30.0)).every, 1);
        assert_eq!(Numbers::of(&lines(256, 6.0)).every, 5);
        assert_eq!(Numbers::of(&lines(256, 0.001)).every, 50);
    }
}
