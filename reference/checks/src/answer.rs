//! An answer, and its line in the fixed list.

use crate::lifted::Lifted;
use crate::query::input_bits;
use edges::Hit;

/// One pattern for every NaN and one for both zeros.
fn output_bits(x: f64) -> u64 {
    if x == 0.0 { 0 } else { input_bits(x) }
}

#[derive(Clone, Debug)]
pub enum Answer {
    Refused(u32),
    /// Refused, but something that was lent had changed.
    Spoilt(u32),
    /// The form over records answers something else, its line.
    Split(String),
    Root(f64),
    /// Distance, witness and edge.
    Hit(Hit),
    /// How many numbers are kept, and the whole space afterwards.
    Built(usize, Vec<f64>),
    /// A hit; boxes, most waiting, cut.
    Walked(Hit, [u32; 3]),
    /// True is a collision.
    Verdict(bool),
    /// A hit with its witness in the machine's axes; of a cylinder the counts too.
    Lifted(Lifted, Option<[u32; 3]>),
}

/// Zeros of both signs are one value, and so is every NaN.
pub fn same(a: f64, b: f64) -> bool {
    output_bits(a) == output_bits(b)
}

fn all_same(a: &[f64], b: &[f64]) -> bool {
    a.len() == b.len() && a.iter().zip(b).all(|(&a, &b)| same(a, b))
}

fn same_hit(a: &Hit, b: &Hit) -> bool {
    all_same(&floats(a), &floats(b)) && a.edge == b.edge
}

fn same_lifted(a: &Lifted, b: &Lifted) -> bool {
    same(a.distance, b.distance) && all_same(&a.witness, &b.witness) && a.edge == b.edge
}

/// Distance, witness z and witness radius.
pub fn floats(hit: &Hit) -> [f64; 3] {
    [hit.distance, hit.witness.0, hit.witness.1]
}

impl Answer {
    pub fn refused(&self) -> bool {
        matches!(self, Answer::Refused(_) | Answer::Spoilt(_))
    }

    /// Whether a piece waited: a walk, not one box.
    pub fn walked(&self) -> bool {
        matches!(self, Answer::Walked(_, [_, waiting, _]) | Answer::Lifted(_, Some([_, waiting, _])) if *waiting > 0)
    }

    pub fn cut(&self) -> bool {
        matches!(self, Answer::Walked(_, [_, _, 1]) | Answer::Lifted(_, Some([_, _, 1])))
    }

    pub fn same(&self, other: &Answer) -> bool {
        match (self, other) {
            (Answer::Refused(a), Answer::Refused(b)) => a == b,
            (Answer::Root(a), Answer::Root(b)) => same(*a, *b),
            (Answer::Hit(a), Answer::Hit(b)) => same_hit(a, b),
            (Answer::Walked(a, m), Answer::Walked(b, n)) => same_hit(a, b) && m == n,
            (Answer::Verdict(a), Answer::Verdict(b)) => a == b,
            (Answer::Lifted(a, m), Answer::Lifted(b, n)) => same_lifted(a, b) && m == n,
            (Answer::Built(m, a), Answer::Built(n, b)) => {
                // The rest of the space must keep its very bits.
                let rest = |space: &[f64]| space[*m..].iter().map(|x| x.to_bits()).collect::<Vec<_>>();
                m == n && all_same(a, b) && rest(a) == rest(b)
            }
            _ => false,
        }
    }

    /// What the totals call it.
    pub fn outcome(&self) -> String {
        match self {
            Answer::Refused(number) => format!("refused {number}"),
            Answer::Spoilt(number) => format!("refused {number}, lent places changed"),
            Answer::Split(_) => "records answer otherwise".into(),
            Answer::Root(root) => if root.is_finite() { "finite" } else { "not finite" }.into(),
            Answer::Hit(hit) => side(hit.distance).into(),
            Answer::Built(..) => "built".into(),
            Answer::Walked(hit, [_, _, 0]) => side(hit.distance).into(),
            Answer::Walked(..) | Answer::Lifted(_, Some([_, _, 1])) => "cut".into(),
            Answer::Lifted(hit, _) => side(hit.distance).into(),
            Answer::Verdict(collision) => if *collision { "collision" } else { "clear" }.into(),
        }
    }

    pub fn line(&self) -> String {
        let hex = |values: &[f64]| {
            let words: Vec<String> = values.iter().map(|&x| format!("{:016x}", output_bits(x))).collect();
            words.join(" ")
        };
        let line = |hit: &Hit| format!("{} {}", hex(&floats(hit)), hit.edge);
        match self {
            Answer::Refused(number) => format!("refused {number}"),
            Answer::Spoilt(number) => format!("refused {number} (lent places changed)"),
            Answer::Split(records) => format!("over records: {records}"),
            Answer::Root(root) => hex(&[*root]),
            Answer::Hit(hit) => line(hit),
            Answer::Built(kept, space) => format!("{kept} {}", hex(&space[..*kept])),
            Answer::Walked(hit, [boxes, waiting, cut]) => format!("{} {boxes} {waiting} {cut}", line(hit)),
            Answer::Verdict(collision) => u32::from(*collision).to_string(),
            Answer::Lifted(hit, counts) => {
                let counts: String = counts.iter().flatten().map(|count| format!(" {count}")).collect();
                format!("{} {} {}{counts}", hex(&[hit.distance]), hex(&hit.witness), hit.edge)
            }
        }
    }
}

fn side(distance: f64) -> &'static str {
    match distance {
        f64::INFINITY => "infinite",
        -1e-8 => "crossing (-1e-8)",
        d if d < 0.0 => "inside",
        d if d > 0.0 => "outside",
        _ => "touching",
    }
}

#[cfg(test)]
mod tests {
    use super::*;

    #[test]
    fn zeros_are_one_value_but_not_in_the_rest_of_the_space() {
        assert!(Answer::Root(0.0).same(&Answer::Root(-0.0)));
        let hit = |distance, z, edge| Answer::Hit(Hit { distance, witness: (z, 0.0), edge });
        assert!(hit(0.0, -0.0, 1).same(&hit(-0.0, 0.0, 1)));
        assert!(!hit(0.0, 0.0, 1).same(&hit(0.0, 0.0, 2)));
        assert_eq!(hit(-0.0, 20.0, 1).line(), "0000000000000000 4034000000000000 0000000000000000 1");
        assert!(Answer::Built(1, vec![0.0, 1.0]).same(&Answer::Built(1, vec![-0.0, 1.0])));
        assert!(!Answer::Built(1, vec![1.0, 0.0]).same(&Answer::Built(1, vec![1.0, -0.0])));
        assert!(!Answer::Refused(3).same(&Answer::Spoilt(3)));
    }
}
