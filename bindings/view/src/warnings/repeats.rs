//! Vertices, and whole outlines, that are listed more than once.

use super::{Numbered, Warning, edges, same};

pub fn repeated(vertices: &[Numbered]) -> Vec<Warning> {
    let found = edges(vertices).filter(|((_, a), (_, b))| same(*a, *b));
    let text = |a, b| format!("repeated vertex: records {a} and {b} are the same point");
    found.map(|((a, _), (b, _))| Warning { kind: "repeated-vertex", records: vec![a, b], text: text(a, b) }).collect()
}

/// The whole outline twice or more: it is the same a part of its length farther on, repeated neighbours left out.
pub fn listed_again(vertices: &[Numbered]) -> Option<Warning> {
    let apart = |((_, a), (_, b)): &(Numbered, Numbered)| !same(*a, *b);
    let kept: Vec<Numbered> = edges(vertices).filter(apart).map(|(a, _)| a).collect();
    let count = kept.len();
    let again = |period: &usize| (0..count).all(|i| same(kept[i].1, kept[(i + period) % count].1));
    let period = (3..=count / 2).filter(|period| count.is_multiple_of(*period)).find(again)?;
    let (times, first, next) = (count / period, kept[0].0, kept[period].0);
    let text = format!(
        "outline listed {times} times, again from record {next} on: what is covered an even number of times counts as air"
    );
    Some(Warning { kind: "listed-again", records: vec![first, next], text })
}

#[cfg(test)]
mod tests {
    use crate::warnings::tests::{QUIET, kinds, records};

    #[test]
    fn repeated_vertices() {
        let twice = [[0.0, 10.0], [20.0, 10.0], [20.0, 10.0], [20.0, 0.0], [0.0, 0.0]];
        assert_eq!((kinds(&twice), records(&twice)), (vec!["repeated-vertex"], vec![2, 3]));
        let closed = [[0.0, 0.0], [0.0, 10.0], [20.0, 10.0], [20.0, 0.0], [0.0, 0.0]];
        assert_eq!((kinds(&closed), records(&closed)), (vec!["repeated-vertex"], vec![5, 1]));
        // Within 1e-12, as the builders count, and not within 1e-11.
        assert_eq!(kinds(&[[0.0, 0.0], [0.0, 10.0], [1e-13, 10.0], [20.0, 10.0], [20.0, 0.0]]), ["repeated-vertex"]);
        assert_eq!(kinds(&[[0.0, 0.0], [0.0, 10.0], [1e-11, 10.0], [20.0, 10.0], [20.0, 0.0]]), QUIET);
    }

    #[test]
    fn listed_again() {
        let s = [[0.0, 10.0], [20.0, 10.0], [20.0, 0.0], [0.0, 0.0]];
        let twice = [s, s].concat();
        assert_eq!((kinds(&twice)[..1].to_vec(), records(&twice)), (vec!["listed-again"], vec![1, 5]));
        // Three times, and twice with the first vertex repeated to close each.
        assert_eq!(kinds(&[s, s, s].concat())[0], "listed-again");
        let closed = [&s[..], &s[..1]].concat();
        assert_eq!(
            kinds(&[&closed[..], &closed].concat())[..3],
            ["repeated-vertex", "repeated-vertex", "listed-again"]
        );
        // One vertex is another the second time: it crosses itself, but is not listed twice.
        let other = [s, [s[0], [21.0, 10.0], s[2], s[3]]].concat();
        assert!(!kinds(&other).contains(&"listed-again") && kinds(&other).contains(&"self-crossing"));
        assert_eq!(kinds(&s), QUIET);
    }
}
