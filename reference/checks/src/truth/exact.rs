//! A place, a section and lengths as whole numbers of one unit, a power of two. The radius of the place is the root √n of a whole
//! number, so squared distances to edges are (p + q √n) / l, and nothing is rounded.

use super::place::{Place, Vertex};
use super::whole::{Whole, root_sign, unit};
use std::cmp::Ordering;

pub struct Exact {
    unit: i32,
    z: Whole,
    /// n: the square of the place's radius.
    square: Whole,
    vertices: Vec<(Whole, Whole)>,
}

/// p + q √n.
struct Root {
    p: Whole,
    q: Whole,
}

impl Exact {
    /// Also of numbers that lengths will be made of.
    pub fn new(section: &[Vertex], place: Place, numbers: &[f64]) -> Exact {
        let given = section.iter().flat_map(|v| [v.0, v.1]).chain([place.x, place.y, place.z]);
        let unit = unit(given.chain(numbers.iter().copied()));
        let whole = |x| Whole::of(x, unit);
        let (x, y) = (whole(place.x), whole(place.y));
        let vertices = section.iter().map(|v| (whole(v.0), whole(v.1))).collect();
        Exact { unit, z: whole(place.z), square: &(&x * &x) + &(&y * &y), vertices }
    }

    fn sign(&self, x: &Root) -> Ordering {
        root_sign(&x.p, &x.q, &self.square)
    }

    fn edge(&self, k: usize) -> [&(Whole, Whole); 2] {
        [&self.vertices[k], &self.vertices[(k + 1) % self.vertices.len()]]
    }

    /// Of e along edge k and w from its start to the place: their area, positive where an edge that runs outwards lies beyond,
    /// w · e and e · e.
    fn products(&self, k: usize) -> (Root, Root, Whole) {
        let [a, b] = self.edge(k);
        let (ez, er, wz) = (&b.0 - &a.0, &b.1 - &a.1, &self.z - &a.0);
        let area = Root { p: -&(&(&ez * &a.1) + &(&er * &wz)), q: ez.clone() };
        let dot = Root { p: &(&wz * &ez) - &(&a.1 * &er), q: er.clone() };
        (area, dot, &(&ez * &ez) + &(&er * &er))
    }

    /// The square of the distance to a vertex.
    fn from(&self, v: &(Whole, Whole)) -> Root {
        let z = &self.z - &v.0;
        let p = &(&(&z * &z) + &(&v.1 * &v.1)) + &self.square;
        Root { p, q: -&(&v.1 + &v.1) }
    }

    /// The square of the distance to edge k, times the number that comes with it.
    fn squared(&self, k: usize) -> (Root, Whole) {
        let (area, dot, length) = self.products(k);
        let one = Whole::of(1.0, 0);
        if self.sign(&dot).is_le() {
            return (self.from(self.edge(k)[0]), one);
        }
        if self.sign(&Root { p: &dot.p - &length, q: dot.q }).is_ge() {
            return (self.from(self.edge(k)[1]), one);
        }
        let twice = &(&area.p * &area.q) + &(&area.p * &area.q);
        let p = &(&area.p * &area.p) + &(&(&area.q * &area.q) * &self.square);
        (Root { p, q: twice }, length)
    }

    /// The sum of these numbers against the distance to edge k; a sum below 0 counts as 0.
    pub fn against(&self, k: usize, terms: &[f64]) -> Ordering {
        let mut length = Whole::of(0.0, self.unit);
        for &x in terms {
            length = &length + &Whole::of(x, self.unit);
        }
        if length.sign().is_lt() {
            length = Whole::of(0.0, self.unit);
        }
        let (Root { p, q }, times) = self.squared(k);
        self.sign(&Root { p: &(&(&length * &length) * &times) - &p, q: -&q })
    }

    /// Whether edge k crosses the line from the place along z strictly beyond it.
    fn crossed(&self, k: usize) -> bool {
        let below = |v: &(Whole, Whole)| self.sign(&Root { p: v.1.clone(), q: Whole::of(-1.0, 0) }).is_gt();
        let [start, end] = self.edge(k).map(below);
        let wanted = if end { Ordering::Greater } else { Ordering::Less };
        start != end && self.sign(&self.products(k).0) == wanted
    }

    /// The even-odd rule: odd crossings are inside.
    pub fn inside(&self) -> bool {
        (0..self.vertices.len()).fold(false, |odd, k| odd != self.crossed(k))
    }
}
