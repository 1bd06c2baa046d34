//! Stores to list: 01's example, named cases, and generated and damaged ones.

use crate::RECORD;
use random::Random;

/// next, kind, four numbers
pub type Fields = (u32, u32, [f64; 4]);

pub fn store(records: &[Fields]) -> Vec<u8> {
    let mut bytes = Vec::with_capacity(records.len() * RECORD);
    for (next, kind, numbers) in records {
        bytes.extend(next.to_le_bytes());
        bytes.extend(kind.to_le_bytes());
        numbers.iter().for_each(|x| bytes.extend(x.to_le_bytes()));
    }
    bytes
}

pub const S: [[f64; 4]; 4] =
    [[0.0, 10.0, 0.0, 0.0], [20.0, 10.0, 0.0, 0.0], [20.0, 0.0, 0.0, 0.0], [0.0, 0.0, 0.0, 0.0]];

/// The vertices, then the bodies, in chain order from record 1 on.
pub fn in_order(vertices: &[[f64; 4]], bodies: &[(u32, [f64; 4])]) -> Vec<u8> {
    let parts = vertices.iter().map(|v| (1, *v)).chain(bodies.iter().copied());
    let mut records: Vec<Fields> = vec![(1, 0, [0.0; 4])];
    records.extend(parts.enumerate().map(|(i, (kind, numbers))| (i as u32 + 2, kind, numbers)));
    records.last_mut().unwrap().0 = 0;
    store(&records)
}

/// 01's example: S and the box 25, 30, 0, 5.
pub fn example() -> Vec<u8> {
    in_order(&S, &[(3, [25.0, 30.0, 0.0, 5.0])])
}

/// 11 vertices and 500 spheres that are nearest to the last edge, which has two digits: the longest listing.
pub fn longest() -> Vec<u8> {
    let mut vertices: Vec<[f64; 4]> = (0..10).map(|k| [f64::from(k), 0.0, 0.0, 0.0]).collect();
    vertices.push([10.0, 5.0, 0.0, 0.0]);
    let spheres: Vec<_> = (0..500).map(|k| (2, [5.0 + f64::from(k) / 32.0, 0.0, 0.0, 1.0])).collect();
    in_order(&vertices, &spheres)
}

/// Generated stores.
pub struct Stores {
    random: Random,
    /// Whole numbers from -6 to 6 only: vertices come again, and many edges are equally near.
    whole: bool,
}

impl Stores {
    pub fn new(seed: u64) -> Stores {
        Stores { random: Random::new(seed, 0), whole: false }
    }

    fn coordinate(&mut self) -> f64 {
        const ODD: [f64; 12] = [
            f64::NAN,
            f64::INFINITY,
            f64::NEG_INFINITY,
            -0.0,
            0.0,
            1048576.0,
            -1048576.0,
            1048576.0000000002,
            5e-324,
            -1e-9,
            1e-12,
            1e300,
        ];
        match self.random.below(40) {
            _ if self.whole => self.random.whole(-6, 6) as f64,
            0 => self.random.pick(&ODD),
            1..=9 => self.random.below(41) as f64 - 20.0,
            10 => f64::from_bits(self.random.bits()),
            _ => (self.random.bits() >> 11) as f64 / 9007199254740992.0 * 60.0 - 20.0,
        }
    }

    fn radius(&mut self) -> f64 {
        if self.random.below(8) == 0 { 0.0 } else { self.coordinate().abs() }
    }

    /// As above, and now and then below 0, about -1e-9 and farther.
    fn vertex_radius(&mut self) -> f64 {
        if self.random.below(16) > 0 {
            return self.radius();
        }
        let about = self.random.near(-1e-9);
        self.random.pick(&[about, -1e-9, -5e-10, -5e-324, -0.0, -1e-8, -1.0, -2e6])
    }

    /// Vertices and bodies interleaved, in any order of records, with unreached ones between.
    pub fn store(&mut self) -> Vec<u8> {
        self.whole = self.random.chance(1, 3);
        let count = match self.random.below(60) {
            0 => 512,
            1 => 300 + self.random.below(213),
            2..=8 => 1 + self.random.below(100),
            _ => 1 + self.random.below(14),
        };
        let mut order: Vec<u32> = (1..count as u32).collect();
        for i in (1..order.len()).rev() {
            order.swap(i, self.random.below(i + 1));
        }
        let unreached = self.random.below(4).min(order.len());
        order.truncate(order.len() - unreached);
        let share = self.random.pick(&[2, 4, 6]);
        let mut records: Vec<Fields> = (0..count).map(|_| self.junk()).collect();
        let mut at = 0;
        records[0].1 = 0;
        for k in order {
            records[at].0 = k;
            records[k as usize] = self.part(share);
            at = k as usize;
        }
        records[at].0 = 0;
        store(&records)
    }

    fn junk(&mut self) -> Fields {
        (
            self.random.bits() as u32 >> self.random.below(32),
            self.random.below(9) as u32,
            std::array::from_fn(|_| f64::from_bits(self.random.bits())),
        )
    }

    fn part(&mut self, share: usize) -> Fields {
        if self.random.below(8) < share {
            return (0, 1, [self.coordinate(), self.vertex_radius(), f64::from_bits(self.random.bits()), f64::NAN]);
        }
        if self.random.below(2) == 0 {
            let radius = if self.random.below(20) == 0 { -1.0 } else { self.radius() };
            return (0, 2, [self.coordinate(), self.coordinate(), self.coordinate(), radius]);
        }
        let (a, b, c, d) = (self.coordinate(), self.coordinate(), self.radius(), self.radius());
        if self.random.below(16) == 0 {
            return (0, 3, [a, b, c, d]);
        }
        (0, 3, [a.min(b), a.max(b), c.min(d), c.max(d)])
    }

    /// One to three changes: a bit, a byte, a field, the length.
    pub fn damaged(&mut self, mut store: Vec<u8>) -> Vec<u8> {
        for _ in 0..1 + self.random.below(3) {
            let records = store.len() / RECORD;
            if records == 0 {
                return store;
            }
            let k = self.random.below(records);
            match self.random.below(7) {
                0 => store[self.random.below(records * RECORD)] ^= 1 << self.random.below(8),
                1 => store[self.random.below(records * RECORD)] = self.random.bits() as u8,
                2 => store[k * RECORD..k * RECORD + 4]
                    .copy_from_slice(&(self.random.below(records + 2) as u32).to_le_bytes()),
                3 => {
                    store[k * RECORD + 4..k * RECORD + 8].copy_from_slice(&(self.random.below(6) as u32).to_le_bytes())
                }
                4 => store.truncate(self.random.below(store.len() + 1)),
                5 => store.extend(std::iter::repeat_n(self.random.bits() as u8, self.random.below(90))),
                _ => {
                    let at = k * RECORD + 8 + 8 * self.random.below(4);
                    store[at..at + 8].copy_from_slice(&self.coordinate().to_le_bytes());
                }
            }
        }
        store
    }
}
