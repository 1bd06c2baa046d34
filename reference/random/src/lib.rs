//! Random numbers from a seed (splitmix64), so that every run can be repeated.

pub struct Random(u64);

impl Random {
    /// A stream of its own for each seed and part.
    pub fn new(seed: u64, part: u64) -> Random {
        let mut random = Random(seed ^ part.wrapping_mul(0xd134_2543_de82_ef95));
        random.bits();
        random
    }

    pub fn bits(&mut self) -> u64 {
        self.0 = self.0.wrapping_add(0x9e37_79b9_7f4a_7c15);
        let mut x = self.0;
        x = (x ^ (x >> 30)).wrapping_mul(0xbf58_476d_1ce4_e5b9);
        x = (x ^ (x >> 27)).wrapping_mul(0x94d0_49bb_1331_11eb);
        x ^ (x >> 31)
    }

    pub fn below(&mut self, n: usize) -> usize {
        (self.bits() % n as u64) as usize
    }

    /// A whole number from low to high, both included.
    pub fn whole(&mut self, low: i64, high: i64) -> i64 {
        low + (self.bits() % (high - low + 1) as u64) as i64
    }

    /// True in `some` of `all` cases.
    pub fn chance(&mut self, some: usize, all: usize) -> bool {
        self.below(all) < some
    }

    /// From low up to high.
    pub fn between(&mut self, low: f64, high: f64) -> f64 {
        low + (high - low) * ((self.bits() >> 11) as f64 / 9007199254740992.0)
    }

    pub fn pick<T: Copy>(&mut self, from: &[T]) -> T {
        from[self.below(from.len())]
    }

    /// x or -x.
    pub fn sign(&mut self, x: f64) -> f64 {
        if self.chance(1, 2) { -x } else { x }
    }

    /// At most four neighbours up or down from x.
    pub fn near(&mut self, x: f64) -> f64 {
        step(x, self.whole(-4, 4))
    }

    /// A size between 10^low and 10^high.
    pub fn size(&mut self, low: i64, high: i64) -> f64 {
        let digits = self.pick(&[1.0, 2.0, 3.5, 5.0, 9.999]);
        digits * 10f64.powi(self.whole(low, high) as i32)
    }
}

/// The f64 `steps` neighbours above x (below, if negative).
pub fn step(x: f64, steps: i64) -> f64 {
    (0..steps.abs()).fold(x, |x, _| if steps > 0 { x.next_up() } else { x.next_down() })
}

/// Whether x lies within four neighbours of the threshold.
pub fn within_four(x: f64, threshold: f64) -> bool {
    step(threshold, -4) <= x && x <= step(threshold, 4)
}
