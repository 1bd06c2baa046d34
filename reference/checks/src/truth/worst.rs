//! The worst share of each bound, with its input.

use std::fmt;

#[derive(Clone, Debug)]
pub struct Worst {
    names: Vec<String>,
    count: Vec<u64>,
    shares: Vec<f64>,
    inputs: Vec<String>,
}

impl Worst {
    pub fn new(names: Vec<String>) -> Worst {
        let n = names.len();
        Worst { names, count: vec![0; n], shares: vec![0.0; n], inputs: vec![String::new(); n] }
    }

    pub fn share(&self, bound: usize) -> f64 {
        self.shares[bound]
    }

    pub fn note(&mut self, bound: usize, share: f64, input: impl FnOnce() -> String) {
        self.count[bound] += 1;
        if share > self.shares[bound] {
            self.shares[bound] = share;
            self.inputs[bound] = input();
        }
    }

    pub fn name(&self, bound: usize) -> &str {
        &self.names[bound]
    }
}

impl fmt::Display for Worst {
    fn fmt(&self, f: &mut fmt::Formatter) -> fmt::Result {
        for (i, name) in self.names.iter().enumerate() {
            writeln!(f, "    {:>9}  {:.6}  {name}", self.count[i], self.shares[i])?;
        }
        for (i, name) in self.names.iter().enumerate().filter(|&(i, _)| self.shares[i] > 0.0) {
            writeln!(f, "  {name}:\n    {}", self.inputs[i])?;
        }
        Ok(())
    }
}
