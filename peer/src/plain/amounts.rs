//! The five amounts of a line, in units of 10 micrograms.

use super::reading::Fraction;
use super::COLUMNS;

#[derive(Clone, Copy, Debug, Default, PartialEq, Eq)]
pub struct Amounts {
    pub generated: u64,
    pub removed: u64,
    pub reused: u64,
    pub discharged: u64,
    pub fugitive: u64,
}

/// G × efficiency × n / (1000 d), rounded down: at most 10^17 × 10^3 × 10^13
/// before the division, which u128 holds.
pub fn removed(generated: u64, efficiency: u16, k: Fraction) -> u64 {
    let product = generated as u128 * efficiency as u128 * k.n as u128;
    (product / (1000 * k.d as u128)) as u64
}

impl Amounts {
    /// Reuse in tenths of a percent where the medium is water. What is left is
    /// split into thousands and the rest, so that nothing wraps in u64; rounding
    /// reuse down is rounding the discharge up.
    pub fn new(generated: u64, removed: u64, reuse: Option<u16>) -> Self {
        let left = generated - removed;
        let reuse = reuse.unwrap_or(0) as u64;
        let reused = left / 1000 * reuse + left % 1000 * reuse / 1000;
        Amounts { generated, removed, reused, discharged: left - reused, fugitive: 0 }
    }

    /// The same with dust that never meets a duct: it is generated, and no other
    /// amount is worked from it.
    pub fn with_fugitive(self, fugitive: u64) -> Self {
        Amounts { generated: self.generated + fugitive, fugitive, ..self }
    }

    /// Sums of 128 lines stay below 128 × (10^17 + 3 × 65,535 × 100 × 10^9), which
    /// u64 holds.
    pub fn add(&mut self, line: &Amounts) {
        self.generated += line.generated;
        self.removed += line.removed;
        self.reused += line.reused;
        self.discharged += line.discharged;
        self.fugitive += line.fugitive;
    }

    pub fn cells(&self) -> [u64; COLUMNS] {
        [self.generated, self.removed, self.reused, self.discharged, self.fugitive]
    }
}
