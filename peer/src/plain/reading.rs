//! Meter readings: a binary64 taken at its exact value, and k from readings.

use super::{BAD_READING, K_ABOVE_ONE, WRONG_KIND, ZERO_DIVISOR};

const HOURS: u8 = 1;
const ENERGY: u8 = 2;
const THROUGHOUT: u8 = 3;

/// Limits in thousandths.
const MOST_HOURS: u64 = 8_784_000;
const MOST_KILOWATTS: u64 = 10_000_000;
const MOST_KILOWATT_HOURS: u64 = 10_000_000_000;

/// k as the fraction n over d, never rounded.
#[derive(Clone, Copy, Debug, PartialEq, Eq)]
pub struct Fraction {
    pub n: u64,
    pub d: u64,
}

/// k for a treated line, or the number of the refusal.
pub fn k(rule: u8, kind: u8, readings: [u64; 3]) -> Result<Fraction, u32> {
    let [a, b, c] = readings;
    match kind {
        THROUGHOUT if rule != 0 => Ok(Fraction { n: 1, d: 1 }),
        HOURS if rule == 1 => {
            let run = within(a, MOST_HOURS)?;
            let production = within(b, MOST_HOURS)?;
            k_for_hours(run, production)
        }
        ENERGY if rule == 2 => {
            let energy = within(a, MOST_KILOWATT_HOURS)?;
            let rated = within(b, MOST_KILOWATTS)?;
            let hours = within(c, MOST_HOURS)?;
            k_for_energy(energy * 1000, rated * hours)
        }
        _ => Err(WRONG_KIND),
    }
}

/// A fan that runs longer than the furnace counts for the furnace's hours.
fn k_for_hours(run: u64, production: u64) -> Result<Fraction, u32> {
    match production {
        0 => Err(ZERO_DIVISOR),
        _ => Ok(Fraction { n: run.min(production), d: production }),
    }
}

/// More than the rating allows means a wrong rating plate.
fn k_for_energy(used: u64, allowed: u64) -> Result<Fraction, u32> {
    match allowed {
        0 => Err(ZERO_DIVISOR),
        _ if used > allowed => Err(K_ABOVE_ONE),
        _ => Ok(Fraction { n: used, d: allowed }),
    }
}

/// The limits of the readings that are used, a first; direct discharge uses none.
pub fn limits(technique: u16, kind: u8) -> &'static [u64] {
    match kind {
        _ if technique == 0 => &[],
        HOURS => &[MOST_HOURS, MOST_HOURS],
        ENERGY => &[MOST_KILOWATT_HOURS, MOST_KILOWATTS, MOST_HOURS],
        _ => &[],
    }
}

pub fn within(bits: u64, limit: u64) -> Result<u64, u32> {
    thousandths(bits).filter(|&t| t <= limit).ok_or(BAD_READING)
}

/// The largest whole number not above 1000x + 1/2. None for a bad reading and
/// for 2^53 and above, which is over every limit.
pub fn thousandths(bits: u64) -> Option<u64> {
    const NEGATIVE_ZERO: u64 = 1 << 63;
    if bits == NEGATIVE_ZERO {
        return Some(0);
    }
    // With the sign bit set, the twelve top bits are above every exponent.
    let exponent = bits >> 52;
    let fraction = bits & ((1 << 52) - 1);
    match exponent {
        1076.. => None,
        // Below 2^-11, which is less than half a thousandth.
        0..=1011 => Some(0),
        // x = mantissa / 2^down, so the answer is (1000 mantissa + 2^down / 2) / 2^down.
        // 1000 mantissa is below 2^63, and so is 2^down / 2.
        _ => {
            let mantissa = fraction | 1 << 52;
            let down = 1075 - exponent;
            let half = (1u64 << down) >> 1;
            Some((1000 * mantissa + half) >> down)
        }
    }
}
