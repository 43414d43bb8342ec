//! Readings at the edges: bits of binary64 numbers where an answer may turn.

/// Limits of hours, kW and kWh.
const LIMITS: [f64; 3] = [8784.0, 10_000.0, 10_000_000.0];

/// Bad readings of every sort.
pub fn bad_readings() -> Vec<u64> {
    let quiet_with_sign = f64::NAN.to_bits() | 1 << 63;
    let signalling = 0x7FF0_0000_0000_0001;
    let all_ones = u64::MAX;
    let mut bits = vec![f64::NAN.to_bits(), quiet_with_sign, signalling, all_ones];
    bits.extend([0x7FFF_FFFF_FFFF_FFFF, 0xFFF0_0000_0000_0001]);
    let numbers = [f64::INFINITY, f64::NEG_INFINITY, -f64::MIN_POSITIVE, -1.0, -0.0004, f64::MIN];
    bits.extend(numbers.map(f64::to_bits));
    bits.push((-0.0f64).to_bits() + 1);
    bits
}

/// Each limit, half a thousandth above it, a thousandth above it, and the next
/// numbers on both sides of these.
pub fn readings_at_limits() -> Vec<u64> {
    let near = |limit: f64| [limit, limit + 0.0005, limit + 0.001, limit - 0.001];
    LIMITS.into_iter().flat_map(near).flat_map(with_neighbours).collect()
}

/// Halves of thousandths, where rounding turns, and their neighbours.
pub fn readings_at_halves() -> Vec<u64> {
    let thousandths = [0, 1, 2, 62, 63, 999, 1000, 7999, 8000, 123_456, 8_783_999];
    let half = |t: u64| (t as f64 + 0.5) / 1000.0;
    let mut bits: Vec<u64> = thousandths.into_iter().map(half).flat_map(with_neighbours).collect();
    // These are halves of thousandths exactly, so the tie itself is read.
    bits.extend([0.0625, 0.1875, 0.3125, 0.5625, 4096.0625].into_iter().flat_map(with_neighbours));
    bits
}

/// Zeros, the smallest numbers, powers of two and numbers far over the limits.
pub fn odd_readings() -> Vec<u64> {
    let numbers = [0.0, -0.0, 0.1, 1.0, 1.001, 0.999, 7.999999999, 8000.0, 8000.001, 3600.0];
    let mut bits: Vec<u64> = numbers.map(f64::to_bits).to_vec();
    let smallest_and_largest_subnormal = [1, 0x000F_FFFF_FFFF_FFFF];
    bits.extend(smallest_and_largest_subnormal);
    bits.extend([f64::MIN_POSITIVE, f64::EPSILON, f64::MAX].map(f64::to_bits));
    bits.extend((-14..70).step_by(3).map(|power| 2f64.powi(power).to_bits()));
    bits
}

/// All of the above.
pub fn readings() -> Vec<u64> {
    let mut bits = bad_readings();
    bits.extend(readings_at_limits());
    bits.extend(readings_at_halves());
    bits.extend(odd_readings());
    bits
}

/// A positive number between the next one below and the next one above.
fn with_neighbours(number: f64) -> [u64; 3] {
    let bits = number.to_bits();
    [bits - 1, bits, bits + 1]
}

/// Numbers of every width where a field's answer may turn.
pub const NUMBERS: [u64; 30] = [
    0,
    1,
    2,
    3,
    4,
    5,
    6,
    15,
    16,
    17,
    40,
    64,
    127,
    128,
    129,
    255,
    1000,
    1001,
    1024,
    1025,
    4096,
    4097,
    65_535,
    65_536,
    65_537,
    100_000_000,
    1_000_000_000,
    1_000_000_001,
    u32::MAX as u64,
    u64::MAX,
];
