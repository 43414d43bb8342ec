//! Tables to be settled: seeded ones that are right, and damages.

use super::random::Random;
use crate::compare::StepCase;
use crate::table::{COLUMNS, UNITS};

/// No cell may be above it.
pub const MOST_CELL: u64 = 16_000_000_000_000_000_000;

/// R, U, D and F.
pub type Parts = [u64; COLUMNS - 1];

/// The right table of these lines. Cells past 64 bits come round.
pub fn table_of(lines: &[Parts]) -> Vec<u64> {
    let mut sums = [0u64; COLUMNS];
    let mut table = Vec::with_capacity(COLUMNS * (lines.len() + 1));
    for parts in lines {
        let generated = parts.iter().copied().fold(0, u64::wrapping_add);
        let row = [generated, parts[0], parts[1], parts[2], parts[3]];
        sums = [0, 1, 2, 3, 4].map(|at| sums[at].wrapping_add(row[at]));
        table.extend(row);
    }
    table.extend(sums);
    table
}

/// A table of so many lines in a unit of W that is taken: nearly all loose, with few
/// loose cells or with none, with rows and columns that are whole or nothing.
pub fn table(random: &mut Random, unit: u64, lines: usize) -> Vec<u64> {
    table_of(&lines_of_parts(random, unit, lines))
}

/// The same with a line more, so that the sum of all is the limit or just below it.
pub fn table_at_the_limit(random: &mut Random, unit: u64, lines: usize) -> Vec<u64> {
    let mut parts = lines_of_parts(random, unit, lines);
    let sum: u64 = parts.iter().flatten().sum();
    let most = MOST_CELL - random.pick(&[0, 0, 1, 2, unit - 1, unit, unit + 1]);
    let mut last = [0; COLUMNS - 1];
    last[random.index(COLUMNS - 1)] = most - sum.min(most);
    parts.push(last);
    table_of(&parts)
}

fn lines_of_parts(random: &mut Random, unit: u64, lines: usize) -> Vec<Parts> {
    // All cells together stay a little below the limit.
    let most = (MOST_CELL - 2 * unit) / (COLUMNS * lines.max(1)) as u64;
    let most = random.pick(&[most, most, 3 * unit]);
    let loose = random.pick(&[100, 100, 60, 10, 2, 0]);
    let columns = [0; COLUMNS - 1].map(|_| manner(random, loose));
    let line = |_| {
        let line = manner(random, loose);
        columns.map(|column| part(random, unit, most, column.min(line)))
    };
    (0..lines).map(line).collect()
}

/// How many percent of a row or a column may be loose; below 0 all is nothing.
fn manner(random: &mut Random, loose: i64) -> i64 {
    match random.below(12) {
        0 => 0,
        1 => -1,
        _ => loose,
    }
}

fn part(random: &mut Random, unit: u64, most: u64, loose: i64) -> u64 {
    let units = random.up_to(most / unit);
    match loose {
        ..0 => 0,
        0..100 if !random.chance(loose as u64) => unit * units,
        _ => match random.below(6) {
            0 => (unit * units).saturating_sub(1),
            1 => unit * units + 1,
            2 => random.below(unit),
            3 => unit / 2 * random.below(4),
            _ => random.below(most + 1),
        },
    }
}

/// A table of any size, some of them damaged, and with too little room now and then.
pub fn step_case(random: &mut Random, most_lines: usize) -> StepCase {
    let code = 1 + random.below(3);
    let unit = UNITS[code as usize - 1];
    let lines = random.index(most_lines + 1);
    let table = match random.chance(10) && lines > 0 {
        true => table_at_the_limit(random, unit, lines - 1),
        false => table(random, unit, lines),
    };
    let mut case = StepCase::with_room(code, table);
    if random.chance(30) {
        damage(random, &mut case);
    }
    case.room = match random.below(8) {
        0 => random.index(case.table.len() + 1),
        1 => case.table.len(),
        _ => case.table.len() + random.index(20),
    };
    case
}

/// Most damages make the table one that is refused.
pub fn damage(random: &mut Random, case: &mut StepCase) {
    let cells = case.table.len();
    let at = random.index(cells);
    let other = random.index(cells);
    match random.below(9) {
        0 => case.table[at] = case.table[at].wrapping_add(1),
        1 => case.table[at] = case.table[at].wrapping_sub(1),
        2 => case.table[at] ^= 1 << random.below(64),
        3 => case.table[at] = random.bits(),
        4 => case.table.swap(at, other),
        5 => case.table.truncate(at),
        6 => case.table.extend(random.bytes(1 + at % 7).into_iter().map(u64::from)),
        7 => case.unit = random.pick(&BAD_UNITS),
        _ => shift_a_round(random, &mut case.table),
    }
}

/// Moves two cells of two rows so that all sums stay, modulo 2^64.
fn shift_a_round(random: &mut Random, table: &mut [u64]) {
    let by = random.up_to(u64::MAX);
    let rows = table.len() / COLUMNS;
    let [one, other] = [0; 2].map(|_| COLUMNS * random.index(rows));
    let [left, right] = [0; 2].map(|_| 1 + random.index(COLUMNS - 1));
    for (row, column, by) in [
        (one, left, by),
        (one, right, by.wrapping_neg()),
        (other, left, by.wrapping_neg()),
        (other, right, by),
    ] {
        table[row + column] = table[row + column].wrapping_add(by);
    }
}

/// Codes that no unit has; of some the low bits are a code.
pub const BAD_UNITS: [u64; 14] = [
    0,
    4,
    5,
    255,
    256,
    257,
    65_537,
    100_000,
    (1 << 32) + 1,
    (1 << 32) + 3,
    (1 << 33) + 2,
    (1 << 63) + 1,
    u64::MAX - 1,
    u64::MAX,
];
