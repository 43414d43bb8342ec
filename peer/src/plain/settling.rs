//! A table being settled, one step a call, for a screen that draws it.

use super::sheet::{shown_unit, MOST_LINES};
use super::{shown, Refusal, COLUMNS, RESULT_TOO_SHORT, TABLE_OFF};

const MOST_ROWS: usize = MOST_LINES + 1;
const MOST_CELL: u64 = 16_000_000_000_000_000_000;

/// Puts the table after one step at the front of the lent cells, and says whether
/// the step has changed anything. On refusal all lent cells are zero.
pub fn step(unit_code: u64, table: &[u64], next: &mut [u64]) -> Result<bool, Refusal> {
    let answer = step_into(unit_code, table, next);
    if answer.is_err() {
        next.fill(0);
    }
    answer
}

fn step_into(unit_code: u64, table: &[u64], next: &mut [u64]) -> Result<bool, Refusal> {
    let unit = taken(unit_code, table)?;
    let room = Refusal::whole_file(RESULT_TOO_SHORT);
    let next = next.get_mut(..table.len()).ok_or(room)?;
    next.copy_from_slice(table);
    Ok(shown::step(table, unit, next))
}

/// How often a step changes something, from this table on: as many rounds as are
/// shifted for its shown table.
pub fn steps(unit_code: u64, table: &[u64]) -> Result<usize, Refusal> {
    let unit = taken(unit_code, table)?;
    let mut shown = [0; COLUMNS * MOST_ROWS];
    Ok(shown::fill(table, unit, &mut shown))
}

/// The unit in which a table can be settled that has the form of an exact one.
fn taken(unit_code: u64, table: &[u64]) -> Result<u64, Refusal> {
    let unit = u32::try_from(unit_code).ok().and_then(shown_unit);
    unit.filter(|_| is_right(table)).ok_or(Refusal::whole_file(TABLE_OFF))
}

fn is_right(table: &[u64]) -> bool {
    let (rows, rest) = table.as_chunks::<COLUMNS>();
    let Some((sums, lines)) = rows.split_last() else {
        return false;
    };
    rest.is_empty()
        && rows.len() <= MOST_ROWS
        && table.iter().all(|&cell| cell <= MOST_CELL)
        && rows.iter().all(|[generated, parts @ ..]| sum(parts) == u128::from(*generated))
        && columns(lines) == sums.map(u128::from)
}

fn sum(cells: &[u64]) -> u128 {
    cells.iter().map(|&cell| u128::from(cell)).sum()
}

fn columns(lines: &[[u64; COLUMNS]]) -> [u128; COLUMNS] {
    let mut sums = [0; COLUMNS];
    for line in lines {
        for (sum, &cell) in sums.iter_mut().zip(line) {
            *sum += u128::from(cell);
        }
    }
    sums
}
