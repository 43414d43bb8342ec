//! Demand 3: whether a shown table is allowed beside an exact one.

use crate::table::COLUMNS;

/// Why a shown table isn't allowed. Rows and columns count from 1.
#[derive(Clone, Copy, Debug, PartialEq, Eq)]
pub enum Fault {
    NotTheSameShape,
    /// A whole cell isn't shown as it is, or a loose one is shown as neither
    /// of the two whole numbers around it.
    Cell {
        row: usize,
        column: usize,
    },
    /// G isn't R + U + D + F.
    Row {
        row: usize,
    },
    /// The last row isn't the sum of the rows above.
    Column {
        column: usize,
    },
}

/// Checks a shown table in units of `unit` against the exact table.
pub fn check(exact: &[u64], shown: &[u64], unit: u64) -> Result<(), Fault> {
    if exact.len() != shown.len() || !exact.len().is_multiple_of(COLUMNS) || exact.is_empty() {
        return Err(Fault::NotTheSameShape);
    }
    check_cells(exact, shown, unit)?;
    check_sums(shown)
}

/// Whether the rows and the columns of a table add up.
pub fn check_sums(table: &[u64]) -> Result<(), Fault> {
    check_rows(table)?;
    check_columns(table)
}

fn check_cells(exact: &[u64], shown: &[u64], unit: u64) -> Result<(), Fault> {
    let is_allowed =
        |(&exact, &shown): (&u64, &u64)| shown == exact / unit || shown == exact.div_ceil(unit);
    match exact.iter().zip(shown).position(|cell| !is_allowed(cell)) {
        Some(at) => Err(Fault::Cell { row: at / COLUMNS + 1, column: at % COLUMNS + 1 }),
        None => Ok(()),
    }
}

fn check_rows(table: &[u64]) -> Result<(), Fault> {
    for (index, row) in table.chunks_exact(COLUMNS).enumerate() {
        if row[0] as u128 != row[1..].iter().map(|&cell| cell as u128).sum() {
            return Err(Fault::Row { row: index + 1 });
        }
    }
    Ok(())
}

fn check_columns(table: &[u64]) -> Result<(), Fault> {
    let (rows, last) = table.split_at(table.len() - COLUMNS);
    for (column, &total) in last.iter().enumerate() {
        let cells = rows.iter().skip(column).step_by(COLUMNS);
        let sum: u128 = cells.map(|&cell| cell as u128).sum();
        if sum != total as u128 {
            return Err(Fault::Column { column: column + 1 });
        }
    }
    Ok(())
}

#[cfg(test)]
mod tests {
    use super::*;

    /// Two lines of 150,000 units in grams.
    const EXACT: [u64; 15] =
        [150_000, 0, 0, 150_000, 0, 150_000, 0, 0, 150_000, 0, 300_000, 0, 0, 300_000, 0];

    fn check_shown(shown: [u64; 15]) -> Result<(), Fault> {
        check(&EXACT, &shown, 100_000)
    }

    #[test]
    fn either_order_of_one_and_two_is_allowed() {
        assert_eq!(check_shown([1, 0, 0, 1, 0, 2, 0, 0, 2, 0, 3, 0, 0, 3, 0]), Ok(()));
        assert_eq!(check_shown([2, 0, 0, 2, 0, 1, 0, 0, 1, 0, 3, 0, 0, 3, 0]), Ok(()));
    }

    #[test]
    fn each_cell_rounded_to_nearest_is_not_allowed() {
        let nearest = [2, 0, 0, 2, 0, 2, 0, 0, 2, 0, 3, 0, 0, 3, 0];
        assert_eq!(check_shown(nearest), Err(Fault::Column { column: 1 }));
    }

    #[test]
    fn a_whole_cell_stays_whole_and_a_loose_one_stays_near() {
        let whole_moved = [1, 0, 0, 1, 0, 2, 0, 0, 2, 0, 4, 0, 0, 4, 0];
        assert_eq!(check_shown(whole_moved), Err(Fault::Cell { row: 3, column: 1 }));
        assert_eq!(check_shown([0; 15]), Err(Fault::Cell { row: 1, column: 1 }));
        let too_high = [1, 0, 0, 3, 0, 2, 0, 0, 2, 0, 3, 0, 0, 3, 0];
        assert_eq!(check_shown(too_high), Err(Fault::Cell { row: 1, column: 4 }));
    }

    #[test]
    fn rows_must_add_up() {
        let off = [1, 0, 0, 2, 0, 2, 0, 0, 1, 0, 3, 0, 0, 3, 0];
        assert_eq!(check_shown(off), Err(Fault::Row { row: 1 }));
    }

    /// One line of 150,000 units discharged and 50,000 of dust.
    #[test]
    fn dust_counts_in_its_row() {
        let exact = [200_000, 0, 0, 150_000, 50_000, 200_000, 0, 0, 150_000, 50_000];
        let check_row = |row: [u64; 5]| check(&exact, &[row, row].concat(), 100_000);
        assert_eq!(check_row([2, 0, 0, 2, 0]), Ok(()));
        assert_eq!(check_row([2, 0, 0, 1, 1]), Ok(()));
        assert_eq!(check_row([2, 0, 0, 2, 1]), Err(Fault::Row { row: 1 }));
        assert_eq!(check_row([2, 0, 0, 1, 2]), Err(Fault::Cell { row: 1, column: 5 }));
    }

    #[test]
    fn tables_of_other_shapes_are_not_allowed() {
        assert_eq!(check(&EXACT, &[0; 10], 100_000), Err(Fault::NotTheSameShape));
        assert_eq!(check(&[], &[], 100_000), Err(Fault::NotTheSameShape));
    }
}
