//! How the cells of a table stand: row after row, the last one of sums.

use std::iter::StepBy;
use std::ops::Range;

/// G, R, U, D, F.
pub const COLUMNS: usize = 5;

/// A gram, a kilogram and a tonne, in units of 10 micrograms; their codes count from 1.
pub const UNITS: [u64; 3] = [100_000, 100_000_000, 100_000_000_000];

/// The cells of a cell's row.
pub fn row_of(cell: usize) -> Range<usize> {
    let first = cell / COLUMNS * COLUMNS;
    first..first + COLUMNS
}

/// The cells of a cell's column in a table of so many cells.
pub fn column_of(cell: usize, cells: usize) -> StepBy<Range<usize>> {
    (cell % COLUMNS..cells).step_by(COLUMNS)
}

/// Row and column of a cell, counted from 1.
pub fn place_of(cell: usize) -> (usize, usize) {
    (cell / COLUMNS + 1, cell % COLUMNS + 1)
}
