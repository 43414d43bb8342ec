//! A table being settled: from the exact one, step by step, to the shown one.
//!
//! A table is as [`account`](crate::account) leaves it: row after row, five cells
//! each, and a last row of sums. A cell is whole where it is a whole number of
//! units. A step moves the cells of one closed round, all by the same amount, so
//! that at least one more of them is whole. It breaks no whole cell, carries none
//! past a whole unit and keeps all sums. Where all cells are whole the table stays,
//! and divided by the unit it is the shown table.

use crate::{desk, written, Refused, Unit};
use std::iter::FusedIterator;

/// Writes the table after one settling step at the start of the lent cells, and says
/// whether the step has changed anything: a table that is whole stays as it is.
///
/// The cells past the table keep their values. The refusals, in their order: 22
/// for a table that isn't of 1 to 129 rows, has a cell above 16 × 10^18 or a sum
/// that is off; then 3 for one that has no room. All lent cells are zero then. A
/// table of one row has the sums of no lines, which are 0.
///
/// ```
/// use checkraven::{step, Unit};
///
/// // One line of 1.4 g, of which 0.6 g were removed, and the row of sums.
/// let table = [140_000, 60_000, 0, 80_000, 0, 140_000, 60_000, 0, 80_000, 0];
/// let mut next = [0; 10];
/// assert!(step(Unit::Gram, &table, &mut next)?);
/// let whole = |cells: &[u64]| cells.iter().filter(|&cell| cell % 100_000 == 0).count();
/// assert!(whole(&next) > whole(&table));
/// # Ok::<(), checkraven::Refused>(())
/// ```
pub fn step(unit: Unit, table: &[u64], next: &mut [u64]) -> Result<bool, Refused> {
    written(desk::step(unit, table, next)).map(|changes| changes != 0)
}

/// How often a step changes something, from this table on: at most once for each of
/// its cells. A table that [`step`] refuses with 22 is refused here too.
pub fn steps(unit: Unit, table: &[u64]) -> Result<usize, Refused> {
    written(desk::steps(unit, table))
}

/// The tables after each step that changes something, from this table on, or the
/// refusal of [`steps`].
///
/// ```
/// use checkraven::{declare, settling, NO_OWN};
///
/// let book = std::fs::read("../examples/document-003/book.bin")?;
/// let fugitive = std::fs::read("../examples/document-003/fugitive.bin")?;
/// let sheet = std::fs::read("../examples/document-003/sheet.bin")?;
/// let tables = declare(&NO_OWN, &book, &fugitive, &sheet)?;
///
/// let mut settling = settling(tables.unit(), tables.exact_cells())?;
/// println!("{} steps", settling.len());
/// for table in &mut settling {
///     println!("{table:?}");
/// }
/// let whole = settling.table().iter().map(|cell| cell / tables.unit().exact());
/// assert!(whole.eq(tables.shown_cells().iter().copied()));
/// # Ok::<(), Box<dyn std::error::Error>>(())
/// ```
pub fn settling(unit: Unit, table: &[u64]) -> Result<Settling, Refused> {
    let left = steps(unit, table)?;
    Ok(Settling { unit, table: table.to_vec(), left })
}

/// A table being settled. Gives the table after each step, and ends where all its
/// cells are whole.
#[derive(Clone, Debug)]
#[must_use = "no step is taken before the next table is asked for"]
pub struct Settling {
    unit: Unit,
    table: Vec<u64>,
    left: usize,
}

impl Settling {
    /// The table as it is now: before the first step the one that was lent, at the
    /// end the whole one.
    pub fn table(&self) -> &[u64] {
        &self.table
    }
}

impl Iterator for Settling {
    type Item = Vec<u64>;

    fn next(&mut self) -> Option<Vec<u64>> {
        self.left = self.left.checked_sub(1)?;
        let mut next = vec![0; self.table.len()];
        step(self.unit, &self.table, &mut next).expect("a table after a step has its form");
        self.table.copy_from_slice(&next);
        Some(next)
    }

    fn size_hint(&self) -> (usize, Option<usize>) {
        (self.left, Some(self.left))
    }
}

impl ExactSizeIterator for Settling {}

impl FusedIterator for Settling {}
