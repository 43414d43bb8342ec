//! Which round a settling step takes, and which way: by the words of docs/SETTLING.md,
//! which neither desk follows in this way.

use crate::table::{column_of, row_of, COLUMNS};

const GENERATED: usize = 0;
const DISCHARGED: usize = 3;

/// The table after a step, or nothing where all its cells are whole.
pub fn after_step(table: &[u64], unit: u64) -> Option<Vec<u64>> {
    let table = Table { cells: table, unit };
    let start = (0..table.cells.len()).find(|&cell| table.is_loose(cell))?;
    let round = table.round_from(start);
    // In their sums the cells by which rows are entered go one way, and those by which
    // rows are left the other way. The marked total has a minus sign.
    let entered_go_up = match round.iter().position(|&cell| table.is_marked(cell)) {
        Some(turn) => !turn.is_multiple_of(2),
        None => true,
    };
    let goes_up =
        |turn: usize| turn.is_multiple_of(2) ^ !entered_go_up ^ table.has_minus(round[turn]);
    let room = |turn: usize| match goes_up(turn) {
        true => unit - table.cells[round[turn]] % unit,
        false => table.cells[round[turn]] % unit,
    };
    let amount = (0..round.len()).map(room).min()?;
    let mut after = table.cells.to_vec();
    for (turn, &cell) in round.iter().enumerate() {
        match goes_up(turn) {
            true => after[cell] += amount,
            false => after[cell] -= amount,
        }
    }
    Some(after)
}

struct Table<'a> {
    cells: &'a [u64],
    unit: u64,
}

impl Table<'_> {
    fn is_loose(&self, cell: usize) -> bool {
        !self.cells[cell].is_multiple_of(self.unit)
    }

    fn is_in_last_row(&self, cell: usize) -> bool {
        cell + COLUMNS >= self.cells.len()
    }

    /// The discharge total.
    fn is_marked(&self, cell: usize) -> bool {
        self.is_in_last_row(cell) && cell % COLUMNS == DISCHARGED
    }

    /// G above the last row, and the other columns of the last row.
    fn has_minus(&self, cell: usize) -> bool {
        self.is_in_last_row(cell) != (cell % COLUMNS == GENERATED)
    }

    /// The cells of the round: from row to row the one by which it was entered and the
    /// one by which it was left.
    fn round_from(&self, start: usize) -> Vec<usize> {
        let mut walk = Vec::new();
        let mut entered = start;
        loop {
            // By which rows were entered, newest first.
            let mut columns = walk.iter().enumerate().step_by(2).rev();
            let in_this_row = |cell: usize| row_of(entered).start + cell % COLUMNS;
            let closing = columns.find(|(_, &cell)| self.is_loose(in_this_row(cell)));
            if let Some((from, &cell)) = closing {
                let last = [entered, in_this_row(cell)];
                return walk[from..].iter().copied().chain(last).collect();
            }
            let left = self.first_other_loose(row_of(entered), entered);
            walk.extend([entered, left]);
            entered = self.first_other_loose(column_of(left, self.cells.len()), left);
        }
    }

    fn first_other_loose(&self, line: impl IntoIterator<Item = usize>, than: usize) -> usize {
        let is_other = |&cell: &usize| cell != than && self.is_loose(cell);
        line.into_iter().find(is_other).expect("no row and no column has one loose cell alone")
    }
}
