//! The shown table, and the single steps that make it. Turn the signs of the columns
//! R, U, D and F, then those of the last row: now every row and every column of the
//! exact table sums to 0, so none can hold exactly one loose (not whole) cell. Loose
//! cells therefore form closed rounds. Shifting a round by turns up and down
//! keeps all sums, and the largest shift that carries no cell past a whole
//! unit makes at least one cell whole.
//!
//! Rows are taken one after another. Among the rows still open there is never
//! a round, so with five columns at most four of them stay open, and a new one
//! finds a free place among five.
//!
//! Which round is shifted depends on the open rows and not on their places. So one
//! step after the other, each from the first row on, makes the same table.

use super::{COLUMNS, GRAM, KILOGRAM, TONNE};

const PLACES: usize = 5;
const GENERATED: usize = 0;

/// A set of cells of the open rows: bit 8 place + column, since a power of two
/// divides by a shift.
type Cells = u64;

const STEP: usize = 8;
const BITS: usize = Cells::BITS as usize;

/// The cells of place 0, and those of column 0.
const FIRST_ROW: Cells = 0b11111;
const FIRST_COLUMN: Cells = 0x01_01_01_01_01;

/// The open rows. A part is what a cell has above the whole unit below: 0 or
/// `UNIT` for a whole cell, between them for a loose one.
struct Open<const UNIT: u64> {
    loose: Cells,
    parts: [u64; BITS],
    row_at: [usize; STEP],
    /// The place of the row that was taken last.
    newest: usize,
    last_row: usize,
}

/// The cells of a round: neighbours share a row or a column by turns, and so do the
/// last cell and the first.
struct Round {
    cells: [u8; 2 * PLACES],
    length: usize,
}

impl Round {
    fn push(&mut self, cell: usize) {
        self.cells[self.length] = cell as u8;
        self.length += 1;
    }

    /// Each with its turn.
    fn cells(&self) -> impl Iterator<Item = (usize, usize)> + '_ {
        self.cells[..self.length].iter().map(|&cell| cell as usize).enumerate()
    }
}

/// Fills the shown table and says how many rounds were shifted. Each unit has a copy
/// of its own, which divides by a number that is known.
pub fn fill(exact: &[u64], unit: u64, shown: &mut [u64]) -> usize {
    match unit {
        GRAM => fill_in::<GRAM>(exact, shown),
        KILOGRAM => fill_in::<KILOGRAM>(exact, shown),
        _ => fill_in::<TONNE>(exact, shown),
    }
}

fn fill_in<const UNIT: u64>(exact: &[u64], shown: &mut [u64]) -> usize {
    let rows = exact.as_chunks::<COLUMNS>().0;
    let shown = shown.as_chunks_mut::<COLUMNS>().0;
    let mut open = Open::<UNIT>::of_a_table(rows.len());
    let mut shifted = 0;
    for (row, cells) in rows.iter().enumerate() {
        shown[row] = cells.map(|cell| cell / UNIT);
        let parts = cells.map(|cell| cell % UNIT);
        if parts != [0; COLUMNS] {
            open.take(row, parts);
            shifted += open.settle(shown);
        }
    }
    shifted
}

/// Shifts the first round of a table that `next` holds too, and says whether there
/// is one.
pub fn step(table: &[u64], unit: u64, next: &mut [u64]) -> bool {
    match unit {
        GRAM => step_in::<GRAM>(table, next),
        KILOGRAM => step_in::<KILOGRAM>(table, next),
        _ => step_in::<TONNE>(table, next),
    }
}

fn step_in<const UNIT: u64>(table: &[u64], next: &mut [u64]) -> bool {
    let rows = table.as_chunks::<COLUMNS>().0;
    let mut open = Open::<UNIT>::of_a_table(rows.len());
    for (row, cells) in rows.iter().enumerate() {
        let parts = cells.map(|cell| cell % UNIT);
        if parts == [0; COLUMNS] {
            continue;
        }
        open.take(row, parts);
        let cells = without_dead_ends(open.loose);
        if cells != 0 {
            open.shift_in(next.as_chunks_mut::<COLUMNS>().0, &open.find_round(cells));
            return true;
        }
    }
    false
}

impl<const UNIT: u64> Open<UNIT> {
    fn of_a_table(rows: usize) -> Self {
        let last_row = rows.saturating_sub(1);
        Open { loose: 0, parts: [0; BITS], row_at: [0; STEP], newest: 0, last_row }
    }

    fn take(&mut self, row: usize, parts: [u64; COLUMNS]) {
        let is_free = |place: &usize| self.loose & FIRST_ROW << (STEP * place) == 0;
        let place = (0..PLACES).find(is_free).expect("at most four rows stay open");
        self.row_at[place] = row;
        self.newest = place;
        for (column, part) in parts.into_iter().enumerate() {
            let cell = STEP * place + column;
            self.parts[cell] = part;
            self.loose |= ((part != 0) as Cells) << cell;
        }
    }

    /// Shifts rounds until none is left, and writes rows that have become whole.
    /// Says how many were shifted.
    fn settle(&mut self, shown: &mut [[u64; COLUMNS]]) -> usize {
        let mut shifted = 0;
        loop {
            let cells = without_dead_ends(self.loose);
            if cells == 0 {
                return shifted;
            }
            self.shift(&self.find_round(cells), shown);
            shifted += 1;
        }
    }

    /// A round among cells that have no dead ends. Every round has two cells in the
    /// newest row, since there was none before it. So a walk from there meets no row
    /// and no column twice until it can go back.
    fn find_round(&self, cells: Cells) -> Round {
        let mut round = Round { cells: [0; 2 * PLACES], length: 0 };
        let newest = FIRST_ROW << (STEP * self.newest);
        let back = FIRST_COLUMN * (cells >> (STEP * self.newest) & FIRST_ROW);
        let mut cell = first(cells & newest);
        round.push(cell);
        loop {
            cell = self.topmost(cells & !newest & FIRST_COLUMN << (cell % STEP) & !(1 << cell));
            round.push(cell);
            let in_row = cells & FIRST_ROW << (cell / STEP * STEP) & !(1 << cell);
            if in_row & back != 0 {
                cell = first(in_row & back);
                round.push(cell);
                round.push(STEP * self.newest + cell % STEP);
                return round;
            }
            cell = first(in_row);
            round.push(cell);
        }
    }

    /// Of several cells in one column that of the row that was taken first.
    fn topmost(&self, mut cells: Cells) -> usize {
        let mut top = first(cells);
        cells &= cells - 1;
        while cells != 0 {
            let other = first(cells);
            if self.row_at[other / STEP % STEP] < self.row_at[top / STEP % STEP] {
                top = other;
            }
            cells &= cells - 1;
        }
        top
    }

    /// The largest shift that carries no cell past a whole unit.
    fn room(&self, round: &Round) -> u64 {
        let room = |(turn, cell): (usize, usize)| {
            let part = self.parts[cell % BITS];
            if self.goes_up(turn, cell) {
                UNIT - part
            } else {
                part
            }
        };
        round.cells().map(room).fold(UNIT, u64::min)
    }

    fn shift(&mut self, round: &Round, shown: &mut [[u64; COLUMNS]]) {
        let by = self.room(round);
        for (turn, cell) in round.cells() {
            let part = moved(self.parts[cell % BITS], self.goes_up(turn, cell), by);
            self.parts[cell % BITS] = part;
            if part == 0 || part == UNIT {
                self.loose &= !(1 << cell);
                self.write_if_whole(cell / STEP, shown);
            }
        }
    }

    /// The same in a table as it is.
    fn shift_in(&self, table: &mut [[u64; COLUMNS]], round: &Round) {
        let by = self.room(round);
        for (turn, cell) in round.cells() {
            let in_table = &mut table[self.row_at[cell / STEP % STEP]][cell % STEP];
            *in_table = moved(*in_table, self.goes_up(turn, cell), by);
        }
    }

    fn write_if_whole(&self, place: usize, shown: &mut [[u64; COLUMNS]]) {
        if self.loose & FIRST_ROW << (STEP * place) == 0 {
            let parts = &self.parts[STEP * place..][..COLUMNS];
            for (cell, &part) in shown[self.row_at[place]].iter_mut().zip(parts) {
                *cell += (part == UNIT) as u64;
            }
        }
    }

    /// Up and down alternate in the table with the turned signs.
    fn goes_up(&self, turn: usize, cell: usize) -> bool {
        let (place, column) = (cell / STEP % STEP, cell % STEP);
        let is_last = self.row_at[place] == self.last_row;
        turn.is_multiple_of(2) ^ is_last ^ (column == GENERATED)
    }
}

fn moved(cell: u64, up: bool, by: u64) -> u64 {
    if up {
        cell + by
    } else {
        cell - by
    }
}

fn first(cells: Cells) -> usize {
    cells.trailing_zeros() as usize
}

/// The cells that remain when those alone in their row or column are taken
/// away again and again; every round lies within them.
fn without_dead_ends(mut cells: Cells) -> Cells {
    loop {
        let in_rows = FIRST_ROW * in_several([0, 1, 2, 3, 4].map(|k| cells >> k & FIRST_COLUMN));
        let columns = [0, 1, 2, 3, 4].map(|place| cells >> (STEP * place) & FIRST_ROW);
        let in_columns = FIRST_COLUMN * in_several(columns);
        let rest = cells & in_rows & in_columns;
        if rest == cells {
            return cells;
        }
        cells = rest;
    }
}

/// What is in two of the sets or more.
fn in_several(sets: [Cells; 5]) -> Cells {
    let (mut in_one, mut in_more) = (0, 0);
    for set in sets {
        in_more |= in_one & set;
        in_one |= set;
    }
    in_more
}
