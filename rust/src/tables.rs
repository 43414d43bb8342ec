//! Both tables of an accepted sheet, by rows.

use std::fmt;

/// Cells of a row.
pub(crate) const COLUMNS: usize = 5;

/// The amounts of one line, or their sums.
#[derive(Clone, Copy, Debug, Default, PartialEq, Eq, Hash)]
pub struct Row {
    /// All that the others come to.
    pub generated: u64,
    pub removed: u64,
    pub reused: u64,
    pub discharged: u64,
    /// Dust that never meets a duct, untouched by treatment.
    pub fugitive: u64,
}

/// One line of the sheet in both tables.
#[derive(Clone, Copy, Debug, PartialEq, Eq, Hash)]
pub struct Line {
    /// Its number, counted from 1.
    pub number: u32,
    /// In units of 10 micrograms.
    pub exact: Row,
    /// In the sheet's unit.
    pub shown: Row,
}

/// The sums over all lines in both tables.
#[derive(Clone, Copy, Debug, PartialEq, Eq, Hash)]
pub struct Total {
    /// In units of 10 micrograms.
    pub exact: Row,
    /// In the sheet's unit.
    pub shown: Row,
}

/// The unit in which a table is shown.
#[derive(Clone, Copy, Debug, PartialEq, Eq, Hash)]
pub enum Unit {
    Gram,
    Kilogram,
    Tonne,
}

impl Unit {
    /// How many units of 10 micrograms it is.
    pub const fn exact(self) -> u64 {
        match self {
            Unit::Gram => 100_000,
            Unit::Kilogram => 100_000_000,
            Unit::Tonne => 100_000_000_000,
        }
    }

    /// Its number in a sheet.
    pub(crate) const fn code(self) -> u64 {
        match self {
            Unit::Gram => 1,
            Unit::Kilogram => 2,
            Unit::Tonne => 3,
        }
    }

    fn from_code(code: u8) -> Self {
        match code {
            1 => Unit::Gram,
            2 => Unit::Kilogram,
            3 => Unit::Tonne,
            _ => unreachable!("an accepted sheet has one of three units"),
        }
    }
}

/// The exact and the shown table of an accepted sheet. Shown as the program
/// prints it.
#[derive(Clone, Debug, PartialEq, Eq)]
pub struct Tables {
    /// Whole rows, one a line and a last one of sums; as many in both.
    exact: Vec<u64>,
    shown: Vec<u64>,
    unit: Unit,
}

impl Tables {
    /// Of an accepted sheet and its results, which may have further cells.
    pub(crate) fn new(sheet: &[u8], mut exact: Vec<u64>, mut shown: Vec<u64>) -> Self {
        // An accepted sheet has its header: the line count at 4, the unit at 12.
        let lines = usize::from(u16::from_le_bytes([sheet[4], sheet[5]]));
        exact.truncate(COLUMNS * (lines + 1));
        shown.truncate(COLUMNS * (lines + 1));
        Tables { exact, shown, unit: Unit::from_code(sheet[12]) }
    }

    /// The lines, in the order of the sheet.
    pub fn lines(&self) -> impl ExactSizeIterator<Item = Line> + '_ {
        let both = self.exact.chunks_exact(COLUMNS).zip(self.shown.chunks_exact(COLUMNS));
        both.take(self.exact.len() / COLUMNS - 1).enumerate().map(|(index, (exact, shown))| Line {
            number: index as u32 + 1,
            exact: Row::from_cells(exact),
            shown: Row::from_cells(shown),
        })
    }

    /// The last row.
    pub fn total(&self) -> Total {
        let last = self.exact.len() - COLUMNS;
        Total {
            exact: Row::from_cells(&self.exact[last..]),
            shown: Row::from_cells(&self.shown[last..]),
        }
    }

    /// The unit of the shown table.
    pub fn unit(&self) -> Unit {
        self.unit
    }

    /// The exact table as cells, row after row, as [`account`](crate::account)
    /// leaves them and [`settling`](crate::settling) takes them.
    pub fn exact_cells(&self) -> &[u64] {
        &self.exact
    }

    /// The shown table as cells, row after row.
    pub fn shown_cells(&self) -> &[u64] {
        &self.shown
    }
}

impl Row {
    fn from_cells(cells: &[u64]) -> Self {
        Row {
            generated: cells[0],
            removed: cells[1],
            reused: cells[2],
            discharged: cells[3],
            fugitive: cells[4],
        }
    }
}

impl fmt::Display for Row {
    fn fmt(&self, out: &mut fmt::Formatter<'_>) -> fmt::Result {
        let Row { generated, removed, reused, discharged, fugitive } = self;
        write!(out, "{generated} {removed} {reused} {discharged} {fugitive}")
    }
}

impl fmt::Display for Tables {
    fn fmt(&self, out: &mut fmt::Formatter<'_>) -> fmt::Result {
        for line in self.lines() {
            writeln!(out, "exact {} {}", line.number, line.exact)?;
        }
        writeln!(out, "exact total {}", self.total().exact)?;
        writeln!(out, "unit {}", self.unit.exact())?;
        for line in self.lines() {
            writeln!(out, "shown {} {}", line.number, line.shown)?;
        }
        writeln!(out, "shown total {}", self.total().shown)
    }
}
