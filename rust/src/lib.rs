//! The declaration desk Checkraven: from two coefficient books, a fugitive table
//! and a sheet to two tables, exact and shown.
//!
//! A sheet is one works' year for one pollutant in one medium. The works' own book
//! has the factors that it measured itself and is asked before the published one;
//! a works that has none lends [`NO_OWN`]. The fugitive table has the factors of
//! dust that never meets a duct; a works without such dust lends [`NO_FUGITIVE`].
//!
//! The desk itself is proved; this crate lends it memory and names its answer.
//! [`declare`] lends memory of its own and gives rows; [`account`] takes the
//! caller's. [`declare_bundle`] and [`account_bundle`] do the same for a bundle of
//! up to 16 sheets, [`declare_text`] and [`account_text`] for a sheet that is
//! saved as comma-separated text. [`sheet_from_text`] and [`text_from_sheet`] turn
//! such a text into a sheet and back. [`report`] gives the text that the program
//! prints for a sheet. [`row`] shows an inspector the row that answers, in
//! whichever of the two books has it. [`settling`] shows how an exact table becomes
//! the shown one, step by step.

use std::fmt;

mod bundle;
mod desk;
mod refusal;
mod report;
mod row;
mod settling;
mod tables;
mod text;

pub use bundle::{account_bundle, declare_bundle, Works, MOST_SHEETS};
pub use refusal::{Refusal, Refused};
pub use report::{report, report_into, MOST_TEXT};
pub use row::{row, row_into, RowKey, MOST_ROW, MOST_ROWS};
pub use settling::{settling, step, steps, Settling};
pub use tables::{Line, Row, Tables, Total, Unit};
pub use text::{account_text, declare_text, sheet_from_text, sheet_from_text_into};
pub use text::{text_from_sheet, text_from_sheet_into, MOST_SHEET, MOST_SHEET_TEXT};

/// The most lines in a sheet.
pub const MOST_LINES: usize = 128;

/// Cells that are enough for the result of every sheet.
pub const MOST_CELLS: usize = cells_for(MOST_LINES);

/// The own book of a works that has no factors of its own: no rows.
pub const NO_OWN: [u8; 16] = [16, 0, 0, 0, 0, 0, 0, 0, 16, 0, 0, 0, 16, 0, 0, 0];

/// The fugitive table of a works without fugitive dust: no entries.
pub const NO_FUGITIVE: [u8; 12] = [12, 0, 0, 0, 0, 0, 0, 0, 12, 0, 0, 0];

/// Cells that each result needs for a sheet of so many lines: five a line
/// (generated, removed, reused, discharged, fugitive) and a last row of sums.
pub const fn cells_for(lines: usize) -> usize {
    tables::COLUMNS * (lines + 1)
}

/// What the desk answers to [`account`] and [`account_text`], and to
/// [`account_bundle`] for the whole.
#[derive(Clone, Copy, Debug, PartialEq, Eq, Hash)]
#[must_use = "the tables stand only if the sheet was accepted"]
pub enum Outcome {
    /// Both tables stand in the lent results; a bundle is taken.
    Accepted,
    /// The first refusal; all cells of the lent results are zero.
    Refused {
        /// The refusal number; [`Refusal::from_number`] has its name.
        number: u32,
        /// The sheet line, counted from 1; 0 where a whole file is refused.
        line: u32,
    },
}

impl Outcome {
    pub fn is_accepted(self) -> bool {
        self == Outcome::Accepted
    }

    /// The refusal by its name, as an error.
    pub fn accepted(self) -> Result<(), Refused> {
        match self {
            Outcome::Accepted => Ok(()),
            Outcome::Refused { number, line } => {
                Err(Refused { refusal: Refusal::from_number(number), line })
            }
        }
    }

    /// Takes apart the desk's own number: 0, or refusal number * 65536 + line.
    /// The outcomes that [`account_bundle`] leaves are such numbers.
    pub fn from_answer(answer: u64) -> Self {
        match answer {
            0 => Outcome::Accepted,
            _ => Outcome::Refused {
                number: u32::try_from(answer / 65536).unwrap_or(u32::MAX),
                line: (answer % 65536) as u32,
            },
        }
    }
}

impl fmt::Display for Outcome {
    fn fmt(&self, out: &mut fmt::Formatter<'_>) -> fmt::Result {
        match self.accepted() {
            Ok(()) => write!(out, "accepted"),
            Err(refused) => write!(out, "{refused}"),
        }
    }
}

/// A count, as of bytes that were written, which answers below 65536 say, or the
/// refusal.
fn written(answer: u64) -> Result<usize, Refused> {
    match answer {
        0..=65535 => Ok(answer as usize),
        _ => Outcome::from_answer(answer).accepted().map(|()| 0),
    }
}

/// The u32 at a place of a house file.
fn number_at(file: &[u8], at: usize) -> usize {
    let field = file[at..at + 4].try_into().expect("four bytes");
    u32::from_le_bytes(field) as usize
}

/// Accounts for one sheet with two books and one fugitive table, in memory of the
/// caller.
///
/// A line's row is searched in the works' own book for the line's scale, then
/// there for scale 0, then in the published book likewise. The techniques of the
/// row come from the same book.
///
/// If the sheet is accepted, the first `cells_for(lines)` cells of each result
/// hold its table and further cells keep their values. The exact table counts
/// in units of 10 micrograms, the shown one in the sheet's whole grams,
/// kilograms or tonnes. On refusal all cells of both results are zero.
pub fn account(
    own: &[u8],
    book: &[u8],
    fugitive: &[u8],
    sheet: &[u8],
    exact: &mut [u64],
    shown: &mut [u64],
) -> Outcome {
    Outcome::from_answer(desk::account(own, book, fugitive, sheet, exact, shown))
}

/// Accounts for one sheet with two books and one fugitive table: both tables by
/// rows, or the refusal.
pub fn declare(own: &[u8], book: &[u8], fugitive: &[u8], sheet: &[u8]) -> Result<Tables, Refused> {
    let (mut exact, mut shown) = (vec![0; MOST_CELLS], vec![0; MOST_CELLS]);
    account(own, book, fugitive, sheet, &mut exact, &mut shown).accepted()?;
    Ok(Tables::new(sheet, exact, shown))
}

/// The Rust on the project's first page is run as it stands there.
#[cfg(doctest)]
#[doc = include_str!("../../README.md")]
struct FirstPage;

#[cfg(test)]
mod tests {
    use super::*;

    #[test]
    fn answers_are_taken_apart() {
        assert_eq!(Outcome::from_answer(0), Outcome::Accepted);
        let whole_file = Outcome::Refused { number: 1, line: 0 };
        assert_eq!(Outcome::from_answer(65536), whole_file);
        let last_line = Outcome::Refused { number: 11, line: 128 };
        assert_eq!(Outcome::from_answer(11 * 65536 + 128), last_line);
    }

    #[test]
    fn outcomes_print_as_the_program_prints_them() {
        assert_eq!(Outcome::Refused { number: 6, line: 2 }.to_string(), "refused 6 line 2");
        assert_eq!(Outcome::Refused { number: 77, line: 2 }.to_string(), "refused 77 line 2");
    }

    #[test]
    fn an_outcome_leads_to_its_name() {
        assert_eq!(Outcome::Accepted.accepted(), Ok(()));
        let refused = Refused { refusal: Refusal::NoRow, line: 2 };
        assert_eq!(Outcome::Refused { number: 6, line: 2 }.accepted(), Err(refused));
    }
}
