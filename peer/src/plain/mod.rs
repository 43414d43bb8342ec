//! The desk in plain Rust, written from the paper alone. It shares no code
//! with the proved desk and is what the proved desk is compared with.

mod amounts;
mod book;
mod books;
mod bundle;
mod bytes;
mod fugitive;
pub mod reading;
mod settling;
mod sheet;
mod shown;
mod text;

use book::Wanted;
use books::Books;
use fugitive::{Grades, Table};
use sheet::{Line, Sheet};

pub use amounts::Amounts;
pub use books::{row, row_into, row_number, Asked};
pub use bundle::account_bundle;
pub use settling::{step, steps};
pub use text::{account_text, sheet_from_text, text_from_sheet};

/// A refusal: its number and the line, counted from 1; 0 for whole files.
#[derive(Clone, Copy, Debug, PartialEq, Eq)]
pub struct Refusal {
    pub number: u32,
    pub line: u32,
}

impl Refusal {
    fn whole_file(number: u32) -> Self {
        Refusal { number, line: 0 }
    }

    /// As one number, as it stands among a bundle's outcomes.
    fn code(self) -> u64 {
        self.number as u64 * 65_536 + self.line as u64
    }
}

pub const BOOK_MALFORMED: u32 = 1;
pub const SHEET_MALFORMED: u32 = 2;
pub const RESULT_TOO_SHORT: u32 = 3;
pub const ACTIVITY_TOO_LARGE: u32 = 4;
pub const REUSE_TOO_LARGE: u32 = 5;
pub const NO_ROW: u32 = 6;
pub const NO_TECHNIQUE: u32 = 7;
pub const WRONG_KIND: u32 = 8;
pub const BAD_READING: u32 = 9;
pub const ZERO_DIVISOR: u32 = 10;
pub const K_ABOVE_ONE: u32 = 11;
pub const TEXT_MALFORMED: u32 = 12;
pub const FUGITIVE_MALFORMED: u32 = 13;
pub const NO_FUGITIVE_ENTRY: u32 = 14;
pub const BAD_GRADE: u32 = 15;
pub const BUNDLE_MALFORMED: u32 = 16;
pub const TABLE_OFF: u32 = 22;

/// All house files have this limit.
const MOST_BYTES: usize = 65_536;
const MOST_KILOGRAMS: u64 = 1_000_000_000;
const MOST_REUSE: u16 = 1000;

/// Cells of a row: G, R, U, D, F.
const COLUMNS: usize = 5;

/// The shown units in units of 10 micrograms.
const GRAM: u64 = 100_000;
const KILOGRAM: u64 = 100_000_000;
const TONNE: u64 = 100_000_000_000;

/// Accounts for one sheet. On refusal all cells of both results are zero; on
/// acceptance cells past the tables keep their values.
pub fn account(
    own: &[u8],
    book: &[u8],
    fugitive: &[u8],
    sheet: &[u8],
    exact: &mut [u64],
    shown: &mut [u64],
) -> Result<(), Refusal> {
    account_with(&Factors::read(own, book, fugitive), sheet, exact, shown)
}

/// The same for a desk that knows of no book but the published one.
pub fn account_by_one_book(
    book: &[u8],
    fugitive: &[u8],
    sheet: &[u8],
    exact: &mut [u64],
    shown: &mut [u64],
) -> Result<(), Refusal> {
    let books = Books::published_alone(book);
    let factors = Factors { books, fugitive: Table::read(fugitive) };
    account_with(&factors, sheet, exact, shown)
}

/// What is read once for all sheets, `None` where it is malformed.
struct Factors<'a> {
    books: Option<Books<'a>>,
    fugitive: Option<Table<'a>>,
}

impl<'a> Factors<'a> {
    fn read(own: &'a [u8], book: &'a [u8], fugitive: &'a [u8]) -> Self {
        Factors { books: Books::read(own, book), fugitive: Table::read(fugitive) }
    }

    /// All, or the refusal of the first that is malformed.
    fn all(&self) -> Result<(&Books<'a>, &Table<'a>), Refusal> {
        let books = self.books.as_ref().ok_or(Refusal::whole_file(BOOK_MALFORMED))?;
        let fugitive = self.fugitive.as_ref().ok_or(Refusal::whole_file(FUGITIVE_MALFORMED))?;
        Ok((books, fugitive))
    }
}

fn account_with(
    factors: &Factors,
    sheet: &[u8],
    exact: &mut [u64],
    shown: &mut [u64],
) -> Result<(), Refusal> {
    let answer = fill_tables(factors, sheet, exact, shown);
    if answer.is_err() {
        exact.fill(0);
        shown.fill(0);
    }
    answer
}

fn fill_tables(
    factors: &Factors,
    sheet: &[u8],
    exact: &mut [u64],
    shown: &mut [u64],
) -> Result<(), Refusal> {
    let (books, fugitive) = factors.all()?;
    let sheet = Sheet::read(sheet).ok_or(Refusal::whole_file(SHEET_MALFORMED))?;
    let cells = COLUMNS * (sheet.line_count() + 1);
    if exact.len() < cells || shown.len() < cells {
        return Err(Refusal::whole_file(RESULT_TOO_SHORT));
    }
    fill_exact(books, fugitive, &sheet, &mut exact[..cells])?;
    shown::fill(&exact[..cells], sheet.shown_unit, &mut shown[..cells]);
    Ok(())
}

fn fill_exact(
    books: &Books,
    fugitive: &Table,
    sheet: &Sheet,
    exact: &mut [u64],
) -> Result<(), Refusal> {
    let (rows, sums) = exact.split_at_mut(COLUMNS * sheet.line_count());
    let mut total = Amounts::default();
    for (index, (line, cells)) in sheet.lines().zip(rows.chunks_exact_mut(COLUMNS)).enumerate() {
        let amounts = line_amounts(books, fugitive, sheet, &line)
            .map_err(|number| Refusal { number, line: index as u32 + 1 })?;
        cells.copy_from_slice(&amounts.cells());
        total.add(&amounts);
    }
    sums.copy_from_slice(&total.cells());
    Ok(())
}

/// One line's amounts, or the number of its first refusal.
fn line_amounts(
    books: &Books,
    fugitive: &Table,
    sheet: &Sheet,
    line: &Line,
) -> Result<Amounts, u32> {
    if line.product > MOST_KILOGRAMS || line.material > MOST_KILOGRAMS {
        return Err(ACTIVITY_TOO_LARGE);
    }
    if line.reuse > MOST_REUSE {
        return Err(REUSE_TOO_LARGE);
    }
    if !grades_are_taken(sheet, line.grades) {
        return Err(BAD_GRADE);
    }
    let Sheet { medium, pollutant, .. } = *sheet;
    let wanted = Wanted { place: line.place, scale: line.scale, medium, pollutant };
    let row = books.find(wanted).ok_or(NO_ROW)?;
    let dust = fugitive.coefficient(line.place, line.scale, line.grades);
    let dust = dust.ok_or(NO_FUGITIVE_ENTRY)? * line.product;
    let activity = if row.by_product { line.product } else { line.material };
    let generated = row.coefficient * activity;
    let removed = match line.technique {
        0 => 0,
        code => {
            let efficiency = row.efficiency(code).ok_or(NO_TECHNIQUE)?;
            let k = reading::k(row.k_rule, line.kind, line.readings)?;
            amounts::removed(generated, efficiency, k)
        }
    };
    let reuse = sheet.reuses_water().then_some(line.reuse);
    Ok(Amounts::new(generated, removed, reuse).with_fugitive(dust))
}

fn grades_are_taken(sheet: &Sheet, grades: Grades) -> bool {
    let most = if sheet.has_fugitive_dust() { fugitive::POOR } else { 0 };
    grades.iter().all(|&grade| grade <= most)
}

/// Puts what was made at the front of the lent bytes, and says how many bytes it
/// has. Room is looked at last; on refusal all lent bytes are zero.
fn lay(made: Result<impl AsRef<[u8]>, Refusal>, lent: &mut [u8]) -> Result<usize, Refusal> {
    let answer = made.and_then(|made| {
        let bytes = made.as_ref();
        let place = lent.get_mut(..bytes.len()).ok_or(Refusal::whole_file(RESULT_TOO_SHORT))?;
        place.copy_from_slice(bytes);
        Ok(bytes.len())
    });
    if answer.is_err() {
        lent.fill(0);
    }
    answer
}
