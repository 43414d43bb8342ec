//! The row that answers for a line, in whichever of the two books has it.

use crate::{desk, number_at, written, Refused};

/// The most rows in a book.
pub const MOST_ROWS: usize = 1024;

/// Bytes that are enough for every row of a book.
pub const MOST_ROW: usize = 24;

/// What a row is searched by: the codes of a line, and the medium and pollutant
/// of its sheet.
#[derive(Clone, Copy, Debug, PartialEq, Eq, Hash)]
pub struct RowKey {
    pub industry: u16,
    pub product: u16,
    pub material: u16,
    pub process: u16,
    /// Where a book has no row of this scale, its row of scale 0 answers.
    pub scale: u16,
    pub medium: u8,
    pub pollutant: u8,
}

/// The row that answers, for the inspector's screen: the part of the book that has
/// it, or an empty part where neither has one or either is malformed.
///
/// It is the row that [`account`](crate::account) takes for a line of this key,
/// and it borrows from both books, since either may answer:
///
/// ```
/// use checkraven::{row, RowKey, NO_OWN};
///
/// let book = std::fs::read("../examples/document-000/book.bin")?;
/// let (industry, product, material, process) = (3240, 1, 1, 1);
/// let (scale, medium, pollutant) = (5, 1, 1);
/// let key = RowKey { industry, product, material, process, scale, medium, pollutant };
/// assert_eq!(row(&NO_OWN, &book, &key), &book[16..40]);
/// assert!(row(&NO_OWN, &NO_OWN, &key).is_empty());
/// # Ok::<(), Box<dyn std::error::Error>>(())
/// ```
///
/// ```compile_fail,E0505
/// # use checkraven::{row, RowKey, NO_OWN};
/// # let (industry, product, material, process) = (1, 1, 1, 1);
/// # let (scale, medium, pollutant) = (1, 1, 1);
/// # let key = RowKey { industry, product, material, process, scale, medium, pollutant };
/// let own = NO_OWN.to_vec();
/// let found = row(&own, &NO_OWN, &key);
/// drop(own); // the row may be a part of it
/// println!("{found:?}");
/// ```
pub fn row<'book>(own: &'book [u8], book: &'book [u8], key: &RowKey) -> &'book [u8] {
    match desk::row_number(own, book, key) as usize {
        0 => &[],
        number if number <= MOST_ROWS => row_of(own, number),
        number => row_of(book, number - MOST_ROWS),
    }
}

/// A book with a row that answers is well formed, and says at 8 where its rows
/// begin; they count from 1.
fn row_of(book: &[u8], number: usize) -> &[u8] {
    let start = number_at(book, 8) + MOST_ROW * (number - 1);
    &book[start..start + MOST_ROW]
}

/// Copies the row that answers to the start of the lent bytes.
///
/// It gives the bytes that [`row`] gives, and those past them keep their values;
/// where it gives none, all do. A row that has no room is refused with 3: all lent
/// bytes are zero then. [`MOST_ROW`] bytes always have room.
pub fn row_into<'row>(
    own: &[u8],
    book: &[u8],
    key: &RowKey,
    row: &'row mut [u8],
) -> Result<&'row [u8], Refused> {
    let bytes = written(desk::row(own, book, key, row))?;
    Ok(&row[..bytes])
}
