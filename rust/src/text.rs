//! A sheet as comma-separated text (RFC 4180), as a spreadsheet saves it: read,
//! written, and accounted for in the place of a binary sheet.
//!
//! Records end in CR LF; the last one's may be missing. The first record has
//! medium, pollutant and shown unit. Then comes one record for each line, with
//! 16 fields: industry, product, material, process, scale, technique, reuse,
//! kind, kilograms of product and of material, the readings a, b and c, and the
//! grades of crushing, tapping and spill. Grades that are left off at a record's
//! end count as 0.

use crate::{desk, written, Outcome, Refused, Tables, MOST_CELLS, MOST_LINES};
use std::str;

/// Bytes that are enough for the binary sheet of every text.
pub const MOST_SHEET: usize = 16 + 64 * MOST_LINES;

/// Bytes that are enough for the text of every sheet: 26 for each field.
pub const MOST_SHEET_TEXT: usize = 53_326;

/// Writes the binary sheet of a text at the start of the lent bytes.
///
/// The bytes past the sheet keep their values. A malformed text is refused with
/// 12, and then one whose sheet has no room with 3: all lent bytes are zero then.
/// [`MOST_SHEET`] bytes always have room.
pub fn sheet_from_text_into<'sheet>(
    text: &[u8],
    sheet: &'sheet mut [u8],
) -> Result<&'sheet [u8], Refused> {
    let bytes = written(desk::sheet_from_text(text, sheet))?;
    Ok(&sheet[..bytes])
}

/// The binary sheet of a text, or the refusal.
pub fn sheet_from_text(text: &[u8]) -> Result<Vec<u8>, Refused> {
    let mut sheet = vec![0; MOST_SHEET];
    let bytes = sheet_from_text_into(text, &mut sheet)?.len();
    sheet.truncate(bytes);
    Ok(sheet)
}

/// Writes the text of a binary sheet at the start of the lent bytes.
///
/// The bytes past the text keep their values. A malformed sheet is refused with
/// 2, then one with a used reading that is bad or over its limit with 9 and its
/// line, then one whose text has no room with 3: all lent bytes are zero then.
/// [`MOST_SHEET_TEXT`] bytes always have room.
pub fn text_from_sheet_into<'text>(
    sheet: &[u8],
    text: &'text mut [u8],
) -> Result<&'text str, Refused> {
    let bytes = written(desk::text_from_sheet(sheet, text))?;
    Ok(str::from_utf8(&text[..bytes]).expect("a written text is ASCII"))
}

/// The text of a binary sheet, or the refusal.
pub fn text_from_sheet(sheet: &[u8]) -> Result<String, Refused> {
    let mut text = vec![0; MOST_SHEET_TEXT];
    text_from_sheet_into(sheet, &mut text).map(str::to_string)
}

/// Accounts for one text sheet with two books and one fugitive table, in memory of
/// the caller.
///
/// This is what [`account`](crate::account) answers and leaves for the binary
/// sheet of the text. A malformed text is refused with 12, in the place of 2.
pub fn account_text(
    own: &[u8],
    book: &[u8],
    fugitive: &[u8],
    text: &[u8],
    exact: &mut [u64],
    shown: &mut [u64],
) -> Outcome {
    Outcome::from_answer(desk::account_text(own, book, fugitive, text, exact, shown))
}

/// Accounts for one text sheet with two books and one fugitive table: both tables
/// by rows, or the refusal.
///
/// ```
/// use checkraven::{declare_text, NO_FUGITIVE, NO_OWN};
///
/// let book = std::fs::read("../examples/document-000/book.bin")?;
/// let text = b"1,1,1\r\n3240,1,1,1,0,1,950,1,16250000,0,7920,7920,0\r\n";
/// let tables = declare_text(&NO_OWN, &book, &NO_FUGITIVE, text)?;
/// assert_eq!(tables.total().shown.discharged, 49_608);
/// # Ok::<(), Box<dyn std::error::Error>>(())
/// ```
pub fn declare_text(
    own: &[u8],
    book: &[u8],
    fugitive: &[u8],
    text: &[u8],
) -> Result<Tables, Refused> {
    let (mut exact, mut shown) = (vec![0; MOST_CELLS], vec![0; MOST_CELLS]);
    account_text(own, book, fugitive, text, &mut exact, &mut shown).accepted()?;
    Ok(Tables::new(&sheet_from_text(text)?, exact, shown))
}
