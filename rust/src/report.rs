//! The report of a sheet: the text that the program prints.

use crate::{desk, written};
use std::str;

/// Bytes that are enough for the report of every sheet.
pub const MOST_TEXT: usize = 34_082;

/// Writes the report of one sheet with two books and one fugitive table at the
/// start of the lent bytes.
///
/// The bytes past the report keep their values. `None` where the report has no
/// room: all lent bytes are zero then. [`MOST_TEXT`] bytes always have room.
pub fn report_into<'text>(
    own: &[u8],
    book: &[u8],
    fugitive: &[u8],
    sheet: &[u8],
    text: &'text mut [u8],
) -> Option<&'text str> {
    let bytes = written(desk::report(own, book, fugitive, sheet, text)).ok()?;
    Some(str::from_utf8(&text[..bytes]).expect("a report is ASCII"))
}

/// The report of one sheet with two books and one fugitive table, for figures and
/// refusals alike.
pub fn report(own: &[u8], book: &[u8], fugitive: &[u8], sheet: &[u8]) -> String {
    let mut text = vec![0; MOST_TEXT];
    report_into(own, book, fugitive, sheet, &mut text).expect("every report has room").to_string()
}
