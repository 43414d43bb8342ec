//! A sheet as comma-separated text (RFC 4180): read, written, and accounted for
//! in the place of a binary one.

mod read;
mod write;

use super::{account, lay, Refusal, SHEET_MALFORMED, TEXT_MALFORMED};

/// Writes the binary sheet that a text stands for, and says how many bytes it
/// has. On refusal all lent bytes are zero.
pub fn sheet_from_text(text: &[u8], sheet: &mut [u8]) -> Result<usize, Refusal> {
    lay(read::sheet(text).ok_or(Refusal::whole_file(TEXT_MALFORMED)), sheet)
}

/// Writes a binary sheet as text, and says how many bytes it has. On refusal
/// all lent bytes are zero.
pub fn text_from_sheet(sheet: &[u8], text: &mut [u8]) -> Result<usize, Refusal> {
    lay(write::text(sheet), text)
}

/// Accounts for one text sheet, with 12 in the place of 2. A text that is
/// malformed is as an empty file, which no binary sheet is.
pub fn account_text(
    own: &[u8],
    book: &[u8],
    fugitive: &[u8],
    text: &[u8],
    exact: &mut [u64],
    shown: &mut [u64],
) -> Result<(), Refusal> {
    let read = read::sheet(text);
    let sheet = read.as_ref().map_or(&[][..], AsRef::as_ref);
    account(own, book, fugitive, sheet, exact, shown).map_err(|refusal| match refusal.number {
        SHEET_MALFORMED => Refusal::whole_file(TEXT_MALFORMED),
        _ => refusal,
    })
}
