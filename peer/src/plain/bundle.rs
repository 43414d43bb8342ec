//! The bundle: several sheets with the same two books and fugitive table in one call.

use super::bytes::{u16_at, u32_at};
use super::{account_with, Factors, Refusal, BUNDLE_MALFORMED, MOST_BYTES, RESULT_TOO_SHORT};

const HEADER: usize = 12;
const ENTRY: usize = 8;
const MOST_SHEETS: usize = 16;

/// A bundle that is well formed.
struct Bundle<'a> {
    file: &'a [u8],
    sheet_count: usize,
    cells_per_sheet: u64,
}

impl<'a> Bundle<'a> {
    fn read(file: &'a [u8]) -> Option<Self> {
        if file.len() < HEADER || file.len() > MOST_BYTES {
            return None;
        }
        let length = u32_at(file, 0) as usize;
        let sheet_count = u16_at(file, 4) as usize;
        let zero = u16_at(file, 6);
        let entries_end = HEADER + sheet_count * ENTRY;
        let well_formed = length == file.len()
            && sheet_count <= MOST_SHEETS
            && zero == 0
            && entries_end <= length
            && sheets_lie_apart(&file[HEADER..entries_end], entries_end as u64, length as u64);
        let cells_per_sheet = u32_at(file, 8) as u64;
        well_formed.then_some(Bundle { file, sheet_count, cells_per_sheet })
    }

    fn sheets(&self) -> impl Iterator<Item = &'a [u8]> + 'a {
        let file = self.file;
        let entries = &file[HEADER..HEADER + self.sheet_count * ENTRY];
        entries.chunks_exact(ENTRY).map(move |entry| {
            let begin = u32_at(entry, 0) as usize;
            &file[begin..begin + u32_at(entry, 4) as usize]
        })
    }

    /// 16 times a u32 at most, so it can't wrap.
    fn cells(&self) -> u64 {
        self.sheet_count as u64 * self.cells_per_sheet
    }
}

/// Each sheet begins at or after the end of the entries and of the sheet before
/// it, and ends at or before the length. Both numbers of an entry are u32, so
/// their sum can't wrap.
fn sheets_lie_apart(entries: &[u8], entries_end: u64, length: u64) -> bool {
    let mut free_from = entries_end;
    for entry in entries.chunks_exact(ENTRY) {
        let begin = u32_at(entry, 0) as u64;
        let end = begin + u32_at(entry, 4) as u64;
        if begin < free_from || end > length {
            return false;
        }
        free_from = end;
    }
    true
}

/// Accounts for every sheet of a bundle, each in its own runs of the results.
/// Where the whole bundle is refused, all cells and outcomes are zero.
pub fn account_bundle(
    own: &[u8],
    book: &[u8],
    fugitive: &[u8],
    bundle: &[u8],
    exact: &mut [u64],
    shown: &mut [u64],
    outcomes: &mut [u64],
) -> Result<(), Refusal> {
    let answer = fill_runs(own, book, fugitive, bundle, exact, shown, outcomes);
    if answer.is_err() {
        exact.fill(0);
        shown.fill(0);
        outcomes.fill(0);
    }
    answer
}

fn fill_runs(
    own: &[u8],
    book: &[u8],
    fugitive: &[u8],
    bundle: &[u8],
    exact: &mut [u64],
    shown: &mut [u64],
    outcomes: &mut [u64],
) -> Result<(), Refusal> {
    let bundle = Bundle::read(bundle).ok_or(Refusal::whole_file(BUNDLE_MALFORMED))?;
    let has_room = |result: &[u64]| bundle.cells() <= result.len() as u64;
    if !has_room(exact) || !has_room(shown) || outcomes.len() < bundle.sheet_count {
        return Err(Refusal::whole_file(RESULT_TOO_SHORT));
    }
    let factors = Factors::read(own, book, fugitive);
    for (index, sheet) in bundle.sheets().enumerate() {
        let cells = bundle.cells_per_sheet as usize;
        let run = index * cells..(index + 1) * cells;
        let (exact, shown) = (&mut exact[run.clone()], &mut shown[run]);
        let answer = account_with(&factors, sheet, exact, shown);
        outcomes[index] = answer.err().map_or(0, Refusal::code);
    }
    Ok(())
}
