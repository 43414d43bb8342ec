//! The coefficient book: checked once as a whole, then searched.

use super::bytes::{u16_at, u32_at};
use super::MOST_BYTES;

const HEADER: usize = 16;
pub const ROW: usize = 24;
const TECHNIQUE: usize = 4;
pub const MOST_ROWS: usize = 1024;
const MOST_TECHNIQUES: usize = 4096;
const MOST_COEFFICIENT: u64 = 100_000_000;
const MOST_EFFICIENCY: u16 = 1000;

/// 10^(2 - places), 10^(5 - places) and 10^(8 - places) for units 1, 2, 3; 0
/// for units and places that no row may have.
const POWERS: [[u64; 6]; 4] = [
    [0; 6],
    [100, 10, 1, 0, 0, 0],
    [100_000, 10_000, 1000, 100, 10, 1],
    [100_000_000, 10_000_000, 1_000_000, 100_000, 10_000, 1000],
];

/// A book that is well formed.
pub struct Book<'a> {
    rows: &'a [[u8; ROW]],
    techniques: &'a [[u8; TECHNIQUE]],
}

/// Where a row stands: industry, product, material and process as one number, the
/// scale, the medium, the pollutant.
#[derive(Clone, Copy)]
pub struct Wanted {
    pub place: u64,
    pub scale: u16,
    pub medium: u8,
    pub pollutant: u8,
}

/// What a line needs of its row.
pub struct Row<'a> {
    pub by_product: bool,
    /// Units of 10 micrograms per kilogram.
    pub coefficient: u64,
    pub k_rule: u8,
    techniques: &'a [[u8; TECHNIQUE]],
}

impl<'a> Book<'a> {
    /// One pass over the techniques and one over the rows, whatever the lists.
    pub fn read(file: &'a [u8]) -> Option<Self> {
        let book = Self::blocks(file)?;
        let runs = runs(book.techniques);
        let mut last_key = None;
        for row in book.rows {
            let key = Some(row_key(row));
            if last_key >= key || !row_is_well_formed(row, &runs) {
                return None;
            }
            last_key = key;
        }
        Some(book)
    }

    /// Header and blocks; offsets are u32, so their sums can't wrap in usize.
    fn blocks(file: &'a [u8]) -> Option<Self> {
        if file.len() < HEADER || file.len() > MOST_BYTES {
            return None;
        }
        let length = u32_at(file, 0) as usize;
        let row_count = u16_at(file, 4) as usize;
        let technique_count = u16_at(file, 6) as usize;
        let row_offset = u32_at(file, 8) as usize;
        let technique_offset = u32_at(file, 12) as usize;
        let row_end = row_offset + row_count * ROW;
        let technique_end = technique_offset + technique_count * TECHNIQUE;
        let well_formed = length == file.len()
            && row_count <= MOST_ROWS
            && technique_count <= MOST_TECHNIQUES
            && HEADER <= row_offset
            && row_end <= technique_offset
            && technique_end <= length;
        well_formed.then(|| Book {
            rows: file[row_offset..row_end].as_chunks().0,
            techniques: file[technique_offset..technique_end].as_chunks().0,
        })
    }

    /// Which row is wanted, counted from 0.
    pub fn index_of(&self, wanted: Wanted) -> Option<usize> {
        self.rows.binary_search_by_key(&wanted.key(), row_key).ok()
    }

    pub fn row_bytes(&self, index: usize) -> &'a [u8; ROW] {
        &self.rows[index]
    }

    /// The row with its techniques, which are this book's own.
    pub fn row(&self, index: usize) -> Option<Row<'a>> {
        let row = &self.rows[index];
        Some(Row {
            by_product: row[12] == 1,
            coefficient: coefficient(row)?,
            k_rule: row[15],
            techniques: self.techniques_of(row)?,
        })
    }

    fn techniques_of(&self, row: &[u8; ROW]) -> Option<&'a [[u8; TECHNIQUE]]> {
        let first = u16_at(row, 20) as usize;
        let number = u16_at(row, 22) as usize;
        match number {
            0 => Some(&[]),
            _ => self.techniques.get(first..first + number),
        }
    }
}

impl Wanted {
    /// The same for all scales.
    pub fn of_all_scales(self) -> Self {
        Wanted { scale: 0, ..self }
    }

    fn key(self) -> Key {
        key(self.place, self.scale, self.medium, self.pollutant)
    }
}

impl Row<'_> {
    /// Tenths of a percent, if the row lists the technique.
    pub fn efficiency(&self, code: u16) -> Option<u16> {
        self.techniques
            .binary_search_by_key(&code, |technique| u16_at(technique, 0))
            .ok()
            .map(|index| u16_at(&self.techniques[index], 2))
    }
}

/// How many techniques from each place on are right and rise by their codes,
/// the last place first. A row's list is right if it is no longer than that.
/// Masks instead of branches, since a hostile block can't be foretold.
fn runs(techniques: &[[u8; TECHNIQUE]]) -> Vec<u16> {
    let mask = |test: bool| (test as u16).wrapping_neg();
    let mut next_code = 0;
    let mut run = 0;
    let run_from = |technique: &[u8; TECHNIQUE]| {
        let code = u16_at(technique, 0);
        let right = (code != 0) & (u16_at(technique, 2) <= MOST_EFFICIENCY);
        run = ((run & mask(code < next_code)) + 1) & mask(right);
        next_code = code;
        run
    };
    techniques.iter().rev().map(run_from).collect()
}

fn row_is_well_formed(row: &[u8; ROW], runs: &[u16]) -> bool {
    let (medium, pollutant, basis, k_rule) = (row[10], row[11], row[12], row[15]);
    let first = u16_at(row, 20) as usize;
    let number = u16_at(row, 22);
    let list_is_right = match number {
        0 => k_rule == 0,
        // Places count from the end; one past the block wraps and isn't there.
        _ => {
            let place = runs.len().wrapping_sub(first + 1);
            (k_rule == 1 || k_rule == 2) && runs.get(place).is_some_and(|&run| number <= run)
        }
    };
    (1..=3).contains(&medium)
        && pollutant != 0
        && (1..=2).contains(&basis)
        && coefficient(row).is_some_and(|c| c <= MOST_COEFFICIENT)
        && list_is_right
}

/// Units of 10 micrograms per kilogram, if unit and places are well formed.
fn coefficient(row: &[u8; ROW]) -> Option<u64> {
    let power = *POWERS.get(row[13] as usize)?.get(row[14] as usize)?;
    (power != 0).then(|| u32_at(row, 16) as u64 * power)
}

/// Industry, product, material and process as one number, the first of them
/// on top, which stand one after the other in a row or a line.
pub fn place(bytes: &[u8; 8]) -> u64 {
    const LOW_CODES: u64 = 0x0000_FFFF_0000_FFFF;
    let halves = u64::from_le_bytes(*bytes).rotate_left(32);
    (halves & LOW_CODES) << 16 | halves >> 16 & LOW_CODES
}

/// Keys rise as the tuples (industry, product, material, process, scale,
/// medium, pollutant) do: the place decides, or else the rest.
type Key = (u64, u32);

fn key(place: u64, scale: u16, medium: u8, pollutant: u8) -> Key {
    (place, (scale as u32) << 16 | (medium as u32) << 8 | pollutant as u32)
}

fn row_key(row: &[u8; ROW]) -> Key {
    key(place(row.first_chunk().unwrap()), u16_at(row, 8), row[10], row[11])
}
