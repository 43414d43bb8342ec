//! The fugitive table: checked once as a whole, then searched.

use super::book::place;
use super::bytes::{u16_at, u32_at};
use super::MOST_BYTES;

const HEADER: usize = 12;
const ENTRY: usize = 28;
const MOST_ENTRIES: usize = 1024;

/// Where an entry's factors begin, place by place with three for each.
const FACTORS: usize = 10;
const FACTORS_OF_A_PLACE: usize = 6;

/// A factor of 1, a thousandth of kg/t, in units of 10 micrograms per kilogram.
const THOUSANDTH: u64 = 100;

/// The grades of crushing and feeding, tapping, furnace spill.
pub type Grades = [u8; 3];

pub const ABSENT: Grades = [0; 3];
pub const POOR: u8 = 3;

/// A table that is well formed.
pub struct Table<'a> {
    entries: &'a [[u8; ENTRY]],
}

impl<'a> Table<'a> {
    /// The offset is u32, so its sum with the entries can't wrap in usize.
    pub fn read(file: &'a [u8]) -> Option<Self> {
        if file.len() < HEADER || file.len() > MOST_BYTES {
            return None;
        }
        let length = u32_at(file, 0) as usize;
        let count = u16_at(file, 4) as usize;
        let zero = u16_at(file, 6);
        let offset = u32_at(file, 8) as usize;
        let end = offset + count * ENTRY;
        let well_formed = length == file.len()
            && count <= MOST_ENTRIES
            && zero == 0
            && HEADER <= offset
            && end <= length;
        if !well_formed {
            return None;
        }
        let entries = file[offset..end].as_chunks().0;
        let rises = entries.is_sorted_by(|entry, next| key(entry) < key(next));
        rises.then_some(Table { entries })
    }

    /// Units of 10 micrograms per kilogram of product, for grades that are 3 at
    /// most. Where all are absent no entry is asked for.
    pub fn coefficient(&self, place: u64, scale: u16, grades: Grades) -> Option<u64> {
        if grades == ABSENT {
            return Some(0);
        }
        let entry = self.entry_with((place, scale)).or_else(|| self.entry_with((place, 0)))?;
        let chosen = |(index, grade): (usize, u8)| match grade {
            0 => 0,
            _ => u16_at(entry, FACTORS + FACTORS_OF_A_PLACE * index + 2 * (grade as usize - 1)),
        };
        let thousandths: u64 = grades.into_iter().enumerate().map(chosen).map(u64::from).sum();
        Some(THOUSANDTH * thousandths)
    }

    fn entry_with(&self, wanted: Key) -> Option<&'a [u8; ENTRY]> {
        let found = self.entries.binary_search_by_key(&wanted, key);
        found.ok().map(|index| &self.entries[index])
    }
}

/// Keys rise as the tuples (industry, product, material, process, scale) do.
type Key = (u64, u16);

fn key(entry: &[u8; ENTRY]) -> Key {
    (place(entry.first_chunk().unwrap()), u16_at(entry, 8))
}
