//! Fugitive tables as their fields, and the bytes they stand for; seeded ones
//! beside a book.

use super::parts::{Book, Row, GAP};
use super::random::Random;
use std::collections::BTreeSet;

/// The most entries of a table.
const MOST_ENTRIES: usize = 1024;

#[derive(Clone, Copy, Debug)]
pub struct Entry {
    /// Industry, product, material, process.
    pub place: [u16; 4],
    pub scale: u16,
    /// Good, middle and poor of crushing and feeding, of tapping, of spill.
    pub factors: [u16; 9],
}

/// Any field can be wrong; length, count and offset follow from the parts.
#[derive(Clone, Debug, Default)]
pub struct Fugitive {
    pub zero: u16,
    pub entries: Vec<Entry>,
    /// Bytes between header and entries, entries and end.
    pub gaps: [usize; 2],
}

type Key = ([u16; 4], u16);

impl Entry {
    /// At the place of `Row::plain`, for all scales.
    pub fn plain(factors: [u16; 9]) -> Self {
        Entry { place: [3240, 1, 1, 1], scale: 0, factors }
    }

    fn key(&self) -> Key {
        (self.place, self.scale)
    }

    fn write(&self, bytes: &mut Vec<u8>) {
        for part in self.place.iter().chain([&self.scale]).chain(&self.factors) {
            bytes.extend(part.to_le_bytes());
        }
    }
}

impl Fugitive {
    /// A table of these entries without gaps.
    pub fn of(entries: &[Entry]) -> Self {
        Fugitive { entries: entries.to_vec(), ..Fugitive::default() }
    }

    pub fn bytes(&self) -> Vec<u8> {
        let offset = 12 + self.gaps[0];
        let end = offset + 28 * self.entries.len();
        let length = end + self.gaps[1];
        let mut bytes = Vec::with_capacity(length);
        bytes.extend((length as u32).to_le_bytes());
        bytes.extend((self.entries.len() as u16).to_le_bytes());
        bytes.extend(self.zero.to_le_bytes());
        bytes.extend((offset as u32).to_le_bytes());
        bytes.resize(offset, GAP);
        self.entries.iter().for_each(|entry| entry.write(&mut bytes));
        bytes.resize(length, GAP);
        bytes
    }

    /// Whether a line may have grades. Entries rise.
    pub fn has_entry_for(&self, place: [u16; 4], scale: u16) -> bool {
        let has = |key: Key| self.entries.binary_search_by_key(&key, Entry::key).is_ok();
        has((place, scale)) || has((place, 0))
    }
}

/// A table that is well formed, now and then without entries. Most entries are at
/// places of the book: for a row's scale, for all scales, for another scale.
pub fn table(random: &mut Random, book: &Book) -> Fugitive {
    let most = (2 * book.rows.len() + 3).min(MOST_ENTRIES);
    let count = if random.chance(10) { 0 } else { random.index(most + 1) };
    let keys: BTreeSet<Key> = (0..count).map(|_| key(random, &book.rows)).collect();
    let entries = keys.into_iter().map(|key| entry(random, key)).collect();
    let gaps = if random.chance(50) { [0; 2] } else { [0; 2].map(|_| random.index(40)) };
    Fugitive { zero: 0, entries, gaps }
}

fn key(random: &mut Random, rows: &[Row]) -> Key {
    if rows.is_empty() || random.chance(10) {
        return ([0; 4].map(|_| random.up_to(65_535) as u16), random.up_to(9) as u16);
    }
    let Row { mut place, scale, .. } = rows[random.index(rows.len())];
    if random.chance(10) {
        place[random.index(4)] = random.up_to(65_535) as u16;
    }
    match random.below(3) {
        0 => (place, 0),
        1 => (place, scale),
        _ => (place, random.up_to(9) as u16),
    }
}

fn entry(random: &mut Random, (place, scale): Key) -> Entry {
    Entry { place, scale, factors: [0; 9].map(|_| random.up_to(65_535) as u16) }
}

/// Grades of which one at least is given.
pub fn grades(random: &mut Random) -> [u8; 3] {
    let mut grades = [0; 3].map(|_| random.below(4) as u8);
    if grades == [0; 3] {
        grades[random.index(3)] = 1 + random.below(3) as u8;
    }
    grades
}
