//! A bundle as its fields and the bytes it stands for. Made from sheets, its
//! fields are right; any of them can be set wrong afterwards.

use super::parts::GAP;
use crate::compare::BundleCase;

#[derive(Clone, Debug)]
pub struct Bundle {
    pub length: u32,
    pub count: u16,
    pub zero: u16,
    pub cells: u32,
    /// Offset and length of each sheet.
    pub entries: Vec<[u32; 2]>,
    /// All bytes after the entries.
    pub rest: Vec<u8>,
}

impl Bundle {
    /// Sheets that touch each other.
    pub fn of(cells: u32, sheets: &[Vec<u8>]) -> Self {
        Bundle::with_gaps(cells, sheets, &vec![0; sheets.len() + 1])
    }

    /// Sheets with so many bytes before each, and after the last.
    pub fn with_gaps(cells: u32, sheets: &[Vec<u8>], gaps: &[usize]) -> Self {
        let entries_end = 12 + 8 * sheets.len();
        let (mut entries, mut rest) = (Vec::new(), Vec::new());
        for (sheet, gap) in sheets.iter().zip(gaps) {
            rest.resize(rest.len() + gap, GAP);
            entries.push([(entries_end + rest.len()) as u32, sheet.len() as u32]);
            rest.extend(sheet);
        }
        rest.resize(rest.len() + gaps[sheets.len()], GAP);
        let length = (entries_end + rest.len()) as u32;
        Bundle { length, count: sheets.len() as u16, zero: 0, cells, entries, rest }
    }

    pub fn bytes(&self) -> Vec<u8> {
        let mut bytes = Vec::new();
        bytes.extend(self.length.to_le_bytes());
        bytes.extend(self.count.to_le_bytes());
        bytes.extend(self.zero.to_le_bytes());
        bytes.extend(self.cells.to_le_bytes());
        bytes.extend(self.entries.iter().flatten().flat_map(|number| number.to_le_bytes()));
        bytes.extend(&self.rest);
        bytes
    }
}

impl BundleCase {
    /// A book and a bundle with a little more room than they need, an own book without
    /// rows and a fugitive table without entries.
    pub fn of(book: &[u8], bundle: &Bundle) -> Self {
        BundleCase::with_room(book.to_vec(), bundle.bytes())
    }
}
