//! Seeded generators of whole works, two books, a fugitive table and a bundle of
//! sheets, and damages to them.

use super::bundle::Bundle;
use super::damage::{change_byte, change_field, change_length_of, damage_sheet};
use super::damage::{damage_book, damage_table};
use super::fugitive::{self, Fugitive};
use super::generate::{self, Size};
use super::own::{own_book, Books};
use super::parts::Book;
use super::random::Random;
use crate::compare::BundleCase;
use checkraven::cells_for;

/// A works whose bundle is taken, with so many sheets that are all accepted.
pub fn sound_works(random: &mut Random, sheets: usize, most: Size) -> BundleCase {
    let book = book_up_to(random, most);
    let own = own_book(random, &book);
    let table = fugitive::table(random, &book);
    let books = Books { own: &own, published: &book };
    let mut sheet = |_| sheet_up_to(random, books, &table, most);
    let sheets: Vec<Vec<u8>> = (0..sheets).map(&mut sheet).collect();
    let more = random.index(5);
    bundled(random, books, &sheets, cells_for_all(&sheets) + more).with_fugitive(table.bytes())
}

/// A works whose bundle is taken. Any of its sheets may be damaged or empty,
/// its runs may be too short for some of them, and now and then a book or the
/// fugitive table is bad.
pub fn mixed_works(random: &mut Random, most: Size) -> BundleCase {
    let book = book_up_to(random, most);
    let own = own_book(random, &book);
    let table = fugitive::table(random, &book);
    let books = Books { own: &own, published: &book };
    let count = random.up_to(16) as usize;
    let mut sheet = |_| any_sheet(random, books, &table, most);
    let sheets: Vec<Vec<u8>> = (0..count).map(&mut sheet).collect();
    let cells = match random.below(4) {
        0 => random.index(cells_for_all(&sheets) + 9),
        _ => cells_for_all(&sheets),
    };
    let mut case = bundled(random, books, &sheets, cells).with_fugitive(table.bytes());
    if random.chance(5) {
        change_byte(random, &mut case.book);
    }
    if random.chance(5) {
        damage_book(random, &mut case.own);
    }
    if random.chance(5) {
        damage_table(random, &mut case.fugitive);
    }
    case
}

pub fn book_up_to(random: &mut Random, most: Size) -> Book {
    let (rows, techniques) = (random.index(most.rows + 1), random.index(most.techniques + 1));
    generate::book(random, rows, techniques)
}

/// As many lines as may stand in each of 16 sheets within 65,536 bytes.
const MOST_LINES: usize = 60;

fn sheet_up_to(random: &mut Random, books: Books, table: &Fugitive, most: Size) -> Vec<u8> {
    let lines = random.index(most.lines.min(MOST_LINES) + 1);
    generate::graded_sheet(random, books, table, lines).bytes()
}

fn any_sheet(random: &mut Random, books: Books, table: &Fugitive, most: Size) -> Vec<u8> {
    if random.chance(5) {
        return vec![];
    }
    let mut sheet = sheet_up_to(random, books, table, most);
    if random.chance(30) {
        damage_sheet(random, &mut sheet);
    }
    sheet
}

/// Cells per sheet that are enough for the sheet with the most bytes.
fn cells_for_all(sheets: &[Vec<u8>]) -> usize {
    let most_bytes = sheets.iter().map(Vec::len).max().unwrap_or(0);
    cells_for(most_bytes / 64)
}

fn bundled(random: &mut Random, books: Books, sheets: &[Vec<u8>], cells: usize) -> BundleCase {
    let with_gaps = random.chance(50);
    let gaps: Vec<usize> =
        (0..=sheets.len()).map(|_| if with_gaps { random.index(9) } else { 0 }).collect();
    let bundle = Bundle::with_gaps(cells as u32, sheets, &gaps);
    BundleCase::of(&books.published.bytes(), &bundle).with_own(books.own.bytes())
}

/// Does one to three damages to a bundle or to what is lent for it.
pub fn damage_bundle(random: &mut Random, case: &mut BundleCase) {
    for _ in 0..1 + random.below(3) {
        match random.below(10) {
            0 => change_byte(random, &mut case.bundle),
            1 => change_length_of(random, &mut case.bundle),
            2 => case.exact_len = random.index(case.exact_len + 4),
            3 => case.shown_len = random.index(case.shown_len + 4),
            4 => case.outcomes_len = random.index(case.outcomes_len + 4),
            5 => change_bundle_header(random, &mut case.bundle),
            _ => change_entry(random, case),
        }
    }
}

fn change_bundle_header(random: &mut Random, bundle: &mut [u8]) {
    let (at, width) = random.pick(&[(0, 4), (4, 2), (6, 2), (8, 4)]);
    change_field(random, bundle, at, width);
}

/// An offset or a length becomes an edge, or moves by a byte.
fn change_entry(random: &mut Random, case: &mut BundleCase) {
    let at = 12 + 4 * random.index(2 * case.sheet_count().clamp(1, 16));
    if random.chance(30) {
        return change_field(random, &mut case.bundle, at, 4);
    }
    if let Some(field) = case.bundle.get_mut(at..at + 4) {
        let number = u32::from_le_bytes(field.try_into().unwrap());
        let moved = random.pick(&[number.wrapping_add(1), number.wrapping_sub(1)]);
        field.copy_from_slice(&moved.to_le_bytes());
    }
}
