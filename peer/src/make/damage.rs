//! Damages: changes to a case that may or may not make it be refused. Which
//! of the two is for the desks to agree on.

use super::edges;
use super::random::Random;
use crate::compare::Case;

/// Does one to three damages to a case.
pub fn damage(random: &mut Random, case: &mut Case) {
    for _ in 0..1 + random.below(3) {
        match random.below(15) {
            0 => change_byte(random, &mut case.book),
            1 => change_byte(random, &mut case.sheet),
            2 => change_header(random, &mut case.book),
            3 => change_header(random, &mut case.sheet),
            4 => change_book_field(random, &mut case.book),
            5 => change_length(random, case),
            6 => case.exact_len = random.index(case.exact_len + 4),
            7 => case.shown_len = random.index(case.shown_len + 4),
            8 | 9 => damage_table(random, &mut case.fugitive),
            10 | 11 => damage_book(random, &mut case.own),
            _ => change_line_field(random, &mut case.sheet),
        }
    }
}

/// Does one damage to a sheet, most often to a field of one of its lines.
pub fn damage_sheet(random: &mut Random, sheet: &mut [u8]) {
    match random.below(6) {
        0 => change_byte(random, sheet),
        1 => change_header(random, sheet),
        _ => change_line_field(random, sheet),
    }
}

/// Does one damage to a book, most often to a field of one of its rows.
pub fn damage_book(random: &mut Random, book: &mut Vec<u8>) {
    match random.below(6) {
        0 => change_byte(random, book),
        1 => change_length_of(random, book),
        2 => change_header(random, book),
        _ => change_book_field(random, book),
    }
}

/// Does one damage to a fugitive table.
pub fn damage_table(random: &mut Random, table: &mut Vec<u8>) {
    match random.below(6) {
        0 => change_byte(random, table),
        1 => change_length_of(random, table),
        2 => change_header(random, table),
        3 => change_entry_field(random, table),
        _ => lose_entry(random, table),
    }
}

/// Takes one entry out of a table, which stays right.
fn lose_entry(random: &mut Random, table: &mut Vec<u8>) {
    let entries = u16_at(table, 4) as usize;
    let begin = u32_at(table, 8) as usize + 28 * random.index(entries.max(1));
    if entries > 0 && begin + 28 <= table.len() {
        table.drain(begin..begin + 28);
        write_field(table, 4, 2, entries as u64 - 1);
        own_length(table);
    }
}

/// Bytes without form, most often with their own length in front so that more
/// than the length is looked at.
pub fn formless_case(random: &mut Random) -> Case {
    let mut case = Case::with_room(formless_file(random), formless_file(random));
    if random.chance(30) {
        case.own = formless_file(random);
    }
    if random.chance(50) {
        case.fugitive = formless_file(random);
    }
    if random.chance(10) {
        case.exact_len = random.index(20);
        case.shown_len = random.index(20);
    }
    case
}

fn formless_file(random: &mut Random) -> Vec<u8> {
    let length = if random.chance(50) { random.index(33) } else { random.index(400) };
    let mut file = random.bytes(length);
    if random.chance(80) {
        own_length(&mut file);
    }
    if random.chance(60) && length >= 16 {
        // A header of small numbers gets further than one of any numbers.
        file[4..16].fill_with(|| random.pick(&[0, 0, 0, 1, 2, 16, 40]));
    }
    file
}

/// Writes the file's length into its header, if there is room for it.
pub fn own_length(file: &mut [u8]) {
    let length = (file.len() as u32).to_le_bytes();
    if file.len() >= 4 {
        file[..4].copy_from_slice(&length);
    }
}

pub fn change_byte(random: &mut Random, file: &mut [u8]) {
    if !file.is_empty() {
        let at = random.index(file.len());
        file[at] = random.bits() as u8;
    }
}

/// A header field becomes an edge, or moves a little.
fn change_header(random: &mut Random, file: &mut [u8]) {
    let (at, width) = random.pick(&[(0, 4), (4, 2), (6, 2), (6, 1), (7, 1), (8, 4), (12, 4)]);
    change_field(random, file, at, width);
}

fn change_book_field(random: &mut Random, book: &mut [u8]) {
    let row_offset = u32_at(book, 8) as usize;
    let rows = u16_at(book, 4) as usize;
    if rows == 0 {
        return change_header(random, book);
    }
    let (at, width) = random.pick(&[
        (0, 2),
        (8, 2),
        (10, 1),
        (11, 1),
        (12, 1),
        (13, 1),
        (14, 1),
        (15, 1),
        (16, 4),
        (20, 2),
        (22, 2),
    ]);
    let row = row_offset + 24 * random.index(rows);
    change_field(random, book, row + at, width);
}

fn change_entry_field(random: &mut Random, table: &mut [u8]) {
    let offset = u32_at(table, 8) as usize;
    let entries = u16_at(table, 4) as usize;
    if entries == 0 {
        return change_header(random, table);
    }
    let entry = offset + 28 * random.index(entries);
    let field = 2 * random.index(14);
    change_field(random, table, entry + field, 2);
}

fn change_line_field(random: &mut Random, sheet: &mut [u8]) {
    let line_offset = u32_at(sheet, 8) as usize;
    let lines = u16_at(sheet, 4) as usize;
    if lines == 0 {
        return change_header(random, sheet);
    }
    let line = line_offset + 64 * random.index(lines);
    if random.chance(10) {
        let at = random.pick(&[56, 57, 58]);
        return write_field(sheet, line + at, 1, random.below(5));
    }
    if random.chance(40) {
        let bits = random.pick(&edges::readings());
        let at = random.pick(&[32, 40, 48]);
        return write_field(sheet, line + at, 8, bits);
    }
    let (at, width) = random.pick(&[
        (0, 2),
        (2, 2),
        (8, 2),
        (10, 2),
        (12, 2),
        (14, 1),
        (15, 1),
        (16, 8),
        (24, 8),
        (56, 1),
        (57, 1),
        (58, 1),
        (59, 1),
        (63, 1),
    ]);
    change_field(random, sheet, line + at, width);
}

fn change_length(random: &mut Random, case: &mut Case) {
    let file = if random.chance(50) { &mut case.book } else { &mut case.sheet };
    change_length_of(random, file);
}

/// Cuts a file or makes it longer, with or without its own length in front.
pub fn change_length_of(random: &mut Random, file: &mut Vec<u8>) {
    let fix = random.chance(50);
    if random.chance(50) {
        let length = random.index(file.len() + 1);
        file.truncate(length);
    } else {
        let more = 1 + random.index(70);
        file.extend(random.bytes(more));
    }
    if fix {
        own_length(file);
    }
}

/// A field becomes an edge, or any number.
pub fn change_field(random: &mut Random, file: &mut [u8], at: usize, width: usize) {
    let number = if random.chance(70) { random.pick(&edges::NUMBERS) } else { random.bits() };
    write_field(file, at, width, number);
}

/// Does nothing where an earlier damage has moved the place out of the file.
fn write_field(file: &mut [u8], at: usize, width: usize, number: u64) {
    if let Some(field) = at.checked_add(width).and_then(|end| file.get_mut(at..end)) {
        field.copy_from_slice(&number.to_le_bytes()[..width]);
    }
}

fn u16_at(file: &[u8], at: usize) -> u16 {
    file.get(at..at + 2).map_or(0, |field| u16::from_le_bytes(field.try_into().unwrap()))
}

fn u32_at(file: &[u8], at: usize) -> u32 {
    file.get(at..at + 4).map_or(0, |field| u32::from_le_bytes(field.try_into().unwrap()))
}
