//! Books, fugitive tables, sheets, bundles, texts and tables to be settled, made for
//! tests: builders for single cases, seeded generators for many, and damages.

mod bundle;
pub mod damage;
pub mod dust;
pub mod edges;
pub mod fugitive;
pub mod generate;
pub mod inspect;
pub mod kiln;
pub mod own;
mod parts;
mod random;
pub mod tables;
pub mod text;
pub mod two_kinds;
pub mod works;

pub use bundle::Bundle;
pub use fugitive::{Entry, Fugitive};
pub use parts::{Book, Line, Row, Sheet, Technique};
pub use random::Random;

use crate::compare::{BundleCase, Case, Conversion, RowCase, StepCase, TextCase, ThereAndBack};

/// Each of the first with each of the second.
pub fn every_two<A: Clone, B: Clone>(first: &[A], second: &[B]) -> Vec<(A, B)> {
    let with_second = |a: &A| second.iter().map(|b| (a.clone(), b.clone())).collect::<Vec<_>>();
    first.iter().flat_map(with_second).collect()
}

/// A case of any sort, for long runs: mostly small, now and then large, some
/// of them damaged, a few without any form.
pub fn any_case(random: &mut Random) -> Case {
    if random.chance(2) {
        return damage::formless_case(random);
    }
    let size = any_size(random);
    let mut case = generate::case_up_to(random, size);
    if random.chance(50) {
        damage::damage(random, &mut case);
    }
    case
}

/// The same for bundles.
pub fn any_bundle(random: &mut Random) -> BundleCase {
    let size = any_size(random);
    let mut case = works::mixed_works(random, size);
    if random.chance(50) {
        works::damage_bundle(random, &mut case);
    }
    case
}

/// A case whose sheet is typed as text, some of the texts damaged, and now and then
/// the own book or the fugitive table.
pub fn any_text_case(random: &mut Random) -> TextCase {
    let size = any_size(random);
    let mut case = generate::case_up_to(random, size);
    if random.chance(20) {
        damage::damage_table(random, &mut case.fugitive);
    }
    if random.chance(20) {
        damage::damage_book(random, &mut case.own);
    }
    let Case { own, book, fugitive, sheet, exact_len, shown_len } = case;
    TextCase { own, book, fugitive, text: any_text(random, &sheet), exact_len, shown_len }
}

fn any_text(random: &mut Random, sheet: &[u8]) -> Vec<u8> {
    let mut text = text::Text::of_sheet(sheet).typed(random).bytes();
    if random.chance(50) {
        text::damage_text(random, &mut text);
    }
    text
}

/// A text to be read or a sheet to be written, some of them damaged, and now and
/// then with too little room.
pub fn any_conversion(random: &mut Random) -> Conversion {
    let most_lines = any_size(random).lines;
    let lines = random.index(most_lines + 1);
    let mut sheet = text::wide_sheet(random, lines).bytes();
    let conversion = if random.chance(50) {
        Conversion::read(&any_text(random, &sheet))
    } else {
        if random.chance(50) {
            damage::damage_sheet(random, &mut sheet);
        }
        Conversion::write(&sheet)
    };
    match random.chance(20) {
        true => conversion.with_room(random.index(150 * (lines + 1))),
        false => conversion,
    }
}

/// A case to be written as text and read again, some of the sheets damaged.
pub fn any_there_and_back(random: &mut Random) -> ThereAndBack {
    ThereAndBack(any_case(random))
}

/// A row that is asked for, of any two books.
pub fn any_row_case(random: &mut Random) -> RowCase {
    let size = any_size(random);
    inspect::row_case(random, size)
}

/// A table to be settled.
pub fn any_step_case(random: &mut Random) -> StepCase {
    let most_lines = any_size(random).lines;
    tables::step_case(random, most_lines)
}

fn any_size(random: &mut Random) -> generate::Size {
    match random.below(100) {
        0 => generate::Size { rows: 1024, techniques: 4096, lines: 128 },
        1..=9 => generate::Size { rows: 200, techniques: 500, lines: 60 },
        _ => generate::Size { rows: 12, techniques: 20, lines: 8 },
    }
}
