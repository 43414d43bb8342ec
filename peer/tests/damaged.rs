//! Files that are changed, cut or made longer, and bytes without form. The
//! desks must agree, whatever the answer is.

use peer::compare::{limited, thinned, Case, Tally};
use peer::make::damage::{damage, formless_case, own_length};
use peer::make::generate::{case_up_to, Size};
use peer::make::{edges, Book, Line, Random, Row, Sheet, Technique};

/// A small case with gaps everywhere, both k rules and a scale that falls
/// back to all scales.
fn small_case() -> Case {
    let technique = |code, efficiency| Technique { code, efficiency };
    let row = |process| Row { place: [3240, 1, 1, process], ..Row::plain(1, 1, 203) };
    let book = Book {
        rows: vec![row(1).with_techniques(1, 0, 2), row(2).with_techniques(2, 1, 2)],
        techniques: vec![technique(1, 700), technique(2, 300), technique(300, 990)],
        gaps: [2, 3, 1],
    };
    let by_hours = Line::direct(16_250_001).treated(2, 1, [7000.5, 7920.0, 0.0]);
    let by_energy = Line::direct(1_000_007).treated(300, 2, [899.0, 0.5, 3600.0]);
    let by_energy = Line { place: [3240, 1, 1, 2], scale: 4, reuse: 333, ..by_energy };
    let sheet = Sheet { gaps: [1, 2], ..Sheet::new(1, 1, 3, vec![by_hours, by_energy]) };
    Case::of(&book, &sheet)
}

/// Which of a case's files is changed.
#[derive(Clone, Copy)]
enum Which {
    Book,
    Sheet,
}

const BOTH: [Which; 2] = [Which::Book, Which::Sheet];

fn file(case: &mut Case, which: Which) -> &mut Vec<u8> {
    match which {
        Which::Book => &mut case.book,
        Which::Sheet => &mut case.sheet,
    }
}

#[test]
fn the_small_case_is_accepted() {
    Tally::new("the_small_case_is_accepted").expect_accepted(&small_case());
}

#[test]
fn every_other_value_of_every_byte_of_the_book() {
    let mut tally = Tally::new("every_other_value_of_every_byte_of_the_book");
    every_other_value_of_every_byte(&mut tally, Which::Book);
}

#[test]
fn every_other_value_of_every_byte_of_the_sheet() {
    let mut tally = Tally::new("every_other_value_of_every_byte_of_the_sheet");
    every_other_value_of_every_byte(&mut tally, Which::Sheet);
}

fn every_other_value_of_every_byte(tally: &mut Tally, which: Which) {
    let mut case = small_case();
    let length = file(&mut case, which).len();
    let changes = (0..255 * length).map(|n| (n / 255, 1 + (n % 255) as u8)).collect();
    for (at, turn) in thinned::<(usize, u8)>(changes) {
        file(&mut case, which)[at] ^= turn;
        tally.agree(&case);
        file(&mut case, which)[at] ^= turn;
    }
}

#[test]
fn every_header_field_at_edges() {
    let mut tally = Tally::new("every_header_field_at_edges");
    for which in BOTH {
        let mut case = small_case();
        let length = file(&mut case, which).len() as u64;
        let near_the_end = length - 70..length + 3;
        let wrapping = (0..200).map(|back| u32::MAX as u64 - back);
        let powers = (0..32).map(|power| 1u64 << power);
        let values: Vec<u64> =
            edges::NUMBERS.into_iter().chain(near_the_end).chain(wrapping).chain(powers).collect();
        for (at, width) in [(0, 4), (4, 2), (6, 2), (8, 4), (12, 4)] {
            for value in thinned(values.clone()) {
                let mut case = case.clone();
                file(&mut case, which)[at..at + width]
                    .copy_from_slice(&value.to_le_bytes()[..width]);
                tally.agree(&case);
            }
        }
    }
}

/// Both offsets of the book at once: their sums may wrap in 32 bits.
#[test]
fn pairs_of_hostile_offsets() {
    let mut tally = Tally::new("pairs_of_hostile_offsets");
    let length = small_case().book.len() as u32;
    let small =
        [0, 15, 16, 17, 18, 66, 67, 69, 70, 71, length - 12, length - 11, length, length + 1];
    let large = [65_535, 65_536, 1 << 31, u32::MAX - 47, u32::MAX - 24, u32::MAX - 11, u32::MAX];
    let offsets: Vec<u32> = small.into_iter().chain(large).collect();
    for rows in [0u16, 1, 2, 1024, 1025, 65_535] {
        for techniques in [0u16, 1, 3, 4096, 4097, 65_535] {
            let pairs =
                offsets.iter().flat_map(|&a| offsets.iter().map(move |&b| (a, b))).collect();
            for (row_offset, technique_offset) in thinned::<(u32, u32)>(pairs) {
                let mut case = small_case();
                case.book[4..6].copy_from_slice(&rows.to_le_bytes());
                case.book[6..8].copy_from_slice(&techniques.to_le_bytes());
                case.book[8..12].copy_from_slice(&row_offset.to_le_bytes());
                case.book[12..16].copy_from_slice(&technique_offset.to_le_bytes());
                tally.agree(&case);
            }
        }
    }
}

#[test]
fn every_shorter_and_many_longer_files() {
    let mut tally = Tally::new("every_shorter_and_many_longer_files");
    for which in BOTH {
        let longest = file(&mut small_case(), which).len() + 130;
        for length in thinned((0..longest).collect()) {
            let mut case = small_case();
            file(&mut case, which).resize(length, 0);
            tally.agree(&case);
            own_length(file(&mut case, which));
            tally.agree(&case);
        }
    }
}

/// The row and technique blocks slide over the file; the desks read the same
/// numbers wherever they begin.
#[test]
fn sliding_offsets() {
    let mut tally = Tally::new("sliding_offsets");
    for which in BOTH {
        for at in [8, 12] {
            for offset in 0..250u32 {
                let mut case = small_case();
                let file = file(&mut case, which);
                file.resize(300, 0);
                own_length(file);
                file[at..at + 4].copy_from_slice(&offset.to_le_bytes());
                tally.agree(&case);
            }
        }
    }
}

#[test]
fn bytes_without_form() {
    let mut tally = Tally::new("bytes_without_form");
    let mut random = Random::new(11);
    for _ in 0..limited(20_000) {
        tally.agree(&formless_case(&mut random));
    }
}

#[test]
fn many_damages_to_small_cases() {
    let mut tally = Tally::new("many_damages_to_small_cases");
    let mut random = Random::new(12);
    let most = Size { rows: 8, techniques: 12, lines: 6 };
    for _ in 0..limited(60_000) {
        let mut case = case_up_to(&mut random, most);
        damage(&mut random, &mut case);
        tally.agree(&case);
    }
}

#[test]
fn many_damages_to_larger_cases() {
    let mut tally = Tally::new("many_damages_to_larger_cases");
    let mut random = Random::new(13);
    let most = Size { rows: 300, techniques: 400, lines: 128 };
    for _ in 0..limited(2_000) {
        let mut case = case_up_to(&mut random, most);
        damage(&mut random, &mut case);
        tally.agree(&case);
    }
}
