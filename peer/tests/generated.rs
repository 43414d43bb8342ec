//! Well-formed books and sheets of every size; all of them are accepted.

use peer::compare::{limited, thinned, Tally};
use peer::make::generate::{self, Size};
use peer::make::{Random, Row, Sheet, Technique};
use peer::{compare::Case, make::Book, make::Line};

#[test]
fn small_books_and_sheets() {
    let mut tally = Tally::new("small_books_and_sheets");
    let mut random = Random::new(1);
    let most = Size { rows: 12, techniques: 20, lines: 8 };
    for _ in 0..limited(40_000) {
        tally.expect_accepted(&generate::case_up_to(&mut random, most));
    }
}

#[test]
fn books_and_sheets_of_middle_size() {
    let mut tally = Tally::new("books_and_sheets_of_middle_size");
    let mut random = Random::new(2);
    let most = Size { rows: 150, techniques: 300, lines: 60 };
    for _ in 0..limited(3_000) {
        tally.expect_accepted(&generate::case_up_to(&mut random, most));
    }
}

#[test]
fn every_number_of_lines() {
    let mut tally = Tally::new("every_number_of_lines");
    let mut random = Random::new(3);
    let numbers = (0..=128).flat_map(|lines| [lines; 12]).collect();
    for lines in thinned(numbers) {
        let size = Size { rows: 1 + random.index(30), techniques: random.index(60), lines };
        tally.expect_accepted(&generate::case(&mut random, size));
    }
}

#[test]
fn every_number_of_rows() {
    let mut tally = Tally::new("every_number_of_rows");
    let mut random = Random::new(4);
    for rows in thinned((0..=1024).collect()) {
        let size = Size { rows, techniques: random.index(100), lines: random.index(10) };
        tally.expect_accepted(&generate::case(&mut random, size));
    }
}

#[test]
fn many_numbers_of_techniques() {
    let mut tally = Tally::new("many_numbers_of_techniques");
    let mut random = Random::new(5);
    let numbers: Vec<usize> = (0..=4096).step_by(16).chain(4090..=4096).collect();
    for techniques in thinned(numbers) {
        let size = Size { rows: 1 + random.index(20), techniques, lines: random.index(10) };
        tally.expect_accepted(&generate::case(&mut random, size));
    }
}

#[test]
fn full_books_with_full_sheets() {
    let mut tally = Tally::new("full_books_with_full_sheets");
    let mut random = Random::new(6);
    for _ in 0..limited(60) {
        let size = Size { rows: 1024, techniques: 4096, lines: 128 };
        tally.expect_accepted(&generate::case(&mut random, size));
    }
}

/// All rows name all techniques; only the last technique decides the answer.
#[test]
fn rows_that_share_all_techniques() {
    let mut tally = Tally::new("rows_that_share_all_techniques");
    let mut book = Book::default();
    let technique = |code| Technique { code, efficiency: 500 };
    book.techniques = (1..=4096).map(technique).collect();
    let row = |scale| Row { scale, ..Row::plain(2, 3, 7) }.with_techniques(1, 0, 4096);
    book.rows = (0..1024).map(row).collect();
    let line = |technique| Line::direct(999).treated(technique, 3, [0.0; 3]);
    let sheet = Sheet::new(2, 3, 1, vec![line(1), line(4096)]);
    tally.expect_accepted(&Case::of(&book, &sheet));
    book.techniques[4095].efficiency = 1001;
    tally.expect_refused(&Case::of(&book, &sheet), 1, 0);
    book.techniques[4095] = technique(4095);
    tally.expect_refused(&Case::of(&book, &sheet), 1, 0);
}

/// Tables in which nearly every cell is loose, in all three units.
#[test]
fn loose_tables() {
    let mut tally = Tally::new("loose_tables");
    let mut random = Random::new(7);
    for round in 0..limited(6_000) {
        let lines = if round % 20 == 0 { 128 } else { 1 + random.index(12) };
        let case = loose_case(&mut random, 1 + (round % 3) as u32, lines);
        tally.expect_accepted(&case);
    }
}

fn loose_case(random: &mut Random, unit: u32, lines: usize) -> Case {
    let efficiency = 1 + random.below(999) as u16;
    let digits = 1 + random.below(99_999_999) as u32;
    let row = Row { places: 5, ..Row::plain(1, 1, digits) };
    let book = Book {
        rows: vec![row.with_techniques(1, 0, 1)],
        techniques: vec![Technique { code: 1, efficiency }],
        gaps: [0; 3],
    };
    let line = |random: &mut Random| {
        let hours = [1.0 + random.below(4000) as f64, 5000.0 + random.below(3000) as f64, 0.0];
        let product = 1 + random.up_to(999_999_999);
        let reuse = 1 + random.below(999) as u16;
        Line { reuse, ..Line::direct(product).treated(1, 1, hours) }
    };
    let lines = (0..lines).map(|_| line(random)).collect();
    Case::of(&book, &Sheet::new(1, 1, unit, lines))
}
