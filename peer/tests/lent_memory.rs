//! Results of every length around what a sheet needs. The comparison itself
//! lends the middle of larger pieces and looks at the marks on both sides, at
//! cells past the tables, and at the files afterwards.

use peer::compare::{limited, thinned, Case, Tally};
use peer::make::generate::{self, Size};
use peer::make::{Book, Line, Random, Row, Sheet};

fn case(lines: usize) -> Case {
    let book = Book { rows: vec![Row::plain(1, 1, 7)], ..Book::default() };
    let line = Line { reuse: 333, ..Line::direct(12_345) };
    Case::of(&book, &Sheet::new(1, 1, 2, vec![line; lines]))
}

#[test]
fn every_two_lengths_around_the_need() {
    let mut tally = Tally::new("every_two_lengths_around_the_need");
    for lines in [0, 1, 2, 5] {
        let need = 5 * (lines + 1);
        let lengths = 0..=need + 9;
        let pairs = lengths.clone().flat_map(|a| lengths.clone().map(move |b| (a, b))).collect();
        for (exact_len, shown_len) in thinned::<(usize, usize)>(pairs) {
            let case = case(lines).with_lengths(exact_len, shown_len);
            match exact_len >= need && shown_len >= need {
                true => tally.expect_accepted(&case),
                false => tally.expect_refused(&case, 3, 0),
            }
        }
    }
}

#[test]
fn the_full_sheet_at_its_need_and_next_to_it() {
    let mut tally = Tally::new("the_full_sheet_at_its_need_and_next_to_it");
    for lines in [127, 128] {
        let need = 5 * (lines + 1);
        tally.expect_accepted(&case(lines).with_lengths(need, need));
        tally.expect_accepted(&case(lines).with_lengths(need, 5000));
        tally.expect_refused(&case(lines).with_lengths(need - 1, need), 3, 0);
        tally.expect_refused(&case(lines).with_lengths(need, need - 1), 3, 0);
        tally.expect_refused(&case(lines).with_lengths(0, 5000), 3, 0);
    }
}

/// A refusal makes all cells zero, also far past the tables.
#[test]
fn long_results_after_a_refusal() {
    let mut tally = Tally::new("long_results_after_a_refusal");
    let spoil: [fn(&mut Case); 3] =
        [|case| case.book[0] ^= 1, |case| case.sheet[0] ^= 1, |case| case.sheet[16] ^= 1];
    for (at, spoil) in spoil.iter().enumerate() {
        for lengths in [(100, 70_000), (70_000, 100), (10, 10), (11, 15)] {
            let mut case = case(1).with_lengths(lengths.0, lengths.1);
            spoil(&mut case);
            let (number, line) = [(1, 0), (2, 0), (6, 1)][at];
            tally.expect_refused(&case, number, line);
        }
    }
}

#[test]
fn generated_cases_with_many_lengths() {
    let mut tally = Tally::new("generated_cases_with_many_lengths");
    let mut random = Random::new(21);
    let most = Size { rows: 8, techniques: 8, lines: 8 };
    for _ in 0..limited(15_000) {
        let case = generate::case_up_to(&mut random, most);
        let (exact_len, shown_len) = (random.index(50), random.index(50));
        tally.agree(&case.with_lengths(exact_len, shown_len));
    }
}
