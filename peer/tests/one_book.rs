//! A works that holds no factors of its own, or just the published ones, has every
//! answer of a desk that knows of no own book: plain Rust with the published book
//! alone. Cases are generated, good and damaged.

use checkraven::{cells_for, report, Outcome, MOST_CELLS, NO_OWN};
use peer::compare::{earlier_cells, limited, run_proved, BundleCase, Case, Filled};
use peer::compare::{Tally, TextCase};
use peer::make::generate::{self, Size};
use peer::make::{any_bundle, any_case, any_text_case, own, Book, Random, Row};
use peer::plain;
use peer::print::whole_output;

/// The desk's answer with the published book alone, and the exact result.
fn by_one_book(case: &Case) -> (Outcome, Vec<u64>) {
    let mut exact: Vec<u64> = earlier_cells(case.exact_len).collect();
    let mut shown: Vec<u64> = earlier_cells(case.shown_len).collect();
    let Case { book, fugitive, sheet, .. } = case;
    let answer = plain::account_by_one_book(book, fugitive, sheet, &mut exact, &mut shown);
    let outcome = match answer {
        Ok(()) => Outcome::Accepted,
        Err(plain::Refusal { number, line }) => Outcome::Refused { number, line },
    };
    (outcome, exact)
}

/// Own books that change no answer: of no rows in several forms, of rows that no line
/// has, and the published one where it is well formed.
fn idle_books(book: &[u8]) -> Vec<Vec<u8>> {
    let rows = [Row { place: [7, 65_535, 7, 65_535], ..Row::plain(1, 251, 3) }];
    let strange = Book { rows: rows.to_vec(), ..Book::default() };
    let gaps = Book { gaps: [3, 0, 9], ..own::NO_ROWS.clone() };
    vec![NO_OWN.to_vec(), gaps.bytes(), strange.bytes(), book.to_vec()]
}

/// The one-book desk's answer and exact cells, and one shown table under all of them.
fn check(tally: &mut Tally, case: &Case) {
    let (outcome, exact) = by_one_book(case);
    let mut run = |own| {
        let case = case.clone().with_own(own);
        assert_eq!(tally.compare(&case), outcome);
        run_proved(&case).expect("the memory around is kept")
    };
    let filled: Vec<Filled> = idle_books(&case.book).into_iter().map(&mut run).collect();
    for one in &filled {
        assert_eq!(one.exact, exact);
        assert_eq!(one.shown, filled[0].shown);
    }
}

#[test]
fn sheets() {
    let mut tally = Tally::new("sheets under one book");
    let mut random = Random::new(71);
    let most = Size { rows: 12, techniques: 20, lines: 8 };
    for _ in 0..limited(6_000) {
        check(&mut tally, &generate::case_up_to(&mut random, most));
    }
}

#[test]
fn sheets_of_any_sort() {
    let mut tally = Tally::new("sheets of any sort under one book");
    let mut random = Random::new(72);
    for _ in 0..limited(6_000) {
        check(&mut tally, &any_case(&mut random));
    }
}

/// Each sheet of a bundle that is taken.
#[test]
fn bundles() {
    let mut tally = Tally::new("bundles under one book");
    let mut random = Random::new(73);
    for _ in 0..limited(2_000) {
        let case = any_bundle(&mut random);
        let cases = idle_books(&case.book).into_iter().map(|own| case.clone().with_own(own));
        cases.filter(|case| tally.compare(case).is_accepted()).for_each(|case| check_sheets(&case));
    }
}

fn check_sheets(case: &BundleCase) {
    let filled = case.run_proved().expect("the memory around is kept");
    for index in 0..case.sheet_count() {
        let sheet = case.sheet_filled(&filled, index);
        let (outcome, exact) = by_one_book(&case.sheet_alone(index));
        assert_eq!(sheet.outcome, outcome);
        let lines = case.sheet_alone(index).line_count();
        let cells = if outcome.is_accepted() { cells_for(lines) } else { 0 };
        assert_eq!(sheet.exact[..cells], exact[..cells]);
    }
}

#[test]
fn texts() {
    let mut tally = Tally::new("texts under one book");
    let mut random = Random::new(74);
    for _ in 0..limited(4_000) {
        check_text(&mut tally, &any_text_case(&mut random));
    }
}

/// A text as the binary sheet that it stands for, with 12 in the place of 2.
fn check_text(tally: &mut Tally, case: &TextCase) {
    let (outcome, exact) = by_one_book(&case.with_binary_sheet());
    let outcome = match outcome {
        Outcome::Refused { number: 2, line } => Outcome::Refused { number: 12, line },
        other => other,
    };
    for own in idle_books(&case.book) {
        let case = case.clone().with_own(own);
        assert_eq!(tally.compare(&case), outcome);
        assert_eq!(case.run_proved().expect("the memory around is kept").exact, exact);
    }
}

#[test]
fn reports() {
    let mut random = Random::new(75);
    let most = Size { rows: 12, techniques: 20, lines: 8 };
    for _ in 0..limited(1_000) {
        let case = generate::case_up_to(&mut random, most);
        check_report(&case.with_lengths(MOST_CELLS, MOST_CELLS));
    }
}

/// The proved desk's shown table stands beside the one-book desk's exact one.
fn check_report(case: &Case) {
    let (outcome, exact) = by_one_book(case);
    for own in idle_books(&case.book) {
        let case = case.clone().with_own(own);
        let shown = run_proved(&case).expect("the memory around is kept").shown;
        let expected = whole_output(&case, outcome, &exact, &shown);
        assert_eq!(report(&case.own, &case.book, &case.fugitive, &case.sheet), expected);
    }
}

/// One file lent as both books, and not a copy of it.
#[test]
fn one_file_lent_twice() {
    let mut random = Random::new(76);
    let most = Size { rows: 12, techniques: 20, lines: 8 };
    for _ in 0..limited(1_000) {
        let case = generate::case_up_to(&mut random, most);
        let mut exact: Vec<u64> = earlier_cells(case.exact_len).collect();
        let mut shown: Vec<u64> = earlier_cells(case.shown_len).collect();
        let Case { book, fugitive, sheet, .. } = &case;
        let outcome = checkraven::account(book, book, fugitive, sheet, &mut exact, &mut shown);
        assert_eq!((outcome, exact), by_one_book(&case));
    }
}
