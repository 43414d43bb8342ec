//! Whether the generators make own books of all sorts, so that what is said of
//! generated cases is said of every way in which two books may stand together.

use checkraven::{NO_FUGITIVE, NO_OWN};
use peer::compare::{run_plain, Case};
use peer::make::generate::{self, Size};
use peer::make::{any_case, Random, Sheet};
use peer::plain::{self, Asked};

const MOST: Size = Size { rows: 12, techniques: 20, lines: 8 };

fn row_count(book: &[u8]) -> u16 {
    u16::from_le_bytes([book[4], book[5]])
}

/// Books without rows in about half of the cases; small and large ones in others.
#[test]
fn own_books_of_all_sizes() {
    let mut random = Random::new(95);
    let cases = 4_000;
    let (mut without, mut most) = (0, 0);
    for _ in 0..cases {
        let own = generate::case_up_to(&mut random, MOST).own;
        without += usize::from(row_count(&own) == 0);
        most = most.max(row_count(&own));
    }
    assert!((2 * cases / 5..3 * cases / 5).contains(&without), "{without} of {cases}");
    assert!(most > 12);
    let full = Size { rows: 1024, techniques: 4096, lines: 0 };
    let largest = (0..40).map(|_| row_count(&generate::case(&mut random, full).own)).max();
    assert_eq!(largest, Some(1024));
}

/// Whether a book alone has a row with just these numbers.
fn has(book: &[u8], asked: Asked) -> bool {
    let row = plain::row(&NO_OWN, book, asked);
    row.get(8..10)
        .is_some_and(|scale| u64::from(u16::from_le_bytes([scale[0], scale[1]])) == asked[4])
}

/// The lines of a sheet that is taken.
fn lines(case: &Case) -> impl Iterator<Item = &[u8; 64]> {
    let offset = u32::from_le_bytes(case.sheet[8..12].try_into().unwrap()) as usize;
    case.sheet[offset..].as_chunks().0.iter().take(case.line_count())
}

/// A bit for each of own and published, each for the line's scale and for all.
fn present(case: &Case, line: &[u8; 64]) -> usize {
    let code = |at: usize| u64::from(u16::from_le_bytes([line[at], line[at + 1]]));
    let (medium, pollutant) = (case.sheet[6].into(), case.sheet[7].into());
    let asked = |scale| [code(0), code(2), code(4), code(6), scale, medium, pollutant];
    let rows = [(&case.own, code(8)), (&case.own, 0), (&case.book, code(8)), (&case.book, 0)];
    rows.iter()
        .rev()
        .fold(0, |bits, (book, scale)| 2 * bits + usize::from(has(book, asked(*scale))))
}

/// Lines of a scale of their own meet every combination of the four rows; there is no
/// line without any.
#[test]
fn lines_meet_every_combination_of_rows() {
    let mut random = Random::new(96);
    let mut met = [0; 16];
    for _ in 0..6_000 {
        let case = generate::case_up_to(&mut random, MOST);
        let of_a_scale = lines(&case).filter(|line| line[8..10] != [0, 0]);
        of_a_scale.for_each(|line| met[present(&case, line)] += 1);
    }
    assert_eq!(met[0], 0);
    assert!(met[1..].iter().all(|&lines| lines > 30), "{met:?}");
}

/// With another own book, or none, the figures or the answer would be others: by the
/// coefficient, the basis, the techniques or the k rule of its rows.
#[test]
fn own_books_change_answers() {
    let mut random = Random::new(97);
    let cases = 4_000;
    let (mut other_figures, mut other_answers) = (0, 0);
    for _ in 0..cases {
        let case = generate::case_up_to(&mut random, MOST);
        let [with, without] =
            [case.clone(), case.with_own(NO_OWN.to_vec())].map(|case| run_plain(&case));
        other_answers += usize::from(with.outcome != without.outcome);
        other_figures +=
            usize::from(with.outcome == without.outcome && with.exact != without.exact);
    }
    assert!(other_figures > cases / 50, "{other_figures} of {cases}");
    assert!(other_answers > cases / 10, "{other_answers} of {cases}");
}

fn is_malformed(book: &[u8]) -> bool {
    let sheet = Sheet::new(1, 1, 1, vec![]).bytes();
    plain::account_by_one_book(book, &NO_FUGITIVE, &sheet, &mut [0; 5], &mut [0; 5]).is_err()
}

/// Either book is damaged alone, and both are.
#[test]
fn damages_to_either_book_and_to_both() {
    let mut random = Random::new(98);
    let mut met = [0; 4];
    for _ in 0..10_000 {
        let case = any_case(&mut random);
        met[usize::from(is_malformed(&case.own)) + 2 * usize::from(is_malformed(&case.book))] += 1;
    }
    assert!(met[0] > 5_000 && met[1] > 300 && met[2] > 300 && met[3] > 50, "{met:?}");
}
