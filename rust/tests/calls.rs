//! The smallest calls: an empty sheet, empty files and results without room.

use checkraven::{account, cells_for, Outcome, NO_FUGITIVE, NO_OWN};

const BOOK_WITHOUT_ROWS: [u8; 16] = [16, 0, 0, 0, 0, 0, 0, 0, 16, 0, 0, 0, 16, 0, 0, 0];
const SHEET_WITHOUT_LINES: [u8; 16] = [16, 0, 0, 0, 0, 0, 1, 1, 16, 0, 0, 0, 1, 0, 0, 0];

fn lend(fugitive: &[u8], exact: &mut [u64], shown: &mut [u64]) -> Outcome {
    account(&NO_OWN, &BOOK_WITHOUT_ROWS, fugitive, &SHEET_WITHOUT_LINES, exact, shown)
}

#[test]
fn the_empty_sheet_has_one_row_of_zeros() {
    let (mut exact, mut shown) = ([7; 7], [8; 6]);
    let outcome = lend(&NO_FUGITIVE, &mut exact, &mut shown);
    assert!(outcome.is_accepted());
    assert_eq!(exact, [0, 0, 0, 0, 0, 7, 7]);
    assert_eq!(shown, [0, 0, 0, 0, 0, 8]);
}

#[test]
fn empty_files_are_refused_and_the_results_are_zero() {
    let (mut exact, mut shown) = ([7; 6], [8; 5]);
    let outcome = account(&[], &[], &[], &[], &mut exact, &mut shown);
    assert_eq!(outcome, Outcome::Refused { number: 1, line: 0 });
    assert_eq!((exact, shown), ([0; 6], [0; 5]));
}

#[test]
fn results_without_room_are_refused() {
    let outcome = lend(&NO_FUGITIVE, &mut [], &mut []);
    assert_eq!(outcome, Outcome::Refused { number: 3, line: 0 });
}

#[test]
fn a_fugitive_table_that_is_not_right_is_refused() {
    let (mut exact, mut shown) = ([7; 6], [8; 5]);
    for table in [&[][..], &NO_FUGITIVE[..11], &[NO_FUGITIVE, NO_FUGITIVE].concat()] {
        let outcome = lend(table, &mut exact, &mut shown);
        assert_eq!(outcome, Outcome::Refused { number: 13, line: 0 });
        assert_eq!((exact, shown), ([0; 6], [0; 5]));
    }
}

#[test]
fn cells_are_five_a_line_and_five_for_the_sums() {
    assert_eq!((cells_for(0), cells_for(1), cells_for(128)), (5, 10, 645));
}
