//! The report of the smallest sheets, in lent bytes and in a string.

use checkraven::{report, report_into, MOST_TEXT, NO_FUGITIVE, NO_OWN};

const BOOK_WITHOUT_ROWS: [u8; 16] = [16, 0, 0, 0, 0, 0, 0, 0, 16, 0, 0, 0, 16, 0, 0, 0];
const SHEET_WITHOUT_LINES: [u8; 16] = [16, 0, 0, 0, 0, 0, 1, 1, 16, 0, 0, 0, 1, 0, 0, 0];
const ZEROS: &str = "exact total 0 0 0 0 0\nunit 100000\nshown total 0 0 0 0 0\n";

fn lend(text: &mut [u8]) -> Option<&str> {
    report_into(&NO_OWN, &BOOK_WITHOUT_ROWS, &NO_FUGITIVE, &SHEET_WITHOUT_LINES, text)
}

#[test]
fn figures_and_refusals_are_told() {
    let book = BOOK_WITHOUT_ROWS;
    assert_eq!(report(&NO_OWN, &book, &NO_FUGITIVE, &SHEET_WITHOUT_LINES), ZEROS);
    assert_eq!(report(&NO_OWN, &book, &NO_FUGITIVE, &[]), "refused 2 line 0\n");
    assert_eq!(report(&NO_OWN, &book, &[], &[]), "refused 13 line 0\n");
    assert_eq!(report(&NO_OWN, &[], &[], &[]), "refused 1 line 0\n");
    assert_eq!(report(&[], &book, &[], &[]), "refused 1 line 0\n");
}

#[test]
fn further_bytes_keep_their_values() {
    let mut text = [7; MOST_TEXT];
    assert_eq!(lend(&mut text), Some(ZEROS));
    assert!(text[ZEROS.len()..].iter().all(|&byte| byte == 7));
}

#[test]
fn a_text_without_room_is_zero() {
    let mut text = [7; ZEROS.len() - 1];
    assert_eq!(lend(&mut text), None);
    assert_eq!(text, [0; ZEROS.len() - 1]);
    assert_eq!(report_into(&[], &[], &[], &[], &mut []), None);
}
