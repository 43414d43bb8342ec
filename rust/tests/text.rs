//! Text sheets: the smallest ones in lent bytes, and the example folders there
//! and back.

#[path = "../examples/shared/mod.rs"]
mod shared;

use checkraven::{account, account_text, declare, declare_text, Outcome, Refusal, Refused};
use checkraven::{sheet_from_text, sheet_from_text_into, text_from_sheet, text_from_sheet_into};
use checkraven::{MOST_CELLS, MOST_SHEET, MOST_SHEET_TEXT, NO_FUGITIVE, NO_OWN};
use shared::own_book;
use std::fs;
use std::path::{Path, PathBuf};

const BOOK_WITHOUT_ROWS: [u8; 16] = [16, 0, 0, 0, 0, 0, 0, 0, 16, 0, 0, 0, 16, 0, 0, 0];
const SHEET_WITHOUT_LINES: [u8; 16] = [16, 0, 0, 0, 0, 0, 3, 7, 16, 0, 0, 0, 2, 0, 0, 0];
const TEXT_WITHOUT_LINES: &str = "3,7,2\r\n";

fn refused<T>(refusal: Refusal, line: u32) -> Result<T, Refused> {
    Err(Refused { refusal, line })
}

fn examples_of_a_sheet() -> Vec<PathBuf> {
    let examples = Path::new(env!("CARGO_MANIFEST_DIR")).join("../examples");
    let entries = fs::read_dir(examples).expect("the examples folder is there");
    let folders = entries.flatten().map(|entry| entry.path());
    folders.filter(|folder| folder.join("sheet.bin").exists()).collect()
}

#[test]
fn a_sheet_without_lines_there_and_back() {
    assert_eq!(sheet_from_text(TEXT_WITHOUT_LINES.as_bytes()).unwrap(), SHEET_WITHOUT_LINES);
    assert_eq!(sheet_from_text(b"\"3\",007,2").unwrap(), SHEET_WITHOUT_LINES);
    assert_eq!(text_from_sheet(&SHEET_WITHOUT_LINES).unwrap(), TEXT_WITHOUT_LINES);
}

#[test]
fn further_bytes_keep_their_values() {
    let mut sheet = [7; 19];
    let read = sheet_from_text_into(TEXT_WITHOUT_LINES.as_bytes(), &mut sheet);
    assert_eq!(read, Ok(&SHEET_WITHOUT_LINES[..]));
    assert_eq!(sheet[16..], [7; 3]);
    let mut text = [8; 9];
    let written = text_from_sheet_into(&SHEET_WITHOUT_LINES, &mut text);
    assert_eq!(written, Ok(TEXT_WITHOUT_LINES));
    assert_eq!(text[7..], [8; 2]);
}

#[test]
fn a_refusal_leaves_zeros() {
    let mut sheet = [7; 15];
    let malformed = refused(Refusal::TextMalformed, 0);
    assert_eq!(sheet_from_text_into(b"3,7,2\n", &mut sheet), malformed);
    assert_eq!(sheet, [0; 15]);
    sheet.fill(7);
    let too_short = refused(Refusal::ResultTooShort, 0);
    assert_eq!(sheet_from_text_into(TEXT_WITHOUT_LINES.as_bytes(), &mut sheet), too_short);
    assert_eq!(sheet, [0; 15]);

    let mut text = [8; 6];
    assert_eq!(text_from_sheet_into(&[], &mut text), refused(Refusal::SheetMalformed, 0));
    assert_eq!(text, [0; 6]);
    text.fill(8);
    let too_short = refused(Refusal::ResultTooShort, 0);
    assert_eq!(text_from_sheet_into(&SHEET_WITHOUT_LINES, &mut text), too_short);
    assert_eq!(text, [0; 6]);
}

/// A line with 8784.001 hours is refused by the writer, and without the last
/// thousandth it is written.
#[test]
fn a_reading_over_its_limit_is_refused_with_its_line() {
    let line = "1,1,1,1,0,1,0,1,1,1,8784,8784,0";
    let mut sheet = sheet_from_text(format!("1,1,1\r\n{line}\r\n{line}").as_bytes()).unwrap();
    let written = line.replace("8784", "8784.000") + ",0,0,0\r\n";
    assert_eq!(text_from_sheet(&sheet).unwrap(), format!("1,1,1\r\n{written}{written}"));
    let production_of_line_2 = 16 + 64 + 40;
    let hours = 8784.001f64.to_bits().to_le_bytes();
    sheet[production_of_line_2..][..8].copy_from_slice(&hours);
    assert_eq!(text_from_sheet(&sheet), refused(Refusal::BadReading, 2));
}

#[test]
fn every_example_there_and_back_is_declared_alike() {
    assert!(examples_of_a_sheet().len() >= 10, "the examples are there");
    for folder in examples_of_a_sheet() {
        let read = |name| fs::read(folder.join(name)).unwrap();
        let [book, fugitive, sheet] = ["book.bin", "fugitive.bin", "sheet.bin"].map(read);
        let own = own_book(folder.join("own.bin"));
        let text = text_from_sheet(&sheet).unwrap();
        let declared = declare(&own, &book, &fugitive, &sheet);
        let of_text = declare_text(&own, &book, &fugitive, text.as_bytes());
        assert_eq!(of_text, declared, "{}", folder.display());
        let again = sheet_from_text(text.as_bytes()).unwrap();
        assert_eq!(declare(&own, &book, &fugitive, &again), declared, "{}", folder.display());
    }
}

/// Grades that are left off at the end of a record are 0; all are written.
#[test]
fn grades_may_be_left_off_and_are_written() {
    let line = "1,1,1,1,0,0,0,0,1,1,0,0,0";
    for (typed, written) in [("", ",0,0,0"), (",2", ",2,0,0"), (",2,1", ",2,1,0")] {
        let text = |grades| format!("2,3,1\r\n{line}{grades}\r\n");
        let sheet = sheet_from_text(text(typed).as_bytes()).unwrap();
        assert_eq!(text_from_sheet(&sheet).unwrap(), text(written));
    }
}

#[test]
fn the_longest_texts_and_sheets_have_room() {
    let most = u64::MAX;
    let codes = "65535,65535,65535,65535,65535,65535,65535";
    let line = format!("{codes},2,{most},{most},10000000.000,10000.000,8784.000,255,255,255\r\n");
    let text = format!("3,255,3\r\n{}", line.repeat(128));
    let sheet = sheet_from_text(text.as_bytes()).unwrap();
    assert_eq!(sheet.len(), MOST_SHEET);
    assert_eq!(text_from_sheet(&sheet).unwrap(), text);
    assert!(text.len() <= MOST_SHEET_TEXT);
    let too_many = text + &line;
    assert_eq!(sheet_from_text(too_many.as_bytes()), refused(Refusal::TextMalformed, 0));
}

fn lend_text(text: &[u8], exact: &mut [u64], shown: &mut [u64]) -> Outcome {
    account_text(&NO_OWN, &BOOK_WITHOUT_ROWS, &NO_FUGITIVE, text, exact, shown)
}

#[test]
fn cells_are_those_of_the_binary_sheet() {
    let text = TEXT_WITHOUT_LINES.as_bytes();
    let (mut exact, mut shown) = ([7; 7], [8; 6]);
    assert!(lend_text(text, &mut exact, &mut shown).is_accepted());
    assert_eq!((exact, shown), ([0, 0, 0, 0, 0, 7, 7], [0, 0, 0, 0, 0, 8]));

    let cells = || ([7; MOST_CELLS], [8; MOST_CELLS]);
    let line = "1,1,1,1,0,0,0,0,1,1,0,0,0";
    let text = format!("3,7,2\r\n{line}");
    let sheet = sheet_from_text(text.as_bytes()).unwrap();
    let (mut of_text, mut of_sheet) = (cells(), cells());
    let outcome = lend_text(text.as_bytes(), &mut of_text.0, &mut of_text.1);
    assert_eq!(outcome, Outcome::Refused { number: 6, line: 1 });
    let (exact, shown) = (&mut of_sheet.0, &mut of_sheet.1);
    let same = account(&NO_OWN, &BOOK_WITHOUT_ROWS, &NO_FUGITIVE, &sheet, exact, shown);
    assert_eq!((outcome, of_text), (same, of_sheet));
}

/// 1 for either book, then 13, then 12, then 3.
#[test]
fn files_are_refused_in_their_order() {
    let refused_by = |own: &[u8], book: &[u8], fugitive: &[u8], text: &[u8]| {
        let (mut exact, mut shown) = (vec![7; 4], vec![8; 4]);
        let outcome = account_text(own, book, fugitive, text, &mut exact, &mut shown);
        assert!(exact.iter().chain(&shown).all(|&cell| cell == 0));
        outcome
    };
    let refused = |number| Outcome::Refused { number, line: 0 };
    let (book, text) = (BOOK_WITHOUT_ROWS, TEXT_WITHOUT_LINES.as_bytes());
    assert_eq!(refused_by(&[], &book, &[], b""), refused(1));
    assert_eq!(refused_by(&NO_OWN, &[], &[], b""), refused(1));
    assert_eq!(refused_by(&NO_OWN, &book, &[], b""), refused(13));
    assert_eq!(refused_by(&NO_OWN, &book, &NO_FUGITIVE, b""), refused(12));
    assert_eq!(refused_by(&NO_OWN, &book, &NO_FUGITIVE, text), refused(3));
}
