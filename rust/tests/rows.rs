//! The tables by rows, on the example folders and beside the lent slices.

#[path = "../examples/shared/mod.rs"]
mod shared;

use checkraven::{account, cells_for, declare, Refusal, Refused, Row, Tables, Unit, MOST_CELLS};
use checkraven::{NO_FUGITIVE, NO_OWN};
use shared::own_book;
use std::fs;
use std::path::PathBuf;

const SHEET_WITHOUT_LINES: [u8; 16] = [16, 0, 0, 0, 0, 0, 1, 1, 16, 0, 0, 0, 3, 0, 0, 0];

fn folders() -> Vec<PathBuf> {
    let examples = concat!(env!("CARGO_MANIFEST_DIR"), "/../examples");
    let entries = fs::read_dir(examples).expect("the examples folder is there");
    let mut folders: Vec<PathBuf> = entries.flatten().map(|entry| entry.path()).collect();
    folders.retain(|folder| folder.join("sheet.bin").exists());
    folders.sort();
    folders
}

/// Own book, published book, fugitive table and sheet.
fn files(folder: &str) -> [Vec<u8>; 4] {
    let path = PathBuf::from(concat!(env!("CARGO_MANIFEST_DIR"), "/../examples")).join(folder);
    let read = |name| fs::read(path.join(name)).unwrap();
    [own_book(path.join("own.bin")), read("book.bin"), read("fugitive.bin"), read("sheet.bin")]
}

fn tables(folder: &str) -> Tables {
    let [own, book, fugitive, sheet] = files(folder);
    declare(&own, &book, &fugitive, &sheet).expect("the sheet is accepted")
}

#[test]
fn every_example_prints_as_the_program_prints_it() {
    assert!(folders().len() >= 10, "the examples are there");
    for folder in folders() {
        let [own, book, fugitive, sheet] = files(folder.file_name().unwrap().to_str().unwrap());
        let printed = match declare(&own, &book, &fugitive, &sheet) {
            Ok(tables) => tables.to_string(),
            Err(refused) => format!("{refused}\n"),
        };
        let expected = fs::read_to_string(folder.join("expected.txt")).unwrap();
        assert_eq!(printed, expected, "{}", folder.display());
    }
}

#[test]
fn rows_are_the_cells_of_the_lent_slices() {
    let [own, book, fugitive, sheet] = files("full-sheet");
    let tables = tables("full-sheet");
    let (mut exact, mut shown) = ([9; MOST_CELLS], [9; MOST_CELLS]);
    assert!(account(&own, &book, &fugitive, &sheet, &mut exact, &mut shown).is_accepted());
    let cells = |row: Row| [row.generated, row.removed, row.reused, row.discharged, row.fugitive];
    assert_eq!(tables.lines().len(), 128);
    for (index, line) in tables.lines().enumerate() {
        let at = cells_for(index) - cells_for(0);
        assert_eq!(line.number as usize, index + 1);
        assert_eq!(cells(line.exact), exact[at..at + 5]);
        assert_eq!(cells(line.shown), shown[at..at + 5]);
    }
    assert_eq!(cells(tables.total().exact), exact[MOST_CELLS - 5..]);
    assert_eq!(cells(tables.total().shown), shown[MOST_CELLS - 5..]);
}

#[test]
fn document_000_by_its_names() {
    let tables = tables("document-000");
    let shown = Row {
        generated: 3_307_200,
        removed: 2_315_040,
        reused: 942_552,
        discharged: 49_608,
        fugitive: 0,
    };
    assert_eq!(tables.total().shown, shown);
    assert_eq!(tables.total().exact.discharged, 4_960_800_000);
    assert_eq!((tables.unit(), tables.unit().exact()), (Unit::Gram, 100_000));
}

#[test]
fn an_empty_sheet_has_a_total_and_no_line() {
    let [own, book, ..] = files("document-000");
    let declared = declare(&own, &book, &NO_FUGITIVE, &SHEET_WITHOUT_LINES);
    let tables = declared.expect("the sheet is accepted");
    assert_eq!((tables.lines().len(), tables.unit()), (0, Unit::Tonne));
    assert_eq!((tables.total().exact, tables.total().shown), (Row::default(), Row::default()));
}

#[test]
fn refusals_come_by_their_names() {
    let [_, book, _, sheet] = files("document-000");
    let declared = |book: &[u8], sheet: &[u8]| declare(&NO_OWN, book, &NO_FUGITIVE, sheet);
    let refused = |refusal, line| Err(Refused { refusal, line });
    assert_eq!(declared(&[], &sheet), refused(Refusal::BookMalformed, 0));
    assert_eq!(declare(&NO_OWN, &book, &[], &[]), refused(Refusal::FugitiveMalformed, 0));
    assert_eq!(declared(&book, &[]), refused(Refusal::SheetMalformed, 0));
    let mut graded = sheet.clone();
    graded[16 + 56] = 1; // a grade in water
    assert_eq!(declared(&book, &graded), refused(Refusal::BadGrade, 1));
    let mut unknown = sheet.clone();
    unknown[16] ^= 1; // the industry of line 1
    assert_eq!(declared(&book, &unknown), refused(Refusal::NoRow, 1));
    let words = declared(&book, &unknown).unwrap_err();
    assert_eq!(format!("{words}: {}", words.refusal), "refused 6 line 1: no row in either book");
}
