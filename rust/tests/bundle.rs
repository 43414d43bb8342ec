//! Bundles: small ones in lent slices, and the example folders by their tables.

#[path = "../examples/shared/mod.rs"]
mod shared;

use checkraven::{account_bundle, declare, declare_bundle, Outcome, Refusal, Refused};
use checkraven::{Works, MOST_CELLS, MOST_SHEETS, NO_FUGITIVE, NO_OWN};
use shared::own_book;
use std::fs;
use std::path::{Path, PathBuf};

const BOOK_WITHOUT_ROWS: [u8; 16] = [16, 0, 0, 0, 0, 0, 0, 0, 16, 0, 0, 0, 16, 0, 0, 0];
const SHEET_WITHOUT_LINES: [u8; 16] = [16, 0, 0, 0, 0, 0, 1, 1, 16, 0, 0, 0, 1, 0, 0, 0];

/// Sheets that touch each other, with so many cells each.
fn bundle(cells: usize, sheets: &[&[u8]]) -> Vec<u8> {
    let mut offset = 12 + 8 * sheets.len();
    let length = offset + sheets.iter().map(|sheet| sheet.len()).sum::<usize>();
    let mut numbers = vec![length, sheets.len(), cells];
    for sheet in sheets {
        numbers.extend([offset, sheet.len()]);
        offset += sheet.len();
    }
    let header = numbers.into_iter().flat_map(|number| (number as u32).to_le_bytes());
    header.chain(sheets.concat()).collect()
}

fn examples() -> PathBuf {
    Path::new(env!("CARGO_MANIFEST_DIR")).join("../examples")
}

fn file(folder: &str, name: &str) -> Vec<u8> {
    fs::read(examples().join(folder).join(name)).expect("the example is there")
}

fn lend(
    fugitive: &[u8],
    bundle: &[u8],
    exact: &mut [u64],
    shown: &mut [u64],
    outcomes: &mut [u64],
) -> Outcome {
    account_bundle(&NO_OWN, &BOOK_WITHOUT_ROWS, fugitive, bundle, exact, shown, outcomes)
}

#[test]
fn each_sheet_has_its_runs_and_its_outcome() {
    let bundle = bundle(6, &[&SHEET_WITHOUT_LINES, &[]]);
    let (mut exact, mut shown, mut outcomes) = ([7; 13], [8; 12], [9; 3]);
    let outcome = lend(&NO_FUGITIVE, &bundle, &mut exact, &mut shown, &mut outcomes);
    assert!(outcome.is_accepted());
    assert_eq!(exact, [0, 0, 0, 0, 0, 7, 0, 0, 0, 0, 0, 0, 7]);
    assert_eq!(shown, [0, 0, 0, 0, 0, 8, 0, 0, 0, 0, 0, 0]);
    assert_eq!(outcomes, [0, 2 * 65_536, 9]);
}

#[test]
fn a_bad_fugitive_table_is_refused_for_each_sheet() {
    let bundle = bundle(5, &[&SHEET_WITHOUT_LINES, &[]]);
    let (mut exact, mut shown, mut outcomes) = ([7; 11], [8; 10], [9; 3]);
    assert!(lend(&[], &bundle, &mut exact, &mut shown, &mut outcomes).is_accepted());
    assert_eq!(exact, [0, 0, 0, 0, 0, 0, 0, 0, 0, 0, 7]);
    assert_eq!((shown, outcomes), ([0; 10], [13 * 65_536, 13 * 65_536, 9]));
}

#[test]
fn a_refused_bundle_leaves_zeros() {
    for (cells, bytes, number) in [(4, 0, 16), (5, 36, 3)] {
        let bundle = &bundle(cells, &[&SHEET_WITHOUT_LINES])[..bytes];
        let (mut exact, mut shown, mut outcomes) = ([7; 5], [8; 4], [9; 2]);
        let outcome = lend(&NO_FUGITIVE, bundle, &mut exact, &mut shown, &mut outcomes);
        assert_eq!(outcome, Outcome::Refused { number, line: 0 });
        assert_eq!((exact, shown, outcomes), ([0; 5], [0; 4], [0; 2]));
    }
}

#[test]
fn sheets_come_by_their_tables_and_refusals() {
    let (book, sheet) = (file("document-000", "book.bin"), file("document-000", "sheet.bin"));
    let mut unknown = sheet.clone();
    unknown[16] ^= 1; // the industry of line 1
    let bundle = bundle(11, &[&sheet, &unknown, &[], &sheet]);
    let works = declare_bundle(&NO_OWN, &book, &NO_FUGITIVE, &bundle).unwrap();
    let alone = |sheet| declare(&NO_OWN, &book, &NO_FUGITIVE, sheet);
    let expected = [&sheet[..], &unknown, &[], &sheet].map(alone);
    assert_eq!(works.sheets(), expected);
    let refused = |sheet: usize| works.sheets()[sheet].as_ref().unwrap_err().to_string();
    assert_eq!((refused(1), refused(2)), ("refused 6 line 1".into(), "refused 2 line 0".into()));
}

#[test]
fn a_bundle_may_state_as_many_cells_as_are_lent() {
    let book = BOOK_WITHOUT_ROWS;
    let declared =
        |cells, sheets| declare_bundle(&NO_OWN, &book, &NO_FUGITIVE, &bundle(cells, sheets));
    let sheets = [&SHEET_WITHOUT_LINES[..]; MOST_SHEETS];
    let refused = |refusal| Err(Refused { refusal, line: 0 });
    let accepted =
        |works: Result<Works, Refused>| works.unwrap().sheets().iter().all(Result::is_ok);
    assert!(accepted(declared(MOST_CELLS, &sheets)));
    assert_eq!(declared(MOST_CELLS + 1, &sheets), refused(Refusal::ResultTooShort));
    assert!(accepted(declared(MOST_SHEETS * MOST_CELLS, &sheets[..1])));
    assert_eq!(declared(u32::MAX as usize, &sheets[..1]), refused(Refusal::ResultTooShort));
    let malformed = declare_bundle(&NO_OWN, &book, &NO_FUGITIVE, &[]);
    assert_eq!(malformed, refused(Refusal::BundleMalformed));
    assert!(declared(u32::MAX as usize, &[]).unwrap().sheets().is_empty());
}

#[test]
fn every_example_of_a_bundle_prints_as_the_program_prints_it() {
    let folders = fs::read_dir(examples()).expect("the examples folder is there").flatten();
    let folders: Vec<PathBuf> =
        folders.map(|entry| entry.path()).filter(|path| path.join("bundle.bin").exists()).collect();
    assert!(!folders.is_empty(), "an example of a bundle is there");
    for folder in folders {
        let read = |name| fs::read(folder.join(name)).unwrap();
        let [book, fugitive, bundle] = ["book.bin", "fugitive.bin", "bundle.bin"].map(read);
        let own = own_book(folder.join("own.bin"));
        let printed = match declare_bundle(&own, &book, &fugitive, &bundle) {
            Ok(works) => works.to_string(),
            Err(refused) => format!("{refused}\n"),
        };
        assert_eq!(printed.as_bytes(), read("expected.txt"), "{}", folder.display());
    }
}
