//! The works' own book before the published one: which row answers, as a part of
//! its book and as bytes, and what a sheet's figures come from.

use checkraven::{account_bundle, account_text, declare, declare_bundle, declare_text, report};
use checkraven::{row, row_into, Outcome, Refusal, Refused, RowKey};
use checkraven::{MOST_ROW, MOST_ROWS, NO_FUGITIVE, NO_OWN};
use std::fs;
use std::ops::Range;
use std::path::Path;

fn file(name: &str) -> Vec<u8> {
    let folder = Path::new(env!("CARGO_MANIFEST_DIR")).join("../examples/own-kiln");
    fs::read(folder.join(name)).expect("the example is there")
}

/// Own book and published book of the works.
fn books() -> (Vec<u8>, Vec<u8>) {
    (file("own.bin"), file("book.bin"))
}

/// Of particulates in gas, in the industry of the works.
fn key(product: u16, process: u16, scale: u16) -> RowKey {
    let (industry, material, medium, pollutant) = (3140, product, 2, 3);
    RowKey { industry, product, material, process, scale, medium, pollutant }
}

/// Where the rows of a book that `make-files` wrote stand, counted from 1.
fn place(number: usize) -> Range<usize> {
    16 + MOST_ROW * (number - 1)..16 + MOST_ROW * number
}

/// Which of the works' rows answers to which key: whether it is an own one, and
/// its number.
const ANSWERS: [((u16, u16, u16), bool, usize); 8] = [
    ((15, 1, 2), true, 2),  // the own scale
    ((14, 1, 1), true, 1),  // own, scale 0, before the published scale 1
    ((14, 1, 0), true, 1),  // own, scale 0, before the published scale 0
    ((14, 1, 9), true, 1),  // own, scale 0
    ((15, 1, 1), false, 4), // the own book has scale 2 only
    ((15, 1, 0), false, 4), // nor is that one of scale 0
    ((14, 2, 0), false, 3),
    ((15, 2, 7), false, 5),
];

#[test]
fn the_row_is_a_part_of_the_book_that_answers() {
    let (own, book) = books();
    for ((product, process, scale), is_own, number) in ANSWERS {
        let part = &(if is_own { &own } else { &book })[place(number)];
        let found = row(&own, &book, &key(product, process, scale));
        assert_eq!(found.as_ptr_range(), part.as_ptr_range(), "{product}/{process}/{scale}");
    }
}

#[test]
fn its_bytes_are_copied_and_further_ones_keep_their_values() {
    let (own, book) = books();
    for ((product, process, scale), ..) in ANSWERS {
        let key = key(product, process, scale);
        let mut lent = [7; MOST_ROW + 3];
        assert_eq!(row_into(&own, &book, &key, &mut lent), Ok(row(&own, &book, &key)));
        assert_eq!(lent[MOST_ROW..], [7; 3]);
    }
}

#[test]
fn a_row_without_room_leaves_zeros() {
    let (own, book) = books();
    for (number, scale) in [(15, 1), (15, 2)] {
        for length in [0, 1, MOST_ROW - 1] {
            let mut lent = vec![7; length];
            let too_short = Err(Refused { refusal: Refusal::ResultTooShort, line: 0 });
            assert_eq!(row_into(&own, &book, &key(number, 1, scale), &mut lent), too_short);
            assert_eq!(lent, vec![0; length]);
        }
    }
}

/// No row is an empty part, and takes no room.
fn finds_nothing(own: &[u8], book: &[u8], key: &RowKey) {
    assert!(row(own, book, key).is_empty(), "{key:?}");
    for length in [0, MOST_ROW - 1, MOST_ROW + 3] {
        let mut lent = vec![7; length];
        assert_eq!(row_into(own, book, key, &mut lent), Ok(&[][..]));
        assert_eq!(lent, vec![7; length], "{key:?}");
    }
}

#[test]
fn where_neither_book_has_a_row_the_part_is_empty() {
    let (own, book) = books();
    let there = key(15, 1, 2);
    for other in [
        RowKey { industry: 3141, ..there },
        RowKey { product: 16, ..there },
        RowKey { material: 14, ..there },
        RowKey { process: 3, ..there },
        RowKey { medium: 1, ..there },
        RowKey { pollutant: 4, ..there },
    ] {
        finds_nothing(&own, &book, &other);
    }
    finds_nothing(&NO_OWN, &NO_OWN, &there);
    finds_nothing(&own, &NO_OWN, &key(15, 1, 1));
}

#[test]
fn where_either_book_is_malformed_the_part_is_empty() {
    let (own, book) = books();
    for (product, scale) in [(15, 1), (15, 2)] {
        let key = key(product, 1, scale);
        for (own, book) in [(&own[1..], &book[..]), (&own, &book[1..]), (&[], &book), (&own, &[])] {
            finds_nothing(own, book, &key);
        }
    }
}

/// 1,024 rows without techniques, which differ by their scale.
fn full_book() -> Vec<u8> {
    let rows = (0..MOST_ROWS as u16).flat_map(|scale| {
        let [low, high] = scale.to_le_bytes();
        [1, 0, 1, 0, 1, 0, 1, 0, low, high, 1, 1, 1, 1, 0, 0, 1, 0, 0, 0, 0, 0, 0, 0]
    });
    let numbers = [(16 + MOST_ROW * MOST_ROWS) as u32, MOST_ROWS as u32, 16];
    let header = numbers.into_iter().chain([numbers[0]]).flat_map(u32::to_le_bytes);
    header.chain(rows).collect()
}

#[test]
fn the_first_and_the_last_rows_of_full_books_answer() {
    let (own, book) = (full_book(), full_book());
    for scale in [0, 1, 1022, 1023] {
        let (industry, product, material, process) = (1, 1, 1, 1);
        let (medium, pollutant) = (1, 1);
        let key = RowKey { industry, product, material, process, scale, medium, pollutant };
        let part = place(scale as usize + 1);
        let ranges = (own[part.clone()].as_ptr_range(), book[part].as_ptr_range());
        assert_eq!(row(&own, &book, &key).as_ptr_range(), ranges.0);
        assert_eq!(row(&NO_OWN, &book, &key).as_ptr_range(), ranges.1);
    }
}

/// Without its own book the works has other figures, and cannot have the
/// technique that its own row alone lists.
#[test]
fn techniques_come_from_the_book_of_the_row() {
    let ((own, book), sheet) = (books(), file("sheet.bin"));
    let tables = declare(&own, &book, &NO_FUGITIVE, &sheet).unwrap();
    let discharged: Vec<u64> = tables.lines().map(|line| line.exact.discharged).collect();
    assert_eq!(discharged, [547_284_000_000, 44_590_000_000, 582_930_000_000, 277_500_000_000]);
    let refused = |refusal, line| Err(Refused { refusal, line });
    let published = declare(&NO_OWN, &book, &NO_FUGITIVE, &sheet);
    assert_eq!(published, refused(Refusal::NoTechnique, 2));
    assert_eq!(declare(&own, &NO_OWN, &NO_FUGITIVE, &sheet), refused(Refusal::NoRow, 3));
    assert_eq!(declare(&book, &own, &NO_FUGITIVE, &sheet), published);
}

#[test]
fn an_own_book_that_is_the_published_one_changes_nothing() {
    let ((_, book), sheet) = (books(), file("sheet.bin"));
    let alone = report(&NO_OWN, &book, &NO_FUGITIVE, &sheet);
    assert_eq!(report(&book, &book, &NO_FUGITIVE, &sheet), alone);
}

/// A bundle of one sheet of four lines, with the cells that it needs.
fn bundle_of(sheet: &[u8]) -> Vec<u8> {
    let length = sheet.len() as u32;
    let numbers = [20 + length, 1, 25, 20, length];
    [&numbers.map(u32::to_le_bytes).concat(), sheet].concat()
}

#[test]
fn texts_and_bundles_have_both_books() {
    let ((own, book), sheet, text) = (books(), file("sheet.bin"), file("sheet.csv"));
    let alone = declare(&own, &book, &NO_FUGITIVE, &sheet);
    assert_eq!(declare_text(&own, &book, &NO_FUGITIVE, &text), alone);
    let works = declare_bundle(&own, &book, &NO_FUGITIVE, &bundle_of(&sheet)).unwrap();
    assert_eq!(works.sheets(), [alone]);
}

/// An own book that is cut, before a fugitive table and a text that are none.
#[test]
fn a_bad_own_book_is_refused_first() {
    let ((own, book), sheet) = (books(), file("sheet.bin"));
    let (cut, bundle) = (&own[..own.len() - 1], bundle_of(&sheet));
    let (mut exact, mut shown, mut outcomes) = ([7; 26], [8; 25], [9; 2]);
    let malformed = Outcome::Refused { number: 1, line: 0 };
    let outcome = account_text(cut, &book, &[], b"", &mut exact, &mut shown);
    assert_eq!((outcome, exact, shown), (malformed, [0; 26], [0; 25]));

    exact.fill(7);
    let (cells, answers) = ((&mut exact, &mut shown), &mut outcomes);
    let outcome = account_bundle(cut, &book, &[], &bundle, cells.0, cells.1, answers);
    assert!(outcome.is_accepted(), "a bundle is taken with any book");
    assert_eq!((&exact[..25], exact[25]), (&[0; 25][..], 7));
    assert_eq!(outcomes, [65_536, 9]);
}
