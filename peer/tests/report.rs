//! The report against the text that plain Rust prints: lent bytes of every
//! kind of length, with marks around them.

use checkraven::{report, report_into, Outcome, MOST_CELLS, MOST_TEXT};
use peer::compare::{limited, run_plain, run_proved, Case};
use peer::make::generate::{self, Size};
use peer::make::{any_case, Book, Entry, Fugitive, Line, Random, Row, Sheet, Technique};
use peer::print::whole_output;
use std::fs;
use std::path::Path;

const MARK: u8 = 0x5C;
const MARGIN: usize = 17;

/// What plain Rust prints. Several shown tables may be allowed, so that one
/// comes from the proved desk's cells.
fn printed(case: &Case) -> String {
    let case = case.clone().with_lengths(MOST_CELLS, MOST_CELLS);
    let plain = run_plain(&case);
    let proved = run_proved(&case).expect("the memory around is kept");
    whole_output(&case, plain.outcome, &plain.exact, &proved.shown)
}

/// What a text holds before the call: no two neighbours alike.
fn earlier(at: usize) -> u8 {
    1 + (at % 251) as u8
}

/// Lends the middle of a marked piece; the text, and what the middle holds.
fn lend(case: &Case, length: usize) -> (Option<String>, Vec<u8>) {
    let mut area = vec![MARK; length + 2 * MARGIN];
    let (begin, end) = (MARGIN, MARGIN + length);
    (0..length).for_each(|at| area[begin + at] = earlier(at));
    let Case { own, book, fugitive, sheet, .. } = case;
    let text = report_into(own, book, fugitive, sheet, &mut area[begin..end]).map(str::to_string);
    let around = area[..begin].iter().chain(&area[end..]);
    assert!(around.copied().all(|byte| byte == MARK), "memory around the text is kept");
    (text, area[begin..end].to_vec())
}

fn check(case: &Case) {
    let expected = printed(case);
    let need = expected.len();
    assert!(need <= MOST_TEXT);
    assert_eq!(report(&case.own, &case.book, &case.fugitive, &case.sheet), expected);
    for length in [need, need + 1, need + 100, MOST_TEXT + 3] {
        let (text, lent) = lend(case, length);
        assert_eq!(text.as_deref(), Some(&expected[..]));
        assert_eq!(&lent[..need], expected.as_bytes());
        assert!(
            (need..length).all(|at| lent[at] == earlier(at)),
            "further bytes keep their values"
        );
    }
    for length in [need - 1, need / 2, 1, 0] {
        assert_eq!(lend(case, length), (None, vec![0; length]));
    }
}

#[test]
fn every_example() {
    let examples = Path::new(env!("CARGO_MANIFEST_DIR")).join("../examples");
    let entries = fs::read_dir(examples).expect("the examples folder is there").flatten();
    let folders: Vec<_> =
        entries.map(|e| e.path()).filter(|f| f.join("sheet.bin").exists()).collect();
    assert!(folders.len() >= 7, "the manuals' examples and the others are there");
    for folder in folders {
        let case = Case::read(&folder).expect("the example has its files");
        check(&case);
        let expected = fs::read_to_string(folder.join("expected.txt")).unwrap();
        let text = report(&case.own, &case.book, &case.fugitive, &case.sheet);
        assert_eq!(text, expected, "{}", folder.display());
    }
}

#[test]
fn generated_sheets() {
    let mut random = Random::new(31);
    let most = Size { rows: 12, techniques: 20, lines: 8 };
    for _ in 0..limited(400) {
        check(&generate::case_up_to(&mut random, most));
    }
}

#[test]
fn every_number_of_lines() {
    let mut random = Random::new(32);
    for lines in (0..=128).take(limited(129)) {
        check(&generate::case(&mut random, Size { rows: 9, techniques: 9, lines }));
    }
}

/// Good and damaged files alike.
#[test]
fn files_of_all_kinds() {
    let mut random = Random::new(33);
    for _ in 0..limited(2_000) {
        check(&any_case(&mut random));
    }
}

/// 128 lines of the largest amounts that there are in water, split over the four
/// columns that it has.
#[test]
fn the_largest_amounts() {
    let row = Row::plain(1, 1, 1000).with_techniques(1, 0, 1);
    let techniques = vec![Technique { code: 1, efficiency: 333 }];
    let book = Book { rows: vec![row], techniques, gaps: [0; 3] };
    let treated = Line::direct(1_000_000_000).treated(1, 1, [8784.0, 8784.0, 0.0]);
    for unit in 1..=3 {
        let lines = vec![Line { reuse: 500, ..treated }; 128];
        let case = Case::of(&book, &Sheet::new(1, 1, unit, lines));
        assert_eq!(run_plain(&case).outcome, Outcome::Accepted);
        check(&case);
    }
}

/// The same in gas, with the most dust that there is.
#[test]
fn the_largest_amounts_with_dust() {
    let row = Row::plain(2, 3, 1000).with_techniques(1, 0, 1);
    let techniques = vec![Technique { code: 1, efficiency: 333 }];
    let book = Book { rows: vec![row], techniques, gaps: [0; 3] };
    let table = Fugitive::of(&[Entry::plain([65_535; 9])]).bytes();
    let treated = Line::direct(1_000_000_000).treated(1, 1, [8784.0, 8784.0, 0.0]);
    for unit in 1..=3 {
        let lines = vec![Line { grades: [1, 2, 3], ..treated }; 128];
        let case = Case::of(&book, &Sheet::new(2, 3, unit, lines)).with_fugitive(table.clone());
        assert_eq!(run_plain(&case).outcome, Outcome::Accepted);
        check(&case);
    }
}

/// Texts of every length up to a little past the need.
#[test]
fn every_length() {
    let book = Book { rows: vec![Row::plain(1, 1, 7)], ..Book::default() };
    let line = Line { reuse: 333, ..Line::direct(12_345) };
    let accepted = Case::of(&book, &Sheet::new(1, 1, 2, vec![line; 2]));
    let refused = Case::of(&book, &Sheet::new(1, 1, 9, vec![]));
    for case in [accepted, refused] {
        let expected = printed(&case);
        for length in 0..expected.len() + 9 {
            let (text, lent) = lend(&case, length);
            match length >= expected.len() {
                true => assert_eq!(text.as_deref(), Some(&expected[..])),
                false => assert_eq!((text, lent), (None, vec![0; length])),
            }
        }
    }
}
