//! The example folders: each expected output stands beside both desks.

use checkraven::{Outcome, NO_OWN};
use peer::compare::{run_plain, run_proved, BundleCase, Case, Filled, Tally, TextCase};
use peer::demand3;
use peer::print::whole_output;
use std::fs;
use std::path::{Path, PathBuf};

/// The folders that have this file.
fn folders_with(file: &str) -> Vec<PathBuf> {
    let examples = Path::new(env!("CARGO_MANIFEST_DIR")).join("../examples");
    let entries = fs::read_dir(examples).expect("the examples folder is there");
    let mut folders: Vec<PathBuf> = entries.flatten().map(|entry| entry.path()).collect();
    folders.retain(|folder| folder.join(file).exists());
    folders.sort();
    folders
}

/// Every example has its fugitive table, and one at least has dust in it.
#[test]
fn every_example_has_its_fugitive_table() {
    let mut with_dust = 0;
    for folder in folders_with("book.bin") {
        assert!(folder.join("fugitive.bin").exists(), "{}", folder.display());
        with_dust += usize::from(has_dust(&expected_text(&folder)));
    }
    assert!(with_dust > 0, "an example has fugitive dust");
}

/// One example at least has factors of its own, which change its figures.
#[test]
fn an_example_has_its_own_book() {
    let folders = folders_with("own.bin");
    assert!(!folders.is_empty(), "an example has factors of its own");
    for folder in folders {
        let case = Case::read(&folder).expect("the example has its files");
        let without = case.clone().with_own(NO_OWN.to_vec());
        let [with, without] = [case, without].map(|case| run_plain(&case).exact);
        assert_ne!(with, without, "{}", folder.display());
    }
}

fn has_dust(expected: &str) -> bool {
    expected.lines().any(|line| line.starts_with("exact total ") && !line.ends_with(" 0"))
}

/// The numbers of one table in an expected output.
fn table(text: &str, name: &str) -> Vec<u64> {
    let rows = text.lines().filter_map(|line| line.strip_prefix(name));
    rows.flat_map(|row| row.split_whitespace().skip(1)).map(|cell| cell.parse().unwrap()).collect()
}

fn without_shown(text: &str) -> String {
    text.lines().filter(|line| !line.starts_with("shown")).map(|line| format!("{line}\n")).collect()
}

fn expected_text(folder: &Path) -> String {
    fs::read_to_string(folder.join("expected.txt")).expect("the expected output is there")
}

/// What a desk has left for a sheet beside the expected output.
fn check(case: &Case, filled: &Filled, expected: &str, folder: &Path) {
    let output = whole_output(case, filled.outcome, &filled.exact, &filled.shown);
    assert_eq!(without_shown(&output), without_shown(expected), "{}", folder.display());
    if filled.outcome != Outcome::Accepted {
        return;
    }
    let (exact, shown) = (table(expected, "exact "), table(expected, "shown "));
    let unit = case.shown_unit();
    assert_eq!(demand3::check(&exact, &shown, unit), Ok(()), "{}", folder.display());
    // Where every cell is whole there is one shown table; else any allowed one
    // may stand in the expected output.
    if exact.iter().all(|cell| cell % unit == 0) {
        assert_eq!(output, expected, "{}", folder.display());
    }
}

#[test]
fn every_example_of_a_sheet() {
    let mut tally = Tally::new("every_example_of_a_sheet");
    let folders = folders_with("sheet.bin");
    assert!(folders.len() >= 7, "the manuals' examples and the others are there");
    for folder in folders {
        let case = Case::read(&folder).expect("the example has its files");
        tally.agree(&case);
        let filled = run_proved(&case).expect("the memory around is kept");
        check(&case, &filled, &expected_text(&folder), &folder);
    }
}

/// A text has the expected output of its folder too, also where it is the only
/// sheet there.
#[test]
fn every_example_of_a_text() {
    let mut tally = Tally::new("every_example_of_a_text");
    let folders = folders_with("sheet.csv");
    assert!(folders.len() > folders_with("sheet.bin").len(), "one sheet is a text alone");
    for folder in folders {
        let text = TextCase::read(&folder).expect("the example has its files");
        tally.agree(&text);
        let filled = text.run_proved().expect("the memory around is kept");
        check(&text.with_binary_sheet(), &filled, &expected_text(&folder), &folder);
    }
}

/// The texts under the headings `sheet 1`, `sheet 2` and so on.
fn sheet_texts(expected: &str) -> Vec<String> {
    let mut texts = Vec::new();
    for line in expected.lines() {
        if line == format!("sheet {}", texts.len() + 1) {
            texts.push(String::new());
        } else {
            *texts.last_mut().expect("a heading comes first") += &format!("{line}\n");
        }
    }
    texts
}

/// Each sheet of a bundle beside its part of the expected output.
fn check_sheets(case: &BundleCase, folder: &Path) {
    let filled = case.run_proved().expect("the memory around is kept");
    let texts = sheet_texts(&expected_text(folder));
    assert_eq!(texts.len(), case.sheet_count(), "{}", folder.display());
    for (index, text) in texts.iter().enumerate() {
        check(&case.sheet_alone(index), &case.sheet_filled(&filled, index), text, folder);
    }
}

#[test]
fn every_example_of_a_bundle() {
    let mut tally = Tally::new("every_example_of_a_bundle");
    let folders = folders_with("bundle.bin");
    assert!(!folders.is_empty(), "an example of a bundle is there");
    for folder in folders {
        let case = BundleCase::read(&folder).expect("the example has its files");
        tally.expect_accepted(&case);
        check_sheets(&case, &folder);
    }
}
