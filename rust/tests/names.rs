//! The refusals and the constants here and in the C header: the same names, numbers
//! and words.

use checkraven::{Refusal, MOST_ROW, MOST_ROWS, MOST_SHEET, MOST_SHEETS};
use checkraven::{MOST_SHEET_TEXT, MOST_TEXT, NO_FUGITIVE, NO_OWN};
use std::fs;

fn header() -> String {
    let path = concat!(env!("CARGO_MANIFEST_DIR"), "/../include/checkraven.h");
    fs::read_to_string(path).expect("the header is there")
}

/// Name, number and words of each refusal that the header defines.
fn in_the_header() -> Vec<(String, u32, String)> {
    header().lines().filter_map(refusal_of_line).collect()
}

/// Of a line `#define CHECKRAVEN_NAME NUMBER /* words */`.
fn refusal_of_line(line: &str) -> Option<(String, u32, String)> {
    let (definition, words) = line.strip_prefix("#define CHECKRAVEN_")?.split_once("/*")?;
    let (name, number) = definition.split_once(' ')?;
    let words = words.trim_end_matches("*/").trim().replace(" * ", " × ");
    Some((name.to_string(), number.trim().parse().ok()?, words))
}

/// `NoRow` as `NO_ROW`.
fn as_in_c(name: &str) -> String {
    let mut parts = String::new();
    for letter in name.chars() {
        if letter.is_uppercase() && !parts.is_empty() {
            parts.push('_');
        }
        parts.extend(letter.to_uppercase());
    }
    parts
}

#[test]
fn names_numbers_and_words_are_those_of_the_header() {
    let here = Refusal::NAMED
        .map(|refusal| (as_in_c(&format!("{refusal:?}")), refusal.number(), refusal.to_string()));
    assert_eq!(here.to_vec(), in_the_header());
}

#[test]
fn constants_are_those_of_the_header() {
    let header = header();
    let numbers = [
        ("SHEETS", MOST_SHEETS),
        ("SHEET", MOST_SHEET),
        ("TEXT", MOST_TEXT),
        ("SHEET_TEXT", MOST_SHEET_TEXT),
        ("ROWS", MOST_ROWS),
        ("ROW", MOST_ROW),
    ];
    for (name, number) in numbers {
        let line = format!("#define CHECKRAVEN_MOST_{name} {number}\n");
        assert!(header.contains(&line), "{line}");
    }
    for (name, file) in [("no_fugitive", &NO_FUGITIVE[..]), ("no_own", &NO_OWN)] {
        let bytes: Vec<String> = file.iter().map(u8::to_string).collect();
        let (length, bytes) = (file.len(), bytes.join(", "));
        let line = format!("uint8_t checkraven_{name}[{length}] = {{ {bytes} }};\n");
        assert!(header.contains(&line), "{line}");
    }
}
