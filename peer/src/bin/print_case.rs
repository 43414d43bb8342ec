//! Prints what the program prints for a folder's own.bin, its book.bin, its
//! fugitive.bin and its bundle.bin, or else its sheet.bin, or else its sheet.csv:
//! `print_case FOLDER`. A works without own.bin has no factors of its own; any other
//! file that isn't there counts as empty.

use checkraven::{MOST_CELLS, MOST_SHEETS};
use peer::compare::{read_own, run_proved, BundleCase, Case, TextCase};
use peer::print::{whole_bundle_output, whole_output};
use std::path::Path;

fn main() {
    let folder = std::env::args().nth(1).unwrap_or_else(|| ".".to_string());
    let folder = Path::new(&folder);
    let has = |name: &str| folder.join(name).exists();
    let printed = if has("bundle.bin") {
        print_bundle(folder)
    } else if has("sheet.csv") && !has("sheet.bin") {
        print_text(folder)
    } else {
        print_sheet(folder)
    };
    print!("{}", printed.expect("the memory around is kept"));
}

fn print_sheet(folder: &Path) -> Result<String, String> {
    let case = Case::with_room(file(folder, "book.bin"), file(folder, "sheet.bin"));
    let case = case.with_own(read_own(folder)).with_fugitive(file(folder, "fugitive.bin"));
    let case = case.with_lengths(MOST_CELLS, MOST_CELLS);
    let filled = run_proved(&case)?;
    Ok(whole_output(&case, filled.outcome, &filled.exact, &filled.shown))
}

fn print_text(folder: &Path) -> Result<String, String> {
    let case = TextCase::with_room(file(folder, "book.bin"), file(folder, "sheet.csv"));
    let case = case.with_own(read_own(folder)).with_fugitive(file(folder, "fugitive.bin"));
    let case = case.with_lengths(MOST_CELLS, MOST_CELLS);
    let filled = case.run_proved()?;
    Ok(whole_output(&case.with_binary_sheet(), filled.outcome, &filled.exact, &filled.shown))
}

fn print_bundle(folder: &Path) -> Result<String, String> {
    let case = BundleCase::with_room(file(folder, "book.bin"), file(folder, "bundle.bin"));
    let cells = MOST_SHEETS * MOST_CELLS;
    let case = case.with_own(read_own(folder)).with_fugitive(file(folder, "fugitive.bin"));
    let case = case.with_lengths(cells, cells, MOST_SHEETS);
    Ok(whole_bundle_output(&case, &case.run_proved()?))
}

fn file(folder: &Path, name: &str) -> Vec<u8> {
    std::fs::read(folder.join(name)).unwrap_or_default()
}
