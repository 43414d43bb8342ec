//! The paper's own figures, on both desks.

use peer::compare::{run_proved, BundleCase, Case, Tally, TextCase};
use peer::make::{Book, Entry, Fugitive, Line, Row, Sheet, Technique};
use peer::print::whole_output;
use std::fs;
use std::path::Path;
use std::process::Command;

/// Coefficient digits and places in kg/t, activity in kg: together G.
struct Amount {
    digits: u32,
    places: u8,
    kilograms: u64,
}

/// G units from the coefficient of one unit per kilogram.
const fn units(generated: u64) -> Amount {
    Amount { digits: 1, places: 5, kilograms: generated }
}

struct Figure {
    amount: Amount,
    efficiency: u16,
    reading: (u8, [f64; 3]),
    reuse: u16,
    expected: [u64; 4],
}

const THROUGHOUT: (u8, [f64; 3]) = (3, [0.0; 3]);

fn case(figure: &Figure, medium: u8) -> Case {
    let Amount { digits, places, kilograms } = figure.amount;
    let (kind, readings) = figure.reading;
    let k_rule = if kind == 2 { 2 } else { 1 };
    let row = Row { places, ..Row::plain(medium, 1, digits) };
    let book = Book {
        rows: vec![row.with_techniques(k_rule, 0, 1)],
        techniques: vec![Technique { code: 1, efficiency: figure.efficiency }],
        gaps: [0; 3],
    };
    let line = Line::direct(kilograms).treated(1, kind, readings);
    let line = Line { reuse: figure.reuse, ..line };
    Case::of(&book, &Sheet::new(medium, 1, 1, vec![line]))
}

fn check(tally: &mut Tally, figure: &Figure, medium: u8) {
    let case = case(figure, medium);
    tally.expect_accepted(&case);
    let filled = run_proved(&case).expect("the memory around is kept");
    let [g, r, u, d] = figure.expected;
    assert_eq!(filled.exact[..5], [g, r, u, d, 0], "the line");
    assert_eq!(filled.exact[5..10], [g, r, u, d, 0], "the sums");
}

#[test]
fn the_amounts_marked_p() {
    let figure = |amount, efficiency, reading, reuse, expected| Figure {
        amount,
        efficiency,
        reading,
        reuse,
        expected,
    };
    let third = (1, [1.0, 3.0, 0.0]);
    let half_of_the_hours = (1, [4000.0, 8000.0, 0.0]);
    let half_of_the_energy = (2, [900.0, 0.5, 3600.0]);
    let document_000 = Amount { digits: 20_352, places: 5, kilograms: 16_250_000 };
    let document_004 = Amount { digits: 1279, places: 2, kilograms: 210_000 };
    let figures = [
        figure(units(0), 700, THROUGHOUT, 950, [0, 0, 0, 0]),
        figure(units(1), 700, THROUGHOUT, 950, [1, 0, 0, 1]),
        figure(units(10), 995, third, 500, [10, 3, 3, 4]),
        figure(units(1000), 700, half_of_the_hours, 0, [1000, 350, 0, 650]),
        figure(units(1000), 950, half_of_the_energy, 0, [1000, 475, 0, 525]),
        figure(units(1000), 1000, THROUGHOUT, 0, [1000, 1000, 0, 0]),
        figure(units(1000), 700, THROUGHOUT, 1000, [1000, 700, 300, 0]),
        figure(
            document_000,
            700,
            THROUGHOUT,
            950,
            [330720000000, 231504000000, 94255200000, 4960800000],
        ),
        figure(
            document_004,
            700,
            THROUGHOUT,
            900,
            [268590000000, 188013000000, 72519300000, 8057700000],
        ),
    ];
    let mut tally = Tally::new("the_amounts_marked_p");
    figures.iter().for_each(|figure| check(&mut tally, figure, 1));
}

#[test]
fn document_002_runs_throughout() {
    let figure = Figure {
        amount: Amount { digits: 150, places: 0, kilograms: 198_244_000 },
        efficiency: 990,
        reading: THROUGHOUT,
        reuse: 0,
        expected: [2973660000000000, 2943923400000000, 0, 29736600000000],
    };
    check(&mut Tally::new("document_002_runs_throughout"), &figure, 2);
}

/// The same works with the dust of its crushing (good), tapping and furnace spill
/// (middle), by the manual's own table: R and D stay what they were.
#[test]
fn document_002_with_its_fugitive_dust() {
    let mut tally = Tally::new("document_002_with_its_fugitive_dust");
    let book = Book {
        rows: vec![Row::plain(2, 3, 150).with_techniques(1, 0, 1)],
        techniques: vec![Technique { code: 1, efficiency: 990 }],
        gaps: [0; 3],
    };
    let table = Fugitive::of(&[Entry::plain([786, 1510, 2300, 291, 1100, 1910, 600, 1220, 1830])]);
    let line = Line::direct(198_244_000).treated(1, 3, [0.0; 3]);
    let line = Line { grades: [1, 2, 2], ..line };
    let case = Case::of(&book, &Sheet::new(2, 3, 2, vec![line]));
    let case = case.with_fugitive(table.bytes());
    tally.expect_accepted(&case);
    let filled = run_proved(&case).expect("the memory around is kept");
    let dust = (786 + 1100 + 1220) * 100 * 198_244_000;
    assert_eq!(dust, 61574586400000);
    let row = [2973660000000000 + dust, 2943923400000000, 0, 29736600000000, dust];
    assert_eq!((&filled.exact[..5], &filled.exact[5..10]), (&row[..], &row[..]));
}

/// 8784 hours and 10^9 kg are taken, and a little more isn't.
#[test]
fn the_limits_of_the_paper() {
    let mut tally = Tally::new("the_limits_of_the_paper");
    let line = |kilograms, run, production| Figure {
        amount: units(kilograms),
        efficiency: 700,
        reading: (1, [run, production, 0.0]),
        reuse: 0,
        expected: [0; 4],
    };
    tally.expect_accepted(&case(&line(5, 8784.0, 8784.0), 1));
    tally.expect_refused(&case(&line(5, 8784.0, 8784.001), 1), 9, 1);
    tally.expect_refused(&case(&line(5, 8784.001, 8784.0), 1), 9, 1);
    tally.expect_accepted(&case(&line(1_000_000_000, 8.0, 9.0), 1));
    tally.expect_refused(&case(&line(1_000_000_001, 8.0, 9.0), 1), 4, 1);
}

/// A run of more than the production hours removes as much as one of all of
/// them; an energy of a thousandth more than the rating allows is refused.
#[test]
fn runs_of_all_the_production_hours_and_more() {
    let mut tally = Tally::new("runs_of_all_the_production_hours_and_more");
    let figure = |reading| Figure {
        amount: units(1_000_000_000),
        efficiency: 700,
        reading,
        reuse: 0,
        expected: [1_000_000_000, 700_000_000, 0, 300_000_000],
    };
    for (run, production) in [(8000.0, 8000.0), (8000.001, 8000.0), (8784.0, 0.001)] {
        check(&mut tally, &figure((1, [run, production, 0.0])), 1);
    }
    check(&mut tally, &figure((2, [1800.0, 0.5, 3600.0])), 1);
    tally.expect_refused(&case(&figure((2, [1800.001, 0.5, 3600.0])), 1), 11, 1);
}

/// A reading's thousandths seen through k = reading / 1000 hours and G = 10^9.
#[test]
fn reading_figures_through_the_desk() {
    let mut tally = Tally::new("reading_figures_through_the_desk");
    for (number, thousandths) in [(0.0625, 63), (0.1, 100), (7.999999999, 8000), (8.0, 8000)] {
        let removed = 1000 * thousandths;
        let figure = Figure {
            amount: units(1_000_000_000),
            efficiency: 1000,
            reading: (1, [number, 1000.0, 0.0]),
            reuse: 0,
            expected: [1_000_000_000, removed, 0, 1_000_000_000 - removed],
        };
        check(&mut tally, &figure, 1);
    }
}

/// Two lines of 150,000 units in grams show 1 and 2 in either order.
#[test]
fn two_lines_of_one_and_a_half_grams() {
    let mut tally = Tally::new("two_lines_of_one_and_a_half_grams");
    let book = Book { rows: vec![Row { places: 5, ..Row::plain(2, 1, 1) }], ..Book::default() };
    let case = Case::of(&book, &Sheet::new(2, 1, 1, vec![Line::direct(150_000); 2]));
    tally.expect_accepted(&case);
    let filled = run_proved(&case).expect("the memory around is kept");
    let mut rows = [filled.shown[0], filled.shown[5]];
    rows.sort();
    assert_eq!((rows, filled.shown[10]), ([1, 2], 3));
}

/// The whole output of document 000's case, letter by letter.
#[test]
fn document_000_prints_as_in_the_paper() {
    let mut tally = Tally::new("document_000_prints_as_in_the_paper");
    let row = Row { unit: 1, places: 2, ..Row::plain(1, 1, 20_352) };
    let book = Book {
        rows: vec![row.with_techniques(1, 0, 1)],
        techniques: vec![Technique { code: 1, efficiency: 700 }],
        gaps: [0; 3],
    };
    let line = Line::direct(16_250_000).treated(1, 1, [7920.0, 7920.0, 0.0]);
    let case = Case::of(&book, &Sheet::new(1, 1, 1, vec![Line { reuse: 950, ..line }]));
    tally.expect_accepted(&case);
    let filled = run_proved(&case).expect("the memory around is kept");
    let text = whole_output(&case, filled.outcome, &filled.exact, &filled.shown);
    let expected = "\
exact 1 330720000000 231504000000 94255200000 4960800000 0
exact total 330720000000 231504000000 94255200000 4960800000 0
unit 100000
shown 1 3307200 2315040 942552 49608 0
shown total 3307200 2315040 942552 49608 0
";
    assert_eq!(text, expected);
}

/// Every loose cell has one other in its row and one in its column, so that
/// all of them, six or eight, turn together.
#[test]
fn rounds_of_six_and_eight_cells() {
    let mut tally = Tally::new("rounds_of_six_and_eight_cells");
    let row = Row { places: 5, ..Row::plain(1, 1, 1) };
    let book = Book {
        rows: vec![row.with_techniques(1, 0, 2)],
        techniques: [(1, 500), (2, 1000)]
            .map(|(code, efficiency)| Technique { code, efficiency })
            .to_vec(),
        gaps: [0; 3],
    };
    let line = |kilograms, technique, reuse| Line {
        reuse,
        ..Line::direct(kilograms).treated(technique, 3, [0.0; 3])
    };
    let to_removed_and_reused = line(100_000, 1, 1000);
    let to_reused_and_discharged = line(100_000, 0, 500);
    let to_removed_and_discharged = line(100_000, 1, 0);
    let six = [to_removed_and_reused, to_reused_and_discharged, to_removed_and_discharged];
    let eight = [six[0], six[1], line(50_000, 0, 0), line(50_000, 2, 0)];
    for (lines, loose) in [(six.to_vec(), 6), (eight.to_vec(), 8)] {
        let cells = 5 * (lines.len() + 1);
        let case = Case::of(&book, &Sheet::new(1, 1, 1, lines));
        tally.expect_accepted(&case);
        let filled = run_proved(&case).expect("the memory around is kept");
        let halves = filled.exact[..cells].iter().filter(|cell| *cell % 100_000 == 50_000);
        assert_eq!(halves.count(), loose);
        assert_eq!(filled.shown[cells - 5..cells], [3, 1, 1, 1, 0]);
    }
}

/// The most that can be generated, k at 1 or just below it, and divisors of
/// each length that a reading can make.
#[test]
fn shares_by_divisors_of_every_length() {
    let mut tally = Tally::new("shares_by_divisors_of_every_length");
    for rated in [0.001f64, 0.07, 1.3, 64.0, 999.999, 1024.0, 10_000.0] {
        for hours in [0.01, 1.0, 77.7, 1000.0, 8783.999, 8784.0] {
            let energy = (rated * hours * 1000.0).floor() / 1000.0;
            let figure = Figure {
                amount: Amount { digits: 1000, places: 0, kilograms: 1_000_000_000 },
                efficiency: 999,
                reading: (2, [energy.min(10_000_000.0), rated, hours]),
                reuse: 0,
                expected: [0; 4],
            };
            tally.expect_accepted(&case(&figure, 1));
        }
    }
}

/// One file of another folder with other bytes in it, as `make-files` writes
/// no such lines, bundles, books or fugitive tables.
struct Change {
    of: &'static str,
    file: &'static str,
    at: usize,
    bytes: Vec<u8>,
}

fn change(folder: &str) -> Option<Change> {
    let change = |of, file, at, bytes| Some(Change { of, file, at, bytes });
    match folder {
        "over-hours" => {
            let run = 8784.001f64.to_le_bytes();
            change("limits", "sheet.bin", 16 + 32, run.to_vec())
        }
        "over-kilograms" => {
            let kilograms = 1_000_000_001u64.to_le_bytes();
            change("limits", "sheet.bin", 16 + 64 + 16, kilograms.to_vec())
        }
        // The first sheet, of one line, ends at 108.
        "bundle-overlapping" => {
            change("bundle-short-run", "bundle.bin", 12 + 8, 107u32.to_le_bytes().to_vec())
        }
        // The second entry has the scale of the first.
        "fugitive-bad-table" => change("fugitive", "fugitive.bin", 12 + 28 + 8, vec![0, 0]),
        // The pollutant of the own book's second row.
        "own-bad-book" => change("own-kiln", "own.bin", 16 + 24 + 11, vec![0]),
        "fugitive-in-water" => change("document-000", "sheet.bin", 16 + 56, vec![1]),
        // A book of one row and one technique has 44 bytes.
        "bundle-bad-book" => {
            change("bundle-short-run", "book.bin", 0, 45u32.to_le_bytes().to_vec())
        }
        _ => None,
    }
}

/// The folder's files are those of its listing, or of another folder with its
/// change.
fn is_up_to_date(top: &Path, folder: &Path) -> bool {
    let name = folder.file_name().and_then(|name| name.to_str()).expect("a folder has a name");
    let Some(change) = change(name) else {
        let mut make = Command::new(top.join("make-files"));
        return make.arg("--check").arg(folder).status().expect("make-files runs").success();
    };
    let original = folder.with_file_name(change.of);
    let read = |folder: &Path, file: &str| fs::read(folder.join(file)).ok();
    let changed = |file: &str| {
        let mut bytes = read(&original, file);
        if let Some(whole) = bytes.as_mut().filter(|_| file == change.file) {
            whole[change.at..change.at + change.bytes.len()].copy_from_slice(&change.bytes);
        }
        bytes
    };
    let files = ["own.bin", "book.bin", "fugitive.bin", "sheet.bin", "bundle.bin"];
    files.iter().all(|file| read(folder, file) == changed(file))
}

/// The folders that the proved program `figures` runs over are what their
/// listings say, and the plain desk answers the same.
#[test]
fn the_folders_of_the_figures() {
    let mut tally = Tally::new("the_folders_of_the_figures");
    let top = Path::new(env!("CARGO_MANIFEST_DIR")).join("..");
    let data = top.join("crates/figures/data");
    for folder in data.read_dir().expect("the folders are there").flatten() {
        let folder = folder.path();
        assert!(is_up_to_date(&top, &folder), "stale files in {}", folder.display());
        if folder.join("bundle.bin").exists() {
            tally.agree(&BundleCase::read(&folder).expect("a folder has its files"));
        } else if folder.join("sheet.csv").exists() {
            tally.agree(&TextCase::read(&folder).expect("a folder has its files"));
        } else {
            tally.agree(&Case::read(&folder).expect("a folder has its files"));
        }
    }
}
