//! Every refusal, and of every two the one that comes first.

use peer::compare::{Case, Tally};
use peer::make::{Book, Line, Row, Sheet, Technique};

/// Rows by hours (process 1), by energy (process 2) and without techniques
/// (process 3), COD in water.
fn book() -> Book {
    let technique = |code, efficiency| Technique { code, efficiency };
    let row = |process| Row { place: [3240, 1, 1, process], ..Row::plain(1, 1, 203) };
    Book {
        rows: vec![row(1).with_techniques(1, 0, 2), row(2).with_techniques(2, 1, 2), row(3)],
        techniques: vec![technique(1, 700), technique(2, 300), technique(9, 990)],
        gaps: [0, 0, 0],
    }
}

fn hours_line() -> Line {
    Line { reuse: 950, ..Line::direct(16_250_000).treated(1, 1, [7920.0, 7920.0, 0.0]) }
}

/// A run above the production.
fn outran_line() -> Line {
    Line { readings: [7920.001, 7920.0, 0.0].map(f64::to_bits), ..hours_line() }
}

fn energy_line() -> Line {
    let line = Line::direct(1_000_000).treated(9, 2, [900.0, 0.5, 3600.0]);
    Line { place: [3240, 1, 1, 2], ..line }
}

fn sheet(lines: Vec<Line>) -> Sheet {
    Sheet::new(1, 1, 1, lines)
}

fn case(lines: Vec<Line>) -> Case {
    Case::of(&book(), &sheet(lines))
}

type LineFault = (u32, fn(&mut Line));

/// Faults of a line by hours. Those of different numbers touch different
/// fields, so any two of these can stand together.
const HOURS_FAULTS: [LineFault; 11] = [
    (4, |line| line.product = 1_000_000_001),
    (4, |line| line.material = u64::MAX),
    (5, |line| line.reuse = 1001),
    (6, |line| line.place[0] = 3241),
    (6, |line| line.place[3] = 9),
    (7, |line| line.technique = 9),
    (8, |line| line.kind = 0),
    (8, |line| line.kind = 2),
    (9, |line| line.readings[0] = f64::NAN.to_bits()),
    (9, |line| line.readings[0] = 8784.001f64.to_bits()),
    (10, |line| line.readings[1] = 0.0004f64.to_bits()),
];

const ENERGY_FAULTS: [LineFault; 12] = [
    (4, |line| line.material = 1_000_000_001),
    (5, |line| line.reuse = 65_535),
    (6, |line| line.place[1] = 0),
    (7, |line| line.technique = 1),
    (8, |line| line.kind = 1),
    (9, |line| line.readings[0] = 10_000_000.001f64.to_bits()),
    (9, |line| line.readings[1] = 10_000.001f64.to_bits()),
    (9, |line| line.readings[2] = 8784.001f64.to_bits()),
    (9, |line| line.readings[2] = f64::NEG_INFINITY.to_bits()),
    (10, |line| line.readings[1] = (-0.0f64).to_bits()),
    (10, |line| line.readings[2] = 0.0f64.to_bits()),
    (11, |line| line.readings[0] = 1800.001f64.to_bits()),
];

fn with_faults(mut line: Line, faults: &[LineFault]) -> Line {
    faults.iter().for_each(|(_, spoil)| spoil(&mut line));
    line
}

/// The lists of faults, each with a sound line that they spoil.
fn fault_lists() -> [(Line, &'static [LineFault]); 3] {
    [(hours_line(), &HOURS_FAULTS), (outran_line(), &HOURS_FAULTS), (energy_line(), &ENERGY_FAULTS)]
}

#[test]
fn sound_lines_are_accepted() {
    let mut tally = Tally::new("sound_lines_are_accepted");
    tally.expect_accepted(&case(vec![hours_line(), energy_line(), outran_line()]));
}

#[test]
fn each_refusal_of_a_line_in_each_place() {
    let mut tally = Tally::new("each_refusal_of_a_line_in_each_place");
    for (sound, faults) in fault_lists() {
        for fault in faults {
            for place in 0..5 {
                let mut lines = vec![sound; 5];
                lines[place] = with_faults(sound, &[*fault]);
                tally.expect_refused(&case(lines), fault.0, place as u32 + 1);
            }
        }
    }
}

#[test]
fn two_refusals_in_one_line() {
    let mut tally = Tally::new("two_refusals_in_one_line");
    for (sound, faults) in fault_lists() {
        for first in faults {
            for second in faults.iter().filter(|second| second.0 > first.0) {
                // The later fault is done first, so that it can't hide the other.
                let line = with_faults(sound, &[*second, *first]);
                tally.expect_refused(&case(vec![sound, line, sound]), first.0, 2);
            }
        }
    }
}

/// The earlier line decides, whatever the numbers.
#[test]
fn two_refusals_in_two_lines() {
    let mut tally = Tally::new("two_refusals_in_two_lines");
    let all: Vec<(Line, LineFault)> = fault_lists()
        .iter()
        .flat_map(|(sound, faults)| faults.iter().map(|fault| (*sound, *fault)))
        .collect();
    for (sound, fault) in &all {
        for (other_sound, other) in &all {
            let (line, later) =
                (with_faults(*sound, &[*fault]), with_faults(*other_sound, &[*other]));
            tally.expect_refused(&case(vec![line, later]), fault.0, 1);
            tally.expect_refused(&case(vec![*sound, line, *other_sound, later]), fault.0, 2);
        }
    }
}

/// Direct discharge looks neither at the kind nor at the readings.
#[test]
fn direct_discharge_has_no_refusal_from_its_reading() {
    let mut tally = Tally::new("direct_discharge_has_no_refusal_from_its_reading");
    for (sound, faults) in fault_lists() {
        for fault in faults.iter().filter(|fault| fault.0 >= 8) {
            let line = Line { technique: 0, ..with_faults(sound, &[*fault]) };
            tally.expect_accepted(&case(vec![line]));
        }
    }
}

#[test]
fn a_row_without_techniques_takes_direct_discharge_only() {
    let mut tally = Tally::new("a_row_without_techniques_takes_direct_discharge_only");
    for kind in 0..=3 {
        let line = Line { place: [3240, 1, 1, 3], kind, ..hours_line() };
        tally.expect_refused(&case(vec![line]), 7, 1);
        tally.expect_accepted(&case(vec![Line { technique: 0, ..line }]));
    }
}

#[test]
fn kinds_go_with_their_k_rules() {
    let mut tally = Tally::new("kinds_go_with_their_k_rules");
    for (sound, its_kind) in [(hours_line(), 1), (outran_line(), 1), (energy_line(), 2)] {
        for kind in 0..=3 {
            let case = case(vec![Line { kind, ..sound }]);
            match kind == its_kind || kind == 3 {
                true => tally.expect_accepted(&case),
                false => tally.expect_refused(&case, 8, 1),
            }
        }
    }
}

type BookFault = fn(&mut Book);

const BOOK_FAULTS: [BookFault; 29] = [
    |book| book.rows[1].medium = 0,
    |book| book.rows[1].medium = 4,
    |book| book.rows[1].pollutant = 0,
    |book| book.rows[1].basis = 0,
    |book| book.rows[1].basis = 3,
    |book| book.rows[1].unit = 0,
    |book| book.rows[1].unit = 4,
    |book| book.rows[1].places = 6,
    |book| (book.rows[1].unit, book.rows[1].places) = (1, 3),
    |book| (book.rows[1].unit, book.rows[1].places) = (3, 6),
    |book| book.rows[1].k_rule = 0,
    |book| book.rows[1].k_rule = 3,
    |book| book.rows[2].k_rule = 1,
    |book| book.rows[2].k_rule = 2,
    |book| book.rows[1].first = 2,
    |book| book.rows[1].first = 65_535,
    |book| book.rows[1].number = 3,
    |book| book.rows[1].number = 65_535,
    |book| book.techniques[0].code = 0,
    |book| book.techniques[1].code = 1,
    |book| book.techniques[2].code = 2,
    |book| book.techniques[1].efficiency = 1001,
    |book| book.techniques[2].efficiency = 65_535,
    |book| book.rows[1].digits = 1001,
    |book| (book.rows[1].unit, book.rows[1].digits) = (1, 1_000_001),
    |book| (book.rows[1].unit, book.rows[1].digits) = (3, 2),
    |book| (book.rows[1].unit, book.rows[1].places, book.rows[1].digits) = (3, 5, 100_001),
    |book| book.rows[1] = book.rows[0],
    |book| book.rows.swap(0, 1),
];

#[test]
fn each_malformed_book() {
    let mut tally = Tally::new("each_malformed_book");
    for spoil in BOOK_FAULTS {
        let mut book = book();
        spoil(&mut book);
        tally.expect_refused(&Case::of(&book, &sheet(vec![hours_line()])), 1, 0);
    }
}

/// The largest values that a book may hold, and what it doesn't look at.
#[test]
fn books_at_their_limits_are_accepted() {
    const CHANGES: [BookFault; 8] = [
        |book| book.rows[2].digits = 1000,
        |book| (book.rows[2].places, book.rows[2].digits) = (5, 100_000_000),
        |book| (book.rows[2].unit, book.rows[2].digits) = (1, 1_000_000),
        |book| (book.rows[2].unit, book.rows[2].places, book.rows[2].digits) = (1, 2, 100_000_000),
        |book| (book.rows[2].unit, book.rows[2].digits) = (3, 1),
        |book| (book.rows[2].unit, book.rows[2].places, book.rows[2].digits) = (3, 5, 100_000),
        |book| book.rows[2].first = 65_535,
        |book| book.techniques.push(Technique { code: 0, efficiency: 65_535 }),
    ];
    let mut tally = Tally::new("books_at_their_limits_are_accepted");
    for change in CHANGES {
        let mut book = book();
        change(&mut book);
        let line = Line { place: [3240, 1, 1, 3], ..Line::direct(1_000_000_000) };
        tally.expect_accepted(&Case::of(&book, &sheet(vec![line])));
    }
}

/// Rows rise by every part of their key, the earlier parts first.
#[test]
fn rows_rise_by_each_part() {
    let mut tally = Tally::new("rows_rise_by_each_part");
    const PARTS: [BookFault; 7] = [
        |book| book.rows[0].place[0] += 1,
        |book| book.rows[0].place[1] += 1,
        |book| book.rows[0].place[2] += 1,
        |book| book.rows[0].place[3] += 1,
        |book| book.rows[0].scale += 1,
        |book| book.rows[0].medium += 1,
        |book| book.rows[0].pollutant += 1,
    ];
    for (rank, larger) in PARTS.iter().enumerate() {
        let mut book = Book { rows: vec![Row::plain(1, 1, 5); 2], ..Book::default() };
        larger(&mut book);
        // Later parts that rise don't help.
        PARTS[rank + 1..].iter().for_each(|later| {
            book.rows.swap(0, 1);
            later(&mut book);
            book.rows.swap(0, 1);
        });
        let empty = sheet(vec![]);
        tally.expect_refused(&Case::of(&book, &empty), 1, 0);
        book.rows.swap(0, 1);
        tally.expect_accepted(&Case::of(&book, &empty));
    }
}

type SheetFault = fn(&mut Sheet);

const SHEET_FAULTS: [SheetFault; 12] = [
    |sheet| sheet.medium = 0,
    |sheet| sheet.medium = 4,
    |sheet| sheet.pollutant = 0,
    |sheet| sheet.unit = 0,
    |sheet| sheet.unit = 4,
    |sheet| sheet.unit = 1 + 65_536,
    |sheet| sheet.lines[1].kind = 4,
    |sheet| sheet.lines[1].kind = 255,
    |sheet| sheet.lines[1].zero = 1,
    |sheet| sheet.lines[1].last_zeros[0] = 1,
    |sheet| sheet.lines[1].last_zeros[4] = 128,
    |sheet| sheet.lines = vec![hours_line(); 129],
];

#[test]
fn each_malformed_sheet() {
    let mut tally = Tally::new("each_malformed_sheet");
    for spoil in SHEET_FAULTS {
        let mut sheet = sheet(vec![hours_line(); 2]);
        spoil(&mut sheet);
        tally.expect_refused(&Case::of(&book(), &sheet), 2, 0);
    }
}

/// 1 before 2 before 3 before every line, alone and all together.
#[test]
fn whole_files_come_before_lines() {
    let mut tally = Tally::new("whole_files_come_before_lines");
    let line_faults = HOURS_FAULTS.iter().map(|fault| with_faults(hours_line(), &[*fault]));
    for spoiled in line_faults.chain([hours_line()]) {
        let lines = vec![spoiled, hours_line()];
        let short = |case: Case| [case.clone().with_lengths(14, 15), case.with_lengths(15, 0)];
        for spoil_sheet in SHEET_FAULTS {
            let mut malformed = sheet(lines.clone());
            spoil_sheet(&mut malformed);
            let with_sheet_fault = Case::of(&book(), &malformed);
            tally.expect_refused(&with_sheet_fault, 2, 0);
            short(with_sheet_fault).iter().for_each(|case| tally.expect_refused(case, 2, 0));
            for spoil_book in BOOK_FAULTS.into_iter().step_by(5) {
                let mut book = book();
                spoil_book(&mut book);
                let with_both = Case::of(&book, &malformed);
                tally.expect_refused(&with_both, 1, 0);
                short(with_both).iter().for_each(|case| tally.expect_refused(case, 1, 0));
            }
        }
        for short in short(case(lines)) {
            tally.expect_refused(&short, 3, 0);
        }
    }
}

#[test]
fn limits_of_counts_and_bytes() {
    let mut tally = Tally::new("limits_of_counts_and_bytes");
    let line = vec![Line::direct(5)];
    let rows = |count| (0..count).map(|scale| Row { scale, ..Row::plain(1, 1, 5) }).collect();
    let mut large = Book { rows: rows(1024), ..Book::default() };
    tally.expect_accepted(&Case::of(&large, &sheet(line.clone())));
    large.rows = rows(1025);
    tally.expect_refused(&Case::of(&large, &sheet(line.clone())), 1, 0);
    large.rows = rows(1);
    large.techniques = vec![Technique { code: 0, efficiency: 0 }; 4096];
    tally.expect_accepted(&Case::of(&large, &sheet(line.clone())));
    large.techniques.push(Technique { code: 0, efficiency: 0 });
    tally.expect_refused(&Case::of(&large, &sheet(line.clone())), 1, 0);

    for part in 0..3 {
        let mut longest = book();
        longest.gaps[part] = 65_536 - longest.bytes().len();
        tally.expect_accepted(&Case::of(&longest, &sheet(vec![hours_line()])));
        longest.gaps[part] += 1;
        tally.expect_refused(&Case::of(&longest, &sheet(vec![hours_line()])), 1, 0);
    }
    for part in 0..2 {
        let mut longest = sheet(vec![hours_line(); 128]);
        longest.gaps[part] = 65_536 - longest.bytes().len();
        tally.expect_accepted(&Case::of(&book(), &longest));
        longest.gaps[part] += 1;
        tally.expect_refused(&Case::of(&book(), &longest), 2, 0);
    }
}
