//! Tables being settled, each step held to the sentences of the rule and to the round
//! that is described, up to the table in which all is whole.

use checkraven::cells_for;
use peer::compare::{limited, run_plain, run_proved, thinned, Case, Filled, StepCase, Tally};
use peer::make::generate::{self, Size};
use peer::make::tables::{self, table_of, MOST_CELL};
use peer::make::{every_two, Book, Line, Random, Row, Sheet, Technique};
use peer::table::{COLUMNS, UNITS};
use peer::{one_step, plain};
use std::cmp::Ordering;

/// How many tables a test with so many cases follows, of about so many steps each.
fn tables_in(cases: usize, steps: usize) -> usize {
    limited(cases).div_ceil(steps)
}

/// Follows the proved desk's steps to the end, and holds their number to its count.
fn follow(tally: &mut Tally, unit: u64, table: &[u64]) -> Vec<u64> {
    let mut case = StepCase::with_room(unit, table.to_vec());
    let mut taken = 0;
    let mut first_count = None;
    loop {
        tally.expect_accepted(&case);
        let stepped = case.run_proved().expect("the memory around is kept");
        let count = stepped.steps.expect("the table is taken");
        let first_count = *first_count.get_or_insert(count);
        assert_eq!(count + taken, first_count, "each count is one less than the one before");
        let Some(after) = stepped.changed(&case) else {
            assert_eq!((stepped.answer, taken), (Ok(false), first_count));
            assert_eq!(stepped.lent[..table.len()], case.table, "a whole table is copied");
            assert!(taken <= table.len(), "at most five steps for each row");
            return case.table;
        };
        case.table = after;
        taken += 1;
    }
}

/// The same for the plain one, whose rounds may be others.
fn follow_plain(unit: u64, table: &[u64]) -> Vec<u64> {
    let mut table = table.to_vec();
    let mut next = vec![0; table.len()];
    let count = plain::steps(unit, &table).expect("the table is taken");
    for _ in 0..count {
        assert_eq!(plain::step(unit, &table, &mut next), Ok(true));
        assert_eq!(one_step::broken(&table, &next, UNITS[unit as usize - 1]), []);
        table.copy_from_slice(&next);
    }
    assert_eq!(plain::step(unit, &table, &mut next), Ok(false));
    assert_eq!(next, table);
    table
}

/// The end, divided by W.
fn in_units(end: &[u64], unit: u64) -> Vec<u64> {
    assert!(end.iter().all(|cell| cell % unit == 0), "all cells are whole");
    end.iter().map(|cell| cell / unit).collect()
}

/// From the exact table of a sheet to its shown one, on both desks.
fn settle_sheet(tally: &mut Tally, case: &Case) {
    let cells = cells_for(case.line_count());
    let code = u64::from(case.sheet[12]);
    let Filled { exact, shown, .. } = run_proved(case).expect("the memory around is kept");
    let end = follow(tally, code, &exact[..cells]);
    assert_eq!(in_units(&end, case.shown_unit()), shown[..cells]);
    let Filled { exact, shown, .. } = run_plain(case);
    let end = follow_plain(code, &exact[..cells]);
    assert_eq!(in_units(&end, case.shown_unit()), shown[..cells]);
}

#[test]
fn sheets_become_their_shown_tables() {
    let mut tally = Tally::new("sheets_become_their_shown_tables");
    let mut random = Random::new(701);
    let most = Size { rows: 12, techniques: 20, lines: 12 };
    for _ in 0..tables_in(14_000, 7) {
        settle_sheet(&mut tally, &generate::case_up_to(&mut random, most));
    }
}

#[test]
fn full_sheets_become_their_shown_tables() {
    let mut tally = Tally::new("full_sheets_become_their_shown_tables");
    let mut random = Random::new(702);
    for round in 0..tables_in(5_400, 600) {
        let size = Size { rows: 30, techniques: 60, lines: 128 };
        settle_sheet(&mut tally, &generate::case(&mut random, size));
        settle_sheet(&mut tally, &loose_sheet(&mut random, 1 + round as u32 % 3));
    }
}

/// Four cells of each of 128 lines are loose.
fn loose_sheet(random: &mut Random, unit: u32) -> Case {
    let row = Row { places: 5, ..Row::plain(1, 1, 9_999_991) };
    let book = Book {
        rows: vec![row.with_techniques(1, 0, 1)],
        techniques: vec![Technique { code: 1, efficiency: 701 }],
        gaps: [0; 3],
    };
    let line = |_| {
        let hours = [1.0 + random.below(4000) as f64, 5000.0, 0.0];
        let line = Line::direct(1 + random.below(999_999_999)).treated(1, 1, hours);
        Line { reuse: 1 + random.below(999) as u16, ..line }
    };
    Case::of(&book, &Sheet::new(1, 1, unit, (0..128).map(line).collect()))
}

#[test]
fn small_tables_followed_to_the_end() {
    let mut tally = Tally::new("small_tables_followed_to_the_end");
    let mut random = Random::new(703);
    for round in 0..tables_in(24_000, 4) {
        let code = 1 + round as u64 % 3;
        let lines = random.index(7);
        let table = tables::table(&mut random, UNITS[code as usize - 1], lines);
        follow(&mut tally, code, &table);
        follow_plain(code, &table);
    }
}

#[test]
fn full_tables_followed_to_the_end() {
    let mut tally = Tally::new("full_tables_followed_to_the_end");
    let mut random = Random::new(704);
    for round in 0..tables_in(2_400, 100) {
        let code = 1 + round as u64 % 3;
        let lines = if round % 2 == 0 { 128 } else { 100 + random.index(29) };
        let table = tables::table(&mut random, UNITS[code as usize - 1], lines);
        follow(&mut tally, code, &table);
        follow_plain(code, &table);
    }
}

/// All five cells of every row are loose, in which most steps are to be taken.
#[test]
fn the_most_steps_stay_within_their_limit() {
    let mut tally = Tally::new("the_most_steps_stay_within_their_limit");
    let mut random = Random::new(705);
    for lines in thinned(vec![1, 2, 3, 4, 5, 8, 20, 128]) {
        let parts = |_| [0; 4].map(|_| 1 + random.below(99_998));
        let table = table_of(&(0..lines).map(parts).collect::<Vec<_>>());
        follow(&mut tally, 1, &table);
        let steps = plain::steps(1, &table).expect("the table is taken");
        assert!(steps >= 3 * lines, "some steps for each line, of {lines}: {steps}");
    }
}

#[test]
fn every_number_of_lines() {
    let mut tally = Tally::new("every_number_of_lines");
    let mut random = Random::new(706);
    let numbers = (0..=128).flat_map(|lines| [lines; 9]).collect();
    for (round, lines) in thinned::<usize>(numbers).enumerate() {
        let code = 1 + round as u64 % 3;
        let table = tables::table(&mut random, UNITS[code as usize - 1], lines);
        assert_eq!(table.len(), COLUMNS * (lines + 1));
        tally.expect_accepted(&StepCase::with_room(code, table));
    }
}

/// The sum of all is 16 × 10^18, or a little less.
#[test]
fn sums_at_the_limit() {
    let mut tally = Tally::new("sums_at_the_limit");
    let mut random = Random::new(707);
    for round in 0..tables_in(3_600, 6) {
        let code = 1 + round as u64 % 3;
        let unit = UNITS[code as usize - 1];
        let lines = if round % 50 == 0 { 127 } else { random.index(6) };
        let table = tables::table_at_the_limit(&mut random, unit, lines);
        assert!(table.iter().max() >= Some(&(MOST_CELL - unit - 1)));
        let end = follow(&mut tally, code, &table);
        assert!(end.iter().all(|&cell| cell <= MOST_CELL));
        follow_plain(code, &table);
    }
}

/// Every table of two lines whose cells are 0, a third or two thirds of a gram.
#[test]
fn all_small_tables_of_thirds() {
    let mut tally = Tally::new("all_small_tables_of_thirds");
    let third = |number: usize, digit: u32| [0, 33_333, 66_667][number / 3usize.pow(digit) % 3];
    for number in thinned((0..3usize.pow(8)).collect()) {
        let lines = [0, 4].map(|from| [0, 1, 2, 3].map(|digit| third(number, from + digit)));
        follow(&mut tally, 1, &table_of(&lines));
    }
}

/// A cell that is just below or just above a whole number of units, at every place.
#[test]
fn cells_next_to_whole_ones() {
    let mut tally = Tally::new("cells_next_to_whole_ones");
    for (code, unit) in (1..).zip(UNITS) {
        for (at, by) in every_two(&(0..12).collect::<Vec<usize>>(), &[1, unit - 1]) {
            let mut lines = [[3 * unit; 4]; 3];
            lines[at / 4][at % 4] += by;
            follow(&mut tally, code, &table_of(&lines));
        }
    }
}

/// Both desks leave a whole table as it is, whatever its size.
#[test]
fn whole_tables_stay() {
    let mut tally = Tally::new("whole_tables_stay");
    let mut random = Random::new(708);
    for round in 0..limited(1_000) {
        let code = 1 + round as u64 % 3;
        let unit = UNITS[code as usize - 1];
        let lines = if round % 20 == 0 { 128 } else { random.index(10) };
        let parts: Vec<[u64; 4]> =
            (0..lines).map(|_| [0; 4].map(|_| unit * random.up_to(300_000))).collect();
        let table = table_of(&parts);
        assert_eq!(follow(&mut tally, code, &table), table);
        assert_eq!(follow_plain(code, &table), table);
    }
}

/// The cells of a row of the picture, with the signs behind them.
fn drawn_row(line: &str) -> Option<Vec<&str>> {
    let labels = ["    line 1", "    line 2", "    total"];
    let row = labels.iter().find_map(|label| line.strip_prefix(label))?;
    Some(row.split_whitespace().collect())
}

/// In units of ten.
fn drawn_cell(cell: &str) -> u64 {
    let tens: u64 = cell.trim_end_matches(['+', '-']).parse().expect("a cell of the picture");
    10_000 * tens
}

/// A cell after a step, as the picture has it.
fn drawn(before: u64, after: u64) -> String {
    let sign = match after.cmp(&before) {
        Ordering::Less => "-",
        Ordering::Equal => "",
        Ordering::Greater => "+",
    };
    format!("{}{sign}", after / 10_000)
}

/// The picture of docs/SETTLING.md, as the page draws it: each table is a step from
/// the one before, with a sign behind each cell that moved, and the last one stays.
#[test]
fn the_described_steps() {
    let mut tally = Tally::new("the_described_steps");
    let page = concat!(env!("CARGO_MANIFEST_DIR"), "/../docs/SETTLING.md");
    let page = std::fs::read_to_string(page).expect("the page on settling");
    let rows: Vec<Vec<&str>> = page.lines().filter_map(drawn_row).collect();
    let pictures: Vec<Vec<&str>> = rows.chunks(3).map(<[Vec<&str>]>::concat).collect();
    assert_eq!(pictures.len(), 8, "the table to start with, and seven steps");
    let start: Vec<u64> = pictures[0].iter().map(|&cell| drawn_cell(cell)).collect();
    let mut case = StepCase::with_room(1, start.clone());
    for (step, picture) in pictures[1..].iter().enumerate() {
        let stepped = case.run_proved().expect("the memory around is kept");
        assert_eq!(stepped.steps, Ok(7 - step));
        let after = stepped.changed(&case).expect("a step that is drawn changes something");
        let cells = case.table.iter().zip(&after);
        assert_eq!(*picture, Vec::from_iter(cells.map(|(&from, &to)| drawn(from, to))));
        case.table = after;
    }
    assert_eq!(follow(&mut tally, 1, &start), case.table);
    let end = in_units(&case.table, UNITS[0]);
    assert_eq!(end, [3, 1, 1, 1, 0, 3, 0, 0, 1, 2, 6, 1, 1, 2, 2]);
}
