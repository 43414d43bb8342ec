//! Bundles: every sheet has runs, an outcome and refusals of its own, and what
//! is refused of the whole comes before all of them.

use peer::compare::{limited, thinned, BundleCase, Tally};
use peer::make::generate::Size;
use peer::make::two_kinds::{bad_book, book};
use peer::make::works::{mixed_works, sound_works};
use peer::make::{every_two, Bundle, Line, Random, Sheet};

fn line(product: u64) -> Line {
    Line { reuse: 333, ..Line::direct(product).treated(1, 1, [7000.0, 7920.0, 0.0]) }
}

/// A sheet in tonnes that is accepted, with figures of its own.
fn sheet(lines: usize, figure: usize) -> Vec<u8> {
    let product = |index: usize| 1_234_567 + 1000 * figure as u64 + index as u64;
    let lines = (0..lines).map(|index| line(product(index))).collect();
    Sheet::new(1, 1, 3, lines).bytes()
}

fn sheets(lines: &[usize]) -> Vec<Vec<u8>> {
    lines.iter().enumerate().map(|(index, &lines)| sheet(lines, index)).collect()
}

fn case(cells: u32, sheets: &[Vec<u8>]) -> BundleCase {
    BundleCase::of(&book().bytes(), &Bundle::of(cells, sheets))
}

const ACCEPTED: (u64, u64) = (0, 0);

#[test]
fn every_number_of_sheets() {
    let mut tally = Tally::new("every_number_of_sheets");
    let mut random = Random::new(51);
    let numbers = (0..=16).flat_map(|sheets| [sheets; 60]).collect();
    for sheets in thinned(numbers) {
        let most = Size { rows: 12, techniques: 20, lines: 8 };
        let case = sound_works(&mut random, sheets, most);
        tally.expect_sheets(&case, &vec![ACCEPTED; sheets]);
    }
}

#[test]
fn sheets_of_every_size() {
    let mut tally = Tally::new("sheets_of_every_size");
    for lines in thinned((0..=128).collect()) {
        let cells = 5 * (lines as u32 + 1);
        tally.expect_sheets(&case(cells, &sheets(&[lines; 5])), &[ACCEPTED; 5]);
        let mixed = sheets(&[0, lines, lines / 2, 1, lines]);
        tally.expect_sheets(&case(cells.max(10), &mixed), &[ACCEPTED; 5]);
    }
}

#[test]
fn large_works() {
    let mut tally = Tally::new("large_works");
    let mut random = Random::new(52);
    for _ in 0..limited(60) {
        let most = Size { rows: 1024, techniques: 4096, lines: 60 };
        tally.expect_sheets(&sound_works(&mut random, 16, most), &[ACCEPTED; 16]);
    }
}

#[test]
fn generated_works() {
    let mut tally = Tally::new("generated_works");
    let mut random = Random::new(53);
    let most = Size { rows: 12, techniques: 20, lines: 8 };
    for _ in 0..limited(30_000) {
        tally.expect_accepted(&mixed_works(&mut random, most));
    }
}

#[test]
fn more_than_sixteen_sheets() {
    let mut tally = Tally::new("more_than_sixteen_sheets");
    tally.expect_sheets(&case(5, &sheets(&[0; 16])), &[ACCEPTED; 16]);
    for number in [17, 18, 32, 255, 256] {
        let case = case(5, &sheets(&vec![0; number])).with_lengths(9000, 9000, 300);
        tally.expect_refused(&case, 16, 0);
    }
}

/// A thousandth of a kWh more than 0.5 kW take in 3600 hours.
const OVER_RATING: [f64; 3] = [1800.001, 0.5, 3600.0];

/// A line fault and the number of its refusal.
type Fault = (u64, fn(&mut Line));

const FAULTS: [Fault; 8] = [
    (4, |line| line.product = 1_000_000_001),
    (5, |line| line.reuse = 1001),
    (6, |line| line.place[0] = 3241),
    (7, |line| line.technique = 9),
    (8, |line| line.kind = 2),
    (9, |line| line.readings[0] = f64::NAN.to_bits()),
    (10, |line| line.readings[1] = 0.0004f64.to_bits()),
    (11, |line| *line = Line { place: [3240, 1, 1, 2], ..line.treated(1, 2, OVER_RATING) }),
];

/// Sheets with every refusal that a sheet of its own can have where its runs
/// have fifteen cells, each with its number and line.
fn refused_sheets() -> Vec<((u64, u64), Vec<u8>)> {
    let with_fault = |(number, spoil): Fault| {
        let mut lines = vec![line(7), line(8)];
        spoil(&mut lines[1]);
        ((number, 2), Sheet::new(1, 1, 1, lines).bytes())
    };
    let no_such_unit = Sheet::new(1, 1, 4, vec![line(7)]).bytes();
    let whole_sheets = [((2, 0), vec![]), ((2, 0), no_such_unit), ((3, 0), sheet(3, 0))];
    whole_sheets.into_iter().chain(FAULTS.map(with_fault)).collect()
}

#[test]
fn every_refusal_beside_accepted_sheets() {
    let mut tally = Tally::new("every_refusal_beside_accepted_sheets");
    for ((refusal, refused), place) in every_two(&refused_sheets(), &[0, 1, 2, 3, 4]) {
        let mut sheets = sheets(&[2, 1, 2, 0, 2]);
        sheets[place] = refused;
        let mut expected = [ACCEPTED; 5];
        expected[place] = refusal;
        tally.expect_sheets(&case(15, &sheets), &expected);
    }
}

#[test]
fn every_two_refusals_side_by_side() {
    let mut tally = Tally::new("every_two_refusals_side_by_side");
    for ((one, first), (other, second)) in every_two(&refused_sheets(), &refused_sheets()) {
        let sheets = [sheet(2, 0), first.clone(), second, sheet(2, 3), first];
        tally.expect_sheets(&case(15, &sheets), &[ACCEPTED, one, other, ACCEPTED, one]);
    }
}

#[test]
fn all_refusals_in_one_bundle() {
    let mut tally = Tally::new("all_refusals_in_one_bundle");
    let (mut expected, mut all): (Vec<_>, Vec<_>) = refused_sheets().into_iter().unzip();
    for place in [0, 5, 6, 10, 15] {
        expected.insert(place, ACCEPTED);
        all.insert(place, sheet(2, place));
    }
    tally.expect_sheets(&case(15, &all), &expected);
}

/// Runs that are too short for one sheet refuse that sheet alone.
#[test]
fn cells_per_sheet_around_the_need() {
    let mut tally = Tally::new("cells_per_sheet_around_the_need");
    let sheets = sheets(&[1, 3, 0, 2]);
    let need = [10, 20, 5, 15];
    for cells in 0..=40 {
        let expected = need.map(|need| if cells < need { (3, 0) } else { ACCEPTED });
        tally.expect_sheets(&case(cells, &sheets), &expected);
        let all = 4 * cells as usize;
        tally.expect_sheets(&case(cells, &sheets).with_lengths(all, all, 4), &expected);
    }
}

/// 16 × 2^28 and 2 × 2^31 are nothing in 32 bits.
#[test]
fn cells_per_sheet_far_over_the_room() {
    let mut tally = Tally::new("cells_per_sheet_far_over_the_room");
    let around = |power: u32| [(1 << power) - 1, 1 << power, (1 << power) + 1];
    let cells: Vec<u32> = (5..32).flat_map(around).chain([u32::MAX]).collect();
    for (number, cells) in every_two(&[1, 2, 3, 5, 15, 16], &cells) {
        let case = case(cells, &vec![sheet(0, 0); number]).with_lengths(10_320, 10_320, 16);
        match number as u64 * cells as u64 <= 10_320 {
            true => tally.expect_sheets(&case, &vec![ACCEPTED; number]),
            false => tally.expect_refused(&case, 3, 0),
        }
    }
}

#[test]
fn results_and_outcomes_around_the_need() {
    let mut tally = Tally::new("results_and_outcomes_around_the_need");
    for (number, cells) in [(1, 15), (2, 10), (5, 11), (16, 16)] {
        lend_around_the_need(&mut tally, number, cells);
    }
}

fn lend_around_the_need(tally: &mut Tally, number: usize, cells: usize) {
    let bundle = case(cells as u32, &sheets(&vec![1; number]));
    let need = number * cells;
    let lengths = [0, 1, need - 1, need, need + 1, need + 40];
    let outcomes = [0, number - 1, number, number + 1, number + 20];
    for ((exact, shown), outcomes) in every_two(&every_two(&lengths, &lengths), &outcomes) {
        let case = bundle.clone().with_lengths(exact, shown, outcomes);
        match exact >= need && shown >= need && outcomes >= number {
            true => tally.expect_sheets(&case, &vec![ACCEPTED; number]),
            false => tally.expect_refused(&case, 3, 0),
        }
    }
}

/// Sheets that own no cells want none to be lent.
#[test]
fn runs_of_no_cells() {
    let mut tally = Tally::new("runs_of_no_cells");
    let sheets = [sheet(0, 0), vec![], sheet(1, 0)];
    for cells_lent in [0, 1, 100] {
        let case = case(0, &sheets).with_lengths(cells_lent, cells_lent, 3);
        tally.expect_sheets(&case, &[(3, 0), (2, 0), (3, 0)]);
    }
}

/// Two good sheets; then one of them malformed, without room in its run, or
/// with a line that has no row.
fn good_and_refused_sheets() -> Vec<Vec<Vec<u8>>> {
    let mut malformed = sheet(1, 0);
    malformed[6] = 9;
    let mut no_row = sheet(1, 0);
    no_row[16] ^= 1;
    let second = [sheet(1, 0), malformed, sheet(3, 0), no_row, vec![]];
    second.map(|second| vec![sheet(2, 0), second]).to_vec()
}

#[test]
fn the_second_sheets_are_refused_alone() {
    let mut tally = Tally::new("the_second_sheets_are_refused_alone");
    let answers = [ACCEPTED, (2, 0), (3, 0), (6, 1), (2, 0)];
    for (sheets, answer) in good_and_refused_sheets().iter().zip(answers) {
        let case = BundleCase::of(&book().bytes(), &Bundle::of(15, sheets));
        tally.expect_sheets(&case, &[ACCEPTED, answer]);
    }
}

#[test]
fn malformed_comes_before_room_book_and_sheets() {
    let mut tally = Tally::new("malformed_comes_before_room_book_and_sheets");
    let books = [book().bytes(), bad_book(), vec![]];
    let lent = [(0, 0, 0), (29, 30, 2), (30, 29, 2), (30, 30, 1), (99, 99, 9)];
    let cases = every_two(&every_two(&books, &lent), &good_and_refused_sheets());
    for ((book, (exact, shown, outcomes)), sheets) in cases {
        let mut malformed = Bundle::of(15, &sheets);
        malformed.zero = 1;
        let case = BundleCase::of(&book, &malformed).with_lengths(exact, shown, outcomes);
        tally.expect_refused(&case, 16, 0);
    }
}

#[test]
fn room_comes_before_book_and_sheets() {
    let mut tally = Tally::new("room_comes_before_book_and_sheets");
    let books = [book().bytes(), bad_book(), vec![]];
    let lent = [(0, 0, 0), (29, 99, 2), (99, 29, 2), (30, 30, 1)];
    let cases = every_two(&every_two(&books, &lent), &good_and_refused_sheets());
    for ((book, (exact, shown, outcomes)), sheets) in cases {
        let bundle = Bundle::of(15, &sheets);
        let case = BundleCase::of(&book, &bundle).with_lengths(exact, shown, outcomes);
        tally.expect_refused(&case, 3, 0);
    }
}

/// 1 comes before a sheet's other refusals, 3 for its own run among them.
#[test]
fn a_bad_book_is_refused_for_each_sheet() {
    let mut tally = Tally::new("a_bad_book_is_refused_for_each_sheet");
    let mut longest = book();
    longest.gaps[1] = 65_536 - longest.bytes().len();
    let sheets = [sheet(2, 0), vec![], sheet(3, 2), sheet(0, 3)];
    let bundle = Bundle::of(15, &sheets);
    let at_the_limit = BundleCase::of(&longest.bytes(), &bundle);
    tally.expect_sheets(&at_the_limit, &[ACCEPTED, (2, 0), (3, 0), ACCEPTED]);
    longest.gaps[1] += 1;
    for book in [bad_book(), vec![], longest.bytes()] {
        tally.expect_sheets(&BundleCase::of(&book, &bundle), &[(1, 0); 4]);
    }
}

/// Nothing changes, whatever the book, the cells per sheet and what is lent.
#[test]
fn bundles_of_no_sheets() {
    let mut tally = Tally::new("bundles_of_no_sheets");
    let headers = every_two(&[0, 1, 12, 1 << 28, u32::MAX], &[0, 1, 8, 100]);
    let books = [book().bytes(), bad_book(), vec![]];
    let lent = [(0, 0, 0), (1, 0, 0), (0, 7, 3), (40, 40, 16)];
    for ((book, lent), (cells, gap)) in every_two(&every_two(&books, &lent), &headers) {
        let bundle = Bundle::with_gaps(cells, &[], &[gap]);
        let case = BundleCase::of(&book, &bundle).with_lengths(lent.0, lent.1, lent.2);
        tally.expect_sheets(&case, &[]);
    }
}

#[test]
fn gaps_that_fill_the_bundle_up() {
    let mut tally = Tally::new("gaps_that_fill_the_bundle_up");
    let sheets = sheets(&[128, 1, 128]);
    let length = Bundle::of(645, &sheets).length as usize;
    for gap in 0..4 {
        let filled_up_to = |bytes: usize| {
            let mut gaps = [0; 4];
            gaps[gap] = bytes - length;
            BundleCase::of(&book().bytes(), &Bundle::with_gaps(645, &sheets, &gaps))
        };
        tally.expect_sheets(&filled_up_to(65_536), &[ACCEPTED; 3]);
        tally.expect_refused(&filled_up_to(65_537), 16, 0);
    }
}

#[test]
fn a_sheet_that_fills_the_bundle_up() {
    let mut tally = Tally::new("a_sheet_that_fills_the_bundle_up");
    let filled_up_to = |bytes: usize| {
        let gap = bytes - (12 + 8) - (16 + 64);
        let sheet = Sheet { gaps: [0, gap], ..Sheet::new(1, 1, 1, vec![line(5)]) };
        case(10, &[sheet.bytes()])
    };
    tally.expect_sheets(&filled_up_to(65_536), &[ACCEPTED]);
    tally.expect_refused(&filled_up_to(65_537), 16, 0);
}
