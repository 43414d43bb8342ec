//! The benchmark: the proved desk beside plain Rust in one run, on the same
//! inputs, by turns. Prints a table in markdown: sheets, one of fugitive dust and one
//! with factors of the works' own among them, a full sheet read from text and written
//! as text, a full table being settled, a bundle. For a bundle it prints besides what
//! the same sheets take in calls of their own.
//!
//! Usage: `speed [ROUNDS [WORD]]`, by default 200 rounds a case, and only the
//! cases that have the word in their names.

use checkraven::{cells_for, NO_OWN};
use peer::compare::{earlier_bytes, earlier_cells, run_plain, AnyCase};
use peer::compare::{face, BundleCase, Case, Conversion, StepCase, Way};
use peer::make::{Book, Bundle, Entry, Fugitive, Line, Random, Row, Sheet, Technique};
use peer::plain;
use std::hint::black_box;
use std::time::{Duration, Instant};

/// Each round repeats the call until it lasts about this long.
const ROUND: Duration = Duration::from_micros(300);

fn main() {
    let word = std::env::args().nth(1);
    let rounds = word.and_then(|word| word.parse().ok()).unwrap_or(200usize).max(1);
    println!(
        "Times of one call in microseconds: median (10th to 90th percentile) of {rounds} rounds.\n"
    );
    println!("| Case | Proved desk | Plain Rust | Ratio |");
    println!("|---|---|---|---|");
    let wanted = std::env::args().nth(2).unwrap_or_default();
    for (name, case) in cases().into_iter().filter(|(name, _)| name.contains(&wanted)) {
        let outcome = case.compare().expect("both desks agree on the case");
        assert!(outcome.is_accepted(), "{name} is {outcome}");
        let [proved, plain] = measure(&case, [call_proved, call_plain], rounds);
        print_row(&name, &proved, &plain);
    }
    for (name, conversion) in conversions().into_iter().filter(|(name, _)| name.contains(&wanted)) {
        let outcome = conversion.compare().expect("both desks agree on the text");
        assert!(outcome.is_accepted(), "{name} is {outcome}");
        let calls = [call_proved_conversion, call_plain_conversion];
        let [proved, plain] = measure(&conversion, calls, rounds);
        print_row(name, &proved, &plain);
    }
    for (name, case, calls) in settlings().into_iter().filter(|(name, ..)| name.contains(&wanted)) {
        let outcome = case.compare().expect("both desks agree on the table");
        assert!(outcome.is_accepted(), "{name} is {outcome}");
        let [proved, plain] = measure(&case, calls, rounds);
        print_row(name, &proved, &plain);
    }
    if BUNDLE.contains(&wanted) {
        time_bundle(rounds);
    }
}

fn print_row(name: &str, proved: &Times, plain: &Times) {
    let ratio = proved.median / plain.median;
    println!("| {name} | {} | {} | {ratio:.2} |", proved.text(), plain.text());
}

const BUNDLE: &str = "bundle: 16 sheets of 8 lines, book of 1,024 rows";

/// The last row of the table, and a line under it.
fn time_bundle(rounds: usize) {
    let works = works();
    let outcome = works.case.compare().expect("both desks agree on the bundle");
    assert!(outcome.is_accepted(), "{BUNDLE} is {outcome}");
    let accepted = works.case.run_plain().outcomes[..16].iter().all(|&outcome| outcome == 0);
    assert!(accepted, "every sheet is accepted");
    let calls = [call_proved_bundle, call_plain_bundle, call_proved_alone];
    let [proved, plain, alone] = measure(&works, calls, rounds);
    print_row(BUNDLE, &proved, &plain);
    let times = alone.median / proved.median;
    println!("\nIts 16 sheets in 16 calls of the proved desk: {}.", alone.text());
    println!("The one call for the bundle is {times:.1} times as fast.");
}

fn cases() -> Vec<(String, Case)> {
    let mut cases = vec![("typical: 5 lines, 30 rows".to_string(), typical_case())];
    for (unit, name) in [(1, "grams"), (2, "kilograms"), (3, "tonnes")] {
        let case = full_case(unit, 0.5);
        cases.push((format!("full: 128 lines by energy, 1,024 rows, in {name}"), case));
    }
    cases.push(("full: 128 lines by energy of 250 kW, in tonnes".to_string(), full_case(3, 250.0)));
    cases.push(("hostile book: 1,024 rows of 4,096 techniques".to_string(), hostile_case(0)));
    let name = "hostile book: the same lists from the second technique on";
    cases.push((name.to_string(), hostile_case(1)));
    let loose = loose_case();
    assert!(every_cell_is_loose(&loose), "no cell is whole in tonnes");
    cases.push(("shown table of 128 loose lines, 1 row".to_string(), loose));
    let name = "dust: 128 lines with three grades, 1,024 entries, 1,024 rows";
    cases.push((name.to_string(), dust_case()));
    let own = own_case();
    assert_eq!(lines_of_the_own_book(&own), 64, "each book answers half of the lines");
    let name = "own factors: 128 lines, half of them in either of two books of 1,024 rows";
    cases.push((name.to_string(), own));
    cases
}

/// Of G, R, U and D; there is no dust.
fn every_cell_is_loose(case: &Case) -> bool {
    let cells = cells_for(case.line_count());
    let exact = run_plain(case).exact;
    let rows = exact[..cells].chunks_exact(cells_for(0));
    rows.flat_map(|row| &row[..4]).all(|cell| cell % case.shown_unit() != 0)
}

/// Five lines of one works in a book of thirty rows with three techniques each.
fn typical_case() -> Case {
    let row = |index: u16| Row {
        place: [3240, 1 + index / 3, 1, 1 + index % 3],
        ..Row::plain(1, 1, 203)
    };
    let book = Book {
        rows: (0..30).map(|index| row(index).with_techniques(1, 3 * index, 3)).collect(),
        techniques: (0..90).map(|index| technique(1 + index % 3, 700)).collect(),
        gaps: [0; 3],
    };
    let line = |index: u16| {
        let line = Line::direct(16_250_000 + index as u64).treated(2, 1, [7000.0, 7920.0, 0.0]);
        Line { place: [3240, 1 + 2 * index, 1, 1 + index % 3], reuse: 950, ..line }
    };
    Case::of(&book, &Sheet::new(1, 1, 1, (0..5).map(line).collect()))
}

/// As much as both files hold.
fn full_case(unit: u32, kilowatts: f64) -> Case {
    Case::of(&full_book(), &Sheet::new(1, 1, unit, full_lines(kilowatts)))
}

/// Place of the full book's row, and of the full table's entry.
fn full_place(index: u16) -> [u16; 4] {
    [3400, 1 + index / 32, 1 + index % 32, 1]
}

/// COD in water.
fn full_book() -> Book {
    full_book_of(1, 1)
}

fn full_book_of(medium: u8, pollutant: u8) -> Book {
    let row = |index: u16| Row { place: full_place(index), ..Row::plain(medium, pollutant, 150) };
    Book {
        rows: (0..1024).map(|index| row(index).with_techniques(2, 4 * index, 4)).collect(),
        techniques: (0..4096).map(|index| technique(1 + index % 4, 905)).collect(),
        gaps: [0; 3],
    }
}

/// Each line by energy in another row. A divisor of half a kilowatt has 32 bits,
/// a larger motor's has more.
fn full_lines(kilowatts: f64) -> Vec<Line> {
    let mut random = Random::new(1);
    let line = |index: u16| {
        let energy = kilowatts * (200.0 + random.below(2_000_000) as f64 / 1000.0);
        let product = 1 + random.below(1_000_000_000);
        let line = Line::direct(product).treated(4, 2, [energy, kilowatts, 3600.0]);
        Line { place: [3400, 1 + index / 4, 1 + index % 32, 1], reuse: 333, ..line }
    };
    (0..128).map(line).collect()
}

/// A full sheet of particulates in gas, every line graded at all three places,
/// under a full table.
fn dust_case() -> Case {
    let mut random = Random::new(3);
    let factors = |index: u16| [0, 1, 2, 3, 4, 5, 6, 7, 8].map(|at| 291 + 100 * at + index);
    let entry = |index: u16| Entry { place: full_place(index), scale: 0, factors: factors(index) };
    let table = Fugitive::of(&(0..1024).map(entry).collect::<Vec<_>>());
    let graded = |line: Line| Line { grades: [0; 3].map(|_| 1 + random.below(3) as u8), ..line };
    let lines = full_lines(0.5).into_iter().map(graded).collect();
    let case = Case::of(&full_book_of(2, 3), &Sheet::new(2, 3, 1, lines));
    case.with_fugitive(table.bytes())
}

/// The full sheet in kilograms under two full books. The own book has twice the
/// coefficient, the places of every second line, and others that no line has.
fn own_case() -> Case {
    let place = |index: u16| match index % 2 {
        0 => full_place(index),
        _ => [3401, 1 + index / 32, 1 + index % 32, 1],
    };
    let mut own = full_book();
    for (index, row) in own.rows.iter_mut().enumerate() {
        (row.place, row.digits) = (place(index as u16), 300);
    }
    own.rows.sort_by_key(|row| row.place);
    full_case(2, 0.5).with_own(own.bytes())
}

/// By what is generated: twice as much as under the published book alone.
fn lines_of_the_own_book(case: &Case) -> usize {
    let alone = run_plain(&case.clone().with_own(NO_OWN.to_vec())).exact;
    let generated =
        |exact: Vec<u64>| exact.into_iter().step_by(cells_for(0)).take(case.line_count());
    let pairs = generated(run_plain(case).exact).zip(generated(alone));
    pairs.filter(|(with_own, alone)| *with_own == 2 * alone).count()
}

/// A full sheet by energy, so that all readings are used: its text to be read,
/// and the sheet to be written.
fn conversions() -> [(&'static str, Conversion); 2] {
    let writing = Conversion::write(&full_case(1, 0.5).sheet);
    let reading = Conversion::read(writing.run_plain().bytes());
    [
        ("text: a full sheet of 128 lines by energy, read", reading),
        ("text: a full sheet of 128 lines by energy, written", writing),
    ]
}

/// The table of 128 loose lines: all steps counted, and the last one taken, which has
/// the most rows to look at before its round.
fn settlings() -> [(&'static str, StepCase, [Call<StepCase>; 2]); 2] {
    let loose = loose_case();
    let unit = u64::from(loose.sheet[12]);
    let exact = run_plain(&loose).exact[..cells_for(128)].to_vec();
    let counting = StepCase::with_room(unit, exact);
    let mut last = counting.clone();
    while face::steps(unit, &last.table) > 1 {
        let table = last.table.clone();
        face::step(unit, &table, &mut last.table);
    }
    [
        (
            "settling: the last step of a table of 128 loose lines",
            last,
            [call_proved_step, call_plain_step],
        ),
        (
            "settling: the steps of a table of 128 loose lines, counted",
            counting,
            [call_proved_steps, call_plain_steps],
        ),
    ]
}

/// A bundle, and its sheets to be called for one by one.
struct Works {
    case: BundleCase,
    sheets: Vec<Vec<u8>>,
}

/// The lines of the full sheet on 16 sheets, in kilograms.
fn works() -> Works {
    let lines = full_lines(0.5);
    let sheet = |lines: &[Line]| Sheet::new(1, 1, 2, lines.to_vec()).bytes();
    let sheets: Vec<Vec<u8>> = lines.chunks(8).map(sheet).collect();
    let bundle = Bundle::of(cells_for(8) as u32, &sheets);
    Works { case: BundleCase::of(&full_book().bytes(), &bundle), sheets }
}

/// Every row names every technique from this one on, and all share them.
fn hostile_case(first: u16) -> Case {
    let row =
        |scale| Row { scale, ..Row::plain(1, 1, 150) }.with_techniques(1, first, 4096 - first);
    let book = Book {
        rows: (0..1024).map(row).collect(),
        techniques: (1..=4096).map(|code| technique(code, 700)).collect(),
        gaps: [0; 3],
    };
    let line = |scale| Line { scale, ..Line::direct(12_345).treated(4096, 3, [0.0; 3]) };
    Case::of(&book, &Sheet::new(1, 1, 2, (0..128).map(line).collect()))
}

/// Four cells of each line, and of the sums, are loose in tonnes.
fn loose_case() -> Case {
    let book = Book {
        rows: vec![Row { places: 5, ..Row::plain(1, 1, 9_999_991) }.with_techniques(1, 0, 1)],
        techniques: vec![technique(1, 701)],
        gaps: [0; 3],
    };
    let mut random = Random::new(2);
    let mut line = |_| {
        let run = 1.0 + random.below(7_000_000) as f64 / 1000.0;
        let line = Line::direct(1 + random.below(999_999_999)).treated(1, 1, [run, 7919.0, 0.0]);
        Line { reuse: 1 + random.below(999) as u16, ..line }
    };
    Case::of(&book, &Sheet::new(1, 1, 3, (0..128).map(&mut line).collect()))
}

fn technique(code: u16, efficiency: u16) -> Technique {
    Technique { code, efficiency }
}

struct Times {
    low: f64,
    median: f64,
    high: f64,
}

impl Times {
    fn of(mut microseconds: Vec<f64>) -> Self {
        microseconds.sort_by(f64::total_cmp);
        let at = |percent: usize| microseconds[(microseconds.len() - 1) * percent / 100];
        Times { low: at(10), median: at(50), high: at(90) }
    }

    fn text(&self) -> String {
        format!("{:.2} ({:.2} to {:.2})", self.median, self.low, self.high)
    }
}

/// What is lent, as it was before each round; this isn't timed.
struct Results {
    exact: Vec<u64>,
    shown: Vec<u64>,
    outcomes: Vec<u64>,
    bytes: Vec<u8>,
}

impl Results {
    fn as_before(cells: [usize; 3], bytes: usize) -> Self {
        let [exact, shown, outcomes] = cells.map(|length| earlier_cells(length).collect());
        Results { exact, shown, outcomes, bytes: earlier_bytes(bytes).collect() }
    }
}

trait Timed {
    fn results(&self) -> Results;
}

impl Timed for Case {
    fn results(&self) -> Results {
        Results::as_before([self.exact_len, self.shown_len, 0], 0)
    }
}

impl Timed for Works {
    fn results(&self) -> Results {
        let BundleCase { exact_len, shown_len, outcomes_len, .. } = self.case;
        Results::as_before([exact_len, shown_len, outcomes_len], 0)
    }
}

impl Timed for Conversion {
    fn results(&self) -> Results {
        Results::as_before([0; 3], self.room)
    }
}

impl Timed for StepCase {
    fn results(&self) -> Results {
        Results::as_before([0, self.room, 0], 0)
    }
}

type Call<C> = fn(&C, &mut Results);

fn call_proved(case: &Case, results: &mut Results) {
    let Results { exact, shown, .. } = results;
    let files = [&case.own, &case.book, &case.fugitive, &case.sheet];
    let [own, book, fugitive, sheet] = files.map(black_box);
    let outcome = checkraven::account(own, book, fugitive, sheet, exact, shown);
    black_box(outcome.is_accepted());
}

fn call_plain(case: &Case, results: &mut Results) {
    let Results { exact, shown, .. } = results;
    let files = [&case.own, &case.book, &case.fugitive, &case.sheet];
    let [own, book, fugitive, sheet] = files.map(black_box);
    let answer = plain::account(own, book, fugitive, sheet, exact, shown);
    black_box(answer.is_ok());
}

fn call_proved_bundle(works: &Works, results: &mut Results) {
    let BundleCase { own, book, fugitive, bundle, .. } = &works.case;
    let [own, book, fugitive, bundle] = [own, book, fugitive, bundle].map(black_box);
    let Results { exact, shown, outcomes, .. } = results;
    let outcome = checkraven::account_bundle(own, book, fugitive, bundle, exact, shown, outcomes);
    black_box(outcome.is_accepted());
}

fn call_plain_bundle(works: &Works, results: &mut Results) {
    let BundleCase { own, book, fugitive, bundle, .. } = &works.case;
    let [own, book, fugitive, bundle] = [own, book, fugitive, bundle].map(black_box);
    let Results { exact, shown, outcomes, .. } = results;
    let answer = plain::account_bundle(own, book, fugitive, bundle, exact, shown, outcomes);
    black_box(answer.is_ok());
}

/// Each sheet in a call of its own, with its runs lent.
fn call_proved_alone(works: &Works, results: &mut Results) {
    let cells = works.case.cells_per_sheet();
    let runs = results.exact.chunks_exact_mut(cells).zip(results.shown.chunks_exact_mut(cells));
    for (sheet, (exact, shown)) in works.sheets.iter().zip(runs) {
        let BundleCase { own, book, fugitive, .. } = &works.case;
        let [own, book, fugitive, sheet] = [own, book, fugitive, sheet].map(black_box);
        let outcome = checkraven::account(own, book, fugitive, sheet, exact, shown);
        black_box(outcome.is_accepted());
    }
}

fn call_proved_conversion(conversion: &Conversion, results: &mut Results) {
    let (input, bytes) = (black_box(&conversion.input), &mut results.bytes);
    let is_taken = match conversion.way {
        Way::Read => checkraven::sheet_from_text_into(input, bytes).is_ok(),
        Way::Write => checkraven::text_from_sheet_into(input, bytes).is_ok(),
    };
    black_box(is_taken);
}

/// A written text is looked through once more, as the Rust crate does before it
/// hands out a `str`.
fn call_plain_conversion(conversion: &Conversion, results: &mut Results) {
    let (input, bytes) = (black_box(&conversion.input), &mut results.bytes);
    let is_taken = match conversion.way {
        Way::Read => plain::sheet_from_text(input, bytes).is_ok(),
        Way::Write => plain::text_from_sheet(input, bytes)
            .is_ok_and(|written| str::from_utf8(&bytes[..written]).is_ok()),
    };
    black_box(is_taken);
}

fn call_proved_step(case: &StepCase, results: &mut Results) {
    black_box(face::step(black_box(case.unit), black_box(&case.table), &mut results.shown));
}

fn call_plain_step(case: &StepCase, results: &mut Results) {
    let answer = plain::step(black_box(case.unit), black_box(&case.table), &mut results.shown);
    black_box(answer == Ok(true));
}

fn call_proved_steps(case: &StepCase, _: &mut Results) {
    black_box(face::steps(black_box(case.unit), black_box(&case.table)));
}

fn call_plain_steps(case: &StepCase, _: &mut Results) {
    black_box(plain::steps(black_box(case.unit), black_box(&case.table)).is_ok());
}

/// All calls by turns, and by turns which of them comes first.
fn measure<C: Timed, const N: usize>(case: &C, calls: [Call<C>; N], rounds: usize) -> [Times; N] {
    let repeats = calls.map(|call| repeats_in_a_round(case, call));
    let mut times = calls.map(|_| Vec::with_capacity(rounds));
    for round in 0..rounds {
        for turn in 0..N {
            let desk = (round + turn) % N;
            times[desk].push(one_round(case, calls[desk], repeats[desk]));
        }
    }
    times.map(Times::of)
}

fn repeats_in_a_round<C: Timed>(case: &C, call: Call<C>) -> u32 {
    let once = (0..5).map(|_| one_round(case, call, 1)).fold(f64::INFINITY, f64::min);
    (ROUND.as_secs_f64() * 1e6 / once.max(0.01)).clamp(1.0, 10_000.0) as u32
}

/// Microseconds of one call.
fn one_round<C: Timed>(case: &C, call: Call<C>, repeats: u32) -> f64 {
    let mut results = case.results();
    let begin = Instant::now();
    for _ in 0..repeats {
        call(case, &mut results);
    }
    black_box((&results.shown, &results.bytes));
    begin.elapsed().as_secs_f64() * 1e6 / repeats as f64
}
