//! Works docs/COURSE.md. Each row of its tables is a line as it was entered and
//! the figures that come of it, by the heads known below: rows of the desk by
//! the proved desk, the others by the mistake they are named for. A number in
//! the text must stand in a table of its section.

use checkraven::NO_OWN;
use peer::compare::{run_proved, Case, Filled};
use peer::make::dust::{FACTORS, GAS, PARTICULATES};
use peer::make::{Book, Entry, Fugitive, Line, Row, Sheet, Technique};
use std::path::Path;

const PAGE: &str = include_str!("../../docs/COURSE.md");
const MEDIA: [&str; 3] = ["water", "gas", "solids"];
const WATER: u8 = 1;
const GRADES: [&str; 3] = ["good", "middle", "poor"];
const GRAM: f64 = 100_000.0;

/// One line as an officer has it: efficiency and reuse in percent, grades of
/// crushing, tapping and spill, numbers that are missing 0.
#[derive(Clone, Copy, Default)]
struct Works {
    medium: u8,
    generated: f64,
    efficiency: f64,
    technique: u16,
    reuse: f64,
    run: f64,
    production: f64,
    energy: f64,
    rated: f64,
    product: f64,
    grades: [u8; 3],
}

/// What comes of a line: removed, reused, discharged; dust; how the run was read.
struct Worked {
    amounts: [f64; 3],
    fugitive: f64,
    thousandths: f64,
    answer: String,
}

type Rounding = fn(f64) -> f64;

/// The desk in grams for particulates, with a book of one unit per kilogram of
/// material and one technique, code 1, and with the manual's fugitive factors.
fn desk(medium: u8, percent: f64, k_rule: u8, lines: Vec<Line>) -> Filled {
    let row = Row { basis: 2, places: 5, ..Row::plain(medium, PARTICULATES, 1) };
    let rows = vec![row.with_techniques(k_rule, 0, 1)];
    let techniques = vec![Technique { code: 1, efficiency: (10.0 * percent).round() as u16 }];
    let book = Book { rows, techniques, gaps: [0; 3] };
    let case = Case::of(&book, &Sheet::new(medium, PARTICULATES, 1, lines));
    let table = Fugitive::of(&[Entry::plain(FACTORS)]);
    run_proved(&case.with_fugitive(table.bytes())).expect("memory is kept")
}

/// So many units, untreated.
fn direct(generated: f64) -> Line {
    Line { material: generated as u64, ..Line::direct(0) }
}

impl Works {
    fn by_energy(&self) -> bool {
        self.rated > 0.0
    }

    /// The manual's formula, whatever is put into it.
    fn formula(&self, [first, second, third]: [Rounding; 3]) -> [f64; 3] {
        let (ran, whole) = match self.by_energy() {
            true => (self.energy, self.rated * self.run),
            false => (self.run, self.production),
        };
        let percent = self.efficiency * ran / whole;
        let removed = first(self.generated * percent / 100.0);
        let left = self.generated - removed;
        let reuse = if self.medium == WATER { self.reuse } else { 0.0 };
        [removed, second(left * reuse / 100.0), third(left * (100.0 - reuse) / 100.0)]
    }

    fn shares_added(&self) -> [f64; 3] {
        let shares = [self.efficiency, self.reuse, 100.0 - self.efficiency - self.reuse];
        shares.map(|percent| self.generated * percent / 100.0)
    }

    /// Factors are thousandths of kg/t, of 100 units a kilogram.
    fn dust(&self) -> f64 {
        let graded = self.grades.iter().enumerate().filter(|(_, grade)| **grade > 0);
        let factor = |(place, grade): (usize, &u8)| FACTORS[3 * place + *grade as usize - 1];
        graded.map(factor).map(f64::from).sum::<f64>() * 100.0 * self.product
    }

    /// A mistake puts other numbers into the formula, or rounds in another way.
    fn by_mistake(mut self, mistake: &str) -> Option<Worked> {
        let mut rounding: [Rounding; 3] = [f64::floor, f64::floor, f64::ceil];
        let k = self.run / self.production;
        let mut fugitive = self.dust();
        match mistake {
            "spreadsheet" | "similar technique" | "shares added" => {}
            "calendar year" => self.production = 365.0 * 24.0,
            "sign dropped" => self.run = self.run.abs(),
            "taken as full" => (self.run, self.production) = (1.0, 1.0),
            "k to a percent" => (self.run, self.production) = ((100.0 * k).floor(), 100.0),
            "whole hours" => self.run = self.run.floor(),
            "thousandths cut off" => self.run = (1000.0 * self.run).floor() / 1000.0,
            "reuse everywhere" => self.medium = WATER,
            "through the filter" => (self.generated, fugitive) = (self.generated + fugitive, 0.0),
            "all to the nearest" => rounding = [f64::round; 3],
            "all down" => rounding = [f64::floor; 3],
            _ => return None,
        }
        let added = mistake == "shares added";
        let amounts = if added { self.shares_added() } else { self.formula(rounding) };
        let thousandths = (1000.0 * self.run).round();
        Some(Worked { amounts, fugitive, thousandths, answer: "figures".into() })
    }

    /// A line with a rating is by energy; one without any hours has no reading.
    fn filled_by_desk(&self) -> Filled {
        let (kind, readings) = match (self.run, self.production) {
            _ if self.by_energy() => (2, [self.energy, self.rated, self.run]),
            (0.0, 0.0) => (0, [0.0; 3]),
            (run, production) => (1, [run, production, 0.0]),
        };
        let reuse = (10.0 * self.reuse).round() as u16;
        let Works { product, grades, .. } = *self;
        let line = Line { reuse, product: product as u64, grades, ..direct(self.generated) };
        let line = line.treated(self.technique, kind, readings);
        desk(self.medium, self.efficiency, if kind == 2 { 2 } else { 1 }, vec![line])
    }

    /// The run's thousandths are seen through k = run / 1000 hours.
    fn by_desk(&self) -> Worked {
        let Filled { outcome, exact, .. } = self.filled_by_desk();
        let answer = if outcome.is_accepted() { "figures".into() } else { outcome.to_string() };
        let seen = Works { generated: 1e6, efficiency: 100.0, production: 1000.0, ..*self };
        let thousandths = seen.filled_by_desk().exact[1] as f64;
        let [_, removed, reused, discharged, fugitive] = [0, 1, 2, 3, 4].map(|at| exact[at] as f64);
        Worked { amounts: [removed, reused, discharged], fugitive, thousandths, answer }
    }

    /// Enters a cell; None under a head that is no input.
    fn enter(&mut self, head: &str, cell: &str) -> Option<()> {
        match head {
            "Worked by" => {}
            "Medium" => self.medium = 1 + MEDIA.iter().position(|name| *name == cell)? as u8,
            "Generated" => self.generated = number(cell)?,
            "In the duct" => (self.medium, self.generated) = (GAS, number(cell)?),
            "Product" => self.product = number(cell)?,
            "Crushing" => self.grades[0] = grade(cell)?,
            "Tapping" => self.grades[1] = grade(cell)?,
            "Spill" => self.grades[2] = grade(cell)?,
            "Efficiency" => self.efficiency = number(cell.strip_suffix(" %")?)?,
            "Technique" => self.technique = number(cell)? as u16,
            "Run" | "Run hours" => self.run = number(cell)?,
            "kWh" => self.energy = number(cell)?,
            "Rated kW" => self.rated = number(cell)?,
            "Production" => self.production = number(cell)?,
            "Reuse" => self.reuse = number(cell.strip_suffix(" %")?)?,
            _ => return None,
        }
        Some(())
    }
}

/// What must stand under a head; None under a head that is not known.
fn figure(head: &str, works: &Works, worked: &Worked) -> Option<String> {
    let [removed, reused, discharged] = worked.amounts;
    Some(match head {
        "Removed" => grouped(removed),
        "Reused" => grouped(reused),
        "Discharged" => grouped(discharged),
        "Fugitive" => grouped(worked.fugitive),
        "Together" => grouped(removed + reused + discharged + worked.fugitive),
        "Kept back" => format!("{} %", (removed + reused) * 100.0 / works.generated),
        "Thousandths run" => grouped(worked.thousandths),
        "Answer" => worked.answer.clone(),
        _ => return None,
    })
}

fn grade(cell: &str) -> Option<u8> {
    GRADES.iter().position(|name| *name == cell).map(|at| 1 + at as u8)
}

fn number(cell: &str) -> Option<f64> {
    cell.replace("none", "0").replace(',', "").replace('−', "-").parse().ok()
}

/// 1000 becomes 1,000.
fn grouped(number: f64) -> String {
    match number {
        ..0.0 => format!("−{}", grouped(-number)),
        ..1000.0 => number.to_string(),
        _ => format!("{},{:03}", grouped((number / 1000.0).floor()), number % 1000.0),
    }
}

/// What a row must be. After the name of who worked it may stand a remark.
fn worked_row(heads: &[&str], row: &[&str]) -> Option<Vec<String>> {
    let mut works = Works { medium: WATER, technique: 1, ..Works::default() };
    let entered: Vec<_> = (0..row.len()).map(|at| works.enter(heads[at], row[at])).collect();
    let worked = match row[0].split(',').next()? {
        "desk" => works.by_desk(),
        mistake => works.by_mistake(mistake)?,
    };
    let cell = |at: usize| match entered[at] {
        Some(()) => Some(row[at].to_string()),
        None => figure(heads[at], &works, &worked),
    };
    (0..heads.len()).map(cell).collect()
}

/// Discharges of untreated lines as they are shown in grams: the lines, their
/// sum, and the total. The first row of the table has the lines themselves.
fn shown_row(row: &[&str], rows: &[Vec<&str>]) -> Option<Vec<String>> {
    let lines = rows[0].iter().skip(1).take(row.len() - 3);
    let exact: Vec<f64> = lines.map(|cell| number(cell)).collect::<Option<_>>()?;
    let lines = exact.iter().map(|units| direct(*units)).collect();
    let by_desk = desk(WATER, 0.0, 1, lines).shown.into_iter().skip(3).step_by(5);
    let with_total = exact.iter().copied().chain([exact.iter().sum()]);
    let mut shown: Vec<f64> = match row[0] {
        "exact" => with_total.collect(),
        "each to the nearest" => with_total.map(|units| (units / GRAM).round()).collect(),
        "each down" => with_total.map(|units| (units / GRAM).floor()).collect(),
        "desk" => by_desk.take(exact.len() + 1).map(|grams| grams as f64).collect(),
        _ => return None,
    };
    shown.insert(exact.len(), shown[..exact.len()].iter().sum());
    Some([row[0].to_string()].into_iter().chain(shown.into_iter().map(grouped)).collect())
}

fn cells(line: &str) -> Vec<&str> {
    line.trim_matches('|').split('|').map(str::trim).collect()
}

fn table_faults(table: &[&str]) -> Vec<String> {
    let heads = cells(table[0]);
    let rows: Vec<Vec<&str>> = table.iter().skip(2).map(|line| cells(line)).collect();
    if rows.is_empty() {
        return vec![format!("no rows under {heads:?}")];
    }
    let is_line = |head: &&str| head.starts_with("Line ");
    let worked = |row: &Vec<&str>| match heads[..] {
        _ if row.len() != heads.len() => None,
        ["Worked by", ..] => worked_row(&heads, row),
        ["Shown by", ref lines @ .., "Added", "Total"] if lines.iter().all(is_line) => {
            shown_row(row, &rows)
        }
        _ => None,
    };
    let wrong = rows.iter().filter(|row| worked(row).is_none_or(|worked| worked != **row));
    wrong.map(|row| format!("{row:?} under {heads:?}, worked as {:?}", worked(row))).collect()
}

/// Numbers as they are written; the mark of a list is none.
fn numbers(line: &str) -> impl Iterator<Item = &str> {
    let text = line.trim_start_matches(|c: char| c.is_ascii_digit()).strip_prefix(". ");
    let of_number = |c: char| c.is_ascii_digit() || c == ',' || c == '.';
    let words = text.unwrap_or(line).split(move |c| !of_number(c));
    words.map(|word| word.trim_matches([',', '.'])).filter(|word| !word.is_empty())
}

fn section_faults(section: &str) -> Vec<String> {
    let lines: Vec<&str> = section.lines().skip(1).collect();
    let blocks = lines.chunk_by(|one, next| one.starts_with('|') == next.starts_with('|'));
    let (tables, texts): (Vec<_>, Vec<_>) = blocks.partition(|lines| lines[0].starts_with('|'));
    let held: Vec<&str> = tables.concat().into_iter().flat_map(numbers).collect();
    let faults = tables.iter().flat_map(|table| table_faults(table));
    let unheld = |line: &&str| numbers(line).any(|number| !held.contains(&number));
    let text = texts.concat().into_iter().filter(unheld).map(|line| format!("not held: {line}"));
    faults.chain(text).collect()
}

fn faults(page: &str) -> Vec<String> {
    page.split("\n#").flat_map(section_faults).collect()
}

#[test]
fn the_page_says_what_was_worked_out() {
    let faults = faults(PAGE);
    assert!(faults.is_empty(), "docs/COURSE.md\n{}", faults.join("\n"));
}

/// Each mistake stands on the page, and can't be changed unnoticed.
#[test]
fn a_spoiled_page_is_noticed() {
    for (right, wrong) in [
        ("| 4,000 | 8,760 | 319 |", "| 4,000 | 8,760 | 320 |"),
        ("| k to a percent |", "| desk |"),
        ("| 7.999999999 | 8 | 7,999 |", "| 7.999999999 | 8 | 8,000 |"),
        ("| reuse everywhere |", "| everywhere |"),
        ("| −650 | 165 % |", "| −650 | 166 % |"),
        ("| desk | 1 | 2 | 3 | 3 |", "| desk | 2 | 2 | 4 | 3 |"),
        ("| 8,400 | 8,000 | 700 | 300 |", "| 8,400 | 8,000 | 735 | 265 |"),
        ("| 8,100 | 8,000 | 990 | 10 |", "| 8,100 | 8,000 | 1,002 | −2 |"),
        ("refused 11 line 1", "refused 10 line 1"),
        ("| 0.5 | 3,600 | 475 |", "| 0.5 | 3,600 | 950 |"),
        ("700 of 1,000", "750 of 1,000"),
        ("| Added | Total |", "| Sum | Total |"),
        ("| Kept back |", "| Kept |"),
        ("On 10 units", "On 11 units"),
        (
            "| middle | 14,850,000 | 150,000 | 310,600 |",
            "| middle | 14,850,000 | 150,000 | 310,601 |",
        ),
        ("| through the filter |", "| through a filter |"),
        ("| good | good | good |", "| good | good | middle |"),
        ("| 4,425,000 | 98.6 % | 7,020 |", "| 4,425,000 | 97 % | 7,020 |"),
        ("Filed are 240,057 units", "Filed are 276,676 units"),
        ("## What the desk", "| Worked by | Removed |\n|---|---|\n\n## What the desk"),
    ] {
        assert!(PAGE.contains(right), "{right} isn't on the page");
        assert!(!faults(&PAGE.replace(right, wrong)).is_empty(), "{wrong} isn't noticed");
    }
}

/// The row that the desk gives for one kilogram from the large kiln of the example,
/// under the page's heads from Generated on.
fn large_kiln(example: Case, efficiency: &str) -> String {
    let line = Line { place: [3140, 15, 15, 1], scale: 2, ..Line::direct(1) };
    let line = line.treated(1, 1, [7020.0, 7200.0, 0.0]);
    let sheet = Sheet::new(GAS, PARTICULATES, 1, vec![line]).bytes();
    let exact = run_proved(&Case { sheet, ..example }).expect("memory is kept").exact;
    let [generated, removed, _, discharged] = [0, 1, 2, 3].map(|at| grouped(exact[at] as f64));
    format!("| {generated} | {efficiency} | 7,020 | 7,200 | {removed} | {discharged} |")
}

/// The rows on the works' own factors are those of the example's two books, and of
/// its published one alone.
#[test]
fn the_kiln_on_the_page_is_the_example() {
    let folder = concat!(env!("CARGO_MANIFEST_DIR"), "/../examples/own-kiln");
    let example = Case::read(Path::new(folder)).expect("the example is there");
    let published = example.clone().with_own(NO_OWN.to_vec());
    for (name, row) in [
        ("desk, with the own book", large_kiln(example, "98.6 %")),
        ("desk, without the own book", large_kiln(published, "97 %")),
    ] {
        assert!(PAGE.contains(&format!("| {name} {row}")), "{name} {row}");
    }
}
