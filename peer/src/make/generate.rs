//! Seeded generators of well-formed books and of sheets that are accepted, with and
//! without factors of the works' own and fugitive dust.

use super::dust::{GAS, PARTICULATES};
use super::fugitive::{self, Fugitive};
use super::own::{own_book, Books};
use super::parts::{Book, Line, Row, Sheet, Technique};
use super::random::Random;
use crate::compare::Case;
use std::collections::BTreeSet;
use std::ops::Range;

#[derive(Clone, Copy, Debug)]
pub struct Size {
    pub rows: usize,
    pub techniques: usize,
    pub lines: usize,
}

/// A case that is accepted, of a size up to the one given.
pub fn case_up_to(random: &mut Random, most: Size) -> Case {
    let size = Size {
        rows: random.index(most.rows + 1),
        techniques: random.index(most.techniques + 1),
        lines: random.index(most.lines + 1),
    };
    case(random, size)
}

/// A case that is accepted. Where no book has rows, the sheet has no lines.
pub fn case(random: &mut Random, size: Size) -> Case {
    let book = book(random, size.rows, size.techniques);
    let own = own_book(random, &book);
    let table = fugitive::table(random, &book);
    let books = Books { own: &own, published: &book };
    let sheet = graded_sheet(random, books, &table, size.lines);
    Case::of(&book, &sheet).with_own(own.bytes()).with_fugitive(table.bytes())
}

pub fn book(random: &mut Random, rows: usize, techniques: usize) -> Book {
    let keys = row_keys(random, rows);
    book_of(random, keys, techniques)
}

pub fn book_of(random: &mut Random, keys: BTreeSet<Key>, techniques: usize) -> Book {
    let (techniques, runs) = technique_runs(random, techniques);
    let rows = keys.into_iter().map(|key| row(random, key, &runs)).collect();
    let gaps = if random.chance(50) { [0; 3] } else { [0; 3].map(|_| random.index(20)) };
    Book { rows, techniques, gaps }
}

/// Runs of rising codes. What lies between two runs is named by no row and so
/// may be malformed.
fn technique_runs(random: &mut Random, count: usize) -> (Vec<Technique>, Vec<Range<usize>>) {
    let mut techniques = Vec::with_capacity(count);
    let mut runs = Vec::new();
    while techniques.len() < count {
        if random.chance(20) {
            techniques.push(Technique { code: 0, efficiency: 1001 + random.below(9) as u16 });
            continue;
        }
        let begin = techniques.len();
        let room = count - begin;
        let longest = if random.chance(10) { room } else { room.min(8) };
        let length = 1 + random.index(longest);
        let step = 65_535 / length as u64;
        let mut code = 0;
        for _ in 0..length {
            code += 1 + random.up_to(step.min(9) - 1) as u16;
            let efficiency = random.up_to(1000) as u16;
            techniques.push(Technique { code, efficiency });
        }
        runs.push(begin..begin + length);
    }
    (techniques, runs)
}

/// Place, scale, medium and pollutant, as rows rise by them.
pub type Key = ([u16; 4], u16, u8, u8);

pub fn key_of(row: &Row) -> Key {
    (row.place, row.scale, row.medium, row.pollutant)
}

/// Particulates in gas as often as all others together.
fn medium_and_pollutant(random: &mut Random) -> (u8, u8) {
    match random.chance(50) {
        true => (GAS, PARTICULATES),
        false => (1 + random.below(3) as u8, 1 + random.up_to(254) as u8),
    }
}

/// Keys from a few values of each part, so that many rows have one pollutant
/// in one medium and share their place with other scales.
fn row_keys(random: &mut Random, count: usize) -> BTreeSet<Key> {
    let values = if random.chance(30) { wide_values(random) } else { [1, 2, 3, 4, 5, 6, 7, 8] };
    let scales = [0, values[0], values[1], values[2]];
    let (medium, pollutant) = medium_and_pollutant(random);
    let mut keys = BTreeSet::new();
    let mut places = Vec::new();
    while keys.len() < count {
        if places.is_empty() || random.chance(60) {
            places.push([0; 4].map(|_| random.pick(&values)));
        }
        let place = random.pick(&places);
        let scale = random.pick(&scales);
        let key = if random.chance(85) {
            (place, scale, medium, pollutant)
        } else {
            (place, scale, 1 + random.below(3) as u8, 1 + random.up_to(254) as u8)
        };
        keys.insert(key);
    }
    keys
}

fn wide_values(random: &mut Random) -> [u16; 8] {
    [0; 8].map(|_| random.up_to(65_535) as u16)
}

fn row(random: &mut Random, key: Key, runs: &[Range<usize>]) -> Row {
    let (place, scale, medium, pollutant) = key;
    let unit = 1 + random.below(3) as u8;
    let places = random.up_to(if unit == 1 { 2 } else { 5 }) as u8;
    let tenfolds = [2, 5, 8][unit as usize - 1] - places as u32;
    let most_digits = 10u64.pow(8 - tenfolds);
    let row = Row {
        place,
        scale,
        medium,
        pollutant,
        basis: 1 + random.below(2) as u8,
        unit,
        places,
        k_rule: 0,
        digits: random.up_to(most_digits) as u32,
        // Not looked at while there are no techniques.
        first: random.bits() as u16,
        number: 0,
    };
    if runs.is_empty() || random.chance(15) {
        return row;
    }
    let run = &runs[random.index(runs.len())];
    let first = run.start + random.index(run.len());
    let number = 1 + random.index(run.end - first);
    row.with_techniques(1 + random.below(2) as u8, first as u16, number as u16)
}

/// A sheet without grades, for the published book alone.
pub fn sheet(random: &mut Random, book: &Book, lines: usize) -> Sheet {
    graded_sheet(random, Books::published_alone(book), &Fugitive::default(), lines)
}

/// A sheet whose lines have grades where they may.
pub fn graded_sheet(random: &mut Random, books: Books, table: &Fugitive, lines: usize) -> Sheet {
    let unit = 1 + random.below(3) as u32;
    let gaps = if random.chance(50) { [0; 2] } else { [0; 2].map(|_| random.index(70)) };
    let (medium, pollutant, lines) = match books.rows().count() {
        0 => {
            let (medium, pollutant) = medium_and_pollutant(random);
            (medium, pollutant, 0)
        }
        rows => {
            let row = books.rows().nth(random.index(rows)).expect("there are so many");
            (row.medium, row.pollutant, lines)
        }
    };
    let of_the_sheet = |row: &&Row| (row.medium, row.pollutant) == (medium, pollutant);
    let rows: Vec<&Row> = books.rows().filter(of_the_sheet).collect();
    let mut lines: Vec<Line> = (0..lines).map(|_| line(random, books, &rows)).collect();
    if (medium, pollutant) == (GAS, PARTICULATES) {
        lines.iter_mut().for_each(|line| grade(random, table, line));
    }
    Sheet { medium, pollutant, unit, lines, gaps }
}

/// A line of particulates in gas is graded more often than not.
fn grade(random: &mut Random, table: &Fugitive, line: &mut Line) {
    if table.has_entry_for(line.place, line.scale) && random.chance(80) {
        line.grades = fugitive::grades(random);
    }
}

/// A line whose row is among the sheet's.
fn line(random: &mut Random, books: Books, rows: &[&Row]) -> Line {
    let near = random.pick(rows);
    let scale = if near.scale == 0 { random.up_to(9) as u16 } else { near.scale };
    let answer = books.find((near.place, scale, near.medium, near.pollutant));
    let (row, list) = answer.expect("the near row itself is of this scale or of all scales");
    let line = Line {
        place: near.place,
        scale,
        technique: 0,
        reuse: random.up_to(1000) as u16,
        kind: random.below(4) as u8,
        zero: 0,
        product: random.up_to(1_000_000_000),
        material: random.up_to(1_000_000_000),
        // Not looked at with direct discharge.
        readings: [0; 3].map(|_| random.bits()),
        grades: [0; 3],
        last_zeros: [0; 5],
    };
    if list.is_empty() || random.chance(15) {
        return line;
    }
    let technique = random.pick(list).code;
    let (kind, readings) = reading(random, row.k_rule);
    Line { technique, kind, readings, ..line }
}

/// A kind and readings that go with the k rule and are taken: an energy within
/// its rating, and a run that is now and then above the production.
fn reading(random: &mut Random, k_rule: u8) -> (u8, [u64; 3]) {
    let unused = random.bits();
    if random.chance(15) {
        return (3, [unused, !unused, unused.rotate_left(9)]);
    }
    let hours = 1 + random.up_to(8_783_999);
    if k_rule == 1 {
        let most = if random.chance(25) { 8_784_000 } else { hours };
        let run = random.up_to(most);
        return (1, [near_thousandths(random, run), near_thousandths(random, hours), unused]);
    }
    let rated = 1 + random.up_to(9_999_999);
    let energy = random.up_to((rated * hours / 1000).min(10_000_000_000));
    (2, [energy, rated, hours].map(|thousandths| near_thousandths(random, thousandths)))
}

/// Bits of a number that reads as so many thousandths.
pub fn near_thousandths(random: &mut Random, thousandths: u64) -> u64 {
    let off = match random.below(3) {
        0 => 0.3,
        1 if thousandths > 0 => -0.3,
        _ => 0.0,
    };
    ((thousandths as f64 + off) / 1000.0).to_bits()
}
