//! Text sheets: as records of fields, as people type them, and damaged; and
//! sheets of numbers of every width to be written as text.

use super::edges;
use super::generate::near_thousandths;
use super::parts::{Line, Sheet};
use super::random::Random;
use crate::plain;

/// A text as its records of fields. Any field can be wrong.
#[derive(Clone, Debug)]
pub struct Text {
    pub records: Vec<Vec<String>>,
    /// Whether the last record has its line break.
    pub is_closed: bool,
}

/// The fields of a line from here on are readings, and from there on grades.
pub const FIRST_READING: usize = 10;
pub const FIRST_GRADE: usize = 13;

impl Text {
    /// The records of a text that has no quotes.
    pub fn of(written: &str) -> Self {
        let records = written.split_terminator("\r\n");
        let fields = |record: &str| record.split(',').map(str::to_string).collect();
        Text { records: records.map(fields).collect(), is_closed: true }
    }

    /// As plain Rust writes a sheet that it takes.
    pub fn of_sheet(sheet: &[u8]) -> Self {
        let mut text = vec![0; 65_536];
        let bytes = plain::text_from_sheet(sheet, &mut text).expect("the sheet is taken");
        Text::of(str::from_utf8(&text[..bytes]).expect("what is written is ASCII"))
    }

    pub fn bytes(&self) -> Vec<u8> {
        let records: Vec<String> = self.records.iter().map(|fields| fields.join(",")).collect();
        let mut text = records.join("\r\n");
        if self.is_closed {
            text += "\r\n";
        }
        text.into_bytes()
    }

    pub fn with_field(&self, record: usize, field: usize, value: &str) -> Self {
        let mut text = self.clone();
        text.records[record][field] = value.to_string();
        text
    }

    /// The same sheet as people type it: leading zeros, places left off, quotes,
    /// any reading where none is used, grades of 0 and the last line break left off.
    pub fn typed(&self, random: &mut Random) -> Self {
        let mut text = self.clone();
        for (record, fields) in text.records.iter_mut().enumerate() {
            leave_off_grades(random, fields);
            for (index, field) in fields.iter_mut().enumerate() {
                let is_reading = record > 0 && (FIRST_READING..FIRST_GRADE).contains(&index);
                *field = if is_reading { reading(random, field) } else { numeral(random, field) };
            }
        }
        text.is_closed = random.chance(70);
        text
    }
}

/// Those of 0 at the end of a line, some or all.
fn leave_off_grades(random: &mut Random, fields: &mut Vec<String>) {
    while fields.len() > FIRST_GRADE && fields.last().is_some_and(|grade| grade == "0") {
        if random.chance(30) {
            return;
        }
        fields.pop();
    }
}

fn numeral(random: &mut Random, field: &str) -> String {
    let zeros = leading_zeros(random, 20 - field.len());
    quoted(random, format!("{zeros}{field}"))
}

fn reading(random: &mut Random, field: &str) -> String {
    // Only a reading that isn't used is written without a point.
    let (whole, places) = match field.split_once('.') {
        Some((whole, places)) => (whole.to_string(), places.to_string()),
        None => (random.up_to(99_999_999_999).to_string(), format!("{:03}", random.below(1000))),
    };
    let zeros = leading_zeros(random, 11 - whole.len());
    let needed = places.trim_end_matches('0').len();
    let kept = needed + random.index(3 - needed + 1);
    let point = if kept == 0 { "" } else { "." };
    quoted(random, format!("{zeros}{whole}{point}{}", &places[..kept]))
}

fn leading_zeros(random: &mut Random, most: usize) -> String {
    let number = if random.chance(20) { random.index(most + 1) } else { 0 };
    "0".repeat(number)
}

fn quoted(random: &mut Random, field: String) -> String {
    match random.chance(20) {
        true => format!("\"{field}\""),
        false => field,
    }
}

/// Bytes that have a meaning in a text, or nearly one.
pub const TELLING: [u8; 18] = *b"0129,\"\r\n.-+ ;'\t\0eE";

/// Does one to three damages to a text.
pub fn damage_text(random: &mut Random, text: &mut Vec<u8>) {
    for _ in 0..1 + random.below(3) {
        if text.is_empty() {
            return text.push(random.pick(&TELLING));
        }
        let at = random.index(text.len());
        match random.below(9) {
            0 => text[at] = random.bits() as u8,
            1 | 2 => text[at] = random.pick(&TELLING),
            3 | 4 => text.insert(at, random.pick(&TELLING)),
            5 => drop(text.remove(at)),
            6 => text.truncate(at),
            7 => double(random, text, at),
            _ => drop(text.drain(at..(at + 1 + random.index(40)).min(text.len()))),
        }
    }
}

/// A piece stands twice.
fn double(random: &mut Random, text: &mut Vec<u8>, at: usize) {
    let end = (at + 1 + random.index(60)).min(text.len());
    let piece = text[at..end].to_vec();
    text.splice(at..at, piece);
}

/// A sheet that the writer takes: all kinds, numbers of every width, readings
/// up to their limits and at ties.
pub fn wide_sheet(random: &mut Random, lines: usize) -> Sheet {
    let lines = (0..lines).map(|_| wide_line(random)).collect();
    let gaps = if random.chance(50) { [0; 2] } else { [0; 2].map(|_| random.index(70)) };
    let (medium, pollutant) = (1 + random.below(3) as u8, 1 + random.up_to(254) as u8);
    Sheet { medium, pollutant, unit: 1 + random.below(3) as u32, lines, gaps }
}

fn wide_line(random: &mut Random) -> Line {
    let technique = if random.chance(20) { 0 } else { random.up_to(65_535) as u16 };
    let kind = random.below(4) as u8;
    let limits = match (technique, kind) {
        (1.., 1) => vec![8_784_000, 8_784_000],
        (1.., 2) => vec![10_000_000_000, 10_000_000, 8_784_000],
        _ => vec![],
    };
    let mut readings = [0; 3].map(|_| random.bits());
    for (reading, limit) in readings.iter_mut().zip(limits) {
        *reading = good_reading(random, limit);
    }
    Line {
        place: [0; 4].map(|_| random.up_to(65_535) as u16),
        scale: random.up_to(65_535) as u16,
        technique,
        reuse: random.up_to(65_535) as u16,
        kind,
        zero: 0,
        product: random.up_to(u64::MAX),
        material: random.up_to(u64::MAX),
        readings,
        grades: wide_grades(random),
        last_zeros: [0; 5],
    }
}

/// The writer takes every byte; the desk does not.
fn wide_grades(random: &mut Random) -> [u8; 3] {
    match random.below(3) {
        0 => [0; 3],
        1 => [0; 3].map(|_| random.below(4) as u8),
        _ => [0; 3].map(|_| random.up_to(255) as u8),
    }
}

/// Halves of thousandths are all within the limits.
fn good_reading(random: &mut Random, limit: u64) -> u64 {
    if random.chance(30) {
        return random.pick(&edges::readings_at_halves());
    }
    let thousandths = random.up_to(limit);
    near_thousandths(random, thousandths)
}
