//! From the binary sheet to text.

use crate::plain::reading;
use crate::plain::sheet::{Line, Sheet};
use crate::plain::{Refusal, SHEET_MALFORMED};

/// Digits, points, commas and the line break of the longest record, and of the
/// first.
const MOST_RECORD: usize = 7 * 6 + 2 + 2 * 21 + 13 + 10 + 8 + 3 * 4 + 2;
const MOST_FIRST_RECORD: usize = 9;

pub fn text(sheet: &[u8]) -> Result<Vec<u8>, Refusal> {
    let sheet = Sheet::read(sheet).ok_or(Refusal::whole_file(SHEET_MALFORMED))?;
    let mut text = Vec::with_capacity(MOST_FIRST_RECORD + sheet.line_count() * MOST_RECORD);
    numeral(&mut text, sheet.medium.into());
    next_numeral(&mut text, sheet.pollutant.into());
    next_numeral(&mut text, sheet.unit_code.into());
    text.extend(b"\r\n");
    for (index, line) in sheet.lines().enumerate() {
        record(&mut text, &line).map_err(|number| Refusal { number, line: index as u32 + 1 })?;
    }
    Ok(text)
}

/// One line, or the number of its refusal.
fn record(text: &mut Vec<u8>, line: &Line) -> Result<(), u32> {
    let [industry, product, material, process] =
        [48, 32, 16, 0].map(|shift| line.place >> shift & 0xFFFF);
    numeral(text, industry);
    for number in [product, material, process, line.scale.into()] {
        next_numeral(text, number);
    }
    for number in [line.technique.into(), line.reuse.into(), line.kind.into()] {
        next_numeral(text, number);
    }
    next_numeral(text, line.product);
    next_numeral(text, line.material);
    let limits = reading::limits(line.technique, line.kind);
    for (index, &bits) in line.readings.iter().enumerate() {
        text.push(b',');
        match limits.get(index) {
            Some(&limit) => three_places(text, reading::within(bits, limit)?),
            None => text.push(b'0'),
        }
    }
    for grade in line.grades {
        next_numeral(text, grade.into());
    }
    text.extend(b"\r\n");
    Ok(())
}

fn next_numeral(text: &mut Vec<u8>, number: u64) {
    text.push(b',');
    numeral(text, number);
}

fn three_places(text: &mut Vec<u8>, thousandths: u64) {
    numeral(text, thousandths / 1000);
    let part = thousandths % 1000;
    text.extend([b'.', digit(part / 100), digit(part / 10), digit(part)]);
}

/// Without leading zeros; two digits by one division.
fn numeral(text: &mut Vec<u8>, mut number: u64) {
    let mut digits = [0; 20];
    let mut first = digits.len();
    while number > 99 {
        first -= 2;
        digits[first] = digit(number % 100 / 10);
        digits[first + 1] = digit(number % 100);
        number /= 100;
    }
    if number > 9 {
        first -= 1;
        digits[first] = digit(number);
        number /= 10;
    }
    first -= 1;
    digits[first] = digit(number);
    text.extend_from_slice(&digits[first..]);
}

/// The last digit of a number.
fn digit(number: u64) -> u8 {
    b'0' + (number % 10) as u8
}
