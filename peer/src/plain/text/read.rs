//! From text to the binary sheet. A field is a numeral or a reading, and neither
//! has a quote, a comma or a line break in it. So a field in quotes is taken
//! where it would be taken without them, and nothing else between quotes is.

use crate::plain::reading;
use crate::plain::sheet::{GRADES, HEADER, LINE, MOST_LINES};
use crate::plain::MOST_BYTES;

const MOST_SHEET: usize = HEADER + MOST_LINES * LINE;
const NUMERAL_DIGITS: usize = 20;
/// So many digits fit 64 bits, whichever they are.
const ALWAYS_FIT: usize = 19;
const WHOLE_DIGITS: usize = 11;
const PLACES: usize = 3;

/// The binary sheet of a text: its lines touch the header, and it ends with them.
pub struct Binary {
    file: [u8; MOST_SHEET],
    length: usize,
}

impl AsRef<[u8]> for Binary {
    fn as_ref(&self) -> &[u8] {
        &self.file[..self.length]
    }
}

/// What is left of a text.
struct Rest<'a>(&'a [u8]);

pub fn sheet(text: &[u8]) -> Option<Binary> {
    if text.len() > MOST_BYTES {
        return None;
    }
    let mut rest = Rest(text);
    let mut file = [0; MOST_SHEET];
    let (header, lines) = file.split_first_chunk_mut()?;
    read_header(&mut rest, header)?;
    let mut lines = lines.as_chunks_mut().0.iter_mut();
    let mut count = 0u16;
    while !rest.0.is_empty() {
        read_line(&mut rest, lines.next()?)?;
        count += 1;
    }
    let length = HEADER + usize::from(count) * LINE;
    header[0..4].copy_from_slice(&(length as u32).to_le_bytes());
    header[4..6].copy_from_slice(&count.to_le_bytes());
    Some(Binary { file, length })
}

/// Medium, pollutant and shown unit.
fn read_header(rest: &mut Rest, header: &mut [u8; HEADER]) -> Option<()> {
    let medium = rest.field(|rest| rest.numeral(1, 3))?;
    let pollutant = rest.next_field(|rest| rest.numeral(1, 255))?;
    let unit = rest.next_field(|rest| rest.numeral(1, 3))?;
    rest.record_end()?;
    header[6] = medium as u8;
    header[7] = pollutant as u8;
    header[8..12].copy_from_slice(&(HEADER as u32).to_le_bytes());
    header[12..16].copy_from_slice(&(unit as u32).to_le_bytes());
    Some(())
}

/// Seven codes, the kind, two activities, three readings, up to three grades.
fn read_line(rest: &mut Rest, line: &mut [u8; LINE]) -> Option<()> {
    let mut codes = [0; 7];
    codes[0] = rest.field(Rest::code)?;
    for code in &mut codes[1..] {
        *code = rest.next_field(Rest::code)?;
    }
    for (place, code) in line.as_chunks_mut().0.iter_mut().zip(codes) {
        *place = code.to_le_bytes();
    }
    let kind = rest.next_field(|rest| rest.numeral(0, 3))? as u8;
    line[14] = kind;
    for at in [16, 24] {
        let kilograms = rest.next_field(|rest| rest.numeral(0, u64::MAX))?;
        line[at..at + 8].copy_from_slice(&kilograms.to_le_bytes());
    }
    let technique = codes[5];
    let used = reading::limits(technique, kind).len();
    for (index, at) in [32, 40, 48].into_iter().enumerate() {
        let thousandths = rest.next_field(Rest::reading)?;
        if index < used {
            let number = thousandths as f64 / 1000.0;
            line[at..at + 8].copy_from_slice(&number.to_bits().to_le_bytes());
        }
    }
    read_grades(rest, &mut line[GRADES..GRADES + 3])?;
    rest.record_end()
}

/// Those that are left off stay 0.
fn read_grades(rest: &mut Rest, grades: &mut [u8]) -> Option<()> {
    for grade in grades {
        if rest.0.first() != Some(&b',') {
            break;
        }
        *grade = rest.next_field(|rest| rest.numeral(0, u8::MAX.into()))? as u8;
    }
    Some(())
}

impl Rest<'_> {
    /// Whether the text goes on with this byte, which is then taken off it.
    fn takes(&mut self, byte: u8) -> bool {
        let goes_on = self.0.first() == Some(&byte);
        self.0 = &self.0[usize::from(goes_on)..];
        goes_on
    }

    fn field<T>(&mut self, read: impl Fn(&mut Self) -> Option<T>) -> Option<T> {
        let in_quotes = self.takes(b'"');
        let value = read(self)?;
        (!in_quotes || self.takes(b'"')).then_some(value)
    }

    fn next_field<T>(&mut self, read: impl Fn(&mut Self) -> Option<T>) -> Option<T> {
        if !self.takes(b',') {
            return None;
        }
        self.field(read)
    }

    /// The last record need not have its line break.
    fn record_end(&mut self) -> Option<()> {
        let ends = self.0.is_empty() || self.takes(b'\r') && self.takes(b'\n');
        ends.then_some(())
    }

    fn code(&mut self) -> Option<u16> {
        self.numeral(0, u16::MAX.into()).map(|code| code as u16)
    }

    fn numeral(&mut self, least: u64, most: u64) -> Option<u64> {
        let (number, _) = self.digits(NUMERAL_DIGITS)?;
        (least..=most).contains(&number).then_some(number)
    }

    /// In thousandths.
    fn reading(&mut self) -> Option<u64> {
        let (whole, _) = self.digits(WHOLE_DIGITS)?;
        let part = match self.takes(b'.') {
            true => {
                let (part, places) = self.digits(PLACES)?;
                part * [1000, 100, 10, 1][places]
            }
            false => 0,
        };
        Some(whole * 1000 + part)
    }

    /// One digit or more, as their number and how many they are.
    fn digits(&mut self, most: usize) -> Option<(u64, usize)> {
        let mut number = 0u64;
        let mut count = 0;
        for byte in self.0 {
            let digit = u64::from(byte.wrapping_sub(b'0'));
            if digit > 9 {
                break;
            }
            if count == most {
                return None;
            }
            number = match count < ALWAYS_FIT {
                true => 10 * number + digit,
                false => number.checked_mul(10)?.checked_add(digit)?,
            };
            count += 1;
        }
        self.0 = &self.0[count..];
        (count > 0).then_some((number, count))
    }
}
