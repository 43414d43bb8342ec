//! Whether a text sheet is taken, by the words of the rule and in no hurry:
//! records, then fields, then numerals. No desk reads a text in this way.

const MOST_BYTES: usize = 65_536;
const MOST_LINES: usize = 128;

/// What a field may say.
#[derive(Clone, Copy)]
enum Field {
    Numeral { least: u128, most: u128 },
    Reading,
}

const fn numeral(least: u128, most: u128) -> Field {
    Field::Numeral { least, most }
}

const CODE: Field = numeral(0, u16::MAX as u128);
const KIND: Field = numeral(0, 3);
const GRADE: Field = numeral(0, u8::MAX as u128);
const KILOGRAMS: Field = numeral(0, u64::MAX as u128);

/// Medium, pollutant, shown unit.
const FIRST_RECORD: [Field; 3] = [numeral(1, 3), numeral(1, 255), numeral(1, 3)];

/// Industry, product, material, process, scale, technique, reuse; kind; product
/// and material in kilograms; a, b, c; crushing, tapping, spill.
const LINE: [Field; 16] = {
    let [c, kg, reading, grade] = [CODE, KILOGRAMS, Field::Reading, GRADE];
    [c, c, c, c, c, c, c, KIND, kg, kg, reading, reading, reading, grade, grade, grade]
};

/// Grades may be left off, and no other fields.
const FEWEST_FIELDS: usize = 13;

pub fn is_taken(text: &[u8]) -> bool {
    let records = records(text);
    let (first, lines) = records.split_first().expect("there is always a record");
    let fits = |record: &[&[u8]], fields: &[Field]| {
        record.len() == fields.len() && record.iter().zip(fields).all(|(raw, field)| field.has(raw))
    };
    text.len() <= MOST_BYTES
        && lines.len() <= MOST_LINES
        && fits(first, &FIRST_RECORD)
        && lines.iter().all(|line| fits(line, &LINE[..line.len().clamp(FEWEST_FIELDS, LINE.len())]))
}

/// The raw fields of each record. A quote goes in or out; a comma ends a field
/// and CR LF a record only outside. After the last CR LF there is no record,
/// but there is one in an empty text.
fn records(text: &[u8]) -> Vec<Vec<&[u8]>> {
    let mut records = vec![vec![]];
    let (mut begin, mut at, mut is_inside) = (0, 0, false);
    while at < text.len() {
        is_inside ^= text[at] == b'"';
        let ends_record = !is_inside && text[at..].starts_with(b"\r\n");
        let ends_field = ends_record || !is_inside && text[at] == b',';
        let end = at;
        at += if ends_record { 2 } else { 1 };
        if ends_field {
            records.last_mut().expect("one is open").push(&text[begin..end]);
            begin = at;
        }
        if ends_record {
            records.push(vec![]);
        }
    }
    let is_closed = records.len() > 1 && records[records.len() - 1].is_empty() && begin == at;
    match is_closed {
        true => drop(records.pop()),
        false => records.last_mut().expect("one is open").push(&text[begin..]),
    }
    records
}

/// What a raw field holds.
fn without_quotes(raw: &[u8]) -> &[u8] {
    match raw {
        [b'"', held @ .., b'"'] => held,
        _ => raw,
    }
}

impl Field {
    fn has(self, raw: &[u8]) -> bool {
        let held = without_quotes(raw);
        match self {
            Field::Numeral { least, most } => {
                are_digits(held, 20) && (least..=most).contains(&number(held))
            }
            Field::Reading => match held.iter().position(|&byte| byte == b'.') {
                None => are_digits(held, 11),
                Some(point) => are_digits(&held[..point], 11) && are_digits(&held[point + 1..], 3),
            },
        }
    }
}

fn are_digits(bytes: &[u8], most: usize) -> bool {
    (1..=most).contains(&bytes.len()) && bytes.iter().all(u8::is_ascii_digit)
}

fn number(digits: &[u8]) -> u128 {
    digits.iter().fold(0, |number, digit| 10 * number + u128::from(digit - b'0'))
}
