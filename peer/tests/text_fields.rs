//! What the reader takes as a field, as a record and as a text: numerals and
//! readings at their limits, quotes, line breaks, sizes.

use peer::compare::{thinned, Conversion, Tally};
use peer::make::every_two;
use peer::make::text::{Text, FIRST_GRADE, FIRST_READING};

/// A line by energy and one by hours.
fn text() -> Text {
    Text::of(
        "1,1,1\r\n\
        3240,1,2,3,4,5,6,2,16250000,7,899.5,0.5,3600\r\n\
        3240,1,2,3,4,5,6,1,8,16250000,7000,7920.125,0\r\n",
    )
}

/// Every field, by record and place in it.
fn fields() -> Vec<(usize, usize)> {
    let text = text();
    let places = |record: usize| (0..text.records[record].len()).map(move |field| (record, field));
    (0..text.records.len()).flat_map(places).collect()
}

/// The least and the largest number of a field that is no reading.
fn range((record, field): (usize, usize)) -> (u128, u128) {
    match (record, field) {
        (0, 1) => (1, 255),
        (0, _) => (1, 3),
        (_, 0..=6) => (0, u16::MAX.into()),
        (_, 7) => (0, 3),
        _ => (0, u64::MAX.into()),
    }
}

fn is_numeral((record, field): (usize, usize)) -> bool {
    record == 0 || field < FIRST_READING
}

fn numerals() -> Vec<(usize, usize)> {
    fields().into_iter().filter(|&place| is_numeral(place)).collect()
}

fn readings() -> Vec<(usize, usize)> {
    fields().into_iter().filter(|&place| !is_numeral(place)).collect()
}

/// The text with one field changed is taken, or refused with 12.
fn check(tally: &mut Tally, (record, field): (usize, usize), value: &str, is_taken: bool) {
    check_text(tally, &text().with_field(record, field, value).bytes(), is_taken);
}

fn check_text(tally: &mut Tally, text: &[u8], is_taken: bool) {
    match is_taken {
        true => tally.expect_accepted(&Conversion::read(text)),
        false => tally.expect_refused(&Conversion::read(text), 12, 0),
    }
}

#[test]
fn numbers_at_the_limits_of_each_field() {
    let mut tally = Tally::new("numbers_at_the_limits_of_each_field");
    let widths = [8, 16, 32, 64].map(|bits| 1u128 << bits);
    for place in numerals() {
        let (least, most) = range(place);
        let edges = [0, least, least + 1, most - 1, most, most + 1, most + 2];
        let wrapped = widths.map(|width| width + least).into_iter().chain(widths);
        let longest = [10u128.pow(19), 10u128.pow(20) - 1, 10u128.pow(20), u128::MAX];
        let near_64_bits = widths[3] - 30..widths[3] + 10;
        for number in edges.into_iter().chain(wrapped).chain(longest).chain(near_64_bits) {
            let fits = (least..=most).contains(&number);
            check(&mut tally, place, &number.to_string(), fits);
            check(&mut tally, place, &format!("\"{number}\""), fits);
        }
    }
}

#[test]
fn leading_zeros_up_to_20_digits() {
    let mut tally = Tally::new("leading_zeros_up_to_20_digits");
    for (place, digits) in every_two(&numerals(), &(1..=24).collect::<Vec<usize>>()) {
        let (least, most) = range(place);
        for number in [least, most] {
            let value = format!("{number:0digits$}");
            check(&mut tally, place, &value, value.len() <= 20);
        }
        let over = format!("{:0digits$}", most + 1);
        check(&mut tally, place, &over, false);
    }
}

/// 1 to 11 digits, then nothing, or a point and 1 to 3 more.
#[test]
fn digits_around_the_point() {
    let mut tally = Tally::new("digits_around_the_point");
    let numbers: Vec<(usize, usize)> =
        every_two(&(0..=13).collect::<Vec<_>>(), &(0..=5).collect::<Vec<_>>());
    for (place, (whole, places)) in every_two(&readings(), &numbers) {
        for digit in ["0", "9", "3"] {
            let (whole_digits, place_digits) = (digit.repeat(whole), digit.repeat(places));
            let with_point = format!("{whole_digits}.{place_digits}");
            let is_taken = (1..=11).contains(&whole);
            check(&mut tally, place, &with_point, is_taken && (1..=3).contains(&places));
            check(&mut tally, place, &whole_digits, is_taken);
        }
    }
}

/// A reading that isn't used must be well-formed too.
#[test]
fn malformed_readings_that_are_not_used() {
    let mut tally = Tally::new("malformed_readings_that_are_not_used");
    let values = ["", ".", "1.", ".1", "1.2345", "123456789012", "x", "-1", "1e3", "1 ", "\"\""];
    for ((technique, kind), (field, value)) in every_two(
        &every_two(&["0", "5"], &["0", "1", "2", "3"]),
        &every_two(&[10, 11, 12], &values),
    ) {
        let text = text().with_field(1, 5, technique).with_field(1, 7, kind);
        check_text(&mut tally, &text.bytes(), true);
        check_text(&mut tally, &text.with_field(1, field, value).bytes(), false);
    }
}

/// What is no digit, in front of a field, within it and behind it; also where
/// it looks like a number to a person or to another program.
#[test]
fn what_is_no_numeral() {
    let mut tally = Tally::new("what_is_no_numeral");
    let strange = [
        " ", "\t", "+", "-", "'", "\"", "\u{FEFF}", "\u{A0}", "\0", "_", "e1", "E0", "x", "%", "/",
        ":", ";", "\r", "\n", "\n\r", "٣", "１", ".", "..", ".0.0", "\u{80}", "=", "#",
    ];
    for (place, strange) in every_two(&fields(), &strange) {
        for value in [format!("{strange}1"), format!("1{strange}1"), format!("1{strange}")] {
            let is_reading = !is_numeral(place) && value == "1.1";
            check(&mut tally, place, &value, is_reading);
        }
        check(&mut tally, place, strange, false);
    }
    for place in fields() {
        check(&mut tally, place, "", false);
    }
}

/// Fields that have a quote too many, or one where none may be; @ stands for what
/// would be taken.
const WRONG_QUOTES: [&str; 34] = [
    "\"\"",
    "\"",
    "\"\"\"",
    "\"\"\"\"",
    "\"@",
    "@\"",
    "@\"@",
    "\"\"@\"\"",
    "\"\"@",
    "@\"\"",
    "\"@\"\"",
    "\"\"@\"",
    "\"\"\"@\"\"\"",
    "\"@\"\"@\"",
    "\"@\" ",
    " \"@\"",
    "\"@\"@",
    "@\"@\"",
    "\" @\"",
    "\"@ \"",
    "\"@,\"",
    "\",@\"",
    "\",\"",
    "\"@,@\"",
    "\"@\r\n\"",
    "\"\r\n@\"",
    "\"\r\n\"",
    "\"@\n\"",
    "\"\r@\"",
    "\"@\"\r",
    "\"@\"\n",
    "\"@'",
    "'@\"",
    "“@”",
];

/// Quotes around the whole of a field are as none; every other quote is one too
/// many, whatever stands between.
#[test]
fn quotes_of_every_kind_around_each_field() {
    let mut tally = Tally::new("quotes_of_every_kind_around_each_field");
    for (record, field) in fields() {
        let value = text().records[record][field].clone();
        check(&mut tally, (record, field), &format!("\"{value}\""), true);
        for form in WRONG_QUOTES {
            check(&mut tally, (record, field), &form.replace('@', &value), false);
        }
    }
}

/// One pair of quotes around two fields or more, with as many fields in all as
/// are wanted whichever way the commas count.
#[test]
fn quotes_around_several_fields() {
    let mut tally = Tally::new("quotes_around_several_fields");
    for record in 0..3 {
        let count = text().records[record].len();
        for (first, last) in
            every_two(&(0..count).collect::<Vec<_>>(), &(0..count).collect::<Vec<_>>())
        {
            // A line takes three grades more.
            for more in 0..=4 {
                let mut text = text();
                let fields = &mut text.records[record];
                fields[first] = format!("\"{}", fields[first]);
                fields[last] += "\"";
                fields.extend(vec!["0".to_string(); more]);
                let most = if record == 0 { 0 } else { 3 };
                check_text(&mut tally, &text.bytes(), first == last && more <= most);
            }
        }
    }
}

/// A quote that opens in one record and closes in a later one.
#[test]
fn quotes_around_line_breaks() {
    let mut tally = Tally::new("quotes_around_line_breaks");
    let ends: Vec<(usize, usize)> = fields();
    for ((record, field), (end_record, end_field)) in every_two(&ends, &ends) {
        let mut text = text();
        text.records[record][field].insert(0, '"');
        text.records[end_record][end_field].push('"');
        let is_one_field = (record, field) == (end_record, end_field);
        check_text(&mut tally, &text.bytes(), is_one_field);
    }
}

#[test]
fn every_field_in_quotes() {
    let mut tally = Tally::new("every_field_in_quotes");
    let mut text = text();
    for field in text.records.iter_mut().flatten() {
        *field = format!("\"{field}\"");
    }
    check_text(&mut tally, &text.bytes(), true);
    text.is_closed = false;
    check_text(&mut tally, &text.bytes(), true);
}

#[test]
fn every_number_of_fields() {
    let mut tally = Tally::new("every_number_of_fields");
    for (record, count) in every_two(&[0, 1, 2], &(0..=28).collect::<Vec<usize>>()) {
        for value in ["0", "1", "\"1\""] {
            let mut text = text();
            let wanted = if record == 0 { 3..=3 } else { 13..=16 };
            text.records[record].resize(count, value.to_string());
            check_text(&mut tally, &text.bytes(), wanted.contains(&count));
        }
    }
}

/// Every number of records, and also where none but the last is wrong.
#[test]
fn every_number_of_records() {
    let mut tally = Tally::new("every_number_of_records");
    for (lines, is_closed) in every_two(&(0..=131).collect::<Vec<usize>>(), &[true, false]) {
        let mut text = text();
        let line = text.records[1].clone();
        text.records.truncate(1);
        text.records.resize(1 + lines, line);
        text.is_closed = is_closed;
        check_text(&mut tally, &text.bytes(), lines <= 128);
        text.records[lines].extend(vec!["0".to_string(); 4]);
        check_text(&mut tally, &text.bytes(), false);
    }
}

/// What may stand where a record ends, or look like it.
const BREAKS: [&str; 21] = [
    "\r\n",
    "",
    "\n",
    "\r",
    "\n\r",
    "\r\r\n",
    "\r\n\n",
    "\r\n\r",
    "\r\n\r\n",
    "\r\n ",
    " \r\n",
    ",\r\n",
    "\r\n,",
    "\"\r\n\"",
    "\\r\\n",
    "\u{2028}",
    "\u{85}",
    "\x0B",
    "\r\0\n",
    "\r\n\0",
    "\r\n\u{1A}",
];

/// Each line break in the place of each CR LF, and the last one left off.
#[test]
fn line_breaks_of_every_kind() {
    let mut tally = Tally::new("line_breaks_of_every_kind");
    let records: Vec<String> = text().records.iter().map(|fields| fields.join(",")).collect();
    for (place, line_break) in every_two(&[0, 1, 2], &BREAKS) {
        let mut text = String::new();
        for (index, record) in records.iter().enumerate() {
            text += record;
            text += if index == place { line_break } else { "\r\n" };
        }
        let is_taken = *line_break == *"\r\n" || place == 2 && line_break.is_empty();
        check_text(&mut tally, text.as_bytes(), is_taken);
    }
    for text in ["", "\r\n", "\n", "\r", ",", ",,", ",,\r\n", "\"", "\"\"", "\u{FEFF}1,1,1\r\n"] {
        check_text(&mut tally, text.as_bytes(), false);
    }
    for text in ["\r\n1,1,1\r\n", "1,1,1\r\n\r\n"] {
        check_text(&mut tally, text.as_bytes(), false);
    }
    for text in ["1,1,1", "1,1,1\r\n", "\"1\",\"1\",\"1\""] {
        check_text(&mut tally, text.as_bytes(), true);
    }
}

/// The longest text that is taken has 45,382 bytes; none of those around 65,536
/// is taken.
#[test]
fn sizes_up_to_the_limit_and_over_it() {
    let mut tally = Tally::new("sizes_up_to_the_limit_and_over_it");
    let wide = |value: &str, digits: usize| format!("\"{value:0>digits$}\"");
    let reading = |value: &str| format!("\"{value:0>11}.000\"");
    let field = |field| match (FIRST_READING..FIRST_GRADE).contains(&field) {
        true => reading("3"),
        false => wide("3", 20),
    };
    let line: Vec<String> = (0..16).map(field).collect();
    let mut text = Text { records: vec![vec![wide("3", 20); 3]], is_closed: true };
    text.records.resize(129, line.clone());
    assert_eq!(text.bytes().len(), 45_382);
    check_text(&mut tally, &text.bytes(), true);
    text.records.resize(130, line.clone());
    check_text(&mut tally, &text.bytes(), false);
    text.records.resize(230, line);
    for length in [65_535, 65_536, 65_537, 65_538] {
        let mut bytes = text.bytes();
        bytes.resize(length, b'0');
        check_text(&mut tally, &bytes, false);
        let short_lines =
            b"1,1,1\r\n".iter().chain(b"0,0,0,0,0,0,0,0,0,0,0,0,0\r\n".iter().cycle());
        let bytes: Vec<u8> = short_lines.copied().take(length).collect();
        check_text(&mut tally, &bytes, false);
        for byte in [b'0', b',', b'"', b'\r', b'\n', 0] {
            check_text(&mut tally, &vec![byte; length], false);
        }
    }
}

/// Every text of up to so many bytes behind a beginning, of bytes that have a
/// meaning: the desks and the words of the rule must agree.
fn every_end(tally: &mut Tally, beginning: &[u8], alphabet: &[u8], most: u32) {
    let texts = (0..=most).flat_map(|length| {
        let count = alphabet.len().pow(length);
        (0..count).map(move |number| (length, number))
    });
    for (length, mut number) in thinned::<(u32, usize)>(texts.collect()) {
        let mut text = beginning.to_vec();
        for _ in 0..length {
            text.push(alphabet[number % alphabet.len()]);
            number /= alphabet.len();
        }
        tally.agree(&Conversion::read(&text));
    }
}

#[test]
fn every_short_text() {
    let mut tally = Tally::new("every_short_text");
    every_end(&mut tally, b"", b"1,\"\r\n", 8);
}

#[test]
fn every_end_of_a_first_record() {
    let mut tally = Tally::new("every_end_of_a_first_record");
    every_end(&mut tally, b"1,1,", b"1,\"\r\n", 7);
}

#[test]
fn every_end_of_a_line() {
    let mut tally = Tally::new("every_end_of_a_line");
    every_end(&mut tally, b"1,1,1\r\n1,1,1,1,1,1,1,1,1,1,1,1,", b"1,\"\r\n.", 6);
}

#[test]
fn every_record_after_a_first_one() {
    let mut tally = Tally::new("every_record_after_a_first_one");
    every_end(&mut tally, b"1,1,1", b"1,\"\r\n", 6);
}
