//! Texts that are changed, cut or made longer, bytes without form, and damaged
//! sheets to be written. The desks must agree, whatever the answer is.

use peer::compare::{limited, thinned, Case, Conversion, Tally, TextCase};
use peer::make::damage::{damage_sheet, own_length};
use peer::make::generate::{self, case_up_to, Size};
use peer::make::text::{damage_text, wide_sheet, Text, TELLING};
use peer::make::{edges, every_two, Book, Line, Random, Row, Sheet, Technique};

/// A text with a line of each kind that uses readings, a field in quotes,
/// leading zeros and no last line break, and a book that takes it.
fn small_case() -> TextCase {
    let technique = |code, efficiency| Technique { code, efficiency };
    let row = |process| Row { place: [3240, 1, 1, process], ..Row::plain(1, 1, 203) };
    let book = Book {
        rows: vec![row(1).with_techniques(1, 0, 2), row(2).with_techniques(2, 1, 1)],
        techniques: vec![technique(1, 700), technique(2, 300)],
        gaps: [0; 3],
    };
    let text = "1,1,3\r\n\
        3240,01,1,\"1\",0,2,333,1,16250001,0,7000.5,7920.125,0\r\n\
        3240,1,1,2,4,2,0,2,1000007,7,899,\"0.5\",3600.25";
    TextCase::with_room(book.bytes(), text.into()).with_lengths(17, 16)
}

/// The text to be read, and on the desk.
fn agree(tally: &mut Tally, text: &[u8]) {
    tally.agree(&Conversion::read(text));
    tally.agree(&TextCase { text: text.to_vec(), ..small_case() });
}

fn places(length: usize) -> Vec<usize> {
    (0..length).collect()
}

/// What turns a byte into each other value.
fn turns() -> Vec<u8> {
    (1..=255).collect()
}

#[test]
fn the_small_text_is_accepted() {
    let mut tally = Tally::new("the_small_text_is_accepted");
    tally.expect_accepted(&small_case());
    tally.expect_accepted(&Conversion::read(&small_case().text));
}

#[test]
fn every_other_value_of_every_byte() {
    let mut tally = Tally::new("every_other_value_of_every_byte_of_a_text");
    let mut text = small_case().text;
    for (at, turn) in thinned(every_two(&places(text.len()), &turns())) {
        text[at] ^= turn;
        agree(&mut tally, &text);
        text[at] ^= turn;
    }
}

/// One byte of each value before, between and behind all others.
#[test]
fn every_byte_put_in_everywhere() {
    let mut tally = Tally::new("every_byte_put_in_everywhere");
    let text = small_case().text;
    let bytes: Vec<u8> = (0..=255).collect();
    for (at, byte) in thinned(every_two(&places(text.len() + 1), &bytes)) {
        let mut text = text.clone();
        text.insert(at, byte);
        agree(&mut tally, &text);
    }
}

/// Every piece is left out, and every piece stands twice; so every truncation
/// is among these.
#[test]
fn every_piece_left_out_or_doubled() {
    let mut tally = Tally::new("every_piece_left_out_or_doubled");
    let text = small_case().text;
    let mut pieces = every_two(&places(text.len()), &places(text.len() + 1));
    pieces.retain(|(begin, end)| begin < end);
    for (begin, end) in thinned(pieces) {
        agree(&mut tally, &[&text[..begin], &text[end..]].concat());
        agree(&mut tally, &[&text[..end], &text[begin..]].concat());
    }
}

/// Two bytes that have a meaning in the place of every two neighbours.
#[test]
fn every_two_telling_bytes() {
    let mut tally = Tally::new("every_two_telling_bytes");
    let text = small_case().text;
    let two_bytes = every_two(&TELLING, &TELLING);
    for (at, (a, b)) in thinned(every_two(&places(text.len() - 1), &two_bytes)) {
        let mut text = text.clone();
        text[at..at + 2].copy_from_slice(&[a, b]);
        tally.agree(&Conversion::read(&text));
    }
}

/// A full text, with damages here and there.
#[test]
fn places_of_a_full_text() {
    let mut tally = Tally::new("places_of_a_full_text");
    let mut random = Random::new(71);
    let text = Text::of_sheet(&wide_sheet(&mut random, 128).bytes()).bytes();
    tally.expect_accepted(&Conversion::read(&text));
    for at in thinned((0..text.len()).collect()) {
        let mut changed = text.clone();
        changed[at] = random.pick(&TELLING);
        tally.agree(&Conversion::read(&changed));
    }
    for length in thinned((0..text.len()).step_by(3).collect()) {
        tally.agree(&Conversion::read(&text[..length]));
    }
}

#[test]
fn many_damages_to_texts() {
    let mut tally = Tally::new("many_damages_to_texts");
    let mut random = Random::new(72);
    for round in 0..limited(60_000) {
        let lines = if round % 100 == 0 { 128 } else { random.index(5) };
        let sheet = wide_sheet(&mut random, lines);
        let mut text = Text::of_sheet(&sheet.bytes()).typed(&mut random).bytes();
        damage_text(&mut random, &mut text);
        let room = random.index(80 + 70 * lines);
        tally.agree(&Conversion::read(&text));
        tally.agree(&Conversion::read(&text).with_room(room));
    }
}

#[test]
fn many_damages_on_the_desk() {
    let mut tally = Tally::new("many_damages_to_texts_on_the_desk");
    let mut random = Random::new(73);
    let most = Size { rows: 8, techniques: 12, lines: 6 };
    for _ in 0..limited(20_000) {
        let case = case_up_to(&mut random, most);
        let Case { own, book, fugitive, sheet, exact_len, shown_len } = case;
        let mut text = Text::of_sheet(&sheet).typed(&mut random).bytes();
        damage_text(&mut random, &mut text);
        tally.agree(&TextCase { own, book, fugitive, text, exact_len, shown_len });
    }
}

#[test]
fn texts_without_form() {
    let mut tally = Tally::new("texts_without_form");
    let mut random = Random::new(74);
    for _ in 0..limited(40_000) {
        let length = random.index(200);
        let bytes = random.bytes(length);
        tally.agree(&Conversion::read(&bytes));
        let telling: Vec<u8> = bytes.iter().map(|&b| TELLING[b as usize % TELLING.len()]).collect();
        tally.agree(&Conversion::read(&telling));
        tally.agree(&Conversion::read(&[b"1,1,1\r\n", &telling[..]].concat()));
    }
}

/// A sheet with gaps, a line of each kind and one of direct discharge.
fn small_sheet() -> Vec<u8> {
    let by_hours = Line::direct(16_250_001).treated(2, 1, [7000.5, 7920.0, f64::NAN]);
    let by_energy = Line::direct(1_000_007).treated(300, 2, [899.0, 0.5, 3600.0]);
    let throughout = Line::direct(7).treated(2, 3, [f64::NAN; 3]);
    let lines = vec![by_hours, by_energy, throughout, Line::direct(0)];
    Sheet { gaps: [1, 2], ..Sheet::new(1, 1, 3, lines) }.bytes()
}

#[test]
fn every_other_value_of_every_byte_of_a_sheet() {
    let mut tally = Tally::new("every_other_value_of_every_byte_of_a_sheet_to_be_written");
    let mut sheet = small_sheet();
    tally.expect_accepted(&Conversion::write(&sheet));
    for (at, turn) in thinned(every_two(&places(sheet.len()), &turns())) {
        sheet[at] ^= turn;
        tally.agree(&Conversion::write(&sheet).with_room(1000));
        sheet[at] ^= turn;
    }
}

#[test]
fn every_length_of_a_sheet() {
    let mut tally = Tally::new("every_length_of_a_sheet_to_be_written");
    let sheet = small_sheet();
    for length in thinned((0..sheet.len() + 130).collect()) {
        let mut sheet = sheet.clone();
        sheet.resize(length, 0);
        tally.agree(&Conversion::write(&sheet).with_room(1000));
        own_length(&mut sheet);
        tally.agree(&Conversion::write(&sheet).with_room(1000));
    }
}

#[test]
fn every_header_field_of_a_sheet_at_edges() {
    let mut tally = Tally::new("every_header_field_of_a_sheet_to_be_written");
    let wrapping = (0..300).map(|back| u32::MAX as u64 - back);
    let values: Vec<u64> = edges::NUMBERS.into_iter().chain(0..300).chain(wrapping).collect();
    for (at, width) in [(0, 4), (4, 2), (6, 1), (7, 1), (8, 4), (12, 4)] {
        for value in thinned(values.clone()) {
            let mut sheet = small_sheet();
            sheet[at..at + width].copy_from_slice(&value.to_le_bytes()[..width]);
            tally.agree(&Conversion::write(&sheet).with_room(1000));
        }
    }
}

#[test]
fn many_damages_to_sheets() {
    let mut tally = Tally::new("many_damages_to_sheets_to_be_written");
    let mut random = Random::new(75);
    for round in 0..limited(40_000) {
        let lines = if round % 100 == 0 { 128 } else { random.index(6) };
        let mut sheet = wide_sheet(&mut random, lines).bytes();
        damage_sheet(&mut random, &mut sheet);
        let room = random.index(20 + 120 * lines);
        tally.agree(&Conversion::write(&sheet));
        tally.agree(&Conversion::write(&sheet).with_room(room));
    }
}

/// As large as a sheet may be, and a byte more, with the lines at its end.
#[test]
fn the_largest_sheets() {
    let mut tally = Tally::new("the_largest_sheets_to_be_written");
    let mut random = Random::new(76);
    let book = generate::book(&mut random, 30, 30);
    for lines in [0, 1, 128] {
        let sheet = generate::sheet(&mut random, &book, lines);
        let gap = 65_536 - 16 - 64 * sheet.lines.len();
        for (gap, is_taken) in [(gap, true), (gap + 1, false)] {
            let writing = Conversion::write(&Sheet { gaps: [gap, 0], ..sheet.clone() }.bytes());
            match is_taken {
                true => tally.expect_accepted(&writing),
                false => tally.expect_refused(&writing, 2, 0),
            }
        }
    }
}
