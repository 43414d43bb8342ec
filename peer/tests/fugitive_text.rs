//! Grades in text sheets: three more fields at the end of a line, which may be
//! left off and are always written.

use peer::compare::{limited, thinned, Case, Conversion, Tally, TextCase, ThereAndBack};
use peer::make::dust::{book, by_energy, by_hours, sheet, table};
use peer::make::text::{wide_sheet, Text, FIRST_GRADE};
use peer::make::{every_two, two_kinds, Fugitive, Line, Random, Sheet};

const GRADE_FIELDS: [usize; 3] = [FIRST_GRADE, FIRST_GRADE + 1, FIRST_GRADE + 2];

/// A line by hours and one by energy, each with all three grades.
fn text() -> Text {
    Text::of(
        "2,3,1\r\n\
        3240,1,1,1,0,1,0,1,16250000,7,7000,7920.125,0,1,2,2\r\n\
        3240,1,1,2,0,9,0,2,8,16250000,899.5,0.5,3600,3,0,1\r\n",
    )
}

fn on_the_desk(text: &[u8]) -> TextCase {
    TextCase::with_room(book().bytes(), text.to_vec()).with_fugitive(table().bytes())
}

fn read(text: &[u8]) -> Vec<u8> {
    Conversion::read(text).run_proved().expect("the memory is kept").bytes().to_vec()
}

/// The text is taken or refused with 12, by the reader and on the desk.
fn check(tally: &mut Tally, text: &[u8], is_taken: bool) {
    match is_taken {
        true => tally.expect_accepted(&Conversion::read(text)),
        false => {
            tally.expect_refused(&Conversion::read(text), 12, 0);
            tally.expect_refused(&on_the_desk(text), 12, 0);
        }
    }
}

#[test]
fn grades_stand_in_their_bytes() {
    let mut tally = Tally::new("grades_stand_in_their_bytes");
    tally.expect_accepted(&on_the_desk(&text().bytes()));
    let sheet = read(&text().bytes());
    assert_eq!(sheet[16 + 56..16 + 64], [1, 2, 2, 0, 0, 0, 0, 0]);
    assert_eq!(sheet[80 + 56..80 + 64], [3, 0, 1, 0, 0, 0, 0, 0]);
}

/// Records of 13, 14, 15 and 16 fields are read as one with zeros for what is left
/// off; there is none of fewer fields or more.
#[test]
fn grades_left_off_count_as_zero() {
    let mut tally = Tally::new("grades_left_off_count_as_zero");
    let counts: Vec<usize> = (1..=20).collect();
    for ((record, count), is_closed) in every_two(&every_two(&[1, 2], &counts), &[true, false]) {
        let mut short = Text { is_closed, ..text() };
        let mut whole = short.clone();
        short.records[record].resize(count, "0".to_string());
        whole.records[record][count.min(16)..].fill("0".to_string());
        check(&mut tally, &short.bytes(), (13..=16).contains(&count));
        if (13..=16).contains(&count) {
            assert_eq!(read(&short.bytes()), read(&whole.bytes()));
            tally.expect_accepted(&on_the_desk(&short.bytes()));
        }
    }
}

/// What is not there is left off; a field of nothing is malformed.
#[test]
fn empty_grades_are_malformed() {
    let mut tally = Tally::new("empty_grades_are_malformed");
    for (record, count) in every_two(&[1, 2], &[13, 14, 15, 16]) {
        for (empty, is_closed) in every_two(&["", "\"\"", " ", "\"", "\"\"\""], &[true, false]) {
            let mut text = Text { is_closed, ..text() };
            text.records[record].truncate(count);
            text.records[record].push(empty.to_string());
            check(&mut tally, &text.bytes(), false);
        }
    }
    for (record, field) in every_two(&[1, 2], &GRADE_FIELDS) {
        check(&mut tally, &text().with_field(record, field, "").bytes(), false);
    }
}

/// A byte is taken, and above 3 it is the desk's refusal of the line; above 255 the
/// text is malformed.
#[test]
fn each_number_as_each_grade() {
    let mut tally = Tally::new("each_number_as_each_grade");
    let places = every_two(&[1, 2], &GRADE_FIELDS);
    let numbers: Vec<u64> = (0..=300).chain([65_535, 65_536, 1 << 32, u64::MAX]).collect();
    for ((record, field), number) in thinned(every_two(&places, &numbers)) {
        let text = text().with_field(record, field, &number.to_string()).bytes();
        check(&mut tally, &text, number <= 255);
        match number {
            0..=3 => tally.expect_accepted(&on_the_desk(&text)),
            4..=255 => tally.expect_refused(&on_the_desk(&text), 15, record as u32),
            _ => tally.expect_refused(&on_the_desk(&text), 12, 0),
        }
        if number <= 255 {
            let at = 16 + 64 * (record - 1) + 56 + field - FIRST_GRADE;
            assert_eq!(read(&text)[at], number as u8);
        }
    }
}

/// Leading zeros up to 20 digits, quotes around the whole, and nothing else.
#[test]
fn forms_of_a_grade() {
    let mut tally = Tally::new("forms_of_a_grade");
    let taken = ["3", "003", "\"3\"", "\"003\"", "00000000000000000003"];
    let malformed = [
        "000000000000000000003",
        "\"3",
        "3\"",
        "\"\"3\"\"",
        "3.0",
        "3.",
        ".3",
        "+3",
        "-0",
        " 3",
        "3 ",
        "\" 3\"",
        "0x3",
        "1e0",
        "x",
        "3;",
        "'3'",
        "3\t",
        "\u{FEFF}3",
        "３",
    ];
    let places = every_two(&[1, 2], &GRADE_FIELDS);
    for ((record, field), form) in every_two(&places, &taken) {
        let typed = text().with_field(record, field, form).bytes();
        check(&mut tally, &typed, true);
        assert_eq!(read(&typed), read(&text().with_field(record, field, "3").bytes()));
        tally.expect_accepted(&on_the_desk(&typed));
    }
    for ((record, field), form) in every_two(&places, &malformed) {
        check(&mut tally, &text().with_field(record, field, form).bytes(), false);
    }
}

/// A quote that opens in one grade and closes in another.
#[test]
fn quotes_around_several_grades() {
    let mut tally = Tally::new("quotes_around_several_grades");
    for (first, last) in every_two(&[12, 13, 14, 15], &[12, 13, 14, 15]) {
        let mut text = text();
        let fields = &mut text.records[1];
        fields[first].insert(0, '"');
        fields[last].push('"');
        check(&mut tally, &text.bytes(), first == last);
    }
}

/// Every line that is written has 16 fields, whatever its grades.
#[test]
fn written_lines_have_all_fields() {
    let mut tally = Tally::new("written_lines_have_all_fields");
    let mut random = Random::new(101);
    for _ in 0..limited(2_000) {
        let lines = random.index(9);
        let sheet = wide_sheet(&mut random, lines);
        let writing = Conversion::write(&sheet.bytes());
        tally.expect_accepted(&writing);
        let written = writing.run_proved().expect("the memory around is kept");
        let text = Text::of(str::from_utf8(written.bytes()).expect("what is written is ASCII"));
        for (fields, line) in text.records[1..].iter().zip(&sheet.lines) {
            let grades = line.grades.map(|grade| grade.to_string());
            assert_eq!((fields.len(), &fields[FIRST_GRADE..]), (16, &grades[..]));
        }
    }
}

/// Any three bytes are written and read again as they are.
#[test]
fn every_grade_there_and_back() {
    let mut tally = Tally::new("every_grade_there_and_back");
    let bytes: Vec<u8> = (0..=255).collect();
    for (place, grade) in thinned(every_two(&[0, 1, 2], &bytes)) {
        let mut line = by_energy(8);
        line.grades[place] = grade;
        let sheet = sheet(vec![by_hours(7), line]);
        let case = Case::of(&book(), &sheet).with_fugitive(table().bytes());
        tally.expect_accepted(&ThereAndBack(case));
        let text = Conversion::write(&sheet.bytes()).run_proved().expect("the memory is kept");
        assert_eq!(read(text.bytes()), sheet.bytes());
    }
}

/// The writer wants no table, and takes grades in every medium; the other five
/// bytes make the sheet malformed.
#[test]
fn the_writer_and_the_last_bytes_of_a_line() {
    let mut tally = Tally::new("the_writer_and_the_last_bytes_of_a_line");
    for (medium, pollutant) in every_two(&[1, 2, 3], &[1, 3, 255]) {
        let line = Line { grades: [255, 0, 4], ..Line::direct(5) };
        let sheet = |line: Line| Sheet::new(medium, pollutant, 1, vec![line]).bytes();
        tally.expect_accepted(&Conversion::write(&sheet(line)));
        for place in 0..5 {
            let mut spoiled = line;
            spoiled.last_zeros[place] = 1;
            tally.expect_refused(&Conversion::write(&sheet(spoiled)), 2, 0);
        }
    }
}

/// 1, 13, 12, 3, then the lines.
#[test]
fn the_order_of_whole_files_on_text() {
    let mut tally = Tally::new("the_order_of_files_with_a_table_on_text");
    let bad_table = Fugitive { zero: 1, ..table() }.bytes();
    let books = [two_kinds::bad_book(), book().bytes()];
    let tables = [bad_table.clone(), table().bytes()];
    let texts = [text().with_field(1, 13, "256").bytes(), text().with_field(2, 13, "4").bytes()];
    let files = every_two(&every_two(&books, &tables), &texts);
    for (((book, table), text), cells) in every_two(&files, &[14, 15]) {
        let number = match () {
            _ if book == books[0] => 1,
            _ if table == bad_table => 13,
            _ if text == texts[0] => 12,
            _ if cells == 14 => 3,
            _ => 15,
        };
        let line = if number == 15 { 2 } else { 0 };
        let case = TextCase::with_room(book, text).with_fugitive(table);
        tally.expect_refused(&case.with_lengths(cells, cells), number, line);
    }
}

/// 14 and 15 from a text, beside the refusals around them.
#[test]
fn refusals_of_graded_lines_on_text() {
    let mut tally = Tally::new("refusals_of_graded_lines_on_text");
    let only_the_first = Fugitive::of(&table().entries[..1]).bytes();
    let without_entry =
        |text: Text| on_the_desk(&text.bytes()).with_fugitive(only_the_first.clone());
    tally.expect_refused(&without_entry(text()), 14, 2);
    let faults = [(8, "1000000001", 4), (6, "1001", 5), (13, "9", 15), (3, "4", 6)];
    for (field, value, number) in faults {
        tally.expect_refused(&without_entry(text().with_field(2, field, value)), number, 2);
    }
    let later = [(5, "7"), (7, "1"), (10, "10000000.001"), (11, "0"), (10, "1800.001")];
    for ((field, value), number) in later.into_iter().zip(7..) {
        let text = text().with_field(2, field, value);
        tally.expect_refused(&without_entry(text.clone()), 14, 2);
        tally.expect_refused(&on_the_desk(&text.bytes()), number, 2);
    }
    let mut in_water = text();
    in_water.records[0][0] = "1".to_string();
    tally.expect_refused(&on_the_desk(&in_water.bytes()), 15, 1);
}
