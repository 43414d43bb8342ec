//! Sheets written as text and read again, the desk on text sheets, the order of
//! refusals and the room that is lent.

use checkraven::{Outcome, MOST_SHEET, MOST_SHEET_TEXT};
use peer::compare::{limited, run_plain, thinned, Case, Conversion, Tally, TextCase, ThereAndBack};
use peer::make::generate::{self, Size};
use peer::make::text::{wide_sheet, Text};
use peer::make::two_kinds::{bad_book, book};
use peer::make::{edges, every_two, Line, Random, Sheet};
use std::fs;
use std::path::Path;

fn by_hours() -> Line {
    Line { reuse: 333, ..Line::direct(16_250_001).treated(1, 1, [7000.5, 7920.0, 0.0]) }
}

fn by_energy() -> Line {
    let line = Line::direct(1_000_007).treated(1, 2, [899.0, 0.5, 3600.0]);
    Line { place: [3240, 1, 1, 2], ..line }
}

fn sheet(lines: Vec<Line>) -> Sheet {
    Sheet::new(1, 1, 3, lines)
}

/// By hours and by energy by turns.
fn sheet_of(lines: usize) -> Sheet {
    sheet((0..lines).map(|index| [by_hours(), by_energy()][index % 2]).collect())
}

/// A line by hours and one by energy, as a text that is taken.
const TEXT: &str = "1,1,3\r\n\
    3240,1,1,1,0,1,333,1,16250001,0,7000.5,7920,0\r\n\
    3240,1,1,2,0,1,0,2,1000007,0,899,0.5,3600\r\n";

fn bytes_needed(conversion: &Conversion) -> usize {
    conversion.run_plain().answer.expect("the conversion is taken")
}

#[test]
fn what_is_written_is_fixed_to_the_byte() {
    let mut tally = Tally::new("what_is_written_is_fixed_to_the_byte");
    let direct = Line { reuse: 65_535, material: u64::MAX, ..Line::direct(0) };
    let bad = f64::NAN;
    let throughout = by_hours().treated(2, 3, [bad, bad, bad]);
    let tie = by_hours().treated(65_535, 1, [0.0625, 8784.0004, bad]);
    let most = by_energy().treated(1, 2, [10_000_000.0, 10_000.0, 0.0]);
    let lines = vec![direct.treated(0, 2, [bad, -1.0, bad]), throughout, tie, most];
    let conversion = Conversion::write(&Sheet::new(3, 255, 2, lines).bytes());
    tally.expect_accepted(&conversion);
    let expected = "3,255,2\r\n\
        3240,1,1,1,0,0,65535,2,0,18446744073709551615,0,0,0,0,0,0\r\n\
        3240,1,1,1,0,2,333,3,16250001,0,0,0,0,0,0,0\r\n\
        3240,1,1,1,0,65535,333,1,16250001,0,0.063,8784.000,0,0,0,0\r\n\
        3240,1,1,2,0,1,0,2,1000007,0,10000000.000,10000.000,0.000,0,0,0\r\n";
    let written = conversion.run_proved().expect("the memory around is kept");
    assert_eq!(str::from_utf8(written.bytes()).unwrap(), expected);
}

#[test]
fn generated_sheets_there_and_back() {
    let mut tally = Tally::new("generated_sheets_there_and_back");
    let mut random = Random::new(61);
    let most = Size { rows: 12, techniques: 20, lines: 8 };
    for _ in 0..limited(10_000) {
        let case = generate::case_up_to(&mut random, most);
        tally.expect_accepted(&ThereAndBack(case));
    }
}

#[test]
fn every_number_of_lines_there_and_back() {
    let mut tally = Tally::new("every_number_of_lines_there_and_back");
    let mut random = Random::new(62);
    let numbers = (0..=128).flat_map(|lines| [lines; 8]).collect();
    for lines in thinned(numbers) {
        let size = Size { rows: 1 + random.index(30), techniques: random.index(60), lines };
        let case = generate::case(&mut random, size);
        tally.expect_accepted(&ThereAndBack(case));
    }
}

/// Numbers of every width; the desk refuses most of these sheets, the same for
/// the sheet, its text and what is read again.
#[test]
fn wide_sheets_there_and_back() {
    let mut tally = Tally::new("wide_sheets_there_and_back");
    let mut random = Random::new(63);
    let book = book().bytes();
    for round in 0..limited(4_000) {
        let lines = if round % 40 == 0 { 128 } else { random.index(9) };
        let sheet = wide_sheet(&mut random, lines).bytes();
        tally.expect_accepted(&ThereAndBack(Case::with_room(book.clone(), sheet)));
    }
}

/// Wherever the lines lie in the binary sheet, and whatever lies around them.
#[test]
fn lines_at_every_offset() {
    let mut tally = Tally::new("lines_at_every_offset");
    let plain = Text::of_sheet(&sheet_of(2).bytes()).bytes();
    for gaps in thinned(every_two(&(0..=40).collect::<Vec<_>>(), &[0, 1, 63, 64, 65])) {
        let sheet = Sheet { gaps: [gaps.0, gaps.1], ..sheet_of(2) };
        let case = Case::of(&book(), &sheet);
        let written = Conversion::write(&case.sheet).run_proved().expect("the memory is kept");
        assert_eq!(written.bytes(), plain);
        tally.expect_accepted(&ThereAndBack(case));
    }
}

/// A sheet that is written and read again has the same bytes.
fn same_bytes_again(tally: &mut Tally, sheet: &[u8]) {
    let writing = Conversion::write(sheet);
    tally.expect_accepted(&writing);
    let reading = Conversion::read(writing.run_plain().bytes());
    tally.expect_accepted(&reading);
    assert_eq!(reading.run_plain().bytes(), sheet);
}

/// Every thousandth of an hour up to the limit is written, and read again as
/// the same binary64.
#[test]
fn every_thousandth_of_an_hour() {
    let mut tally = Tally::new("every_thousandth_of_an_hour");
    const LIMIT: u64 = 8_784_000;
    let hours = |thousandths: u64| thousandths.min(LIMIT) as f64 / 1000.0;
    let line = |first: u64| by_hours().treated(1, 1, [hours(first), hours(first + 1), 0.0]);
    for first in thinned((0..=LIMIT).step_by(256).collect()) {
        let sheet = sheet((first..first + 256).step_by(2).map(line).collect()).bytes();
        same_bytes_again(&mut tally, &sheet);
    }
}

/// The largest energies and ratings, where neighbours are closest.
#[test]
fn thousandths_of_energy_near_the_limits() {
    let mut tally = Tally::new("thousandths_of_energy_near_the_limits");
    let mut random = Random::new(64);
    for _ in 0..limited(2_000) {
        let mut near = |limit: u64| (limit - random.up_to(limit.min(1 << 40))) as f64 / 1000.0;
        let lines = (0..40).map(|_| {
            let readings = [near(10_000_000_000), near(10_000_000), near(8_784_000)];
            by_energy().treated(1, 2, readings)
        });
        let sheet = sheet(lines.collect()).bytes();
        same_bytes_again(&mut tally, &sheet);
    }
}

/// Limits, ties and bad numbers, as each reading of each kind, used or not.
#[test]
fn every_edge_as_every_reading() {
    let mut tally = Tally::new("every_edge_as_every_reading");
    let used =
        |technique: u16, kind: u8| if technique == 0 { 0 } else { [0, 2, 3, 0][kind as usize] };
    for (kind, technique) in every_two(&[0u8, 1, 2, 3], &[0u16, 1]) {
        for (index, bits) in thinned(every_two(&[0, 1, 2], &edges::readings())) {
            let mut line = by_energy().treated(technique, kind, [1.0, 0.5, 3600.0]);
            line.readings[index] = bits;
            let case = Case::of(&book(), &sheet(vec![by_hours(), line]));
            let is_bad = edges::bad_readings().contains(&bits);
            let outcome = tally.compare(&ThereAndBack(case));
            match index < used(technique, kind) {
                true if is_bad => assert_eq!(outcome, Outcome::Refused { number: 9, line: 2 }),
                true => {}
                false => assert_eq!(outcome, Outcome::Accepted),
            }
        }
    }
}

#[test]
fn readings_around_their_limits() {
    let mut tally = Tally::new("readings_around_their_limits");
    let limits = [(1, 0, 8784.0), (1, 1, 8784.0)];
    let of_energy = [(2, 0, 10_000_000.0), (2, 1, 10_000.0), (2, 2, 8784.0)];
    for (kind, index, limit) in limits.into_iter().chain(of_energy) {
        for (more, is_taken) in [(-0.001, true), (0.0, true), (0.0004, true), (0.001, false)] {
            let mut readings = [1.0; 3];
            readings[index] = limit + more;
            let mut lines = vec![by_hours(); 128];
            lines[127] = by_energy().treated(1, kind, readings);
            let writing = Conversion::write(&sheet(lines).bytes());
            match is_taken {
                true => tally.expect_accepted(&writing),
                false => tally.expect_refused(&writing, 9, 128),
            }
        }
    }
}

/// Two lines have a bad reading: the first of them is named.
#[test]
fn the_first_bad_line_is_named() {
    let mut tally = Tally::new("the_first_bad_line_is_named");
    let bad = by_hours().treated(1, 1, [1.0, f64::INFINITY, 0.0]);
    let lines: Vec<usize> = (0..9).collect();
    for (one, other) in every_two(&lines, &lines) {
        let mut sheet = sheet_of(9);
        sheet.lines[one] = bad;
        sheet.lines[other] = bad;
        let writing = Conversion::write(&sheet.bytes());
        tally.expect_refused(&writing, 9, one.min(other) as u32 + 1);
    }
}

/// The same sheet as people type it is read as the same bytes.
#[test]
fn typed_texts() {
    let mut tally = Tally::new("typed_texts");
    let mut random = Random::new(65);
    for round in 0..limited(8_000) {
        let lines = if round % 40 == 0 { 128 } else { random.index(9) };
        let text = Text::of_sheet(&wide_sheet(&mut random, lines).bytes());
        let typed = Conversion::read(&text.typed(&mut random).bytes());
        tally.expect_accepted(&typed);
        let written = Conversion::read(&text.bytes());
        assert_eq!(typed.run_plain().bytes(), written.run_plain().bytes());
    }
}

#[test]
fn typed_texts_on_the_desk() {
    let mut tally = Tally::new("typed_texts_on_the_desk");
    let mut random = Random::new(66);
    let most = Size { rows: 12, techniques: 20, lines: 8 };
    for _ in 0..limited(8_000) {
        let Case { own, book, fugitive, sheet, .. } = generate::case_up_to(&mut random, most);
        let text = Text::of_sheet(&sheet).typed(&mut random).bytes();
        let case = TextCase::with_room(book, text).with_own(own);
        tally.expect_accepted(&case.with_fugitive(fugitive));
    }
}

/// Readings that aren't used are stored as zero whichever is read; those of a
/// kind that are used, as what was read.
#[test]
fn unused_readings_are_stored_as_zero() {
    let mut tally = Tally::new("unused_readings_are_stored_as_zero");
    let cases =
        [(0, 0, 0), (0, 1, 0), (0, 2, 0), (0, 3, 0), (7, 0, 0), (7, 1, 2), (7, 2, 3), (7, 3, 0)];
    for (technique, kind, used) in cases {
        for reading in ["0", "0.001", "7.5", "8785", "99999999999.999", "00000000000.000"] {
            let fields =
                format!("1,2,3,4,5,{technique},6,{kind},7,8,{reading},{reading},{reading}");
            let reading_text = Conversion::read(format!("1,1,1\r\n{fields}\r\n").as_bytes());
            tally.expect_accepted(&reading_text);
            let stored = reading.parse::<f64>().unwrap().to_le_bytes();
            let sheet = reading_text.run_proved().expect("the memory is kept").bytes().to_vec();
            for (index, at) in [48, 56, 64].into_iter().enumerate() {
                let expected = if index < used { stored } else { [0; 8] };
                assert_eq!(sheet[at..at + 8], expected, "{fields}");
            }
        }
    }
}

#[test]
fn every_room_of_a_sheet_that_is_read() {
    let mut tally = Tally::new("every_room_of_a_sheet_that_is_read");
    for lines in [0, 1, 2] {
        let reading = Conversion::read(&Text::of_sheet(&sheet_of(lines).bytes()).bytes());
        every_room(&mut tally, &reading, 16 + 64 * lines);
    }
}

#[test]
fn every_room_of_a_text_that_is_written() {
    let mut tally = Tally::new("every_room_of_a_text_that_is_written");
    for lines in [0, 1, 2] {
        let writing = Conversion::write(&sheet_of(lines).bytes());
        every_room(&mut tally, &writing, bytes_needed(&writing));
    }
}

fn every_room(tally: &mut Tally, conversion: &Conversion, need: usize) {
    for room in thinned((0..need + 40).collect()) {
        let conversion = conversion.clone().with_room(room);
        match room >= need {
            true => tally.expect_accepted(&conversion),
            false => tally.expect_refused(&conversion, 3, 0),
        }
    }
}

/// The longest text and sheet that there are, at their need and next to it.
#[test]
fn the_longest_texts_and_sheets() {
    let mut tally = Tally::new("the_longest_texts_and_sheets");
    let codes = u16::MAX;
    let line = Line {
        place: [codes; 4],
        scale: codes,
        reuse: codes,
        material: u64::MAX,
        grades: [u8::MAX; 3],
        ..Line::direct(u64::MAX).treated(codes, 2, [10_000_000.0, 10_000.0, 8784.0])
    };
    let writing = Conversion::write(&Sheet::new(3, 255, 3, vec![line; 128]).bytes());
    let need = bytes_needed(&writing);
    assert_eq!(need, 16_777, "no written text is longer");
    assert!(need <= MOST_SHEET_TEXT);
    let reading = Conversion::read(writing.run_plain().bytes());
    for (conversion, need) in [(writing, need), (reading, MOST_SHEET)] {
        tally.expect_accepted(&conversion.clone().with_room(need));
        tally.expect_accepted(&conversion.clone().with_room(70_000));
        tally.expect_refused(&conversion.clone().with_room(need - 1), 3, 0);
        tally.expect_refused(&conversion.with_room(0), 3, 0);
    }
}

/// 12 comes before 3, for the reader and for the desk; 1 comes before both.
#[test]
fn the_order_of_whole_files_on_text() {
    let mut tally = Tally::new("the_order_of_whole_files_on_text");
    let malformed = format!("{TEXT}\r\n").into_bytes();
    let over_the_reuse = TEXT.replace(",333,", ",1001,").into_bytes();
    for (is_malformed, room) in every_two(&[true, false], &[0, 143, 144, 200]) {
        let reading = Conversion::read(if is_malformed { &malformed[..] } else { &over_the_reuse });
        let reading = reading.with_room(room);
        match (is_malformed, room >= 144) {
            (true, _) => tally.expect_refused(&reading, 12, 0),
            (false, false) => tally.expect_refused(&reading, 3, 0),
            (false, true) => tally.expect_accepted(&reading),
        }
    }
    for (book, (is_malformed, cells)) in every_two(
        &[bad_book(), book().bytes()],
        &every_two(&[true, false], &[(0, 15), (15, 14), (15, 15)]),
    ) {
        let text = if is_malformed { &malformed } else { &over_the_reuse };
        let case = TextCase::with_room(book.clone(), text.clone()).with_lengths(cells.0, cells.1);
        let (number, line) = match (book == bad_book(), is_malformed, cells == (15, 15)) {
            (true, _, _) => (1, 0),
            (_, true, _) => (12, 0),
            (_, _, false) => (3, 0),
            _ => (5, 1),
        };
        tally.expect_refused(&case, number, line);
    }
}

/// 2, then 9, then 3, for the writer.
#[test]
fn the_order_of_the_writer() {
    let mut tally = Tally::new("the_order_of_the_writer");
    let faults = every_two(&[true, false], &[true, false]);
    for ((is_malformed, is_bad), is_short) in every_two(&faults, &[true, false]) {
        let mut sheet = sheet_of(3);
        sheet.medium = if is_malformed { 4 } else { 1 };
        sheet.lines[1].readings[0] = if is_bad { f64::NAN } else { 1.0 }.to_bits();
        let writing = Conversion::write(&sheet.bytes());
        let writing = if is_short { writing.with_room(5) } else { writing };
        match (is_malformed, is_bad, is_short) {
            (true, _, _) => tally.expect_refused(&writing, 2, 0),
            (_, true, _) => tally.expect_refused(&writing, 9, 2),
            (_, _, true) => tally.expect_refused(&writing, 3, 0),
            _ => tally.expect_accepted(&writing),
        }
    }
}

/// Each refusal of a line, from a text.
#[test]
fn every_refusal_of_a_line() {
    let mut tally = Tally::new("every_refusal_of_a_line");
    let text = Text::of(TEXT);
    tally.expect_accepted(&TextCase::with_room(book().bytes(), text.bytes()));
    let faults = [
        (8, "1000000001", 4),
        (9, "18446744073709551615", 4),
        (6, "1001", 5),
        (6, "65535", 5),
        (3, "3", 6),
        (5, "9", 7),
        (7, "0", 8),
        (7, "1", 8),
        (10, "10000000.001", 9),
        (11, "99999999999.999", 9),
        (12, "8784.001", 9),
        (11, "0.000", 10),
        (12, "0", 10),
        (10, "1800.001", 11),
    ];
    for (field, value, number) in faults {
        let case = TextCase::with_room(book().bytes(), text.with_field(2, field, value).bytes());
        tally.expect_refused(&case, number, 2);
    }
}

#[test]
fn every_two_lengths_of_results() {
    let mut tally = Tally::new("every_two_lengths_of_results");
    let lengths: Vec<usize> = (0..=19).collect();
    for (exact_len, shown_len) in thinned(every_two(&lengths, &lengths)) {
        let case =
            TextCase::with_room(book().bytes(), TEXT.into()).with_lengths(exact_len, shown_len);
        match exact_len >= 15 && shown_len >= 15 {
            true => tally.expect_accepted(&case),
            false => tally.expect_refused(&case, 3, 0),
        }
    }
}

/// Each example there and back, and the text that it has beside its sheet.
#[test]
fn every_example() {
    let mut tally = Tally::new("every_example_as_text");
    let examples = Path::new(env!("CARGO_MANIFEST_DIR")).join("../examples");
    let entries = fs::read_dir(examples).expect("the examples folder is there").flatten();
    let folders: Vec<_> =
        entries.map(|e| e.path()).filter(|f| f.join("sheet.bin").exists()).collect();
    assert!(folders.len() >= 10, "the manuals' examples and the others are there");
    for folder in folders {
        let case = Case::read(&folder).expect("the example has its files");
        let text = TextCase::read(&folder).expect("the example has a text too");
        let outcome = tally.compare(&text);
        assert_eq!(outcome, tally.compare(&case), "{}", folder.display());
        let [text, sheet] = [text.run_plain(), run_plain(&case)];
        let cells = 5 * (case.line_count() + 1);
        assert_eq!(text.exact[..cells], sheet.exact[..cells], "{}", folder.display());
        tally.expect_accepted(&ThereAndBack(case));
    }
}
