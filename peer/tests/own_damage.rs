//! Own books that are changed, cut, made longer or without form, and the order of
//! refusals with two books. An own book is malformed where the same bytes are as the
//! published one.

use checkraven::Outcome;
use peer::compare::{limited, thinned, Case, RowCase, Tally, TextCase};
use peer::make::damage::{damage_book, own_length};
use peer::make::dust::{self, GAS, PARTICULATES};
use peer::make::generate::{self, Size};
use peer::make::inspect::asked;
use peer::make::text::Text;
use peer::make::{any_case, every_two, kiln, Book, Fugitive, Line, Random, Row, Sheet, Technique};

const BOOK_MALFORMED: Outcome = Outcome::Refused { number: 1, line: 0 };

/// The measured kilns in an own book with gaps everywhere.
fn small_case() -> Case {
    let own = Book { gaps: [2, 3, 1], ..kiln::own() };
    let lines = vec![kiln::first_kiln(1001), kiln::not_measured(17), kiln::second_kiln(30_003)];
    kiln::case(lines).with_own(own.bytes())
}

/// The case's own book as the published one, under a sheet without lines.
fn as_published(case: &Case) -> Case {
    Case::with_room(case.own.clone(), Sheet::new(1, 1, 1, vec![]).bytes())
}

/// The own book of a case with a good published one: 1 just where it would be so as
/// the published one; then neither book has a row on the screen.
fn look_at(tally: &mut Tally, case: &Case) {
    let is_malformed = tally.compare(case) == BOOK_MALFORMED;
    assert_eq!(tally.compare(&as_published(case)) == BOOK_MALFORMED, is_malformed);
    let published_row = asked(([3240, 1, 1, 3], 0, GAS, PARTICULATES));
    let on_the_screen = RowCase::with_room(case.book.clone(), published_row);
    let on_the_screen = on_the_screen.with_own(case.own.clone());
    tally.expect_accepted(&on_the_screen);
    let inspected = on_the_screen.run_proved().expect("the memory around is kept");
    assert_eq!(inspected.number == 0, is_malformed, "the published row is told");
}

#[test]
fn the_small_case_is_accepted() {
    let mut tally = Tally::new("the_small_case_is_accepted");
    tally.expect_accepted(&small_case());
    look_at(&mut tally, &small_case());
}

#[test]
fn every_other_value_of_every_byte_of_the_own_book() {
    let mut tally = Tally::new("every_other_value_of_every_byte_of_the_own_book");
    let mut case = small_case();
    let values: Vec<u8> = (1..=255).collect();
    let places: Vec<usize> = (0..case.own.len()).collect();
    for (at, turn) in thinned(every_two(&places, &values)) {
        case.own[at] ^= turn;
        look_at(&mut tally, &case);
        case.own[at] ^= turn;
    }
}

/// The rows of the own book as the inspector asks for them, whatever its bytes are.
#[test]
fn every_changed_byte_on_the_screen() {
    let mut tally = Tally::new("every_changed_byte_on_the_screen");
    let Case { mut own, book, .. } = small_case();
    let keys = [([3240, 1, 1, 1], kiln::SCALE, 2, 3), ([3240, 1, 1, 2], 0, 2, 3)].map(asked);
    let turns = every_two(&[1, 2, 4, 8, 16, 32, 64, 128, 255], &keys);
    let places: Vec<usize> = (0..own.len()).collect();
    for (at, (turn, key)) in thinned(every_two(&places, &turns)) {
        own[at] ^= turn;
        tally.agree(&RowCase::with_room(book.clone(), key).with_own(own.clone()));
        own[at] ^= turn;
    }
}

/// With the length that they were made with, and with their own.
#[test]
fn every_shorter_and_many_longer_own_books() {
    let mut tally = Tally::new("every_shorter_and_many_longer_own_books");
    let whole = small_case();
    let lengths = (0..whole.own.len() + 70).filter(|&length| length != whole.own.len());
    for (length, fixed) in thinned(every_two(&lengths.collect::<Vec<_>>(), &[false, true])) {
        let mut case = whole.clone();
        case.own.resize(length, 0xA7);
        if fixed {
            own_length(&mut case.own);
        }
        look_at(&mut tally, &case);
        if !fixed {
            tally.expect_refused(&case, 1, 0);
        }
    }
}

#[test]
fn every_header_field_at_edges() {
    let mut tally = Tally::new("every_header_field_at_edges");
    let whole = small_case();
    let length = whole.own.len() as u64;
    let near = (0..length + 3).chain((0..30).map(|back| u32::MAX as u64 - back));
    let values: Vec<u64> = near.chain((0..32).map(|power| 1 << power)).collect();
    let fields = [(0, 4), (4, 2), (6, 2), (8, 4), (12, 4)];
    for ((at, width), value) in thinned(every_two(&fields, &values)) {
        let mut case = whole.clone();
        case.own[at..at + width].copy_from_slice(&value.to_le_bytes()[..width]);
        look_at(&mut tally, &case);
    }
}

#[test]
fn limits_of_an_own_book() {
    let mut tally = Tally::new("limits_of_an_own_book");
    let rows = |count| {
        let row = |scale| Row { scale, ..Row::plain(GAS, PARTICULATES, 5) };
        Book { rows: (0..count).map(row).collect(), ..Book::default() }
    };
    let techniques =
        |count| Book { techniques: vec![Technique { code: 0, efficiency: 0 }; count], ..rows(1) };
    let long = |more, gap| {
        let mut book = kiln::own();
        book.gaps[gap] = 65_536 - book.bytes().len() + more;
        book
    };
    let taken = [rows(0), rows(1024), techniques(4096), long(0, 0), long(0, 1), long(0, 2)];
    let over = [rows(1025), techniques(4097), long(1, 0), long(1, 1), long(1, 2)];
    let case = |own: &Book| dust::case(vec![Line::direct(7)]).with_own(own.bytes());
    taken.iter().for_each(|own| tally.expect_accepted(&case(own)));
    over.iter().for_each(|own| tally.expect_refused(&case(own), 1, 0));
    taken.iter().chain(&over).for_each(|own| look_at(&mut tally, &case(own)));
}

#[test]
fn many_damages_to_own_books() {
    let mut tally = Tally::new("many_damages_to_own_books");
    let mut random = Random::new(91);
    let most = Size { rows: 12, techniques: 20, lines: 6 };
    for _ in 0..limited(20_000) {
        let mut case = generate::case_up_to(&mut random, most);
        damage_book(&mut random, &mut case.own);
        let is_malformed = tally.compare(&case) == BOOK_MALFORMED;
        assert_eq!(tally.compare(&as_published(&case)) == BOOK_MALFORMED, is_malformed);
    }
}

#[test]
fn own_books_without_form() {
    let mut tally = Tally::new("own_books_without_form");
    let mut random = Random::new(92);
    for _ in 0..limited(10_000) {
        let mut case = small_case();
        let length = random.index(120);
        case.own = random.bytes(length);
        if random.chance(70) {
            own_length(&mut case.own);
        }
        if random.chance(70) && length >= 16 {
            case.own[4..16].fill_with(|| random.pick(&[0, 0, 0, 1, 2, 16, 40]));
        }
        look_at(&mut tally, &case);
    }
}

/// A malformed book of either sort is 1 with line 0, whatever else is lent.
#[test]
fn a_bad_book_beside_everything() {
    let mut tally = Tally::new("a_bad_book_beside_everything");
    let mut random = Random::new(93);
    let mut bad = kiln::own();
    bad.rows[0].medium = 0;
    let bad = bad.bytes();
    for _ in 0..limited(3_000) {
        let case = any_case(&mut random);
        tally.expect_refused(&Case { own: bad.clone(), ..case.clone() }, 1, 0);
        tally.expect_refused(&Case { book: bad.clone(), ..case.clone() }, 1, 0);
        tally.expect_refused(&Case { own: bad.clone(), book: bad.clone(), ..case }, 1, 0);
    }
}

/// A case as its parts, of which any may be spoiled. The own book answers its second
/// line, and the published one has a row for that too.
struct Parts {
    own: Book,
    book: Book,
    table: Fugitive,
    sheet: Sheet,
    cells: usize,
}

impl Parts {
    fn with(line: Line, faults: &[Fault]) -> Case {
        let direct = Line { place: [3240, 1, 1, 3], ..Line::direct(11) };
        let sheet = dust::sheet(vec![direct, line, direct]);
        let (book, table) = (dust::book(), dust::table());
        let mut parts = Parts { own: kiln::own(), book, table, sheet, cells: 20 };
        faults.iter().for_each(|fault| (fault.spoil)(&mut parts));
        let case = Case::of(&parts.book, &parts.sheet).with_own(parts.own.bytes());
        case.with_fugitive(parts.table.bytes()).with_lengths(parts.cells, parts.cells)
    }

    fn line(&mut self) -> &mut Line {
        &mut self.sheet.lines[1]
    }
}

#[derive(Clone, Copy)]
struct Fault {
    number: u32,
    line: u32,
    spoil: fn(&mut Parts),
}

const fn fault(number: u32, line: u32, spoil: fn(&mut Parts)) -> Fault {
    Fault { number, line, spoil }
}

/// In the order in which they are looked for.
const FAULTS: [Fault; 15] = [
    fault(1, 0, |parts| parts.own.rows[0].medium = 4),
    fault(1, 0, |parts| parts.own.techniques[1].efficiency = 1001),
    fault(1, 0, |parts| parts.own.rows.push(parts.own.rows[0])),
    fault(1, 0, |parts| parts.book.rows[0].medium = 4),
    fault(1, 0, |parts| parts.book.techniques[1].efficiency = 1001),
    fault(13, 0, |parts| parts.table.zero = 1),
    fault(13, 0, |parts| parts.table.entries.swap(0, 1)),
    fault(2, 0, |parts| parts.sheet.unit = 4),
    fault(2, 0, |parts| parts.line().last_zeros[0] = 1),
    fault(3, 0, |parts| parts.cells = 19),
    fault(4, 2, |parts| parts.line().product = 1_000_000_001),
    fault(5, 2, |parts| parts.line().reuse = 1001),
    fault(15, 2, |parts| parts.line().grades[1] = 4),
    fault(6, 2, |parts| {
        let place = parts.line().place;
        parts.own.rows.retain(|row| row.place != place);
        parts.book.rows.retain(|row| row.place != place);
    }),
    fault(14, 2, |parts| {
        let place = parts.line().place;
        parts.table.entries.retain(|entry| entry.place != place);
    }),
];

/// Further ones of the first kiln's line, then of the second's. The technique and the
/// kind are such as the published row would take.
const FIRST_KILN: [Fault; 5] = [
    fault(7, 2, |parts| parts.line().technique = 1),
    fault(8, 2, |parts| parts.line().kind = 1),
    fault(9, 2, |parts| parts.line().readings[2] = f64::NAN.to_bits()),
    fault(10, 2, |parts| parts.line().readings[1] = 0),
    fault(11, 2, |parts| parts.line().readings[0] = 1800.001f64.to_bits()),
];
const SECOND_KILN: [Fault; 4] = [
    fault(7, 2, |parts| parts.line().technique = 2),
    fault(8, 2, |parts| parts.line().kind = 2),
    fault(9, 2, |parts| parts.line().readings[0] = f64::NAN.to_bits()),
    fault(10, 2, |parts| parts.line().readings[1] = 0),
];

/// Each line with each of its faults, and those that are looked for after it.
fn faults_from_each_on() -> Vec<(Line, Vec<Fault>)> {
    let from_each_on = |line, faults: Vec<Fault>| {
        (0..faults.len()).map(move |first| (line, faults[first..].to_vec()))
    };
    let of_the_first = [&FAULTS[..], &FIRST_KILN].concat();
    let of_the_second = [&FAULTS[..], &SECOND_KILN].concat();
    from_each_on(kiln::first_kiln(1_000_001), of_the_first)
        .chain(from_each_on(kiln::second_kiln(2_000_003), of_the_second))
        .collect()
}

/// Each alone; and of every two the first is answered, which mended leaves the second
/// alone. The later one is done first, so that it can't hide the other.
#[test]
fn every_two_refusals() {
    let mut tally = Tally::new("every_two_refusals");
    for (line, faults) in faults_from_each_on() {
        tally.expect_accepted(&Parts::with(line, &[]));
        let first = faults[0];
        tally.expect_refused(&Parts::with(line, &[first]), first.number, first.line);
        faults[1..].iter().for_each(|second| {
            let both = Parts::with(line, &[*second, first]);
            tally.expect_refused(&both, first.number, first.line);
        });
    }
}

/// A line that one of the books has no row for is answered by the other, with its
/// techniques and its k rule: 7 and 8 are then what 6 is not.
#[test]
fn a_row_lost_in_one_book() {
    let mut tally = Tally::new("a_row_lost_in_one_book");
    let lost_own = fault(0, 0, |parts| {
        let place = parts.line().place;
        parts.own.rows.retain(|row| row.place != place);
    });
    let lost_published = fault(0, 0, |parts| {
        let place = parts.line().place;
        parts.book.rows.retain(|row| row.place != place);
    });
    let (first, second) = (kiln::first_kiln(5), kiln::second_kiln(5));
    for line in [first, second] {
        tally.expect_accepted(&Parts::with(line, &[lost_published]));
        tally.expect_refused(&Parts::with(line, &[lost_published, lost_own]), 6, 2);
    }
    tally.expect_refused(&Parts::with(first, &[lost_own]), 7, 2);
    tally.expect_refused(&Parts::with(second, &[lost_own]), 8, 2);
    let by_both = [Line { technique: 2, kind: 3, ..first }, Line { kind: 3, ..second }];
    by_both.iter().for_each(|line| tally.expect_accepted(&Parts::with(*line, &[lost_own])));
}

type TextFault = (u32, fn(&mut TextCase));

/// Whole files of a text sheet: own book, published one, table, text, room.
#[test]
fn the_order_of_whole_files_on_text() {
    let mut tally = Tally::new("the_order_of_whole_files_on_text");
    let sound = small_case();
    let text = Text::of_sheet(&sound.sheet).bytes();
    let spoil: [TextFault; 5] = [
        (1, |case| case.own[0] ^= 1),
        (1, |case| case.book[0] ^= 1),
        (13, |case| case.fugitive[0] ^= 1),
        (12, |case| case.text[0] = b'4'),
        (3, |case| case.shown_len = 19),
    ];
    for broken in 1..1 << spoil.len() {
        let case = TextCase::with_room(sound.book.clone(), text.clone());
        let mut case = case.with_own(sound.own.clone()).with_fugitive(sound.fugitive.clone());
        let chosen = spoil.iter().enumerate().filter(|(place, _)| broken >> place & 1 == 1);
        chosen.clone().for_each(|(_, (_, spoil))| spoil(&mut case));
        let (_, (number, _)) = chosen.clone().next().expect("one at least is broken");
        tally.expect_refused(&case, *number, 0);
    }
}
