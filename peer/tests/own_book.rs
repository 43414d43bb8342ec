//! The works' own book beside the published one: which row answers a line, which
//! techniques go with it, and what both books do in bundles and texts. Figures are
//! worked by the tests themselves.

use peer::compare::{at_address, run_proved, thinned, BundleCase, Case, RowCase, Tally, TextCase};
use peer::make::dust::{self, GAS, PARTICULATES};
use peer::make::generate::key_of;
use peer::make::inspect::asked;
use peer::make::text::Text;
use peer::make::{every_two, kiln, Book, Bundle, Line, Row, Sheet, Technique};

const SCALE: u16 = 3;
const PRODUCT: u64 = 1_000_003;
const MATERIAL: u64 = 2_000_029;

/// The four rows that may answer a line of one scale, in the order in which they are
/// asked: own and published, each for the scale and for all scales. Each has a
/// coefficient of its own, and not all go by product.
fn candidates() -> [Row; 4] {
    let row = |scale, digits, basis| Row { scale, basis, ..Row::plain(1, 1, digits) };
    [row(SCALE, 11, 1), row(0, 13, 2), row(SCALE, 17, 2), row(0, 19, 1)]
}

/// Rows of other keys around the candidates, which no line of theirs may find.
fn others() -> Vec<Row> {
    let row = Row::plain(1, 1, 23);
    let other = |place, scale, medium, pollutant| Row { place, scale, medium, pollutant, ..row };
    vec![
        other([3239, 9, 9, 9], SCALE, 1, 1),
        other([3240, 1, 1, 0], 0, 1, 1),
        other([3240, 1, 1, 1], 0, 1, 2),
        other([3240, 1, 1, 1], SCALE - 1, 1, 1),
        other([3240, 1, 1, 1], SCALE, 2, 1),
        other([3240, 1, 1, 1], SCALE + 2, 1, 1),
        other([3241, 0, 0, 0], SCALE, 1, 1),
    ]
}

fn book_of(mut rows: Vec<Row>) -> Book {
    rows.sort_by_key(key_of);
    Book { rows, ..Book::default() }
}

/// Of the candidates those whose bit is set, the first two in the own book.
fn books(present: usize, around: &[Row]) -> [Book; 2] {
    let chosen = |places: [usize; 2]| {
        let there = places.into_iter().filter(|place| present >> place & 1 == 1);
        book_of(there.map(|place| candidates()[place]).chain(around.to_vec()).collect())
    };
    [chosen([0, 1]), chosen([2, 3])]
}

/// Which candidate answers by the words of the rule; those of the exact scale answer
/// no line of another scale.
fn answer(present: usize, scale: u16) -> Option<usize> {
    let is_asked = |place: &usize| scale == SCALE || place % 2 == 1;
    (0..4).filter(|place| present >> place & 1 == 1).find(is_asked)
}

fn line(scale: u16) -> Line {
    Line { scale, material: MATERIAL, ..Line::direct(PRODUCT) }
}

/// What the row generates: kg/t with whole kilograms.
fn generated(row: &Row) -> u64 {
    row.digits as u64 * 100_000 * if row.basis == 1 { PRODUCT } else { MATERIAL }
}

fn exact(case: &Case) -> Vec<u64> {
    run_proved(case).expect("the memory around is kept").exact
}

/// Every combination of the four rows, for lines of their scale, of scale 0 and of
/// another one.
#[test]
fn every_combination_of_rows() {
    let mut tally = Tally::new("every_combination_of_rows");
    let around = [vec![], others(), others()[..3].to_vec(), others()[3..].to_vec()];
    let arounds = every_two(&around, &[SCALE, 0, SCALE + 1]);
    for (present, (around, scale)) in every_two(&(0..16).collect::<Vec<_>>(), &arounds) {
        let [own, published] = books(present, &around);
        let sheet = Sheet::new(1, 1, 1, vec![line(scale)]);
        let case = Case::of(&published, &sheet).with_own(own.bytes());
        let Some(place) = answer(present, scale) else {
            tally.expect_refused(&case, 6, 1);
            continue;
        };
        tally.expect_accepted(&case);
        let expected = generated(&candidates()[place]);
        assert_eq!(exact(&case)[..5], [expected, 0, 0, expected, 0], "{present:04b} {scale}");
    }
}

/// The same rows as the inspector sees them: the number in its book, and the bytes.
#[test]
fn every_combination_of_rows_on_the_screen() {
    let mut tally = Tally::new("every_combination_of_rows_on_the_screen");
    let arounds = every_two(&[vec![], others()], &[SCALE, 0, SCALE + 1]);
    for (present, (around, scale)) in every_two(&(0..16).collect::<Vec<_>>(), &arounds) {
        let [own, published] = books(present, &around);
        let asked = asked(([3240, 1, 1, 1], scale, 1, 1));
        let case = RowCase::with_room(published.bytes(), asked).with_own(own.bytes());
        tally.expect_accepted(&case);
        let inspected = case.run_proved().expect("the memory around is kept");
        let Some(place) = answer(present, scale) else {
            assert_eq!((inspected.number, inspected.copied.bytes()), (0, &[][..]));
            continue;
        };
        let (book, before) = [(&own, 0), (&published, 1024)][place / 2];
        let key = key_of(&candidates()[place]);
        let index = book.rows.iter().position(|row| key_of(row) == key).expect("it is there");
        assert_eq!(inspected.number, before + index as u64 + 1, "{present:04b} {scale}");
        assert_eq!(inspected.copied.bytes(), &book.bytes()[16 + 24 * index..][..24]);
    }
}

/// All lines in one sheet: each is searched by itself.
#[test]
fn both_books_in_one_sheet() {
    let mut tally = Tally::new("both_books_in_one_sheet");
    let scales = [SCALE, 0, SCALE + 1, SCALE, SCALE + 1, 0];
    for present in 0..16 {
        let [own, published] = books(present, &others());
        let sheet = Sheet::new(1, 1, 1, scales.map(line).to_vec());
        let case = Case::of(&published, &sheet).with_own(own.bytes());
        let answers = scales.map(|scale| answer(present, scale));
        if let Some(refused) = answers.iter().position(Option::is_none) {
            tally.expect_refused(&case, 6, refused as u32 + 1);
            continue;
        }
        tally.expect_accepted(&case);
        let expected = answers.into_iter().flatten().map(|place| generated(&candidates()[place]));
        let exact = exact(&case).into_iter().step_by(5).take(scales.len());
        assert!(exact.eq(expected), "{present:04b}");
    }
}

/// Rows of all units and places, each in the own book before one of 1 kg/t.
#[test]
fn every_unit_of_an_own_row() {
    let mut tally = Tally::new("every_unit_of_an_own_row");
    let published = book_of(vec![Row::plain(1, 1, 1)]);
    for (unit, places) in every_two(&[1, 2, 3], &[0, 1, 2, 3, 4, 5]) {
        if unit == 1 && places > 2 {
            continue;
        }
        let row = Row { unit, places, ..Row::plain(1, 1, 1) };
        let tenfolds = [2, 5, 8][unit as usize - 1] - places as u32;
        let sheet = Sheet::new(1, 1, 1, vec![line(0)]);
        let case = Case::of(&published, &sheet).with_own(book_of(vec![row]).bytes());
        tally.expect_accepted(&case);
        assert_eq!(exact(&case)[0], 10u64.pow(tenfolds) * PRODUCT);
    }
}

/// Lists of both books with the codes 1 to 6; a code's efficiency differs where both
/// have it. The own list goes by energy and the published one by hours.
const OWN_LIST: [(u16, u16); 2] = [(2, 250), (3, 750)];
const PUBLISHED_LIST: [(u16, u16); 3] = [(1, 900), (2, 500), (5, 100)];

fn book_with_list(place: [u16; 4], k_rule: u8, list: &[(u16, u16)], before: usize) -> Book {
    let unused = Technique { code: 6, efficiency: 1000 };
    let listed = list.iter().map(|&(code, efficiency)| Technique { code, efficiency });
    let row = Row { place, ..Row::plain(GAS, PARTICULATES, 10) };
    Book {
        rows: vec![row.with_techniques(k_rule, before as u16, list.len() as u16)],
        techniques: std::iter::repeat_n(unused, before).chain(listed).collect(),
        gaps: [0, 2 * before, before],
    }
}

/// The row of the other book, if it is there, changes nothing for a technique.
#[test]
fn techniques_come_from_the_book_of_the_row() {
    let mut tally = Tally::new("techniques_come_from_the_book_of_the_row");
    let (here, elsewhere) = ([3240, 1, 1, 1], [3240, 1, 1, 2]);
    for ((own_place, code), (before, after)) in
        every_two(&every_two(&[here, elsewhere], &[0, 1, 2, 3, 4, 5, 6]), &[(0, 0), (1, 0), (0, 2)])
    {
        let own = book_with_list(own_place, 2, &OWN_LIST, before);
        let published = book_with_list(here, 1, &PUBLISHED_LIST, after);
        let line = Line::direct(1000).treated(code, 3, [0.0; 3]);
        let case = Case::of(&published, &dust::sheet(vec![line])).with_own(own.bytes());
        let list = if own_place == here { &OWN_LIST[..] } else { &PUBLISHED_LIST };
        let listed = list.iter().find(|listed| listed.0 == code);
        match listed.or((code == 0).then_some(&(0, 0))) {
            None => tally.expect_refused(&case, 7, 1),
            Some(&(_, efficiency)) => {
                tally.expect_accepted(&case);
                assert_eq!(exact(&case)[1], 1_000_000 * efficiency as u64, "code {code}");
            }
        }
    }
}

/// The k rule is that of the row: a reading that the other book's row would take is
/// refused.
#[test]
fn k_rules_come_from_the_row() {
    let mut tally = Tally::new("k_rules_come_from_the_row");
    let (here, elsewhere) = ([3240, 1, 1, 1], [3240, 1, 1, 2]);
    let readings = [[0.0; 3], [2000.0, 8000.0, 0.0], [450.0, 0.5, 3600.0], [0.0; 3]];
    for (own_place, kind) in every_two(&[here, elsewhere], &[0, 1, 2, 3]) {
        let own = book_with_list(own_place, 2, &OWN_LIST, 0);
        let published = book_with_list(here, 1, &PUBLISHED_LIST, 0);
        let line = Line::direct(1000).treated(2, kind, readings[kind as usize]);
        let case = Case::of(&published, &dust::sheet(vec![line])).with_own(own.bytes());
        let is_own = own_place == here;
        let (rule, efficiency) = if is_own { (2, 250) } else { (1, 500) };
        if kind != rule && kind != 3 {
            tally.expect_refused(&case, 8, 1);
            continue;
        }
        tally.expect_accepted(&case);
        let quarters = if kind == 3 { 4 } else { 1 };
        assert_eq!(exact(&case)[1], 1_000_000 * efficiency * quarters / 4);
    }
}

/// A row without techniques has none, whatever the other book's row has.
#[test]
fn rows_without_techniques() {
    let mut tally = Tally::new("rows_without_techniques");
    let listed = book_with_list([3240, 1, 1, 1], 1, &PUBLISHED_LIST, 0);
    let bare = book_of(vec![Row::plain(GAS, PARTICULATES, 10)]);
    // The block may be there without a row that names it.
    let block_alone = Book { techniques: listed.techniques.clone(), ..bare.clone() };
    for (code, kind) in every_two(&[1, 2, 5], &[0, 1, 2, 3]) {
        let line = Line::direct(1000).treated(code, kind, [1.0; 3]);
        let sheet = dust::sheet(vec![Line::direct(7), line]);
        [&bare, &block_alone].iter().for_each(|own| {
            tally.expect_refused(&Case::of(&listed, &sheet).with_own(own.bytes()), 7, 2);
        });
    }
    let throughout = dust::sheet(vec![Line::direct(1000).treated(5, 3, [0.0; 3])]);
    let case = Case::of(&bare, &throughout).with_own(listed.bytes());
    tally.expect_accepted(&case);
    assert_eq!(exact(&case)[1], 100_000_000);
}

/// 6 only where both have no row; a row of the own book for another medium or
/// pollutant is none.
#[test]
fn no_row_only_where_neither_has_one() {
    let mut tally = Tally::new("no_row_only_where_neither_has_one");
    let rows = |process: u16| Row { place: [3240, 1, 1, process], ..Row::plain(1, 1, 5) };
    let own = book_of(vec![rows(1), rows(2), Row { medium: 2, ..rows(4) }]);
    let published = book_of(vec![rows(2), rows(3), Row { pollutant: 2, ..rows(4) }]);
    for process in 0..7 {
        let line = Line { place: [3240, 1, 1, process], ..Line::direct(7) };
        let sheet = Sheet::new(1, 1, 1, vec![Line { place: [3240, 1, 1, 1], ..line }, line]);
        let case = Case::of(&published, &sheet).with_own(own.bytes());
        match process {
            1..=3 => tally.expect_accepted(&case),
            _ => tally.expect_refused(&case, 6, 2),
        }
    }
}

/// Dust goes by the fugitive table, whichever book has the row.
#[test]
fn the_measured_kilns() {
    let mut tally = Tally::new("the_measured_kilns");
    let lines = vec![kiln::first_kiln(1000), kiln::second_kiln(3000), kiln::not_measured(5000)];
    let case = kiln::case(lines);
    tally.expect_accepted(&case);
    let dust = (786 + 1100 + 1220) * 100;
    let row = |coefficient: u64, product: u64, removed: u64| {
        let (duct, fugitive) = (coefficient * product, dust * product);
        [duct + fugitive, removed, 0, duct - removed, fugitive]
    };
    let rows = [
        row(kiln::FIRST_KILN, 1000, kiln::FIRST_KILN * 1000 * 800 / 2000),
        row(kiln::SECOND_KILN, 3000, kiln::SECOND_KILN * 3000 * 100 / 2000),
        row(kiln::PUBLISHED, 5000, kiln::PUBLISHED * 5000 * 990 * 7000 / 7_920_000),
    ];
    assert_eq!(exact(&case)[..15], rows.concat());
}

/// The own book at every address modulo 16, which the figures don't depend on.
#[test]
fn own_books_at_every_address() {
    let mut tally = Tally::new("own_books_at_every_address");
    let case = kiln::case(vec![kiln::first_kiln(7), kiln::not_measured(8)]);
    tally.expect_accepted(&case);
    let expected = exact(&case)[..15].to_vec();
    let mut area = vec![0x5C; case.own.len() + 32];
    for address in 0..16 {
        let own = at_address(&mut area, &case.own, address);
        let (mut exact, mut shown) = ([7; 15], [8; 15]);
        let Case { book, fugitive, sheet, .. } = &case;
        let outcome = checkraven::account(own, book, fugitive, sheet, &mut exact, &mut shown);
        assert!(outcome.is_accepted());
        assert_eq!(exact[..], expected);
    }
}

fn kiln_sheets() -> Vec<Sheet> {
    let [first, second, third] = [kiln::first_kiln, kiln::second_kiln, kiln::not_measured];
    let nowhere = Line { place: [3240, 1, 1, 8], ..first(1) };
    vec![
        dust::sheet(vec![first(7), third(8)]),
        dust::sheet(vec![second(9)]),
        dust::sheet(vec![third(10), second(11)]),
        dust::sheet(vec![first(12), nowhere]),
        dust::sheet(vec![Line { technique: 1, ..first(13) }]),
        dust::sheet(vec![Line { technique: 7, ..third(14) }]),
        dust::sheet(vec![third(15)]),
    ]
}

fn kiln_bundle(own: Vec<u8>) -> BundleCase {
    let sheets: Vec<Vec<u8>> = kiln_sheets().iter().map(Sheet::bytes).collect();
    let case = BundleCase::of(&dust::book().bytes(), &Bundle::of(15, &sheets));
    case.with_own(own).with_fugitive(dust::table().bytes())
}

/// Both books serve all sheets of a bundle.
#[test]
fn both_books_across_sheets() {
    let mut tally = Tally::new("both_books_across_sheets");
    let case = kiln_bundle(kiln::own().bytes());
    let expected = [(0, 0), (0, 0), (0, 0), (6, 2), (7, 1), (7, 1), (0, 0)];
    tally.expect_sheets(&case, &expected);
    let filled = case.run_proved().expect("the memory around is kept");
    let duct = |cell: usize| filled.exact[cell] - filled.exact[cell + 4];
    let expected =
        [(0, kiln::FIRST_KILN * 7), (5, kiln::PUBLISHED * 8), (15, kiln::SECOND_KILN * 9)];
    let further = [(30, kiln::PUBLISHED * 10), (35, kiln::SECOND_KILN * 11)];
    for (cell, generated) in expected.into_iter().chain(further) {
        assert_eq!(duct(cell), generated, "cell {cell}");
    }
}

/// A bad own book is refused for each sheet, as a bad published one is, and not where
/// there is no sheet; 16 and the bundle's own 3 come before it.
#[test]
fn a_bad_own_book_is_refused_for_each_sheet() {
    let mut tally = Tally::new("a_bad_own_book_is_refused_for_each_sheet");
    let mut bad = kiln::own();
    bad.rows[1].basis = 3;
    for own in [vec![], bad.bytes(), vec![0; 16]] {
        let case = kiln_bundle(own.clone());
        tally.expect_sheets(&case, &[(1, 0); 7]);
        let bad_table = BundleCase { fugitive: vec![], ..case.clone() };
        tally.expect_sheets(&bad_table, &[(1, 0); 7]);
        let both_bad = BundleCase { book: vec![], ..case.clone() };
        tally.expect_sheets(&both_bad, &[(1, 0); 7]);
        let no_cells = BundleCase::of(&dust::book().bytes(), &Bundle::of(0, &[vec![], vec![]]));
        tally.expect_sheets(&no_cells.with_own(own.clone()), &[(1, 0); 2]);
        let empty = BundleCase::of(&dust::book().bytes(), &Bundle::of(15, &[]));
        tally.expect_sheets(&empty.with_own(own), &[]);
        let (cells, outcomes) = (case.exact_len, case.outcomes_len);
        tally.expect_refused(&case.clone().with_lengths(104, cells, outcomes), 3, 0);
        let malformed = BundleCase { bundle: vec![0; 12], ..case };
        tally.expect_refused(&malformed, 16, 0);
    }
}

/// Each sheet of the bundle as a text, with both books.
#[test]
fn texts_under_both_books() {
    let mut tally = Tally::new("texts_under_both_books");
    let expected = [(0, 0), (0, 0), (0, 0), (6, 2), (7, 1), (7, 1), (0, 0)];
    for (sheet, (number, line)) in kiln_sheets().iter().zip(expected) {
        let text = Text::of_sheet(&sheet.bytes()).bytes();
        let case = TextCase::with_room(dust::book().bytes(), text).with_own(kiln::own().bytes());
        let case = case.with_fugitive(dust::table().bytes());
        match number {
            0 => tally.expect_accepted(&case),
            _ => tally.expect_refused(&case, number, line),
        }
        let filled = case.run_proved().expect("the memory around is kept");
        assert_eq!(filled.exact[..15], exact(&case.with_binary_sheet())[..15]);
        let bad_own = TextCase { own: vec![], text: vec![], ..case };
        tally.expect_refused(&bad_own, 1, 0);
    }
}

/// Both books full: every second place is in the own book, at the exact scale, for
/// all scales, or as one of both.
#[test]
fn two_full_books() {
    let mut tally = Tally::new("two_full_books");
    let row = |index: u16, scale, digits| Row {
        place: [3400, 1 + index / 32, 1 + index % 32, 1],
        scale,
        ..Row::plain(1, 1, digits)
    };
    let published = book_of((0..1024).map(|index| row(index, 0, 700)).collect());
    let own_rows = |index: u16| [row(2 * index, 2 * (index % 2), 100), row(2 * index, 3, 200)];
    let own = book_of((0..512).flat_map(own_rows).collect());
    for (index, scale) in thinned(every_two(&(0..1024).collect::<Vec<u16>>(), &[0, 2, 3])) {
        let Row { place, .. } = row(index, 0, 1);
        let line = Line { place, scale, ..Line::direct(1) };
        let case = Case::of(&published, &Sheet::new(1, 1, 1, vec![line])).with_own(own.bytes());
        tally.expect_accepted(&case);
        // Own rows stand at scale 3, and at 0 or 2 by turns.
        let digits = match (index % 2, scale) {
            (1, _) => 700,
            (_, 3) => 200,
            _ if index % 4 == 0 || scale == 2 => 100,
            _ => 700,
        };
        assert_eq!(exact(&case)[0], digits * 100_000, "place {index} scale {scale}");
    }
}
