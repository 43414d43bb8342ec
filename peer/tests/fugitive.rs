//! Dust that never meets a duct: grades, the factors that they choose, the entry
//! that is found, the fifth column, and the order of refusals.

use peer::compare::{limited, run_plain, run_proved, thinned, BundleCase, Case, Tally};
use peer::make::dust::{book, by_energy, by_hours, case, sheet, table, FACTORS, GRADES};
use peer::make::generate::{self, Size};
use peer::make::{every_two, fugitive, Book, Bundle, Entry, Fugitive, Line, Random, Row, Sheet};
use peer::make::{two_kinds, Technique};

fn exact(case: &Case) -> Vec<u64> {
    run_proved(case).expect("the memory around is kept").exact
}

/// By the words of the rule: the factors that the grades choose, summed, times
/// product; a thousandth of kg/t is 100 units per kilogram.
fn dust(factors: [u16; 9], grades: [u8; 3], product: u64) -> u64 {
    let of_place = |place: usize| match grades[place] {
        0 => 0,
        1 => factors[3 * place],     // good
        2 => factors[3 * place + 1], // middle
        3 => factors[3 * place + 2], // poor
        grade => panic!("there is no grade {grade}"),
    };
    let thousandths: u64 = [0, 1, 2].map(of_place).map(u64::from).iter().sum();
    thousandths * 100 * product
}

#[test]
fn each_byte_as_each_grade() {
    let mut tally = Tally::new("each_byte_as_each_grade");
    let bytes: Vec<u8> = (0..=255).collect();
    let grades = every_two(&bytes, &[[0; 3], GRADES, [3; 3]]);
    for (place, (grade, others)) in thinned(every_two(&[0, 1, 2], &grades)) {
        let mut line = Line { grades: others, ..by_hours(1000) };
        line.grades[place] = grade;
        let case = case(vec![by_hours(7), line, by_energy(8)]);
        match grade <= 3 {
            true => tally.expect_accepted(&case),
            false => tally.expect_refused(&case, 15, 2),
        }
    }
}

fn every_grades() -> Vec<[u8; 3]> {
    let two = every_two(&[0, 1, 2, 3], &[0, 1, 2, 3]);
    every_two(&two, &[0, 1, 2, 3]).into_iter().map(|((a, b), c)| [a, b, c]).collect()
}

/// Document 002's line: 99 % is removed of what the duct has, and the rest of that
/// is discharged, whatever the dust.
#[test]
fn every_combination_of_grades() {
    let mut tally = Tally::new("every_combination_of_grades");
    let products = [0, 1, 3, 999, 198_244_000, 999_999_999, 1_000_000_000];
    for (grades, product) in thinned(every_two(&every_grades(), &products)) {
        let line = Line { grades, ..Line::direct(product).treated(1, 3, [0.0; 3]) };
        let case = case(vec![line]);
        tally.expect_accepted(&case);
        let in_the_duct = 15_000_000 * product;
        let removed = in_the_duct / 1000 * 990;
        let fugitive = dust(FACTORS, grades, product);
        let row = [in_the_duct + fugitive, removed, 0, in_the_duct - removed, fugitive];
        assert_eq!(exact(&case)[..10], [row, row].concat(), "{grades:?} of {product}");
    }
}

/// Each factor has a value of its own, so that no neighbour's is taken.
#[test]
fn each_factor_alone() {
    let mut tally = Tally::new("each_factor_alone");
    let values = [1, 255, 256, 65_535];
    for (index, value) in every_two(&[0, 1, 2, 3, 4, 5, 6, 7, 8], &values) {
        let mut factors = [0; 9];
        factors[index] = value;
        let table = Fugitive::of(&[Entry::plain(factors)]).bytes();
        for grades in thinned(every_grades()) {
            let line = Line { grades, ..Line::direct(1_000_003) };
            let case = Case::of(&book(), &sheet(vec![line])).with_fugitive(table.clone());
            tally.expect_accepted(&case);
            let chosen = grades[index / 3] as usize == 1 + index % 3;
            let expected = if chosen { u64::from(value) * 100 * 1_000_003 } else { 0 };
            assert_eq!(exact(&case)[4], expected, "factor {index} by {grades:?}");
        }
    }
}

/// Dust goes by product, also where the row goes by material.
#[test]
fn dust_goes_by_product() {
    let mut tally = Tally::new("dust_goes_by_product");
    let mut by_material = book();
    by_material.rows[0].basis = 2;
    for (product, material) in every_two(&[0, 5, 1_000_000_000], &[0, 7, 1_000_000_000]) {
        let line = Line { material, grades: GRADES, ..Line::direct(product) };
        let case = Case::of(&by_material, &sheet(vec![line])).with_fugitive(table().bytes());
        tally.expect_accepted(&case);
        let (left, fugitive) = (15_000_000 * material, dust(FACTORS, GRADES, product));
        assert_eq!(exact(&case)[..5], [left + fugitive, 0, 0, left, fugitive]);
    }
}

#[test]
fn the_other_five_bytes_stay_zero() {
    let mut tally = Tally::new("the_other_five_bytes_stay_zero");
    let values: Vec<u8> = (1..=255).collect();
    for (place, value) in thinned(every_two(&[0, 1, 2, 3, 4], &values)) {
        for grades in [[0; 3], GRADES] {
            let mut line = Line { grades, ..by_hours(1000) };
            line.last_zeros[place] = value;
            tally.expect_refused(&case(vec![by_hours(7), line]), 2, 0);
        }
    }
}

/// One row of this pollutant in this medium, without techniques.
fn book_of(medium: u8, pollutant: u8) -> Book {
    Book { rows: vec![Row::plain(medium, pollutant, 7)], ..Book::default() }
}

#[test]
fn grades_only_for_particulates_in_gas() {
    let mut tally = Tally::new("grades_only_for_particulates_in_gas");
    let pollutants: Vec<u8> = (1..=255).collect();
    for (medium, pollutant) in thinned(every_two(&[1, 2, 3], &pollutants)) {
        for grades in [[0, 0, 0], [1, 0, 0], [0, 2, 0], [0, 0, 3], [3, 3, 3]] {
            let line = Line { grades, ..Line::direct(1000) };
            let sheet = Sheet::new(medium, pollutant, 1, vec![Line::direct(1), line]);
            let case = Case::of(&book_of(medium, pollutant), &sheet);
            let case = case.with_fugitive(table().bytes());
            match (medium, pollutant) == (2, 3) || grades == [0; 3] {
                true => tally.expect_accepted(&case),
                false => tally.expect_refused(&case, 15, 2),
            }
        }
    }
}

/// Outside particulates in gas 15 comes after 4 and 5, and before 6 and 14.
#[test]
fn a_grade_elsewhere_beside_other_faults() {
    let mut tally = Tally::new("a_grade_elsewhere_beside_other_faults");
    for (medium, pollutant) in [(1, 3), (3, 3), (1, 1), (2, 4), (2, 2)] {
        let refused = |tally: &mut Tally, book: &Book, line: Line, number| {
            let sheet = Sheet::new(medium, pollutant, 1, vec![line]);
            tally.expect_refused(&Case::of(book, &sheet), number, 1);
        };
        let (book, graded) = (book_of(medium, pollutant), Line { grades: [1; 3], ..by_hours(5) });
        refused(&mut tally, &book, graded, 15);
        refused(&mut tally, &Book::default(), graded, 15);
        refused(&mut tally, &Book::default(), Line { grades: [0; 3], ..graded }, 6);
        refused(&mut tally, &book, Line { reuse: 1001, ..graded }, 5);
        refused(&mut tally, &book, Line { product: 1_000_000_001, ..graded }, 4);
        refused(&mut tally, &book, Line { material: 1_000_000_001, ..graded }, 4);
    }
}

/// A case as its parts, of which any may be spoiled; its second line is by energy.
struct Parts {
    book: Book,
    table: Fugitive,
    sheet: Sheet,
    cells: usize,
}

impl Parts {
    fn sound() -> Self {
        let lines = vec![by_hours(1_000_001), by_energy(2_000_003), by_hours(7)];
        Parts { book: book(), table: table(), sheet: sheet(lines), cells: 20 }
    }

    fn line(&mut self) -> &mut Line {
        &mut self.sheet.lines[1]
    }

    fn with(faults: &[Fault]) -> Case {
        let mut parts = Parts::sound();
        faults.iter().for_each(|fault| (fault.spoil)(&mut parts));
        let case = Case::of(&parts.book, &parts.sheet).with_fugitive(parts.table.bytes());
        case.with_lengths(parts.cells, parts.cells)
    }
}

#[derive(Clone, Copy)]
struct Fault {
    number: u32,
    line: u32,
    spoil: fn(&mut Parts),
}

const fn fault(number: u32, line: u32, spoil: fn(&mut Parts)) -> Fault {
    Fault { number, line, spoil }
}

/// In the order in which they are looked for.
const FAULTS: [Fault; 18] = [
    fault(1, 0, |parts| parts.book.rows[0].medium = 4),
    fault(13, 0, |parts| parts.table.zero = 1),
    fault(13, 0, |parts| parts.table.entries.swap(0, 1)),
    fault(2, 0, |parts| parts.sheet.unit = 4),
    fault(2, 0, |parts| parts.line().last_zeros[0] = 1),
    fault(3, 0, |parts| parts.cells = 19),
    fault(4, 2, |parts| parts.line().material = 1_000_000_001),
    fault(5, 2, |parts| parts.line().reuse = 1001),
    fault(15, 2, |parts| parts.line().grades[0] = 4),
    fault(15, 2, |parts| parts.line().grades[2] = 255),
    fault(6, 2, |parts| parts.book.rows.retain(|row| row.place[3] != 2)),
    fault(14, 2, |parts| parts.table.entries.retain(|entry| entry.place[3] != 2)),
    fault(14, 2, |parts| parts.table.entries[1].scale = 1),
    fault(7, 2, |parts| parts.line().technique = 1),
    fault(8, 2, |parts| parts.line().kind = 1),
    fault(9, 2, |parts| parts.line().readings[0] = f64::NAN.to_bits()),
    fault(10, 2, |parts| parts.line().readings[1] = 0.0004f64.to_bits()),
    fault(11, 2, |parts| parts.line().readings[0] = 1800.001f64.to_bits()),
];

/// Of two faults the earlier is answered, and once it is mended the later.
#[test]
fn every_two_refusals() {
    let mut tally = Tally::new("every_two_refusals");
    tally.expect_accepted(&Parts::with(&[]));
    for (index, earlier) in FAULTS.iter().enumerate() {
        for later in FAULTS[index + 1..].iter().filter(|later| later.number != earlier.number) {
            // The later one is done first, so that it can't hide the other.
            let both = Parts::with(&[*later, *earlier]);
            tally.expect_refused(&both, earlier.number, earlier.line);
            tally.expect_refused(&Parts::with(&[*later]), later.number, later.line);
        }
    }
}

/// The earlier line decides, whatever the numbers.
#[test]
fn refusals_in_two_lines() {
    let mut tally = Tally::new("refusals_in_two_lines");
    let no_entry = Line { place: [3240, 1, 1, 3], technique: 0, ..by_hours(5) };
    let bad_grade = Line { grades: [0, 4, 0], ..by_hours(5) };
    let no_row = Line { place: [3240, 1, 1, 4], ..by_hours(5) };
    let too_much = Line { product: 1_000_000_001, ..by_hours(5) };
    let spoiled = [(14, no_entry), (15, bad_grade), (6, no_row), (4, too_much)];
    let mut without_the_third = table();
    without_the_third.entries.pop();
    for ((number, line), (_, later)) in every_two(&spoiled, &spoiled) {
        let lines = vec![by_hours(7), line, by_energy(8), later];
        let case = Case::of(&book(), &sheet(lines));
        tally.expect_refused(&case.with_fugitive(without_the_third.bytes()), number, 2);
    }
}

/// A line without grades needs no entry, wherever it stands.
#[test]
fn lines_without_grades_need_no_entry() {
    let mut tally = Tally::new("lines_without_grades_need_no_entry");
    let only_the_first = Fugitive::of(&table().entries[..1]).bytes();
    let ungraded = Line { grades: [0; 3], ..by_energy(8) };
    for lines in [vec![ungraded], vec![by_hours(7), ungraded], vec![ungraded, by_hours(7)]] {
        let case = Case::of(&book(), &sheet(lines)).with_fugitive(only_the_first.clone());
        tally.expect_accepted(&case);
    }
    let lines = vec![by_hours(7), ungraded, by_energy(8)];
    let case = Case::of(&book(), &sheet(lines)).with_fugitive(only_the_first);
    tally.expect_refused(&case, 14, 3);
}

const SCALE: u16 = 5;

/// Row and entry are searched for each on their own: the exact scale, or else all
/// scales. An entry of another scale doesn't count.
#[test]
fn scales_of_row_and_entry() {
    let mut tally = Tally::new("scales_of_row_and_entry");
    let scales = [vec![], vec![0], vec![SCALE], vec![0, SCALE], vec![1], vec![1, 9], vec![0, 1]];
    for ((of_rows, of_entries), asked) in every_two(&every_two(&scales, &scales), &[0, SCALE]) {
        let row = |&scale: &u16| Row { scale, ..Row::plain(2, 3, 10 + u32::from(scale)) };
        let entry = |&scale: &u16| Entry { scale, ..Entry::plain([100 + scale; 9]) };
        let book = Book { rows: of_rows.iter().map(row).collect(), ..Book::default() };
        let table = Fugitive { entries: of_entries.iter().map(entry).collect(), ..table() };
        let line = Line { scale: asked, grades: [1, 0, 0], ..Line::direct(1) };
        let case = Case::of(&book, &sheet(vec![line])).with_fugitive(table.bytes());
        let found = |scales: &[u16]| [asked, 0].into_iter().find(|scale| scales.contains(scale));
        let (Some(row), Some(entry)) = (found(&of_rows), found(&of_entries)) else {
            let number = if found(&of_rows).is_none() { 6 } else { 14 };
            tally.expect_refused(&case, number, 1);
            continue;
        };
        tally.expect_accepted(&case);
        let (left, fugitive) = (100_000 * (10 + u64::from(row)), 100 * (100 + u64::from(entry)));
        assert_eq!(exact(&case)[..5], [left + fugitive, 0, 0, left, fugitive]);
    }
}

/// Industry, product, material, process, scale.
type Key = [u16; 5];

const ANY: Key = [3240, 7, 7, 7, 7];

fn with(key: Key, field: usize, value: u16) -> Key {
    let mut key = key;
    key[field] = value;
    key
}

/// Entry i, counted from 0, has the factor i + 1.
fn table_of(keys: &[Key]) -> Fugitive {
    let entry = |(index, &[a, b, c, d, scale]): (usize, &Key)| Entry {
        place: [a, b, c, d],
        scale,
        factors: [1 + index as u16; 9],
    };
    Fugitive { entries: keys.iter().enumerate().map(entry).collect(), ..Fugitive::default() }
}

/// A book that has a row for the key, and a graded line of one kilogram.
fn case_of(table: &Fugitive, [a, b, c, d, scale]: Key) -> Case {
    let row = Row { place: [a, b, c, d], ..Row::plain(2, 3, 0) };
    let book = Book { rows: vec![row], ..Book::default() };
    let line = Line { place: row.place, scale, grades: [0, 1, 0], ..Line::direct(1) };
    Case::of(&book, &sheet(vec![line])).with_fugitive(table.bytes())
}

fn look_for(tally: &mut Tally, keys: &[Key], table: &Fugitive, key: Key) {
    let place_of = |key: Key| keys.iter().position(|&entry| entry == key);
    let case = case_of(table, key);
    let Some(index) = place_of(key).or_else(|| place_of(with(key, 4, 0))) else {
        tally.expect_refused(&case, 14, 1);
        return;
    };
    tally.expect_accepted(&case);
    assert_eq!(exact(&case)[4], 100 * (index as u64 + 1), "entry {index} for {key:?}");
}

/// Entries that rise by two in one field, and what lies between.
#[test]
fn every_entry_by_every_field() {
    let mut tally = Tally::new("every_entry_by_every_field");
    let numbers: Vec<u16> = (1..=36).collect();
    for (field, number) in thinned(every_two(&[0, 1, 2, 3, 4], &numbers)) {
        let keys: Vec<Key> = (1..=number).map(|i| with(ANY, field, 2 * i)).collect();
        let table = table_of(&keys);
        for value in 0..=2 * number + 1 {
            look_for(&mut tally, &keys, &table, with(ANY, field, value));
        }
    }
}

/// Where an earlier field rises a later one may fall, and every second entry is
/// left out: all others are asked for, too.
#[test]
fn two_fields_against_one_another() {
    let mut tally = Tally::new("two_fields_against_one_another");
    let values = [0, 1, 255, 256, 257, 65_535];
    let pairs = every_two(&[0, 1, 2, 3, 4], &[0, 1, 2, 3, 4]);
    for (first, second) in thinned(pairs.into_iter().filter(|(a, b)| a < b).collect()) {
        let grid = every_two(&values, &values);
        let key = |&(a, b): &(u16, u16)| with(with(ANY, first, a), second, b);
        for kept in [0, 1] {
            let keys: Vec<Key> = grid.iter().skip(kept).step_by(2).map(key).collect();
            let table = table_of(&keys);
            grid.iter().for_each(|values| look_for(&mut tally, &keys, &table, key(values)));
        }
    }
}

/// 1,024 entries by two fields.
#[test]
fn the_longest_table() {
    let mut tally = Tally::new("the_longest_table");
    for (first, second) in [(0, 3), (1, 2), (3, 4), (0, 4)] {
        let even: Vec<u16> = (1..=32).map(|i| 2 * i).collect();
        let key = |(a, b)| with(with(ANY, first, a), second, b);
        let keys: Vec<Key> = every_two(&even, &even).into_iter().map(key).collect();
        let table = table_of(&keys);
        let all: Vec<u16> = (1..=65).collect();
        let ends = [(2, 2), (64, 64), (64, 65)];
        let asked = every_two(&all, &all).into_iter().step_by(17).chain(ends);
        thinned(asked.collect())
            .for_each(|values| look_for(&mut tally, &keys, &table, key(values)));
    }
}

/// The most that there can be: 16 × 10^18 isn't reached, and every table adds up.
#[test]
fn the_largest_amounts() {
    let mut tally = Tally::new("the_largest_amounts");
    let technique = Technique { code: 1, efficiency: 999 };
    let row = Row::plain(2, 3, 1000).with_techniques(1, 0, 1);
    let book = Book { rows: vec![row], techniques: vec![technique], gaps: [0; 3] };
    let table = Fugitive::of(&[Entry::plain([65_535; 9])]).bytes();
    let line = Line { grades: [1, 2, 3], ..Line::direct(1_000_000_000) };
    let treated = line.treated(1, 1, [5000.001, 7919.0, 0.0]);
    for (unit, line) in every_two(&[1, 2, 3], &[line, treated]) {
        let sheet = Sheet { unit, ..sheet(vec![line; 128]) };
        let case = Case::of(&book, &sheet).with_fugitive(table.clone());
        tally.expect_accepted(&case);
        let sums = &exact(&case)[640..645];
        let (left, fugitive) = (128 * 10u64.pow(17), 128 * 3 * 65_535 * 100 * 10u64.pow(9));
        assert_eq!((sums[0], sums[4]), (left + fugitive, fugitive));
        assert_eq!(sums[1] + sums[3], left);
        assert!(sums[0] < 16 * 10u64.pow(18));
    }
}

/// Sheets without grades have the rows that they have without any entry, and no
/// dust, with any table that is right.
#[test]
fn sheets_without_grades() {
    let mut tally = Tally::new("sheets_without_grades");
    let mut random = Random::new(81);
    for _ in 0..limited(6_000) {
        let (rows, techniques) = (random.index(12), random.index(20));
        let book = generate::book(&mut random, rows, techniques);
        let lines = random.index(9);
        let without = Case::of(&book, &generate::sheet(&mut random, &book, lines));
        let table = fugitive::table(&mut random, &book);
        let with = without.clone().with_fugitive(table.bytes());
        tally.expect_accepted(&with);
        let (exact, with) = (exact(&without), run_proved(&with).expect("the memory is kept"));
        assert_eq!(with.exact, exact);
        let rows = &exact[..5 * (without.line_count() + 1)];
        assert!(rows.chunks_exact(5).all(|row| row[4] == 0));
    }
}

/// The generators do make dust: more than one case in ten has some.
#[test]
fn generated_sheets_have_dust() {
    let mut random = Random::new(82);
    let most = Size { rows: 30, techniques: 40, lines: 20 };
    let cases: Vec<Case> = (0..300).map(|_| generate::case_up_to(&mut random, most)).collect();
    let has_dust = |case: &&Case| run_plain(case).exact[5 * case.line_count() + 4] > 0;
    assert!(10 * cases.iter().filter(has_dust).count() > cases.len());
}

/// Tables in which nearly every cell of G, R, D and F is loose, in all three units.
#[test]
fn loose_tables_with_dust() {
    let mut tally = Tally::new("loose_tables_with_dust");
    let mut random = Random::new(83);
    for round in 0..limited(6_000) {
        let lines = if round % 20 == 0 { 128 } else { 1 + random.index(12) };
        let case = loose_case(&mut random, 1 + (round % 3) as u32, lines);
        tally.expect_accepted(&case);
    }
}

fn loose_case(random: &mut Random, unit: u32, lines: usize) -> Case {
    let efficiency = 1 + random.below(999) as u16;
    let row = Row { places: 5, ..Row::plain(2, 3, 1 + random.below(99_999_999) as u32) };
    let book = Book {
        rows: vec![row.with_techniques(1, 0, 1)],
        techniques: vec![Technique { code: 1, efficiency }],
        gaps: [0; 3],
    };
    let table = Fugitive::of(&[Entry::plain([0; 9].map(|_| random.up_to(65_535) as u16))]);
    let line = |random: &mut Random| {
        let hours = [1.0 + random.below(4000) as f64, 5000.0 + random.below(3000) as f64, 0.0];
        let line = Line::direct(1 + random.up_to(999_999_999)).treated(1, 1, hours);
        Line { grades: fugitive::grades(random), ..line }
    };
    let lines = (0..lines).map(|_| line(random)).collect();
    let case = Case::of(&book, &Sheet { unit, ..sheet(lines) });
    case.with_fugitive(table.bytes())
}

#[test]
fn results_around_the_need() {
    let mut tally = Tally::new("results_around_the_need");
    for lines in [0, 1, 2, 128] {
        let need = 5 * (lines + 1);
        let lengths = [0, 4 * (lines + 1), need - 1, need, need + 1, need + 40];
        for (exact_len, shown_len) in every_two(&lengths, &lengths) {
            let case = case(vec![by_hours(12_345); lines]).with_lengths(exact_len, shown_len);
            match exact_len >= need && shown_len >= need {
                true => tally.expect_accepted(&case),
                false => tally.expect_refused(&case, 3, 0),
            }
        }
    }
}

/// The table at every address modulo 16, which the figures don't depend on.
#[test]
fn tables_at_every_address() {
    let mut tally = Tally::new("tables_at_every_address");
    let case = case(vec![by_hours(7), by_energy(8)]);
    tally.expect_accepted(&case);
    let expected = exact(&case)[..15].to_vec();
    let mut area = vec![0u8; case.fugitive.len() + 64];
    let first = area.as_ptr().align_offset(16);
    for address in first..first + 16 {
        area.fill(0x5C);
        let lent = address..address + case.fugitive.len();
        area[lent.clone()].copy_from_slice(&case.fugitive);
        let (mut exact, mut shown) = ([7; 15], [8; 15]);
        let table = &area[lent];
        let Case { own, book, sheet, .. } = &case;
        let outcome = checkraven::account(own, book, table, sheet, &mut exact, &mut shown);
        assert!(outcome.is_accepted());
        assert_eq!(exact[..], expected);
    }
}

fn bundled(table: Vec<u8>, sheets: &[Sheet]) -> BundleCase {
    let sheets: Vec<Vec<u8>> = sheets.iter().map(Sheet::bytes).collect();
    BundleCase::of(&book().bytes(), &Bundle::of(15, &sheets)).with_fugitive(table)
}

const ACCEPTED: (u64, u64) = (0, 0);

/// One table serves all sheets; 14 and 15 are one sheet's own, as 2 and 3 are.
#[test]
fn one_table_for_all_sheets() {
    let mut tally = Tally::new("one_table_for_all_sheets");
    let ungraded = Line { grades: [0; 3], ..by_energy(8) };
    let bad_grade = Line { grades: [0, 0, 4], ..by_hours(7) };
    let sheets = [
        sheet(vec![by_hours(7)]),
        sheet(vec![by_hours(7), by_energy(8)]),
        sheet(vec![by_hours(7), bad_grade]),
        sheet(vec![ungraded]),
        Sheet { unit: 4, ..sheet(vec![]) },
        sheet(vec![by_hours(7); 3]),
        Sheet { pollutant: 4, ..sheet(vec![by_hours(7)]) },
        sheet(vec![by_hours(9), by_hours(9)]),
    ];
    let only_the_first = Fugitive::of(&table().entries[..1]).bytes();
    let mut expected = [ACCEPTED, (14, 2), (15, 2), ACCEPTED, (2, 0), (3, 0), (15, 1), ACCEPTED];
    tally.expect_sheets(&bundled(only_the_first, &sheets), &expected);
    expected[1] = ACCEPTED;
    tally.expect_sheets(&bundled(table().bytes(), &sheets), &expected);
}

/// 13 is each sheet's own refusal, after 1 and before all others; where there is
/// no sheet the table isn't looked at.
#[test]
fn a_bad_table_is_refused_for_each_sheet() {
    let mut tally = Tally::new("a_bad_table_is_refused_for_each_sheet");
    let water = Sheet::new(1, 1, 1, vec![Line::direct(5)]);
    let malformed = Sheet { unit: 4, ..sheet(vec![]) };
    let sheets = [sheet(vec![by_hours(7)]), water, malformed, sheet(vec![by_hours(7); 3])];
    for bad in [vec![], Fugitive { zero: 1, ..table() }.bytes(), vec![0; 12]] {
        let case = bundled(bad.clone(), &sheets);
        tally.expect_sheets(&case, &[(13, 0); 4]);
        let bad_book = BundleCase { book: two_kinds::bad_book(), ..case.clone() };
        tally.expect_sheets(&bad_book, &[(1, 0); 4]);
        tally.expect_refused(&case.with_lengths(59, 60, 4), 3, 0);
        tally.expect_sheets(&bundled(bad, &[]), &[]);
    }
}
