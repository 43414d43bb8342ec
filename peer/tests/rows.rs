//! The row search by all seven fields of a key: rows that differ in one of them,
//! and in two of them against one another, asked for at every place of books of
//! every length up to a few dozen rows, and of the longest. Each row has a figure
//! of its own, so that a neighbour's is noticed.

use peer::compare::{run_proved, thinned, Case, Tally};
use peer::make::{every_two, Book, Line, Row, Sheet};

/// Industry, product, material, process, scale, medium, pollutant.
type Key = [u16; 7];

const ANY: Key = [3240, 7, 7, 7, 7, 2, 7];
const SCALE: usize = 4;
const MEDIUM: usize = 5;
const POLLUTANT: usize = 6;

fn with(key: Key, field: usize, value: u16) -> Key {
    let mut key = key;
    key[field] = value;
    key
}

/// A book of these keys. Row i, counted from 0, has 1000 × (i + 1) units in a
/// kilogram.
fn book_of(keys: &[Key]) -> Book {
    let row = |(index, key): (usize, &Key)| Row {
        place: [key[0], key[1], key[2], key[3]],
        scale: key[SCALE],
        places: 2,
        ..Row::plain(key[MEDIUM] as u8, key[POLLUTANT] as u8, index as u32 + 1)
    };
    Book { rows: keys.iter().enumerate().map(row).collect(), ..Book::default() }
}

fn case_of(book: &Book, key: Key) -> Case {
    let place = [key[0], key[1], key[2], key[3]];
    let line = Line { place, scale: key[SCALE], ..Line::direct(1) };
    Case::of(book, &Sheet::new(key[MEDIUM] as u8, key[POLLUTANT] as u8, 1, vec![line]))
}

/// By the words of the rule: the row with the key, or else the same for all
/// scales, or else refusal 6.
fn look_for(tally: &mut Tally, keys: &[Key], book: &Book, key: Key) {
    let place_of = |key: Key| keys.iter().position(|&row| row == key);
    let case = case_of(book, key);
    let Some(index) = place_of(key).or_else(|| place_of(with(key, SCALE, 0))) else {
        tally.expect_refused(&case, 6, 1);
        return;
    };
    tally.expect_accepted(&case);
    let filled = run_proved(&case).expect("the memory around is kept");
    assert_eq!(filled.exact[0], 1000 * (index as u64 + 1), "row {index} for {key:?}");
}

/// Values of a field that rise by two and what lies between; a medium is 1 to 3.
fn values(field: usize, number: u16) -> (Vec<u16>, Vec<u16>) {
    match field {
        MEDIUM => (vec![1, 3], vec![1, 2, 3]),
        POLLUTANT => ((1..=number).map(|i| 2 * i).collect(), (1..=2 * number + 1).collect()),
        _ => ((1..=number).map(|i| 2 * i).collect(), (0..=2 * number + 1).collect()),
    }
}

#[test]
fn every_row_by_every_field() {
    let mut tally = Tally::new("every_row_by_every_field");
    let numbers: Vec<u16> = (1..=36).collect();
    for (field, number) in thinned(every_two(&[0, 1, 2, 3, 4, 5, 6], &numbers)) {
        let (kept, asked) = values(field, number);
        let keys: Vec<Key> = kept.iter().map(|&value| with(ANY, field, value)).collect();
        let book = book_of(&keys);
        asked.iter().for_each(|&value| {
            look_for(&mut tally, &keys, &book, with(ANY, field, value));
        });
    }
}

/// Values whose bytes are in another order than they are.
fn wide_values(field: usize) -> Vec<u16> {
    match field {
        MEDIUM => vec![1, 2, 3],
        POLLUTANT => vec![1, 2, 127, 128, 255],
        _ => vec![1, 255, 256, 257, 65_535],
    }
}

/// Where an earlier field rises a later one may fall, and every second row is
/// left out: all others are asked for, too.
#[test]
fn two_fields_against_one_another() {
    let mut tally = Tally::new("two_fields_against_one_another");
    let pairs = every_two(&[0, 1, 2, 3, 4, 5, 6], &[0, 1, 2, 3, 4, 5, 6]);
    for (first, second) in thinned(pairs.into_iter().filter(|(a, b)| a < b).collect()) {
        let grid = every_two(&wide_values(first), &wide_values(second));
        let key = |&(a, b): &(u16, u16)| with(with(ANY, first, a), second, b);
        for kept in [0, 1] {
            let keys: Vec<Key> = grid.iter().skip(kept).step_by(2).map(key).collect();
            let book = book_of(&keys);
            grid.iter().for_each(|values| look_for(&mut tally, &keys, &book, key(values)));
        }
    }
}

/// 1,024 rows by two fields; every field but the medium is one of them.
#[test]
fn the_longest_book() {
    let mut tally = Tally::new("the_longest_book");
    for (first, second) in [(0, 3), (1, 2), (3, 4), (2, 6), (4, 6)] {
        let even: Vec<u16> = (1..=32).map(|i| 2 * i).collect();
        let key = |(a, b)| with(with(ANY, first, a), second, b);
        let keys: Vec<Key> = every_two(&even, &even).into_iter().map(key).collect();
        let book = book_of(&keys);
        let all: Vec<u16> = (1..=65).collect();
        let ends = [(2, 2), (64, 64), (64, 65)];
        let asked = every_two(&all, &all).into_iter().step_by(17).chain(ends);
        thinned(asked.collect()).for_each(|values| look_for(&mut tally, &keys, &book, key(values)));
    }
}

/// The row for all scales stands in front of all others of its place, so many
/// rows away from where the search for the exact scale ends.
#[test]
fn all_scales_from_afar() {
    let mut tally = Tally::new("all_scales_from_afar");
    for number in thinned((0..=36).collect::<Vec<u16>>()) {
        for all_scales in [true, false] {
            let scales = (0..=number).map(|i| 2 * i).filter(|&scale| all_scales || scale != 0);
            let scales: Vec<u16> = scales.collect();
            let key = |(process, scale)| with(with(ANY, 3, process), SCALE, scale);
            let keys: Vec<Key> = every_two(&[5, 7, 9], &scales).into_iter().map(key).collect();
            let book = book_of(&keys);
            for scale in 0..=2 * number + 1 {
                look_for(&mut tally, &keys, &book, with(ANY, SCALE, scale));
            }
        }
    }
}

/// Two rows that changed places, and one row twice, anywhere in a book.
#[test]
fn rows_out_of_order_anywhere() {
    let mut tally = Tally::new("rows_out_of_order_anywhere");
    for (field, place) in thinned(every_two(&[0, 1, 2, 3, 4, 6], &(1..20).collect::<Vec<usize>>()))
    {
        let keys: Vec<Key> = (1..=20).map(|value| with(ANY, field, value)).collect();
        tally.expect_accepted(&case_of(&book_of(&keys), keys[place]));
        let mut changed = keys.clone();
        changed.swap(place - 1, place);
        tally.expect_refused(&case_of(&book_of(&changed), ANY), 1, 0);
        let mut twice = keys;
        twice[place] = twice[place - 1];
        tally.expect_refused(&case_of(&book_of(&twice), ANY), 1, 0);
    }
}
