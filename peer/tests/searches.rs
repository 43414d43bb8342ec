//! Both searches at every place of small books and lists, at the gaps between,
//! and at the ends of the longest ones. Each row and each technique has a figure
//! of its own, so that a neighbour's is noticed.

use peer::compare::{run_proved, thinned, Case, Tally};
use peer::make::{Book, Line, Row, Sheet, Technique};

/// A list of so many techniques, with the codes 2, 4, 6 .. and others before and
/// after it in the block, which no line may find.
fn book_with_list(number: u16) -> Book {
    let listed = |place| Technique { code: 2 * place, efficiency: place % 1000 };
    let other = |code| Technique { code, efficiency: 1000 };
    let techniques = [1, 3].map(other).into_iter();
    let techniques = techniques.chain((1..=number).map(listed)).chain([1, 3].map(other));
    Book {
        rows: vec![Row::plain(2, 3, 7).with_techniques(1, 2, number)],
        techniques: techniques.collect(),
        gaps: [0; 3],
    }
}

fn look_for_technique(tally: &mut Tally, book: &Book, code: u16) {
    let line = Line::direct(1).treated(code, 3, [0.0; 3]);
    let case = Case::of(book, &Sheet::new(2, 3, 1, vec![line]));
    let number = book.rows[0].number;
    if code % 2 == 1 || code > 2 * number {
        tally.expect_refused(&case, 7, 1);
        return;
    }
    tally.expect_accepted(&case);
    let filled = run_proved(&case).expect("the memory around is kept");
    assert_eq!(filled.exact[1], 700 * (code / 2 % 1000) as u64);
}

#[test]
fn every_technique_of_a_list_and_the_codes_between() {
    let mut tally = Tally::new("every_technique_of_a_list_and_the_codes_between");
    for number in thinned((1..=40).collect()) {
        let book = book_with_list(number);
        (1..=2 * number + 1).for_each(|code| look_for_technique(&mut tally, &book, code));
    }
}

#[test]
fn the_longest_list() {
    let mut tally = Tally::new("the_longest_list");
    let book = book_with_list(4092);
    let codes = [1, 2, 3, 4, 4091, 4092, 4093, 4094, 8182, 8183, 8184, 8185, 8186, 65_535];
    let codes = codes.into_iter().chain((5..8181).step_by(97));
    thinned(codes.collect()).for_each(|code| look_for_technique(&mut tally, &book, code));
}

/// So many rows, with the scales 2, 4, 6 ..; none is for all scales.
#[test]
fn every_row_and_the_scales_between() {
    let mut tally = Tally::new("every_row_and_the_scales_between");
    for number in thinned((1..=40).collect::<Vec<u16>>()) {
        let row = |place: u16| Row { scale: 2 * place, ..Row::plain(2, 3, place as u32) };
        let book = Book { rows: (1..=number).map(row).collect(), ..Book::default() };
        for scale in 0..=2 * number + 1 {
            let line = Line { scale, ..Line::direct(1) };
            let case = Case::of(&book, &Sheet::new(2, 3, 1, vec![line]));
            if scale == 0 || scale % 2 == 1 || scale > 2 * number {
                tally.expect_refused(&case, 6, 1);
                continue;
            }
            tally.expect_accepted(&case);
            let filled = run_proved(&case).expect("the memory around is kept");
            assert_eq!(filled.exact[0], 100_000 * (scale / 2) as u64);
        }
    }
}

/// Keys that differ in one field alone, by one or at its ends: the row of the
/// field above or below isn't taken.
#[test]
fn keys_that_differ_in_one_field() {
    let mut tally = Tally::new("keys_that_differ_in_one_field");
    let values = [1, 2, 255, 256, 65_534, 65_535];
    for field in 0..4 {
        let at = |value| {
            let mut place = [3240, 1, 1, 1];
            place[field] = value;
            place
        };
        for &kept in &values {
            let row = Row { place: at(kept), ..Row::plain(2, 3, 7) };
            let book = Book { rows: vec![row], ..Book::default() };
            for &asked in &values {
                let line = Line { place: at(asked), ..Line::direct(1) };
                let case = Case::of(&book, &Sheet::new(2, 3, 1, vec![line]));
                match asked == kept {
                    true => tally.expect_accepted(&case),
                    false => tally.expect_refused(&case, 6, 1),
                }
            }
        }
    }
}
