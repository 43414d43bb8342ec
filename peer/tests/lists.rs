//! A row's list of techniques, at every place of a block and of every length up
//! to a few, with every fault at every place of the block: the book is malformed
//! exactly where the fault lies in the list.

use peer::compare::{thinned, Case, Tally};
use peer::make::{every_two, Book, Line, Row, Sheet, Technique};

const SIZE: u16 = 22;
const LONGEST: u16 = 13;

#[derive(Clone, Copy)]
enum Fault {
    CodeOfZero,
    TooEfficient,
    CodeOfTheOneBefore,
    CodeBelowTheOneBefore,
}

use Fault::*;

/// Codes that rise by ten, one of them changed. A list that begins with a code
/// which doesn't rise is right: nothing stands before it.
fn block(fault: Fault, at: u16) -> Vec<Technique> {
    let technique = |place| Technique { code: 10 + 10 * place, efficiency: 1000 };
    let mut techniques: Vec<Technique> = (0..SIZE).map(technique).collect();
    let changed = &mut techniques[at as usize];
    match fault {
        CodeOfZero => changed.code = 0,
        TooEfficient => changed.efficiency = 1001,
        CodeOfTheOneBefore => changed.code -= 10,
        CodeBelowTheOneBefore => changed.code -= 11,
    }
    techniques
}

/// By the words of the rule: a fault of one technique counts where it is listed,
/// one between two where both are; a list that is empty has none.
fn is_right(fault: Fault, at: u16, first: u16, number: u16) -> bool {
    let listed = |place| first <= place && place < first + number;
    let faulty = match fault {
        CodeOfZero | TooEfficient => listed(at),
        CodeOfTheOneBefore | CodeBelowTheOneBefore => at > 0 && listed(at - 1) && listed(at),
    };
    number == 0 || first + number <= SIZE && !faulty
}

fn look_at(tally: &mut Tally, fault: Fault, at: u16, first: u16, number: u16) {
    let k_rule = if number == 0 { 0 } else { 1 };
    let book = Book {
        rows: vec![Row::plain(2, 3, 7).with_techniques(k_rule, first, number)],
        techniques: block(fault, at),
        gaps: [0; 3],
    };
    let case = Case::of(&book, &Sheet::new(2, 3, 1, vec![Line::direct(1)]));
    match is_right(fault, at, first, number) {
        true => tally.expect_accepted(&case),
        false => tally.expect_refused(&case, 1, 0),
    }
}

fn every_list(tally: &mut Tally, fault: Fault, first_place: u16) {
    let places: Vec<u16> = (first_place..SIZE).collect();
    let lists =
        every_two(&(0..=SIZE + 1).collect::<Vec<u16>>(), &(0..=LONGEST).collect::<Vec<_>>());
    for (at, (first, number)) in thinned(every_two(&places, &lists)) {
        look_at(tally, fault, at, first, number);
    }
}

#[test]
fn a_code_of_zero_anywhere() {
    every_list(&mut Tally::new("a_code_of_zero_anywhere"), CodeOfZero, 0);
}

#[test]
fn an_efficiency_above_the_whole_anywhere() {
    every_list(&mut Tally::new("an_efficiency_above_the_whole_anywhere"), TooEfficient, 0);
}

#[test]
fn a_code_twice_anywhere() {
    every_list(&mut Tally::new("a_code_twice_anywhere"), CodeOfTheOneBefore, 1);
}

#[test]
fn a_falling_code_anywhere() {
    every_list(&mut Tally::new("a_falling_code_anywhere"), CodeBelowTheOneBefore, 1);
}

/// The longest block as one list, or all but some of its ends, with a fault at
/// places across it.
#[test]
fn long_lists() {
    let mut tally = Tally::new("long_lists");
    let ends = every_two(&[0u16, 1, 2, 3, 4, 5, 7, 8, 9], &[0u16, 1, 2, 3, 4, 5]);
    let places = [0u16, 1, 2, 3, 4, 5, 8, 2047, 4090, 4093, 4095];
    for (at, (front, back)) in thinned(every_two(&places, &ends)) {
        let efficiency = |place| if place == at { 1001 } else { 1000 };
        let technique = |place| Technique { code: 1 + place, efficiency: efficiency(place) };
        let number = 4096 - front - back;
        let book = Book {
            rows: vec![Row::plain(2, 3, 7).with_techniques(1, front, number)],
            techniques: (0..4096).map(technique).collect(),
            gaps: [0; 3],
        };
        let case = Case::of(&book, &Sheet::new(2, 3, 1, vec![Line::direct(1)]));
        match (front..front + number).contains(&at) {
            true => tally.expect_refused(&case, 1, 0),
            false => tally.expect_accepted(&case),
        }
    }
}
