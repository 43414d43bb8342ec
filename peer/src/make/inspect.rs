//! Rows that are asked for: seeded cases for the inspector's screen.

use super::damage::damage_book;
use super::generate::{self, Key};
use super::own::{own_book, Books};
use super::random::Random;
use super::works::book_up_to;
use crate::compare::RowCase;
use crate::plain::Asked;

/// The numbers that ask for a row by its key.
pub fn asked(([industry, product, material, process], scale, medium, pollutant): Key) -> Asked {
    let codes = [industry, product, material, process, scale].map(u64::from);
    let [industry, product, material, process, scale] = codes;
    [industry, product, material, process, scale, medium.into(), pollutant.into()]
}

/// Two books, some of them damaged, and a row that most often is there; lent is too
/// little, just enough or more.
pub fn row_case(random: &mut Random, most: generate::Size) -> RowCase {
    let book = book_up_to(random, most);
    let own = own_book(random, &book);
    let asked = any_asked(random, Books { own: &own, published: &book });
    let mut case = RowCase::with_room(book.bytes(), asked).with_own(own.bytes());
    case.room = match random.below(4) {
        0 => random.index(24),
        1 => 24,
        _ => 24 + random.index(41),
    };
    if random.chance(10) {
        damage_book(random, &mut case.own);
    }
    if random.chance(10) {
        damage_book(random, &mut case.book);
    }
    case
}

/// The numbers of a row of either book, or near them: another scale, a field next to
/// its own, one that no field can hold.
fn any_asked(random: &mut Random, books: Books) -> Asked {
    let mut asked = match books.rows().count() {
        0 => [1; 7],
        count => {
            let row = books.rows().nth(random.index(count)).expect("there are so many");
            asked(generate::key_of(row))
        }
    };
    let field = random.index(7);
    match random.below(10) {
        0..=2 => asked[4] = random.up_to(9),
        3 => asked[4] = 0,
        4 => asked[field] = asked[field].wrapping_add(1),
        5 => asked[field] = asked[field].wrapping_sub(1),
        6 => asked[field] |= 1 << random.below(64),
        _ => {}
    }
    asked
}
