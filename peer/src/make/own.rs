//! The works' own books: seeded ones beside a published book, and what a search
//! over both must find.

use super::generate;
use super::parts::{Book, Row, Technique};
use super::random::Random;
use std::collections::BTreeSet;

/// The most rows of a book.
const MOST_ROWS: usize = 1024;

/// The own book of a works without factors of its own.
pub static NO_ROWS: Book = Book { rows: Vec::new(), techniques: Vec::new(), gaps: [0; 3] };

/// The works' own book and the published one.
#[derive(Clone, Copy)]
pub struct Books<'a> {
    pub own: &'a Book,
    pub published: &'a Book,
}

impl<'a> Books<'a> {
    pub fn published_alone(published: &'a Book) -> Self {
        Books { own: &NO_ROWS, published }
    }

    /// All rows of both, the own first.
    pub fn rows(self) -> impl Iterator<Item = &'a Row> {
        self.own.rows.iter().chain(&self.published.rows)
    }

    /// The row that answers with the techniques of its list.
    pub fn find(self, key: generate::Key) -> Option<(&'a Row, &'a [Technique])> {
        let (place, _, medium, pollutant) = key;
        let keys = [key, (place, 0, medium, pollutant)];
        let searches =
            [self.own, self.published].into_iter().flat_map(|book| keys.map(|key| (book, key)));
        searches.into_iter().find_map(|(book, key)| {
            let row = &book.rows[book.rows.binary_search_by_key(&key, generate::key_of).ok()?];
            let list = row.first as usize..row.first as usize + row.number as usize;
            Some((row, if row.number == 0 { &[] } else { &book.techniques[list] }))
        })
    }
}

/// A book that is well formed, in every second case without rows. Others have keys
/// near those of the published book, keys of their own, or all of its keys.
pub fn own_book(random: &mut Random, published: &Book) -> Book {
    match random.below(20) {
        0..=8 => Book { gaps: [0; 3].map(|_| random.index(9)), ..Book::default() },
        9 => generate::book(random, 0, 5),
        10 => published.clone(),
        11 => with_keys(random, published.rows.iter().map(generate::key_of).collect()),
        12 => {
            let (rows, techniques) = (random.index(12), random.index(20));
            generate::book(random, rows, techniques)
        }
        _ => {
            let most = (2 * published.rows.len() + 3).min(MOST_ROWS);
            let count = random.index(most + 1);
            let keys = (0..count).map(|_| key(random, &published.rows)).collect();
            with_keys(random, keys)
        }
    }
}

/// Techniques, k rules and coefficients are this book's own.
fn with_keys(random: &mut Random, keys: BTreeSet<generate::Key>) -> Book {
    let techniques = random.index(keys.len() + 9);
    generate::book_of(random, keys, techniques)
}

/// Most often the place of a row that is published: for its scale, for all scales,
/// for another scale.
fn key(random: &mut Random, rows: &[Row]) -> generate::Key {
    let (mut place, mut scale, mut medium, mut pollutant) = match rows.len() {
        0 => ([1; 4], 0, 1, 1),
        count => generate::key_of(&rows[random.index(count)]),
    };
    match random.below(8) {
        0 => place[random.index(4)] = random.up_to(65_535) as u16,
        1 => medium = 1 + random.below(3) as u8,
        2 => pollutant = 1 + random.up_to(254) as u8,
        3 | 4 => scale = 0,
        5 => scale = random.up_to(9) as u16,
        _ => {}
    }
    (place, scale, medium, pollutant)
}
