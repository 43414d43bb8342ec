//! The works' own book and the published one, and the row that answers for both.

use super::book::{Book, Row, Wanted, MOST_ROWS, ROW};
use super::{lay, Refusal};

/// Books that are all well formed.
pub struct Books<'a> {
    /// None for a desk that knows of no book but the published one.
    own: Option<Book<'a>>,
    published: Book<'a>,
}

/// The book that answered, and which of its rows.
struct Found<'b, 'a> {
    book: &'b Book<'a>,
    index: usize,
    is_own: bool,
}

impl<'a> Books<'a> {
    pub fn read(own: &'a [u8], published: &'a [u8]) -> Option<Self> {
        Some(Books { own: Some(Book::read(own)?), published: Book::read(published)? })
    }

    pub fn published_alone(published: &'a [u8]) -> Option<Self> {
        Some(Books { own: None, published: Book::read(published)? })
    }

    /// The works' own book is asked first, for the exact scale and then scale 0,
    /// then the published one.
    fn search(&self, wanted: Wanted) -> Option<Found<'_, 'a>> {
        let found = |book, is_own| move |index| Found { book, index, is_own };
        let ask_own = |wanted| {
            let own = self.own.as_ref()?;
            own.index_of(wanted).map(found(own, true))
        };
        let published = &self.published;
        let ask_published = |wanted| published.index_of(wanted).map(found(published, false));
        ask_own(wanted)
            .or_else(|| ask_own(wanted.of_all_scales()))
            .or_else(|| ask_published(wanted))
            .or_else(|| ask_published(wanted.of_all_scales()))
    }

    /// The row that answers, with techniques of the same book.
    pub fn find(&self, wanted: Wanted) -> Option<Row<'a>> {
        let found = self.search(wanted)?;
        found.book.row(found.index)
    }
}

/// Industry, product, material, process, scale, medium and pollutant of a row that
/// is asked for. Any number may be asked for, also one that no field can hold.
pub type Asked = [u64; 7];

fn wanted(asked: Asked) -> Option<Wanted> {
    let code = |at: usize| u16::try_from(asked[at]).ok();
    let place = [code(0)?, code(1)?, code(2)?, code(3)?];
    Some(Wanted {
        place: place.into_iter().fold(0, |codes, code| codes << 16 | u64::from(code)),
        scale: code(4)?,
        medium: u8::try_from(asked[5]).ok()?,
        pollutant: u8::try_from(asked[6]).ok()?,
    })
}

/// The bytes of the row that answers, a part of whichever book it was; an empty
/// part where neither has a row or either is malformed.
pub fn row<'a>(own: &'a [u8], book: &'a [u8], asked: Asked) -> &'a [u8] {
    let part = || {
        let books = Books::read(own, book)?;
        let found = books.search(wanted(asked)?)?;
        Some(found.book.row_bytes(found.index))
    };
    part().map_or(&[], <[u8; ROW]>::as_slice)
}

/// Which row answers: 0 for none, from 1 up for one of the own book, from 1025 up
/// for one of the published book.
pub fn row_number(own: &[u8], book: &[u8], asked: Asked) -> u64 {
    let number = || {
        let books = Books::read(own, book)?;
        let found = books.search(wanted(asked)?)?;
        let before = if found.is_own { 0 } else { MOST_ROWS };
        Some((before + found.index + 1) as u64)
    };
    number().unwrap_or(0)
}

/// Copies the row that answers, and says how many bytes it has. Where they don't
/// fit, all lent bytes are zero.
pub fn row_into(own: &[u8], book: &[u8], asked: Asked, lent: &mut [u8]) -> Result<usize, Refusal> {
    lay(Ok(row(own, book, asked)), lent)
}
