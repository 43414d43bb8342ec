//! A small book with a row of either k rule.

use super::{Book, Row, Technique};

/// A row by hours and one by energy (process 2), COD in water.
pub fn book() -> Book {
    let technique = |code, efficiency| Technique { code, efficiency };
    let row = Row::plain(1, 1, 203);
    let by_energy = Row { place: [3240, 1, 1, 2], ..row }.with_techniques(2, 0, 1);
    Book {
        rows: vec![row.with_techniques(1, 0, 2), by_energy],
        techniques: vec![technique(1, 700), technique(2, 300)],
        gaps: [0, 0, 0],
    }
}

/// The same with a medium that there is not.
pub fn bad_book() -> Vec<u8> {
    let mut book = book();
    book.rows[0].medium = 4;
    book.bytes()
}
