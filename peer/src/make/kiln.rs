//! A works with two kilns that it has measured, beside the small book, the fugitive
//! table and the sheet of `dust`. The own rows have other techniques, efficiencies
//! and k rules than the published ones of their places.

use super::dust::{self, GAS, GRADES, PARTICULATES};
use super::{Book, Line, Row, Technique};
use crate::compare::Case;

/// The scale for which the first kiln was measured.
pub const SCALE: u16 = 5;

/// Units per kilogram of the own rows, and of all published ones.
pub const FIRST_KILN: u64 = 12_000_000;
pub const SECOND_KILN: u64 = 9_000_000;
pub const PUBLISHED: u64 = 15_000_000;

/// A row by energy at process 1 for one scale, and one by hours at process 2 for all
/// scales; the published ones go by hours and by energy.
pub fn own() -> Book {
    let technique = |code, efficiency| Technique { code, efficiency };
    let row = |process, scale, digits| {
        let row = Row::plain(GAS, PARTICULATES, digits);
        Row { place: [3240, 1, 1, process], scale, ..row }
    };
    Book {
        rows: vec![
            row(1, SCALE, 120).with_techniques(2, 0, 2),
            row(2, 0, 90).with_techniques(1, 1, 2),
        ],
        techniques: vec![technique(2, 450), technique(7, 800), technique(9, 100)],
        gaps: [0; 3],
    }
}

/// A line of the own book's first row: half of the rated energy, by 80 %.
pub fn first_kiln(product: u64) -> Line {
    let line = Line::direct(product).treated(7, 2, [900.0, 0.5, 3600.0]);
    Line { scale: SCALE, grades: GRADES, ..line }
}

/// A line of its second row: half of the hours, by 10 %.
pub fn second_kiln(product: u64) -> Line {
    let line = Line::direct(product).treated(9, 1, [4000.0, 8000.0, 0.0]);
    Line { place: [3240, 1, 1, 2], scale: 3, grades: GRADES, ..line }
}

/// A line that only the published book has a row for.
pub fn not_measured(product: u64) -> Line {
    dust::by_hours(product)
}

pub fn case(lines: Vec<Line>) -> Case {
    dust::case(lines).with_own(own().bytes())
}
