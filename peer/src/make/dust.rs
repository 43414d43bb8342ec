//! Particulates in gas: a small book, the fugitive table of its places, and graded
//! lines.

use super::{Book, Entry, Fugitive, Line, Row, Sheet, Technique};
use crate::compare::Case;

pub const GAS: u8 = 2;
pub const PARTICULATES: u8 = 3;

/// Document 002's: good, middle and poor of crushing and feeding, of tapping, of
/// spill.
pub const FACTORS: [u16; 9] = [786, 1510, 2300, 291, 1100, 1910, 600, 1220, 1830];

/// The grades of document 002's works.
pub const GRADES: [u8; 3] = [1, 2, 2];

fn place(process: u16) -> [u16; 4] {
    [3240, 1, 1, process]
}

/// A row by hours, one by energy (process 2) and one without techniques (process 3).
pub fn book() -> Book {
    let technique = |code, efficiency| Technique { code, efficiency };
    let row = |process| Row { place: place(process), ..Row::plain(GAS, PARTICULATES, 150) };
    Book {
        rows: vec![row(1).with_techniques(1, 0, 2), row(2).with_techniques(2, 1, 2), row(3)],
        techniques: vec![technique(1, 990), technique(2, 300), technique(9, 995)],
        gaps: [0; 3],
    }
}

/// An entry for all scales at the place of each row.
pub fn table() -> Fugitive {
    let entry = |process| Entry { place: place(process), ..Entry::plain(FACTORS) };
    Fugitive::of(&[1, 2, 3].map(entry))
}

pub fn by_hours(product: u64) -> Line {
    Line { grades: GRADES, ..Line::direct(product).treated(1, 1, [7000.0, 7920.0, 0.0]) }
}

pub fn by_energy(product: u64) -> Line {
    let line = Line::direct(product).treated(9, 2, [900.0, 0.5, 3600.0]);
    Line { place: place(2), grades: GRADES, ..line }
}

pub fn sheet(lines: Vec<Line>) -> Sheet {
    Sheet::new(GAS, PARTICULATES, 1, lines)
}

pub fn case(lines: Vec<Line>) -> Case {
    Case::of(&book(), &sheet(lines)).with_fugitive(table().bytes())
}
