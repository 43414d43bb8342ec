//! The sheet: checked once as a whole, then read line by line.

use super::book::place;
use super::bytes::{u16_at, u32_at, u64_at};
use super::fugitive::Grades;
use super::{GRAM, KILOGRAM, MOST_BYTES, TONNE};

pub const HEADER: usize = 16;
pub const LINE: usize = 64;
pub const MOST_LINES: usize = 128;
const MOST_KIND: u8 = 3;
const WATER: u8 = 1;
const GAS: u8 = 2;
const PARTICULATES: u8 = 3;

/// Where a line's grades stand; zeros follow them to its end.
pub const GRADES: usize = 56;

/// A sheet that is well formed.
pub struct Sheet<'a> {
    pub medium: u8,
    pub pollutant: u8,
    pub unit_code: u32,
    /// W: gram, kilogram or tonne in units of 10 micrograms.
    pub shown_unit: u64,
    lines: &'a [[u8; LINE]],
}

pub struct Line {
    /// Industry, product, material, process.
    pub place: u64,
    pub scale: u16,
    pub technique: u16,
    pub reuse: u16,
    pub kind: u8,
    pub product: u64,
    pub material: u64,
    /// The bits of a, b and c.
    pub readings: [u64; 3],
    pub grades: Grades,
}

impl<'a> Sheet<'a> {
    pub fn read(file: &'a [u8]) -> Option<Self> {
        if file.len() < HEADER || file.len() > MOST_BYTES {
            return None;
        }
        let length = u32_at(file, 0) as usize;
        let line_count = u16_at(file, 4) as usize;
        let (medium, pollutant) = (file[6], file[7]);
        let line_offset = u32_at(file, 8) as usize;
        let line_end = line_offset + line_count * LINE;
        let well_formed = length == file.len()
            && line_count <= MOST_LINES
            && (1..=3).contains(&medium)
            && pollutant != 0
            && HEADER <= line_offset
            && line_end <= length;
        if !well_formed {
            return None;
        }
        let unit_code = u32_at(file, 12);
        let shown_unit = shown_unit(unit_code)?;
        let lines = file[line_offset..line_end].as_chunks().0;
        lines.iter().all(line_is_well_formed).then_some(Sheet {
            medium,
            pollutant,
            unit_code,
            shown_unit,
            lines,
        })
    }

    pub fn line_count(&self) -> usize {
        self.lines.len()
    }

    pub fn lines(&self) -> impl Iterator<Item = Line> + 'a {
        self.lines.iter().map(read_line)
    }

    pub fn reuses_water(&self) -> bool {
        self.medium == WATER
    }

    pub fn has_fugitive_dust(&self) -> bool {
        self.medium == GAS && self.pollutant == PARTICULATES
    }
}

pub fn shown_unit(code: u32) -> Option<u64> {
    match code {
        1 => Some(GRAM),
        2 => Some(KILOGRAM),
        3 => Some(TONNE),
        _ => None,
    }
}

fn line_is_well_formed(line: &[u8; LINE]) -> bool {
    line[14] <= MOST_KIND && line[15] == 0 && u64_at(line, GRADES) >> 24 == 0
}

fn read_line(line: &[u8; LINE]) -> Line {
    Line {
        place: place(line.first_chunk().unwrap()),
        scale: u16_at(line, 8),
        technique: u16_at(line, 10),
        reuse: u16_at(line, 12),
        kind: line[14],
        product: u64_at(line, 16),
        material: u64_at(line, 24),
        readings: [32, 40, 48].map(|at| u64_at(line, at)),
        grades: [0, 1, 2].map(|index| line[GRADES + index]),
    }
}
