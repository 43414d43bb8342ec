//! Books and sheets as their fields, and the bytes they stand for. Any field
//! can be wrong; lengths, counts and offsets follow from the parts.

use crate::compare::Case;

#[derive(Clone, Copy, Debug)]
pub struct Technique {
    pub code: u16,
    pub efficiency: u16,
}

#[derive(Clone, Copy, Debug)]
pub struct Row {
    /// Industry, product, material, process.
    pub place: [u16; 4],
    pub scale: u16,
    pub medium: u8,
    pub pollutant: u8,
    pub basis: u8,
    pub unit: u8,
    pub places: u8,
    pub k_rule: u8,
    pub digits: u32,
    pub first: u16,
    pub number: u16,
}

#[derive(Clone, Debug, Default)]
pub struct Book {
    pub rows: Vec<Row>,
    pub techniques: Vec<Technique>,
    /// Bytes between header and rows, rows and techniques, techniques and end.
    pub gaps: [usize; 3],
}

#[derive(Clone, Copy, Debug)]
pub struct Line {
    pub place: [u16; 4],
    pub scale: u16,
    pub technique: u16,
    pub reuse: u16,
    pub kind: u8,
    pub zero: u8,
    pub product: u64,
    pub material: u64,
    /// The bits of a, b and c.
    pub readings: [u64; 3],
    /// Of crushing and feeding, tapping, furnace spill.
    pub grades: [u8; 3],
    pub last_zeros: [u8; 5],
}

#[derive(Clone, Debug)]
pub struct Sheet {
    pub medium: u8,
    pub pollutant: u8,
    pub unit: u32,
    pub lines: Vec<Line>,
    /// Bytes between header and lines, lines and end.
    pub gaps: [usize; 2],
}

/// Gaps aren't looked at, so they hold what no well-formed part would.
pub const GAP: u8 = 0xA7;

impl Row {
    /// A row by product in kg/t with whole kilograms and no technique.
    pub fn plain(medium: u8, pollutant: u8, digits: u32) -> Self {
        Row {
            place: [3240, 1, 1, 1],
            scale: 0,
            medium,
            pollutant,
            basis: 1,
            unit: 2,
            places: 0,
            k_rule: 0,
            digits,
            first: 0,
            number: 0,
        }
    }

    pub fn with_techniques(self, k_rule: u8, first: u16, number: u16) -> Self {
        Row { k_rule, first, number, ..self }
    }

    fn write(&self, bytes: &mut Vec<u8>) {
        for part in self.place.iter().chain([&self.scale]) {
            bytes.extend(part.to_le_bytes());
        }
        bytes.extend([
            self.medium,
            self.pollutant,
            self.basis,
            self.unit,
            self.places,
            self.k_rule,
        ]);
        bytes.extend(self.digits.to_le_bytes());
        bytes.extend(self.first.to_le_bytes());
        bytes.extend(self.number.to_le_bytes());
    }
}

impl Book {
    pub fn bytes(&self) -> Vec<u8> {
        let row_offset = 16 + self.gaps[0];
        let technique_offset = row_offset + 24 * self.rows.len() + self.gaps[1];
        let length = technique_offset + 4 * self.techniques.len() + self.gaps[2];
        let mut bytes = Vec::with_capacity(length);
        bytes.extend((length as u32).to_le_bytes());
        bytes.extend((self.rows.len() as u16).to_le_bytes());
        bytes.extend((self.techniques.len() as u16).to_le_bytes());
        bytes.extend((row_offset as u32).to_le_bytes());
        bytes.extend((technique_offset as u32).to_le_bytes());
        bytes.resize(row_offset, GAP);
        self.rows.iter().for_each(|row| row.write(&mut bytes));
        bytes.resize(technique_offset, GAP);
        for technique in &self.techniques {
            bytes.extend(technique.code.to_le_bytes());
            bytes.extend(technique.efficiency.to_le_bytes());
        }
        bytes.resize(length, GAP);
        bytes
    }
}

impl Line {
    /// Direct discharge at the place of `Row::plain`.
    pub fn direct(product: u64) -> Self {
        Line {
            place: [3240, 1, 1, 1],
            scale: 0,
            technique: 0,
            reuse: 0,
            kind: 0,
            zero: 0,
            product,
            material: 0,
            readings: [0; 3],
            grades: [0; 3],
            last_zeros: [0; 5],
        }
    }

    pub fn treated(self, technique: u16, kind: u8, readings: [f64; 3]) -> Self {
        Line { technique, kind, readings: readings.map(f64::to_bits), ..self }
    }

    fn write(&self, bytes: &mut Vec<u8>) {
        for part in self.place.iter().chain([&self.scale, &self.technique, &self.reuse]) {
            bytes.extend(part.to_le_bytes());
        }
        bytes.extend([self.kind, self.zero]);
        for number in [self.product, self.material].iter().chain(&self.readings) {
            bytes.extend(number.to_le_bytes());
        }
        bytes.extend(self.grades);
        bytes.extend(self.last_zeros);
    }
}

impl Sheet {
    pub fn new(medium: u8, pollutant: u8, unit: u32, lines: Vec<Line>) -> Self {
        Sheet { medium, pollutant, unit, lines, gaps: [0, 0] }
    }

    pub fn bytes(&self) -> Vec<u8> {
        let line_offset = 16 + self.gaps[0];
        let line_end = line_offset + 64 * self.lines.len();
        let length = line_end + self.gaps[1];
        let mut bytes = Vec::with_capacity(length);
        bytes.extend((length as u32).to_le_bytes());
        bytes.extend((self.lines.len() as u16).to_le_bytes());
        bytes.extend([self.medium, self.pollutant]);
        bytes.extend((line_offset as u32).to_le_bytes());
        bytes.extend(self.unit.to_le_bytes());
        bytes.resize(line_offset, GAP);
        self.lines.iter().for_each(|line| line.write(&mut bytes));
        bytes.resize(length, GAP);
        bytes
    }
}

impl Case {
    /// A book and a sheet with a little more room than they need, an own book without
    /// rows and a fugitive table without entries.
    pub fn of(book: &Book, sheet: &Sheet) -> Self {
        Case::with_room(book.bytes(), sheet.bytes())
    }
}
