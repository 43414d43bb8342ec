//! The refusals by their names.

use std::error::Error;
use std::fmt;

/// Why a sheet, a text, a bundle or a table is refused. Shown in the words of the rules.
#[derive(Clone, Copy, Debug, PartialEq, Eq, Hash)]
#[non_exhaustive]
pub enum Refusal {
    BookMalformed,
    SheetMalformed,
    ResultTooShort,
    ActivityTooLarge,
    ReuseTooLarge,
    NoRow,
    NoTechnique,
    WrongKind,
    BadReading,
    ZeroDivisor,
    KAboveOne,
    TextMalformed,
    FugitiveMalformed,
    NoFugitiveEntry,
    BadGrade,
    BundleMalformed,
    TableOff,
    /// A number that this crate has no name for: the library is newer than it.
    Unnamed(u32),
}

impl Refusal {
    /// All that have names, by their numbers. Those of a sheet are looked for in
    /// this order, but that `FugitiveMalformed` comes after `BookMalformed`,
    /// `BadGrade` after `ReuseTooLarge` and `NoFugitiveEntry` after `NoRow`; of a
    /// text sheet `TextMalformed` is looked for in the place of `SheetMalformed`,
    /// and of a whole bundle `BundleMalformed` comes before `ResultTooShort`. Of a
    /// table that is to be settled `TableOff` comes before `ResultTooShort`.
    pub const NAMED: [Refusal; 17] = [
        Refusal::BookMalformed,
        Refusal::SheetMalformed,
        Refusal::ResultTooShort,
        Refusal::ActivityTooLarge,
        Refusal::ReuseTooLarge,
        Refusal::NoRow,
        Refusal::NoTechnique,
        Refusal::WrongKind,
        Refusal::BadReading,
        Refusal::ZeroDivisor,
        Refusal::KAboveOne,
        Refusal::TextMalformed,
        Refusal::FugitiveMalformed,
        Refusal::NoFugitiveEntry,
        Refusal::BadGrade,
        Refusal::BundleMalformed,
        Refusal::TableOff,
    ];

    pub fn from_number(number: u32) -> Self {
        let named = Self::NAMED.into_iter().find(|refusal| refusal.number() == number);
        named.unwrap_or(Refusal::Unnamed(number))
    }

    /// The number in the rules.
    pub const fn number(self) -> u32 {
        self.entry().0
    }

    const fn entry(self) -> (u32, &'static str) {
        match self {
            Refusal::BookMalformed => (1, "either book malformed or over a limit"),
            Refusal::SheetMalformed => {
                (2, "sheet malformed, over a limit, or shown unit not 1 to 3")
            }
            Refusal::ResultTooShort => {
                (3, "either result shorter than 5 × (lines + 1), or too little room lent")
            }
            Refusal::ActivityTooLarge => (4, "product or material above 10^9 kg"),
            Refusal::ReuseTooLarge => (5, "reuse above 1000, in any medium"),
            Refusal::NoRow => (6, "no row in either book"),
            Refusal::NoTechnique => (7, "technique not in the row's list"),
            Refusal::WrongKind => (8, "reading kind doesn't go with the k rule"),
            Refusal::BadReading => (9, "a used reading is bad or over its limit"),
            Refusal::ZeroDivisor => {
                (10, "production hours, rated kW or energy run hours 0 as thousandths")
            }
            Refusal::KAboveOne => (11, "energy above what the rating allows: k above 1"),
            Refusal::TextMalformed => {
                (12, "text sheet malformed, over a limit, or shown unit not 1 to 3")
            }
            Refusal::FugitiveMalformed => (13, "fugitive table malformed or over a limit"),
            Refusal::NoFugitiveEntry => (14, "grade given and no entry in the fugitive table"),
            Refusal::BadGrade => (15, "grade above 3, or given outside particulates in gas"),
            Refusal::BundleMalformed => (16, "bundle malformed or over a limit"),
            Refusal::TableOff => {
                (22, "table of a step malformed or a sum off, or shown unit not 1 to 3")
            }
            Refusal::Unnamed(number) => (number, "a refusal that has no name here"),
        }
    }
}

impl fmt::Display for Refusal {
    fn fmt(&self, out: &mut fmt::Formatter<'_>) -> fmt::Result {
        out.pad(self.entry().1)
    }
}

/// A refusal and the line it concerns. Shown as the program prints it.
#[derive(Clone, Copy, Debug, PartialEq, Eq, Hash)]
pub struct Refused {
    pub refusal: Refusal,
    /// The sheet line, counted from 1; 0 where a whole file is refused.
    pub line: u32,
}

impl fmt::Display for Refused {
    fn fmt(&self, out: &mut fmt::Formatter<'_>) -> fmt::Result {
        write!(out, "refused {} line {}", self.refusal.number(), self.line)
    }
}

impl Error for Refused {}

#[cfg(test)]
mod tests {
    use super::*;

    #[test]
    fn names_and_numbers_lead_to_each_other() {
        let numbers = Refusal::NAMED.map(Refusal::number);
        assert!(numbers.into_iter().eq((1..=16).chain([22])));
        assert_eq!(numbers.map(Refusal::from_number), Refusal::NAMED);
    }

    #[test]
    fn a_number_without_a_name_is_kept() {
        for number in [0, 17, 18, 21, 23, u32::MAX] {
            assert_eq!(Refusal::from_number(number), Refusal::Unnamed(number));
            assert_eq!(Refusal::from_number(number).number(), number);
        }
    }

    #[test]
    fn no_two_are_worded_alike() {
        let words: Vec<String> = Refusal::NAMED.iter().map(Refusal::to_string).collect();
        for (index, word) in words.iter().enumerate() {
            assert!(!word.is_empty() && !words[..index].contains(word), "{word}");
        }
    }
}
