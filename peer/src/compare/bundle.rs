//! Bundles on both desks, and each of their sheets alone on the proved one.

use super::lent::{earlier_cells, Lent};
use super::{
    check_answers, check_kept, check_lent_cells, check_memory, check_same_cells, check_zero,
    keep_lengths, kept_lengths, outcome_of, read_fugitive, read_own, run_proved_from, AnyCase,
    Case, Filled,
};
use crate::plain;
use checkraven::{Outcome, MOST_CELLS, MOST_SHEETS, NO_FUGITIVE, NO_OWN};
use std::fs;
use std::io;
use std::ops::Range;
use std::path::Path;

/// Two books, a fugitive table, a bundle and the lengths of all that is lent.
#[derive(Clone, Debug, Hash)]
pub struct BundleCase {
    pub own: Vec<u8>,
    pub book: Vec<u8>,
    pub fugitive: Vec<u8>,
    pub bundle: Vec<u8>,
    pub exact_len: usize,
    pub shown_len: usize,
    pub outcomes_len: usize,
}

/// A desk's answer to a bundle and what the lent cells hold afterwards.
pub struct FilledBundle {
    pub outcome: Outcome,
    pub exact: Vec<u64>,
    pub shown: Vec<u64>,
    pub outcomes: Vec<u64>,
}

/// Cells that the program lends in each result.
const USUAL_CELLS: usize = MOST_SHEETS * MOST_CELLS;

impl BundleCase {
    /// A case without own factors and without fugitive dust, and with a little more
    /// room than the bundle needs, up to what the program lends.
    pub fn with_room(book: Vec<u8>, bundle: Vec<u8>) -> Self {
        let (own, fugitive) = (NO_OWN.to_vec(), NO_FUGITIVE.to_vec());
        let (exact_len, shown_len, outcomes_len) = (0, 0, 0);
        let case = BundleCase { own, book, fugitive, bundle, exact_len, shown_len, outcomes_len };
        let cells = case.sheet_count().saturating_mul(case.cells_per_sheet()).min(USUAL_CELLS);
        let sheets = case.sheet_count().min(MOST_SHEETS);
        case.with_lengths(cells + 3, cells + 5, sheets + 2)
    }

    pub fn with_own(self, own: Vec<u8>) -> Self {
        BundleCase { own, ..self }
    }

    pub fn with_fugitive(self, fugitive: Vec<u8>) -> Self {
        BundleCase { fugitive, ..self }
    }

    pub fn with_lengths(self, exact_len: usize, shown_len: usize, outcomes_len: usize) -> Self {
        BundleCase { exact_len, shown_len, outcomes_len, ..self }
    }

    /// The number of sheets in the header, 0 without one.
    pub fn sheet_count(&self) -> usize {
        self.number(4) & 0xFFFF
    }

    pub fn cells_per_sheet(&self) -> usize {
        self.number(8)
    }

    fn number(&self, at: usize) -> usize {
        let field = self.bundle.get(at..at + 4);
        field.map_or(0, |field| u32::from_le_bytes(field.try_into().unwrap()) as usize)
    }

    /// The cells of each result that a sheet owns.
    fn run(&self, index: usize) -> Range<usize> {
        let cells = self.cells_per_sheet();
        index * cells..(index + 1) * cells
    }

    /// One sheet of a bundle that is taken, alone and with its own runs lent.
    pub fn sheet_alone(&self, index: usize) -> Case {
        let (offset, length) = (self.number(12 + 8 * index), self.number(16 + 8 * index));
        let sheet = self.bundle[offset..offset + length].to_vec();
        let cells = self.cells_per_sheet();
        let case = Case::with_room(self.book.clone(), sheet).with_own(self.own.clone());
        case.with_fugitive(self.fugitive.clone()).with_lengths(cells, cells)
    }

    /// What the bundle's call has left for one sheet.
    pub fn sheet_filled(&self, filled: &FilledBundle, index: usize) -> Filled {
        Filled {
            outcome: Outcome::from_answer(filled.outcomes[index]),
            exact: filled.exact[self.run(index)].to_vec(),
            shown: filled.shown[self.run(index)].to_vec(),
        }
    }

    /// Reads a folder again; without lengths the results have room.
    pub fn read(folder: &Path) -> io::Result<Self> {
        let book = fs::read(folder.join("book.bin"))?;
        let bundle = fs::read(folder.join("bundle.bin"))?;
        let case = BundleCase::with_room(book, bundle).with_own(read_own(folder));
        let case = case.with_fugitive(read_fugitive(folder));
        match kept_lengths(folder)? {
            Some([exact, shown, outcomes]) => Ok(case.with_lengths(exact, shown, outcomes)),
            None => Ok(case),
        }
    }

    pub fn run_plain(&self) -> FilledBundle {
        let mut exact: Vec<u64> = earlier_cells(self.exact_len).collect();
        let mut shown: Vec<u64> = earlier_cells(self.shown_len).collect();
        let mut outcomes: Vec<u64> = earlier_cells(self.outcomes_len).collect();
        let BundleCase { own, book, fugitive, bundle, .. } = self;
        let answer = plain::account_bundle(
            own,
            book,
            fugitive,
            bundle,
            &mut exact,
            &mut shown,
            &mut outcomes,
        );
        FilledBundle { outcome: outcome_of(answer), exact, shown, outcomes }
    }

    /// Runs the proved desk, and checks that nothing around the lent cells and
    /// nothing in or around the files has changed.
    pub fn run_proved(&self) -> Result<FilledBundle, String> {
        let files = [&self.own, &self.book, &self.fugitive, &self.bundle];
        let lent = files.map(|file| Lent::file(file));
        let [own, book, fugitive, bundle] = lent.each_ref().map(Lent::middle);
        let lengths = [self.exact_len, self.shown_len, self.outcomes_len];
        let [mut exact, mut shown, mut outcomes] =
            lengths.map(|length| Lent::cells(earlier_cells(length)));
        let outcome = checkraven::account_bundle(
            own,
            book,
            fugitive,
            bundle,
            exact.middle_mut(),
            shown.middle_mut(),
            outcomes.middle_mut(),
        );
        check_memory(&lent, &files, &[&exact, &shown, &outcomes])?;
        let [exact, shown, outcomes] = [exact, shown, outcomes].map(|lent| lent.middle().to_vec());
        Ok(FilledBundle { outcome, exact, shown, outcomes })
    }

    /// What the lent cells hold by the paper's rule, whichever desk has filled
    /// them.
    fn check_lent_cells(&self, filled: &FilledBundle) -> Result<(), String> {
        if !filled.outcome.is_accepted() {
            return check_zero(&[&filled.exact, &filled.shown, &filled.outcomes]);
        }
        let sheets = self.sheet_count();
        let past_all_runs = self.run(sheets).start;
        check_kept(&filled.exact, past_all_runs, 0)?;
        check_kept(&filled.shown, past_all_runs, 0)?;
        check_kept(&filled.outcomes, sheets, 0)?;
        (0..sheets).try_for_each(|index| {
            let sheet = self.sheet_filled(filled, index);
            check_lent_cells(&self.sheet_alone(index), &sheet, self.run(index).start)
                .map_err(|fault| format!("sheet {}: {fault}", index + 1))
        })
    }

    /// Each sheet has come to what the proved desk gives for it alone, with a
    /// copy of its runs lent.
    fn check_sheets_alone(&self, filled: &FilledBundle) -> Result<(), String> {
        for index in 0..self.sheet_count() {
            let alone = run_proved_from(&self.sheet_alone(index), self.run(index).start)?;
            let here = self.sheet_filled(filled, index);
            if here.outcome != alone.outcome {
                let (here, alone) = (here.outcome, alone.outcome);
                return Err(format!("sheet {} is {here} and alone {alone}", index + 1));
            }
            if (here.exact, here.shown) != (alone.exact, alone.shown) {
                return Err(format!("sheet {} has other cells than alone", index + 1));
            }
        }
        Ok(())
    }
}

impl AnyCase for BundleCase {
    fn compare(&self) -> Result<Outcome, String> {
        let plain = self.run_plain();
        let proved = self.run_proved()?;
        check_answers(proved.outcome, plain.outcome)?;
        check_same_cells("outcomes", &proved.outcomes, &plain.outcomes)?;
        self.check_lent_cells(&plain).map_err(|fault| format!("plain Rust: {fault}"))?;
        self.check_lent_cells(&proved).map_err(|fault| format!("proved desk: {fault}"))?;
        check_same_cells("exact", &proved.exact, &plain.exact)?;
        if proved.outcome.is_accepted() {
            self.check_sheets_alone(&proved)?;
        }
        Ok(proved.outcome)
    }

    fn write(&self, folder: &Path) -> io::Result<()> {
        fs::create_dir_all(folder)?;
        fs::write(folder.join("own.bin"), &self.own)?;
        fs::write(folder.join("book.bin"), &self.book)?;
        fs::write(folder.join("fugitive.bin"), &self.fugitive)?;
        fs::write(folder.join("bundle.bin"), &self.bundle)?;
        keep_lengths(folder, [self.exact_len, self.shown_len, self.outcomes_len])
    }
}
