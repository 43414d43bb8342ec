//! Runs the proved desk and the plain one on a case and compares everything
//! they leave behind: the answer, every lent cell or byte and the memory around.

mod bundle;
pub mod face;
mod lent;
mod row;
mod settling;
mod tally;
mod text;

use crate::table::UNITS;
use crate::{demand3, plain};
use checkraven::{cells_for, Outcome, MOST_LINES, NO_FUGITIVE, NO_OWN};
use lent::{earlier_cell, Lent};
use std::fs;
use std::hash::{DefaultHasher, Hash, Hasher};
use std::io;
use std::path::{Path, PathBuf};

pub use bundle::{BundleCase, FilledBundle};
pub use lent::{at_address, earlier_bytes, earlier_cells};
pub use row::{Inspected, RowCase};
pub use settling::{StepCase, Stepped};
pub use tally::{limited, thinned, Tally};
pub use text::{Conversion, Converted, TextCase, ThereAndBack, Way};

/// A case of any sort: one sheet, a bundle, a text sheet, a row, a table.
pub trait AnyCase: Hash {
    /// Compares both desks; the agreed outcome, or what differs.
    fn compare(&self) -> Result<Outcome, String>;

    fn write(&self, folder: &Path) -> io::Result<()>;
}

/// Four files and the lengths of the two results.
#[derive(Clone, Debug, Hash)]
pub struct Case {
    pub own: Vec<u8>,
    pub book: Vec<u8>,
    pub fugitive: Vec<u8>,
    pub sheet: Vec<u8>,
    pub exact_len: usize,
    pub shown_len: usize,
}

impl Case {
    /// A case without own factors and without fugitive dust whose results have a
    /// little more room than the sheet needs.
    pub fn with_room(book: Vec<u8>, sheet: Vec<u8>) -> Self {
        let (own, fugitive) = (NO_OWN.to_vec(), NO_FUGITIVE.to_vec());
        let mut case = Case { own, book, fugitive, sheet, exact_len: 0, shown_len: 0 };
        let cells = cells_for(case.line_count().min(MOST_LINES));
        case.exact_len = cells + 3;
        case.shown_len = cells + 5;
        case
    }

    pub fn with_own(self, own: Vec<u8>) -> Self {
        Case { own, ..self }
    }

    pub fn with_fugitive(self, fugitive: Vec<u8>) -> Self {
        Case { fugitive, ..self }
    }

    pub fn with_lengths(self, exact_len: usize, shown_len: usize) -> Self {
        Case { exact_len, shown_len, ..self }
    }

    /// The line count of the sheet's header, 0 without one.
    pub fn line_count(&self) -> usize {
        match self.sheet.get(4..6) {
            Some(field) => u16::from_le_bytes(field.try_into().unwrap()) as usize,
            None => 0,
        }
    }

    /// W of an accepted sheet.
    pub fn shown_unit(&self) -> u64 {
        UNITS[self.sheet[12] as usize - 1]
    }

    /// Reads a folder again; without lengths the results have room.
    pub fn read(folder: &Path) -> io::Result<Self> {
        let book = fs::read(folder.join("book.bin"))?;
        let sheet = fs::read(folder.join("sheet.bin"))?;
        let case = Case::with_room(book, sheet).with_own(read_own(folder));
        let case = case.with_fugitive(read_fugitive(folder));
        match kept_lengths(folder)? {
            Some([exact_len, shown_len]) => Ok(case.with_lengths(exact_len, shown_len)),
            None => Ok(case),
        }
    }
}

impl AnyCase for Case {
    fn compare(&self) -> Result<Outcome, String> {
        let plain = run_plain(self);
        let proved = run_proved(self)?;
        check_answers(proved.outcome, plain.outcome)?;
        check_lent_cells(self, &plain, 0).map_err(|fault| format!("plain Rust: {fault}"))?;
        check_lent_cells(self, &proved, 0).map_err(|fault| format!("proved desk: {fault}"))?;
        check_same_cells("exact", &proved.exact, &plain.exact)?;
        Ok(proved.outcome)
    }

    fn write(&self, folder: &Path) -> io::Result<()> {
        fs::create_dir_all(folder)?;
        fs::write(folder.join("own.bin"), &self.own)?;
        fs::write(folder.join("book.bin"), &self.book)?;
        fs::write(folder.join("fugitive.bin"), &self.fugitive)?;
        fs::write(folder.join("sheet.bin"), &self.sheet)?;
        keep_lengths(folder, [self.exact_len, self.shown_len])
    }
}

/// A desk's answer and what the results hold afterwards.
pub struct Filled {
    pub outcome: Outcome,
    pub exact: Vec<u64>,
    pub shown: Vec<u64>,
}

pub fn run_plain(case: &Case) -> Filled {
    let mut exact: Vec<u64> = earlier_cells(case.exact_len).collect();
    let mut shown: Vec<u64> = earlier_cells(case.shown_len).collect();
    let Case { own, book, fugitive, sheet, .. } = case;
    let answer = plain::account(own, book, fugitive, sheet, &mut exact, &mut shown);
    Filled { outcome: outcome_of(answer), exact, shown }
}

fn outcome_of(answer: Result<(), plain::Refusal>) -> Outcome {
    match answer {
        Ok(()) => Outcome::Accepted,
        Err(plain::Refusal { number, line }) => Outcome::Refused { number, line },
    }
}

/// Runs the proved desk, and checks that nothing around its results and
/// nothing in or around the files has changed.
pub fn run_proved(case: &Case) -> Result<Filled, String> {
    run_proved_from(case, 0)
}

/// The same, with results that hold the earlier cells from `first` on.
fn run_proved_from(case: &Case, first: usize) -> Result<Filled, String> {
    let earlier = |length| (first..first + length).map(earlier_cell);
    let files = [&case.own, &case.book, &case.fugitive, &case.sheet];
    let lent = files.map(|file| Lent::file(file));
    let [own, book, fugitive, sheet] = lent.each_ref().map(Lent::middle);
    let mut exact = Lent::cells(earlier(case.exact_len));
    let mut shown = Lent::cells(earlier(case.shown_len));
    let outcome =
        checkraven::account(own, book, fugitive, sheet, exact.middle_mut(), shown.middle_mut());
    check_memory(&lent, &files, &[&exact, &shown])?;
    Ok(Filled { outcome, exact: exact.middle().to_vec(), shown: shown.middle().to_vec() })
}

fn check_memory(
    lent: &[Lent<u8>],
    files: &[&Vec<u8>],
    results: &[&Lent<u64>],
) -> Result<(), String> {
    if !lent.iter().zip(files).all(|(lent, file)| lent.is_still(file)) {
        return Err("a lent file, or memory around it, has changed".to_string());
    }
    if !results.iter().all(|result| result.margins_hold()) {
        return Err("memory around a result has changed".to_string());
    }
    Ok(())
}

fn check_answers(proved: Outcome, plain: Outcome) -> Result<(), String> {
    match proved == plain {
        true => Ok(()),
        false => Err(format!("proved desk {proved:?}, plain Rust {plain:?}")),
    }
}

fn check_same_cells(name: &str, proved: &[u64], plain: &[u64]) -> Result<(), String> {
    match (0..plain.len()).find(|&at| plain[at] != proved[at]) {
        Some(at) => {
            Err(format!("{name} cell {at}: proved desk {}, plain Rust {}", proved[at], plain[at]))
        }
        None => Ok(()),
    }
}

/// What results hold by the paper's rule, whichever desk has filled them. They
/// held the earlier cells from `first` on.
fn check_lent_cells(case: &Case, result: &Filled, first: usize) -> Result<(), String> {
    if !result.outcome.is_accepted() {
        return check_zero(&[&result.exact, &result.shown]);
    }
    let cells = cells_for(case.line_count());
    if result.exact.len() < cells || result.shown.len() < cells {
        return Err("accepted without room for the tables".to_string());
    }
    check_kept(&result.exact, cells, first)?;
    check_kept(&result.shown, cells, first)?;
    demand3::check(&result.exact[..cells], &result.shown[..cells], case.shown_unit())
        .map_err(|fault| format!("the shown table isn't allowed: {fault:?}"))
}

fn check_zero(results: &[&[u64]]) -> Result<(), String> {
    let all_zero = results.iter().all(|cells| cells.iter().all(|&cell| cell == 0));
    all_zero.then_some(()).ok_or("cells aren't zero after a refusal".to_string())
}

/// The cells from `end` on have kept their values, of which the first of all
/// was `earlier_cell(first)`.
fn check_kept(cells: &[u64], end: usize, first: usize) -> Result<(), String> {
    let kept = (end..cells.len()).all(|at| cells[at] == earlier_cell(first + at));
    kept.then_some(()).ok_or("cells past what is written haven't kept their values".to_string())
}

/// A folder's own book. A works that has none there has no factors of its own; one
/// that can't be read counts as empty.
pub fn read_own(folder: &Path) -> Vec<u8> {
    match fs::read(folder.join("own.bin")) {
        Err(error) if error.kind() == io::ErrorKind::NotFound => NO_OWN.to_vec(),
        read => read.unwrap_or_default(),
    }
}

/// A folder's fugitive table, which counts as empty where there is none.
fn read_fugitive(folder: &Path) -> Vec<u8> {
    fs::read(folder.join("fugitive.bin")).unwrap_or_default()
}

/// Writes a case on which the desks disagree, so that it can be replayed.
pub fn keep(name: &str, case: &impl AnyCase, what: &str) -> PathBuf {
    let mut hasher = DefaultHasher::new();
    case.hash(&mut hasher);
    let folder = Path::new(env!("CARGO_MANIFEST_DIR"))
        .join("disagreements")
        .join(format!("{name}-{:016x}", hasher.finish()));
    let written = case.write(&folder).and_then(|()| fs::write(folder.join("what.txt"), what));
    if let Err(error) = written {
        eprintln!("{} can't be written: {error}", folder.display());
    }
    folder
}

/// The lengths of the lent results, in their order.
fn keep_lengths<const N: usize>(folder: &Path, lengths: [usize; N]) -> io::Result<()> {
    let words = lengths.map(|length| length.to_string());
    fs::write(folder.join("lengths.txt"), words.join(" ") + "\n")
}

fn kept_lengths<const N: usize>(folder: &Path) -> io::Result<Option<[usize; N]>> {
    let Ok(text) = fs::read_to_string(folder.join("lengths.txt")) else {
        return Ok(None);
    };
    let lengths: Vec<usize> = text.split_whitespace().flat_map(str::parse).collect();
    let what = format!("lengths.txt isn't {N} numbers");
    lengths.try_into().map(Some).map_err(|_| io::Error::new(io::ErrorKind::InvalidData, what))
}
