//! Text sheets on both desks: read, written, and accounted for in the place of
//! binary ones.

use super::lent::{earlier_bytes, earlier_cells, Lent};
use super::{
    check_answers, check_lent_cells, check_memory, check_same_cells, keep_lengths, kept_lengths,
    outcome_of, read_fugitive, read_own, run_proved, AnyCase, Case, Filled,
};
use crate::{plain, rfc4180};
use checkraven::{Outcome, Refused, MOST_CELLS, MOST_SHEET, MOST_SHEET_TEXT, NO_FUGITIVE, NO_OWN};
use std::fs;
use std::io;
use std::path::Path;

/// Which way a sheet goes between text and binary.
#[derive(Clone, Copy, Debug, PartialEq, Eq, Hash)]
pub enum Way {
    Read,
    Write,
}

/// A text to be read or a binary sheet to be written, and how many bytes are
/// lent for what comes of it.
#[derive(Clone, Debug, Hash)]
pub struct Conversion {
    pub way: Way,
    pub input: Vec<u8>,
    pub room: usize,
}

/// How many bytes a desk has written or why it has not, and what all lent bytes
/// hold afterwards.
pub struct Converted {
    pub answer: Result<usize, Outcome>,
    pub lent: Vec<u8>,
}

impl Converted {
    pub(super) fn outcome(&self) -> Outcome {
        self.answer.map_or_else(|refused| refused, |_| Outcome::Accepted)
    }

    /// What was written, nothing after a refusal.
    pub fn bytes(&self) -> &[u8] {
        &self.lent[..self.answer.unwrap_or(0)]
    }

    /// What lent bytes hold by the paper's rule, whichever desk has filled them.
    pub(super) fn check_lent(&self) -> Result<(), String> {
        let kept = |from: usize| {
            self.lent.iter().zip(earlier_bytes(self.lent.len())).skip(from).all(|(a, b)| *a == b)
        };
        match self.answer {
            Err(_) if self.lent.iter().any(|&byte| byte != 0) => {
                Err("bytes aren't zero after a refusal".to_string())
            }
            Ok(bytes) if bytes > self.lent.len() || !kept(bytes) => {
                Err("bytes past what is written haven't kept their values".to_string())
            }
            _ => Ok(()),
        }
    }

    /// The proved desk's answer and every lent byte beside plain Rust's.
    pub(super) fn check_same(&self, plain: &Converted) -> Result<(), String> {
        if self.answer != plain.answer {
            return Err(format!("proved desk {:?}, plain Rust {:?}", self.answer, plain.answer));
        }
        match (0..plain.lent.len()).find(|&at| plain.lent[at] != self.lent[at]) {
            Some(at) => {
                let [proved, plain] = [self, plain].map(|converted| converted.lent[at]);
                Err(format!("byte {at}: proved desk {proved}, plain Rust {plain}"))
            }
            None => Ok(()),
        }
    }
}

impl Conversion {
    /// With room: the 64 bytes of a line come from 25 or more of a text.
    pub fn read(text: &[u8]) -> Self {
        let room = (80 + 3 * text.len()).min(MOST_SHEET) + 3;
        Conversion { way: Way::Read, input: text.to_vec(), room }
    }

    /// With room: neither the first record nor that of a line has more than three
    /// times the bytes of the header or the line.
    pub fn write(sheet: &[u8]) -> Self {
        let room = (3 * sheet.len()).min(MOST_SHEET_TEXT) + 3;
        Conversion { way: Way::Write, input: sheet.to_vec(), room }
    }

    pub fn with_room(self, room: usize) -> Self {
        Conversion { room, ..self }
    }

    fn file_name(&self) -> &'static str {
        match self.way {
            Way::Read => "sheet.csv",
            Way::Write => "sheet.bin",
        }
    }

    /// Takes a folder that has no book: a text, or else a binary sheet.
    pub fn from_folder(folder: &Path) -> io::Result<Self> {
        let usual = match fs::read(folder.join("sheet.csv")) {
            Ok(text) => Conversion::read(&text),
            Err(_) => Conversion::write(&fs::read(folder.join("sheet.bin"))?),
        };
        match kept_lengths(folder)? {
            Some([room]) => Ok(usual.with_room(room)),
            None => Ok(usual),
        }
    }

    pub fn run_plain(&self) -> Converted {
        let mut lent: Vec<u8> = earlier_bytes(self.room).collect();
        let answer = match self.way {
            Way::Read => plain::sheet_from_text(&self.input, &mut lent),
            Way::Write => plain::text_from_sheet(&self.input, &mut lent),
        };
        Converted { answer: answer.map_err(|refusal| outcome_of(Err(refusal))), lent }
    }

    /// Runs the proved desk, and checks that nothing around the lent bytes and
    /// nothing in or around the file has changed.
    pub fn run_proved(&self) -> Result<Converted, String> {
        let file = [Lent::file(&self.input)];
        let input = file[0].middle();
        let mut lent = Lent::bytes(earlier_bytes(self.room));
        let answer =
            match self.way {
                Way::Read => checkraven::sheet_from_text_into(input, lent.middle_mut())
                    .map(|sheet| sheet.len()),
                Way::Write => checkraven::text_from_sheet_into(input, lent.middle_mut())
                    .map(|text| text.len()),
            };
        check_memory(&file, &[&self.input], &[])?;
        if !lent.margins_hold() {
            return Err("memory around the lent bytes has changed".to_string());
        }
        let refused = |refused: Refused| Outcome::Refused {
            number: refused.refusal.number(),
            line: refused.line,
        };
        Ok(Converted { answer: answer.map_err(refused), lent: lent.middle().to_vec() })
    }

    /// A text is refused with 12 just where the words of the rule refuse it.
    fn check_taken(&self, answer: Result<usize, Outcome>) -> Result<(), String> {
        let is_malformed = answer == Err(Outcome::Refused { number: 12, line: 0 });
        match self.way == Way::Read && is_malformed == rfc4180::is_taken(&self.input) {
            true => Err(format!("both desks {answer:?}, and not so the words of the rule")),
            false => Ok(()),
        }
    }

    /// Compares both desks; what the proved one has left, or what differs.
    fn agreed(&self) -> Result<Converted, String> {
        let plain = self.run_plain();
        let proved = self.run_proved()?;
        proved.check_same(&plain)?;
        self.check_taken(plain.answer)?;
        plain.check_lent().map_err(|fault| format!("plain Rust: {fault}"))?;
        proved.check_lent().map_err(|fault| format!("proved desk: {fault}"))?;
        Ok(proved)
    }
}

impl AnyCase for Conversion {
    fn compare(&self) -> Result<Outcome, String> {
        self.agreed().map(|converted| converted.outcome())
    }

    fn write(&self, folder: &Path) -> io::Result<()> {
        fs::create_dir_all(folder)?;
        fs::write(folder.join(self.file_name()), &self.input)?;
        keep_lengths(folder, [self.room])
    }
}

/// Two books, a fugitive table, a text sheet and the lengths of the two results.
#[derive(Clone, Debug, Hash)]
pub struct TextCase {
    pub own: Vec<u8>,
    pub book: Vec<u8>,
    pub fugitive: Vec<u8>,
    pub text: Vec<u8>,
    pub exact_len: usize,
    pub shown_len: usize,
}

impl TextCase {
    /// A case without own factors and without fugitive dust whose results have more
    /// room than any sheet needs.
    pub fn with_room(book: Vec<u8>, text: Vec<u8>) -> Self {
        let (exact_len, shown_len) = (MOST_CELLS + 3, MOST_CELLS + 5);
        let (own, fugitive) = (NO_OWN.to_vec(), NO_FUGITIVE.to_vec());
        TextCase { own, book, fugitive, text, exact_len, shown_len }
    }

    pub fn with_own(self, own: Vec<u8>) -> Self {
        TextCase { own, ..self }
    }

    pub fn with_fugitive(self, fugitive: Vec<u8>) -> Self {
        TextCase { fugitive, ..self }
    }

    pub fn with_lengths(self, exact_len: usize, shown_len: usize) -> Self {
        TextCase { exact_len, shown_len, ..self }
    }

    /// The same with the binary sheet of the text, as plain Rust reads it; with
    /// none where the text is malformed.
    pub fn with_binary_sheet(&self) -> Case {
        let sheet = Conversion::read(&self.text).run_plain().bytes().to_vec();
        let TextCase { own, book, fugitive, exact_len, shown_len, .. } = self.clone();
        Case { own, book, fugitive, sheet, exact_len, shown_len }
    }

    /// Reads a folder again; without lengths the results have room.
    pub fn read(folder: &Path) -> io::Result<Self> {
        let book = fs::read(folder.join("book.bin"))?;
        let case = TextCase::with_room(book, fs::read(folder.join("sheet.csv"))?);
        let case = case.with_own(read_own(folder)).with_fugitive(read_fugitive(folder));
        match kept_lengths(folder)? {
            Some([exact_len, shown_len]) => Ok(case.with_lengths(exact_len, shown_len)),
            None => Ok(case),
        }
    }

    pub fn run_plain(&self) -> Filled {
        let mut exact: Vec<u64> = earlier_cells(self.exact_len).collect();
        let mut shown: Vec<u64> = earlier_cells(self.shown_len).collect();
        let TextCase { own, book, fugitive, text, .. } = self;
        let answer = plain::account_text(own, book, fugitive, text, &mut exact, &mut shown);
        Filled { outcome: outcome_of(answer), exact, shown }
    }

    /// Runs the proved desk, and checks that nothing around its results and
    /// nothing in or around the files has changed.
    pub fn run_proved(&self) -> Result<Filled, String> {
        let files = [&self.own, &self.book, &self.fugitive, &self.text];
        let lent = files.map(|file| Lent::file(file));
        let [own, book, fugitive, text] = lent.each_ref().map(Lent::middle);
        let mut exact = Lent::cells(earlier_cells(self.exact_len));
        let mut shown = Lent::cells(earlier_cells(self.shown_len));
        let (exact_cells, shown_cells) = (exact.middle_mut(), shown.middle_mut());
        let outcome = checkraven::account_text(own, book, fugitive, text, exact_cells, shown_cells);
        check_memory(&lent, &files, &[&exact, &shown])?;
        Ok(Filled { outcome, exact: exact.middle().to_vec(), shown: shown.middle().to_vec() })
    }

    /// Compares both desks, and the proved one with itself on the binary sheet;
    /// what it has left, or what differs.
    fn agreed(&self) -> Result<Filled, String> {
        let plain = self.run_plain();
        let proved = self.run_proved()?;
        check_answers(proved.outcome, plain.outcome)?;
        let binary = self.with_binary_sheet();
        check_lent_cells(&binary, &plain, 0).map_err(|fault| format!("plain Rust: {fault}"))?;
        check_lent_cells(&binary, &proved, 0).map_err(|fault| format!("proved desk: {fault}"))?;
        check_same_cells("exact", &proved.exact, &plain.exact)?;
        if !binary.sheet.is_empty() {
            check_alike("the text and its binary sheet", &proved, &run_proved(&binary)?)?;
        }
        Ok(proved)
    }
}

impl AnyCase for TextCase {
    fn compare(&self) -> Result<Outcome, String> {
        self.agreed().map(|filled| filled.outcome)
    }

    fn write(&self, folder: &Path) -> io::Result<()> {
        fs::create_dir_all(folder)?;
        fs::write(folder.join("own.bin"), &self.own)?;
        fs::write(folder.join("book.bin"), &self.book)?;
        fs::write(folder.join("fugitive.bin"), &self.fugitive)?;
        fs::write(folder.join("sheet.csv"), &self.text)?;
        keep_lengths(folder, [self.exact_len, self.shown_len])
    }
}

/// The same answer, and the same in every lent cell.
fn check_alike(what: &str, one: &Filled, other: &Filled) -> Result<(), String> {
    if one.outcome != other.outcome {
        return Err(format!("{what} are answered {} and {}", one.outcome, other.outcome));
    }
    match (&one.exact, &one.shown) == (&other.exact, &other.shown) {
        true => Ok(()),
        false => Err(format!("{what} have other cells")),
    }
}

/// A case whose sheet is written as text, and read again.
#[derive(Clone, Debug, Hash)]
pub struct ThereAndBack(pub Case);

impl ThereAndBack {
    /// What was written is read, and written again as it was; its answer and its
    /// cells are those of the sheet itself.
    fn compare_written(&self, text: &[u8]) -> Result<(), String> {
        let again = Conversion::read(text).agreed()?;
        if let Err(refused) = again.answer {
            return Err(format!("what was written is {refused}"));
        }
        if Conversion::write(again.bytes()).agreed()?.bytes() != text {
            return Err("what was written and read again is written otherwise".to_string());
        }
        let case = self.0.clone();
        let filled = run_proved(&case)?;
        let read_again = Case { sheet: again.bytes().to_vec(), ..case.clone() };
        check_alike("the sheet and the one read again", &filled, &run_proved(&read_again)?)?;
        let Case { own, book, fugitive, exact_len, shown_len, .. } = case;
        let as_text = TextCase { own, book, fugitive, text: text.to_vec(), exact_len, shown_len };
        check_alike("the sheet and its text", &filled, &as_text.agreed()?)
    }
}

impl AnyCase for ThereAndBack {
    /// The writer's outcome. The desk may refuse a sheet that the writer takes.
    fn compare(&self) -> Result<Outcome, String> {
        let written = Conversion::write(&self.0.sheet).agreed()?;
        if written.answer.is_ok() {
            self.compare_written(written.bytes())?;
        }
        Ok(written.outcome())
    }

    fn write(&self, folder: &Path) -> io::Result<()> {
        self.0.write(folder)
    }
}
