//! The row that answers, on both desks: its bytes and which one it is.

use super::lent::{earlier_bytes, Lent};
use super::{
    check_memory, face, keep_lengths, kept_lengths, outcome_of, read_own, AnyCase, Converted,
};
use crate::plain::{self, Asked};
use checkraven::{Outcome, NO_OWN};
use std::fs;
use std::io;
use std::path::Path;

/// Bytes of a row.
const ROW: usize = 24;

/// Rows of the published book are counted from here on.
const OWN_ROWS: u64 = 1024;

/// Two books, the row that is asked for, and how many bytes are lent for it.
#[derive(Clone, Debug, Hash)]
pub struct RowCase {
    pub own: Vec<u8>,
    pub book: Vec<u8>,
    pub asked: Asked,
    pub room: usize,
}

/// What a desk says of a row.
pub struct Inspected {
    pub number: u64,
    /// How many bytes it has copied, and what all lent bytes hold afterwards.
    pub copied: Converted,
}

impl RowCase {
    /// A published book alone, with more room than a row needs.
    pub fn with_room(book: Vec<u8>, asked: Asked) -> Self {
        RowCase { own: NO_OWN.to_vec(), book, asked, room: ROW + 5 }
    }

    pub fn with_own(self, own: Vec<u8>) -> Self {
        RowCase { own, ..self }
    }

    /// Reads a folder again, in which asked.txt has the seven numbers.
    pub fn read(folder: &Path) -> io::Result<Self> {
        let text = fs::read_to_string(folder.join("asked.txt"))?;
        let numbers: Vec<u64> = text.split_whitespace().flat_map(str::parse).collect();
        let what = "asked.txt isn't seven numbers";
        let asked = numbers.try_into().map_err(|_| io::Error::other(what))?;
        let case = RowCase::with_room(fs::read(folder.join("book.bin"))?, asked);
        let case = case.with_own(read_own(folder));
        match kept_lengths(folder)? {
            Some([room]) => Ok(RowCase { room, ..case }),
            None => Ok(case),
        }
    }

    pub fn run_plain(&self) -> Inspected {
        let mut lent: Vec<u8> = earlier_bytes(self.room).collect();
        let RowCase { own, book, asked, .. } = self;
        let answer = plain::row_into(own, book, *asked, &mut lent);
        let answer = answer.map_err(|refusal| outcome_of(Err(refusal)));
        let number = plain::row_number(own, book, *asked);
        Inspected { number, copied: Converted { answer, lent } }
    }

    /// Runs the proved desk, and checks that nothing around the lent bytes and
    /// nothing in or around the books has changed.
    pub fn run_proved(&self) -> Result<Inspected, String> {
        let files = [&self.own, &self.book];
        let lent_files = files.map(|file| Lent::file(file));
        let [own, book] = lent_files.each_ref().map(Lent::middle);
        let mut lent = Lent::bytes(earlier_bytes(self.room));
        let answer = match face::row(own, book, self.asked, lent.middle_mut()) {
            bytes @ 0..65_536 => Ok(bytes as usize),
            refused => Err(Outcome::from_answer(refused)),
        };
        check_memory(&lent_files, &files, &[])?;
        if !lent.margins_hold() {
            return Err("memory around the lent bytes has changed".to_string());
        }
        let number = face::row_number(own, book, self.asked);
        check_memory(&lent_files, &files, &[])?;
        Ok(Inspected { number, copied: Converted { answer, lent: lent.middle().to_vec() } })
    }

    /// The bytes of a row by its number, nothing for 0; where it stands is written
    /// in the header of its book.
    fn part(&self, number: u64) -> Option<&[u8]> {
        let (book, row) = match number {
            0 => return Some(&[]),
            1..=OWN_ROWS => (&self.own, number - 1),
            _ => (&self.book, number - OWN_ROWS - 1),
        };
        let offset = u32::from_le_bytes(book.get(8..12)?.try_into().unwrap()) as usize;
        book.get(offset..)?.as_chunks::<ROW>().0.get(row as usize).map(<[u8; ROW]>::as_slice)
    }

    /// What was copied is the row of that number, in its book.
    fn check_part(&self, inspected: &Inspected) -> Result<(), String> {
        let Inspected { number, copied } = inspected;
        let part = self.part(*number).ok_or(format!("there is no row {number}"))?;
        let expected = match part.len() <= self.room {
            true => Ok(part.len()),
            false => Err(Outcome::Refused { number: plain::RESULT_TOO_SHORT, line: 0 }),
        };
        if copied.answer != expected {
            return Err(format!("row {number} is answered with {:?}", copied.answer));
        }
        match copied.bytes() == &part[..copied.bytes().len()] {
            true => Ok(()),
            false => Err(format!("what was copied isn't row {number}")),
        }
    }

    /// Compares both desks; what the proved one has left, or what differs.
    fn agreed(&self) -> Result<Inspected, String> {
        let plain = self.run_plain();
        let proved = self.run_proved()?;
        if proved.number != plain.number {
            return Err(format!("proved desk row {}, plain Rust {}", proved.number, plain.number));
        }
        for (desk, inspected) in [("plain Rust", &plain), ("proved desk", &proved)] {
            inspected.copied.check_lent().map_err(|fault| format!("{desk}: {fault}"))?;
            self.check_part(inspected).map_err(|fault| format!("{desk}: {fault}"))?;
        }
        proved.copied.check_same(&plain.copied)?;
        Ok(proved)
    }
}

impl AnyCase for RowCase {
    fn compare(&self) -> Result<Outcome, String> {
        self.agreed().map(|inspected| inspected.copied.outcome())
    }

    fn write(&self, folder: &Path) -> io::Result<()> {
        fs::create_dir_all(folder)?;
        fs::write(folder.join("own.bin"), &self.own)?;
        fs::write(folder.join("book.bin"), &self.book)?;
        let asked = self.asked.map(|number| number.to_string());
        fs::write(folder.join("asked.txt"), asked.join(" ") + "\n")?;
        keep_lengths(folder, [self.room])
    }
}
