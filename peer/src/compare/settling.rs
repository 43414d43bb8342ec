//! One settling step on both desks, and how many there are. Both are held to the
//! sentences of the rule; which round it is, the rule leaves open, so the proved desk
//! is held to the words of its description besides.

use super::lent::{earlier_cells, Lent};
use super::{check_kept, check_zero, face, keep_lengths, kept_lengths, outcome_of, AnyCase};
use crate::table::{COLUMNS, UNITS};
use crate::{one_step, plain, which_round};
use checkraven::Outcome;
use std::fs;
use std::io;
use std::path::Path;

/// The code of a unit, a table, and how many cells are lent for the one after a step.
#[derive(Clone, Debug, Hash)]
pub struct StepCase {
    pub unit: u64,
    pub table: Vec<u64>,
    pub room: usize,
}

/// What a desk says of a table.
pub struct Stepped {
    /// Whether the step has changed something.
    pub answer: Result<bool, Outcome>,
    /// What all lent cells hold afterwards.
    pub lent: Vec<u64>,
    pub steps: Result<usize, Outcome>,
}

impl Stepped {
    /// The table after the step that has changed something, if it has.
    pub fn changed(&self, case: &StepCase) -> Option<Vec<u64>> {
        (self.answer == Ok(true)).then(|| self.lent[..case.table.len()].to_vec())
    }
}

impl StepCase {
    /// With more room than the table needs.
    pub fn with_room(unit: u64, table: Vec<u64>) -> Self {
        let room = table.len() + 3;
        StepCase { unit, table, room }
    }

    /// Reads a folder again, in which table.txt has the unit's code and the cells.
    pub fn read(folder: &Path) -> io::Result<Self> {
        let text = fs::read_to_string(folder.join("table.txt"))?;
        let numbers: Result<Vec<u64>, _> = text.split_whitespace().map(str::parse).collect();
        let numbers = numbers.map_err(io::Error::other)?;
        let (&unit, table) = numbers.split_first().ok_or(io::Error::other("no unit"))?;
        let case = StepCase::with_room(unit, table.to_vec());
        match kept_lengths(folder)? {
            Some([room]) => Ok(StepCase { room, ..case }),
            None => Ok(case),
        }
    }

    pub fn run_plain(&self) -> Stepped {
        let mut lent: Vec<u64> = earlier_cells(self.room).collect();
        let refused = |refusal| outcome_of(Err(refusal));
        let answer = plain::step(self.unit, &self.table, &mut lent).map_err(refused);
        Stepped { answer, lent, steps: self.plain_steps(&self.table) }
    }

    fn plain_steps(&self, table: &[u64]) -> Result<usize, Outcome> {
        plain::steps(self.unit, table).map_err(|refusal| outcome_of(Err(refusal)))
    }

    /// Runs the proved desk, and checks that nothing around the lent cells and
    /// nothing in or around the table has changed.
    pub fn run_proved(&self) -> Result<Stepped, String> {
        let table = Lent::cells(self.table.iter().copied());
        let mut lent = Lent::cells(earlier_cells(self.room));
        let answer = match face::step(self.unit, table.middle(), lent.middle_mut()) {
            0 => Ok(false),
            1 => Ok(true),
            2..65_536 => return Err("a step has answered neither 0 nor 1".to_string()),
            refused => Err(Outcome::from_answer(refused)),
        };
        if !table.is_still(&self.table) {
            return Err("the lent table, or memory around it, has changed".to_string());
        }
        if !lent.margins_hold() {
            return Err("memory around the lent cells has changed".to_string());
        }
        let steps = self.proved_steps(&self.table)?;
        Ok(Stepped { answer, lent: lent.middle().to_vec(), steps })
    }

    fn proved_steps(&self, table: &[u64]) -> Result<Result<usize, Outcome>, String> {
        let lent = Lent::cells(table.iter().copied());
        let steps = match face::steps(self.unit, lent.middle()) {
            steps @ 0..65_536 => Ok(steps as usize),
            refused => Err(Outcome::from_answer(refused)),
        };
        match lent.is_still(table) {
            true => Ok(steps),
            false => Err("counting has changed the table, or memory around it".to_string()),
        }
    }

    /// W of a table that is taken.
    fn shown_unit(&self) -> u64 {
        UNITS[self.unit as usize - 1]
    }

    /// What the lent cells hold by the rule, whichever desk has filled them.
    fn check_lent(&self, stepped: &Stepped) -> Result<(), String> {
        let Ok(changed) = stepped.answer else {
            return check_zero(&[&stepped.lent]);
        };
        let Some(after) = stepped.lent.get(..self.table.len()) else {
            return Err("taken without room for the table".to_string());
        };
        check_kept(&stepped.lent, self.table.len(), 0)?;
        let unit = self.shown_unit();
        let broken = one_step::broken(&self.table, after, unit);
        if !broken.is_empty() {
            return Err(format!("the step breaks {broken:?}"));
        }
        let is_loose = self.table.iter().any(|cell| cell % unit != 0);
        match changed == is_loose {
            true => Ok(()),
            false => Err(format!("the answer is {changed}, something is loose: {is_loose}")),
        }
    }

    /// A table that is refused has no count, and no other is refused for it. `after`
    /// is the count of the table after the step.
    fn check_steps(&self, stepped: &Stepped, after: Result<usize, Outcome>) -> Result<(), String> {
        let off = Outcome::Refused { number: plain::TABLE_OFF, line: 0 };
        let expected = match (stepped.answer, after) {
            (Err(outcome), _) if outcome == off => Err(off),
            (Err(_), _) => return stepped.steps.map(drop).map_err(|outcome| outcome.to_string()),
            (Ok(false), _) => Ok(0),
            (Ok(true), after) => after.map(|after| after + 1),
        };
        if stepped.steps != expected || expected.is_ok_and(|steps| steps > self.table.len()) {
            let Stepped { answer, steps, .. } = stepped;
            return Err(format!("{steps:?} steps, {after:?} after one, answer {answer:?}"));
        }
        Ok(())
    }

    /// The proved desk takes the round of its description.
    fn check_round(&self, proved: &Stepped) -> Result<(), String> {
        let Some(after) = proved.changed(self) else {
            return Ok(());
        };
        let expected = which_round::after_step(&self.table, self.shown_unit());
        match expected == Some(after) {
            true => Ok(()),
            false => Err("the round isn't the one that is described".to_string()),
        }
    }
}

impl AnyCase for StepCase {
    fn compare(&self) -> Result<Outcome, String> {
        let plain = self.run_plain();
        let proved = self.run_proved()?;
        if proved.answer != plain.answer {
            let (proved, plain) = (proved.answer, plain.answer);
            return Err(format!("proved desk {proved:?}, plain Rust {plain:?}"));
        }
        self.check_lent(&plain).map_err(|fault| format!("plain Rust: {fault}"))?;
        self.check_lent(&proved).map_err(|fault| format!("proved desk: {fault}"))?;
        self.check_round(&proved)?;
        let after = plain.changed(self).map_or(Ok(0), |after| self.plain_steps(&after));
        self.check_steps(&plain, after).map_err(|fault| format!("plain Rust: {fault}"))?;
        let after = proved.changed(self).map_or(Ok(Ok(0)), |after| self.proved_steps(&after))?;
        self.check_steps(&proved, after).map_err(|fault| format!("proved desk: {fault}"))?;
        Ok(proved.answer.map_or_else(|refused| refused, |_| Outcome::Accepted))
    }

    fn write(&self, folder: &Path) -> io::Result<()> {
        fs::create_dir_all(folder)?;
        let row = |cells: &[u64]| cells.iter().map(u64::to_string).collect::<Vec<_>>().join(" ");
        let rows = [row(&[self.unit])].into_iter().chain(self.table.chunks(COLUMNS).map(row));
        fs::write(folder.join("table.txt"), rows.collect::<Vec<_>>().join("\n") + "\n")?;
        keep_lengths(folder, [self.room])
    }
}
