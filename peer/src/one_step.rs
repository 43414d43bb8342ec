//! Whether a table may follow another by one settling step: each sentence of the rule
//! by itself, whichever round was taken.

use crate::demand3;
use crate::table::{column_of, place_of, row_of};

/// A sentence that is broken. Rows and columns count from 1.
#[derive(Clone, Copy, Debug, PartialEq, Eq)]
pub enum Fault {
    NotTheSameShape,
    /// At least one more cell is whole.
    NoMoreWhole,
    /// No whole cell is broken.
    WholeCellBroken {
        row: usize,
        column: usize,
    },
    /// No cell is carried past a whole unit.
    PastAWholeUnit {
        row: usize,
        column: usize,
    },
    /// Sums are kept.
    Sum(demand3::Fault),
    /// The cells of one closed round only.
    NotOneRound,
    /// None or two in each row.
    NotTwoInRow {
        row: usize,
    },
    /// None or two in each column.
    NotTwoInColumn {
        column: usize,
    },
    /// Each by the same amount.
    AnotherAmount {
        row: usize,
        column: usize,
    },
    /// A whole table stays.
    WholeTableChanged,
}

/// The sentences that the table after a step breaks, beside the one before, which has
/// its form. There are none where the step is allowed.
pub fn broken(before: &[u64], after: &[u64], unit: u64) -> Vec<Fault> {
    if before.len() != after.len() {
        return vec![Fault::NotTheSameShape];
    }
    if before.iter().all(|cell| cell % unit == 0) {
        return Vec::from_iter((before != after).then_some(Fault::WholeTableChanged));
    }
    let step = Step { before, after, unit };
    let sentences = [
        step.no_more_whole(),
        step.whole_cell_broken(),
        step.past_a_whole_unit(),
        demand3::check_sums(after).err().map(Fault::Sum),
        step.not_one_round(),
        step.not_two_in_row(),
        step.not_two_in_column(),
        step.another_amount(),
    ];
    sentences.into_iter().flatten().collect()
}

struct Step<'a> {
    before: &'a [u64],
    after: &'a [u64],
    unit: u64,
}

impl Step<'_> {
    fn no_more_whole(&self) -> Option<Fault> {
        let whole = |table: &[u64]| table.iter().filter(|&cell| cell % self.unit == 0).count();
        (whole(self.after) <= whole(self.before)).then_some(Fault::NoMoreWhole)
    }

    fn whole_cell_broken(&self) -> Option<Fault> {
        let is_whole = |cell: u64| cell.is_multiple_of(self.unit);
        let at = self.moved().find(|&at| is_whole(self.before[at]) && !is_whole(self.after[at]));
        at.map(place_of).map(|(row, column)| Fault::WholeCellBroken { row, column })
    }

    fn past_a_whole_unit(&self) -> Option<Fault> {
        let is_past = |&at: &usize| {
            let (before, after) = (self.before[at], self.after[at]);
            let (below, above) = (before / self.unit, before.div_ceil(self.unit));
            after < below * self.unit || after > above * self.unit
        };
        let at = self.moved().find(is_past);
        at.map(place_of).map(|(row, column)| Fault::PastAWholeUnit { row, column })
    }

    /// Walks from a cell that moves along its row to the other one there, from that
    /// along its column, and so on: back at the first cell, all have been met.
    fn not_one_round(&self) -> Option<Fault> {
        let first = self.moved().next()?;
        let (mut at, mut met) = (first, 0);
        while let Some(further) = self.along_row_and_column(at) {
            (at, met) = (further, met + 2);
            if at == first || met > self.before.len() {
                break;
            }
        }
        (at != first || met != self.moved().count()).then_some(Fault::NotOneRound)
    }

    fn along_row_and_column(&self, at: usize) -> Option<usize> {
        let beside = row_of(at).find(|&other| other != at && self.moves(other))?;
        let mut column = self.column_of(beside);
        column.find(|&other| other != beside && self.moves(other))
    }

    fn not_two_in_row(&self) -> Option<Fault> {
        let in_row = |at| row_of(at).filter(|&at| self.moves(at)).count();
        let at = self.moved().find(|&at| in_row(at) != 2)?;
        Some(Fault::NotTwoInRow { row: place_of(at).0 })
    }

    fn not_two_in_column(&self) -> Option<Fault> {
        let in_column = |at| self.column_of(at).filter(|&at| self.moves(at)).count();
        let at = self.moved().find(|&at| in_column(at) != 2)?;
        Some(Fault::NotTwoInColumn { column: place_of(at).1 })
    }

    fn another_amount(&self) -> Option<Fault> {
        let amount = |at: usize| self.before[at].abs_diff(self.after[at]);
        let first = amount(self.moved().next()?);
        let at = self.moved().find(|&at| amount(at) != first);
        at.map(place_of).map(|(row, column)| Fault::AnotherAmount { row, column })
    }

    fn moves(&self, at: usize) -> bool {
        self.before[at] != self.after[at]
    }

    fn moved(&self) -> impl Iterator<Item = usize> + '_ {
        (0..self.before.len()).filter(|&at| self.moves(at))
    }

    fn column_of(&self, at: usize) -> impl Iterator<Item = usize> {
        column_of(at, self.before.len())
    }
}

#[cfg(test)]
mod tests {
    use super::*;
    use crate::table::COLUMNS;
    use Fault::*;

    const UNIT: u64 = 10;

    /// Four lines and their sums. R and U of the first two lines are a round of loose
    /// cells, and so are D and F of the others; G is whole above the sums.
    const BEFORE: [u64; 25] = [
        20, 13, 7, 0, 0, //
        20, 4, 16, 0, 0, //
        20, 0, 0, 13, 7, //
        20, 0, 0, 4, 16, //
        80, 17, 23, 17, 23,
    ];

    /// A cell by row and column, and how far it moves.
    type Move = (usize, usize, i64);

    const ROUND: [Move; 4] = [(1, 2, -3), (1, 3, 3), (2, 2, 3), (2, 3, -3)];
    const OTHER_ROUND: [Move; 4] = [(3, 4, -3), (3, 5, 3), (4, 4, 3), (4, 5, -3)];

    fn moved(table: &[u64], moves: &[Move]) -> Vec<u64> {
        let mut table = table.to_vec();
        for &(row, column, by) in moves {
            let cell = &mut table[COLUMNS * (row - 1) + column - 1];
            *cell = cell.checked_add_signed(by).expect("no cell of the tests falls below 0");
        }
        table
    }

    fn broken_by(moves: &[Move]) -> Vec<Fault> {
        broken(&BEFORE, &moved(&BEFORE, moves), UNIT)
    }

    fn by(round: [Move; 4], times: i64) -> [Move; 4] {
        round.map(|(row, column, by)| (row, column, by / 3 * times))
    }

    #[test]
    fn any_one_round_is_allowed_either_way() {
        assert_eq!(broken_by(&ROUND), []);
        assert_eq!(broken_by(&OTHER_ROUND), []);
        assert_eq!(broken_by(&by(ROUND, -4)), []);
        let over_the_sums = [(1, 2, 3), (1, 3, -3), (5, 2, 3), (5, 3, -3)];
        assert_eq!(broken_by(&over_the_sums), []);
    }

    #[test]
    fn a_whole_table_stays() {
        let whole = BEFORE.map(|cell| cell * UNIT);
        assert_eq!(broken(&whole, &whole, UNIT), []);
        let mut changed = whole;
        changed[0] += UNIT;
        assert_eq!(broken(&whole, &changed, UNIT), [WholeTableChanged]);
    }

    #[test]
    fn one_more_cell_must_be_whole() {
        assert_eq!(broken_by(&[]), [NoMoreWhole], "nothing changed though cells are loose");
        assert_eq!(broken_by(&by(ROUND, 2)), [NoMoreWhole]);
    }

    /// G of line 1 is whole; it moves with R and the sums of both.
    #[test]
    fn a_whole_cell_must_stay() {
        let by = |by| broken_by(&[(1, 1, by), (1, 2, by), (5, 1, by), (5, 2, by)]);
        let past = |row, column| PastAWholeUnit { row, column };
        let broken = WholeCellBroken { row: 1, column: 1 };
        assert_eq!(by(-3), [NoMoreWhole, broken, past(1, 1)]);
        assert_eq!(by(-10), [NoMoreWhole, past(1, 1)], "whole again, and past a unit");
    }

    #[test]
    fn no_cell_may_pass_a_whole_unit() {
        assert_eq!(broken_by(&by(ROUND, 13)), [PastAWholeUnit { row: 1, column: 2 }]);
    }

    #[test]
    fn sums_must_be_kept() {
        let rows_off = [(1, 2, -3), (1, 3, -3), (2, 2, 3), (2, 3, 3)];
        assert_eq!(broken_by(&rows_off), [Sum(demand3::Fault::Row { row: 1 })]);
        let columns_off = [(1, 2, -3), (1, 3, 3), (2, 2, -3), (2, 3, 3)];
        assert_eq!(broken_by(&columns_off), [Sum(demand3::Fault::Column { column: 2 })]);
    }

    #[test]
    fn two_rounds_at_once_are_no_step() {
        assert_eq!(broken_by(&[ROUND, OTHER_ROUND].concat()), [NotOneRound]);
        let two_amounts = [ROUND, by(OTHER_ROUND, 1)].concat();
        let another = AnotherAmount { row: 3, column: 4 };
        assert_eq!(broken_by(&two_amounts), [NotOneRound, another]);
    }

    /// R, U, D and F of a line in turn with those of another.
    #[test]
    fn four_cells_of_a_row_are_no_round() {
        let other = [(1, 4, 3), (1, 5, -3), (2, 4, -3), (2, 5, 3)];
        let before = [40, 13, 7, 7, 13, 40, 4, 16, 16, 4, 80, 17, 23, 23, 17];
        let after = moved(&before, &[ROUND, other].concat());
        assert_eq!(broken(&before, &after, UNIT), [NotOneRound, NotTwoInRow { row: 1 }]);
    }

    /// R and U of four lines.
    #[test]
    fn four_cells_of_a_column_are_no_round() {
        let before = [[20, 13, 7, 0, 0], [20, 4, 16, 0, 0], [20, 13, 7, 0, 0], [20, 4, 16, 0, 0]];
        let before = [&before.concat()[..], &[80, 34, 46, 0, 0]].concat();
        let below = ROUND.map(|(row, column, by)| (row + 2, column, by));
        let after = moved(&before, &[ROUND, below].concat());
        assert_eq!(broken(&before, &after, UNIT), [NotOneRound, NotTwoInColumn { column: 2 }]);
    }

    /// R of line 2 moves less than the others, and U of line 1.
    #[test]
    fn one_round_moves_by_one_amount() {
        let moves = [(1, 2, -3), (1, 3, 3), (2, 2, 2), (2, 3, -2)];
        let another = AnotherAmount { row: 2, column: 2 };
        assert_eq!(broken_by(&moves), [Sum(demand3::Fault::Column { column: 2 }), another]);
    }

    #[test]
    fn a_walk_that_does_not_close_is_no_round() {
        let open = [(1, 2, -3), (1, 3, 3), (2, 3, -3)];
        let faults = broken_by(&open);
        assert_eq!(faults[0], Sum(demand3::Fault::Row { row: 2 }));
        let (row, column) = (NotTwoInRow { row: 2 }, NotTwoInColumn { column: 2 });
        assert_eq!(faults[1..], [NotOneRound, row, column]);
    }

    #[test]
    fn tables_of_two_shapes_are_no_step() {
        assert_eq!(broken(&BEFORE, &BEFORE[5..], UNIT), [NotTheSameShape]);
    }
}
