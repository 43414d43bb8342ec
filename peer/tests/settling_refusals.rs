//! Tables that can't be settled, the room that is lent for the one after a step, and
//! which of the two is told first.

use peer::compare::{limited, thinned, StepCase, Tally};
use peer::make::tables::{self, table_of, BAD_UNITS, MOST_CELL};
use peer::make::{any_step_case, every_two, Random};
use peer::table::{COLUMNS, UNITS};

/// Two lines that are loose in every unit.
fn loose() -> Vec<u64> {
    table_of(&[[130_003, 70_000, 49_998, 5], [40_001, 80_000, 90_001, 7]])
}

fn taken(tally: &mut Tally, table: &[u64]) {
    for unit in 1..=3 {
        tally.expect_accepted(&StepCase::with_room(unit, table.to_vec()));
    }
}

/// With room and without.
fn off(tally: &mut Tally, table: &[u64]) {
    for unit in 1..=3 {
        let case = StepCase::with_room(unit, table.to_vec());
        tally.expect_refused(&case, 22, 0);
        tally.expect_refused(&StepCase { room: table.len() / 2, ..case }, 22, 0);
    }
}

#[test]
fn every_cell_one_off() {
    let mut tally = Tally::new("every_cell_one_off");
    let mut random = Random::new(721);
    let full = tables::table(&mut random, UNITS[1], 128);
    let whole = table_of(&[[UNITS[2]; 4]; 3]);
    for table in [loose(), whole, full] {
        taken(&mut tally, &table);
        let offs = [1, u64::MAX, UNITS[2], 1 << 32, 1 << 63];
        for (at, by) in thinned(every_two(&(0..table.len()).collect::<Vec<_>>(), &offs)) {
            let mut other = table.clone();
            other[at] = other[at].wrapping_add(by);
            off(&mut tally, &other);
        }
    }
}

/// A row that is off with its columns, and columns that are off with their rows.
#[test]
fn two_cells_off_by_the_same() {
    let mut tally = Tally::new("two_cells_off_by_the_same");
    let table = loose();
    let cells: Vec<usize> = (0..table.len()).collect();
    for (one, other) in thinned(every_two(&cells, &cells)) {
        for (by, and) in [(1, 1), (1, u64::MAX), (UNITS[2], UNITS[2])] {
            let mut damaged = table.clone();
            damaged[one] = damaged[one].wrapping_add(by);
            damaged[other] = damaged[other].wrapping_add(and);
            match damaged == table {
                true => taken(&mut tally, &damaged),
                false => off(&mut tally, &damaged),
            }
        }
    }
}

/// Up to 16 × 10^18, and one above it in a line, in a sum and in the sum of all alone.
#[test]
fn cells_at_the_limit() {
    let mut tally = Tally::new("cells_at_the_limit");
    for column in 0..COLUMNS - 1 {
        let line = |cell: u64| {
            let mut line = [0; COLUMNS - 1];
            line[column] = cell;
            line
        };
        taken(&mut tally, &table_of(&[line(MOST_CELL)]));
        taken(&mut tally, &table_of(&[line(MOST_CELL - 1), line(1)]));
        off(&mut tally, &table_of(&[line(MOST_CELL + 1)]));
        off(&mut tally, &table_of(&[line(u64::MAX)]));
        off(&mut tally, &table_of(&[line(MOST_CELL), line(1)]));
        off(&mut tally, &table_of(&[line(1), line(0), line(MOST_CELL)]));
    }
    taken(&mut tally, &table_of(&[[MOST_CELL / 4; 4]]));
    off(&mut tally, &table_of(&[[MOST_CELL / 2, MOST_CELL / 2 + 1, 0, 0]]));
    let only_the_sum = table_of(&[[MOST_CELL / 2, 0, 0, 0], [0, 0, 0, MOST_CELL / 2 + 1]]);
    assert_eq!(only_the_sum.iter().filter(|&&cell| cell > MOST_CELL).count(), 1);
    off(&mut tally, &only_the_sum);
}

/// All sums are right modulo 2^64, and no cell is above the limit.
fn come_round(lines: &[tables::Parts]) -> Option<Vec<u64>> {
    let table = table_of(lines);
    table.iter().all(|&cell| cell <= MOST_CELL).then_some(table)
}

#[test]
fn sums_that_are_right_modulo_two_to_the_64() {
    let mut tally = Tally::new("sums_that_are_right_modulo_two_to_the_64");
    let mut random = Random::new(722);
    let two_lines = come_round(&[[MOST_CELL, 0, 0, 0]; 2]).expect("2^64 is taken off");
    off(&mut tally, &two_lines);
    let one_row = come_round(&[[MOST_CELL, MOST_CELL, 0, 0]]).expect("2^64 is taken off");
    off(&mut tally, &one_row);
    for count in thinned((2..=128).collect()) {
        if let Some(table) = come_round(&vec![[0, 0, MOST_CELL, 0]; count]) {
            off(&mut tally, &table);
        }
    }
    for _ in 0..limited(3_000) {
        let count = 1 + random.index(4);
        let lines: Vec<_> = (0..count).map(|_| [0; 4].map(|_| random.up_to(MOST_CELL))).collect();
        let sum: u128 = lines.iter().flatten().map(|&cell| u128::from(cell)).sum();
        match come_round(&lines) {
            Some(table) if sum <= u128::from(MOST_CELL) => taken(&mut tally, &table),
            Some(table) => off(&mut tally, &table),
            None => {}
        }
    }
}

#[test]
fn tables_of_every_length() {
    let mut tally = Tally::new("tables_of_every_length");
    let mut random = Random::new(723);
    let longer = tables::table(&mut random, UNITS[0], 131);
    let lengths = (0..=12).chain(636..=662).chain([1_000, 1_290, 5_000, 65_540, 327_680]);
    for length in lengths {
        let zeros = vec![0; length];
        match length % COLUMNS == 0 && (1..=129).contains(&(length / COLUMNS)) {
            true => taken(&mut tally, &zeros),
            false => off(&mut tally, &zeros),
        }
        if let Some(cut) = longer.get(..length) {
            off(&mut tally, cut);
        }
    }
}

/// Rows of sums at the right place, with cells missing or left over behind them.
#[test]
fn right_tables_cut_and_lengthened() {
    let mut tally = Tally::new("right_tables_cut_and_lengthened");
    for lines in [0, 1, 2, 127, 128] {
        let table = table_of(&vec![[1, 20, 300, 4_000]; lines]);
        taken(&mut tally, &table);
        for off_by in 1..COLUMNS {
            off(&mut tally, &table[..table.len() - off_by]);
            off(&mut tally, &[&table[..], &vec![0; off_by]].concat());
        }
    }
    for rows in [130, 131, 256, 258, 13_108] {
        let lines = vec![[1, 20, 300, 4_000]; rows - 1];
        off(&mut tally, &table_of(&lines));
    }
}

#[test]
fn units_that_there_are_not() {
    let mut tally = Tally::new("units_that_there_are_not");
    for (unit, table) in every_two(&BAD_UNITS, &[vec![0; 5], loose(), table_of(&[[UNITS[2]; 4]])]) {
        let case = StepCase::with_room(unit, table);
        tally.expect_refused(&case, 22, 0);
        tally.expect_refused(&StepCase { room: 2, ..case }, 22, 0);
    }
    for bit in 2..64 {
        for code in 0..=3 {
            tally.expect_refused(&StepCase::with_room(code | 1 << bit, loose()), 22, 0);
        }
    }
}

/// A table of one row has the sums of no lines.
#[test]
fn one_row_is_all_zero() {
    let mut tally = Tally::new("one_row_is_all_zero");
    taken(&mut tally, &[0; 5]);
    for unit in [1, UNITS[0], UNITS[1], UNITS[2], MOST_CELL] {
        for column in 1..COLUMNS {
            let mut row = [unit, 0, 0, 0, 0];
            row[column] = unit;
            off(&mut tally, &row);
            row[0] = 0;
            off(&mut tally, &row);
        }
    }
}

/// Loose, whole and refused tables with every room from none to more than enough.
#[test]
fn every_room_around_the_need() {
    let mut tally = Tally::new("every_room_around_the_need");
    let whole = table_of(&[[UNITS[2]; 4]]);
    let mut refused = loose();
    refused[3] += 1;
    for table in [loose(), whole, vec![0; 5], refused.clone(), vec![], vec![0; 11]] {
        let is_right = table.len() % COLUMNS == 0 && !table.is_empty() && table != refused;
        for (unit, room) in every_two(&[1, 2, 3], &(0..=table.len() + 12).collect::<Vec<_>>()) {
            let case = StepCase { unit, table: table.clone(), room };
            match (is_right, room >= table.len()) {
                (false, _) => tally.expect_refused(&case, 22, 0),
                (true, false) => tally.expect_refused(&case, 3, 0),
                (true, true) => tally.expect_accepted(&case),
            }
        }
    }
}

#[test]
fn the_full_table_at_its_need_and_next_to_it() {
    let mut tally = Tally::new("the_full_table_at_its_need_and_next_to_it");
    let mut random = Random::new(724);
    for unit in 1..=3 {
        let table = tables::table(&mut random, UNITS[unit as usize - 1], 128);
        for room in [0, 1, 5, 640, 644] {
            tally.expect_refused(&StepCase { unit, table: table.clone(), room }, 3, 0);
        }
        for room in [645, 646, 650, 5_000, 70_000] {
            tally.expect_accepted(&StepCase { unit, table: table.clone(), room });
            let (unit, table) = (unit + 3, table.clone());
            tally.expect_refused(&StepCase { unit, table, room }, 22, 0);
        }
    }
}

#[test]
fn damaged_tables_of_any_size() {
    let mut tally = Tally::new("damaged_tables_of_any_size");
    let mut random = Random::new(725);
    for _ in 0..limited(15_000) {
        tally.agree(&any_step_case(&mut random));
    }
}
