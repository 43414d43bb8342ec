//! Tables being settled: one step, how many there are, and all of them one after the
//! other.

#[path = "../examples/shared/mod.rs"]
mod shared;

use checkraven::{cells_for, declare, settling, step, steps, Refusal, Refused, Tables, Unit};
use checkraven::{MOST_CELLS, MOST_LINES};
use shared::own_book;
use std::fs;
use std::path::PathBuf;

const UNITS: [Unit; 3] = [Unit::Gram, Unit::Kilogram, Unit::Tonne];

/// No cell may be above it.
const MOST: u64 = 16_000_000_000_000_000_000;

/// Two lines that are loose in every unit, and their sums.
const LOOSE: [u64; 15] = [
    250_001, 130_003, 70_000, 49_998, 0, //
    210_002, 40_001, 80_000, 90_001, 0, //
    460_003, 170_004, 150_000, 139_999, 0,
];

fn refused<T>(refusal: Refusal) -> Result<T, Refused> {
    Err(Refused { refusal, line: 0 })
}

/// Every example that is accepted.
fn examples() -> Vec<Tables> {
    let examples = concat!(env!("CARGO_MANIFEST_DIR"), "/../examples");
    let entries = fs::read_dir(examples).expect("the examples folder is there");
    let mut folders: Vec<PathBuf> = entries.flatten().map(|entry| entry.path()).collect();
    folders.retain(|folder| folder.join("sheet.bin").exists());
    let declared = |folder: PathBuf| {
        let file = |name| fs::read(folder.join(name)).expect("the example is whole");
        let own = own_book(folder.join("own.bin"));
        declare(&own, &file("book.bin"), &file("fugitive.bin"), &file("sheet.bin")).ok()
    };
    folders.into_iter().filter_map(declared).collect()
}

fn assert_off(table: &[u64]) {
    for unit in UNITS {
        let mut next = [7; MOST_CELLS + 9];
        assert_eq!(step(unit, table, &mut next), refused(Refusal::TableOff), "{table:?}");
        assert_eq!(next, [0; MOST_CELLS + 9], "all lent cells are zero");
        assert_eq!(steps(unit, table), refused(Refusal::TableOff), "{table:?}");
        assert_eq!(settling(unit, table).err(), refused::<()>(Refusal::TableOff).err());
    }
}

#[test]
fn a_step_moves_one_round_by_one_amount() {
    for unit in UNITS {
        let mut next = [7; 17];
        assert_eq!(step(unit, &LOOSE, &mut next), Ok(true));
        let changes = || LOOSE.iter().zip(&next).filter(|(from, to)| from != to);
        let amounts: Vec<u64> = changes().map(|(from, &to)| from.abs_diff(to)).collect();
        assert!(amounts.len() >= 4 && amounts.iter().all(|&amount| amount == amounts[0]));
        assert!(changes().any(|(_, to)| to % unit.exact() == 0), "one more cell is whole");
        assert_eq!(next[15..], [7, 7], "the cells past the table keep their values");
    }
}

/// Cell by cell, as the steps of the desk's own description go.
#[test]
fn the_round_is_the_documented_one() {
    let table = [25, 13, 7, 5, 0, 21, 4, 8, 9, 0, 46, 17, 15, 14, 0].map(|cell| cell * 10_000);
    let after = [22, 10, 7, 5, 0, 24, 7, 8, 9, 0, 46, 17, 15, 14, 0].map(|cell| cell * 10_000);
    let end = [2, 1, 0, 1, 0, 2, 0, 1, 1, 0, 4, 1, 1, 2, 0].map(|cell| cell * 100_000);
    let tables: Vec<_> = settling(Unit::Gram, &table).expect("it is taken").collect();
    assert_eq!((tables.len(), &tables[0][..], &tables[4][..]), (5, &after[..], &end[..]));
}

#[test]
fn a_whole_table_stays() {
    for unit in UNITS {
        let line = [3, 1, 1, 1, 0].map(|cell| cell * unit.exact());
        let table = [line, line].concat();
        let mut next = [7; 11];
        assert_eq!(step(unit, &table, &mut next), Ok(false));
        assert_eq!((&next[..10], next[10]), (&table[..], 7));
        assert_eq!(steps(unit, &table), Ok(0));
        let mut none = settling(unit, &table).expect("it is taken");
        assert_eq!((none.len(), none.next()), (0, None));
        assert_eq!(none.table(), table);
    }
}

/// A table of one row is the sums of no lines.
#[test]
fn a_table_without_lines_is_all_zero() {
    for unit in UNITS {
        let mut next = [7; 6];
        assert_eq!(step(unit, &[0; 5], &mut next), Ok(false));
        assert_eq!((next, steps(unit, &[0; 5])), ([0, 0, 0, 0, 0, 7], Ok(0)));
    }
    assert_off(&[1, 1, 0, 0, 0]);
    assert_off(&[100_000_000_000, 0, 0, 100_000_000_000, 0]);
}

#[test]
fn tables_of_other_lengths_are_refused() {
    for length in [0, 1, 4, 6, 9, 11, 14, 16, 644, 646, 649, 650, 655, 1290] {
        assert_off(&vec![0; length]);
    }
    for rows in [1, 2, 128, 129] {
        let table = vec![0; 5 * rows];
        assert_eq!(steps(Unit::Tonne, &table), Ok(0), "{rows} rows");
    }
}

#[test]
fn every_cell_counts_in_a_sum() {
    for at in 0..LOOSE.len() {
        for off in [1, u64::MAX, 100_000] {
            let mut table = LOOSE;
            table[at] = table[at].wrapping_add(off);
            assert_off(&table);
        }
    }
}

#[test]
fn cells_up_to_the_limit_are_taken() {
    let line = |cell: u64| [cell, 0, 0, cell, 0];
    assert_eq!(steps(Unit::Gram, &[line(MOST), line(MOST)].concat()), Ok(0));
    assert_eq!(steps(Unit::Gram, &[line(MOST - 1), line(MOST - 1)].concat()), Ok(1));
    assert_off(&[line(MOST + 1), line(MOST + 1)].concat());
    assert_off(&[line(MOST), line(1), line(MOST + 1)].concat());
}

/// 2^64 more or less in a row or a column is another number.
#[test]
fn sums_are_numbers_and_come_round_nowhere() {
    let past = MOST.wrapping_add(MOST);
    assert_off(&[[past, MOST, 0, MOST, 0], [past, MOST, 0, MOST, 0]].concat());
    assert_off(&[[MOST, 0, 0, MOST, 0], [MOST, 0, 0, MOST, 0], [past, 0, 0, past, 0]].concat());
}

#[test]
fn room_comes_after_the_table() {
    for room in 0..15 {
        let mut next = vec![7; room];
        assert_eq!(step(Unit::Gram, &LOOSE, &mut next), refused(Refusal::ResultTooShort));
        assert_eq!(next, vec![0; room], "all lent cells are zero");
        let mut off = LOOSE;
        off[14] += 1;
        next.fill(7);
        assert_eq!(step(Unit::Gram, &off, &mut next), refused(Refusal::TableOff));
        assert_eq!(next, vec![0; room], "all lent cells are zero");
    }
    for room in 15..20 {
        assert_eq!(step(Unit::Gram, &LOOSE, &mut vec![7; room]), Ok(true));
    }
    assert_eq!(step(Unit::Gram, &[0; 5], &mut [7; 4]), refused(Refusal::ResultTooShort));
}

/// The same tables as step after step, in the same order, and as many as are told
/// before each.
#[test]
fn the_iterator_gives_the_tables_after_each_step() {
    for unit in UNITS {
        let mut all = settling(unit, &LOOSE).expect("it is taken");
        let mut table = LOOSE.to_vec();
        let mut next = vec![7; LOOSE.len()];
        while step(unit, &table, &mut next) == Ok(true) {
            assert_eq!((all.table(), Ok(all.len())), (&table[..], steps(unit, &table)));
            assert_eq!(all.next().as_ref(), Some(&next));
            table.copy_from_slice(&next);
        }
        assert_eq!((all.len(), all.table()), (0, &table[..]));
        assert_eq!((all.next(), all.next(), steps(unit, &table)), (None, None, Ok(0)));
    }
}

#[test]
fn the_end_is_the_shown_table() {
    let examples = examples();
    assert!(examples.len() >= 10, "the examples are there");
    let mut most = 0;
    for tables in examples {
        let unit = tables.unit();
        let mut all = settling(unit, tables.exact_cells()).expect("it is taken");
        let count = all.len();
        assert_eq!((&mut all).count(), count);
        let whole = |cell: &u64| (cell / unit.exact(), cell % unit.exact());
        let end: Vec<(u64, u64)> = all.table().iter().map(whole).collect();
        assert!(end.into_iter().eq(tables.shown_cells().iter().map(|&shown| (shown, 0))));
        assert!(count <= cells_for(tables.lines().len()));
        most = most.max(count);
    }
    assert!(most > MOST_LINES, "the full sheet takes some steps for each of its lines");
}

/// The cells of [`Tables`] are those of its rows.
#[test]
fn cells_are_those_of_the_rows() {
    for tables in examples() {
        let rows = tables.lines().map(|line| (line.exact, line.shown));
        let total = (tables.total().exact, tables.total().shown);
        for (index, (exact, shown)) in rows.chain([total]).enumerate() {
            for (row, cells) in [(exact, tables.exact_cells()), (shown, tables.shown_cells())] {
                let cells = [row.generated, row.removed, row.reused, row.discharged, row.fugitive]
                    .into_iter()
                    .zip(&cells[5 * index..5 * index + 5]);
                assert!({ cells }.all(|(of_the_row, &cell)| of_the_row == cell));
            }
        }
        assert_eq!(tables.exact_cells().len(), cells_for(tables.lines().len()));
        assert_eq!(tables.shown_cells().len(), cells_for(tables.lines().len()));
    }
}
