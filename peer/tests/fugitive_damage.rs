//! Fugitive tables that are changed, cut or made longer. Each is held to the words
//! of the rule, and a right one to both desks.

use checkraven::Outcome;
use peer::compare::{limited, run_proved, thinned, Case, Tally};
use peer::make::damage::{damage_table, own_length};
use peer::make::dust::{book, by_energy, by_hours, case, sheet, table};
use peer::make::generate::{case_up_to, Size};
use peer::make::{edges, every_two, Entry, Fugitive, Line, Random};

/// A table with gaps of which a line by hours has the exact scale, and one by
/// energy the entry for all scales.
fn small_case() -> Case {
    let mut table = table();
    table.entries.insert(1, Entry { scale: 4, ..table.entries[0] });
    table.entries[1].factors[0] = 65_535;
    table.gaps = [3, 2];
    let by_hours = Line { scale: 4, ..by_hours(1_000_001) };
    let by_energy = Line { scale: 4, ..by_energy(2_000_003) };
    case(vec![by_hours, by_energy]).with_fugitive(table.bytes())
}

fn number(file: &[u8], at: usize, width: usize) -> usize {
    file[at..at + width].iter().rev().fold(0, |number, &byte| 256 * number + byte as usize)
}

/// By the words of the rule, in no hurry.
fn is_right(file: &[u8]) -> bool {
    if file.len() < 12 || file.len() > 65_536 {
        return false;
    }
    let (count, offset) = (number(file, 4, 2), number(file, 8, 4));
    let end = offset + 28 * count;
    if count > 1024 || offset < 12 || end > file.len() {
        return false;
    }
    let key = |entry: usize| [0, 2, 4, 6, 8].map(|at| number(file, offset + 28 * entry + at, 2));
    let rises = (1..count).all(|entry| key(entry - 1) < key(entry));
    number(file, 0, 4) == file.len() && number(file, 6, 2) == 0 && rises
}

/// Both desks agree, and refuse with 13 just where the rule does.
fn look_at(tally: &mut Tally, case: &Case) {
    let refused = tally.compare(case) == Outcome::Refused { number: 13, line: 0 };
    assert_eq!(refused, !is_right(&case.fugitive), "{:?}", case.fugitive);
}

#[test]
fn the_small_table_is_right() {
    let mut tally = Tally::new("the_small_table_is_right");
    tally.expect_accepted(&small_case());
    assert!(is_right(&small_case().fugitive));
}

#[test]
fn every_other_value_of_every_byte_of_the_table() {
    let mut tally = Tally::new("every_other_value_of_every_byte_of_the_table");
    let mut case = small_case();
    let places: Vec<usize> = (0..case.fugitive.len()).collect();
    let turns: Vec<u8> = (1..=255).collect();
    for (at, turn) in thinned(every_two(&places, &turns)) {
        case.fugitive[at] ^= turn;
        look_at(&mut tally, &case);
        case.fugitive[at] ^= turn;
    }
}

/// With the length that the file says, and with its own.
#[test]
fn every_shorter_and_many_longer_tables() {
    let mut tally = Tally::new("every_shorter_and_many_longer_tables");
    let whole = small_case().fugitive.len();
    let entries_end = whole - 2;
    for length in thinned((0..whole + 130).collect()) {
        let mut case = small_case();
        case.fugitive.resize(length, 0);
        match length == whole {
            true => tally.expect_accepted(&case),
            false => tally.expect_refused(&case, 13, 0),
        }
        own_length(&mut case.fugitive);
        match length >= entries_end {
            true => tally.expect_accepted(&case),
            false => tally.expect_refused(&case, 13, 0),
        }
    }
}

#[test]
fn every_header_field_at_edges() {
    let mut tally = Tally::new("every_header_field_of_a_table_at_edges");
    let length = small_case().fugitive.len() as u64;
    let near_the_end = length - 90..length + 3;
    let wrapping = (0..200).map(|back| u32::MAX as u64 - back);
    let powers = (0..32).map(|power| 1u64 << power);
    let values: Vec<u64> =
        edges::NUMBERS.into_iter().chain(near_the_end).chain(wrapping).chain(powers).collect();
    for ((at, width), value) in
        thinned(every_two(&[(0, 4), (4, 2), (6, 1), (7, 1), (6, 2), (8, 4)], &values))
    {
        let mut case = small_case();
        case.fugitive[at..at + width].copy_from_slice(&value.to_le_bytes()[..width]);
        look_at(&mut tally, &case);
    }
}

/// Offset and count at once: their ends may wrap in 32 bits.
#[test]
fn pairs_of_hostile_offsets_and_counts() {
    let mut tally = Tally::new("pairs_of_hostile_offsets_and_counts");
    let near = (0..=small_case().fugitive.len() as u32 + 1).collect::<Vec<_>>();
    let far = [65_535, 65_536, 1 << 31, u32::MAX - 111, u32::MAX - 27, u32::MAX - 11, u32::MAX];
    let offsets: Vec<u32> = near.into_iter().chain(far).collect();
    let counts = [0u16, 1, 2, 3, 4, 5, 1024, 1025, 32_768, 65_535];
    for (offset, count) in thinned(every_two(&offsets, &counts)) {
        let mut case = small_case();
        case.fugitive[4..6].copy_from_slice(&count.to_le_bytes());
        case.fugitive[8..12].copy_from_slice(&offset.to_le_bytes());
        look_at(&mut tally, &case);
    }
}

/// An offset below 12 is refused, also where there is no entry to stand there.
#[test]
fn offsets_within_the_header() {
    let mut tally = Tally::new("offsets_within_the_header");
    let ungraded = case(vec![Line::direct(5)]);
    for offset in 0..=20u32 {
        let mut empty = Fugitive { gaps: [8, 0], ..Fugitive::default() }.bytes();
        empty[8..12].copy_from_slice(&offset.to_le_bytes());
        let case = ungraded.clone().with_fugitive(empty);
        match offset >= 12 {
            true => tally.expect_accepted(&case),
            false => tally.expect_refused(&case, 13, 0),
        }
    }
}

#[test]
fn the_zero_is_looked_at() {
    let mut tally = Tally::new("the_zero_is_looked_at");
    for zero in thinned((0..=65_535).collect()) {
        for entries in [table().entries, vec![]] {
            let lines = if entries.is_empty() { vec![] } else { vec![by_hours(7)] };
            let table = Fugitive { zero, entries, gaps: [0; 2] };
            let case = Case::of(&book(), &sheet(lines)).with_fugitive(table.bytes());
            match zero {
                0 => tally.expect_accepted(&case),
                _ => tally.expect_refused(&case, 13, 0),
            }
        }
    }
}

/// So many entries for other scales of the lines' place.
fn scales(count: u16) -> Vec<Entry> {
    (0..count).map(|scale| Entry { scale, ..table().entries[0] }).collect()
}

#[test]
fn limits_of_entries_and_bytes() {
    let mut tally = Tally::new("limits_of_entries_and_bytes");
    let with = |entries: Vec<Entry>, gaps| {
        let table = Fugitive { entries, gaps, zero: 0 };
        case(vec![by_hours(7)]).with_fugitive(table.bytes())
    };
    for count in [1, 2, 1023, 1024] {
        tally.expect_accepted(&with(scales(count), [0, 0]));
    }
    for count in [1025, 1026, 2048, 2340] {
        tally.expect_refused(&with(scales(count), [0, 0]), 13, 0);
    }
    for count in [1, 1024] {
        let gap = 65_536 - 12 - 28 * count as usize;
        tally.expect_accepted(&with(scales(count), [gap, 0]));
        tally.expect_accepted(&with(scales(count), [0, gap]));
        tally.expect_refused(&with(scales(count), [gap + 1, 0]), 13, 0);
        tally.expect_refused(&with(scales(count), [0, gap + 1]), 13, 0);
        tally.expect_refused(&with(scales(count), [70_000, 0]), 13, 0);
    }
}

type Larger = fn(&mut Entry);

const FIELDS: [Larger; 5] = [
    |entry| entry.place[0] += 1,
    |entry| entry.place[1] += 1,
    |entry| entry.place[2] += 1,
    |entry| entry.place[3] += 1,
    |entry| entry.scale += 1,
];

/// Entries rise by every field, the earlier ones first; factors don't count.
#[test]
fn entries_rise_by_each_field() {
    let mut tally = Tally::new("entries_rise_by_each_field");
    let case_with = |table: &Fugitive| case(vec![]).with_fugitive(table.bytes());
    for (rank, larger) in FIELDS.iter().enumerate() {
        let mut table = Fugitive::of(&[table().entries[0]; 2]);
        larger(&mut table.entries[0]);
        // Later fields that rise don't help.
        FIELDS[rank + 1..].iter().for_each(|later| later(&mut table.entries[1]));
        table.entries[1].factors = [65_535; 9];
        tally.expect_refused(&case_with(&table), 13, 0);
        table.entries.swap(0, 1);
        tally.expect_accepted(&case_with(&table));
    }
}

/// Two entries that changed places, and one entry twice, anywhere in a table.
#[test]
fn entries_out_of_order_anywhere() {
    let mut tally = Tally::new("entries_out_of_order_anywhere");
    for (field, place) in thinned(every_two(&FIELDS, &(1..20).collect::<Vec<usize>>())) {
        let entry = |number: usize| {
            let mut entry = table().entries[0];
            (0..number).for_each(|_| field(&mut entry));
            entry
        };
        let entries: Vec<Entry> = (0..20).map(entry).collect();
        let case_with = |entries: &[Entry]| {
            case(vec![by_hours(7)]).with_fugitive(Fugitive::of(entries).bytes())
        };
        tally.expect_accepted(&case_with(&entries));
        let mut changed = entries.clone();
        changed.swap(place - 1, place);
        tally.expect_refused(&case_with(&changed), 13, 0);
        let mut twice = entries;
        twice[place] = Entry { factors: [place as u16; 9], ..twice[place - 1] };
        tally.expect_refused(&case_with(&twice), 13, 0);
    }
}

/// Whatever lies around the entries, the figures are the same.
#[test]
fn gaps_of_anything() {
    let mut tally = Tally::new("gaps_of_anything");
    let whole = small_case();
    let figures = |case: &Case| run_proved(case).expect("the memory around is kept").exact;
    let expected = figures(&whole);
    let gaps = [12, 13, 14, whole.fugitive.len() - 2, whole.fugitive.len() - 1];
    for (at, byte) in thinned(every_two(&gaps, &(0..=255).collect::<Vec<u8>>())) {
        let mut case = whole.clone();
        case.fugitive[at] = byte;
        tally.expect_accepted(&case);
        assert_eq!(figures(&case), expected);
    }
}

/// A bad table is refused whatever the sheet: without lines, without grades, of
/// another pollutant in another medium.
#[test]
fn a_bad_table_beside_every_sheet() {
    let mut tally = Tally::new("a_bad_table_beside_every_sheet");
    let lines = [vec![], vec![Line::direct(5)], vec![by_hours(7)], vec![Line::direct(5); 128]];
    for ((medium, pollutant), lines) in every_two(&[(1, 1), (2, 3), (3, 9)], &lines) {
        let mut sheet = sheet(lines);
        (sheet.medium, sheet.pollutant) = (medium, pollutant);
        for bad in [vec![], vec![0; 11], vec![0; 12], Fugitive { zero: 9, ..table() }.bytes()] {
            tally.expect_refused(&Case::of(&book(), &sheet).with_fugitive(bad), 13, 0);
        }
    }
}

#[test]
fn tables_without_form() {
    let mut tally = Tally::new("tables_without_form");
    let mut random = Random::new(91);
    for _ in 0..limited(20_000) {
        let length = random.index(120);
        let mut bytes = random.bytes(length);
        own_length(&mut bytes);
        if random.chance(80) && length >= 12 {
            // A header of small numbers gets further than one of any numbers.
            bytes[4..12].copy_from_slice(&[random.below(4) as u8, 0, 0, 0, 12, 0, 0, 0]);
            bytes[8] += random.pick(&[0, 0, 1, 9]);
        }
        look_at(&mut tally, &small_case().with_fugitive(bytes));
    }
}

#[test]
fn many_damages_to_tables() {
    let mut tally = Tally::new("many_damages_to_tables");
    let mut random = Random::new(92);
    let most = Size { rows: 12, techniques: 12, lines: 6 };
    for _ in 0..limited(40_000) {
        let mut case = case_up_to(&mut random, most);
        (0..=random.below(2)).for_each(|_| damage_table(&mut random, &mut case.fugitive));
        look_at(&mut tally, &case);
    }
}

/// A line whose only entry is changed in one field of its key has none.
#[test]
fn an_entry_with_another_key() {
    let mut tally = Tally::new("an_entry_with_another_key");
    for (larger, scale) in every_two(&FIELDS, &[0u16, 4]) {
        let mut entry = Entry { scale, ..table().entries[0] };
        let line = Line { scale: 4, ..by_hours(7) };
        let case_with = |entry| case(vec![line]).with_fugitive(Fugitive::of(&[entry]).bytes());
        tally.expect_accepted(&case_with(entry));
        larger(&mut entry);
        tally.expect_refused(&case_with(entry), 14, 1);
    }
}
