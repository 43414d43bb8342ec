//! Bundles whose header or entries are changed, cut or made longer: when one is
//! malformed, and that the desks agree where it isn't.

use peer::compare::{limited, thinned, BundleCase, Tally};
use peer::make::damage::own_length;
use peer::make::generate::Size;
use peer::make::works::{damage_bundle, mixed_works};
use peer::make::{edges, every_two, Book, Bundle, Line, Random, Row, Sheet, Technique};

/// A book of two rows, by hours and by energy.
fn book() -> Vec<u8> {
    let technique = |code, efficiency| Technique { code, efficiency };
    let row = |process| Row { place: [3240, 1, 1, process], ..Row::plain(1, 1, 203) };
    let book = Book {
        rows: vec![row(1).with_techniques(1, 0, 2), row(2).with_techniques(2, 1, 2)],
        techniques: vec![technique(1, 700), technique(2, 300), technique(300, 990)],
        gaps: [2, 3, 1],
    };
    book.bytes()
}

/// Two lines, one line and none; the first has runs that are just long enough.
fn small_sheets() -> [Vec<u8>; 3] {
    let by_hours = Line::direct(16_250_001).treated(2, 1, [7000.5, 7920.0, 0.0]);
    let by_energy = Line::direct(1_000_007).treated(300, 2, [899.0, 0.5, 3600.0]);
    let by_energy = Line { place: [3240, 1, 1, 2], scale: 4, reuse: 333, ..by_energy };
    let sheets = [vec![by_hours, by_energy], vec![by_energy], vec![]];
    sheets.map(|lines| Sheet { gaps: [1, 2], ..Sheet::new(1, 1, 3, lines) }.bytes())
}

fn small_bundle() -> Bundle {
    Bundle::with_gaps(15, &small_sheets(), &[2, 3, 0, 4])
}

fn case(bundle: &Bundle) -> BundleCase {
    BundleCase::of(&book(), bundle)
}

const MALFORMED: u32 = 16;
const ENTRIES_END: u32 = 12 + 8 * 3;

#[test]
fn the_small_bundle_is_taken() {
    let mut tally = Tally::new("the_small_bundle_is_taken");
    tally.expect_sheets(&case(&small_bundle()), &[(0, 0); 3]);
}

/// The lent memory stays as it was for the bundle before its change.
#[test]
fn every_other_value_of_every_byte() {
    let mut tally = Tally::new("every_other_value_of_every_byte");
    let places: Vec<usize> = (0..small_bundle().bytes().len()).collect();
    let turns: Vec<u8> = (1..=255).collect();
    let mut case = case(&small_bundle());
    for (at, turn) in thinned(every_two(&places, &turns)) {
        case.bundle[at] ^= turn;
        tally.agree(&case);
        case.bundle[at] ^= turn;
    }
}

#[test]
fn every_shorter_bundle() {
    let mut tally = Tally::new("every_shorter_bundle");
    let whole = case(&small_bundle());
    let sheets_end = whole.bundle.len() - 4;
    for length in thinned((0..whole.bundle.len()).collect()) {
        let mut case = whole.clone();
        case.bundle.truncate(length);
        tally.expect_refused(&case, MALFORMED, 0);
        own_length(&mut case.bundle);
        match length < sheets_end {
            true => tally.expect_refused(&case, MALFORMED, 0),
            false => tally.expect_accepted(&case),
        }
    }
}

#[test]
fn longer_bundles() {
    let mut tally = Tally::new("longer_bundles");
    for more in thinned((1..=130).collect()) {
        let mut case = case(&small_bundle());
        case.bundle.resize(case.bundle.len() + more, 0);
        tally.expect_refused(&case, MALFORMED, 0);
        own_length(&mut case.bundle);
        tally.expect_accepted(&case);
    }
}

#[test]
fn bundles_shorter_than_their_header() {
    let mut tally = Tally::new("bundles_shorter_than_their_header");
    for length in 0..12 {
        let mut case = BundleCase::with_room(book(), vec![0; length]).with_lengths(9, 9, 9);
        tally.expect_refused(&case, MALFORMED, 0);
        own_length(&mut case.bundle);
        tally.expect_refused(&case, MALFORMED, 0);
    }
}

#[test]
fn headers_without_entries() {
    let mut tally = Tally::new("headers_without_entries");
    for count in 0..=17 {
        let mut bundle = Bundle::of(4, &[]);
        bundle.count = count;
        match count {
            0 => tally.expect_accepted(&case(&bundle)),
            _ => tally.expect_refused(&case(&bundle), MALFORMED, 0),
        }
    }
}

type Change = fn(&mut Bundle);

/// Each makes the small bundle malformed.
const FAULTS: [Change; 22] = [
    |bundle| bundle.length -= 1,
    |bundle| bundle.length += 1,
    |bundle| bundle.length += 1 << 16,
    |bundle| bundle.length = 0,
    |bundle| bundle.count = 17,
    |bundle| bundle.count = 3 + (1 << 8),
    |bundle| bundle.count = u16::MAX,
    |bundle| bundle.zero = 1,
    |bundle| bundle.zero = 1 << 15,
    |bundle| bundle.entries.swap(0, 1),
    |bundle| bundle.entries.swap(1, 2),
    |bundle| bundle.entries[1] = bundle.entries[0],
    |bundle| bundle.entries[0][1] = bundle.entries[1][0] - bundle.entries[0][0] + 1,
    |bundle| bundle.entries[1][1] += 1, // the third sheet touches the second
    |bundle| bundle.entries[2][0] -= 1,
    |bundle| bundle.entries[0][0] = ENTRIES_END - 1,
    |bundle| bundle.entries[0][0] = 12,
    |bundle| bundle.entries[0][0] = 0,
    |bundle| bundle.entries[2][1] += 5, // one past the end
    |bundle| bundle.entries[2][0] = bundle.length,
    |bundle| bundle.entries[2][0] = u32::MAX,
    |bundle| bundle.entries[2][1] = u32::MAX,
];

#[test]
fn each_malformed_bundle() {
    let mut tally = Tally::new("each_malformed_bundle");
    for spoil in FAULTS {
        let mut bundle = small_bundle();
        spoil(&mut bundle);
        let room = case(&small_bundle());
        let case = case(&bundle).with_lengths(room.exact_len, room.shown_len, room.outcomes_len);
        tally.expect_refused(&case, MALFORMED, 0);
    }
}

/// Each leaves the small bundle one that is taken.
const LAWFUL: [Change; 7] = [
    |bundle| bundle.entries[0][0] = ENTRIES_END,
    |bundle| bundle.entries[0][1] = bundle.entries[1][0] - bundle.entries[0][0],
    |bundle| bundle.entries[1][0] = bundle.entries[0][0] + bundle.entries[0][1],
    |bundle| bundle.entries[2][1] += 4, // at the very end
    |bundle| bundle.entries[2] = [bundle.length, 0],
    |bundle| bundle.entries[0][1] = 0,
    |bundle| bundle.rest.fill(0),
];

#[test]
fn entries_at_their_limits_are_taken() {
    let mut tally = Tally::new("entries_at_their_limits_are_taken");
    for change in LAWFUL {
        let mut bundle = small_bundle();
        change(&mut bundle);
        tally.expect_accepted(&case(&bundle));
    }
}

#[test]
fn sheets_of_no_bytes_are_refused_alone() {
    let mut tally = Tally::new("sheets_of_no_bytes_are_refused_alone");
    for place in 0..3 {
        let mut sheets = small_sheets();
        sheets[place] = vec![];
        let mut expected = [(0, 0); 3];
        expected[place] = (2, 0);
        tally.expect_sheets(&case(&Bundle::of(15, &sheets)), &expected);
    }
    tally.expect_sheets(&case(&Bundle::of(12, &vec![vec![]; 16])), &[(2, 0); 16]);
}

/// They obey the rules of all sheets: in the gaps of the small bundle, at their
/// ends, and next to these.
#[test]
fn places_of_a_sheet_of_no_bytes() {
    let mut tally = Tally::new("places_of_a_sheet_of_no_bytes");
    let bundle = Bundle::with_gaps(12, &[vec![0; 20], vec![], vec![0; 20]], &[2, 3, 4, 5]);
    let [_, [begin, _], [end, _]] = bundle.entries[..] else { panic!("there are three sheets") };
    for offset in 0..=bundle.length + 1 {
        let mut bundle = bundle.clone();
        bundle.entries[1][0] = offset;
        match (begin - 3..=end).contains(&offset) {
            true => tally.expect_accepted(&case(&bundle)),
            false => tally.expect_refused(&case(&bundle), MALFORMED, 0),
        }
    }
}

/// The first may stand at the end of the entries, the last at the end of all.
#[test]
fn outermost_places_of_sheets_of_no_bytes() {
    let mut tally = Tally::new("outermost_places_of_sheets_of_no_bytes");
    let bundle = Bundle::with_gaps(12, &vec![vec![]; 3], &[1, 1, 1, 1]);
    let (first, last) = (ENTRIES_END, bundle.length);
    for (begin, end) in every_two(&[0, first - 1, first], &[last, last + 1, u32::MAX]) {
        let mut bundle = bundle.clone();
        (bundle.entries[0][0], bundle.entries[2][0]) = (begin, end);
        match (begin, end) == (first, last) {
            true => tally.expect_sheets(&case(&bundle), &[(2, 0); 3]),
            false => tally.expect_refused(&case(&bundle), MALFORMED, 0),
        }
    }
}

/// Each sheet ends at 2^32 or up to its offset or its length further: by a
/// length or by an offset that is as large.
#[test]
fn ends_that_wrap_in_32_bits() {
    let mut tally = Tally::new("ends_that_wrap_in_32_bits");
    let small = small_bundle();
    let wrapping = |sheet: usize| {
        let [offset, length] = small.entries[sheet];
        let long = (0..offset).map(move |end| [offset, end.wrapping_sub(offset)]);
        let far = (0..length).map(move |end| [end.wrapping_sub(length), length]);
        long.chain(far).map(move |entry| (sheet, entry))
    };
    for (sheet, entry) in thinned((0..3).flat_map(wrapping).collect()) {
        let mut bundle = small.clone();
        bundle.entries[sheet] = entry;
        tally.expect_refused(&case(&bundle), MALFORMED, 0);
    }
}

/// Offset and length of one sheet at once.
#[test]
fn pairs_of_hostile_entries() {
    let mut tally = Tally::new("pairs_of_hostile_entries");
    let small = small_bundle();
    let around = small.entries.iter().flat_map(|&[offset, length]| [offset, offset + length]);
    let near = around.chain([12, ENTRIES_END, small.length]).flat_map(|at| [at - 1, at, at + 1]);
    let far = [0, 1, 1 << 16, 1 << 31, u32::MAX - 17, u32::MAX];
    let numbers: Vec<u32> = near.chain(far).collect();
    let entries = every_two(&numbers, &numbers);
    for (sheet, (offset, length)) in thinned(every_two(&[0, 1, 2], &entries)) {
        let mut bundle = small.clone();
        bundle.entries[sheet] = [offset, length];
        tally.agree(&case(&bundle));
    }
}

#[test]
fn every_field_at_edges() {
    let mut tally = Tally::new("every_field_at_edges");
    let whole = case(&small_bundle());
    let near_the_end = whole.bundle.len() as u64 - 20..whole.bundle.len() as u64 + 3;
    let powers = (0..32).map(|power| 1u64 << power);
    let values: Vec<u64> =
        edges::NUMBERS.into_iter().chain(near_the_end).chain(0..45).chain(powers).collect();
    let header = [(0, 4), (4, 2), (6, 2), (8, 4)].into_iter();
    let entries = (12..ENTRIES_END as usize).step_by(4).map(|at| (at, 4));
    let fields: Vec<(usize, usize)> = header.chain(entries).collect();
    for ((at, width), value) in thinned(every_two(&fields, &values)) {
        let mut case = whole.clone();
        case.bundle[at..at + width].copy_from_slice(&value.to_le_bytes()[..width]);
        tally.agree(&case);
    }
}

#[test]
fn many_damages_to_bundles() {
    let mut tally = Tally::new("many_damages_to_bundles");
    let mut random = Random::new(61);
    let most = Size { rows: 8, techniques: 12, lines: 4 };
    for _ in 0..limited(60_000) {
        let mut case = mixed_works(&mut random, most);
        damage_bundle(&mut random, &mut case);
        tally.agree(&case);
    }
}
