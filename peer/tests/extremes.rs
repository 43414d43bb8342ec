//! The largest amounts, and efficiencies and reuse at their ends.

use peer::compare::{limited, run_proved, thinned, Case, Tally};
use peer::make::{Book, Line, Random, Row, Sheet, Technique};

/// One technique under each k rule, on the coefficient 10^8 units per kg.
fn largest_book(efficiency: u16) -> Book {
    let row = |process| Row { place: [3240, 1, 1, process], ..Row::plain(1, 1, 1000) };
    Book {
        rows: vec![row(1).with_techniques(1, 0, 1), row(2).with_techniques(2, 0, 1)],
        techniques: vec![Technique { code: 65_535, efficiency }],
        gaps: [0; 3],
    }
}

fn lines(count: usize, line: Line) -> Sheet {
    Sheet::new(1, 1, 3, vec![line; count])
}

const MOST: u64 = 1_000_000_000;

#[test]
fn sums_of_128_of_the_largest_lines() {
    let mut tally = Tally::new("sums_of_128_of_the_largest_lines");
    let case = Case::of(&largest_book(1000), &lines(128, Line::direct(MOST)));
    tally.expect_accepted(&case);
    let filled = run_proved(&case).expect("the memory around is kept");
    let sums = 128 * 100_000_000_000_000_000u64;
    assert_eq!(filled.exact[640..645], [sums, 0, 0, sums, 0]);
    let tonnes = sums / 100_000_000_000;
    assert_eq!(filled.shown[640..645], [tonnes, 0, 0, tonnes, 0]);
}

#[test]
fn all_ends_of_efficiency_reuse_k_and_activity() {
    let mut tally = Tally::new("all_ends_of_efficiency_reuse_k_and_activity");
    let ends = [0, 1, 2, 499, 500, 501, 998, 999, 1000];
    let by_hours =
        [[0.0, 8784.0, 0.0], [8783.999, 8784.0, 0.0], [8784.0, 8784.0, 0.0], [0.001, 8784.0, 0.0]];
    let by_energy = [
        [0.0, 10_000.0, 8784.0],
        [10_000_000.0, 10_000.0, 8784.0],
        [10_000_000.0, 10_000.0, 1000.0],
    ];
    let hours = by_hours.map(|readings| (1, readings));
    let energy = by_energy.map(|readings| (2, readings));
    for efficiency in thinned(ends.to_vec()) {
        let book = largest_book(efficiency);
        for reuse in ends {
            for (kind, readings) in hours.into_iter().chain(energy) {
                for product in [0, 1, 7, 999_999_937, MOST - 1, MOST] {
                    let line = Line::direct(product).treated(65_535, kind, readings);
                    let place = [3240, 1, 1, kind as u16];
                    let line = Line { place, reuse, ..line };
                    tally.expect_accepted(&Case::of(&book, &lines(1, line)));
                }
            }
        }
    }
}

/// Reuse counts in water alone, but is refused above 1000 in every medium.
#[test]
fn reuse_in_every_medium() {
    let mut tally = Tally::new("reuse_in_every_medium");
    for medium in 1..=3 {
        let mut book = largest_book(700);
        book.rows.iter_mut().for_each(|row| row.medium = medium);
        for reuse in [0, 1, 500, 999, 1000, 1001, 65_535] {
            let line = Line { reuse, ..Line::direct(12_345_678).treated(65_535, 3, [0.0; 3]) };
            let case = Case::of(&book, &Sheet { medium, ..lines(2, line) });
            match reuse <= 1000 {
                true => tally.expect_accepted(&case),
                false => tally.expect_refused(&case, 5, 1),
            }
        }
    }
}

/// Only the activity of the row's basis counts; both have the limit.
#[test]
fn product_and_material() {
    let mut tally = Tally::new("product_and_material");
    for basis in [1, 2] {
        let mut book = largest_book(700);
        book.rows[0].basis = basis;
        for product in [0, 1, MOST, MOST + 1, u64::MAX] {
            for material in [0, 1, MOST, MOST + 1, u64::MAX] {
                let line = Line { material, ..Line::direct(product) };
                let case = Case::of(&book, &lines(1, line));
                match product <= MOST && material <= MOST {
                    true => tally.expect_accepted(&case),
                    false => tally.expect_refused(&case, 4, 1),
                }
            }
        }
    }
}

/// An exact scale comes before all scales; other media and pollutants don't count.
#[test]
fn scales() {
    let mut tally = Tally::new("scales");
    let row =
        |scale, medium, pollutant, digits| Row { scale, ..Row::plain(medium, pollutant, digits) };
    let rows = vec![
        row(0, 1, 1, 100),
        row(0, 1, 2, 200),
        row(3, 1, 1, 300),
        row(3, 2, 1, 400),
        row(5, 1, 2, 500),
    ];
    let book = Book { rows, ..Book::default() };
    let expected = [
        (0, 1, 1, Some(100)),
        (3, 1, 1, Some(300)),
        (5, 1, 1, Some(100)),
        (65_535, 1, 1, Some(100)),
        (0, 1, 2, Some(200)),
        (5, 1, 2, Some(500)),
        (3, 1, 2, Some(200)),
        (3, 2, 1, Some(400)),
        (0, 2, 1, None),
        (5, 2, 1, None),
        (3, 3, 1, None),
        (3, 1, 3, None),
    ];
    for (scale, medium, pollutant, digits) in expected {
        let line = Line { scale, ..Line::direct(1) };
        let case = Case::of(&book, &Sheet::new(medium, pollutant, 1, vec![line]));
        let Some(digits) = digits else {
            tally.expect_refused(&case, 6, 1);
            continue;
        };
        tally.expect_accepted(&case);
        let filled = run_proved(&case).expect("the memory around is kept");
        assert_eq!(filled.exact[0], digits * 100_000);
    }
}

#[test]
fn many_large_lines() {
    let mut tally = Tally::new("many_large_lines");
    let mut random = Random::new(31);
    for _ in 0..limited(2_000) {
        let book = largest_book(random.up_to(1000) as u16);
        let line = |random: &mut Random| {
            let hours = 1 + random.up_to(8_783_999);
            let run = random.up_to(hours);
            let readings = [run as f64 / 1000.0, hours as f64 / 1000.0, f64::NAN];
            let line = Line::direct(MOST - random.up_to(1000)).treated(65_535, 1, readings);
            Line { reuse: random.up_to(1000) as u16, ..line }
        };
        let count = 1 + random.index(128);
        let lines = (0..count).map(|_| line(&mut random)).collect();
        let unit = 1 + random.below(3) as u32;
        tally.expect_accepted(&Case::of(&book, &Sheet::new(1, 1, unit, lines)));
    }
}
