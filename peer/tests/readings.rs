//! Readings at every edge, for both kinds that have readings.

use checkraven::Outcome;
use peer::compare::{run_proved, thinned, Case, Tally};
use peer::make::{edges, Book, Line, Row, Sheet, Technique};
use peer::plain::reading::thousandths;

/// One treated line with much to remove, so that k shows in the amounts.
fn case(k_rule: u8, kind: u8, readings: [u64; 3]) -> Case {
    let book = Book {
        rows: vec![Row::plain(1, 1, 1000).with_techniques(k_rule, 0, 1)],
        techniques: vec![Technique { code: 1, efficiency: 999 }],
        gaps: [0; 3],
    };
    let line = Line { technique: 1, kind, reuse: 7, readings, ..Line::direct(999_999_937) };
    Case::of(&book, &Sheet::new(1, 1, 2, vec![line]))
}

fn hours(run: f64, production: f64) -> Case {
    case(1, 1, [run, production, f64::NAN].map(f64::to_bits))
}

fn energy(kilowatt_hours: f64, kilowatts: f64, hours: f64) -> Case {
    case(2, 2, [kilowatt_hours, kilowatts, hours].map(f64::to_bits))
}

fn pairs(list: &[u64]) -> Vec<[u64; 2]> {
    list.iter().flat_map(|&a| list.iter().map(move |&b| [a, b])).collect()
}

#[test]
fn every_two_edges_as_hours() {
    let mut tally = Tally::new("every_two_edges_as_hours");
    let mut accepted = 0;
    for [run, production] in thinned(pairs(&edges::readings())) {
        let outcome = tally.compare(&case(1, 1, [run, production, f64::NAN.to_bits()]));
        accepted += (outcome == Outcome::Accepted) as usize;
    }
    assert!(accepted > 0, "some of them are accepted");
}

/// Each edge in each place of an energy reading, beside a few usual numbers.
#[test]
fn edges_as_energy() {
    let mut tally = Tally::new("edges_as_energy");
    let usual =
        [0.0f64, 0.001, 0.5, 900.0, 3600.0, 8784.0, 10_000.0, 10_000_000.0].map(f64::to_bits);
    let edges: Vec<u64> = edges::readings();
    for place in 0..3 {
        for others in pairs(&usual) {
            for &edge in edges.iter().take(peer::compare::limited(edges.len())) {
                let mut readings = [others[0], others[0], others[1]];
                readings[place] = edge;
                tally.agree(&case(2, 2, readings));
            }
        }
    }
}

#[test]
fn every_two_edges_with_other_kinds() {
    let mut tally = Tally::new("every_two_edges_with_other_kinds");
    for edge in thinned(edges::readings()) {
        for rule in [1, 2] {
            for kind in 0..=3 {
                tally.agree(&case(rule, kind, [edge; 3]));
            }
            // Only the numbers that the kind uses are looked at.
            tally.expect_accepted(&case(rule, 3, [edge; 3]));
        }
        tally.expect_accepted(&case(1, 1, [0, 1.0f64.to_bits(), edge]));
    }
}

#[test]
fn the_limits() {
    let mut tally = Tally::new("the_limits");
    tally.expect_accepted(&hours(8784.0, 8784.0));
    tally.expect_refused(&hours(8784.001, 8784.0), 9, 1);
    tally.expect_refused(&hours(0.0, 8784.001), 9, 1);
    // Just under half a thousandth above the limit still reads as the limit.
    tally.expect_accepted(&hours(8784.000499, 8784.000499));
    tally.expect_refused(&hours(8784.000501, 8784.0), 9, 1);
    tally.expect_accepted(&energy(10_000_000.0, 10_000.0, 8784.0));
    tally.expect_refused(&energy(10_000_000.001, 10_000.0, 8784.0), 9, 1);
    tally.expect_refused(&energy(1.0, 10_000.001, 8784.0), 9, 1);
    tally.expect_refused(&energy(1.0, 10_000.0, 8784.001), 9, 1);
}

/// The desk's exact table of an accepted line.
fn exact(tally: &mut Tally, case: &Case) -> Vec<u64> {
    tally.expect_accepted(case);
    run_proved(case).expect("the memory around is kept").exact
}

/// Half a thousandth.
const HALF: f64 = 0.0005;

/// Where the run reads as the production hours or more, the amounts are those
/// of a treatment that ran throughout; a thousandth below less is removed.
#[test]
fn runs_around_the_production() {
    let mut tally = Tally::new("runs_around_the_production");
    let throughout = exact(&mut tally, &case(1, 3, [0; 3]));
    for production in [0.001, 0.002, 0.062, 1.0, 4000.0, 8000.0, 8783.998] {
        let around = [-0.98 * HALF, 0.0, 0.98 * HALF, 1.02 * HALF, 0.001, 0.002];
        for run in around.map(|excess| production + excess).into_iter().chain([8784.0]) {
            assert_eq!(exact(&mut tally, &hours(run, production)), throughout, "{run}");
        }
        let less = exact(&mut tally, &hours(production - 0.001, production));
        assert!(less[1] < throughout[1], "{production}");
        let over_half_below = hours(production - 1.02 * HALF, production);
        assert_eq!(exact(&mut tally, &over_half_below), less);
    }
}

/// 0.0625 is 63 thousandths, and the number before it 62.
#[test]
fn runs_at_a_tie_around_the_production() {
    let mut tally = Tally::new("runs_at_a_tie_around_the_production");
    let throughout = exact(&mut tally, &case(1, 3, [0; 3]));
    let before = 0.0625f64.next_down();
    for (run, production) in [(before, 0.062), (0.0625, 0.062), (0.0625, 0.063), (0.063, 0.0625)] {
        assert_eq!(exact(&mut tally, &hours(run, production)), throughout, "{run} {production}");
    }
    let below = exact(&mut tally, &hours(before, 0.0625));
    assert_eq!(below, exact(&mut tally, &hours(0.062, 0.063)));
    assert!(below[1] < throughout[1]);
}

#[test]
fn runs_over_the_limit_are_bad_whatever_the_production() {
    let mut tally = Tally::new("runs_over_the_limit_are_bad_whatever_the_production");
    for production in [0.0, 0.0004, 0.001, 8000.0, 8783.999, 8784.0] {
        for run in [8784.001, 8784.0 + 1.02 * HALF, 10_000.0, 1e300, f64::INFINITY] {
            tally.expect_refused(&hours(run, production), 9, 1);
        }
    }
    tally.expect_accepted(&hours(8784.0 + 0.98 * HALF, 0.001));
}

#[test]
fn production_hours_are_looked_at_whatever_the_run() {
    let mut tally = Tally::new("production_hours_are_looked_at_whatever_the_run");
    for run in [0.0, 0.001, 8000.0, 8784.0] {
        for production in [-0.001, -1.0, f64::NEG_INFINITY, f64::NAN, 8784.001] {
            tally.expect_refused(&hours(run, production), 9, 1);
        }
        for production in [0.0, -0.0, 0.98 * HALF] {
            tally.expect_refused(&hours(run, production), 10, 1);
        }
    }
}

/// An energy above what the rating allows stays refused, by any excess.
#[test]
fn energies_around_the_rating() {
    let mut tally = Tally::new("energies_around_the_rating");
    let throughout = exact(&mut tally, &case(2, 3, [0; 3]));
    for (rated, ran) in [(0.5, 3600.0), (0.001, 1000.0), (10_000.0, 1000.0), (77.0, 8784.0)] {
        let most = rated * ran;
        for used in [most - 0.98 * HALF, most, most + 0.98 * HALF] {
            assert_eq!(exact(&mut tally, &energy(used, rated, ran)), throughout, "{used}");
        }
        let less = exact(&mut tally, &energy(most - 0.001, rated, ran));
        assert!(less[1] < throughout[1], "{most}");
        let above = |excess| energy(most + excess, rated, ran);
        let number = if most < 10_000_000.0 { 11 } else { 9 };
        for excess in [1.02 * HALF, 0.001, 0.002, 1.0] {
            tally.expect_refused(&above(excess), number, 1);
        }
        tally.expect_refused(&above(10_000_000.0), 9, 1);
    }
    // 0.001 kW over 0.001 h is less than a thousandth of a kWh.
    tally.expect_refused(&energy(0.001, 0.001, 0.001), 11, 1);
    tally.expect_accepted(&energy(0.0004, 0.001, 0.001));
    tally.expect_refused(&energy(10_000_000.0, 0.001, 0.001), 11, 1);
}

/// Likewise at a tie: 63 thousandths of a kWh, or 62.
#[test]
fn energies_at_a_tie_around_the_rating() {
    let mut tally = Tally::new("energies_at_a_tie_around_the_rating");
    tally.expect_accepted(&energy(0.0625f64.next_down(), 0.062, 1.0));
    tally.expect_refused(&energy(0.0625, 0.062, 1.0), 11, 1);
    tally.expect_accepted(&energy(0.0625, 0.063, 1.0));
    tally.expect_accepted(&energy(0.063, 0.0625, 1.0));
    tally.expect_refused(&energy(0.063, 0.0625f64.next_down(), 1.0), 11, 1);
}

#[test]
fn zero_divisors() {
    let mut tally = Tally::new("zero_divisors");
    for zero in [0.0, -0.0, 0.0004, f64::MIN_POSITIVE, 4.9e-324] {
        tally.expect_refused(&hours(0.0, zero), 10, 1);
        tally.expect_refused(&hours(1.0, zero), 10, 1);
        tally.expect_refused(&energy(0.0, zero, 1.0), 10, 1);
        tally.expect_refused(&energy(1.0, 1.0, zero), 10, 1);
        tally.expect_accepted(&hours(zero, 1.0));
        tally.expect_accepted(&energy(zero, 1.0, 1.0));
    }
}

#[test]
fn bad_readings_come_before_zero_divisors() {
    let mut tally = Tally::new("bad_readings_come_before_zero_divisors");
    for bad in edges::bad_readings() {
        tally.expect_refused(&case(1, 1, [bad, 0, 0]), 9, 1);
        tally.expect_refused(&case(1, 1, [0, bad, 0]), 9, 1);
        for place in 0..3 {
            let mut readings = [0; 3];
            readings[place] = bad;
            tally.expect_refused(&case(2, 2, readings), 9, 1);
        }
    }
}

/// The plain reader by its definition: t is the largest whole number with
/// 2t - 1 not above 2000 x, where x is mantissa times a power of two.
#[test]
fn plain_thousandths_by_their_definition() {
    for bits in edges::readings() {
        let number = f64::from_bits(bits);
        let good = number >= 0.0 && number < 2f64.powi(53);
        let Some(t) = thousandths(bits) else {
            assert!(!good, "{number} is refused");
            continue;
        };
        assert!(good, "{number} is taken");
        if number < 2f64.powi(-40) {
            assert_eq!(t, 0, "{number} is far below half a thousandth");
            continue;
        }
        // Scaled by these powers of two, every remaining number is whole.
        let power = if number < 1.0 { 100 } else { 60 };
        let part = number.fract() * 2f64.powi(power);
        assert_eq!(part.fract(), 0.0);
        let scaled = ((number.trunc() as u128) << power) + part as u128;
        let turns_at = |t: u64| (2 * t as u128).saturating_sub(1) << power;
        assert!(t == 0 || turns_at(t) <= 2000 * scaled, "{number} reads as {t}");
        assert!(2000 * scaled < turns_at(t + 1), "{number} reads as {t}");
    }
}

#[test]
fn figures_of_the_paper() {
    assert_eq!(thousandths(0.0625f64.to_bits()), Some(63));
    assert_eq!(thousandths(0.1f64.to_bits()), Some(100));
    assert_eq!(thousandths(7.999999999f64.to_bits()), Some(8000));
}
