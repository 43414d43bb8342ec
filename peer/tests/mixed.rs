//! Cases of any sort, as in the long run, with a fixed seed.

use peer::compare::{limited, Tally};
use peer::make::{any_bundle, any_case, any_conversion, any_row_case};
use peer::make::{any_text_case, any_there_and_back, Random};

#[test]
fn cases_of_any_sort() {
    let mut tally = Tally::new("cases_of_any_sort");
    let mut random = Random::new(41);
    for _ in 0..limited(30_000) {
        tally.agree(&any_case(&mut random));
    }
}

#[test]
fn bundles_of_any_sort() {
    let mut tally = Tally::new("bundles_of_any_sort");
    let mut random = Random::new(42);
    for _ in 0..limited(10_000) {
        tally.agree(&any_bundle(&mut random));
    }
}

#[test]
fn texts_of_any_sort() {
    let mut tally = Tally::new("texts_of_any_sort");
    let mut random = Random::new(43);
    for _ in 0..limited(10_000) {
        tally.agree(&any_text_case(&mut random));
        tally.agree(&any_conversion(&mut random));
        tally.agree(&any_there_and_back(&mut random));
    }
}

#[test]
fn rows_of_any_sort() {
    let mut tally = Tally::new("rows_of_any_sort");
    let mut random = Random::new(44);
    for _ in 0..limited(40_000) {
        tally.agree(&any_row_case(&mut random));
    }
}
