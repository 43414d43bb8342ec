//! The cases of one test: counted, limited, and kept where the desks disagree.

use super::bundle::BundleCase;
use super::{keep, AnyCase};
use checkraven::Outcome;
use std::env;

/// Counts the cases of one test and prints their number at its end.
pub struct Tally {
    name: &'static str,
    cases: usize,
}

impl Tally {
    pub fn new(name: &'static str) -> Self {
        Tally { name, cases: 0 }
    }

    /// Compares both desks; a disagreement is kept as files and ends the test.
    pub fn compare(&mut self, case: &impl AnyCase) -> Outcome {
        self.cases += 1;
        case.compare().unwrap_or_else(|what| self.give_up(case, &what))
    }

    /// Compares both desks where any answer will do.
    pub fn agree(&mut self, case: &impl AnyCase) {
        let _any = self.compare(case);
    }

    pub fn expect_accepted(&mut self, case: &impl AnyCase) {
        self.expect(case, Outcome::Accepted);
    }

    pub fn expect_refused(&mut self, case: &impl AnyCase, number: u32, line: u32) {
        self.expect(case, Outcome::Refused { number, line });
    }

    fn expect(&mut self, case: &impl AnyCase, expected: Outcome) {
        let outcome = self.compare(case);
        if outcome != expected {
            let what = format!("both desks answer {outcome}, expected is {expected}");
            self.give_up(case, &what);
        }
    }

    /// The bundle is taken, with a refusal's number and line for each sheet, or
    /// (0, 0) for an accepted one.
    pub fn expect_sheets(&mut self, case: &BundleCase, expected: &[(u64, u64)]) {
        self.expect_accepted(case);
        let expected: Vec<u64> =
            expected.iter().map(|(number, line)| number * 65_536 + line).collect();
        let outcomes = &case.run_plain().outcomes[..case.sheet_count()];
        if outcomes != expected {
            let what = format!("the outcomes are {outcomes:?}, expected are {expected:?}");
            self.give_up(case, &what);
        }
    }

    fn give_up(&self, case: &impl AnyCase, what: &str) -> ! {
        let folder = keep(self.name, case, what);
        panic!("{what}; the case is kept in {}", folder.display());
    }
}

impl Drop for Tally {
    fn drop(&mut self) {
        println!("{} cases: {}", self.cases, self.name);
    }
}

/// The most cases of one test: PEER_CASES if set, else no limit.
fn most_cases() -> usize {
    let wanted = env::var("PEER_CASES").ok().and_then(|text| text.parse().ok());
    wanted.unwrap_or(usize::MAX)
}

/// How many cases a test with so many makes.
pub fn limited(cases: usize) -> usize {
    cases.min(most_cases())
}

/// Evenly spread members of a list that may be too long for a slow tool.
pub fn thinned<T>(list: Vec<T>) -> impl Iterator<Item = T> {
    let step = list.len().div_ceil(most_cases().max(1)).max(1);
    list.into_iter().step_by(step)
}
