//! Compares both desks on cases of any sort for a while, one in ten of them a
//! bundle, one a row that is asked for, one a table to be settled, and three in ten a
//! text:
//! `long_run [SECONDS] [SEED]`, by default one minute with seed 1.

use peer::compare::{keep, AnyCase};
use peer::make::{any_bundle, any_case, any_conversion, any_row_case, any_step_case};
use peer::make::{any_text_case, any_there_and_back, Random};
use std::process::ExitCode;
use std::time::{Duration, Instant};

fn main() -> ExitCode {
    let mut words = std::env::args().skip(1).map(|word| word.parse::<u64>());
    let mut number = |usual| words.next().unwrap_or(Ok(usual));
    let (Ok(seconds), Ok(seed)) = (number(60), number(1)) else {
        eprintln!("usage: long_run [SECONDS] [SEED]");
        return ExitCode::from(2);
    };
    let (cases, disagreements) = run(Duration::from_secs(seconds), seed);
    println!("{cases} cases, {disagreements} disagreements, seed {seed}");
    if disagreements == 0 {
        ExitCode::SUCCESS
    } else {
        ExitCode::FAILURE
    }
}

fn run(length: Duration, seed: u64) -> (u64, u64) {
    let mut random = Random::new(seed);
    let (mut cases, mut disagreements) = (0, 0);
    let begin = Instant::now();
    let mut next_word = Duration::from_secs(10);
    while begin.elapsed() < length {
        cases += 1;
        let agreed = match random.below(10) {
            0 => agrees(&any_bundle(&mut random)),
            1 => agrees(&any_text_case(&mut random)),
            2 => agrees(&any_conversion(&mut random)),
            3 => agrees(&any_there_and_back(&mut random)),
            4 => agrees(&any_row_case(&mut random)),
            5 => agrees(&any_step_case(&mut random)),
            _ => agrees(&any_case(&mut random)),
        };
        disagreements += u64::from(!agreed);
        if begin.elapsed() >= next_word {
            println!("{cases} cases after {} s", next_word.as_secs());
            next_word += Duration::from_secs(10);
        }
    }
    (cases, disagreements)
}

/// A disagreement is printed and kept as files.
fn agrees(case: &impl AnyCase) -> bool {
    let what = case.compare().err();
    if let Some(what) = &what {
        println!("{what}: {}", keep("long-run", case, what).display());
    }
    what.is_none()
}
