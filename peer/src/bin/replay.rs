//! Replays one case: `replay FOLDER` with own.bin, book.bin, fugitive.bin and one of
//! sheet.bin, bundle.bin and sheet.csv, and lengths.txt where the lengths of what is
//! lent matter. Without own.bin the works has no factors of its own; a fugitive.bin
//! that isn't there counts as empty. A sheet.csv without a book is only read, a
//! sheet.bin only written. With asked.txt, the seven numbers of a row, that row is
//! asked for. With table.txt, the code of a unit and the cells of a table, the table
//! takes a settling step.

use peer::compare::{run_plain, run_proved, AnyCase, BundleCase, Case, Filled};
use peer::compare::{Conversion, Converted, Inspected, RowCase, StepCase, Stepped};
use peer::compare::{TextCase, ThereAndBack};
use peer::print::{whole_bundle_output, whole_output};
use peer::table::COLUMNS;
use std::path::Path;
use std::process::ExitCode;

fn main() -> ExitCode {
    let Some(folder) = std::env::args().nth(1) else {
        eprintln!("usage: replay FOLDER");
        return ExitCode::from(2);
    };
    let path = Path::new(&folder);
    let has = |name: &str| path.join(name).exists();
    let replayed = if has("table.txt") {
        StepCase::read(path).map(|case| replay_step(&case))
    } else if !has("book.bin") {
        Conversion::from_folder(path).map(|conversion| replay_conversion(&conversion))
    } else if has("asked.txt") {
        RowCase::read(path).map(|case| replay_row(&case))
    } else if has("bundle.bin") {
        BundleCase::read(path).map(|case| replay_bundle(&case))
    } else if has("sheet.csv") && !has("sheet.bin") {
        TextCase::read(path).map(|case| replay_text(&case))
    } else {
        Case::read(path).map(|case| replay_sheet(&case))
    };
    match replayed {
        Ok(true) => ExitCode::SUCCESS,
        Ok(false) => ExitCode::FAILURE,
        Err(error) => {
            eprintln!("{folder}: {error}");
            ExitCode::from(2)
        }
    }
}

fn replay_sheet(case: &Case) -> bool {
    println!("results of {} and {} cells", case.exact_len, case.shown_len);
    let mut agreed = agree(case);
    println!("The sheet written as text and read again:");
    agreed &= agree(&ThereAndBack(case.clone()));
    let text = |filled: Filled| whole_output(case, filled.outcome, &filled.exact, &filled.shown);
    print("plain Rust", Ok(text(run_plain(case))));
    print("proved desk", run_proved(case).map(text));
    agreed
}

fn replay_text(case: &TextCase) -> bool {
    println!("results of {} and {} cells", case.exact_len, case.shown_len);
    let agreed = agree(case);
    let sheet = case.with_binary_sheet();
    let text = |filled: Filled| whole_output(&sheet, filled.outcome, &filled.exact, &filled.shown);
    print("plain Rust", Ok(text(case.run_plain())));
    print("proved desk", case.run_proved().map(text));
    agreed
}

/// What was written is told as text, also where it is a binary sheet.
fn replay_conversion(conversion: &Conversion) -> bool {
    println!("{} bytes lent", conversion.room);
    let agreed = agree(conversion);
    let text = |converted: Converted| match converted.answer {
        Ok(_) => format!("{}\n", converted.bytes().escape_ascii()),
        Err(refused) => format!("{refused}\n"),
    };
    print("plain Rust", Ok(text(conversion.run_plain())));
    print("proved desk", conversion.run_proved().map(text));
    agreed
}

fn replay_bundle(case: &BundleCase) -> bool {
    let BundleCase { exact_len, shown_len, outcomes_len, .. } = case;
    println!("results of {exact_len} and {shown_len} cells, {outcomes_len} outcomes");
    let agreed = agree(case);
    print("plain Rust", Ok(whole_bundle_output(case, &case.run_plain())));
    print("proved desk", case.run_proved().map(|filled| whole_bundle_output(case, &filled)));
    agreed
}

fn replay_row(case: &RowCase) -> bool {
    println!("{:?} asked for, {} bytes lent", case.asked, case.room);
    let agreed = agree(case);
    let text = |Inspected { number, copied }: Inspected| match copied.answer {
        Ok(_) => format!("row {number}: {:02x?}\n", copied.bytes()),
        Err(refused) => format!("row {number}: {refused}\n"),
    };
    print("plain Rust", Ok(text(case.run_plain())));
    print("proved desk", case.run_proved().map(text));
    agreed
}

fn replay_step(case: &StepCase) -> bool {
    let (cells, room) = (case.table.len(), case.room);
    println!("a table of {cells} cells in unit {}, {room} cells lent", case.unit);
    let agreed = agree(case);
    let text = |Stepped { answer, lent, steps }: Stepped| {
        let rows: String = lent.chunks(COLUMNS).map(|row| format!("{row:?}\n")).collect();
        match (answer, steps) {
            (Ok(_), Ok(steps)) => {
                format!("{steps} steps from the table on, and after one of them\n{rows}")
            }
            (Err(refused), _) | (_, Err(refused)) => format!("{refused}\n{rows}"),
        }
    };
    print("plain Rust", Ok(text(case.run_plain())));
    print("proved desk", case.run_proved().map(text));
    agreed
}

fn print(desk: &str, text: Result<String, String>) {
    match text {
        Ok(text) => print!("{desk}:\n{text}"),
        Err(what) => println!("{desk}: {what}"),
    }
}

/// Said first: a desk that is wrong may leave what can't be printed as tables.
fn agree(case: &impl AnyCase) -> bool {
    let compared = case.compare();
    match &compared {
        Ok(outcome) => println!("both agree: {outcome}"),
        Err(what) => println!("they disagree: {what}"),
    }
    compared.is_ok()
}
