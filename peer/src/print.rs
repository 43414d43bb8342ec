//! The outcome as the program prints it.

use crate::compare::{BundleCase, Case, Filled, FilledBundle};
use checkraven::{cells_for, Outcome};
use std::fmt::Write;

/// The whole output for a bundle whose lent cells the desk has filled.
pub fn whole_bundle_output(case: &BundleCase, filled: &FilledBundle) -> String {
    if !filled.outcome.is_accepted() {
        return format!("{}\n", filled.outcome);
    }
    let sheet_output = |index| {
        let Filled { outcome, exact, shown } = case.sheet_filled(filled, index);
        let alone = whole_output(&case.sheet_alone(index), outcome, &exact, &shown);
        format!("sheet {}\n{alone}", index + 1)
    };
    (0..case.sheet_count()).map(sheet_output).collect()
}

/// The whole output for a case whose results the desk has filled.
pub fn whole_output(case: &Case, outcome: Outcome, exact: &[u64], shown: &[u64]) -> String {
    let mut text = String::new();
    match outcome {
        Outcome::Refused { number, line } => {
            writeln!(text, "refused {number} line {line}").expect("strings take all text");
        }
        Outcome::Accepted => {
            let cells = cells_for(case.line_count());
            write_table(&mut text, "exact", &exact[..cells]);
            writeln!(text, "unit {}", case.shown_unit()).expect("strings take all text");
            write_table(&mut text, "shown", &shown[..cells]);
        }
    }
    text
}

fn write_table(text: &mut String, name: &str, cells: &[u64]) {
    let rows = cells.as_chunks().0;
    for (row, [g, r, u, d, f]) in rows.iter().enumerate() {
        let is_last = row + 1 == rows.len();
        let label = if is_last { "total".to_string() } else { (row + 1).to_string() };
        writeln!(text, "{name} {label} {g} {r} {u} {d} {f}").expect("strings take all text");
    }
}
