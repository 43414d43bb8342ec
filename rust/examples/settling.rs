//! Settles the table of one sheet, step by step:
//! `cargo run --example settling -- OWN BOOK FUGITIVE SHEET`.
//! Without file names it takes document 001's case from the examples folder.

mod shared;

use checkraven::{declare, settling, Refused, Tables};

fn main() {
    let case = concat!(env!("CARGO_MANIFEST_DIR"), "/../examples/document-001");
    let mut words = std::env::args().skip(1);
    let mut file = |name: &str| words.next().unwrap_or_else(|| format!("{case}/{name}"));
    let own = shared::own_book(file("own.bin"));
    let book = std::fs::read(file("book.bin")).unwrap_or_default();
    let fugitive = std::fs::read(file("fugitive.bin")).unwrap_or_default();
    let sheet = std::fs::read(file("sheet.bin")).unwrap_or_default();

    let declared = declare(&own, &book, &fugitive, &sheet);
    if let Err(refused) = declared.and_then(|tables| print_settling(&tables)) {
        println!("{refused}: {}", refused.refusal);
    }
}

/// Of each step the cells that it moves, by row and column, and the amounts.
fn print_settling(tables: &Tables) -> Result<(), Refused> {
    let mut before = tables.exact_cells().to_vec();
    let steps = settling(tables.unit(), &before)?;
    println!("{} steps", steps.len());
    for (index, table) in steps.enumerate() {
        println!("step {}", index + 1);
        for (at, (from, to)) in before.iter().zip(&table).enumerate() {
            if from != to {
                println!("row {} column {}: {from} to {to}", at / 5 + 1, at % 5 + 1);
            }
        }
        before = table;
    }
    Ok(())
}
