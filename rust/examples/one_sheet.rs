//! Accounts for one sheet:
//! `cargo run --example one_sheet -- OWN BOOK FUGITIVE SHEET`.
//! Without file names it takes document 000's case from the examples folder.

mod shared;

use checkraven::{declare, Row};

fn main() {
    let case = concat!(env!("CARGO_MANIFEST_DIR"), "/../examples/document-000");
    let mut words = std::env::args().skip(1);
    let mut file = |name: &str| words.next().unwrap_or_else(|| format!("{case}/{name}"));
    let own = shared::own_book(file("own.bin"));
    let book = std::fs::read(file("book.bin")).unwrap_or_default();
    let fugitive = std::fs::read(file("fugitive.bin")).unwrap_or_default();
    let sheet = std::fs::read(file("sheet.bin")).unwrap_or_default();

    match declare(&own, &book, &fugitive, &sheet) {
        Ok(tables) => {
            for line in tables.lines() {
                print(&format!("line {}", line.number), line.exact, line.shown);
            }
            print("total", tables.total().exact, tables.total().shown);
        }
        Err(refused) => println!("{refused}: {}", refused.refusal),
    }
}

fn print(name: &str, exact: Row, shown: Row) {
    for (table, row) in [("exact", exact), ("shown", shown)] {
        let Row { generated: g, removed: r, reused: u, discharged: d, fugitive: f } = row;
        println!("{name} {table}: G {g} R {r} U {u} D {d} F {f}");
    }
}
