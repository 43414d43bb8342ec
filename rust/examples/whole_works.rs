//! Accounts for a bundle of sheets:
//! `cargo run --example whole_works -- OWN BOOK FUGITIVE BUNDLE`.
//! Without file names it takes a works' case from the examples folder.

mod shared;

use checkraven::declare_bundle;

fn main() {
    let case = concat!(env!("CARGO_MANIFEST_DIR"), "/../examples/works-001");
    let mut words = std::env::args().skip(1);
    let mut file = |name: &str| words.next().unwrap_or_else(|| format!("{case}/{name}"));
    let own = shared::own_book(file("own.bin"));
    let book = std::fs::read(file("book.bin")).unwrap_or_default();
    let fugitive = std::fs::read(file("fugitive.bin")).unwrap_or_default();
    let bundle = std::fs::read(file("bundle.bin")).unwrap_or_default();

    match declare_bundle(&own, &book, &fugitive, &bundle) {
        Ok(works) => print!("{works}"),
        Err(refused) => println!("{refused}: {}", refused.refusal),
    }
}
