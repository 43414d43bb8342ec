//! The functions of the C face that find a row or settle a table, with any numbers:
//! the Rust crate takes only those that a field can hold, and the three units. All
//! `unsafe` code is here.

use crate::plain::Asked;

extern "C" {
    fn checkraven_row(
        own: *const u8,
        own_len: usize,
        book: *const u8,
        book_len: usize,
        industry: u64,
        product: u64,
        material: u64,
        process: u64,
        scale: u64,
        medium: u64,
        pollutant: u64,
        row: *mut u8,
        row_len: usize,
    ) -> u64;

    fn checkraven_row_number(
        own: *const u8,
        own_len: usize,
        book: *const u8,
        book_len: usize,
        industry: u64,
        product: u64,
        material: u64,
        process: u64,
        scale: u64,
        medium: u64,
        pollutant: u64,
    ) -> u64;

    fn checkraven_step(
        unit: u64,
        table: *const u64,
        table_len: usize,
        next: *mut u64,
        next_len: usize,
    ) -> u64;

    fn checkraven_steps(unit: u64, table: *const u64, table_len: usize) -> u64;
}

/// The proved desk's number: how many bytes it has copied, or a refusal.
pub fn row(own: &[u8], book: &[u8], asked: Asked, lent: &mut [u8]) -> u64 {
    let [industry, product, material, process, scale, medium, pollutant] = asked;
    // SAFETY: the header asks that each pointer stands for so many bytes, that none
    // is null, and that the lent bytes overlap no book. A slice's pointer and length
    // are just that, also when it is empty, and a `&mut` slice overlaps no shared
    // one. The desk reads the books, writes only within the lent bytes and keeps no
    // pointer.
    unsafe {
        checkraven_row(
            own.as_ptr(),
            own.len(),
            book.as_ptr(),
            book.len(),
            industry,
            product,
            material,
            process,
            scale,
            medium,
            pollutant,
            lent.as_mut_ptr(),
            lent.len(),
        )
    }
}

pub fn row_number(own: &[u8], book: &[u8], asked: Asked) -> u64 {
    let [industry, product, material, process, scale, medium, pollutant] = asked;
    // SAFETY: as above, with nothing lent for writing.
    unsafe {
        checkraven_row_number(
            own.as_ptr(),
            own.len(),
            book.as_ptr(),
            book.len(),
            industry,
            product,
            material,
            process,
            scale,
            medium,
            pollutant,
        )
    }
}

/// The proved desk's number: 1 where the step has changed something, 0 where the
/// table is whole, or a refusal.
pub fn step(unit: u64, table: &[u64], next: &mut [u64]) -> u64 {
    // SAFETY: the header asks that each pointer stands for so many cells, that none
    // is null, and that both are aligned and don't overlap, which two slices are of
    // which one is `&mut`. The desk reads the table, writes only within the other and
    // keeps no pointer.
    unsafe { checkraven_step(unit, table.as_ptr(), table.len(), next.as_mut_ptr(), next.len()) }
}

pub fn steps(unit: u64, table: &[u64]) -> u64 {
    // SAFETY: as above, with nothing lent for writing.
    unsafe { checkraven_steps(unit, table.as_ptr(), table.len()) }
}
