//! The one place where the proved desk is called: all `unsafe` code is here.

use crate::{RowKey, Unit};

extern "C" {
    fn checkraven_account(
        own: *const u8,
        own_len: usize,
        book: *const u8,
        book_len: usize,
        fugitive: *const u8,
        fugitive_len: usize,
        sheet: *const u8,
        sheet_len: usize,
        exact: *mut u64,
        exact_len: usize,
        shown: *mut u64,
        shown_len: usize,
    ) -> u64;

    fn checkraven_account_bundle(
        own: *const u8,
        own_len: usize,
        book: *const u8,
        book_len: usize,
        fugitive: *const u8,
        fugitive_len: usize,
        bundle: *const u8,
        bundle_len: usize,
        exact: *mut u64,
        exact_len: usize,
        shown: *mut u64,
        shown_len: usize,
        outcomes: *mut u64,
        outcomes_len: usize,
    ) -> u64;

    fn checkraven_report(
        own: *const u8,
        own_len: usize,
        book: *const u8,
        book_len: usize,
        fugitive: *const u8,
        fugitive_len: usize,
        sheet: *const u8,
        sheet_len: usize,
        text: *mut u8,
        text_len: usize,
    ) -> u64;

    fn checkraven_sheet_from_text(
        text: *const u8,
        text_len: usize,
        sheet: *mut u8,
        sheet_len: usize,
    ) -> u64;

    fn checkraven_text_from_sheet(
        sheet: *const u8,
        sheet_len: usize,
        text: *mut u8,
        text_len: usize,
    ) -> u64;

    fn checkraven_account_text(
        own: *const u8,
        own_len: usize,
        book: *const u8,
        book_len: usize,
        fugitive: *const u8,
        fugitive_len: usize,
        text: *const u8,
        text_len: usize,
        exact: *mut u64,
        exact_len: usize,
        shown: *mut u64,
        shown_len: usize,
    ) -> u64;

    fn checkraven_row(
        own: *const u8,
        own_len: usize,
        book: *const u8,
        book_len: usize,
        industry: u64,
        product: u64,
        material: u64,
        process: u64,
        scale: u64,
        medium: u64,
        pollutant: u64,
        row: *mut u8,
        row_len: usize,
    ) -> u64;

    fn checkraven_row_number(
        own: *const u8,
        own_len: usize,
        book: *const u8,
        book_len: usize,
        industry: u64,
        product: u64,
        material: u64,
        process: u64,
        scale: u64,
        medium: u64,
        pollutant: u64,
    ) -> u64;

    fn checkraven_step(
        unit: u64,
        table: *const u64,
        table_len: usize,
        next: *mut u64,
        next_len: usize,
    ) -> u64;

    fn checkraven_steps(unit: u64, table: *const u64, table_len: usize) -> u64;
}

pub(crate) fn account(
    own: &[u8],
    book: &[u8],
    fugitive: &[u8],
    sheet: &[u8],
    exact: &mut [u64],
    shown: &mut [u64],
) -> u64 {
    // SAFETY: the header asks that each pointer stands for so many cells, that
    // none is null, and that the results are aligned and overlap nothing. A
    // slice's pointer and length are just that, also when it is empty, and two
    // `&mut` slices overlap neither each other nor any shared one. The desk
    // reads the files, writes only within the results and keeps no pointer.
    unsafe {
        checkraven_account(
            own.as_ptr(),
            own.len(),
            book.as_ptr(),
            book.len(),
            fugitive.as_ptr(),
            fugitive.len(),
            sheet.as_ptr(),
            sheet.len(),
            exact.as_mut_ptr(),
            exact.len(),
            shown.as_mut_ptr(),
            shown.len(),
        )
    }
}

pub(crate) fn account_bundle(
    own: &[u8],
    book: &[u8],
    fugitive: &[u8],
    bundle: &[u8],
    exact: &mut [u64],
    shown: &mut [u64],
    outcomes: &mut [u64],
) -> u64 {
    // SAFETY: as above, with a third `&mut` slice.
    unsafe {
        checkraven_account_bundle(
            own.as_ptr(),
            own.len(),
            book.as_ptr(),
            book.len(),
            fugitive.as_ptr(),
            fugitive.len(),
            bundle.as_ptr(),
            bundle.len(),
            exact.as_mut_ptr(),
            exact.len(),
            shown.as_mut_ptr(),
            shown.len(),
            outcomes.as_mut_ptr(),
            outcomes.len(),
        )
    }
}

pub(crate) fn report(
    own: &[u8],
    book: &[u8],
    fugitive: &[u8],
    sheet: &[u8],
    text: &mut [u8],
) -> u64 {
    // SAFETY: as above. The text is a `&mut` slice of bytes, which need not be
    // aligned, and overlaps no file.
    unsafe {
        checkraven_report(
            own.as_ptr(),
            own.len(),
            book.as_ptr(),
            book.len(),
            fugitive.as_ptr(),
            fugitive.len(),
            sheet.as_ptr(),
            sheet.len(),
            text.as_mut_ptr(),
            text.len(),
        )
    }
}

pub(crate) fn sheet_from_text(text: &[u8], sheet: &mut [u8]) -> u64 {
    // SAFETY: as above. The sheet is a `&mut` slice of bytes, which need not be
    // aligned, and doesn't overlap the text.
    unsafe {
        checkraven_sheet_from_text(text.as_ptr(), text.len(), sheet.as_mut_ptr(), sheet.len())
    }
}

pub(crate) fn text_from_sheet(sheet: &[u8], text: &mut [u8]) -> u64 {
    // SAFETY: as above, the other way round.
    unsafe {
        checkraven_text_from_sheet(sheet.as_ptr(), sheet.len(), text.as_mut_ptr(), text.len())
    }
}

pub(crate) fn account_text(
    own: &[u8],
    book: &[u8],
    fugitive: &[u8],
    text: &[u8],
    exact: &mut [u64],
    shown: &mut [u64],
) -> u64 {
    // SAFETY: as for `account`.
    unsafe {
        checkraven_account_text(
            own.as_ptr(),
            own.len(),
            book.as_ptr(),
            book.len(),
            fugitive.as_ptr(),
            fugitive.len(),
            text.as_ptr(),
            text.len(),
            exact.as_mut_ptr(),
            exact.len(),
            shown.as_mut_ptr(),
            shown.len(),
        )
    }
}

pub(crate) fn row(own: &[u8], book: &[u8], key: &RowKey, row: &mut [u8]) -> u64 {
    // SAFETY: as above. The row is a `&mut` slice of bytes, which need not be
    // aligned, and overlaps no book.
    unsafe {
        checkraven_row(
            own.as_ptr(),
            own.len(),
            book.as_ptr(),
            book.len(),
            key.industry.into(),
            key.product.into(),
            key.material.into(),
            key.process.into(),
            key.scale.into(),
            key.medium.into(),
            key.pollutant.into(),
            row.as_mut_ptr(),
            row.len(),
        )
    }
}

pub(crate) fn row_number(own: &[u8], book: &[u8], key: &RowKey) -> u64 {
    // SAFETY: as above. The desk reads both books and writes nothing.
    unsafe {
        checkraven_row_number(
            own.as_ptr(),
            own.len(),
            book.as_ptr(),
            book.len(),
            key.industry.into(),
            key.product.into(),
            key.material.into(),
            key.process.into(),
            key.scale.into(),
            key.medium.into(),
            key.pollutant.into(),
        )
    }
}

pub(crate) fn step(unit: Unit, table: &[u64], next: &mut [u64]) -> u64 {
    // SAFETY: the header asks that each pointer stands for so many cells, that
    // none is null, and that both are aligned and don't overlap. A slice's pointer
    // and length are just that, also when it is empty, and a `&mut` slice overlaps
    // no shared one. The desk reads the table, writes only within the other and
    // keeps no pointer.
    unsafe {
        checkraven_step(unit.code(), table.as_ptr(), table.len(), next.as_mut_ptr(), next.len())
    }
}

pub(crate) fn steps(unit: Unit, table: &[u64]) -> u64 {
    // SAFETY: as above. The desk reads the table and writes nothing.
    unsafe { checkraven_steps(unit.code(), table.as_ptr(), table.len()) }
}
