//! The library's calls on books, sheets and clause files, with safe wrappers.  No call has a condition that a
//! slice does not meet.

use crate::answers::Ran;
use crate::orders::{Line, Order};

extern "C" {
    fn nd_book_check(book: *const u8, book_len: usize) -> u64;
    fn nd_load(book: *const u8, book_len: usize, sheet: *mut u16, sheet_len: usize) -> u64;
    fn nd_import(text: *const u8, text_len: usize, out: *mut u8, out_len: usize) -> u64;
    fn nd_index(sheet: *const u16, sheet_len: usize, index: *mut u16, index_len: usize) -> u64;
    fn nd_run(
        sheet: *mut u16,
        sheet_len: usize,
        index: *mut u16,
        index_len: usize,
        budget: u64,
    ) -> u64;
    fn nd_report(sheet: *const u16, sheet_len: usize, out: *mut u8, out_len: usize) -> u64;
    fn nd_complete(
        sheet: *const u16,
        sheet_len: usize,
        book: *const u8,
        book_len: usize,
        lines: *const Line,
        slots: usize,
        count: u16,
    ) -> u64;
    fn nd_key(
        sheet: *mut u16,
        sheet_len: usize,
        lines: *mut Line,
        slots: usize,
        count: *mut u16,
        index: *mut u16,
        index_len: usize,
        option: u64,
        negative: bool,
    ) -> u64;
    fn nd_withdraw(
        sheet: *mut u16,
        sheet_len: usize,
        book: *const u8,
        book_len: usize,
        lines: *mut Line,
        slots: usize,
        count: *mut u16,
        index: *mut u16,
        index_len: usize,
        k: u64,
    ) -> u64;
}

/// The book check: the refusal, 0 where the book is accepted.
pub fn book_check(book: &[u8]) -> u64 {
    // SAFETY: the pointer is good for as many elements as its slice has, and the library touches
    // no others.
    unsafe { nd_book_check(book.as_ptr(), book.len()) }
}

/// The loader: the refusal, 0 where the book is accepted.
pub fn load(book: &[u8], sheet: &mut [u16]) -> u64 {
    // SAFETY: as above, for both pointers.
    unsafe { nd_load(book.as_ptr(), book.len(), sheet.as_mut_ptr(), sheet.len()) }
}

/// Imports a clause file: the length of its book in all but the low 8 bits, or the refusal.
pub fn import(text: &[u8], out: &mut [u8]) -> u64 {
    // SAFETY: as above.
    unsafe { nd_import(text.as_ptr(), text.len(), out.as_mut_ptr(), out.len()) }
}

/// Fills an index from a sheet: the refusal, 0 where it is accepted.
pub fn index(sheet: &[u16], index: &mut [u16]) -> u64 {
    // SAFETY: as above.
    unsafe { nd_index(sheet.as_ptr(), sheet.len(), index.as_mut_ptr(), index.len()) }
}

/// A run of a sheet with its index.
pub fn run(sheet: &mut [u16], index: &mut [u16], budget: u64) -> Ran {
    // SAFETY: as above.
    let answer = unsafe {
        nd_run(
            sheet.as_mut_ptr(),
            sheet.len(),
            index.as_mut_ptr(),
            index.len(),
            budget,
        )
    };
    assert_eq!(answer % 256, 0, "a run is refused");
    Ran {
        settled: (answer >> 8) % 2 == 1,
        count: answer >> 9,
    }
}

/// The report of a sheet: whether it is contradictory.
pub fn report(sheet: &[u16], out: &mut [u8]) -> bool {
    // SAFETY: as above.
    let answer = unsafe { nd_report(sheet.as_ptr(), sheet.len(), out.as_mut_ptr(), out.len()) };
    assert_eq!(answer % 256, 0, "a report is refused");
    answer >> 8 == 1
}

/// Whether a sheet is complete, by a book and lines: 256 where it is, 0 where it is not, else the
/// refusal.
pub fn complete(sheet: &[u16], book: &[u8], lines: &[Line], count: u16) -> u64 {
    // SAFETY: as above; every line's truth value is one.
    unsafe {
        nd_complete(
            sheet.as_ptr(),
            sheet.len(),
            book.as_ptr(),
            book.len(),
            lines.as_ptr(),
            lines.len(),
            count,
        )
    }
}

/// Keys an option: the refusal, 0 where it is accepted.
pub fn key(order: &mut Order, option: u64, negative: bool) -> u64 {
    let (sheet, lines, index) = (&mut order.sheet, &mut order.lines, &mut order.index);
    // SAFETY: as above; the count is one number, and every line's truth value is one.
    unsafe {
        nd_key(
            sheet.as_mut_ptr(),
            sheet.len(),
            lines.as_mut_ptr(),
            lines.len(),
            &mut order.count,
            index.as_mut_ptr(),
            index.len(),
            option,
            negative,
        )
    }
}

/// Takes line k back: the refusal, 0 where it is accepted.
pub fn withdraw(order: &mut Order, book: &[u8], k: u64) -> u64 {
    let (sheet, lines, index) = (&mut order.sheet, &mut order.lines, &mut order.index);
    // SAFETY: as above.
    unsafe {
        nd_withdraw(
            sheet.as_mut_ptr(),
            sheet.len(),
            book.as_ptr(),
            book.len(),
            lines.as_mut_ptr(),
            lines.len(),
            &mut order.count,
            index.as_mut_ptr(),
            index.len(),
            k,
        )
    }
}
