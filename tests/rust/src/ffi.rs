//! The two functions of `include/nibdrumlin.h`, and of `include/nibdrumlin_sheets.h` the
//! one that fills an index, the run and the import, with safe wrappers.  None has a
//! condition that a slice does not meet.

use std::ptr;

extern "C" {
    fn nd_book_check(book: *const u8, book_len: usize) -> u64;
    fn nd_code_lookup(book: *const u8, book_len: usize, code: *const u8, code_len: usize) -> u64;
    fn nd_index(sheet: *const u16, sheet_len: usize, index: *mut u16, index_len: usize) -> u64;
    fn nd_run(
        sheet: *mut u16,
        sheet_len: usize,
        index: *mut u16,
        index_len: usize,
        budget: u64,
    ) -> u64;
    fn nd_import(text: *const u8, text_len: usize, out: *mut u8, out_len: usize) -> u64;
}

/// The library's book check.
pub fn book_check(book: &[u8]) -> u64 {
    // SAFETY: the pointer is good for reads of `book.len()` bytes, and the library
    // reads no others.
    unsafe { nd_book_check(book.as_ptr(), book.len()) }
}

/// The library's code lookup.
pub fn code_lookup(book: &[u8], code: &[u8]) -> u64 {
    // SAFETY: as above, for both slices.
    unsafe { nd_code_lookup(book.as_ptr(), book.len(), code.as_ptr(), code.len()) }
}

/// The same with a null pointer wherever a slice is empty.
pub fn book_check_null(book: &[u8]) -> u64 {
    // SAFETY: a null pointer is lent with length 0 only, and no byte of it is read.
    unsafe { nd_book_check(null_if_empty(book), book.len()) }
}

/// The same with a null pointer wherever a slice is empty.
pub fn code_lookup_null(book: &[u8], code: &[u8]) -> u64 {
    // SAFETY: as above, for both slices.
    unsafe {
        nd_code_lookup(
            null_if_empty(book),
            book.len(),
            null_if_empty(code),
            code.len(),
        )
    }
}

/// The library's call that fills an index from a sheet.
pub fn index(sheet: &[u16], index: &mut [u16]) -> u64 {
    // SAFETY: the pointers are good for as many numbers as the slices have, of which the
    // library writes the index's alone, and the two do not overlap.
    unsafe { nd_index(sheet.as_ptr(), sheet.len(), index.as_mut_ptr(), index.len()) }
}

/// The same with an index of no numbers, by a null pointer.
pub fn index_null(sheet: &[u16]) -> u64 {
    // SAFETY: as above; no number of an index of length 0 is read or written.
    unsafe { nd_index(sheet.as_ptr(), sheet.len(), ptr::null_mut(), 0) }
}

/// The library's run.
pub fn run(sheet: &mut [u16], index: &mut [u16], budget: u64) -> u64 {
    // SAFETY: as for the index; the library writes both.
    unsafe {
        nd_run(
            sheet.as_mut_ptr(),
            sheet.len(),
            index.as_mut_ptr(),
            index.len(),
            budget,
        )
    }
}

/// The library's import of a clause file.
pub fn import(text: &[u8], out: &mut [u8]) -> u64 {
    // SAFETY: the pointers are good for as many bytes as the slices have, of which the
    // library writes the output's alone, and the two do not overlap.
    unsafe { nd_import(text.as_ptr(), text.len(), out.as_mut_ptr(), out.len()) }
}

/// The same into no bytes, by a null pointer, and with one for a text that is empty.
pub fn import_null(text: &[u8]) -> u64 {
    // SAFETY: as above; no byte of an output of length 0 is read or written.
    unsafe { nd_import(null_if_empty(text), text.len(), ptr::null_mut(), 0) }
}

fn null_if_empty(slice: &[u8]) -> *const u8 {
    if slice.is_empty() {
        ptr::null()
    } else {
        slice.as_ptr()
    }
}
