//! The calls that change a sheet, and the one that fills its index: as they are since there is an
//! index of mentions, and as they were before.

use crate::calls::{Call, Lent};
use crate::library::{has_symbol, symbol};
use crate::orders::Line;
use std::ffi::c_void;

type Book = *const u8;
type Sheet = *mut u16;
type Lines = *mut Line;
type Count = *mut u16;
type Marks = *mut u16;

/// The calls of a library that knows the index, or of one from before it.
pub enum Changes {
    With(WithIndex),
    Without(WithoutIndex),
}

/// An index comes before the plain numbers.
pub struct WithIndex {
    index: unsafe extern "C" fn(*const u16, usize, Marks, usize) -> u64,
    key: unsafe extern "C" fn(Sheet, usize, Lines, usize, Count, Marks, usize, u64, bool) -> u64,
    #[rustfmt::skip]
    withdraw: unsafe extern "C" fn(
        Sheet, usize, Book, usize, Lines, usize, Count, Marks, usize, u64,
    ) -> u64,
    step: unsafe extern "C" fn(Sheet, usize, Marks, usize, u64, u64, u64, u64) -> u64,
    run: unsafe extern "C" fn(Sheet, usize, Marks, usize, u64) -> u64,
}

pub struct WithoutIndex {
    key: unsafe extern "C" fn(Sheet, usize, Lines, usize, Count, u64, bool) -> u64,
    withdraw: unsafe extern "C" fn(Sheet, usize, Book, usize, Lines, usize, Count, u64) -> u64,
    step: unsafe extern "C" fn(Sheet, usize, u64, u64, u64, u64) -> u64,
    run: unsafe extern "C" fn(Sheet, usize, u64) -> u64,
}

impl Changes {
    /// The calls of a library: with an index, if it can fill one.
    ///
    /// # Safety
    ///
    /// The library is open, and its header declares the calls as they are above.
    pub unsafe fn of(library: *mut c_void) -> Changes {
        let [key, withdraw, step, run] = [c"nd_key", c"nd_withdraw", c"nd_step", c"nd_run"];
        if has_symbol(library, c"nd_index") {
            return Changes::With(WithIndex {
                index: symbol(library, c"nd_index"),
                key: symbol(library, key),
                withdraw: symbol(library, withdraw),
                step: symbol(library, step),
                run: symbol(library, run),
            });
        }
        Changes::Without(WithoutIndex {
            key: symbol(library, key),
            withdraw: symbol(library, withdraw),
            step: symbol(library, step),
            run: symbol(library, run),
        })
    }

    /// Makes a call: its answer.
    ///
    /// # Safety
    ///
    /// The library is open.
    pub unsafe fn call(&self, call: Call, lent: &mut Lent) -> u64 {
        match self {
            Changes::With(calls) => calls.call(call, lent),
            Changes::Without(calls) => calls.call(call, lent),
        }
    }
}

// SAFETY of all calls: every pointer is good for as many elements as its length says, no two
// overlap, and the library touches nothing else; the count is one number, and every line's truth
// value is one.

impl WithIndex {
    unsafe fn call(&self, call: Call, lent: &mut Lent) -> u64 {
        let (book, book_len) = (lent.book.as_ptr(), lent.book.len());
        let (sheet, sheet_len) = (lent.sheet.as_mut_ptr(), lent.sheet.len());
        let (lines, slots) = (lent.lines.as_mut_ptr(), lent.lines.len());
        let (marks, marks_len) = (lent.index.as_mut_ptr(), lent.index.len());
        let count = &mut lent.count;
        match call {
            Call::Index => (self.index)(sheet, sheet_len, marks, marks_len),
            Call::Key { option, negative } => (self.key)(
                sheet, sheet_len, lines, slots, count, marks, marks_len, option, negative,
            ),
            Call::Withdraw { k } => (self.withdraw)(
                sheet, sheet_len, book, book_len, lines, slots, count, marks, marks_len, k,
            ),
            Call::Step { rule, place, i, j } => {
                (self.step)(sheet, sheet_len, marks, marks_len, rule, place, i, j)
            }
            Call::Run { budget } => (self.run)(sheet, sheet_len, marks, marks_len, budget),
            _ => panic!("{call:?} changes no sheet"),
        }
    }
}

impl WithoutIndex {
    unsafe fn call(&self, call: Call, lent: &mut Lent) -> u64 {
        let (book, book_len) = (lent.book.as_ptr(), lent.book.len());
        let (sheet, sheet_len) = (lent.sheet.as_mut_ptr(), lent.sheet.len());
        let (lines, slots) = (lent.lines.as_mut_ptr(), lent.lines.len());
        let count = &mut lent.count;
        match call {
            Call::Key { option, negative } => {
                (self.key)(sheet, sheet_len, lines, slots, count, option, negative)
            }
            Call::Withdraw { k } => {
                (self.withdraw)(sheet, sheet_len, book, book_len, lines, slots, count, k)
            }
            Call::Step { rule, place, i, j } => (self.step)(sheet, sheet_len, rule, place, i, j),
            Call::Run { budget } => (self.run)(sheet, sheet_len, budget),
            _ => panic!("a library from before the index has no {call:?}"),
        }
    }
}
