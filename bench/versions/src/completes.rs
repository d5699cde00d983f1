//! The "complete" question: as it is since the book and the lines are judged, and as it was before,
//! when it was asked of the sheet alone and every option had to be in or out.

use crate::calls::{refusal, Lent};
use crate::library::symbol;
use crate::nodes::{node, LENGTH, ROOT};
use crate::orders::Line;
use std::ffi::c_void;
use std::ptr::null;

/// Sheet, book, lines and their count.
type OfOrder =
    unsafe extern "C" fn(*const u16, usize, *const u8, usize, *const Line, usize, u16) -> u64;
type OfSheet = unsafe extern "C" fn(*const u16, usize) -> u64;

/// The call of a library that judges the book and the lines, or of one from before that.
#[derive(Clone, Copy)]
pub enum Complete {
    OfOrder(OfOrder),
    OfSheet(OfSheet),
}

impl Complete {
    /// The call of a library. Its name is the same in all of them, so it is asked of a sheet with
    /// no book: one that judges the book refuses this.
    ///
    /// # Safety
    ///
    /// The library is open, and its header declares the call in one of the two ways.
    pub unsafe fn of(library: *mut c_void) -> Complete {
        let of_order: OfOrder = symbol(library, c"nd_complete");
        let mut sheet = [0; LENGTH];
        sheet[1..3].copy_from_slice(&[1, node(ROOT, 0)]);
        // A function that takes the sheet alone never looks where the other arguments are passed.
        let answer = of_order(sheet.as_ptr(), LENGTH, null(), 0, null(), 0, 0);
        match refusal(answer) {
            0 => Complete::OfSheet(symbol(library, c"nd_complete")),
            _ => Complete::OfOrder(of_order),
        }
    }

    pub fn judges_order(self) -> bool {
        matches!(self, Complete::OfOrder(_))
    }

    /// Makes the call: its answer.
    ///
    /// # Safety
    ///
    /// The library is open.
    pub unsafe fn call(self, lent: &Lent) -> u64 {
        let (sheet, sheet_len) = (lent.sheet.as_ptr(), lent.sheet.len());
        let (book, book_len) = (lent.book.as_ptr(), lent.book.len());
        let (lines, slots) = (lent.lines.as_ptr(), lent.lines.len());
        // Every pointer is good for as many elements as its length says, and the library touches
        // nothing else; every line's truth value is one.
        match self {
            Complete::OfOrder(call) => {
                call(sheet, sheet_len, book, book_len, lines, slots, lent.count)
            }
            Complete::OfSheet(call) => call(sheet, sheet_len),
        }
    }
}

/// Whether the answer for an order can stand beside the one for its sheet alone: what is no sheet
/// is refused by both, and what was complete still is.
pub fn follows(of_sheet: u64, of_order: u64) -> bool {
    match (refusal(of_sheet), refusal(of_order)) {
        (0, 0) => of_sheet <= of_order,
        (0, _) => true,
        (of_sheet, of_order) => of_sheet == of_order,
    }
}
