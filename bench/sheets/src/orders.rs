//! Orders as the calls are lent them: a sheet, its lines and their count, its index.

use crate::nodes::LENGTH;

/// The slots of an order's lines.
pub const SLOTS: usize = 64;

/// A line: an option, taken or (negative) barred. Laid out as the library has it.
#[repr(C)]
#[derive(Clone, Copy, Debug, PartialEq, Eq)]
pub struct Line {
    pub option: u16,
    pub negative: bool,
}

/// What is lent to a keying or a withdrawal, and what it leaves there.
#[derive(Clone, Debug, PartialEq, Eq)]
pub struct Order {
    pub sheet: [u16; LENGTH],
    pub lines: Vec<Line>,
    pub count: u16,
    pub index: Vec<u16>,
}

/// Keys an option on an order: the refusal, 0 where it is accepted.
pub type Key = fn(&mut Order, u64, bool) -> u64;

/// Asks whether a sheet is complete, with a book, lines and their count: 256 where it is, 0 where
/// it is not, else the refusal.
pub type Complete = fn(&[u16], &[u8], &[Line], u16) -> u64;

/// Takes a line of an order back, with a book: the refusal, 0 where it is accepted.
pub type Withdraw = fn(&mut Order, &[u8], u64) -> u64;
