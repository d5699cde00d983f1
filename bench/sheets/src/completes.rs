//! The "complete" question: the library against plain Rust, on families and on random orders, and
//! its times on full-size books, beside those of the report of the same sheet.

use crate::compare::{after, index_of, loaded, random_book, stop, Sheet};
use crate::families::Rules;
use crate::ffi;
use crate::figures;
use crate::keyings::{full_books, lent_book, random_order, whole_order};
use crate::measure::{medians, seconds, Side};
use crate::nodes::book;
use crate::orders::{Complete, Line, Order, SLOTS};
use crate::plain::{bounds, complete};
use crate::random::Random;
use std::collections::BTreeMap;

/// The lines of an order that has none.
pub const NO_LINES: [Line; SLOTS] = [Line {
    option: 0,
    negative: false,
}; SLOTS];

/// How often each answer was given.
pub type Seen = BTreeMap<u64, u64>;

/// The answer for a complete sheet.
const COMPLETE: u64 = 256;

/// The times on one sheet, in seconds: the library, plain Rust, and the library's report of it.
pub type Asked = [f64; 3];

/// The times of a family's full-size book.
#[derive(Clone, Copy)]
pub struct Times {
    /// Its sheet as it is loaded, with no lines.
    pub fresh: Asked,
    /// The sheet after the whole run, with no lines.
    pub after: Asked,
    /// The sheet of the order of 64 lines.
    pub keyed: Asked,
}

impl Times {
    /// The times on each sheet.
    pub fn each(self) -> [Asked; 3] {
        [self.fresh, self.after, self.keyed]
    }
}

/// What the library and plain Rust answer, which must be the same.
fn answer(sheet: &[u16], book: &[u8], lines: &[Line], count: u16) -> u64 {
    let both: [Complete; 2] = [ffi::complete, complete::complete];
    let [ours, plain] = both.map(|ask| ask(sheet, book, lines, count));
    if ours != plain {
        let lent = format!("book {book:?}\n{count} lines: {lines:?}");
        let said = format!("the library answers {ours}, plain Rust {plain}\n{lent}");
        stop("complete or not: the answers differ", sheet, &said);
    }
    ours
}

/// Whether a sheet is complete, by both; neither may refuse.
pub fn is_complete(sheet: &Sheet, book: &[u8], lines: &[Line], count: u16) -> bool {
    let answer = answer(sheet, book, lines, count);
    assert_eq!(answer % 256, 0, "the question is refused");
    answer == COMPLETE
}

/// A sheet, or at times one with a number changed or missing, which may leave it one.
fn lent_sheet(random: &mut Random, sheet: &Sheet) -> Vec<u16> {
    let mut sheet = sheet.to_vec();
    let at = random.below(3 + usize::from(sheet[1]));
    match random.below(24) {
        0 => drop(sheet.pop()),
        1 => sheet[at] = random.number(),
        2 => sheet[at] ^= 1 << random.below(16),
        _ => (),
    }
    sheet
}

/// Changes an order: another line, or a run of some steps or of all.
fn change(random: &mut Random, order: &mut Order) {
    order.index = index_of(&order.sheet);
    if random.one_in(3) {
        let budget = random.pick(&[1, 2, 3, u64::MAX]);
        ffi::run(&mut order.sheet, &mut order.index, budget);
    } else {
        let option = random.below(usize::from(order.sheet[0]) + 1) as u64;
        ffi::key(order, option, random.one_in(2));
    }
}

/// Asks of an order, again and again, while it changes.
fn ask(random: &mut Random, order: &mut Order, books: &[Vec<u8>; 2], seen: &mut Seen) {
    for _ in 0..8 {
        let sheet = lent_sheet(random, &order.sheet);
        let book = lent_book(random, books);
        let answer = answer(&sheet, &book, &order.lines, order.count);
        *seen.entry(answer).or_default() += 1;
        change(random, order);
    }
}

/// Compares the question on random orders of a weight at most.
pub fn random_orders(random: &mut Random, count: usize, weight: usize, seen: &mut Seen) {
    for _ in 0..count {
        let books = [random_book(random, weight), random_book(random, weight)];
        let mut order = random_order(random, loaded(&books[0]));
        ask(random, &mut order, &books, seen);
    }
}

/// The same on orders that are nearly full.
pub fn full_orders(random: &mut Random, count: usize, seen: &mut Seen) {
    for _ in 0..count {
        let books = full_books(random);
        let mut order = random_order(random, loaded(&books[0]));
        ask(random, &mut order, &books, seen);
    }
}

/// What was seen, in words; every answer must have been.
pub fn said(seen: &Seen) -> String {
    let due = [COMPLETE, 0, 1, 2, 3, 4, 5, 6, 11];
    assert_eq!(seen.len(), due.len(), "other answers: {seen:?}");
    figures::by_name(seen, &due, |answer| match answer {
        COMPLETE => "accepted and complete".to_string(),
        0 => "accepted and incomplete".to_string(),
        _ => format!("refused {answer}"),
    })
}

/// Measures a family's full-size book, and its book that has room for 64 lines.
pub fn measured(rules: &Rules, with_room: &Rules) -> Times {
    let [bytes, lighter] = [rules, with_room].map(|rules| book(rules.options, &rules.bodies));
    let fresh = loaded(&bytes);
    let settled = after(bounds::run, &fresh, u64::MAX).1;
    let order = whole_order(&lighter);
    Times {
        fresh: times(&fresh, &bytes, &NO_LINES, 0),
        after: times(&settled, &bytes, &NO_LINES, 0),
        keyed: times(&order.sheet, &lighter, &order.lines, order.count),
    }
}

/// The question by both and the report, in turn.
fn times(sheet: &Sheet, book: &[u8], lines: &[Line], count: u16) -> Asked {
    is_complete(sheet, book, lines, count);
    let mut out = vec![0; usize::from(sheet[0])];
    let once = |ask: Complete| move || seconds(|| ask(sheet, book, lines, count));
    let (mut ours, mut plain) = (once(ffi::complete), once(complete::complete));
    let mut report = || seconds(|| ffi::report(sheet, &mut out));
    let sides: Vec<Side> = vec![&mut ours, &mut plain, &mut report];
    medians(sides).try_into().expect("a time a side")
}
