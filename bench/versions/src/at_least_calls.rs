//! Calls that speak of at-leasts: node kind 6, and rules 15 to 17.  A build from before them
//! refuses these books and sheets, and these rules, so there is nothing to compare.

use crate::calls::{refusal, Call, Lent};
use crate::library::Library;
use crate::nodes::{at_least, book, kind, LEAST};
use crate::random::Random;
use crate::random_books::{self, book_with_leasts};

/// The rules; those after the fourteenth are for at-leasts.
pub const RULES: usize = 17;

/// Whether a library knows at-leasts: it accepts a book with one.
pub fn are_known(library: &Library) -> bool {
    let mut lent = Lent {
        book: book(0, &[vec![at_least(0, 0)]]),
        ..Lent::default()
    };
    refusal(library.call(Call::Check, &mut lent)) == 0
}

/// Whether a call reads a node of kind 6, or names a rule that is for these alone.
pub fn are_met(call: Call, lent: &Lent) -> bool {
    use Call::Import;
    use Call::{Check, Complete, Index, Key, Load, Lookup, Report, Run, Step, Withdraw, Write};
    match call {
        Check | Lookup | Load => in_book(&lent.book),
        Write | Withdraw { .. } | Complete => in_book(&lent.book) || in_sheet(&lent.sheet),
        Step { rule, .. } => (15..=17).contains(&rule) || in_sheet(&lent.sheet),
        Index | Key { .. } | Run { .. } | Report => in_sheet(&lent.sheet),
        // It reads a text and makes a book without them.
        Import => false,
    }
}

/// A random book of a weight at most, with at-leasts or without.
pub fn random_book(random: &mut Random, weight: usize, at_leasts: bool) -> Vec<u8> {
    if !at_leasts {
        return random_books::random_book(random, weight);
    }
    book_with_leasts(random, weight, 30)
}

fn in_sheet(sheet: &[u16]) -> bool {
    let nodes = sheet.get(2..).unwrap_or_default();
    nodes.iter().any(|&node| kind(node) == LEAST)
}

/// Whether there is one among the nodes of a book, which are its last numbers.  (Where the length
/// is not the one due, no build reads that far.)
fn in_book(book: &[u8]) -> bool {
    let number = |at: usize| u16::from_le_bytes([book[at], book[at + 1]]);
    if book.len() < 8 {
        return false;
    }
    let nodes = usize::from(number(4)).min((book.len() - 8) / 2);
    let first = book.len() - 2 * nodes;
    (first..book.len())
        .step_by(2)
        .any(|at| kind(number(at)) == LEAST)
}
