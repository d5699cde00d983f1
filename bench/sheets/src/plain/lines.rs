//! Keying and taking back: the tests in the order of documents 01 and 02, then the marks.

use super::flat::{is_sheet, used, MOST};
use super::index;
use super::load::{checked, fill, Checked};
use crate::nodes::{literal, node, value, weight, ROOT};
use crate::orders::{Line, Order, SLOTS};

/// Keys an option: the refusal, 0 where it is accepted.
pub fn key(order: &mut Order, option: u64, negative: bool) -> u64 {
    let own = key_refusal(order, option);
    let refusal = index::refusal(&order.sheet, &order.index, own);
    if refusal != 0 {
        return refusal;
    }
    let line = Line {
        option: option as u16,
        negative,
    };
    let place = usize::from(order.sheet[1]);
    append(&mut order.sheet, line);
    index::mention_last(&mut order.index, option as usize, place);
    order.lines[usize::from(order.count)] = line;
    order.count += 1;
    0
}

/// What a keying is refused but for its index.
fn key_refusal(order: &Order, option: u64) -> u64 {
    if !is_sheet(&order.sheet) || !has_lines_in_order(order) {
        return 11;
    }
    if usize::from(order.count) == SLOTS {
        return 14;
    }
    if option >= u64::from(order.sheet[0]) {
        return 7;
    }
    if weight(used(&order.sheet)) + 2 > MOST {
        return 8;
    }
    0
}

/// Takes line k back: the refusal, 0 where it is accepted.
pub fn withdraw(order: &mut Order, book: &[u8], k: u64) -> u64 {
    let book = book_for_withdrawal(order, book, k);
    let own = book.as_ref().err().map_or(0, |&refusal| refusal);
    let refusal = index::refusal(&order.sheet, &order.index, own);
    if let (0, Ok(book)) = (refusal, book) {
        remove(order, k as usize);
        key_afresh(order, &book);
        index::count(&order.sheet, &mut order.index);
    }
    refusal
}

/// The book that line k is taken back with, or what this is refused but for the index.
fn book_for_withdrawal<'a>(order: &Order, book: &'a [u8], k: u64) -> Result<Checked<'a>, u64> {
    if !is_sheet(&order.sheet) {
        return Err(11);
    }
    let book = checked(book)?;
    if book.options != usize::from(order.sheet[0]) || !has_lines_in_order(order) {
        return Err(11);
    }
    if k >= u64::from(order.count) {
        return Err(13);
    }
    if book.weight + 2 * (usize::from(order.count) - 1) > MOST {
        return Err(8);
    }
    Ok(book)
}

fn has_lines_in_order(order: &Order) -> bool {
    are_in_order(order.sheet[0], &order.lines, order.count)
}

/// Whether there are 64 slots, a count of at most 64, and no line that names none of so many
/// options.
pub fn are_in_order(options: u16, lines: &[Line], count: u16) -> bool {
    let count = usize::from(count);
    let is_named = |line: &Line| line.option < options;
    lines.len() == SLOTS && count <= SLOTS && lines[..count].iter().all(is_named)
}

/// Moves the lines after k up; the slot that is free then keeps what it held.
fn remove(order: &mut Order, k: usize) {
    order.lines.copy_within(k + 1..usize::from(order.count), k);
    order.count -= 1;
}

/// The sheet of the book, with all lines that stand.
fn key_afresh(order: &mut Order, book: &Checked) {
    fill(&mut order.sheet, book);
    for line in &order.lines[..usize::from(order.count)] {
        append(&mut order.sheet, *line);
    }
}

/// Makes a literal the root's last child.
fn append(sheet: &mut [u16], line: Line) {
    let end = 2 + usize::from(sheet[1]);
    sheet[end] = literal(usize::from(line.option), line.negative);
    sheet[1] += 1;
    sheet[2] = node(ROOT, value(sheet[2]) + 1);
}
