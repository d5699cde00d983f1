//! The "complete" question: the tests in the order of documents 01 and 02, then the report, of
//! which the options count that the book or a line names. Which these are is not read off the
//! sheet, since a step can remove the last mark of an option.

use super::flat::is_sheet;
use super::lines::are_in_order;
use super::load::{checked, Checked};
use super::parts;
use crate::nodes::{is_literal, value};
use crate::orders::Line;

/// The most options of a book.
const OPTIONS: usize = 512;

/// The answer: 256 where the sheet is complete, 0 where it is not, else the refusal.
pub fn complete(sheet: &[u16], book: &[u8], lines: &[Line], count: u16) -> u64 {
    match book_for_question(sheet, book, lines, count) {
        Err(refusal) => refusal,
        Ok(book) => {
            let named = named(&book, &lines[..usize::from(count)]);
            u64::from(is_complete(sheet, &named)) << 8
        }
    }
}

/// The book that the question is judged on, or what it is refused.
fn book_for_question<'a>(
    sheet: &[u16],
    book: &'a [u8],
    lines: &[Line],
    count: u16,
) -> Result<Checked<'a>, u64> {
    if !is_sheet(sheet) {
        return Err(11);
    }
    let book = checked(book)?;
    if book.options != usize::from(sheet[0]) || !are_in_order(sheet[0], lines, count) {
        return Err(11);
    }
    Ok(book)
}

/// For each option, whether a body or a line names it.
fn named(book: &Checked, lines: &[Line]) -> [bool; OPTIONS] {
    let mut named = [false; OPTIONS];
    for node in book.nodes().filter(|&node| is_literal(node)) {
        named[value(node)] = true;
    }
    for line in lines {
        named[usize::from(line.option)] = true;
    }
    named
}

/// Whether a sheet is not contradictory, and every option that is named is in or out.
fn is_complete(sheet: &[u16], named: &[bool; OPTIONS]) -> bool {
    let mut marks = [0; OPTIONS];
    let contradictory = parts::mark(sheet, &mut marks);
    let is_settled = |(named, mark): (&bool, &u8)| !named || matches!(mark, 1 | 2);
    !contradictory && named.iter().zip(&marks).all(is_settled)
}
