//! Sheets for the tests, of books and damaged, and indexes to lend beside them.

use crate::books::{node, Book};
use crate::random::Random;

/// The length of a sheet, in numbers.
pub const LENGTH: usize = 4098;

pub const ROOT: u16 = 5;

/// What stands past twice N: no count and no place, and no two alike.
pub const PAST: [u16; 5] = [60_001, 60_098, 60_195, 60_292, 60_389];

/// The sheet that an accepted book fills.
pub fn sheet(book: &Book) -> Vec<u16> {
    let mut sheet = vec![
        book.codes.len() as u16,
        1 + book.nodes.len() as u16,
        node(ROOT, book.pairs.len()),
    ];
    sheet.extend(&book.nodes);
    sheet.resize(LENGTH, 0);
    sheet
}

/// The sheet with a number or two changed a little, or of another length.
pub fn damaged(random: &mut Random, mut sheet: Vec<u16>) -> Vec<u16> {
    let used = usize::from(sheet[1]);
    for _ in 0..random.within(1, 2) {
        let at = if random.one_in(8) {
            random.below(sheet.len())
        } else {
            random.below(sheet.len().min(used + 3))
        };
        sheet[at] = match random.below(5) {
            0 => sheet[at].wrapping_add(1),
            1 => sheet[at].wrapping_sub(1),
            2 => sheet[at] ^ 4096,
            3 => random.pick(&[0, 1, 512, 513, 4096, 4097, 20_480, 65_535]),
            _ => random.number(),
        };
    }
    if random.one_in(10) {
        sheet.resize(random.pick(&[0, 1, 3, LENGTH - 1, LENGTH + 1]), 0);
    }
    sheet
}

/// What an index may hold before it is filled: any numbers, as many as needed, more or
/// fewer.
pub fn any_index(random: &mut Random, options: usize) -> Vec<u16> {
    let due = 2 * options;
    let length = match random.below(4) {
        0 => due,
        1 => due + random.within(1, 40),
        2 => random.within(0, due.saturating_sub(1)),
        _ => random.pick(&[0, options, due.saturating_sub(1), due + 1]),
    };
    (0..length).map(|_| random.number()).collect()
}

/// An index near a right one: with numbers past it, one of its numbers changed, or some
/// missing.
pub fn near_index(random: &mut Random, right: &[u16]) -> Vec<u16> {
    let mut index = right.to_vec();
    if !right.is_empty() && random.one_in(2) {
        let at = match random.below(3) {
            0 => random.below(right.len().min(2)),
            1 => right.len() - 1 - random.below(2),
            _ => random.below(right.len()),
        };
        let more = random.pick(&[1, 65_535, 256, 4096]);
        index[at] = index[at].wrapping_add(more);
    }
    match random.below(3) {
        0 => index.truncate(random.pick(&[0, right.len() / 2, right.len().saturating_sub(1)])),
        1 => index.extend(PAST),
        _ => {}
    }
    index
}
