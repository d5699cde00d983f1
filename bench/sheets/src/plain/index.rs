//! The index of mentions: for each option the count of its marks and the place of the first.

use super::flat::{is_sheet, used};
use crate::answers::Ran;
use crate::nodes::{is_literal, value};

/// The length of the longest index.
pub const LONGEST: usize = 1024;

/// The place of the first mark of an option that has none.
pub const NO_PLACE: u16 = 65_535;

/// The length of a sheet's index.
fn length(sheet: &[u16]) -> usize {
    2 * usize::from(sheet[0])
}

/// Counts a sheet's marks afresh, in one pass; numbers past the index stay.
pub fn count(sheet: &[u16], index: &mut [u16]) {
    let entries = &mut index[..length(sheet)];
    for entry in entries.chunks_exact_mut(2) {
        entry.copy_from_slice(&[0, NO_PLACE]);
    }
    for (place, &node) in used(sheet).iter().enumerate() {
        if is_literal(node) {
            mention_last(entries, value(node), place);
        }
    }
}

/// One mark more, at a place after all others of its option.
pub fn mention_last(index: &mut [u16], option: usize, place: usize) {
    if index[2 * option] == 0 {
        index[2 * option + 1] = place as u16;
    }
    index[2 * option] += 1;
}

/// Fills an index: the refusal, 0 where it is accepted.
pub fn fill(sheet: &[u16], index: &mut [u16]) -> u64 {
    if !is_sheet(sheet) {
        return 11;
    }
    if is_short(sheet, index) {
        return 12;
    }
    count(sheet, index);
    0
}

fn is_short(sheet: &[u16], index: &[u16]) -> bool {
    index.len() < length(sheet)
}

/// Long enough, and not the sheet's.
fn is_stale(sheet: &[u16], index: &[u16]) -> bool {
    let mut fresh = [0; LONGEST];
    count(sheet, &mut fresh);
    index
        .get(..length(sheet))
        .is_some_and(|index| index != &fresh[..length(sheet)])
}

/// The refusal of a call that is lent an index, by that of the same call without one: a book's
/// and every other 11 come before the index's 11, and 12 comes last.
pub fn refusal(sheet: &[u16], index: &[u16], own: u64) -> u64 {
    match own {
        1..=6 | 11 => own,
        _ if is_stale(sheet, index) => 11,
        0 if is_short(sheet, index) => 12,
        _ => own,
    }
}

/// A run on a sheet that is lent with its index, which is then that of the sheet after it.
pub fn kept(sheet: &mut [u16], index: &mut [u16], run: impl FnOnce(&mut [u16]) -> Ran) -> Ran {
    assert!(is_sheet(sheet), "a run is refused");
    assert_eq!(refusal(sheet, index, 0), 0, "a run is refused");
    let ran = run(sheet);
    count(sheet, index);
    ran
}
