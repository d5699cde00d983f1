//! Books and sheets with something wrong.

use crate::books::{damaged, nearly, small, FAULTS};
use crate::random::Random;

/// Numbers of nodes that a sheet may be said to have: the limit and around it, and what is none
/// or far too many.
pub const USED: [u16; 7] = [0, 4095, 4096, 4097, 4098, 8192, 65_535];

/// Numbers of options, around the limit and beyond.
const OPTIONS: [u16; 6] = [0, 1, 511, 512, 513, 65_535];

/// Numbers of rules or nodes that a head may give, around the limit and beyond.
const TOTALS: [u16; 7] = [0, 1, 4094, 4095, 4096, 4097, 65_535];

/// A book like this one with something wrong, or wrong bytes of another kind.
pub fn damaged_book(random: &mut Random, book: &[u8]) -> Vec<u8> {
    let mut bytes = book.to_vec();
    let at = random.below(bytes.len().max(1));
    match random.below(6) {
        0 => {
            let (book, fault) = (small(random, 6, 12), random.pick(&FAULTS));
            bytes = damaged(random, &book, &[fault]).0;
        }
        1 => bytes = nearly(random),
        2 => bytes.truncate(at),
        3 if bytes.len() >= 8 => damage_head(random, &mut bytes),
        4 if !bytes.is_empty() => bytes[at] ^= 1 << random.below(8),
        _ if !bytes.is_empty() => bytes[at] = random.byte(),
        _ => bytes = random.bytes(8),
    }
    bytes
}

/// Another number in the head; the length may follow it.
fn damage_head(random: &mut Random, bytes: &mut Vec<u8>) {
    let field = random.below(3);
    let number = match field {
        0 => random.pick(&OPTIONS),
        _ => random.pick(&TOTALS),
    };
    set_head(bytes, field, number);
    if random.one_in(2) {
        fit_to_head(bytes);
    }
}

/// Sets one of the four numbers of a head.
pub fn set_head(bytes: &mut [u8], field: usize, number: u16) {
    bytes[2 * field..2 * field + 2].copy_from_slice(&number.to_le_bytes());
}

/// Cuts a book to the length that its head asks for, or fills it up to that with zero bytes.
pub fn fit_to_head(bytes: &mut Vec<u8>) {
    let number =
        |field: usize| usize::from(bytes[2 * field]) + 256 * usize::from(bytes[2 * field + 1]);
    bytes.resize(8 + 13 * number(0) + 4 * number(1) + 2 * number(2), 0);
}

/// Makes something of a sheet wrong, which may by chance leave it one.
pub fn damage_sheet(random: &mut Random, sheet: &mut Vec<u16>) {
    let used = usize::from(sheet[1]).min(sheet.len() - 2);
    let at = random.below(2 + used);
    match random.below(7) {
        0 => sheet[1] = random.pick(&USED),
        1 => sheet[0] = random.pick(&OPTIONS),
        2 => sheet[at] = random.number(),
        3 => sheet[at] ^= 1 << random.below(16),
        4 => sheet[2] = sheet[2].wrapping_add(random.pick(&[1, u16::MAX])),
        5 => {
            let last = sheet.len() - 1;
            let past = random.within((2 + used).min(last), last);
            sheet[past] = random.pick(&[1, 0x1000, 0x3000, 65_535]);
        }
        _ => sheet.resize(random.pick(&[0, 1, 2, 3, 4097, 4099]), 0),
    }
}
