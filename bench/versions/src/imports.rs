//! Clause files to lend to imports: small ones of every kind, and such that are at a limit.

use crate::calls::{Call, Lent};
use crate::clause_files::{long_numbers, scramble, scribbled, ClauseFile, FAULTS};
use crate::clause_texts::LONGEST_BOOK;
use crate::comparing::Comparing;
use crate::plain::import::import;
use crate::random::Random;

/// A text of a small file, one in some of them damaged or too large.
pub fn text(random: &mut Random) -> Vec<u8> {
    let mut file = ClauseFile::small(random);
    if random.one_in(12) {
        file.options = random.pick(&[511, 512, 513, 514, 65_536]);
    }
    written(random, &file)
}

/// A text of a file, one in some of them damaged, or of another form altogether.
fn written(random: &mut Random, file: &ClauseFile) -> Vec<u8> {
    let mut text = file.text(random);
    match random.below(8) {
        0 => scramble(random, &mut text),
        1 => text = scribbled(random),
        2 => text = long_numbers(random),
        3 => {
            let fault = random.pick(&FAULTS);
            text = file.damaged(random, fault);
        }
        _ => (),
    }
    text
}

/// The length of the book that a text is imported as, by plain Rust; 0 where there is none.
pub fn book_length(text: &[u8]) -> usize {
    (import(text, &mut [0; LONGEST_BOOK]) >> 8) as usize
}

/// A text and an output of some length, and nothing else.
pub fn lent(text: Vec<u8>, room: usize) -> Lent {
    Lent {
        text,
        out: vec![7; room],
        ..Lent::default()
    }
}

/// Compares imports of files whose weight is the limit or nearly so, into outputs that just
/// suffice, that lack a byte, and that are longer.
pub fn weights(comparing: &mut Comparing, random: &mut Random, count: usize) {
    for _ in 0..count {
        let weight = random.within(4094, 4098);
        let marks = random.below(weight / 2);
        let clauses = (weight - 1 - 2 * marks).max(1);
        let options = random.pick(&[1, 100, 511, 512, 513]);
        let file = ClauseFile::any(random, options, clauses, marks);
        let text = written(random, &file);
        let length = book_length(&text);
        for room in [length, length.saturating_sub(1), LONGEST_BOOK] {
            comparing.call(Call::Import, &mut lent(text.clone(), room));
        }
    }
}
