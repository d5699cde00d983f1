//! Keyings and withdrawals: the library against plain Rust on random orders, and their times on
//! full-size ones.

use crate::compare::{index_of, loaded, random_book, stop};
use crate::families::Rules;
use crate::ffi;
use crate::measure::{medians, seconds};
use crate::nodes::{book, literal, node, ANY, LENGTH};
use crate::orders::{Key, Line, Order, Withdraw, SLOTS};
use crate::plain::{index, lines, load};
use crate::random::Random;
use std::collections::BTreeMap;

/// How often each refusal was given, 0 where a call was accepted: of keyings, of withdrawals.
#[derive(Default)]
pub struct Seen {
    pub keyings: BTreeMap<u64, u64>,
    pub withdrawals: BTreeMap<u64, u64>,
}

/// The times of one order of 64 lines, in seconds.
#[derive(Clone, Copy)]
pub struct Times {
    /// The last line keyed: the library and plain Rust.
    pub key: [f64; 2],
    /// The first line taken back: the library, plain Rust, and plain Rust by a load and 63
    /// keyings.
    pub withdraw: [f64; 3],
}

/// A call by the library and by plain Rust, which must leave the same and answer the same. After
/// an accepted call the index is the sheet's.
fn both(order: &mut Order, call: [&dyn Fn(&mut Order) -> u64; 2]) -> u64 {
    let before = order.clone();
    let mut other = before.clone();
    let answers = [call[0](order), call[1](&mut other)];
    if answers[0] != answers[1] || *order != other {
        let said = format!("{answers:?} of {before:?}");
        stop("two orders differ", &before.sheet, &said);
    }
    if answers[0] != 0 && *order != before {
        stop("a refused call changed something", &before.sheet, "");
    }
    if answers[0] == 0 && !has_index(order, &before) {
        let said = format!("{:?} of {before:?}", order.index);
        stop("the index is not the sheet's", &order.sheet, &said);
    }
    answers[0]
}

/// Whether the order's index is a fresh count of its sheet, and what is past it stayed.
fn has_index(order: &Order, before: &Order) -> bool {
    let mut index = before.index.clone();
    index::count(&order.sheet, &mut index);
    order.index == index
}

fn key(order: &mut Order, option: u64, negative: bool) -> u64 {
    let call = |key: Key| move |order: &mut Order| key(order, option, negative);
    both(order, [&call(ffi::key), &call(lines::key)])
}

fn withdraw(order: &mut Order, book: &[u8], k: u64) -> u64 {
    let call = |withdraw: Withdraw| move |order: &mut Order| withdraw(order, book, k);
    both(order, [&call(ffi::withdraw), &call(lines::withdraw)])
}

/// A number, or one that is that number in fewer bits.
fn wide(random: &mut Random, number: u64) -> u64 {
    let more = random.pick(&[0, 0, 0, 0, 1 << 16, 1 << 32, 1 << 63]);
    number + more
}

/// An order of a sheet: its lines are in order or not, and nobody need have keyed them.
pub fn random_order(random: &mut Random, sheet: [u16; LENGTH]) -> Order {
    let options = usize::from(sheet[0]);
    let other = random.pick(&[0, SLOTS - 1, SLOTS + 1]);
    let slots = if random.one_in(12) { other } else { SLOTS };
    let beyond = usize::from(random.one_in(12));
    let line = |random: &mut Random| Line {
        option: random.below((options + beyond).max(1)) as u16,
        negative: random.one_in(2),
    };
    let (few, many) = (random.below(4), SLOTS - random.below(2));
    let over = random.pick(&[SLOTS + 1, 65_535]);
    let count = random.pick(&[few, few, few, few, few, few, few, many, many, over]);
    Order {
        sheet,
        lines: (0..slots).map(|_| line(random)).collect(),
        count: count as u16,
        index: Vec::new(),
    }
}

/// The index of a sheet, with numbers past it or without; at times one that is stale or short.
fn random_index(random: &mut Random, sheet: &[u16]) -> Vec<u16> {
    let mut index = index_of(sheet);
    let length = 2 * usize::from(sheet[0]);
    let at = random.below(length.max(1));
    match random.below(15) {
        0 => index.truncate(at),
        1 => index[at] = random.number(),
        2 => index[at] = index[at].wrapping_add(1),
        _ => index.truncate(length + random.below(4)),
    }
    index
}

/// One of two books, at times with a bit changed.
pub fn lent_book(random: &mut Random, books: &[Vec<u8>; 2]) -> Vec<u8> {
    let mut book = books[random.below(2)].clone();
    if random.one_in(10) {
        let at = random.below(book.len());
        book[at] ^= 1 << random.below(8);
    }
    book
}

/// One call on an order, with its own book or another.
fn random_call(random: &mut Random, order: &mut Order, books: &[Vec<u8>; 2], seen: &mut Seen) {
    order.index = random_index(random, &order.sheet);
    if random.one_in(2) {
        let option = random.below(usize::from(order.sheet[0]) + 2) as u64;
        let answer = key(order, wide(random, option), random.one_in(2));
        *seen.keyings.entry(answer).or_default() += 1;
    } else {
        let book = lent_book(random, books);
        let k = random.below(usize::from(order.count).min(SLOTS) + 1) as u64;
        let answer = withdraw(order, &book, wide(random, k));
        *seen.withdrawals.entry(answer).or_default() += 1;
    }
}

/// Compares keyings and withdrawals on random orders of a weight at most.
pub fn random_orders(random: &mut Random, count: usize, weight: usize, seen: &mut Seen) {
    for _ in 0..count {
        let books = [random_book(random, weight), random_book(random, weight)];
        let mut order = random_order(random, loaded(&books[0]));
        for _ in 0..8 {
            random_call(random, &mut order, &books, seen);
            if random.one_in(4) {
                let mut index = index_of(&order.sheet);
                ffi::run(&mut order.sheet, &mut index, random.below(4) as u64);
            }
        }
    }
}

/// Two books whose orders are nearly full: one wide clause, which in the second may have a mark
/// too many.
pub fn full_books(random: &mut Random) -> [Vec<u8>; 2] {
    [2047, 2048].map(|most| {
        let width = most - random.below(4);
        let mut clause = vec![node(ANY, width)];
        clause.extend((0..width).map(|at| literal(at % 3, false)));
        book(3, &[clause])
    })
}

/// The same on orders that are nearly full.
pub fn full_orders(random: &mut Random, count: usize, seen: &mut Seen) {
    for _ in 0..count {
        let books = full_books(random);
        let mut order = random_order(random, loaded(&books[0]));
        for _ in 0..8 {
            random_call(random, &mut order, &books, seen);
        }
    }
}

/// The order of a book with 64 lines, all of them keyed.
pub fn whole_order(bytes: &[u8]) -> Order {
    let sheet = loaded(bytes);
    let mut order = Order {
        sheet,
        lines: vec![
            Line {
                option: 0,
                negative: false
            };
            SLOTS
        ],
        count: 0,
        index: index_of(&sheet),
    };
    let options = u64::from(order.sheet[0]);
    for at in 0..SLOTS as u64 {
        let answer = key(&mut order, at % options, at % 3 == 0);
        assert_eq!(answer, 0, "a line of a full-size order is refused");
    }
    order
}

/// Measures the order of 64 lines on a book that has room for them.
pub fn measured(rules: &Rules) -> Times {
    let bytes = book(rules.options, &rules.bodies);
    let whole = whole_order(&bytes);
    assert_eq!(withdraw(&mut whole.clone(), &bytes, 0), 0);
    Times {
        key: key_times(&bytes, &whole),
        withdraw: withdraw_times(&bytes, &whole),
    }
}

/// The time of the 64th keying, by both.
fn key_times(bytes: &[u8], whole: &Order) -> [f64; 2] {
    let mut last = whole.clone();
    assert_eq!(lines::withdraw(&mut last, bytes, SLOTS as u64 - 1), 0);
    let calls: [Key; 2] = [ffi::key, lines::key];
    let mut sides = calls.map(|key| {
        let last = &last;
        move || {
            let mut order = last.clone();
            seconds(|| key(&mut order, 0, true))
        }
    });
    let sides = sides.iter_mut().map(|side| side as &mut dyn FnMut() -> f64);
    medians(sides.collect()).try_into().expect("a time a side")
}

/// The time of the first line's withdrawal, by both, and of a load and 63 keyings.
fn withdraw_times(bytes: &[u8], whole: &Order) -> [f64; 3] {
    let once = |call: Withdraw| {
        move || {
            let mut order = whole.clone();
            seconds(|| call(&mut order, bytes, 0))
        }
    };
    let mut again = || {
        let mut order = whole.clone();
        seconds(|| load_and_key(&mut order, bytes))
    };
    let (mut ours, mut plain) = (once(ffi::withdraw), once(lines::withdraw));
    let sides: Vec<&mut dyn FnMut() -> f64> = vec![&mut ours, &mut plain, &mut again];
    medians(sides).try_into().expect("a time a side")
}

/// What the caller would do who had no withdrawal: all lines but the first, keyed again.
fn load_and_key(order: &mut Order, bytes: &[u8]) {
    let mut refusals = load::load(bytes, &mut order.sheet);
    refusals += index::fill(&order.sheet, &mut order.index);
    let remaining: Vec<Line> = order.lines[1..].to_vec();
    order.count = 0;
    for line in remaining {
        refusals += lines::key(order, u64::from(line.option), line.negative);
    }
    assert_eq!(refusals, 0, "a line is refused when it is keyed again");
}
