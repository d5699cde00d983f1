//! What is lent to the calls that are compared, and the calls that are made on it.

use crate::at_least_calls::{random_book, RULES};
use crate::at_leasts::with_at_leasts;
use crate::books;
use crate::calls::{Call, Lent};
use crate::damage::{damage_sheet, damaged_book};
use crate::imports;
use crate::nodes::{value, LENGTH};
use crate::orders::{Line, SLOTS};
use crate::plain::flat::{fill_sizes, is_sheet, used, Flat, MOST};
use crate::plain::{index, load, simple};
use crate::random::Random;

/// The most nodes of a sheet that is run to its end wherever it is met.
const SHORT: usize = 700;

/// The sheet of a book; all zeros, which is none, where the book is refused.
pub fn loaded(book: &[u8]) -> Vec<u16> {
    let mut sheet = vec![0; LENGTH];
    load::load(book, &mut sheet);
    sheet
}

/// The length of the book that a sheet is written as, as far as its first numbers say.
fn written_length(sheet: &[u16]) -> usize {
    match sheet {
        [options, used, root, ..] => {
            let nodes = usize::from(*used).saturating_sub(1);
            8 + 13 * usize::from(*options) + 4 * value(*root) + 2 * nodes
        }
        _ => 8,
    }
}

fn options(sheet: &[u16]) -> usize {
    sheet.first().map_or(0, |&options| usize::from(options))
}

/// The index of a sheet, counted by plain Rust; of what is no sheet, none.
pub fn index_of(sheet: &[u16]) -> Vec<u16> {
    if !is_sheet(sheet) {
        return Vec::new();
    }
    let mut index = vec![0; 2 * options(sheet)];
    index::count(sheet, &mut index);
    index
}

/// An index to lend with a sheet: its own, with numbers past it or without, and at times one that
/// is stale or short.
pub fn index(random: &mut Random, sheet: &[u16]) -> Vec<u16> {
    let mut index = index_of(sheet);
    let at = random.below(index.len().max(1));
    match random.below(12) {
        0 => index.truncate(at),
        1 if !index.is_empty() => index[at] = random.number(),
        2 if !index.is_empty() => index[at] = index[at].wrapping_add(1),
        _ => {
            let past = random.below(3);
            index.extend((0..past).map(|_| random.number()));
        }
    }
    index
}

/// The length of an output: what a report, a writing or an import needs, or less, or more.
fn out_length(random: &mut Random, sheet: &[u16], text: &[u8]) -> usize {
    let (options, written) = (options(sheet), written_length(sheet));
    let imported = imports::book_length(text);
    let [before_end, before_book] = [options, imported].map(|length| length.saturating_sub(1));
    let short = random.pick(&[0, before_end, written - 1, before_book]);
    let more = random.pick(&[512, options + 1, written + 1, imported + 1]);
    random.pick(&[short, more, options, written, written, written, imported])
}

/// A book, a sheet and a clause file, with lines, an index, a code and an output that go with them
/// or do not.
pub fn lent(random: &mut Random, book: Vec<u8>, sheet: Vec<u16>) -> Lent {
    let options = options(&sheet);
    let text = imports::text(random);
    let length = out_length(random, &sheet, &text);
    let (lines, count) = lines(random, options);
    Lent {
        code: code(random, &book),
        out: vec![random.byte(); length],
        index: index(random, &sheet),
        text,
        book,
        sheet,
        lines,
        count,
    }
}

/// Lines that are in order or not, and that nobody need have keyed.
fn lines(random: &mut Random, options: usize) -> (Vec<Line>, u16) {
    let other = random.pick(&[0, SLOTS - 1, SLOTS + 1]);
    let slots = if random.one_in(12) { other } else { SLOTS };
    let beyond = usize::from(random.one_in(12));
    let line = |random: &mut Random| Line {
        option: random.below((options + beyond).max(1)) as u16,
        negative: random.one_in(2),
    };
    let (few, many) = (random.below(4), SLOTS - random.below(2));
    let over = random.pick(&[SLOTS + 1, 65_535]);
    let count = random.pick(&[few, few, few, few, few, few, few, many, many, over]);
    ((0..slots).map(|_| line(random)).collect(), count as u16)
}

/// A code of the book, or one that is nearly so.
fn code(random: &mut Random, book: &[u8]) -> Vec<u8> {
    let mut codes = book.get(8..).unwrap_or_default().chunks_exact(13);
    let options = book
        .first_chunk()
        .map_or(0, |&head| u16::from_le_bytes(head));
    let count = codes.len().min(usize::from(options));
    let stored = codes.nth(random.below(count.max(1))).unwrap_or(b"NONE");
    let length = stored.iter().position(|&byte| byte == 0);
    let mut code = stored[..length.unwrap_or(stored.len())].to_vec();
    match random.below(12) {
        0 => code.push(random.pick(&[0, b'A'])),
        1 => drop(code.pop()),
        2 if !code.is_empty() => code[0] ^= 1,
        _ => (),
    }
    code
}

/// A random book that is accepted, with at-leasts or without.
fn book(random: &mut Random, weight: usize, at_leasts: bool) -> Vec<u8> {
    if !random.one_in(3) {
        return random_book(random, weight, at_leasts);
    }
    let small = books::small(random, 6, weight / 3);
    if at_leasts && random.one_in(2) {
        return with_at_leasts(random, small).bytes();
    }
    small.bytes()
}

/// Random books and sheets of a weight at most, one in some of them damaged.
pub fn random_lent(random: &mut Random, weight: usize, at_leasts: bool) -> Lent {
    let [own, other] = [(); 2].map(|()| book(random, weight, at_leasts));
    let mut sheet = loaded(&own);
    if random.one_in(5) {
        damage_sheet(random, &mut sheet);
    }
    let book = match random.below(6) {
        0 | 1 => damaged_book(random, &own),
        2 => other,
        _ => own,
    };
    lent(random, book, sheet)
}

/// The calls on what is lent: every one, and several of those that are given numbers.
pub fn calls(random: &mut Random, lent: &Lent) -> Vec<Call> {
    use Call::{Check, Complete, Import, Index, Load, Lookup, Report, Run, Write};
    let mut calls = vec![Check, Lookup, Load, Write, Index, Report, Complete, Import];
    for _ in 0..2 {
        calls.push(keying(random, lent));
        calls.push(withdrawal(random, lent));
        calls.push(any_step(random, lent));
        calls.extend(step_that_applies(random, &lent.sheet));
    }
    let is_short = lent
        .sheet
        .get(1)
        .is_none_or(|&used| usize::from(used) < SHORT);
    let long = if is_short { u64::MAX } else { 50 };
    let budgets = [0, random.below(20) as u64, long];
    calls.extend(budgets.map(|budget| Run { budget }));
    calls
}

/// A call that may change the sheet.
pub fn change(random: &mut Random, lent: &Lent) -> Call {
    match random.below(6) {
        0 => Call::Load,
        1 | 2 => keying(random, lent),
        3 => withdrawal(random, lent),
        4 => step_that_applies(random, &lent.sheet).unwrap_or(Call::Load),
        _ => Call::Run {
            budget: random.below(4) as u64,
        },
    }
}

/// A number, or one that is that number in fewer bits.
fn wide(random: &mut Random, number: usize) -> u64 {
    number as u64 + random.pick(&[0, 0, 0, 0, 0, 0, 1 << 16, 1 << 32, 1 << 63])
}

fn keying(random: &mut Random, lent: &Lent) -> Call {
    let option = random.below(options(&lent.sheet) + 2);
    Call::Key {
        option: wide(random, option),
        negative: random.one_in(2),
    }
}

fn withdrawal(random: &mut Random, lent: &Lent) -> Call {
    let k = random.below(usize::from(lent.count).min(SLOTS) + 1);
    Call::Withdraw { k: wide(random, k) }
}

/// A step that mostly does not apply.
fn any_step(random: &mut Random, lent: &Lent) -> Call {
    let nodes = lent.sheet.get(1).map_or(0, |&used| usize::from(used));
    let [rule, place, i, j] = [RULES + 2, nodes + 2, 4, 3].map(|end| random.below(end));
    Call::Step {
        rule: wide(random, rule),
        place: wide(random, place),
        i: wide(random, i),
        j: wide(random, j),
    }
}

/// A step that applies, if there is one: the first from a random rule and place on.
fn step_that_applies(random: &mut Random, sheet: &[u16]) -> Option<Call> {
    let rules = random.below(RULES);
    let places = random.below(MOST);
    first_step(sheet, rules, places)
}

/// The strategy's step, if any applies.
pub fn next_step(sheet: &[u16]) -> Option<Call> {
    first_step(sheet, 0, 0)
}

/// The first step that applies, where so many rules and places are tried last.
fn first_step(sheet: &[u16], rules: usize, places: usize) -> Option<Call> {
    if !is_sheet(sheet) {
        return None;
    }
    let mut sizes = [0; MOST];
    fill_sizes(used(sheet), &mut sizes);
    let flat = Flat {
        nodes: used(sheet),
        sizes: &sizes,
    };
    let count = flat.nodes.len();
    let places = || (0..count).map(|at| (at + places) % count);
    let mut rules = (0..RULES).map(|at| 1 + (at + rules) % RULES);
    rules.find_map(|rule| {
        places().find_map(|place| {
            let (i, j) = simple::least(flat, rule, place)?;
            let [rule, place, i, j] = [rule, place, i, j].map(|number| number as u64);
            Some(Call::Step { rule, place, i, j })
        })
    })
}
