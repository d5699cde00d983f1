//! Books, sheets and orders at the limits, and one or two beyond: of weight, of nodes, of room.

use crate::at_least_calls::random_book;
use crate::books::{book, size_of_weight, LIKENESSES, SHAPES};
use crate::calls::{Call, Lent};
use crate::comparing::Comparing;
use crate::damage::{fit_to_head, set_head, USED};
use crate::families::{Family, Rules};
use crate::nodes::{self, node, weight, LENGTH, ROOT, TRUE};
use crate::orders::{Line, SLOTS};
use crate::random::Random;
use crate::scenes::{lent, loaded};

/// The weight that a family's book is made with, before it is filled up.
const ROUGHLY: usize = 4000;

/// The rules of a family's book, filled up with rules that are true to exactly this weight.
pub fn filled(family: &Family, to: usize) -> Rules {
    let mut rules = (family.make)(to.min(ROUGHLY));
    let own: usize = rules.bodies.iter().map(|body| weight(body)).sum();
    rules.bodies.extend(vec![vec![TRUE]; to - 1 - own]);
    rules
}

pub fn book_of(rules: &Rules) -> Vec<u8> {
    nodes::book(rules.options, &rules.bodies)
}

/// The numbers of a sheet of these rules, too heavy or not; nodes beyond its end are left out.
pub fn sheet_of(rules: &Rules) -> Vec<u16> {
    let nodes = rules.bodies.concat();
    let mut sheet = vec![rules.options as u16, 1 + nodes.len() as u16];
    sheet.push(node(ROOT, rules.bodies.len()));
    sheet.extend(nodes);
    sheet.resize(LENGTH, 0);
    sheet
}

/// A family's books and sheets whose weight is the limit or nearly so, with one another and with
/// light ones.
pub fn weights(comparing: &mut Comparing, random: &mut Random, family: &Family) {
    let light = filled(family, ROUGHLY);
    for weight in 4094..=4098 {
        let rules = filled(family, weight);
        for (book, sheet) in [(&rules, &rules), (&rules, &light), (&light, &rules)] {
            let lent = lent(random, book_of(book), sheet_of(sheet));
            comparing.every_call(random, &lent);
        }
    }
}

/// Random books of these weights, with codes and bodies of every kind, beside their own sheets and
/// those of small books.
pub fn random_weights(comparing: &mut Comparing, random: &mut Random, count: usize) {
    for _ in 0..count {
        let weight = random.within(4094, 4098);
        let options = random.pick(&[1, 2, 60, 512]);
        let size = size_of_weight(random, options, weight);
        let (likeness, shape) = (random.pick(&LIKENESSES), random.pick(&SHAPES));
        let bytes = book(random, size, likeness, shape).bytes();
        let small = random_book(random, 40, comparing.at_leasts);
        let sheet = loaded(if random.one_in(2) { &bytes } else { &small });
        let lent = lent(random, bytes, sheet);
        comparing.every_call(random, &lent);
    }
}

/// Heads that give T at its limit and around it, with the length that they ask for and with
/// another; sheets that are said to have as many nodes as the limit, around it, and others.
pub fn counts(comparing: &mut Comparing, random: &mut Random, family: &Family, weight: usize) {
    let bytes = book_of(&(family.make)(weight));
    let sheet = loaded(&bytes);
    for total in 4094..=4097 {
        let mut longer = bytes.clone();
        set_head(&mut longer, 2, total);
        let as_long = longer.clone();
        fit_to_head(&mut longer);
        for bytes in [longer, as_long] {
            let lent = lent(random, bytes, sheet.clone());
            comparing.every_call(random, &lent);
        }
    }
    for used in USED {
        let mut sheet = sheet.clone();
        sheet[1] = used;
        let lent = lent(random, bytes.clone(), sheet);
        comparing.every_call(random, &lent);
    }
}

/// Lines that are in order.
fn lines(random: &mut Random, options: usize) -> Vec<Line> {
    let line = |_| Line {
        option: random.below(options) as u16,
        negative: random.one_in(2),
    };
    (0..SLOTS).map(line).collect()
}

/// Keyings and withdrawals where the room just suffices, where one or two are left, and where one
/// or two are lacking.
pub fn room(comparing: &mut Comparing, random: &mut Random, family: &Family) {
    for remaining in [0, 1, 31, 63] {
        for weight in 4094..=4098 {
            let rules = filled(family, (weight - 2 * remaining).min(4096));
            let sheet = sheet_of(&filled(family, weight - 2));
            let lent = Lent {
                lines: lines(random, rules.options),
                count: 1 + remaining as u16,
                ..lent(random, book_of(&rules), sheet)
            };
            comparing.follow(random, lent, 2);
        }
    }
}

/// A family's books of several weights, with every call on them, before and after a whole run.
pub fn sizes(comparing: &mut Comparing, random: &mut Random, family: &Family) {
    for weight in [64, 256, 1024, 3968, 4096] {
        let bytes = book_of(&(family.make)(weight));
        let sheet = loaded(&bytes);
        let mut lent = lent(random, bytes, sheet);
        comparing.follow(random, lent.clone(), 4);
        let whole = Call::Run { budget: u64::MAX };
        comparing.call(whole, &mut lent);
        comparing.every_call(random, &lent);
    }
}
