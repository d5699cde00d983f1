//! Whether a rule applies, as documents 01 and 02 word it, with no table but the sizes.

use super::flat::Flat;
use crate::nodes::{arity, asked, is_literal, kind, value, ALL, ANY, FALSE, LEAST, ROOT, TRUE};

/// The last rule.
pub const LAST: usize = 17;

/// The node kind of each rule, and its fewest children.
pub const KIND: [u16; LAST] = [
    ALL, ANY, ROOT, ALL, ANY, ROOT, ALL, ANY, ANY, ROOT, ALL, ROOT, ALL, ANY, LEAST, LEAST, LEAST,
];
const FEWEST: [usize; LAST] = [2, 2, 2, 1, 1, 1, 1, 1, 2, 2, 1, 1, 1, 2, 1, 0, 0];

/// Whether the node at a place is of the rule's kind, with children enough.
pub fn is_headed(flat: Flat, rule: usize, place: usize) -> bool {
    let head = flat.nodes[place];
    kind(head) == KIND[rule - 1] && arity(head) >= FEWEST[rule - 1]
}

/// Whether a rule looks at the head alone: such a one may apply to a node without children, with
/// i and j 0.
pub fn is_by_head(rule: usize) -> bool {
    matches!(rule, 16 | 17)
}

/// Rules 16 and 17: what the at-least asks for settles it, or makes it a plain group.
pub fn applies_by_head(head: u16, rule: usize) -> bool {
    let (asked, members) = (asked(head), arity(head));
    match rule {
        16 => asked == 0 || asked > members,
        _ => asked == 1 || asked == members,
    }
}

/// Whether the rule, one that looks at a child, applies at a place that it is headed by, with
/// child i at `at` and inner child j.
pub fn applies(flat: Flat, rule: usize, place: usize, i: usize, at: usize, j: usize) -> bool {
    let child = flat.nodes[at];
    match rule {
        1 | 3 | 5 => child == FALSE && j == 0,
        2 | 4 | 6 => child == TRUE && j == 0,
        7 | 8 => arity(flat.nodes[place]) == 1 && j == 0,
        9 | 10 => is_literal(child) && j == 0 && occurs_beside(flat, place, at),
        11 | 12 => inner(flat, at, j).is_some_and(|inner| flat.is_literal(inner)),
        13 => kind(child) == ALL && j == 0 && is_alone(flat, place, at),
        14 => shares(flat, place, i, at, j),
        _ => [TRUE, FALSE].contains(&child) && j == 0,
    }
}

/// The place of child j of the all-of at a place.
fn inner(flat: Flat, at: usize, j: usize) -> Option<usize> {
    flat.children(at).nth(j).filter(|_| flat.is_all(at))
}

/// Whether the option of the literal at `at` occurs in another child.
fn occurs_beside(flat: Flat, place: usize, at: usize) -> bool {
    let option = value(flat.nodes[at]);
    (place + 1..flat.end(place))
        .any(|q| q != at && flat.is_literal(q) && value(flat.nodes[q]) == option)
}

/// Whether all children but the one at `at` are literals.
fn is_alone(flat: Flat, place: usize, at: usize) -> bool {
    flat.children(place)
        .all(|child| child == at || flat.is_literal(child))
}

/// Rule 14: i is the first all-of, j the index of the first a in it.
fn shares(flat: Flat, place: usize, i: usize, at: usize, j: usize) -> bool {
    let Some(a) = inner(flat, at, j).map(|inner| flat.nodes[inner]) else {
        return false;
    };
    let holds = |all: usize| flat.children(all).any(|child| flat.nodes[child] == a);
    let fits = |child: usize| flat.is_literal(child) || flat.is_all(child) && holds(child);
    is_literal(a)
        && !flat
            .children(at)
            .take(j)
            .any(|child| flat.nodes[child] == a)
        && !flat.children(place).take(i).any(|child| flat.is_all(child))
        && flat.children(place).all(fits)
        && flat
            .children(place)
            .filter(|&child| flat.is_all(child))
            .count()
            >= 2
}
