//! The least child and inner child with which a rule applies at a place, in one pass over the
//! tree there, by small tables for options and literals.

use super::flat::Flat;
use super::rules::{applies_by_head, is_by_head, is_headed};
use crate::nodes::{arity, is_literal, kind, value, BARRED, FALSE, TRUE};

/// Tables that are all 0 between calls.
pub struct Tables {
    /// How often an option occurs in the tree.
    occurs: [u16; 512],
    /// How many all-ofs, from the first on, hold a literal.
    held: [u16; 1024],
}

/// A literal as an index.
fn index(literal: u16) -> usize {
    2 * value(literal) + usize::from(kind(literal) == BARRED)
}

impl Tables {
    pub fn new() -> Tables {
        Tables {
            occurs: [0; 512],
            held: [0; 1024],
        }
    }

    /// The least i and j.
    pub fn least(&mut self, flat: Flat, rule: usize, place: usize) -> Option<(usize, usize)> {
        if !is_headed(flat, rule, place) {
            return None;
        }
        if is_by_head(rule) {
            return applies_by_head(flat.nodes[place], rule).then_some((0, 0));
        }
        match rule {
            1 | 3 | 5 => constant(flat, place, &[FALSE]),
            2 | 4 | 6 => constant(flat, place, &[TRUE]),
            7 | 8 => (arity(flat.nodes[place]) == 1).then_some((0, 0)),
            9 | 10 => self.spread(flat, place),
            11 | 12 => lifted(flat, place),
            13 => merged(flat, place),
            14 => self.factored(flat, place),
            _ => constant(flat, place, &[TRUE, FALSE]),
        }
    }

    /// Rules 9 and 10: the first literal child whose option occurs twice in the tree.
    fn spread(&mut self, flat: Flat, place: usize) -> Option<(usize, usize)> {
        let tree = &flat.nodes[place + 1..flat.end(place)];
        for &node in tree.iter().filter(|&&node| is_literal(node)) {
            self.occurs[value(node)] += 1;
        }
        let again = |child: usize| self.occurs[value(flat.nodes[child])] > 1;
        let found = flat
            .children(place)
            .position(|child| flat.is_literal(child) && again(child));
        for &node in tree.iter().filter(|&&node| is_literal(node)) {
            self.occurs[value(node)] = 0;
        }
        found.map(|i| (i, 0))
    }

    /// Rule 14: the first literal of the first all-of that all the others hold too.
    fn factored(&mut self, flat: Flat, place: usize) -> Option<(usize, usize)> {
        if !flat
            .children(place)
            .all(|child| flat.is_literal(child) || flat.is_all(child))
        {
            return None;
        }
        let (i, first) = flat
            .children(place)
            .enumerate()
            .find(|&(_, child)| flat.is_all(child))?;
        let mut alls = 0;
        for all in flat.children(place).filter(|&child| flat.is_all(child)) {
            for child in flat.children(all).filter(|&child| flat.is_literal(child)) {
                let held = &mut self.held[index(flat.nodes[child])];
                if *held == alls {
                    *held = alls + 1;
                }
            }
            alls += 1;
        }
        let common =
            |child: usize| flat.is_literal(child) && self.held[index(flat.nodes[child])] == alls;
        let found = flat.children(first).position(common);
        for child in flat.children(first).filter(|&child| flat.is_literal(child)) {
            self.held[index(flat.nodes[child])] = 0;
        }
        found.filter(|_| alls > 1).map(|j| (i, j))
    }
}

/// Rules 1 to 6 and 15: the first child that is one of the constants.
fn constant(flat: Flat, place: usize, constants: &[u16]) -> Option<(usize, usize)> {
    let i = flat
        .children(place)
        .position(|child| constants.contains(&flat.nodes[child]))?;
    Some((i, 0))
}

/// Rules 11 and 12: the first all-of with a literal, and its first literal.
fn lifted(flat: Flat, place: usize) -> Option<(usize, usize)> {
    flat.children(place).enumerate().find_map(|(i, child)| {
        if !flat.is_all(child) {
            return None;
        }
        let j = flat
            .children(child)
            .position(|inner| flat.is_literal(inner))?;
        Some((i, j))
    })
}

/// Rule 13: the only child that is not a literal, if it is an all-of.
fn merged(flat: Flat, place: usize) -> Option<(usize, usize)> {
    let mut others = flat
        .children(place)
        .enumerate()
        .filter(|&(_, child)| !flat.is_literal(child));
    let (i, child) = others.next()?;
    (others.next().is_none() && flat.is_all(child)).then_some((i, 0))
}
