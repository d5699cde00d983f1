//! The report by parts and a queue. The parts are the trees that hang from the root through
//! conjunctions only: the root fails if and only if a part does. One pass over a part finds all
//! literals that it forces; it is passed again only after a literal was learned whose opposite
//! occurs in it.

use super::flat::{is_sheet, used};
use crate::nodes::{arity, asked, is_literal, kind, opposite, value, ALL, ANY, BARRED, LEAST};

const LITERALS: usize = 1024;

/// A literal as an index; its opposite's differs in the last bit.
fn index(literal: u16) -> usize {
    2 * value(literal) + usize::from(kind(literal) == BARRED)
}

/// The parts of a sheet, and for each literal the parts in which it occurs.
struct Parts<'a> {
    trees: Vec<&'a [u16]>,
    /// The parts of literal l are `places[first[l]..first[l + 1]]`.
    first: [u16; LITERALS + 1],
    places: Vec<u16>,
}

/// Where the tree at a place ends.
fn end_of(nodes: &[u16], place: usize) -> usize {
    let (mut end, mut due) = (place, 1);
    while due > 0 {
        due = due - 1 + arity(nodes[end]);
        end += 1;
    }
    end
}

/// The trees that hang from the root through conjunctions only.
fn trees(nodes: &[u16]) -> Vec<&[u16]> {
    let mut trees = Vec::new();
    let mut place = 1;
    while place < nodes.len() {
        if kind(nodes[place]) == ALL {
            place += 1;
        } else {
            let end = end_of(nodes, place);
            trees.push(&nodes[place..end]);
            place = end;
        }
    }
    trees
}

impl<'a> Parts<'a> {
    fn new(nodes: &'a [u16]) -> Parts<'a> {
        let trees = trees(nodes);
        let mut first = [0; LITERALS + 1];
        let in_trees = || {
            trees
                .iter()
                .copied()
                .flatten()
                .filter(|&&node| is_literal(node))
        };
        for &node in in_trees() {
            first[index(node) + 1] += 1;
        }
        for literal in 0..LITERALS {
            first[literal + 1] += first[literal];
        }
        let mut next = first;
        let mut places = vec![0; in_trees().count()];
        for (part, tree) in trees.iter().enumerate() {
            for &node in tree.iter().filter(|&&node| is_literal(node)) {
                let place = &mut next[index(node)];
                places[usize::from(*place)] = part as u16;
                *place += 1;
            }
        }
        Parts {
            trees,
            first,
            places,
        }
    }

    /// The parts in which a literal occurs.
    fn with(&self, literal: usize) -> &[u16] {
        &self.places[usize::from(self.first[literal])..usize::from(self.first[literal + 1])]
    }
}

/// What is known of a tree: it fails, or it fails once the opposite of one of these literals
/// is assumed. The literals of all trees at hand lie one after another; a tree's begin here.
#[derive(Clone, Copy)]
struct Known {
    first: usize,
    fails: bool,
}

/// The facts, and room for the pass over a part.
struct Passes {
    facts: [bool; LITERALS],
    known: Vec<Known>,
    literals: Vec<u16>,
    /// In how many trees, from the first on, a literal is found; all 0 between calls.
    held: [u16; LITERALS],
}

impl Passes {
    /// Whether the part fails; the literals that it forces are left in `literals`.
    fn fails(&mut self, tree: &[u16]) -> bool {
        self.known.clear();
        self.literals.clear();
        for &node in tree.iter().rev() {
            let known = if is_literal(node) {
                self.literal(index(node))
            } else {
                self.group(node)
            };
            self.known.push(known);
        }
        self.known[0].fails
    }

    fn literal(&mut self, literal: usize) -> Known {
        let first = self.literals.len();
        let fails = self.facts[literal ^ 1];
        if !fails && !self.facts[literal] {
            self.literals.push(literal as u16);
        }
        Known { first, fails }
    }

    /// A conjunction fails where a child does; a disjunction where all of them do; an at-least
    /// where more of them do than it can spare. Where it can spare no more, it needs all others.
    fn group(&mut self, node: u16) -> Known {
        let from = self.known.len() - arity(node);
        let children = &self.known[from..];
        let first = children
            .first()
            .map_or(self.literals.len(), |child| child.first);
        let failing = children.iter().filter(|child| child.fails).count();
        let fails = match kind(node) {
            ANY => failing == children.len(),
            LEAST => failing + asked(node) > children.len(),
            _ => failing > 0,
        };
        if fails || kind(node) == LEAST && failing + asked(node) < children.len() {
            self.literals.truncate(first);
        } else if kind(node) == ANY && children.len() - failing > 1 {
            self.keep_common(from, first);
        }
        self.known.truncate(from);
        Known { first, fails }
    }

    /// Of the literals of the trees from the given one on, leaves those that every tree has
    /// which does not fail.
    fn keep_common(&mut self, from: usize, first: usize) {
        let mut trees = 0;
        let mut sample = first..first;
        for at in from..self.known.len() {
            let Known {
                first: start,
                fails,
            } = self.known[at];
            let next = self.known.get(at + 1);
            let end = next.map_or(self.literals.len(), |next| next.first);
            if fails {
                continue;
            }
            for &literal in &self.literals[start..end] {
                let held = &mut self.held[usize::from(literal)];
                *held += u16::from(*held == trees);
            }
            if trees == 0 {
                sample = start..end;
            }
            trees += 1;
        }
        let mut kept = first;
        for at in sample {
            let literal = self.literals[at];
            let held = std::mem::take(&mut self.held[usize::from(literal)]);
            if held == trees {
                self.literals[kept] = literal;
                kept += 1;
            }
        }
        self.literals.truncate(kept);
    }
}

/// The facts, or none where the sheet is contradictory.
fn facts(nodes: &[u16]) -> Option<[bool; LITERALS]> {
    let parts = Parts::new(nodes);
    let mut passes = Passes {
        facts: [false; LITERALS],
        known: Vec::with_capacity(nodes.len()),
        literals: Vec::with_capacity(nodes.len()),
        held: [0; LITERALS],
    };
    let mut queue: Vec<u16> = (0..parts.trees.len() as u16).rev().collect();
    let mut waits = vec![true; parts.trees.len()];
    while let Some(part) = queue.pop() {
        waits[usize::from(part)] = false;
        if passes.fails(parts.trees[usize::from(part)]) {
            return None;
        }
        for at in 0..passes.literals.len() {
            let literal = usize::from(passes.literals[at]);
            if passes.facts[literal ^ 1] {
                return None;
            }
            if std::mem::replace(&mut passes.facts[literal], true) {
                continue;
            }
            for &part in parts.with(literal ^ 1) {
                if !std::mem::replace(&mut waits[usize::from(part)], true) {
                    queue.push(part);
                }
            }
        }
    }
    Some(passes.facts)
}

/// The report, at the start of an output whose rest stays: whether the sheet is contradictory.
pub fn report(sheet: &[u16], out: &mut [u8]) -> bool {
    assert!(is_sheet(sheet) && out.len() >= usize::from(sheet[0]));
    mark(sheet, out)
}

/// The report of what is known to be a sheet, into an output that is long enough.
pub fn mark(sheet: &[u16], out: &mut [u8]) -> bool {
    let out = &mut out[..usize::from(sheet[0])];
    let Some(facts) = facts(used(sheet)) else {
        out.fill(3);
        return true;
    };
    for (option, byte) in out.iter_mut().enumerate() {
        *byte = u8::from(facts[2 * option]) + 2 * u8::from(facts[2 * option + 1]);
    }
    debug_assert_eq!(index(opposite(4096)), 1);
    false
}
