//! The report by trial: a literal is a fact if the root fails once its opposite is assumed.
//! Sweeps over all literals, an evaluation of the whole sheet each, until none is new.

use super::flat::{is_sheet, used};
use crate::nodes::{arity, asked, is_literal, kind, literal, opposite, value, ANY, BARRED, LEAST};

/// The facts, barred ones apart, and room for one evaluation.
struct Sweep<'a> {
    nodes: &'a [u16],
    facts: [[bool; 512]; 2],
    fails: Vec<bool>,
}

fn sense(literal: u16) -> usize {
    usize::from(kind(literal) == BARRED)
}

impl Sweep<'_> {
    fn is_fact(&self, literal: u16) -> bool {
        self.facts[sense(literal)][value(literal)]
    }

    /// Whether the root fails: a literal does where its opposite is a fact, an any-of where
    /// all its children do, an at-least where too few of them do not, any other where one of
    /// them does.
    fn root_fails(&mut self) -> bool {
        self.fails.clear();
        for &node in self.nodes.iter().rev() {
            let fails = if is_literal(node) {
                self.is_fact(opposite(node))
            } else {
                let first = self.fails.len() - arity(node);
                let children = &self.fails[first..];
                let fails = match kind(node) {
                    ANY => children.iter().all(|&fails| fails),
                    LEAST => children.iter().filter(|&&fails| !fails).count() < asked(node),
                    _ => children.iter().any(|&fails| fails),
                };
                self.fails.truncate(first);
                fails
            };
            self.fails.push(fails);
        }
        self.fails[0]
    }

    /// Whether the root fails once the opposite is assumed.
    fn is_forced(&mut self, literal: u16) -> bool {
        let other = opposite(literal);
        self.facts[sense(other)][value(other)] = true;
        let fails = self.root_fails();
        self.facts[sense(other)][value(other)] = false;
        fails
    }

    /// Whether a sweep over all literals found a new fact.
    fn has_learned(&mut self, options: usize) -> bool {
        let mut learned = false;
        for option in 0..options {
            for barred in [false, true] {
                let tried = literal(option, barred);
                let is_open = !self.is_fact(tried) && !self.is_fact(opposite(tried));
                if is_open && self.is_forced(tried) {
                    self.facts[sense(tried)][option] = true;
                    learned = true;
                }
            }
        }
        learned
    }
}

/// The report, at the start of an output whose rest stays: whether the sheet is contradictory.
pub fn report(sheet: &[u16], out: &mut [u8]) -> bool {
    assert!(is_sheet(sheet) && out.len() >= usize::from(sheet[0]));
    let out = &mut out[..usize::from(sheet[0])];
    let mut sweep = Sweep {
        nodes: used(sheet),
        facts: [[false; 512]; 2],
        fails: Vec::new(),
    };
    loop {
        if sweep.root_fails() {
            out.fill(3);
            return true;
        }
        if !sweep.has_learned(out.len()) {
            break;
        }
    }
    for (option, byte) in out.iter_mut().enumerate() {
        *byte = match [0, 1].map(|sense| sweep.facts[sense][option]) {
            [true, _] => 1,
            [_, true] => 2,
            _ => 0,
        };
    }
    false
}
