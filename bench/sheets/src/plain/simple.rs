//! The run by the simplest search: every rule, place, child and inner child in turn, from the
//! first, at each step.

use super::flat::{fill_sizes, used, Flat, MOST};
use super::index;
use super::rules::{applies, applies_by_head, is_by_head, is_headed, LAST};
use super::steps::apply;
use crate::answers::{Ran, Redex};
use crate::nodes::arity;

/// The strategy's step.
pub fn next(flat: Flat) -> Option<Redex> {
    (1..=LAST).find_map(|rule| {
        (0..flat.nodes.len()).find_map(|place| {
            let (i, j) = least(flat, rule, place)?;
            Some(Redex { rule, place, i, j })
        })
    })
}

/// The least i and j with which a rule applies at a place.
pub fn least(flat: Flat, rule: usize, place: usize) -> Option<(usize, usize)> {
    if !is_headed(flat, rule, place) {
        return None;
    }
    if is_by_head(rule) {
        return applies_by_head(flat.nodes[place], rule).then_some((0, 0));
    }
    flat.children(place).enumerate().find_map(|(i, at)| {
        let inner = match rule {
            11 | 12 | 14 => arity(flat.nodes[at]),
            _ => 1,
        };
        let j = (0..inner).find(|&j| applies(flat, rule, place, i, at, j))?;
        Some((i, j))
    })
}

/// A run.
pub fn run(sheet: &mut [u16], index: &mut [u16], budget: u64) -> Ran {
    index::kept(sheet, index, |sheet| steps(sheet, budget))
}

/// The steps of a run.
fn steps(sheet: &mut [u16], budget: u64) -> Ran {
    let mut sizes = [0; MOST];
    let mut count = 0;
    loop {
        fill_sizes(used(sheet), &mut sizes);
        let flat = Flat {
            nodes: used(sheet),
            sizes: &sizes,
        };
        let Some(redex) = next(flat) else {
            return Ran {
                settled: true,
                count,
            };
        };
        if count == budget {
            return Ran {
                settled: false,
                count,
            };
        }
        apply(sheet, &sizes, redex);
        count += 1;
    }
}
