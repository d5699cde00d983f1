//! The searches by bounds against the simplest search, and their bounds against what they promise.

use crate::answers::Redex;
use crate::compare::{random_sheet, stop, Sheet};
use crate::nodes::arity;
use crate::plain::bounds::Bounds;
use crate::plain::fast::Fast;
use crate::plain::flat::{fill_sizes, used, Flat, Sizes, MOST};
use crate::plain::rules::{self, LAST};
use crate::plain::simple;
use crate::random::Random;

/// The steps of each rule.
pub type Steps = [u64; LAST + 1];

/// Follows the searches step by step on random sheets; adds up the steps.
pub fn random_searches(random: &mut Random, count: usize, weight: usize, seen: &mut Steps) {
    for _ in 0..count {
        follow(&random_sheet(random, weight), seen);
    }
}

/// Follows the searches from a sheet to its end.
pub fn follow(start: &Sheet, seen: &mut Steps) {
    let mut sheet = *start;
    let (mut bounds, mut fast) = (Bounds::new(used(&sheet)), Fast::new(used(&sheet)));
    loop {
        for low_and_sizes in [(&bounds.low, &bounds.sizes), (&fast.low, &fast.sizes)] {
            check_bounds(low_and_sizes, &sheet, start);
        }
        check_order(&bounds.low, (bounds.rule, bounds.cursor), &sheet, start);
        check_order(&fast.low, (fast.rule, fast.cursor), &sheet, start);
        let due = simple::next(flat(&sheet, &bounds));
        let found = [bounds.find(used(&sheet)), fast.find(used(&sheet))];
        if found != [due; 2] {
            let details = format!("at {sheet:x?}: by bounds {found:?}, due {due:?}");
            stop("the searches differ", start, &details);
        }
        let Some(redex) = due else {
            return;
        };
        let mut by_fast = sheet;
        bounds.step(&mut sheet, redex);
        fast.step(&mut by_fast, redex);
        if by_fast != sheet {
            let details = format!("{redex:?}: {by_fast:x?}");
            stop("the steps differ", start, &details);
        }
        seen[redex.rule] += 1;
    }
}

/// Does steps of any kind on random sheets, not the strategy's alone, each from bounds that are
/// as high as they may be; adds up the steps.
pub fn random_steps(random: &mut Random, count: usize, weight: usize, seen: &mut Steps) {
    for _ in 0..count {
        let mut sheet = random_sheet(random, weight);
        for _ in 0..8 {
            let before = sheet;
            let mut bounds = Bounds::new(used(&sheet));
            bounds.low = highest(flat(&sheet, &bounds));
            let Some(redex) = any_step(random, flat(&sheet, &bounds)) else {
                break;
            };
            bounds.step(&mut sheet, redex);
            check_bounds((&bounds.low, &bounds.sizes), &sheet, &before);
            seen[redex.rule] += 1;
        }
    }
}

pub fn flat<'a>(sheet: &'a Sheet, bounds: &'a Bounds) -> Flat<'a> {
    Flat {
        nodes: used(sheet),
        sizes: &bounds.sizes,
    }
}

/// The lowest rule that applies at a place, one more than the last where none does.
fn lowest(flat: Flat, place: usize) -> u8 {
    let applies = |&rule: &usize| simple::least(flat, rule, place).is_some();
    (1..=LAST).find(applies).unwrap_or(LAST + 1) as u8
}

/// The highest bounds that are right.
fn highest(flat: Flat) -> [u8; MOST] {
    let mut low = [1; MOST];
    for (place, bound) in low.iter_mut().enumerate().take(flat.nodes.len()) {
        *bound = lowest(flat, place);
    }
    low
}

/// Any step that applies; all rules that apply somewhere have the same chance.
pub fn any_step(random: &mut Random, flat: Flat) -> Option<Redex> {
    let by_rule: Vec<Vec<Redex>> = (1..=LAST)
        .map(|rule| steps_of(flat, rule))
        .filter(|steps| !steps.is_empty())
        .collect();
    let steps = by_rule.get(random.below(by_rule.len().max(1)))?;
    Some(random.pick(steps))
}

/// Every step of a rule that applies.
fn steps_of(flat: Flat, rule: usize) -> Vec<Redex> {
    let mut steps = Vec::new();
    for place in (0..flat.nodes.len()).filter(|&place| rules::is_headed(flat, rule, place)) {
        if rules::is_by_head(rule) {
            let found = simple::least(flat, rule, place);
            steps.extend(found.map(|(i, j)| Redex { rule, place, i, j }));
            continue;
        }
        for (i, at) in flat.children(place).enumerate() {
            let inner = 0..arity(flat.nodes[at]).max(1);
            let applying = inner.filter(|&j| rules::applies(flat, rule, place, i, at, j));
            steps.extend(applying.map(|j| Redex { rule, place, i, j }));
        }
    }
    steps
}

/// No bound is above the lowest rule that applies at its place, and every size is right.
fn check_bounds((low, sizes): (&[u8; MOST], &Sizes), sheet: &Sheet, start: &Sheet) {
    let mut due = [0; MOST];
    fill_sizes(used(sheet), &mut due);
    let flat = Flat {
        nodes: used(sheet),
        sizes: &due,
    };
    for (place, &size) in due[..flat.nodes.len()].iter().enumerate() {
        let (low, lowest) = (low[place], lowest(flat, place));
        if low > lowest || size != sizes[place] {
            let details = format!(
                "at {:x?}, place {place}: bound {low}, lowest {lowest}, size {} (due {size})",
                used(sheet),
                sizes[place]
            );
            stop("a bound is wrong", start, &details);
        }
    }
}

/// Every bound is at least the rule that the search is at, and more before its cursor.
fn check_order(low: &[u8; MOST], at: (u8, usize), sheet: &Sheet, start: &Sheet) {
    for (place, &low) in low[..used(sheet).len()].iter().enumerate() {
        if (low, place) < at {
            let details = format!("at {:x?}, place {place}: bound {low}", used(sheet));
            stop("the search is past a bound", start, &details);
        }
    }
}
