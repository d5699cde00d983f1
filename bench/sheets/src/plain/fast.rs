//! The run by bounds, as fast as we could write it on the flat sheet. As in `bounds.rs` each place
//! has a bound below which no rule applies there; but a step costs what it touches. Sizes and
//! bounds move with their nodes. A step lowers the bounds of those nodes alone at which a rule can
//! apply anew, to the least such rule: no rule below the step's applies anywhere else. A count of
//! each option's literals on the sheet says where rules 9 and 10 need no look at the tree.

use super::flat::{fill_sizes, used, Flat, Sizes, MOST};
use super::index;
use super::least::Tables;
use super::rules::{KIND, LAST};
use super::steps::{apply, Zone};
use crate::answers::{Ran, Redex};
use crate::nodes::{arity, is_literal, kind, opposite, value, ALL, ANY, FALSE, LEAST, ROOT, TRUE};
use std::ops::Range;

/// One more than the last rule: no rule applies.
const NONE: u8 = LAST as u8 + 1;

/// As many entries of a table are looked at together.
const BLOCK: usize = 32;

/// What the search knows. Every bound is at least `rule`, and those before `cursor` are more; past
/// the nodes all bounds are `NONE`.
pub struct Fast {
    pub low: [u8; MOST],
    pub sizes: Sizes,
    pub rule: u8,
    pub cursor: usize,
    /// How many literals of each option the sheet has.
    literals: [u16; 512],
    tables: Tables,
}

/// The least rule from this one on that is for nodes of a kind.
fn rule_for(kind: u16, from: u8) -> u8 {
    let rules = KIND.iter().skip(usize::from(from) - 1);
    let found = rules.zip(from..).find(|&(&of, _)| of == kind);
    found.map_or(NONE, |(_, rule)| rule)
}

/// The bound of a node of which nothing is known.
fn fresh_bound(node: u16) -> u8 {
    match arity(node) {
        0 if kind(node) != LEAST => NONE,
        _ => rule_for(kind(node), 1),
    }
}

/// The least rule that can apply anew at a node of a kind, where a child of it has become this.
fn rule_by_child(above: u16, child: u16) -> u8 {
    let [all, any, root] = match child {
        FALSE => [1, 5, 3],
        TRUE => [4, 2, 6],
        _ if is_literal(child) => [13, 9, 10],
        _ if kind(child) == ALL => [11, 14, 12],
        _ => return NONE,
    };
    match kind(above) {
        ALL => all,
        ANY => any,
        ROOT => root,
        _ => 15,
    }
}

impl Fast {
    pub fn new(nodes: &[u16]) -> Fast {
        let (mut low, mut sizes, mut literals) = ([NONE; MOST], [0; MOST], [0; 512]);
        fill_sizes(nodes, &mut sizes);
        for (low, &node) in low.iter_mut().zip(nodes) {
            *low = fresh_bound(node);
            if is_literal(node) {
                literals[value(node)] += 1;
            }
        }
        Fast {
            low,
            sizes,
            rule: 1,
            cursor: 0,
            literals,
            tables: Tables::new(),
        }
    }

    /// The strategy's step.
    pub fn find(&mut self, nodes: &[u16]) -> Option<Redex> {
        while self.rule < NONE {
            let Some(place) = first_equal(&self.low, self.cursor, self.rule) else {
                (self.rule, self.cursor) = (self.rule + 1, 0);
                continue;
            };
            self.cursor = place;
            let rule = usize::from(self.rule);
            if let Some((i, j)) = self.least(nodes, rule, place) {
                return Some(Redex { rule, place, i, j });
            }
            self.low[place] = rule_for(kind(nodes[place]), self.rule + 1);
        }
        None
    }

    /// The least i and j with which a rule applies at a place.
    fn least(&mut self, nodes: &[u16], rule: usize, place: usize) -> Option<(usize, usize)> {
        let flat = Flat {
            nodes,
            sizes: &self.sizes,
        };
        if matches!(rule, 9 | 10) {
            let recurs = |child: usize| {
                let node = flat.nodes[child];
                is_literal(node) && self.literals[value(node)] > 1
            };
            let i = flat.children(place).position(recurs)?;
            if rule == 10 {
                return Some((i, 0));
            }
        }
        self.tables.least(flat, rule, place)
    }

    /// Does the step that was found.
    pub fn step(&mut self, sheet: &mut [u16], redex: Redex) {
        let Redex { rule, place, i, j } = redex;
        let flat = Flat {
            nodes: used(sheet),
            sizes: &self.sizes,
        };
        let (before, end) = (flat.nodes.len(), flat.end(place));
        match rule {
            9 | 10 => {
                let at = flat.child(place, i);
                self.spread(sheet, rule, at, place + 1..end);
            }
            11 | 12 => {
                let at = flat.child(place, i);
                let inner = flat.child(at, j);
                apply(sheet, &self.sizes, redex);
                self.lifted(used(sheet), redex, at, inner);
            }
            14 => self.factor(sheet, redex, before),
            _ => {
                if matches!(rule, 1..=3 | 16) {
                    self.forget(&used(sheet)[place + 1..end]);
                }
                let zone = apply(sheet, &self.sizes, redex);
                self.shortened(used(sheet), redex, zone, before);
            }
        }
    }

    /// These nodes are going.
    fn forget(&mut self, nodes: &[u16]) {
        for &node in nodes.iter().filter(|&&node| is_literal(node)) {
            self.literals[value(node)] -= 1;
        }
    }

    /// After rules 1 to 8, 13 and 15 to 17: nodes are gone, or (17) the head has another kind.
    fn shortened(&mut self, nodes: &[u16], redex: Redex, zone: Zone, before: usize) {
        let place = redex.place;
        match redex.rule {
            1..=3 => {
                self.close_up(place, place + 1, zone.old, zone.new, before);
                (self.sizes[place + 1], self.low[place + 1]) = (1, NONE);
            }
            7 | 8 => {
                self.close_up(place, place, zone.old, zone.new, before);
                self.wake_above(nodes, place);
            }
            16 => {
                self.close_up(place, place + 1, zone.old, zone.new, before);
                self.low[place] = NONE;
                self.wake_above(nodes, place);
            }
            17 => {
                self.wake(nodes, place, 7);
                self.wake_above(nodes, place);
            }
            _ => {
                self.close_up(place, place + 1, zone.old, zone.new, before);
                if [TRUE, FALSE].contains(&nodes[place]) {
                    self.low[place] = NONE;
                    self.wake_above(nodes, place);
                }
            }
        }
    }

    /// What stood from `old` on stands from `new` on: so do its sizes and bounds. The trees that
    /// reach past the place and begin before `to` have as many nodes fewer (or more, by rule 14).
    fn close_up(&mut self, place: usize, to: usize, old: usize, new: usize, before: usize) {
        let fewer = (old as u16).wrapping_sub(new as u16);
        self.sizes.copy_within(old..before, new);
        self.low.copy_within(old..before, new);
        if new < old {
            self.low[before - (old - new)..before].fill(NONE);
        }
        for (q, size) in (0u16..).zip(&mut self.sizes[..to]) {
            let reaches = q.wrapping_add(*size) > place as u16;
            *size = size.wrapping_sub(if reaches { fewer } else { 0 });
        }
    }

    /// The bound of a place falls to a rule that may apply there anew, and rises again as far as
    /// none does, at most to the rule that was found; the search goes on where it has to.
    fn wake(&mut self, nodes: &[u16], place: usize, rule: u8) {
        let mut low = self.low[place].min(rule);
        while low < self.rule {
            if self.least(nodes, usize::from(low), place).is_some() {
                break;
            }
            low = rule_for(kind(nodes[place]), low + 1);
        }
        self.low[place] = low;
        (self.rule, self.cursor) = (self.rule, self.cursor).min((low, place));
    }

    /// The node at a place has become another: its parent has another child, and the node above
    /// that may have a literal under its all-of.
    fn wake_above(&mut self, nodes: &[u16], place: usize) {
        let Some(parent) = self.parent(place) else {
            return;
        };
        let child = nodes[place];
        self.wake(nodes, parent, rule_by_child(nodes[parent], child));
        if is_literal(child) {
            self.wake_above_mark(nodes, parent);
        }
    }

    /// A node has a literal more: if it is an all-of, its parent may lift or factor that.
    fn wake_above_mark(&mut self, nodes: &[u16], place: usize) {
        if kind(nodes[place]) == ALL {
            if let Some(above) = self.parent(place) {
                self.wake(nodes, above, rule_by_child(nodes[above], nodes[place]));
            }
        }
    }

    /// The parent of a place: the last place before it whose tree reaches past it.
    fn parent(&self, place: usize) -> Option<usize> {
        let reaches = |q: &usize| q + usize::from(self.sizes[*q]) > place;
        let mut end = place - place % BLOCK;
        if let Some(q) = (end..place).rev().find(reaches) {
            return Some(q);
        }
        while end > 0 {
            let start = end - BLOCK;
            let sizes: &[u16; BLOCK] = self.sizes[start..end].try_into().expect("a block");
            let some = (start as u16..)
                .zip(sizes)
                .fold(false, |some, (q, &size)| some | (q + size > place as u16));
            if some {
                return (start..end).rev().find(reaches);
            }
            end = start;
        }
        None
    }

    /// Rules 9 and 10: constants for the literal and its opposite, but for the literal at `at`.
    fn spread(&mut self, sheet: &mut [u16], rule: usize, at: usize, tree: Range<usize>) {
        let literal = sheet[2 + at];
        let [same, other] = match rule {
            9 => [FALSE, TRUE],
            _ => [TRUE, FALSE],
        };
        let mut next = tree.start;
        while self.literals[value(literal)] > 1 {
            let Some(q) = first_of(&sheet[2..], next, tree.end, literal) else {
                break;
            };
            next = q + 1;
            if q == at {
                continue;
            }
            sheet[2 + q] = if sheet[2 + q] == literal { same } else { other };
            self.literals[value(literal)] -= 1;
            self.wake_above(used(sheet), q);
        }
    }

    /// After rules 11 and 12: the literal stands before the all-of that had it.
    fn lifted(&mut self, nodes: &[u16], redex: Redex, at: usize, inner: usize) {
        self.sizes.copy_within(at..inner, at + 1);
        self.low.copy_within(at..inner, at + 1);
        (self.sizes[at], self.low[at]) = (1, NONE);
        self.sizes[at + 1] -= 1;
        match arity(nodes[at + 1]) {
            0 => {
                self.low[at + 1] = NONE;
                self.wake(nodes, redex.place, rule_by_child(nodes[redex.place], TRUE));
            }
            1 => self.wake(nodes, at + 1, 7),
            _ => (),
        }
        let head = nodes[redex.place];
        self.wake(nodes, redex.place, rule_by_child(head, nodes[at]));
        self.wake_above_mark(nodes, redex.place);
    }

    /// Rule 14: the conjunctions move below a new any-of, and each has lost a literal.
    fn factor(&mut self, sheet: &mut [u16], redex: Redex, before: usize) {
        let place = redex.place;
        let flat = Flat {
            nodes: used(sheet),
            sizes: &self.sizes,
        };
        let a = flat.nodes[flat.child(flat.child(place, redex.i), redex.j)];
        let mut moved = Vec::new();
        let mut alls = 0;
        for all in flat.children(place).filter(|&child| flat.is_all(child)) {
            let first = flat.children(all).find(|&child| flat.nodes[child] == a);
            let first = first.expect("rule 14 applies");
            moved.extend(&self.low[all..first]);
            moved.extend(&self.low[first + 1..flat.end(all)]);
            alls += 1;
        }
        self.literals[value(a)] -= alls - 1;
        let zone = apply(sheet, &self.sizes, redex);
        self.close_up(place, place, zone.old, zone.new, before);
        let nodes = used(sheet);
        refill(nodes, place..zone.new, &mut self.sizes);
        self.low[place..zone.new].fill(NONE);
        self.low[zone.new - moved.len()..zone.new].copy_from_slice(&moved);
        self.wake_factored(nodes, place, zone.new - moved.len());
    }

    /// The bounds after rule 14: of the node itself, of the any-of of the conjunctions, which
    /// stands before `first`, and of those conjunctions that have one child left.
    fn wake_factored(&mut self, nodes: &[u16], place: usize, first: usize) {
        if arity(nodes[place]) == 1 {
            self.wake(nodes, place, 8);
        }
        self.wake(nodes, first - 1, 14);
        let mut all = first;
        for _ in 0..arity(nodes[first - 1]) {
            if arity(nodes[all]) == 1 {
                self.wake(nodes, all, 7);
            }
            all += usize::from(self.sizes[all]);
        }
    }
}

/// Makes the sizes of some trees that follow each other, from the last node to the first.
fn refill(nodes: &[u16], places: Range<usize>, sizes: &mut Sizes) {
    for place in places.rev() {
        let children = 0..arity(nodes[place]);
        let end = children.fold(place + 1, |end, _| end + usize::from(sizes[end]));
        sizes[place] = (end - place) as u16;
    }
}

/// The first place from one on with this bound.
fn first_equal(low: &[u8; MOST], from: usize, bound: u8) -> Option<usize> {
    let block = MOST.min(from.next_multiple_of(BLOCK));
    let near = low[from..block].iter().position(|&low| low == bound);
    if let Some(near) = near {
        return Some(from + near);
    }
    let some = |low: &[u8]| low.iter().fold(false, |some, &low| some | (low == bound));
    let blocks = low[block..].chunks_exact(BLOCK).position(some)?;
    let start = block + blocks * BLOCK;
    let within = low[start..].iter().position(|&low| low == bound)?;
    Some(start + within)
}

/// The first place of a stretch with this literal or its opposite.
fn first_of(nodes: &[u16], from: usize, end: usize, literal: u16) -> Option<usize> {
    let is_one = |&node: &u16| node == literal || node == opposite(literal);
    let some = |nodes: &[u16]| {
        let either = |some, &node: &u16| some | (node == literal) | (node == opposite(literal));
        nodes.iter().fold(false, either)
    };
    let blocks = nodes[from..end].chunks(BLOCK).position(some)?;
    let start = from + blocks * BLOCK;
    Some(start + nodes[start..end].iter().position(is_one)?)
}

/// A run.
pub fn run(sheet: &mut [u16], index: &mut [u16], budget: u64) -> Ran {
    index::kept(sheet, index, |sheet| steps(sheet, budget))
}

/// The steps of a run.
fn steps(sheet: &mut [u16], budget: u64) -> Ran {
    let mut fast = Fast::new(used(sheet));
    let mut count = 0;
    while let Some(redex) = fast.find(used(sheet)) {
        if count == budget {
            return Ran {
                settled: false,
                count,
            };
        }
        fast.step(sheet, redex);
        count += 1;
    }
    Ran {
        settled: true,
        count,
    }
}
