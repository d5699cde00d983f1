//! The run by bounds. Each place has a bound below which no rule applies there; the search
//! takes the least bound, tests that rule, and raises the bound where it does not apply. A step
//! lowers the bounds of its zone, of its place and of the two nodes above, and no others; in the
//! zone of rules 9 and 10 only those of nodes that have a constant among their children.

use super::flat::{fill_sizes, used, Flat, Sizes, MOST};
use super::index;
use super::least::Tables;
use super::rules::LAST;
use super::steps::{apply, Zone};
use crate::answers::{Ran, Redex};
use crate::nodes::{FALSE, TRUE};

/// One more than the last rule: no rule applies.
const NONE: u8 = LAST as u8 + 1;

/// What the search knows. Every bound is at least `rule`, and those before `cursor` are more.
pub struct Bounds {
    pub low: [u8; MOST],
    pub sizes: Sizes,
    pub rule: u8,
    pub cursor: usize,
    tables: Tables,
}

/// The places whose bounds a step lowered: the zone and up to three single places.
struct Lowered {
    above: [Option<usize>; 2],
    place: usize,
    zone: Zone,
}

impl Bounds {
    pub fn new(nodes: &[u16]) -> Bounds {
        let mut sizes = [0; MOST];
        fill_sizes(nodes, &mut sizes);
        Bounds {
            low: [1; MOST],
            sizes,
            rule: 1,
            cursor: 0,
            tables: Tables::new(),
        }
    }

    /// The strategy's step.
    pub fn find(&mut self, nodes: &[u16]) -> Option<Redex> {
        let flat = Flat {
            nodes,
            sizes: &self.sizes,
        };
        loop {
            if self.cursor == nodes.len() {
                self.cursor = 0;
                self.rule += 1;
            }
            if self.rule == NONE {
                return None;
            }
            let (rule, place) = (usize::from(self.rule), self.cursor);
            if self.low[place] == self.rule {
                if let Some((i, j)) = self.tables.least(flat, rule, place) {
                    return Some(Redex { rule, place, i, j });
                }
                self.low[place] += 1;
            }
            self.cursor += 1;
        }
    }

    /// Does the step that was found.
    pub fn step(&mut self, sheet: &mut [u16], redex: Redex) {
        let before = usize::from(sheet[1]);
        let flat = Flat {
            nodes: used(sheet),
            sizes: &self.sizes,
        };
        let parent = flat.parent(redex.place);
        let above = [parent.and_then(|above| flat.parent(above)), parent];
        let zone = apply(sheet, &self.sizes, redex);
        self.resize(used(sheet), redex, zone);
        let lowered = Lowered {
            above,
            place: redex.place,
            zone,
        };
        self.lower(used(sheet), redex.rule, &lowered, before);
        self.raise(used(sheet), &lowered);
    }

    /// The sizes after a step. Rules 9, 10 and 17 change none. A lift turns the sizes with the
    /// nodes, and the all-of that lost the literal is one less; after any other rule they are
    /// made anew.
    fn resize(&mut self, nodes: &[u16], redex: Redex, zone: Zone) {
        match redex.rule {
            9 | 10 | 17 => (),
            11 | 12 => {
                self.sizes[zone.from..zone.new].rotate_right(1);
                self.sizes[zone.from + 1] -= 1;
            }
            _ => fill_sizes(nodes, &mut self.sizes),
        }
    }

    /// The bounds after a step: they move with their nodes, and those lowered are 1.
    fn lower(&mut self, nodes: &[u16], rule: usize, lowered: &Lowered, before: usize) {
        let Zone { from, old, new } = lowered.zone;
        if matches!(rule, 9 | 10) {
            let flat = Flat {
                nodes,
                sizes: &self.sizes,
            };
            for place in (from..new).filter(|&place| has_constant(flat, place)) {
                self.low[place] = 1;
            }
        } else {
            self.low.copy_within(old..before, new);
            self.low[from..new].fill(1);
        }
        for place in lowered.above.into_iter().flatten().chain([lowered.place]) {
            self.low[place] = 1;
        }
    }

    /// Raises the lowered bounds up to the rule that was found, from the least place up, and
    /// puts the search where it has to go on.
    fn raise(&mut self, nodes: &[u16], lowered: &Lowered) {
        let single = lowered.above.into_iter().flatten().chain([lowered.place]);
        let zone = lowered.zone.from.max(lowered.place + 1)..lowered.zone.new;
        let mut least = (self.rule, self.cursor);
        for place in single.chain(zone) {
            let low = self.raised(nodes, place);
            least = least.min((low, place));
        }
        (self.rule, self.cursor) = least;
    }

    /// Raises one bound as far as no rule applies, at most to the rule that was found.
    fn raised(&mut self, nodes: &[u16], place: usize) -> u8 {
        let flat = Flat {
            nodes,
            sizes: &self.sizes,
        };
        let low = &mut self.low[place];
        while *low < self.rule && self.tables.least(flat, usize::from(*low), place).is_none() {
            *low += 1;
        }
        *low
    }
}

/// Whether a node has a constant among its children.
fn has_constant(flat: Flat, place: usize) -> bool {
    flat.children(place)
        .any(|child| [TRUE, FALSE].contains(&flat.nodes[child]))
}

/// A run.
pub fn run(sheet: &mut [u16], index: &mut [u16], budget: u64) -> Ran {
    index::kept(sheet, index, |sheet| steps(sheet, budget))
}

/// The steps of a run.
fn steps(sheet: &mut [u16], budget: u64) -> Ran {
    let mut bounds = Bounds::new(used(sheet));
    let mut count = 0;
    while let Some(redex) = bounds.find(used(sheet)) {
        if count == budget {
            return Ran {
                settled: false,
                count,
            };
        }
        bounds.step(sheet, redex);
        count += 1;
    }
    Ran {
        settled: true,
        count,
    }
}
