//! Nested rules: document 003's random formulas, deep nests, and small random rules.

use crate::nodes::{are_members, at_least, literal, node, ALL, ANY, FALSE, MEMBERS, TRUE};
use crate::random::Random;

/// Document 003's Figure 3: a random formula; as many of its literals in a hundred are barred.
pub fn formula(random: &mut Random, barred: usize, options: usize, body: &mut Vec<u16>) {
    grow(random, barred, options, 1, 0.95, body);
}

/// The formula at a depth, where a connective had the chance `p` above.
fn grow(
    random: &mut Random,
    barred: usize,
    options: usize,
    depth: i32,
    p: f64,
    body: &mut Vec<u16>,
) {
    // "To taper off the nesting depth."
    let p = p.powi(depth);
    if (random.below(1 << 30) as f64) < p * f64::from(1 << 30) {
        let width = random.within(1, 5);
        body.push(node(random.pick(&[ALL, ANY]), width));
        for _ in 0..width {
            grow(random, barred, options, depth + 1, p, body);
        }
    } else {
        let is_barred = random.below(100) < barred;
        body.push(literal(random.below(options), is_barred));
    }
}

/// One literal below as many nodes with one child as fit.
pub fn single_child_chain(weight: usize) -> Vec<u16> {
    let random = &mut Random::new(weight as u64);
    let mut body: Vec<u16> = (0..weight - 3)
        .map(|_| node(random.pick(&[ALL, ANY]), 1))
        .collect();
    body.push(literal(0, false));
    body
}

/// An any-of of a literal and an all-of of a literal and an any-of, and so on, as deep as fits.
/// The any-ofs speak of 64 options, which come again and again; the all-ofs of all others.
pub fn alternating_nest(weight: usize) -> Vec<u16> {
    let random = &mut Random::new(weight as u64);
    let mut body = Vec::new();
    for level in 0..(weight - 3) / 3 {
        let (kind, option) = match level % 2 {
            0 => (ANY, random.below(64)),
            _ => (ALL, 64 + level / 2 % 448),
        };
        body.extend([node(kind, 2), literal(option, false)]);
    }
    body.push(literal(511, true));
    body
}

/// How small random rules look: chances in a hundred, and the most children.
pub struct Style {
    pub options: usize,
    pub barred: usize,
    pub constants: usize,
    pub all_ofs: usize,
    pub literals: usize,
    pub width: usize,
    /// Any-ofs of conjunctions that share a literal.
    pub shared: usize,
    /// At-leasts.
    pub leasts: usize,
}

impl Style {
    /// A style of so many options, without at-leasts.
    pub fn any(random: &mut Random, options: usize) -> Style {
        Style {
            options,
            barred: random.pick(&[0, 0, 10, 50]),
            constants: random.pick(&[0, 0, 5, 20]),
            all_ofs: random.pick(&[20, 50, 80]),
            literals: random.pick(&[30, 60, 80]),
            width: random.pick(&[2, 3, 5, 9]),
            shared: random.pick(&[0, 20, 60]),
            leasts: 0,
        }
    }

    /// A random rule of about so many nodes at most.
    pub fn rule(&self, random: &mut Random, nodes: usize) -> Vec<u16> {
        let mut body = Vec::new();
        let mut left = random.within(1, nodes);
        self.grow(random, &mut left, &mut body);
        body
    }

    fn grow(&self, random: &mut Random, left: &mut usize, body: &mut Vec<u16>) {
        let kind = if random.below(100) < self.all_ofs {
            ALL
        } else {
            ANY
        };
        // A style without at-leasts makes the same books as before there were any.
        if self.leasts > 0 && random.below(100) < self.leasts {
            self.at_least(random, left, body);
        } else if random.below(100) < self.constants {
            body.push(node(kind, 0));
        } else if *left == 0 || random.below(100) < self.literals && !body.is_empty() {
            self.leaf(random, body);
        } else {
            let width = random.within(1, self.width);
            *left = left.saturating_sub(width);
            body.push(node(kind, width));
            if kind == ANY && random.below(100) < self.shared {
                self.conjunctions(random, left, width, body);
            } else {
                self.children(random, left, width, body);
            }
        }
    }

    fn children(&self, random: &mut Random, left: &mut usize, width: usize, body: &mut Vec<u16>) {
        for _ in 0..width {
            self.grow(random, left, body);
        }
    }

    /// Literals and conjunctions, which mostly share a literal.
    fn conjunctions(
        &self,
        random: &mut Random,
        left: &mut usize,
        width: usize,
        body: &mut Vec<u16>,
    ) {
        let shared = literal(random.below(self.options.max(1)), random.one_in(2));
        for _ in 0..width {
            if random.one_in(4) || self.options == 0 {
                self.leaf(random, body);
                continue;
            }
            if random.one_in(4) {
                self.nested(random, body);
                continue;
            }
            let children = random.within(0, 2);
            let before = random.within(0, children);
            body.push(node(ALL, children + 1));
            self.children(random, left, before, body);
            body.push(shared);
            self.children(random, left, children - before, body);
        }
    }

    /// A conjunction of literals and a conjunction of clauses, which rule 13 merges.
    fn nested(&self, random: &mut Random, body: &mut Vec<u16>) {
        let [before, after] = [random.within(0, 2), random.within(0, 1)];
        let clauses = random.within(1, 3);
        body.push(node(ALL, before + 1 + after));
        (0..before).for_each(|_| self.leaf(random, body));
        body.push(node(ALL, clauses));
        for _ in 0..clauses {
            body.push(node(ANY, 2));
            (0..2).for_each(|_| self.leaf(random, body));
        }
        (0..after).for_each(|_| self.leaf(random, body));
    }

    /// An at-least: of few members or of many, which asks for any number of them, or for more.
    fn at_least(&self, random: &mut Random, left: &mut usize, body: &mut Vec<u16>) {
        let few = random.within(0, self.width.min(*left));
        let many = random.within(0, MEMBERS.min(*left));
        let members = random.pick(&[few, few, few, many]);
        let asked = random.within(0, (members + 1).min(MEMBERS));
        *left = left.saturating_sub(members);
        body.push(at_least(asked, members));
        let first = body.len();
        for at in first..first + members {
            self.leaf(random, body);
            let is_taken = are_members(body[first..].iter().copied());
            if !is_taken || random.below(100) < self.constants {
                body[at] = random.pick(&[TRUE, FALSE]);
            }
        }
    }

    /// A literal, or a constant where there are no options.
    fn leaf(&self, random: &mut Random, body: &mut Vec<u16>) {
        if self.options == 0 {
            body.push(node(random.pick(&[ALL, ANY]), 0));
        } else {
            let barred = random.below(100) < self.barred;
            body.push(literal(random.below(self.options), barred));
        }
    }
}
