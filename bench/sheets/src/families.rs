//! The families of full-size books: each makes the rules of a book of a given weight.

use crate::nests;
use crate::nodes::{literal, node, weight, ALL, ANY, TRUE};
use crate::random::Random;

/// The number of options of every family but the comb.
pub const OPTIONS: usize = 512;

/// Rules, and the options that they speak of.
pub struct Rules {
    pub options: usize,
    pub bodies: Vec<Vec<u16>>,
}

pub struct Family {
    pub name: String,
    /// A book as desks have them: clauses and nests that are not made to be hard.
    pub ordinary: bool,
    pub make: Box<dyn Fn(usize) -> Rules>,
}

/// The order of a chain's rules and of its options' numbers.
#[derive(Clone, Copy)]
pub enum Order {
    FirstToLast,
    LastToFirst,
    Shuffled,
}

impl Order {
    /// Puts what stands first to last into this order.
    pub fn put<T>(self, random: &mut Random, items: &mut [T]) {
        match self {
            Order::FirstToLast => (),
            Order::LastToFirst => items.reverse(),
            Order::Shuffled => random.shuffle(items),
        }
    }
}

/// Every order, with its words.
pub const ORDERS: [(Order, &str); 3] = [
    (Order::FirstToLast, "first to last"),
    (Order::LastToFirst, "last to first"),
    (Order::Shuffled, "shuffled"),
];

/// Rules up to a weight.
pub struct Filling {
    left: usize,
    pub bodies: Vec<Vec<u16>>,
}

impl Filling {
    pub fn new(weight: usize) -> Filling {
        Filling {
            left: weight - 1,
            bodies: Vec::new(),
        }
    }

    /// Adds a rule if it fits.
    pub fn put(&mut self, body: Vec<u16>) -> bool {
        let fits = weight(&body) <= self.left;
        if fits {
            self.left -= weight(&body);
            self.bodies.push(body);
        }
        fits
    }
}

pub fn families() -> Vec<Family> {
    let mut families = clause_families();
    families.extend(nest_families());
    families.extend(hard_families());
    families
}

pub fn family(name: String, ordinary: bool, make: impl Fn(usize) -> Rules + 'static) -> Family {
    Family {
        name,
        ordinary,
        make: Box::new(make),
    }
}

/// Flat clauses, without a unit and with a chain of units in three orders.
fn clause_families() -> Vec<Family> {
    let mut families = Vec::new();
    for width in [2, 3, 8] {
        let name = format!("clauses of {width}");
        families.push(family(name, true, move |weight| clauses(width, weight)));
        for (order, said) in ORDERS {
            let name = format!("clauses of {width}, chain {said}");
            let make = move |weight| Rules {
                options: OPTIONS,
                bodies: chain(width, order, OPTIONS, weight),
            };
            families.push(family(name, false, make));
        }
    }
    families
}

/// Document 003's random formulas, with three shares of barred literals.
fn nest_families() -> Vec<Family> {
    [(0, "plain"), (10, "a tenth barred"), (50, "half barred")]
        .map(|(barred, said)| {
            let name = format!("random nests, {said}");
            family(name, true, move |weight| random_nests(barred, weight))
        })
        .into()
}

/// Makes the one rule of a book of a weight.
type Maker = fn(usize) -> Vec<u16>;

/// Books of one rule, each hard for some method.
fn hard_families() -> Vec<Family> {
    let makers: [(&str, Maker); 7] = [
        ("single-child chain", nests::single_child_chain),
        ("alternating nest", nests::alternating_nest),
        ("two conjunctions, all shared", two_sharing_all),
        ("two conjunctions, one shared", two_sharing_one),
        ("many conjunctions, two shared", many_sharing_two),
        ("all-of of trues", trues),
        ("any-of of literals", one_wide_clause),
    ];
    let mut families: Vec<Family> = makers
        .map(|(name, make)| {
            family(name.to_string(), false, move |weight| Rules {
                options: OPTIONS,
                bodies: vec![make(weight)],
            })
        })
        .into();
    families.push(family("comb".to_string(), false, comb));
    families.push(family("nest beside a chain".to_string(), false, beside));
    families.push(family(
        "chain in one rule".to_string(),
        false,
        chain_in_one_rule,
    ));
    families
}

/// Distinct options, from the least to the greatest.
pub fn distinct(random: &mut Random, width: usize, among: usize) -> Vec<usize> {
    let mut options: Vec<usize> = (0..among).collect();
    for at in 0..width {
        let other = random.within(at, among - 1);
        options.swap(at, other);
    }
    options.truncate(width);
    options.sort_unstable();
    options
}

/// A random clause of distinct options.
fn clause(random: &mut Random, width: usize) -> Vec<u16> {
    let mut body = vec![node(ANY, width)];
    for option in distinct(random, width, OPTIONS) {
        body.push(literal(option, random.one_in(2)));
    }
    body
}

/// A clause that a chain makes true before it could force anything: its first option in the
/// chain is plain, the others are barred.
fn bystander(random: &mut Random, width: usize, names: &[usize]) -> Vec<u16> {
    let mut body = vec![node(ANY, width)];
    for (at, place) in distinct(random, width, names.len()).into_iter().enumerate() {
        body.push(literal(names[place], at > 0));
    }
    body
}

/// Random clauses, none of them a unit.
fn clauses(width: usize, weight: usize) -> Rules {
    let random = &mut Random::new(weight as u64);
    let mut filling = Filling::new(weight);
    while filling.put(clause(random, width)) {}
    Rules {
        options: OPTIONS,
        bodies: filling.bodies,
    }
}

/// Units, then clauses each of which becomes a unit by the options before it, up to so many
/// options; the rest are bystanders.
fn chain(width: usize, order: Order, options: usize, weight: usize) -> Vec<Vec<u16>> {
    let random = &mut Random::new(weight as u64);
    let mut names: Vec<usize> = (0..options).collect();
    order.put(random, &mut names);
    let mut filling = Filling::new(weight);
    for at in 0..options {
        let body = if at + 1 < width {
            vec![literal(names[at], false)]
        } else {
            let before = names[at + 1 - width..at]
                .iter()
                .map(|&name| literal(name, true));
            [node(ANY, width), literal(names[at], false)]
                .into_iter()
                .chain(before)
                .collect()
        };
        filling.put(body);
    }
    while filling.put(bystander(random, width, &names)) {}
    order.put(random, &mut filling.bodies);
    filling.bodies
}

/// A chain inside one rule, any-of(Z, all-of(the chain)), beside the rule that bars Z.
fn chain_in_one_rule(weight: usize) -> Rules {
    let z = OPTIONS - 1;
    let links = chain(2, Order::LastToFirst, z, weight - 6);
    let mut body = vec![node(ANY, 2), literal(z, false), node(ALL, links.len())];
    body.extend(links.concat());
    Rules {
        options: OPTIONS,
        bodies: vec![vec![literal(z, true)], body],
    }
}

/// Document 003's random formulas; as many of its literals in a hundred are barred.
fn random_nests(barred: usize, weight: usize) -> Rules {
    let random = &mut Random::new(weight as u64);
    let mut filling = Filling::new(weight);
    let mut misses = 0;
    while misses < 100 {
        let mut body = Vec::new();
        nests::formula(random, barred, OPTIONS, &mut body);
        misses += usize::from(!filling.put(body));
    }
    Rules {
        options: OPTIONS,
        bodies: filling.bodies,
    }
}

/// Literals of so many options in turn.
fn in_turn(count: usize, options: usize, barred: bool) -> impl DoubleEndedIterator<Item = u16> {
    (0..count).map(move |at| literal(at % options, barred))
}

/// An any-of of two all-ofs of the same literals, the second from the last to the first.
fn two_sharing_all(weight: usize) -> Vec<u16> {
    let width = (weight - 4) / 4;
    let mut body = vec![node(ANY, 2), node(ALL, width)];
    body.extend(in_turn(width, OPTIONS, false));
    body.push(node(ALL, width));
    body.extend(in_turn(width, OPTIONS, false).rev());
    body
}

/// An any-of of two all-ofs that share their last literal alone.
fn two_sharing_one(weight: usize) -> Vec<u16> {
    let width = (weight - 4) / 4;
    let mut body = vec![node(ANY, 2)];
    for barred in [false, true] {
        body.push(node(ALL, width));
        body.extend(in_turn(width - 1, OPTIONS - 1, barred));
        body.push(literal(OPTIONS - 1, false));
    }
    body
}

/// An any-of of all-ofs of three, two of them the same in all.
fn many_sharing_two(weight: usize) -> Vec<u16> {
    let count = (weight - 2) / 7;
    let mut body = vec![node(ANY, count)];
    for at in 0..count {
        body.push(node(ALL, 3));
        body.extend([0, 1, 2 + at % (OPTIONS - 2)].map(|option| literal(option, false)));
    }
    body
}

/// The comb: a conjunction of copies of P below a long nest of conjunctions, through which they
/// are lifted one level at a time.
pub fn comb(weight: usize) -> Rules {
    let [p, q, z, r] = [0, 1, 2, 3].map(|option| literal(option, false));
    let levels = (weight - 5) / 12;
    let copies = (weight - 5 - 6 * levels) / 2;
    let mut body = vec![node(ANY, 2), z];
    body.extend(vec![node(ALL, 2); levels]);
    body.push(node(ALL, copies));
    body.extend(vec![p; copies]);
    for _ in 0..levels {
        body.extend([node(ANY, 2), q, r]);
    }
    Rules {
        options: 4,
        bodies: vec![body],
    }
}

/// A nest of disjunctions that no rule changes, each with all the rest below it, beside a chain
/// of units: whoever looks the nest through after each unit pays for its depth each time.
fn beside(weight: usize) -> Rules {
    let (links, levels) = (weight / 32, 3 * weight / 64);
    let mut filling = Filling::new(weight);
    filling.put(vec![literal(0, false)]);
    for at in 1..links {
        filling.put(vec![
            node(ANY, 2),
            literal(at - 1, true),
            literal(at, false),
        ]);
    }
    let clauses = (filling.left - 1 - 3 * levels) / 5;
    let mut nest = Vec::new();
    for level in 0..levels {
        nest.extend([node(ANY, 2), literal(links + level, false)]);
    }
    nest.push(node(ALL, clauses));
    for at in 0..clauses {
        let options = [at, at + 1].map(|at| links + levels + at % levels);
        nest.push(node(ANY, 2));
        nest.extend(options.map(|option| literal(option, false)));
    }
    assert!(filling.put(nest));
    Rules {
        options: OPTIONS,
        bodies: filling.bodies,
    }
}

fn trues(weight: usize) -> Vec<u16> {
    let mut body = vec![TRUE; weight - 1];
    body[0] = node(ALL, weight - 2);
    body
}

fn one_wide_clause(weight: usize) -> Vec<u16> {
    let width = (weight - 2) / 2;
    let mut body = vec![node(ANY, width)];
    body.extend(in_turn(width, OPTIONS, false));
    body
}
