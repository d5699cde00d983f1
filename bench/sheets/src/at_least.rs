//! The families of full-size books with at-leasts, kind 6.

use crate::families::{distinct, family, Family, Filling, Order, Rules, OPTIONS, ORDERS};
use crate::nests::formula;
use crate::nodes::{
    are_members, arity, at_least, is_literal, literal, node, ALL, ANY, MEMBERS, TRUE,
};
use crate::random::Random;

/// What the wide ones ask for: as many clauses as any number of 63 members can have.
const HALF: usize = 32;

pub fn families() -> Vec<Family> {
    let mut families = vec![
        family("at least 2 of 4".to_string(), true, |weight| {
            any(2, 4, weight)
        }),
        family("at least 32 of 63".to_string(), true, |weight| {
            any(HALF, MEMBERS, weight)
        }),
        family(
            "random nests with at-leasts".to_string(),
            true,
            random_nests,
        ),
    ];
    for (order, said) in ORDERS {
        let name = format!("at least 2 of 4, chain {said}");
        let make = move |weight| rules(chain(order, OPTIONS, weight));
        families.push(family(name, false, make));
    }
    let hard: [(&str, fn(usize) -> Vec<Vec<u16>>); 3] = [
        ("at least 2 of 4, chain in one rule", chain_in_one_rule),
        ("at least 32 of 63, 31 barred", half_barred),
        ("at least 32 of 63 trues", trues),
    ];
    for (name, make) in hard {
        let make = move |weight| rules(make(weight));
        families.push(family(name.to_string(), false, make));
    }
    families
}

fn rules(bodies: Vec<Vec<u16>>) -> Rules {
    Rules {
        options: OPTIONS,
        bodies,
    }
}

/// As many at-leasts of random literals as fit; nothing is forced.
fn any(asked: usize, members: usize, weight: usize) -> Rules {
    let random = &mut Random::new(weight as u64);
    let mut filling = Filling::new(weight);
    let mut one = || {
        let mut body = vec![at_least(asked, members)];
        for option in distinct(random, members, OPTIONS) {
            body.push(literal(option, random.one_in(2)));
        }
        body
    };
    while filling.put(one()) {}
    rules(filling.bodies)
}

/// Document 003's random formulas in which one in two of the groups that have literals alone is an
/// at-least. No literal is barred, so that the book is consistent.
fn random_nests(weight: usize) -> Rules {
    let random = &mut Random::new(weight as u64);
    let mut filling = Filling::new(weight);
    let mut misses = 0;
    while misses < 100 {
        let mut body = Vec::new();
        formula(random, 0, OPTIONS, &mut body);
        for place in 0..body.len() {
            let members = arity(body[place]);
            if has_literals_alone(&body[place..]) && random.one_in(2) {
                body[place] = at_least(random.within(1, members), members);
            }
        }
        misses += usize::from(!filling.put(body));
    }
    rules(filling.bodies)
}

/// Whether the nodes begin with a group of literals that an at-least could have.
fn has_literals_alone(nodes: &[u16]) -> bool {
    let members = || nodes[1..].iter().copied().take(arity(nodes[0]));
    arity(nodes[0]) > 0 && members().all(is_literal) && are_members(members())
}

/// Two of four by the names of four options in a chain, as many of the first barred.
fn link(names: &[usize], barred: usize) -> Vec<u16> {
    let mut body = vec![at_least(2, 4)];
    let members = names.iter().enumerate();
    body.extend(members.map(|(at, &name)| literal(name, at < barred)));
    body
}

/// Two units, then at-leasts each of which needs its last two members once the two before them
/// are known, up to so many options. The rest are at-leasts that the chain makes true before they
/// could force anything.
fn chain(order: Order, options: usize, weight: usize) -> Vec<Vec<u16>> {
    let random = &mut Random::new(weight as u64);
    let mut names: Vec<usize> = (0..options).collect();
    order.put(random, &mut names);
    let mut filling = Filling::new(weight);
    for &name in &names[..2] {
        filling.put(vec![literal(name, false)]);
    }
    for four in names.windows(4).step_by(2) {
        filling.put(link(four, 2));
    }
    let mut bystander = || {
        let places = distinct(random, 4, names.len());
        let [first, second, third, fourth] = [0, 1, 2, 3].map(|at| names[places[at]]);
        link(&[third, fourth, first, second], 2)
    };
    while filling.put(bystander()) {}
    order.put(random, &mut filling.bodies);
    filling.bodies
}

/// A chain inside one rule, any-of(Z, all-of(the chain)), beside the rule that bars Z.
fn chain_in_one_rule(weight: usize) -> Vec<Vec<u16>> {
    let z = OPTIONS - 1;
    let links = chain(Order::LastToFirst, z - 1, weight - 6);
    let mut body = vec![node(ANY, 2), literal(z, false), node(ALL, links.len())];
    body.extend(links.concat());
    vec![vec![literal(z, true)], body]
}

/// At-leasts over blocks of 63 options, of which units bar 31: each needs all its other members.
fn half_barred(weight: usize) -> Vec<Vec<u16>> {
    let random = &mut Random::new(weight as u64);
    let blocks = (weight / 512).clamp(1, OPTIONS / MEMBERS);
    let mut filling = Filling::new(weight);
    for block in 0..blocks {
        for option in 0..MEMBERS - HALF {
            filling.put(vec![literal(block * MEMBERS + option, true)]);
        }
    }
    let mut block = 0;
    loop {
        let options = block * MEMBERS..(block + 1) * MEMBERS;
        let mut body: Vec<u16> = options.map(|option| literal(option, false)).collect();
        random.shuffle(&mut body);
        body.insert(0, at_least(HALF, MEMBERS));
        if !filling.put(body) {
            return filling.bodies;
        }
        block = (block + 1) % blocks;
    }
}

/// At-leasts of as many constants as they can have.
fn trues(weight: usize) -> Vec<Vec<u16>> {
    let mut filling = Filling::new(weight);
    let mut body = vec![TRUE; 1 + MEMBERS];
    body[0] = at_least(HALF, MEMBERS);
    while filling.put(body.clone()) {}
    filling.bodies
}
