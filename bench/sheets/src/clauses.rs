//! The reference: the rules multiplied out into clauses, and unit propagation on these. It is
//! for toy books; the clauses of k conjunctions of two literals in one disjunction are 2^k, those
//! of at least 10 of 20 literals 167,960.

use crate::nodes::{
    arity, asked, is_literal, kind, literal, node, opposite, ALL, ANY, BARRED, LEAST, PLAIN,
};
use std::collections::HashSet;

type Clause = Vec<u16>;

/// One disjunction of k conjunctions of two literals, all of different options.
pub fn toy(conjunctions: usize) -> Vec<u16> {
    let mut body = vec![node(ANY, conjunctions)];
    for at in 0..conjunctions {
        body.push(node(ALL, 2));
        body.extend([2 * at, 2 * at + 1].map(|option| literal(option, false)));
    }
    body
}

/// How many clauses a tree has, multiplied out; the greatest number where they are more.
pub fn count(nodes: &[u16]) -> u128 {
    tally(nodes, 0)
}

/// At least as many clauses as any tree in it has: so many are made on the way, also where a true
/// beside them leaves none in the end.
pub fn effort(nodes: &[u16]) -> u128 {
    tally(nodes, 1)
}

/// The number of clauses, where each tree is taken to have so many at the least.
fn tally(nodes: &[u16], fewest: u128) -> u128 {
    let mut trees: Vec<u128> = Vec::new();
    for &node in nodes.iter().rev() {
        let counts = trees.split_off(trees.len() - arity(node));
        let count = match kind(node) {
            PLAIN | BARRED => 1,
            ANY => counts.into_iter().fold(1, u128::saturating_mul),
            LEAST => count_chosen(&counts, needed(node)),
            _ => counts.into_iter().fold(0, u128::saturating_add),
        };
        trees.push(count.max(fewest));
    }
    trees.pop().expect("one tree")
}

/// In how many ways a clause each of so many of the children can be taken, where these have so
/// many clauses.
fn count_chosen(counts: &[u128], needed: usize) -> u128 {
    let mut ways = vec![0u128; counts.len().max(needed) + 1];
    ways[0] = 1;
    for count in counts {
        for taken in (1..ways.len()).rev() {
            let more = ways[taken - 1].saturating_mul(*count);
            ways[taken] = ways[taken].saturating_add(more);
        }
    }
    ways[needed]
}

/// The clauses of the sheet's nodes; each is a set, sorted.
pub fn multiplied_out(nodes: &[u16]) -> Vec<Clause> {
    let mut trees: Vec<Vec<Clause>> = Vec::new();
    for &node in nodes.iter().rev() {
        let clauses = if is_literal(node) {
            vec![vec![node]]
        } else {
            let mut children = trees.split_off(trees.len() - arity(node));
            children.reverse();
            match kind(node) {
                ANY => children.into_iter().fold(vec![Vec::new()], unions),
                LEAST => chosen(children, needed(node)),
                _ => children.into_iter().flatten().collect(),
            }
        };
        trees.push(clauses);
    }
    trees.pop().expect("one tree")
}

/// How many members' clauses make one of an at-least's: one more than it can spare. None where it
/// asks for more than there are.
fn needed(node: u16) -> usize {
    (arity(node) + 1).saturating_sub(asked(node))
}

/// Every union over so many of the children. One that has no clause is in none of them.
fn chosen(mut children: Vec<Vec<Clause>>, needed: usize) -> Vec<Clause> {
    children.retain(|clauses| !clauses.is_empty());
    let mut found = Vec::new();
    choose(&children, needed, &mut Vec::new(), &mut found);
    found
}

/// Adds every union of what was taken so far with clauses of so many of the children.
fn choose(children: &[Vec<Clause>], needed: usize, taken: &mut Clause, found: &mut Vec<Clause>) {
    if needed == 0 {
        found.push(as_set(taken.clone()));
        return;
    }
    if needed > children.len() {
        return;
    }
    let before = taken.len();
    for clause in &children[0] {
        taken.extend(clause);
        choose(&children[1..], needed - 1, taken, found);
        taken.truncate(before);
    }
    choose(&children[1..], needed, taken, found);
}

/// A clause as a set: sorted, and none twice.
fn as_set(mut clause: Clause) -> Clause {
    clause.sort_unstable();
    clause.dedup();
    clause
}

/// Every union of one clause of each.
fn unions(these: Vec<Clause>, those: Vec<Clause>) -> Vec<Clause> {
    let union = |one: &Clause, other: &Clause| as_set([one.as_slice(), other].concat());
    let each = |one: &Clause| {
        those
            .iter()
            .map(|other| union(one, other))
            .collect::<Vec<_>>()
    };
    these.iter().flat_map(each).collect()
}

/// The report by propagation on the clauses: whether the sheet is contradictory.
pub fn report(clauses: &[Clause], out: &mut [u8]) -> bool {
    let mut facts: HashSet<u16> = HashSet::new();
    loop {
        let before = facts.len();
        for clause in clauses {
            let fails = |literal: &&u16| facts.contains(&opposite(**literal));
            let open: Vec<u16> = clause.iter().filter(|l| !fails(l)).copied().collect();
            match open[..] {
                [] => {
                    out.fill(3);
                    return true;
                }
                [last] => {
                    facts.insert(last);
                }
                _ => (),
            }
        }
        if facts.len() == before {
            break;
        }
    }
    for (option, byte) in out.iter_mut().enumerate() {
        let [plain, barred] = [false, true].map(|barred| facts.contains(&literal(option, barred)));
        *byte = u8::from(plain) + 2 * u8::from(barred);
    }
    false
}
