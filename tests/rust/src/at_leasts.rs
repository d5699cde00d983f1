//! At-leasts, node kind 6, in the books of the tests: put into books that have none, and
//! damaged.

use crate::books::{node, Book, ALL_OF, ANY_OF, BARRED, OPTION};
use crate::random::Random;

pub const AT_LEAST: u16 = 6;

/// The most members that a node has room to tell, and the greatest k.
pub const MOST: usize = 63;

/// The head of an at-least k of so many members.
pub fn at_least(members: usize, k: usize) -> u16 {
    assert!(members <= MOST && k <= MOST);
    node(AT_LEAST, 64 * members + k)
}

fn is_mark(number: u16) -> bool {
    matches!(number / 4096, OPTION | BARRED)
}

/// An empty all-of or an empty any-of.
fn is_constant(number: u16) -> bool {
    number == node(ALL_OF, 0) || number == node(ANY_OF, 0)
}

/// A book with nothing wrong in which some groups have become at-leasts: those whose
/// children can be members.  Nodes and marks stay as many.
pub fn with_at_leasts(random: &mut Random, mut book: Book) -> Book {
    for &[first, count] in &book.pairs {
        let (first, count) = (usize::from(first), usize::from(count));
        put_in(
            random,
            &mut book.nodes[first..first + count],
            book.codes.len(),
        );
    }
    book
}

/// Makes at-leasts of some groups of a body, from its first node on.
fn put_in(random: &mut Random, body: &mut [u16], options: usize) {
    let mut place = 0;
    while let Some((head, rest)) = body[place..].split_first_mut() {
        place += 1;
        let count = usize::from(*head % 4096);
        let is_group = matches!(*head / 4096, ALL_OF | ANY_OF) && count <= MOST;
        if is_group && random.one_in(2) && are_leaves(rest, count) {
            let members = &mut rest[..count];
            if name_apart(random, members, options) {
                let most = if random.one_in(8) { MOST } else { count + 1 };
                *head = at_least(count, random.below(most + 1).min(MOST));
                place += count;
            }
        }
    }
}

/// Whether so many nodes are there, and all of them marks or constants.
fn are_leaves(nodes: &[u16], count: usize) -> bool {
    nodes.get(..count).is_some_and(|nodes| {
        nodes
            .iter()
            .all(|&number| is_mark(number) || is_constant(number))
    })
}

/// Gives the marks among these distinct options, if there are enough of them.
fn name_apart(random: &mut Random, members: &mut [u16], options: usize) -> bool {
    if members.iter().filter(|&&number| is_mark(number)).count() > options {
        return false;
    }
    let mut names: Vec<usize> = (0..options).collect();
    random.shuffle(&mut names);
    let marks = members.iter_mut().filter(|number| is_mark(**number));
    for (mark, name) in marks.zip(names) {
        *mark = node(*mark / 4096, name);
    }
    true
}

/// Makes the members of some at-least malformed; not without at-leasts.
pub fn damage(random: &mut Random, nodes: &mut [u16]) -> bool {
    let is_head = |&place: &usize| nodes[place] / 4096 == AT_LEAST;
    let heads: Vec<usize> = (0..nodes.len()).filter(is_head).collect();
    if heads.is_empty() {
        return false;
    }
    let place = random.pick(&heads);
    let value = usize::from(nodes[place] % 4096);
    let (count, k) = (value / 64, value % 64);
    let (head, rest) = nodes[place..].split_first_mut().expect("the head");
    let members = &mut rest[..count];
    match random.below(4) {
        0 if name_twice(random, members) => {}
        1 if count > 0 => members[random.below(count)] = no_member(random),
        // A group with a child of its own as a member; the tree is as long as before.
        2 if count > 1 => {
            members[random.below(count - 1)] = node(random.pick(&[ALL_OF, ANY_OF]), 1);
            *head = at_least(count - 1, k);
        }
        // More members than there are, or fewer.
        _ => {
            let other = (count + random.within(1, MOST)) % (MOST + 1);
            let near = if count == 0 { 1 } else { count - 1 };
            *head = at_least(if random.one_in(2) { near } else { other }, k);
        }
    }
    true
}

/// Makes one member name the option of another, plain or barred, if any names one.
fn name_twice(random: &mut Random, members: &mut [u16]) -> bool {
    let is_named = |&place: &usize| is_mark(members[place]);
    let marks: Vec<usize> = (0..members.len()).filter(is_named).collect();
    if marks.is_empty() || members.len() < 2 {
        return false;
    }
    let mark = random.pick(&marks);
    let other = (mark + random.within(1, members.len() - 1)) % members.len();
    let option = usize::from(members[mark] % 4096);
    members[other] = node(random.pick(&[OPTION, BARRED]), option);
    true
}

/// One node that is no member: an at-least of none, the root, or no node at all.
fn no_member(random: &mut Random) -> u16 {
    let k = random.below(64);
    node(random.pick(&[AT_LEAST, AT_LEAST, 5, 0, 7, 15]), k)
}
