//! A sheet's nodes as they lie: one tree, a node before its children.

use crate::nodes::{are_members, arity, is_literal, kind, value, ALL, ANY, LEAST, LENGTH, ROOT};

pub const MOST: usize = 4096;

/// The size of the tree at each place.
pub type Sizes = [u16; MOST];

/// The nodes used.
pub fn used(sheet: &[u16]) -> &[u16] {
    &sheet[2..2 + usize::from(sheet[1])]
}

/// Whether it is a sheet.
pub fn is_sheet(sheet: &[u16]) -> bool {
    if sheet.len() != LENGTH || sheet[0] > 512 || sheet[1] == 0 || sheet[1] > 4096 {
        return false;
    }
    let (nodes, rest) = sheet[2..].split_at(usize::from(sheet[1]));
    rest.iter().all(|&number| number == 0) && is_tree(nodes, usize::from(sheet[0]))
}

/// Whether the nodes are one tree with the root at its head, of weight at most 4,096.
fn is_tree(nodes: &[u16], options: usize) -> bool {
    let (mut trees, mut literals) = (0, 0);
    for (place, &node) in nodes.iter().enumerate().rev() {
        let value = value(node);
        match kind(node) {
            1 | 2 if value < options => {
                trees += 1;
                literals += 1;
            }
            ALL | ANY if value <= trees => trees = trees - value + 1,
            LEAST if arity(node) <= trees && has_members(&nodes[place..]) => {
                trees = trees - arity(node) + 1;
            }
            ROOT if place == 0 => return value == trees && nodes.len() + literals <= MOST,
            _ => return false,
        }
    }
    false
}

/// Whether the nodes begin with an at-least and its members. Each of these is one node, so that
/// they stand right behind it.
fn has_members(nodes: &[u16]) -> bool {
    let members = nodes[1..].iter().copied();
    are_members(members.take(arity(nodes[0])))
}

/// Makes the table of sizes, from the last node to the first.
pub fn fill_sizes(nodes: &[u16], sizes: &mut Sizes) {
    for place in (0..nodes.len()).rev() {
        let mut end = place + 1;
        for _ in 0..arity(nodes[place]) {
            end += usize::from(sizes[end]);
        }
        sizes[place] = (end - place) as u16;
    }
}

/// The nodes with the sizes of their trees.
#[derive(Clone, Copy)]
pub struct Flat<'a> {
    pub nodes: &'a [u16],
    pub sizes: &'a Sizes,
}

impl<'a> Flat<'a> {
    /// Where the tree at a place ends.
    pub fn end(self, place: usize) -> usize {
        place + usize::from(self.sizes[place])
    }

    /// The places of the children.
    pub fn children(self, place: usize) -> impl Iterator<Item = usize> + 'a {
        let mut next = place + 1;
        (0..arity(self.nodes[place])).map(move |_| {
            let child = next;
            next = self.end(child);
            child
        })
    }

    /// The place of child i.
    pub fn child(self, place: usize, i: usize) -> usize {
        self.children(place).nth(i).expect("a child")
    }

    /// The parent of a place, if it has one.
    pub fn parent(self, place: usize) -> Option<usize> {
        (0..place).rev().find(|&above| self.end(above) > place)
    }

    pub fn is_literal(self, place: usize) -> bool {
        is_literal(self.nodes[place])
    }

    pub fn is_all(self, place: usize) -> bool {
        kind(self.nodes[place]) == ALL
    }
}
