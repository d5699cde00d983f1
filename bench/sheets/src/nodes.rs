//! Nodes and books as documents 01 and 02 write them.

/// The length of a sheet: options, nodes used, room for 4,096 nodes.
pub const LENGTH: usize = 4098;

pub const PLAIN: u16 = 1;
pub const BARRED: u16 = 2;
pub const ALL: u16 = 3;
pub const ANY: u16 = 4;
pub const ROOT: u16 = 5;
pub const LEAST: u16 = 6;

/// The empty all-of and the empty any-of.
pub const TRUE: u16 = ALL << 12;
pub const FALSE: u16 = ANY << 12;

/// The most members of an at-least, and the most that it can ask for.
pub const MEMBERS: usize = 63;

pub fn kind(node: u16) -> u16 {
    node >> 12
}

pub fn value(node: u16) -> usize {
    usize::from(node & 4095)
}

pub fn is_literal(node: u16) -> bool {
    matches!(kind(node), PLAIN | BARRED)
}

/// The opposite of a literal.
pub fn opposite(literal: u16) -> u16 {
    literal ^ (3 << 12)
}

/// The number of children.
pub fn arity(node: u16) -> usize {
    match kind(node) {
        PLAIN | BARRED => 0,
        LEAST => value(node) / (MEMBERS + 1),
        _ => value(node),
    }
}

/// How many of its members an at-least asks for.
pub fn asked(node: u16) -> usize {
    value(node) % (MEMBERS + 1)
}

/// An at-least that asks for so many of so many members.
pub fn at_least(asked: usize, members: usize) -> u16 {
    assert!(asked <= MEMBERS && members <= MEMBERS);
    node(LEAST, members * (MEMBERS + 1) + asked)
}

/// Whether an at-least takes these members: constants, and literals of distinct options.
pub fn are_members(mut nodes: impl Iterator<Item = u16>) -> bool {
    let mut seen = [0u64; 512 / 64];
    nodes.all(|node| {
        if !is_literal(node) {
            return node == TRUE || node == FALSE;
        }
        // No book has an option past these.
        let Some(word) = seen.get_mut(value(node) / 64) else {
            return false;
        };
        let bit = 1 << (value(node) % 64);
        let is_new = *word & bit == 0;
        *word |= bit;
        is_new
    })
}

pub fn node(kind: u16, value: usize) -> u16 {
    assert!(value < 4096);
    kind << 12 | value as u16
}

/// A literal of an option, barred or not.
pub fn literal(option: usize, barred: bool) -> u16 {
    node(if barred { BARRED } else { PLAIN }, option)
}

/// Nodes and literals.
pub fn weight(nodes: &[u16]) -> usize {
    nodes.len() + nodes.iter().filter(|&&node| is_literal(node)).count()
}

/// The book with these bodies; its codes are alike but for their ends.
pub fn book(options: usize, bodies: &[Vec<u16>]) -> Vec<u8> {
    let total: usize = bodies.iter().map(Vec::len).sum();
    let mut bytes = Vec::new();
    let mut put = |number: usize| bytes.extend((number as u16).to_le_bytes());
    for number in [options, bodies.len(), total, 0] {
        put(number);
    }
    let mut first = 0;
    for body in bodies {
        put(first);
        put(body.len());
        first += body.len();
    }
    for &node in bodies.iter().flatten() {
        put(usize::from(node));
    }
    // The codes stand between the head and the contents.
    let codes = (0..options).flat_map(|option| format!("OPTION-{option:06}").into_bytes());
    bytes.splice(8..8, codes);
    bytes
}
