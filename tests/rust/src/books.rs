//! Books for the tests: accepted ones of every size up to the limits, and damaged
//! ones whose refusal is known from the way they were made.

use crate::at_leasts::{self, AT_LEAST};
use crate::random::Random;

pub const MAX_OPTIONS: usize = 512;
pub const MAX_RULES: usize = 4095;
pub const MAX_NODES: usize = 4095;
pub const MAX_WEIGHT: usize = 4096;

/// The characters of a code.
pub const CHARACTERS: &[u8; 63] =
    b"ABCDEFGHIJKLMNOPQRSTUVWXYZabcdefghijklmnopqrstuvwxyz0123456789-";

pub const OPTION: u16 = 1;
pub const BARRED: u16 = 2;
pub const ALL_OF: u16 = 3;
pub const ANY_OF: u16 = 4;

pub type Code = [u8; 13];

pub fn node(kind: u16, value: usize) -> u16 {
    assert!(kind < 16 && value < 4096);
    kind * 4096 + value as u16
}

fn is_mark(node: u16) -> bool {
    node / 4096 == OPTION || node / 4096 == BARRED
}

/// A book in its parts, right or wrong.
#[derive(Clone)]
pub struct Book {
    pub head: [u16; 4],
    pub codes: Vec<Code>,
    pub pairs: Vec<[u16; 2]>,
    pub nodes: Vec<u16>,
}

impl Book {
    /// These codes and bodies, with the contents and the head due to them.
    pub fn new(codes: Vec<Code>, bodies: &[Vec<u16>]) -> Book {
        let mut book = Book {
            head: [0; 4],
            codes,
            pairs: Vec::new(),
            nodes: Vec::new(),
        };
        for body in bodies {
            book.pairs
                .push([book.nodes.len() as u16, body.len() as u16]);
            book.nodes.extend(body);
        }
        book.count();
        book
    }

    /// Sets the head by the parts.
    pub fn count(&mut self) {
        self.head = [
            self.codes.len() as u16,
            self.pairs.len() as u16,
            self.nodes.len() as u16,
            0,
        ];
    }

    pub fn bytes(&self) -> Vec<u8> {
        let numbers = self
            .head
            .iter()
            .chain(self.pairs.as_flattened())
            .chain(&self.nodes);
        let mut bytes: Vec<u8> = numbers.flat_map(|number| number.to_le_bytes()).collect();
        // The codes stand between the head and the pairs.
        bytes.splice(8..8, self.codes.as_flattened().iter().copied());
        bytes
    }

    /// The nodes and marks of the bodies, and one for the root.
    pub fn weight(&self) -> usize {
        1 + self.nodes.len() + self.nodes.iter().filter(|&&node| is_mark(node)).count()
    }
}

/// A stored code of these characters.
pub fn code(characters: &[u8]) -> Code {
    let mut code = [0; 13];
    code[..characters.len()].copy_from_slice(characters);
    code
}

/// The characters of a well-formed stored code.
pub fn characters(code: &Code) -> &[u8] {
    &code[..13 - code.iter().rev().take_while(|&&byte| byte == 0).count()]
}

/// How the codes of a book resemble one another.
#[derive(Clone, Copy, Debug)]
pub enum Likeness {
    /// One or two characters each.
    Short,
    /// Any characters, any length.
    Any,
    /// 13 characters, the first 11 the same in all.
    Ends,
    /// 13 characters; up to 63 codes at a time differ in character 13 only.
    Last,
    /// 13 characters, the last 11 the same in all.
    Starts,
    /// Up to 13 codes at a time of which each begins with all shorter ones.
    Prefixes,
}

pub const LIKENESSES: [Likeness; 6] = [
    Likeness::Short,
    Likeness::Any,
    Likeness::Ends,
    Likeness::Last,
    Likeness::Starts,
    Likeness::Prefixes,
];

/// `count` different well-formed codes, `count` at most 513.
pub fn codes(random: &mut Random, count: usize, likeness: Likeness) -> Vec<Code> {
    let mut letters = *CHARACTERS;
    random.shuffle(&mut letters);
    let same: Vec<u8> = (0..13).map(|_| random.pick(CHARACTERS)).collect();
    let mut codes: Vec<Code> = match likeness {
        Likeness::Any => {
            let mut codes = std::collections::HashSet::new();
            while codes.len() < count {
                let length = random.within(1, 13);
                let name: Vec<u8> = (0..length).map(|_| random.pick(CHARACTERS)).collect();
                codes.insert(code(&name));
            }
            let mut codes: Vec<Code> = codes.into_iter().collect();
            codes.sort_unstable();
            codes
        }
        _ => (0..count)
            .map(|i| {
                let (high, low) = (letters[i / 63], letters[i % 63]);
                match likeness {
                    Likeness::Short if i < 63 => code(&[low]),
                    Likeness::Short => code(&[high, low]),
                    Likeness::Ends => code(&[&same[..11], &[high, low]].concat()),
                    Likeness::Last => code(&[&[high], &same[..11], &[low]].concat()),
                    Likeness::Starts => code(&[&[high, low], &same[..11]].concat()),
                    _ => code(&[&[letters[i / 13]], &same[..i % 13]].concat()),
                }
            })
            .collect(),
    };
    random.shuffle(&mut codes);
    codes
}

/// The shape of a body.
#[derive(Clone, Copy, Debug)]
pub enum Shape {
    /// Every node but the first is a child of the first.
    Flat,
    /// Every node is the only child of the one before it.
    Chain,
    /// Two children each, the first of which goes on.
    LeftComb,
    /// Two children each, the second of which goes on.
    RightComb,
    /// Any tree.
    Any,
}

pub const SHAPES: [Shape; 5] = [
    Shape::Flat,
    Shape::Chain,
    Shape::LeftComb,
    Shape::RightComb,
    Shape::Any,
];

/// The numbers of children of a tree's nodes, a node before its children; at least two
/// nodes, and where the shape allows it so many leaves.
fn degrees(random: &mut Random, nodes: usize, leaves: usize, shape: Shape) -> Vec<usize> {
    let mut degrees = vec![0; nodes];
    match shape {
        Shape::Flat => degrees[0] = nodes - 1,
        Shape::Chain => degrees[..nodes - 1].fill(1),
        Shape::LeftComb | Shape::RightComb => {
            // With an even number of nodes the first has one child.
            let start = (nodes + 1) % 2;
            degrees[..start].fill(1);
            for i in 0..(nodes - start) / 2 {
                let place = if matches!(shape, Shape::LeftComb) {
                    i
                } else {
                    2 * i
                };
                degrees[start + place] = 2;
            }
        }
        Shape::Any => {
            // One child for each inner node, the others anywhere; then the one turn
            // of the row that is a tree: it begins after the lowest point.
            let inner = random.within(1, nodes - leaves);
            degrees[..inner].fill(1);
            for _ in 0..nodes - 1 - inner {
                degrees[random.below(inner)] += 1;
            }
            random.shuffle(&mut degrees);
            let (mut open, mut lowest, mut start) = (0, 0, 0);
            for (i, &degree) in degrees.iter().enumerate() {
                open += degree as i64 - 1;
                if open < lowest {
                    (lowest, start) = (open, i + 1);
                }
            }
            degrees.rotate_left(start % nodes);
        }
    }
    degrees
}

/// The most marks that a body of so many nodes can hold.
pub fn most_marks(nodes: usize) -> usize {
    (nodes - 1).max(1)
}

/// A well-formed body: exactly `nodes` nodes, of which `marks` are marks.
pub fn body(
    random: &mut Random,
    nodes: usize,
    marks: usize,
    options: usize,
    shape: Shape,
) -> Vec<u16> {
    assert!(nodes > 0 && marks <= most_marks(nodes) && (marks == 0 || options > 0));
    if nodes == 1 {
        let empty = node(random.pick(&[ALL_OF, ANY_OF]), 0);
        return vec![if marks == 0 {
            empty
        } else {
            some_mark(random, options)
        }];
    }
    let mut degrees = degrees(random, nodes, marks.max(1), shape);
    let mut leaves: Vec<usize> = (0..nodes).filter(|&i| degrees[i] == 0).collect();
    if leaves.len() < marks {
        degrees.fill(0);
        degrees[0] = nodes - 1;
        leaves = (1..nodes).collect();
    }
    let mut body: Vec<u16> = degrees
        .iter()
        .map(|&degree| node(random.pick(&[ALL_OF, ANY_OF]), degree))
        .collect();
    random.shuffle(&mut leaves);
    for &leaf in &leaves[..marks] {
        body[leaf] = some_mark(random, options);
    }
    body
}

/// An option, plain or barred, the last one more often than the others.
fn some_mark(random: &mut Random, options: usize) -> u16 {
    let option = if random.one_in(4) {
        options - 1
    } else {
        random.below(options)
    };
    node(random.pick(&[OPTION, BARRED]), option)
}

/// The size of a book: `rules` is 0 where `nodes` is, and from 1 to `nodes` elsewhere;
/// `marks` is 0 where `options` is, and at most `nodes`.
#[derive(Clone, Copy, Debug)]
pub struct Size {
    pub options: usize,
    pub rules: usize,
    pub nodes: usize,
    pub marks: usize,
}

/// A book of this size with nothing wrong, save perhaps its weight.  Where so many
/// marks do not fit into the bodies, each node becomes a rule of its own.
pub fn book(random: &mut Random, size: Size, likeness: Likeness, shape: Shape) -> Book {
    let codes = codes(random, size.options, likeness);
    let mut counts = split(random, size.nodes, size.rules);
    if counts.iter().map(|&count| most_marks(count)).sum::<usize>() < size.marks {
        counts = vec![1; size.nodes];
    }
    let mut places: Vec<usize> = Vec::new();
    for (i, &count) in counts.iter().enumerate() {
        places.extend(std::iter::repeat_n(i, most_marks(count)));
    }
    random.shuffle(&mut places);
    let mut marks = vec![0; counts.len()];
    for &place in &places[..size.marks] {
        marks[place] += 1;
    }
    let bodies: Vec<Vec<u16>> = counts
        .iter()
        .zip(marks)
        .map(|(&count, marks)| body(random, count, marks, size.options, shape))
        .collect();
    Book::new(codes, &bodies)
}

/// `total` as a sum of `parts` numbers, none of them 0.
fn split(random: &mut Random, total: usize, parts: usize) -> Vec<usize> {
    let mut split = vec![1; parts];
    if parts > 0 {
        let one = if random.one_in(3) {
            Some(random.below(parts))
        } else {
            None
        };
        for _ in 0..total - parts {
            let part = one.unwrap_or_else(|| random.below(parts));
            split[part] += 1;
        }
    }
    split
}

/// An accepted book with at most so many options and nodes.
pub fn small(random: &mut Random, options: usize, nodes: usize) -> Book {
    let options = random.within(0, options);
    let nodes = random.within(0, nodes);
    let rules = if nodes == 0 {
        0
    } else {
        random.within(1, nodes)
    };
    let marks = if options == 0 {
        0
    } else {
        random.within(0, nodes)
    };
    let size = Size {
        options,
        rules,
        nodes,
        marks,
    };
    let (likeness, shape) = (random.pick(&LIKENESSES), random.pick(&SHAPES));
    book(random, size, likeness, shape)
}

/// The size of a book with options whose weight is exactly this, from 1 to 8,191.
pub fn size_of_weight(random: &mut Random, options: usize, weight: usize) -> Size {
    let sum = weight - 1;
    let nodes = random.within(sum.div_ceil(2), sum.min(MAX_NODES));
    let rules = match nodes {
        0 => 0,
        _ if random.one_in(2) => random.within(1, nodes.min(3)),
        _ => random.within(1, nodes),
    };
    Size {
        options,
        rules,
        nodes,
        marks: sum - nodes,
    }
}

/// What can be wrong with a book, in the order in which it is tested.
#[derive(Clone, Copy, Debug, PartialEq, Eq)]
pub enum Fault {
    /// Fewer than 8 bytes.
    Stub,
    Head,
    Length,
    Code,
    Contents,
    Body,
    Weight,
}

/// The faults that `damaged` can make: a book's weight is settled with its size.
pub const FAULTS: [Fault; 6] = [
    Fault::Stub,
    Fault::Head,
    Fault::Length,
    Fault::Code,
    Fault::Contents,
    Fault::Body,
];

impl Fault {
    pub fn refusal(self) -> u64 {
        match self {
            Fault::Stub | Fault::Length => 1,
            Fault::Head => 2,
            Fault::Code => 3,
            Fault::Contents => 4,
            Fault::Body => 5,
            Fault::Weight => 6,
        }
    }
}

/// The bytes of this book, which has nothing wrong save perhaps its weight, with each of
/// the faults that it can have (a book without codes has no bad one); and the refusal due.
pub fn damaged(random: &mut Random, book: &Book, faults: &[Fault]) -> (Vec<u8>, u64) {
    let mut book = book.clone();
    let mut first: Option<Fault> = None;
    if book.weight() > MAX_WEIGHT {
        first = Some(Fault::Weight);
    }
    // Last tested, first made: each finds what is tested before it still right.
    if faults.contains(&Fault::Body) && damage_body(random, &mut book) {
        first = Some(Fault::Body);
    }
    if faults.contains(&Fault::Contents) {
        damage_contents(random, &mut book);
        first = Some(Fault::Contents);
    }
    if faults.contains(&Fault::Code) && damage_code(random, &mut book) {
        first = Some(Fault::Code);
    }
    let mut bytes = book.bytes();
    if faults.contains(&Fault::Length) {
        damage_length(random, &mut bytes);
        first = Some(Fault::Length);
    }
    if faults.contains(&Fault::Head) && bytes.len() >= 8 {
        damage_head(random, &mut bytes);
        first = Some(Fault::Head);
    }
    if faults.contains(&Fault::Stub) {
        bytes.truncate(random.below(8));
        first = Some(Fault::Stub);
    }
    (bytes, first.map_or(0, Fault::refusal))
}

/// A head number over its limit, or the fourth not zero.
fn damage_head(random: &mut Random, bytes: &mut [u8]) {
    let field = random.below(4);
    let limit = [MAX_OPTIONS, MAX_RULES, MAX_NODES, 0][field];
    let old = usize::from(u16::from_le_bytes([bytes[2 * field], bytes[2 * field + 1]]));
    let number = match random.below(5) {
        0 => limit + 1,
        1 => 65535,
        2 => random.within(limit + 1, 65535),
        // The same low byte, or the same low 12 bits, as the right number.
        3 => old % 256 + 256 * random.within(limit / 256 + 1, 255),
        _ => old % 4096 + 4096 * random.within(1, 15),
    };
    bytes[2 * field..2 * field + 2].copy_from_slice(&(number as u16).to_le_bytes());
}

/// A length that is not the one due to the head, which stays within its limits.
fn damage_length(random: &mut Random, bytes: &mut Vec<u8>) {
    let length = bytes.len();
    match random.below(8) {
        0 | 1 => bytes.truncate(length - 1),
        2 | 3 => bytes.push(random.pick(&[0, b'A', 0x30, 0xFF])),
        4 => bytes.truncate(random.below(length)),
        5 => {
            let more = random.within(1, 40);
            bytes.extend(random.bytes(more));
        }
        6 => {
            // A length of 8 or 16 bits would not see these.
            let more = if random.one_in(20) { 65536 } else { 256 };
            bytes.resize(length + more, 0);
        }
        _ => {
            let field = random.below(3);
            let limit = [MAX_OPTIONS, MAX_RULES, MAX_NODES][field];
            let place = 2 * field..2 * field + 2;
            let old = usize::from(u16::from_le_bytes([bytes[2 * field], bytes[2 * field + 1]]));
            let near = if random.one_in(2) || old == 0 {
                old + 1
            } else {
                old - 1
            };
            let new = if near > limit { old - 1 } else { near };
            bytes[place].copy_from_slice(&(new as u16).to_le_bytes());
        }
    }
}

/// One of so many places, the first and the last more often than the others.
fn some_place(random: &mut Random, places: usize) -> usize {
    match random.below(6) {
        0 => 0,
        1 => places - 1,
        _ => random.below(places),
    }
}

/// A malformed code, or one equal to an earlier; not without codes.
fn damage_code(random: &mut Random, book: &mut Book) -> bool {
    let count = book.codes.len();
    if count == 0 {
        return false;
    }
    let which = some_place(random, count);
    let length = characters(&book.codes[which]).len();
    match random.below(6) {
        0 => book.codes[which][random.below(length)] = bad_character(random),
        // A zero byte before other characters.
        1 if length > 1 => book.codes[which][random.below(length - 1)] = 0,
        // Something after the zero byte that ends the code.
        2 if length < 12 => {
            let place = random.within(length + 1, 12);
            book.codes[which][place] = if random.one_in(2) {
                random.pick(CHARACTERS)
            } else {
                bad_character(random)
            };
        }
        3 => book.codes[which] = [0; 13],
        4 | 5 if count > 1 => {
            let other = (which + random.within(1, count - 1)) % count;
            book.codes[which] = book.codes[other];
        }
        _ => book.codes[which][0] = bad_character(random),
    }
    true
}

/// A byte that is neither zero nor a character of a code, often one next to them.
pub fn bad_character(random: &mut Random) -> u8 {
    loop {
        let byte = if random.one_in(2) {
            random.pick(b",./:@[`{ _\x80\xFF")
        } else {
            random.byte()
        };
        if byte != 0 && !CHARACTERS.contains(&byte) {
            return byte;
        }
    }
}

/// A pair out of line, an empty body, or counts that do not add up to T.
fn damage_contents(random: &mut Random, book: &mut Book) {
    let (rules, nodes) = (book.pairs.len(), book.nodes.len());
    let which = if rules == 0 {
        0
    } else {
        some_place(random, rules)
    };
    match random.below(10) {
        0 if rules > 0 => {
            let old = book.pairs[which][0];
            book.pairs[which][0] = other_number(random, old);
        }
        1 if rules > 0 => {
            let old = book.pairs[which][1];
            book.pairs[which][1] = other_number(random, old);
        }
        2 if rules > 0 => {
            let old = book.pairs[rules - 1][1];
            book.pairs[rules - 1][1] = other_number(random, old);
        }
        3 if rules < MAX_RULES => {
            // An empty body in the right place.
            let place = random.within(0, rules);
            let first = if place < rules {
                book.pairs[place][0]
            } else {
                nodes as u16
            };
            book.pairs.insert(place, [first, 0]);
        }
        4 if rules > 0 => {
            book.pairs.pop();
        }
        5 if rules < MAX_RULES => {
            let count = random.within(1, 3) as u16;
            book.pairs.push([nodes as u16, count]);
        }
        6 if rules > 1 => {
            let other = (which + random.within(1, rules - 1)) % rules;
            book.pairs.swap(which, other);
        }
        7 if rules > 0 => {
            // A gap: one node more, and every body from this one on later by one.
            if nodes < MAX_NODES {
                let place = usize::from(book.pairs[which][0]);
                book.nodes.insert(place, node(ALL_OF, 0));
            }
            for pair in &mut book.pairs[which..] {
                pair[0] += 1;
            }
        }
        8 if nodes < MAX_NODES => book.nodes.push(node(ALL_OF, 0)),
        8 if nodes > 0 => {
            book.nodes.pop();
        }
        _ => wrap_contents(random, book),
    }
    book.count();
}

/// A number other than this one, often next to it.
fn other_number(random: &mut Random, old: u16) -> u16 {
    let new = match random.below(6) {
        0 | 1 => old.wrapping_add(1),
        2 => old.wrapping_sub(1),
        3 => 0,
        4 => old ^ (1 << random.below(16)),
        _ => random.number(),
    };
    if new == old {
        old.wrapping_add(1)
    } else {
        new
    }
}

/// Pairs that are in line, and add up to T, in 16 bits only.
pub fn wrap_contents(random: &mut Random, book: &mut Book) {
    let total = 65536 * random.within(1, 3) + book.nodes.len();
    let fewest = total.div_ceil(65535);
    let pairs = if random.one_in(2) {
        fewest
    } else {
        random.within(fewest, fewest + 6)
    };
    let mut counts = vec![0usize; pairs];
    // As 65,535 and T + 1, or in any parts.
    let mut left = total;
    for (i, count) in counts.iter_mut().enumerate() {
        let others = pairs - i - 1;
        let (low, high) = (
            left.saturating_sub(65535 * others).max(1),
            (left - others).min(65535),
        );
        *count = if random.one_in(2) {
            high
        } else {
            random.within(low, high)
        };
        left -= *count;
    }
    assert_eq!(left, 0);
    book.pairs.clear();
    let mut first = 0;
    for count in counts {
        book.pairs.push([(first % 65536) as u16, count as u16]);
        first += count;
    }
    book.count();
}

/// A malformed body; not without bodies.
fn damage_body(random: &mut Random, book: &mut Book) -> bool {
    let rules = book.pairs.len();
    if rules == 0 {
        return false;
    }
    if random.one_in(2) && at_leasts::damage(random, &mut book.nodes) {
        return true;
    }
    let which = some_place(random, rules);
    let [first, count] = book.pairs[which].map(usize::from);
    let place = if random.one_in(3) {
        first
    } else {
        first + random.below(count)
    };
    let (kind, value) = (
        book.nodes[place] / 4096,
        usize::from(book.nodes[place] % 4096),
    );
    match random.below(7) {
        // No such kind, or the root.
        0 => book.nodes[place] = node(random.pick(&[0, 7, 8, 11, 12, 15]), value),
        1 => book.nodes[place] = node(5, value),
        // No such option.
        2 | 3 => {
            let option = match random.below(3) {
                0 => book.codes.len(),
                1 => random.within(book.codes.len(), 4095),
                _ => random.pick(&[512, 513, 1024, 4095]),
            };
            book.nodes[place] = node(random.pick(&[OPTION, BARRED]), option);
        }
        // Another number of children, so that the tree ends early or not at all.
        4 if kind == ALL_OF || kind == ANY_OF => {
            let other = match random.below(4) {
                0 if value > 0 => value - 1,
                1 => random.within(value, 4094) + 1,
                2 => 4095,
                _ => value + 1,
            };
            book.nodes[place] = node(kind, other);
        }
        4 if is_mark(book.nodes[place]) => {
            book.nodes[place] = node(random.pick(&[ALL_OF, ANY_OF]), random.within(1, 4095));
        }
        // The end of one body as the start of the next, or the other way round.
        5 if rules > 1 => {
            let which = which.min(rules - 2);
            let sizes = [
                usize::from(book.pairs[which][1]),
                usize::from(book.pairs[which + 1][1]),
            ];
            let total = sizes[0] + sizes[1];
            if total > 2 {
                let mut moved = random.within(1, total - 2);
                if moved >= sizes[0] {
                    moved += 1;
                }
                let next = usize::from(book.pairs[which][0]) + moved;
                book.pairs[which][1] = moved as u16;
                book.pairs[which + 1] = [next as u16, (total - moved) as u16];
            } else {
                join(book, which);
            }
        }
        // Two trees in one body.
        6 if rules > 1 => join(book, which.min(rules - 2)),
        _ => book.nodes[place] = node(5, value),
    }
    book.count();
    true
}

/// This body and the next as one.
fn join(book: &mut Book, which: usize) {
    book.pairs[which][1] += book.pairs[which + 1][1];
    book.pairs.remove(which + 1);
}

/// A body at whose end exactly so many nodes are lacking, 2 or more.
pub fn unfinished_body(random: &mut Random, lacking: usize) -> Vec<u16> {
    let mut body = Vec::new();
    let mut open = 1;
    while open < lacking {
        let children = if lacking - open < 4095 {
            lacking - open + 1
        } else {
            random.within(2, 4095)
        };
        body.push(node(random.pick(&[ALL_OF, ANY_OF]), children));
        open += children - 1;
    }
    body
}

/// Bytes with the length due to their head, of which most are about right.
pub fn nearly(random: &mut Random) -> Vec<u8> {
    let (options, rules) = (random.below(4), random.below(4));
    let nodes = match random.below(9) {
        0 => random.below(7),
        _ if rules == 0 => 0,
        _ => rules + random.below(5),
    };
    let mut book = Book {
        head: [0; 4],
        codes: Vec::new(),
        pairs: Vec::new(),
        nodes: Vec::new(),
    };
    for _ in 0..options {
        let length = random.pick(&[1, 1, 2, 12, 13]);
        let mut stored = [0; 13];
        for byte in &mut stored[..length] {
            *byte = if random.one_in(60) {
                random.byte()
            } else {
                random.pick(b"AB")
            };
        }
        book.codes.push(stored);
    }
    let mut first = 0;
    for i in 0..rules {
        let others = rules - i - 1;
        let most = nodes.saturating_sub(first + others).max(1);
        let count = match random.below(12) {
            0 => random.below(6),
            _ if others == 0 => most,
            _ => random.within(1, most),
        };
        let shown = if random.one_in(20) {
            random.below(7)
        } else {
            first
        };
        book.pairs.push([shown as u16, count as u16]);
        first += count;
    }
    for i in 0..nodes {
        let starts = book
            .pairs
            .iter()
            .any(|pair| usize::from(pair[0]) == i && pair[1] > 1);
        let kind = match random.below(30) {
            0 => random.below(16) as u16,
            _ if starts => random.pick(&[ALL_OF, ANY_OF, AT_LEAST]),
            1 => AT_LEAST,
            _ => random.pick(&[OPTION, BARRED, ALL_OF, ANY_OF]),
        };
        let value = match kind {
            OPTION | BARRED if options == 0 || random.one_in(9) => options,
            OPTION | BARRED => random.below(options),
            AT_LEAST if starts => 64 * random.within(1, 3) + random.below(4),
            AT_LEAST => 64 * random.pick(&[0, 0, 0, 1, 2]) + random.pick(&[0, 1, 2, 63]),
            _ if starts => random.within(1, 3),
            _ => random.pick(&[0, 0, 0, 1, 2]),
        };
        book.nodes.push(node(kind, value));
    }
    book.count();
    book.bytes()
}
