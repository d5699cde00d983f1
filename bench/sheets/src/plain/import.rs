//! The import of clause files (document 02, U7): one pass over the text, which judges it and keeps
//! the nodes of its clauses as long as a book has room for them; then the book. Nothing is
//! allocated, and nothing is written before all is judged.

use crate::nodes::{node, ANY, BARRED, FALSE, PLAIN};

/// The limits of a book, as they stand in refusal 16.
const OPTIONS: u64 = 512;
const CLAUSES: u64 = 4095;
const NODES: usize = 4095;
const WEIGHT: usize = 4096;

/// The bytes of a head and of a code.
const HEAD: usize = 8;
const CODE: usize = 13;

/// A text of another form, one of which no book can be made, an output that is too short.
const NO_FORM: u64 = 15;
const TOO_LARGE: u64 = 16;
const TOO_SHORT: u64 = 12;

/// Imports a text: the length of its book, which then stands at the start of the output, in all
/// but the low 8 bits; or the refusal.
pub fn import(text: &[u8], out: &mut [u8]) -> u64 {
    answer(text, out, by_bytes)
}

/// The same, where the ends of comment lines are searched for by blocks.
pub fn import_by_blocks(text: &[u8], out: &mut [u8]) -> u64 {
    answer(text, out, by_blocks)
}

fn answer(text: &[u8], out: &mut [u8], line_end: impl Fn(&[u8]) -> Option<usize>) -> u64 {
    let mut clauses = Clauses::new();
    match judge(text, line_end, &mut clauses) {
        Err(refusal) => refusal,
        Ok(options) => {
            let length = length(options, &clauses);
            let Some(book) = out.get_mut(..length) else {
                return TOO_SHORT;
            };
            write(book, options, &clauses);
            (length as u64) << 8
        }
    }
}

/// Reads the whole text: how many options its book has, where one can be made of it.
fn judge(
    text: &[u8],
    line_end: impl Fn(&[u8]) -> Option<usize>,
    clauses: &mut Clauses,
) -> Result<usize, u64> {
    let rest = after_comments(text, line_end).ok_or(NO_FORM)?;
    let (most, due, rest) = problem_line(rest).ok_or(NO_FORM)?;
    read_clauses(rest, most, clauses).ok_or(NO_FORM)?;
    // No text has so many clauses that their count lacks a value here.
    if due.value != Some(clauses.closed) {
        return Err(NO_FORM);
    }
    let fits = clauses.closed <= CLAUSES && clauses.nodes <= NODES && clauses.weight() <= WEIGHT;
    match most.value {
        Some(options) if options <= OPTIONS && fits => Ok(options as usize),
        _ => Err(TOO_LARGE),
    }
}

/// Where the first line end stands, byte by byte.
fn by_bytes(text: &[u8]) -> Option<usize> {
    text.iter().position(|&byte| byte == b'\n')
}

/// The same, by blocks: within one, all bytes are compared at once.
fn by_blocks(text: &[u8]) -> Option<usize> {
    const BLOCK: usize = 32;
    let is_without = |block: &&[u8]| !block.iter().fold(false, |is, &byte| is | (byte == b'\n'));
    let first = BLOCK * text.chunks_exact(BLOCK).take_while(is_without).count();
    by_bytes(&text[first..]).map(|place| first + place)
}

/// What follows the comment lines, if anything does.
fn after_comments(mut text: &[u8], line_end: impl Fn(&[u8]) -> Option<usize>) -> Option<&[u8]> {
    while let [b'c', rest @ ..] = text {
        text = &rest[line_end(rest)? + 1..];
    }
    Some(text)
}

/// A decimal number without leading zeros, with its value where that has few digits.
#[derive(Clone, Copy)]
struct Number<'a> {
    digits: &'a [u8],
    value: Option<u64>,
}

/// The most digits of a number whose value is reckoned: 64 bits hold it.
const FEW: usize = 18;

impl<'a> Number<'a> {
    /// The number that the text begins with, if any, and what follows it.
    fn read(text: &'a [u8]) -> Option<(Number<'a>, &'a [u8])> {
        let (mut length, mut value) = (0, 0);
        while let Some(byte @ b'0'..=b'9') = text.get(length) {
            if length == FEW {
                return Number::read_long(text);
            }
            value = 10 * value + u64::from(byte - b'0');
            length += 1;
        }
        Number::parted(text, length, Some(value))
    }

    /// The same, for a number of more digits than have a value.
    fn read_long(text: &'a [u8]) -> Option<(Number<'a>, &'a [u8])> {
        let is_other = |byte: &u8| !byte.is_ascii_digit();
        let length = text.iter().position(is_other).unwrap_or(text.len());
        Number::parted(text, length, None)
    }

    /// Digits of this length and what follows them, unless there are none or a zero leads them.
    fn parted(text: &'a [u8], length: usize, value: Option<u64>) -> Option<(Self, &'a [u8])> {
        let (digits, rest) = text.split_at(length);
        match digits {
            [] | [b'0', _, ..] => None,
            _ => Some((Number { digits, value }, rest)),
        }
    }

    /// Whether it is at most another one, of any length.
    fn is_within(self, most: Number) -> bool {
        match (self.value, most.value) {
            (Some(value), Some(most)) => value <= most,
            (None, None) => {
                let lengths = self.digits.len().cmp(&most.digits.len());
                lengths.then_with(|| self.digits.cmp(most.digits)).is_le()
            }
            (value, _) => value.is_some(),
        }
    }
}

/// V and C of the line "p cnf V C", and what follows it.
fn problem_line(text: &[u8]) -> Option<(Number<'_>, Number<'_>, &[u8])> {
    let (options, rest) = Number::read(text.strip_prefix(b"p cnf ")?)?;
    let (clauses, rest) = Number::read(rest.strip_prefix(b" ")?)?;
    let rest = match rest {
        [] => rest,
        [b'\n', rest @ ..] | [b'\r', b'\n', rest @ ..] => rest,
        _ => return None,
    };
    Some((options, clauses, rest))
}

/// Reads all numbers to the text's end; the last of them must close a clause.
fn read_clauses(mut text: &[u8], most: Number, clauses: &mut Clauses) -> Option<()> {
    loop {
        text = after_blanks(text);
        let (barred, digits) = match text {
            [] => return (!clauses.is_open).then_some(()),
            [b'-', digits @ ..] => (true, digits),
            _ => (false, text),
        };
        let (number, rest) = Number::read(digits)?;
        match rest {
            [] | [b' ' | b'\t' | b'\n', ..] | [b'\r', b'\n', ..] => text = rest,
            _ => return None,
        }
        match number.value {
            Some(0) if barred => return None,
            Some(0) => clauses.close(),
            _ if !number.is_within(most) => return None,
            value => clauses.mark(value, barred),
        }
    }
}

/// What follows the spaces, tabs and line ends.
fn after_blanks(mut text: &[u8]) -> &[u8] {
    while let [b' ' | b'\t' | b'\n', rest @ ..] | [b'\r', b'\n', rest @ ..] = text {
        text = rest;
    }
    text
}

/// The clauses read so far, as the nodes of their bodies.
struct Clauses {
    /// The first of the nodes: as many as a book has room for.
    kept: [u16; NODES],
    /// How many nodes and marks there are, kept or not.
    nodes: usize,
    marks: usize,
    /// How many clauses are closed, whether another one is open, and where that begins.
    closed: u64,
    is_open: bool,
    first: usize,
}

impl Clauses {
    fn new() -> Clauses {
        Clauses {
            kept: [0; NODES],
            nodes: 0,
            marks: 0,
            closed: 0,
            is_open: false,
            first: 0,
        }
    }

    /// The weight of the sheet, the root counted.
    fn weight(&self) -> usize {
        1 + self.nodes + self.marks
    }

    fn push(&mut self, node: u16) {
        if let Some(place) = self.kept.get_mut(self.nodes) {
            *place = node;
        }
        self.nodes += 1;
    }

    /// An any-of without children, as long as no mark is in it.
    fn open(&mut self) {
        self.is_open = true;
        self.first = self.nodes;
        self.push(FALSE);
    }

    /// A mark of the option before this number. One that no book has is no node, but counts.
    fn mark(&mut self, number: Option<u64>, barred: bool) {
        if !self.is_open {
            self.open();
        }
        let kind = if barred { BARRED } else { PLAIN };
        let option = number.filter(|&number| number <= OPTIONS);
        self.push(option.map_or(0, |number| node(kind, number as usize - 1)));
        self.marks += 1;
    }

    /// Closes the open clause, or one without marks; its any-of gets the count of its marks.
    fn close(&mut self) {
        if !self.is_open {
            self.open();
        }
        if self.nodes <= NODES {
            self.kept[self.first] = node(ANY, self.nodes - self.first - 1);
        }
        self.is_open = false;
        self.closed += 1;
    }
}

/// The length of the book.
fn length(options: usize, clauses: &Clauses) -> usize {
    HEAD + CODE * options + 4 * clauses.closed as usize + 2 * clauses.nodes
}

/// Writes the book; the output has its length.
fn write(book: &mut [u8], options: usize, clauses: &Clauses) {
    let (head, rest) = book.split_at_mut(HEAD);
    let (codes, rest) = rest.split_at_mut(CODE * options);
    let (contents, bodies) = rest.split_at_mut(4 * clauses.closed as usize);
    let numbers = [options, clauses.closed as usize, clauses.nodes, 0];
    for (bytes, number) in head.chunks_exact_mut(2).zip(numbers) {
        bytes.copy_from_slice(&(number as u16).to_le_bytes());
    }
    for (option, bytes) in codes.chunks_exact_mut(CODE).enumerate() {
        bytes.copy_from_slice(&code(option + 1));
    }
    let nodes = &clauses.kept[..clauses.nodes];
    let mut first = 0;
    for pair in contents.chunks_exact_mut(4) {
        let count = 1 + nodes[first] % 4096;
        pair[..2].copy_from_slice(&(first as u16).to_le_bytes());
        pair[2..].copy_from_slice(&count.to_le_bytes());
        first += usize::from(count);
    }
    for (bytes, node) in bodies.chunks_exact_mut(2).zip(nodes) {
        bytes.copy_from_slice(&node.to_le_bytes());
    }
}

/// The letter V and a number of at most three digits, then zero bytes.
fn code(number: usize) -> [u8; CODE] {
    let digit = |value: usize| b'0' + (value % 10) as u8;
    let mut code = [0; CODE];
    code[0] = b'V';
    match number {
        0..10 => code[1] = digit(number),
        10..100 => code[1..3].copy_from_slice(&[digit(number / 10), digit(number)]),
        _ => {
            let digits = [digit(number / 100), digit(number / 10), digit(number)];
            code[1..4].copy_from_slice(&digits);
        }
    }
    code
}
