//! The book check and the code lookup in plain Rust by the library's methods: equal codes by
//! a table of hashes with chains of places, each body from its end by a count of trees, the
//! options of an at-least by a bit each, and nothing allocated.

use crate::reference::Refusal;

const CODE: usize = 13;
const HASHES: usize = 1024;
const MOST_CODES: usize = 512;

/// The book check's answer as one number.
pub fn book_check(book: &[u8]) -> u64 {
    match check(book) {
        Ok(_) => 0,
        Err(refusal) => refusal as u64,
    }
}

/// The code lookup's answer as one number.
pub fn code_lookup(book: &[u8], code: &[u8]) -> u64 {
    let codes = match check(book) {
        Ok(codes) => codes,
        Err(refusal) => return refusal as u64,
    };
    let place = codes
        .chunks_exact(CODE)
        .position(|stored| is_spelled(stored, code));
    place.map_or(Refusal::NoSuchCode as u64, |place| (place as u64) << 8)
}

/// The codes of a book that is accepted.
fn check(book: &[u8]) -> Result<&[u8], Refusal> {
    let (head, rest) = book.split_at_checked(8).ok_or(Refusal::Length)?;
    let [n, m, t, zero] = [0, 2, 4, 6].map(|at| number(&head[at..]));
    if n > MOST_CODES || m > 4095 || t > 4095 || zero != 0 {
        return Err(Refusal::Head);
    }
    if rest.len() != CODE * n + 4 * m + 2 * t {
        return Err(Refusal::Length);
    }
    let (codes, rest) = rest.split_at(CODE * n);
    let (contents, nodes) = rest.split_at(4 * m);
    if !are_codes(codes) {
        return Err(Refusal::Code);
    }
    if !are_in_line(contents, t) {
        return Err(Refusal::Contents);
    }
    if !are_bodies(contents, nodes, n) {
        return Err(Refusal::Body);
    }
    let marks = nodes
        .chunks_exact(2)
        .filter(|node| matches!(number(node) / 4096, 1 | 2))
        .count();
    if 1 + t + marks > 4096 {
        return Err(Refusal::Weight);
    }
    Ok(codes)
}

/// A 16-bit number, low byte first.
fn number(bytes: &[u8]) -> usize {
    usize::from(u16::from_le_bytes([bytes[0], bytes[1]]))
}

/// Each code is well formed, and none equals another.
fn are_codes(codes: &[u8]) -> bool {
    const NONE: u16 = u16::MAX;
    let mut first = [NONE; HASHES];
    let mut next = [NONE; MOST_CODES];
    for (i, code) in codes.chunks_exact(CODE).enumerate() {
        if !is_code(code) {
            return false;
        }
        let head = &mut first[hash(code)];
        let mut place = *head;
        while place != NONE {
            let at = CODE * usize::from(place);
            if codes[at..at + CODE] == *code {
                return false;
            }
            place = next[usize::from(place)];
        }
        next[i] = *head;
        *head = i as u16;
    }
    true
}

fn is_character(byte: u8) -> bool {
    matches!(byte, b'A'..=b'Z' | b'a'..=b'z' | b'0'..=b'9' | b'-')
}

fn is_code(code: &[u8]) -> bool {
    let length = code.iter().take_while(|&&byte| is_character(byte)).count();
    length > 0 && code[length..].iter().all(|&byte| byte == 0)
}

/// A number below `HASHES`, from all 13 bytes.
fn hash(code: &[u8]) -> usize {
    let part = |at: usize| u64::from_le_bytes(code[at..at + 8].try_into().expect("8 bytes"));
    let mixed = part(0) ^ part(CODE - 8).rotate_left(29);
    (mixed.wrapping_mul(0x9E37_79B9_7F4A_7C15) >> 54) as usize
}

fn is_spelled(stored: &[u8], code: &[u8]) -> bool {
    code.len() <= CODE
        && stored[..code.len()] == *code
        && !code.contains(&0)
        && stored.get(code.len()).is_none_or(|&byte| byte == 0)
}

/// No gap, no empty body, as many nodes as there are.
fn are_in_line(contents: &[u8], total: usize) -> bool {
    let mut sum = 0;
    for pair in contents.chunks_exact(4) {
        let count = number(&pair[2..]);
        if number(pair) != sum || count == 0 {
            return false;
        }
        sum += count;
    }
    sum == total
}

fn are_bodies(contents: &[u8], nodes: &[u8], options: usize) -> bool {
    let mut rest = nodes;
    contents.chunks_exact(4).all(|pair| {
        let (body, after) = rest.split_at(2 * number(&pair[2..]));
        rest = after;
        is_tree(body, options)
    })
}

/// One tree: from its end on, a node takes as many trees as it has children and leaves one.
fn is_tree(body: &[u8], options: usize) -> bool {
    let mut trees = 0;
    for (place, node) in body.chunks_exact(2).enumerate().rev() {
        let node = number(node);
        let value = node % 4096;
        match node / 4096 {
            1 | 2 if value < options => trees += 1,
            3 | 4 if value <= trees => trees = trees - value + 1,
            6 if value / 64 <= trees && are_members(&body[2 * place + 2..], value / 64) => {
                trees = trees - value / 64 + 1;
            }
            _ => return false,
        }
    }
    trees == 1
}

/// Whether the first so many nodes are what an at-least takes: true, false, and marks of distinct
/// options. The options were tested before, since they stand further to the end.
fn are_members(nodes: &[u8], members: usize) -> bool {
    let mut seen = [0u64; MOST_CODES / 64];
    nodes.chunks_exact(2).take(members).all(|node| {
        let (kind, value) = (number(node) / 4096, number(node) % 4096);
        if kind > 2 {
            return kind < 5 && value == 0;
        }
        let (word, bit) = (&mut seen[value / 64], 1 << (value % 64));
        let is_new = *word & bit == 0;
        *word |= bit;
        is_new
    })
}
