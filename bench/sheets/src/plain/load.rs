//! The loader: the checks in the order of documents 01 and 02, then the sheet.

use crate::nodes::{are_members, arity, is_literal, node, LENGTH, ROOT};
use std::collections::HashSet;

const CODE: usize = 13;

/// A book that is accepted: what its sheet is made of.
pub struct Checked<'a> {
    pub options: usize,
    pub weight: usize,
    rules: usize,
    bodies: &'a [u8],
}

impl Checked<'_> {
    /// The nodes of all bodies, one after another.
    pub fn nodes(&self) -> impl Iterator<Item = u16> + '_ {
        nodes(self.bodies)
    }
}

/// The refusal, 0 where the book is accepted and the sheet is filled.
pub fn load(book: &[u8], sheet: &mut [u16]) -> u64 {
    if sheet.len() != LENGTH {
        return 11;
    }
    match checked(book) {
        Err(refusal) => refusal,
        Ok(book) => {
            fill(sheet, &book);
            0
        }
    }
}

/// Fills a sheet from a book.
pub fn fill(sheet: &mut [u16], book: &Checked) {
    let nodes = book.bodies.len() / 2;
    sheet[0] = book.options as u16;
    sheet[1] = 1 + nodes as u16;
    sheet[2] = node(ROOT, book.rules);
    for (place, node) in sheet[3..3 + nodes].iter_mut().zip(book.nodes()) {
        *place = node;
    }
    sheet[3 + nodes..].fill(0);
}

/// What the book holds, or the refusal.
pub fn checked(book: &[u8]) -> Result<Checked<'_>, u64> {
    let (head, rest) = book.split_at_checked(8).ok_or(1u64)?;
    let [options, rules, total, zero] = [0, 2, 4, 6].map(|at| number(&head[at..]));
    if options > 512 || rules > 4095 || total > 4095 || zero != 0 {
        return Err(2);
    }
    if rest.len() != CODE * options + 4 * rules + 2 * total {
        return Err(1);
    }
    let (codes, rest) = rest.split_at(CODE * options);
    let (contents, bodies) = rest.split_at(4 * rules);
    let refused = [
        (3, !are_codes(codes, options)),
        (4, !are_in_line(contents, total)),
    ];
    if let Some((refusal, _)) = refused.into_iter().find(|&(_, wrong)| wrong) {
        return Err(refusal);
    }
    if !are_bodies(contents, bodies, options) {
        return Err(5);
    }
    let weight = 1 + total + nodes(bodies).filter(|&node| is_literal(node)).count();
    if weight > 4096 {
        return Err(6);
    }
    Ok(Checked {
        options,
        weight,
        rules,
        bodies,
    })
}

/// A 16-bit number, low byte first.
fn number(bytes: &[u8]) -> usize {
    usize::from(u16::from_le_bytes([bytes[0], bytes[1]]))
}

/// Bytes as nodes.
fn nodes(bodies: &[u8]) -> impl Iterator<Item = u16> + '_ {
    bodies.chunks_exact(2).map(|bytes| number(bytes) as u16)
}

fn are_codes(codes: &[u8], options: usize) -> bool {
    let mut seen = HashSet::with_capacity(options);
    codes
        .chunks_exact(CODE)
        .all(|code| is_code(code) && seen.insert(code))
}

fn is_code(code: &[u8]) -> bool {
    let is_character = |byte: &u8| byte.is_ascii_alphanumeric() || *byte == b'-';
    let length = code.iter().take_while(|&byte| is_character(byte)).count();
    length > 0 && code[length..].iter().all(|&byte| byte == 0)
}

/// No gap, no empty body, as many nodes as the head says.
fn are_in_line(contents: &[u8], total: usize) -> bool {
    let mut sum = 0;
    for pair in contents.chunks_exact(4) {
        let count = number(&pair[2..]);
        if number(pair) != sum || count == 0 {
            return false;
        }
        sum += count;
    }
    sum == total
}

fn are_bodies(contents: &[u8], bodies: &[u8], options: usize) -> bool {
    let mut rest = bodies;
    contents.chunks_exact(4).all(|pair| {
        let (body, after) = rest.split_at(2 * number(&pair[2..]));
        rest = after;
        is_tree(body, options)
    })
}

/// One tree: read from its start, a node takes the place of one tree and asks for its children.
fn is_tree(body: &[u8], options: usize) -> bool {
    let mut due = 1;
    for (place, bytes) in body.chunks_exact(2).enumerate() {
        let node = number(bytes);
        let value = node % 4096;
        if due == 0 {
            return false;
        }
        match node / 4096 {
            1 | 2 if value < options => due -= 1,
            3 | 4 => due = due - 1 + value,
            6 if has_members(&body[2 * place..]) => due = due - 1 + arity(node as u16),
            _ => return false,
        }
    }
    due == 0
}

/// Whether the bytes begin with an at-least and its members, each of these one node; those that
/// are missing are missed by the count of trees.
fn has_members(body: &[u8]) -> bool {
    let mut nodes = nodes(body);
    let members = nodes.next().map_or(0, arity);
    are_members(nodes.take(members))
}
