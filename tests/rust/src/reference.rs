//! The book check, the code lookup and the index of mentions, written from document 01 and
//! document 02's node kind 6 and index alone.
//!
//! Every step follows the paper's wording, in the order in which the refusals are
//! tested.  Nothing is shared with the library under test.

use std::collections::HashSet;

/// The refusals that these calls can give.
#[derive(Clone, Copy, Debug, PartialEq, Eq)]
pub enum Refusal {
    Length = 1,
    Head = 2,
    Code = 3,
    Contents = 4,
    Body = 5,
    Weight = 6,
    NoSuchCode = 7,
    NotASheet = 11,
    TooShort = 12,
}

/// "The place of the first (65,535 if none)."
const NO_PLACE: u16 = 65_535;

/// The book check's answer as one number.
pub fn book_check(book: &[u8]) -> u64 {
    answer(accepted_codes(book).map(|_| 0))
}

/// The code lookup's answer as one number.
pub fn code_lookup(book: &[u8], code: &[u8]) -> u64 {
    answer(option_number(book, code))
}

/// The answer of the call that fills an index from a sheet, and the index after it.
pub fn index(sheet: &[u16], index: &[u16]) -> (u64, Vec<u16>) {
    let filled = nodes_of(sheet).and_then(|(options, nodes)| {
        let rest = past_count(options, index)?;
        Ok([&fresh_count(options, nodes), rest].concat())
    });
    match filled {
        Ok(after) => (0, after),
        Err(refusal) => (refusal as u64, index.to_vec()),
    }
}

/// The refusal of a call that has none of its own but those of its sheet and its index: a
/// run.
pub fn run_refusal(sheet: &[u16], index: &[u16]) -> u64 {
    answer(nodes_of(sheet).and_then(|(options, nodes)| {
        let rest = past_count(options, index)?;
        let given = &index[..index.len() - rest.len()];
        if given == fresh_count(options, nodes) {
            Ok(0)
        } else {
            Err(Refusal::NotASheet)
        }
    }))
}

/// The refusal in the low 8 bits (0: accepted), the value above them.
fn answer(result: Result<usize, Refusal>) -> u64 {
    match result {
        Ok(value) => (value as u64) << 8,
        Err(refusal) => refusal as u64,
    }
}

/// The number of the option whose code is these characters.
fn option_number(book: &[u8], code: &[u8]) -> Result<usize, Refusal> {
    accepted_codes(book)?
        .iter()
        .position(|stored| characters(stored) == code)
        .ok_or(Refusal::NoSuchCode)
}

/// The codes of a book, 13 bytes each, where the whole book is accepted.
fn accepted_codes(book: &[u8]) -> Result<Vec<&[u8]>, Refusal> {
    // Head.
    if book.len() < 8 {
        return Err(Refusal::Length);
    }
    let head = numbers(&book[..8]);
    let [n, m, t, zero] = [0, 1, 2, 3].map(|i| usize::from(head[i]));
    if n > 512 || m > 4095 || t > 4095 || zero != 0 {
        return Err(Refusal::Head);
    }
    if book.len() != 8 + 13 * n + 4 * m + 2 * t {
        return Err(Refusal::Length);
    }
    let (codes, rest) = book[8..].split_at(13 * n);
    let (pairs, nodes) = rest.split_at(4 * m);
    let codes: Vec<&[u8]> = codes.chunks_exact(13).collect();
    let pairs = numbers(pairs);
    let nodes = numbers(nodes);

    // Codes: each well formed, none equal to an earlier one in all 13 bytes.
    let mut earlier = HashSet::new();
    for code in &codes {
        if !well_formed(code) || !earlier.insert(*code) {
            return Err(Refusal::Code);
        }
    }

    // Contents: no gap, no empty body, T nodes together.
    let mut sum = 0;
    for pair in pairs.chunks_exact(2) {
        let (first, count) = (usize::from(pair[0]), usize::from(pair[1]));
        if first != sum || count == 0 {
            return Err(Refusal::Contents);
        }
        sum += count;
    }
    if sum != t {
        return Err(Refusal::Contents);
    }

    // Bodies: each is one tree and nothing after it.
    for pair in pairs.chunks_exact(2) {
        let (first, count) = (usize::from(pair[0]), usize::from(pair[1]));
        match after_tree(&nodes[first..first + count], n) {
            Some([]) => {}
            _ => return Err(Refusal::Body),
        }
    }

    // Weight: nodes plus marks, the root counted.
    let marks = nodes.iter().filter(|&&node| is_mark(node)).count();
    if 1 + t + marks > 4096 {
        return Err(Refusal::Weight);
    }
    Ok(codes)
}

/// 16-bit numbers, low byte first.
fn numbers(bytes: &[u8]) -> Vec<u16> {
    let pairs = bytes.chunks_exact(2);
    pairs
        .map(|two| u16::from_le_bytes([two[0], two[1]]))
        .collect()
}

/// What stands before the first zero byte of a stored code.
fn characters(stored: &[u8]) -> &[u8] {
    let end = stored.iter().position(|&byte| byte == 0);
    &stored[..end.unwrap_or(stored.len())]
}

/// 1 to 13 characters from A-Z, a-z, 0-9 and hyphen, then zero bytes.
fn well_formed(stored: &[u8]) -> bool {
    let (name, filling) = stored.split_at(characters(stored).len());
    !name.is_empty()
        && name
            .iter()
            .all(|byte| matches!(byte, b'A'..=b'Z' | b'a'..=b'z' | b'0'..=b'9' | b'-'))
        && filling.iter().all(|&byte| byte == 0)
}

fn is_mark(node: u16) -> bool {
    matches!(node / 4096, 1 | 2)
}

/// The nodes after the tree that these begin with; none where they begin with no tree.
fn after_tree(nodes: &[u16], options: usize) -> Option<&[u16]> {
    let (&node, mut rest) = nodes.split_first()?;
    let value = usize::from(node % 4096);
    match node / 4096 {
        1 | 2 if value < options => Some(rest),
        3 | 4 => {
            for _ in 0..value {
                rest = after_tree(rest, options)?;
            }
            Some(rest)
        }
        6 => after_members(rest, value / 64, options),
        _ => None,
    }
}

/// The nodes after so many members of a node of kind 6: "true, false, or marks, the marks of
/// distinct options".  None where the nodes do not begin with so many.
fn after_members(nodes: &[u16], count: usize, options: usize) -> Option<&[u16]> {
    let (members, rest) = nodes.split_at_checked(count)?;
    let mut named = HashSet::new();
    let mut is_member = |&node: &u16| {
        let option = usize::from(node % 4096);
        is_constant(node) || is_mark(node) && option < options && named.insert(option)
    };
    members.iter().all(&mut is_member).then_some(rest)
}

/// True, an empty all-of, or false, an empty any-of.
fn is_constant(node: u16) -> bool {
    node == 3 * 4096 || node == 4 * 4096
}

/// N and the nodes of a sheet, from the root on.
fn nodes_of(sheet: &[u16]) -> Result<(usize, &[u16]), Refusal> {
    root_tree(sheet).ok_or(Refusal::NotASheet)
}

/// The same, none where the numbers are no sheet: "exactly 4,098 16-bit numbers: N (0 to
/// 512), the count of nodes used, the nodes from the root on as one tree with kind 5 only at
/// its head, then zeros", of a weight of at most 4,096.
fn root_tree(sheet: &[u16]) -> Option<(usize, &[u16])> {
    if sheet.len() != 4098 || sheet[0] > 512 || sheet[1] > 4096 {
        return None;
    }
    let options = usize::from(sheet[0]);
    let (nodes, zeros) = sheet[2..].split_at(usize::from(sheet[1]));
    let (&root, mut rules) = nodes.split_first()?;
    for _ in 0..root % 4096 {
        rules = after_tree(rules, options)?;
    }
    let marks = nodes.iter().filter(|&&node| is_mark(node)).count();
    let is_sheet = root / 4096 == 5
        && rules.is_empty()
        && zeros.iter().all(|&number| number == 0)
        && nodes.len() + marks <= 4096;
    is_sheet.then_some((options, nodes))
}

/// "Option after option, two 16-bit numbers each: the count of its marks and the place of
/// the first."
fn fresh_count(options: usize, nodes: &[u16]) -> Vec<u16> {
    let of_option = |option: usize| {
        let is_its_mark = |&node: &u16| is_mark(node) && usize::from(node % 4096) == option;
        let count = nodes.iter().filter(|node| is_its_mark(node)).count() as u16;
        let first = nodes.iter().position(|node| is_its_mark(node));
        [count, first.map_or(NO_PLACE, |place| place as u16)]
    };
    (0..options).flat_map(of_option).collect()
}

/// "Numbers past twice N": of an index that is long enough.
fn past_count(options: usize, index: &[u16]) -> Result<&[u16], Refusal> {
    index.get(2 * options..).ok_or(Refusal::TooShort)
}
