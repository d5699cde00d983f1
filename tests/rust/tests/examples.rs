//! The books that document 01 names, and others whose answer its wording or document 02's
//! settles, with the answer written out: asked of the library and of the reference.

use nibdrumlin_tests::at_leasts::at_least;
use nibdrumlin_tests::books::{code, node, Book, ALL_OF, ANY_OF, BARRED, OPTION};
use nibdrumlin_tests::sheets::sheet;
use nibdrumlin_tests::{ffi, reference};

#[track_caller]
fn check(book: &[u8], due: u64) {
    assert_eq!(reference::book_check(book), due, "reference");
    assert_eq!(ffi::book_check(book), due, "library");
}

#[track_caller]
fn look_up(book: &[u8], code: &[u8], due: u64) {
    assert_eq!(reference::code_lookup(book, code), due, "reference");
    assert_eq!(ffi::code_lookup(book, code), due, "library");
}

/// Fills an index that held something else from the sheet of these bodies.
#[track_caller]
fn count(options: usize, bodies: &[Vec<u16>], due: &[u16]) {
    let codes = (0..options).map(|at| code(format!("C{at}").as_bytes()));
    let sheet = sheet(&Book::new(codes.collect(), bodies));
    let mut index = vec![7; due.len()];
    assert_eq!(
        reference::index(&sheet, &index),
        (0, due.to_vec()),
        "reference"
    );
    assert_eq!(ffi::index(&sheet, &mut index), 0, "library");
    assert_eq!(index, due, "library");
}

/// P or (P and Q), byte by byte.
#[rustfmt::skip]
const FIRST_CASE: [u8; 48] = [
    0x02, 0x00, 0x01, 0x00, 0x05, 0x00, 0x00, 0x00,
    0x50, 0, 0, 0, 0, 0, 0, 0, 0, 0, 0, 0, 0,
    0x51, 0, 0, 0, 0, 0, 0, 0, 0, 0, 0, 0, 0,
    0x00, 0x00, 0x05, 0x00,
    0x02, 0x40, 0x00, 0x10, 0x02, 0x30, 0x00, 0x10, 0x01, 0x10,
];

fn with(changes: &[(usize, u8)]) -> Vec<u8> {
    let mut book = FIRST_CASE.to_vec();
    for &(place, byte) in changes {
        book[place] = byte;
    }
    book
}

#[test]
fn first_case() {
    check(&FIRST_CASE, 0);
    look_up(&FIRST_CASE, b"P", 0);
    look_up(&FIRST_CASE, b"Q", 1 << 8);
    for wrong in [
        &b"R"[..],
        b"p",
        b"PQ",
        b"PP",
        b"P\0",
        b"\0P",
        b"P\0\0\0\0\0\0\0\0\0\0\0\0",
        b"",
    ] {
        look_up(&FIRST_CASE, wrong, 7);
    }
    look_up(&FIRST_CASE, b"P\0\0\0\0\0\0\0\0\0\0\0\0\0", 7);
    look_up(&FIRST_CASE, b"PPPPPPPPPPPPPP", 7);
}

#[test]
fn eight_zero_bytes() {
    check(&[0; 8], 0);
    check(&[0; 7], 1);
    check(&[0; 9], 1);
    check(&[], 1);
    look_up(&[0; 8], b"P", 7);
    look_up(&[0; 8], b"", 7);
    look_up(&[0; 7], b"P", 1);
}

#[test]
fn each_refusal() {
    // 1: not the length due.
    check(&FIRST_CASE[..47], 1);
    check(&[&FIRST_CASE[..], &[0]].concat(), 1);
    // 2: over a limit, or the fourth number not zero.
    check(&with(&[(0, 0x01), (1, 0x02)]), 2);
    check(&with(&[(2, 0x00), (3, 0x10)]), 2);
    check(&with(&[(4, 0x00), (5, 0x10)]), 2);
    check(&with(&[(6, 0x01)]), 2);
    check(&with(&[(7, 0x80)]), 2);
    // 3: no character, no such character, one after the zero bytes, two alike.
    check(&with(&[(8, 0x00)]), 3);
    check(&with(&[(8, b'_')]), 3);
    check(&with(&[(20, b'P')]), 3);
    check(&with(&[(21, b'P')]), 3);
    // 4: the first node, the count, the sum.
    check(&with(&[(34, 0x01)]), 4);
    check(&with(&[(35, 0x01)]), 4);
    check(&with(&[(36, 0x00)]), 4);
    check(&with(&[(36, 0x04)]), 4);
    check(&with(&[(37, 0x01)]), 4);
    // 5: too few children, too many, the root, no kind, no such option.
    check(&with(&[(38, 0x01)]), 5);
    check(&with(&[(38, 0x03)]), 5);
    check(&with(&[(39, 0x50)]), 5);
    check(&with(&[(39, 0x00)]), 5);
    check(&with(&[(47, 0xF0)]), 5);
    check(&with(&[(46, 0x02)]), 5);
    // The lookup refuses the book before it looks at the code.
    for code in [&b"P"[..], b"R", b""] {
        look_up(&FIRST_CASE[..47], code, 1);
        look_up(&with(&[(6, 0x01)]), code, 2);
        look_up(&with(&[(21, b'P')]), code, 3);
        look_up(&with(&[(36, 0x04)]), code, 4);
        look_up(&with(&[(38, 0x01)]), code, 5);
    }
}

/// 1 (under 8), 2, 1, 3, 4, 5, 6, then 7.
#[test]
fn order_of_refusals() {
    let everything = with(&[(6, 1), (8, b'_'), (34, 1), (38, 9)]);
    check(&everything[..7], 1);
    check(&everything[..47], 2);
    let length = with(&[(8, b'_'), (34, 1), (38, 9)]);
    check(&length[..47], 1);
    check(&length, 3);
    check(&with(&[(34, 1), (38, 9)]), 4);
    check(&with(&[(38, 9)]), 5);
    // A head over its limit is 2, and not a length that is not due.
    check(&[0xFF; 8], 2);
    check(&[0xFF; 7], 1);
}

fn any_of_marks(marks: usize) -> Vec<u8> {
    let mut body = vec![node(ANY_OF, marks)];
    body.resize(1 + marks, node(OPTION, 0));
    Book::new(vec![code(b"P")], &[body]).bytes()
}

#[test]
fn weight() {
    check(&any_of_marks(2047), 0);
    check(&any_of_marks(2048), 6);
    look_up(&any_of_marks(2047), b"P", 0);
    look_up(&any_of_marks(2047), b"Q", 7);
    look_up(&any_of_marks(2048), b"P", 6);
    look_up(&any_of_marks(2048), b"", 6);
    // 2,047 rules of one mark each weigh 4,095 with the root; one rule more is 4,097.
    let marks = |count| Book::new(vec![code(b"P")], &vec![vec![node(BARRED, 0)]; count]).bytes();
    check(&marks(2047), 0);
    check(&marks(2048), 6);
    // A malformed body, though too heavy.
    let mut heavy = any_of_marks(2048);
    let last = heavy.len() - 1;
    heavy[last] = 0x50;
    check(&heavy, 5);
}

#[test]
fn most_nodes() {
    let all_of_trues = |count: usize| {
        let mut body = vec![node(ALL_OF, count)];
        body.resize(1 + count, node(ALL_OF, 0));
        Book::new(vec![], &[body]).bytes()
    };
    check(&all_of_trues(4094), 0);
    check(&all_of_trues(4095), 2);
    // 4,095 rules of one node each.
    check(
        &Book::new(vec![], &vec![vec![node(ANY_OF, 0)]; 4095]).bytes(),
        0,
    );
    // As deep as can be.
    let mut nest = vec![node(ALL_OF, 1); 4095];
    nest[4094] = node(ANY_OF, 0);
    check(&Book::new(vec![], &[nest.clone()]).bytes(), 0);
    nest[4094] = node(ALL_OF, 1);
    check(&Book::new(vec![], &[nest]).bytes(), 5);
}

/// "members x 64 + k, both 0 to 63"; "true, false, or marks, the marks of distinct options".
#[test]
fn at_least_k_of_these() {
    let codes: Vec<_> = [b"P", b"Q", b"R", b"S"].map(|name| code(name)).to_vec();
    let check_body = |body: &[u16], due| {
        check(&Book::new(codes.clone(), &[body.to_vec()]).bytes(), due);
    };
    let [p, q, r, s] = [0, 1, 2, 3].map(|option| node(OPTION, option));
    let [not_p, not_q] = [0, 1].map(|option| node(BARRED, option));
    let [all, any] = [node(ALL_OF, 0), node(ANY_OF, 0)];
    // Two of four seals; 0 of none; more than there are; constants, as often as one likes.
    check_body(&[0x6102, p, q, r, s], 0);
    check_body(&[0x6000], 0);
    check_body(&[0x603F], 0);
    check_body(&[at_least(2, 3), p, not_q], 0);
    check_body(&[at_least(5, 2), all, p, any, all, not_q], 0);
    check_body(&[node(ALL_OF, 2), at_least(1, 1), p, at_least(1, 0), p], 0);
    // An option twice, plain or barred; no such option.
    check_body(&[at_least(2, 1), p, p], 5);
    check_body(&[at_least(2, 1), p, not_p], 5);
    check_body(&[at_least(3, 1), not_q, all, q], 5);
    check_body(&[at_least(1, 1), node(OPTION, 4)], 5);
    // Groups with children, at-leasts, the root and other kinds are no members.
    check_body(&[at_least(1, 1), node(ANY_OF, 1), p], 5);
    check_body(&[at_least(2, 1), p, node(ALL_OF, 1), all], 5);
    check_body(&[at_least(1, 1), at_least(0, 0)], 5);
    check_body(&[at_least(1, 1), at_least(1, 1), p], 5);
    check_body(&[at_least(1, 1), node(5, 0)], 5);
    check_body(&[at_least(1, 1), node(7, 0)], 5);
    // Fewer members than announced, and more.
    check_body(&[at_least(2, 1), p], 5);
    check_body(&[at_least(1, 1)], 5);
    check_body(&[at_least(0, 1), p], 5);
    check_body(&[at_least(1, 1), p, q], 5);
    // As many as can be.
    let trues = |count| [vec![at_least(63, 32)], vec![all; count]].concat();
    check_body(&trues(63), 0);
    check_body(&trues(62), 5);
    check_body(&trues(64), 5);
    // One node of the weight: 1 + 585 x 7 is 4,096.
    let heavy = |rest: &[Vec<u16>]| {
        let bodies = [&vec![vec![at_least(3, 2), p, q, r]; 585], rest].concat();
        Book::new(codes.clone(), &bodies).bytes()
    };
    check(&heavy(&[]), 0);
    check(&heavy(&[vec![at_least(0, 0)]]), 6);
    check(&heavy(&[vec![at_least(2, 0), p, not_p]]), 5);
}

#[test]
fn option_512() {
    let codes: Vec<_> = (0..512).map(|i| code(format!("{i}").as_bytes())).collect();
    let book = |option| Book::new(codes.clone(), &[vec![node(OPTION, option)]]).bytes();
    check(&book(511), 0);
    check(&book(512), 5);
    look_up(&book(511), b"511", 511 << 8);
    look_up(&book(511), b"512", 7);
    look_up(&book(512), b"511", 5);
    check(&Book::new(vec![], &[vec![node(OPTION, 0)]]).bytes(), 5);
}

#[test]
fn character_13() {
    let two = Book::new(vec![code(b"ABCDEFGHIJKLM"), code(b"ABCDEFGHIJKLN")], &[]).bytes();
    check(&two, 0);
    look_up(&two, b"ABCDEFGHIJKLM", 0);
    look_up(&two, b"ABCDEFGHIJKLN", 1 << 8);
    look_up(&two, b"ABCDEFGHIJKLO", 7);
    look_up(&two, b"ABCDEFGHIJKL", 7);
    look_up(&two, b"ABCDEFGHIJKLMN", 7);
    check(&Book::new(vec![code(b"ABCDEFGHIJKLM"); 2], &[]).bytes(), 3);
}

/// In 16 bits the counts 65,535 and T + 1 would add up to T, and a body that lacks 65,536
/// nodes would lack none.
#[test]
fn sums_are_exact() {
    let mut book = Book::new(vec![], &[vec![node(ALL_OF, 0)], vec![node(ALL_OF, 0)]]);
    book.pairs = vec![[0, 65535], [65535, 3]];
    check(&book.bytes(), 4);
    book.pairs = vec![[0, 1], [1, 65535]];
    check(&book.bytes(), 4);
    let mut body = vec![node(ALL_OF, 4095); 16];
    body.push(node(ALL_OF, 32));
    check(&Book::new(vec![], &[body]).bytes(), 5);
}

/// With no rules the counts add up to 0.
#[test]
fn no_rules() {
    let mut book = Book::new(vec![code(b"P")], &[]);
    check(&book.bytes(), 0);
    book.nodes = vec![node(ALL_OF, 0)];
    book.count();
    check(&book.bytes(), 4);
    book.nodes.clear();
    book.pairs = vec![[0, 0]];
    book.count();
    check(&book.bytes(), 4);
}

/// Document 02: "two 16-bit numbers each: the count of its marks and the place of the first
/// (65,535 if none). Numbers past twice N stay."
#[test]
fn counts_of_mentions() {
    let none = 65_535;
    let (p, q, not_p) = (node(OPTION, 0), node(OPTION, 1), node(BARRED, 0));
    count(0, &[], &[]);
    count(0, &[vec![node(ALL_OF, 0)]], &[7, 7]);
    count(2, &[], &[0, none, 0, none]);
    // P or (P and Q): the root is at place 0, the any-of at 1.
    let first_case = vec![node(ANY_OF, 2), p, node(ALL_OF, 2), p, q];
    count(2, &[first_case.clone()], &[2, 2, 1, 5]);
    count(3, &[first_case.clone()], &[2, 2, 1, 5, 0, none, 7]);
    count(2, &[vec![not_p], first_case], &[3, 1, 1, 6]);
    // Members of an at-least are marks; its k and the numbers of children name no option.
    count(
        2,
        &[vec![at_least(3, 1), q, node(ALL_OF, 0), not_p], vec![q]],
        &[1, 4, 2, 2],
    );
    // One any-of with 2,047 marks, and 4,093 trues before a mark.
    let marks = [vec![node(ANY_OF, 2047)], vec![not_p; 2047]].concat();
    count(1, &[marks], &[2047, 2]);
    let trues = [vec![vec![node(ALL_OF, 0)]; 4093], vec![vec![p]]].concat();
    count(1, &trues, &[1, 4094]);
}
