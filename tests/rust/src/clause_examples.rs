//! Clause files written by hand, with what is due to them: each sentence of document 02's
//! U7, and each side of it.

use crate::clause_files::ClauseFile;

/// A text, its options, its clauses.
pub type Accepted = (&'static [u8], usize, &'static [&'static [i32]]);

/// What a clause file says.
pub fn file(options: usize, clauses: &[&[i32]]) -> ClauseFile {
    ClauseFile {
        options,
        clauses: clauses.iter().map(|clause| clause.to_vec()).collect(),
    }
}

pub const ACCEPTED: [Accepted; 34] = [
    // No options, no clauses; the p line may be the last, with an end or without.
    (b"p cnf 0 0", 0, &[]),
    (b"p cnf 0 0\n", 0, &[]),
    (b"p cnf 0 0\r\n", 0, &[]),
    (b"p cnf 0 0\n\n \t\r\n", 0, &[]),
    (b"p cnf 3 0", 3, &[]),
    // "Each closed by 0": an empty clause is one too, and wants no option.
    (b"p cnf 0 1\n0", 0, &[&[]]),
    (b"p cnf 0 2\n0 0", 0, &[&[], &[]]),
    (b"p cnf 2 3\n0\n1 0\n0\n", 2, &[&[], &[1], &[]]),
    // "A lone mark too, clauses and marks in file order."
    (b"p cnf 1 1\n1 0", 1, &[&[1]]),
    (b"p cnf 1 1\n-1 0\n", 1, &[&[-1]]),
    (b"p cnf 3 2\n3 -1 2 0\n-2 0\n", 3, &[&[3, -1, 2], &[-2]]),
    // Marks may come again, beside their opposites too; clauses may.
    (
        b"p cnf 2 3\n1 1 -1 1 0 2 0 2 0",
        2,
        &[&[1, 1, -1, 1], &[2], &[2]],
    ),
    // "Any spaces, tabs and line ends may stand before and after numbers."
    (b"p cnf 2 1\n1 2 0", 2, &[&[1, 2]]),
    (b"p cnf 2 1\n1\t2\t0\t", 2, &[&[1, 2]]),
    (b"p cnf 2 1\n1\n2\n0\n", 2, &[&[1, 2]]),
    (b"p cnf 2 1\n1\r\n2\r\n0\r\n", 2, &[&[1, 2]]),
    (
        b"p cnf 2 1\n\n\n \t 1 \n \t\r\n\n -2   0 \t\n ",
        2,
        &[&[1, -2]],
    ),
    (b"p cnf 2 1\r\n  1  -2  0  ", 2, &[&[1, -2]]),
    (b"p cnf 2 2\n1 0 -2\n0", 2, &[&[1], &[-2]]),
    (b"p cnf 2 2\n1 0 -2 0\r\n\r\n\n\r\n", 2, &[&[1], &[-2]]),
    // "Comment lines starting with c", with any bytes but 10 in them.
    (b"c\np cnf 0 0", 0, &[]),
    (b"c\r\np cnf 0 0", 0, &[]),
    (b"c\nc\nc\np cnf 1 1\n1 0", 1, &[&[1]]),
    (b"c any words\np cnf 1 1\n1 0", 1, &[&[1]]),
    (b"cnf 1 1\np cnf 1 1\n1 0", 1, &[&[1]]),
    (b"c p cnf 9 9\np cnf 1 1\n1 0", 1, &[&[1]]),
    (b"cp cnf 9 9\np cnf 1 1\n1 0", 1, &[&[1]]),
    (
        b"c\r\r\t \0\x01\x0b\x7f\x80\xff\xfe\np cnf 1 1\n1 0",
        1,
        &[&[1]],
    ),
    (b"c\rp cnf 9 9\r\np cnf 1 1\n1 0", 1, &[&[1]]),
    (
        b"c one end\r\nc the other\np cnf 1 1\r\n1\n0\r\n",
        1,
        &[&[1]],
    ),
    // 1 to V, of any number of digits.
    (b"p cnf 9 1\n1 9 -9 0", 9, &[&[1, 9, -9]]),
    (b"p cnf 10 1\n9 10 -10 0", 10, &[&[9, 10, -10]]),
    (b"p cnf 100 1\n-99 100 -100 0", 100, &[&[-99, 100, -100]]),
    (b"p cnf 512 1\n512 -511 1 0", 512, &[&[512, -511, 1]]),
];

/// Texts of any other form.
pub const OTHER_FORMS: [&[u8]; 111] = [
    // No p line.
    b"",
    b" ",
    b"\n",
    b"c",
    b"c\n",
    b"c\nc",
    b"c p cnf 0 0",
    b"c p cnf 0 0\n",
    b"c\rp cnf 0 0",
    b"0",
    b"1 0",
    b"p",
    b"p\n",
    // Another form of it.
    b"p cnf",
    b"p cnf ",
    b"p cnf 0",
    b"p cnf 0 ",
    b"p cnf 0\n0",
    b"p cnf  0",
    b"p cnf 0 0 ",
    b"p cnf 0 0 \n",
    b"p cnf 0 0\t\n",
    b"p cnf 0 0\r",
    b"p cnf 0 0\r\r\n",
    b"p cnf 0 0 \r\n",
    b"p cnf 0 0\0",
    b"p cnf 0 0 0",
    b"p cnf 0 0x\n",
    b" p cnf 0 0",
    b"\tp cnf 0 0",
    b"p  cnf 0 0",
    b"p\tcnf 0 0",
    b"p cnf  0 0",
    b"p cnf\t0 0",
    b"p cnf 0  0",
    b"p cnf 0\t0",
    b"p\ncnf 0 0",
    b"p cnf\n0 0",
    b"p cnf 0\n0\n",
    b"pcnf 0 0",
    b"p cnf0 0",
    b"p CNF 0 0",
    b"P cnf 0 0",
    b"p dnf 0 0",
    b"p cnfx 0 0",
    b"P CNF 0 0\n",
    // Numbers in it that are none.
    b"p cnf 00 0",
    b"p cnf 0 00",
    b"p cnf 01 0",
    b"p cnf 1 01\n1 0",
    b"p cnf +1 0",
    b"p cnf -1 0",
    b"p cnf -0 0",
    b"p cnf 0 -0",
    b"p cnf 0 +0",
    b"p cnf x 0",
    b"p cnf 0 x",
    b"p cnf 1. 0",
    b"p cnf 0x1 0",
    b"p cnf 1,0 0",
    // A line before it that is no comment.
    b"\np cnf 0 0",
    b"\r\np cnf 0 0",
    b" \np cnf 0 0",
    b"c\n\np cnf 0 0",
    b"c\n\r\np cnf 0 0",
    b"\nc\np cnf 0 0",
    b" c\np cnf 0 0",
    b"C\np cnf 0 0",
    b"%\np cnf 0 0",
    b"\rc\np cnf 0 0",
    // After it nothing but blanks and numbers.
    b"p cnf 1 1\nc\n1 0",
    b"p cnf 1 1\n1 0\nc",
    b"p cnf 1 1\n1 0\nc a comment\n",
    b"p cnf 1 1\n1 c 0",
    b"p cnf 1 1\n1 0\n%\n0\n",
    b"p cnf 1 1\n1 0\n%",
    b"p cnf 1 1\np cnf 1 1\n1 0",
    b"p cnf 1 1\n1 0\0",
    b"p cnf 1 1\n1,0",
    b"p cnf 1 1\n1\x0b0",
    b"p cnf 1 1\n1\xa00",
    b"p cnf 1 1\n1\r0",
    b"p cnf 1 1\n1\r 0",
    b"p cnf 1 1\n1 0\r",
    b"p cnf 1 1\n\r1 0",
    b"p cnf 1 1\n1\r\r\n0",
    // A minus stands directly before a number, which is 1 to V.
    b"p cnf 1 1\n-0",
    b"p cnf 1 1\n1 -0",
    b"p cnf 1 1\n- 1 0",
    b"p cnf 1 1\n-\n1 0",
    b"p cnf 1 1\n--1 0",
    b"p cnf 1 1\n1- 0",
    b"p cnf 1 1\n1 - 0",
    b"p cnf 1 1\n1 0 -",
    b"p cnf 2 1\n1-2 0",
    b"p cnf 1 1\n+1 0",
    b"p cnf 1 1\n01 0",
    b"p cnf 1 1\n-01 0",
    b"p cnf 1 1\n1 00",
    b"p cnf 1 1\n2 0",
    b"p cnf 1 1\n-2 0",
    b"p cnf 0 1\n1 0",
    b"p cnf 9 1\n10 0",
    b"p cnf 512 1\n513 0",
    b"p cnf 1 1\n18446744073709551617 0",
    // C clauses, each closed.
    b"p cnf 1 1",
    b"p cnf 1 1\n",
    b"p cnf 1 1\n1",
    b"p cnf 1 0\n0",
    b"p cnf 1 1\n1 0 1",
    b"p cnf 1 18446744073709551617\n1 0",
];

/// Texts that are refused 16: of the right form, and of which no book can be made.
pub fn too_large() -> Vec<Vec<u8>> {
    let long = |digits: usize| "9".repeat(digits);
    let mut texts: Vec<String> = vec![
        "p cnf 513 0".into(),
        "p cnf 1000 1\n1000 0".into(),
        "c\np cnf 65536 0\r\n".into(),
        "p cnf 4294967296 0\n".into(),
        "p cnf 18446744073709551616 1\n18446744073709551616 -18446744073709551615 0".into(),
        "p cnf 18446744073709552128 0".into(),
        format!("p cnf {0} 1\n{0} -{0} 0", long(600)),
        format!("p cnf {} 1\n1 {} 0", long(600), long(599)),
        format!("p cnf 1{} 1\n-{} 0", "0".repeat(40), long(40)),
    ];
    for clauses in [4096, 4097, 5000, 70_000] {
        texts.push(format!("p cnf 0 {clauses}\n{}", "0\n".repeat(clauses)));
    }
    // Weights of 4,097 and 4,098, and nodes over 4,095.
    for marks in [2048, 4094, 4095, 10_000] {
        texts.push(format!("p cnf 1 1\n{}0", "-1 ".repeat(marks)));
    }
    texts.push(format!("p cnf 1 4094\n1 {}", "0 ".repeat(4094)));
    texts.into_iter().map(String::into_bytes).collect()
}

/// Texts that would be refused 16 if their form were right.
pub fn large_and_of_another_form() -> Vec<Vec<u8>> {
    let long = |digits: usize| "9".repeat(digits);
    let texts: Vec<String> = vec![
        "p cnf 513 0\n0".into(),
        "p cnf 513 1\n514 0".into(),
        "p cnf 0513 0".into(),
        "p cnf 513 0 ".into(),
        // One more in the last digit, and one digit more, of numbers over 64 bits.
        "p cnf 18446744073709551616 1\n18446744073709551617 0".into(),
        format!("p cnf {} 1\n1{} 0", long(600), "0".repeat(600)),
        format!("p cnf {}8 1\n{} 0", long(599), long(600)),
        format!("p cnf 8{} 1\n-{} 0", long(599), long(600)),
        // As many as a book may have, and one over it.
        format!("p cnf 0 4096\n{}", "0\n".repeat(4095)),
        format!("p cnf 0 4096\n{}", "0\n".repeat(4097)),
        format!("p cnf 0 4096\n{}-0", "0\n".repeat(4095)),
        format!("p cnf 1 1\n{}", "1 ".repeat(10_000)),
        format!("p cnf 1 1\n{}0 1", "1 ".repeat(10_000)),
        format!("p cnf 1 1\n{}2 0", "1 ".repeat(10_000)),
        format!("p cnf 1 1\n{}0\r", "1 ".repeat(10_000)),
    ];
    texts.into_iter().map(String::into_bytes).collect()
}

/// Clause files at the limits: the last that are accepted.
pub fn just_accepted() -> Vec<ClauseFile> {
    let of = |options, clauses: Vec<Vec<i32>>| ClauseFile { options, clauses };
    let mut unit_first = vec![vec![]; 4093];
    unit_first[0] = vec![-1];
    vec![
        of(512, vec![]),
        // Weight 4,096, of clauses alone and of one clause and its marks.
        of(0, vec![vec![]; 4095]),
        of(512, vec![vec![]; 4095]),
        of(1, unit_first),
        of(512, vec![(1..=2047).map(|at| 1 + at % 512).collect()]),
        of(512, vec![vec![512, -1, 7]; 585]),
        of(3, vec![vec![-3]; 1365]),
    ]
}

/// "p cnf 10 3", and its book byte by byte.
pub const WHOLE_TEXT: &[u8] = b"c\np cnf 10 3\n-10 1 0\n0 2 0\n";
#[rustfmt::skip]
pub const WHOLE_BOOK: [u8; 162] = [
    10, 0, 3, 0, 6, 0, 0, 0,
    b'V', b'1', 0, 0, 0, 0, 0, 0, 0, 0, 0, 0, 0,
    b'V', b'2', 0, 0, 0, 0, 0, 0, 0, 0, 0, 0, 0,
    b'V', b'3', 0, 0, 0, 0, 0, 0, 0, 0, 0, 0, 0,
    b'V', b'4', 0, 0, 0, 0, 0, 0, 0, 0, 0, 0, 0,
    b'V', b'5', 0, 0, 0, 0, 0, 0, 0, 0, 0, 0, 0,
    b'V', b'6', 0, 0, 0, 0, 0, 0, 0, 0, 0, 0, 0,
    b'V', b'7', 0, 0, 0, 0, 0, 0, 0, 0, 0, 0, 0,
    b'V', b'8', 0, 0, 0, 0, 0, 0, 0, 0, 0, 0, 0,
    b'V', b'9', 0, 0, 0, 0, 0, 0, 0, 0, 0, 0, 0,
    b'V', b'1', b'0', 0, 0, 0, 0, 0, 0, 0, 0, 0, 0,
    0, 0, 3, 0,  3, 0, 1, 0,  4, 0, 2, 0,
    0x02, 0x40, 0x09, 0x20, 0x00, 0x10,  0x00, 0x40,  0x01, 0x40, 0x01, 0x10,
];
