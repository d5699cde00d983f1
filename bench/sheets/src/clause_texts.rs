//! The clause files that imports are timed on: long ones of every kind, in which the text is
//! what costs, and such that make a book of full size.

use crate::random::Random;
use std::fmt::Write;

/// A clause file, with what its import is refused, 0 where it is accepted.
pub struct ClauseText {
    pub name: &'static str,
    pub refusal: u64,
    pub text: Vec<u8>,
}

/// The length of the longest book: 512 codes, 4,095 clauses without marks.
pub const LONGEST_BOOK: usize = 8 + 13 * 512 + 4 * 4095 + 2 * 4095;

/// How much of a text is comments, blanks or numbers, where these are many.
const MEGABYTE: usize = 1 << 20;

/// A clause: the numbers of its options, barred or not, without the 0 that closes it.
type Clause = Vec<i32>;

/// As many clauses of as many random marks of 512 options.
fn clauses(count: usize, marks: usize) -> Vec<Clause> {
    let random = &mut Random::new(7);
    let clause = |_| {
        let mark = |_| {
            let option = random.within(1, 512) as i32;
            random.pick(&[option, -option])
        };
        (0..marks).map(mark).collect()
    };
    (0..count).map(clause).collect()
}

/// A text: what stands before the p line, the clauses, what parts two numbers, what follows a 0.
fn text(before: &str, options: usize, clauses: &[Clause], blank: &str, end: &str) -> Vec<u8> {
    let line_end = if end.ends_with("\r\n") { "\r\n" } else { "\n" };
    let mut text = format!("{before}p cnf {options} {}{line_end}", clauses.len());
    for clause in clauses {
        for mark in clause {
            write!(text, "{mark}{blank}").expect("a string");
        }
        write!(text, "0{end}").expect("a string");
    }
    text.into_bytes()
}

/// A clause a line, single spaces, after such comments.
fn usual(comments: &str, clauses: &[Clause]) -> Vec<u8> {
    text(comments, 512, clauses, " ", "\n")
}

/// A megabyte of comment lines of so many bytes each, the line end among them.
fn comments(length: usize) -> String {
    let words = " words of a comment".repeat(length);
    let line = format!("c{}\n", &words[..length - 2]);
    line.repeat(MEGABYTE / length)
}

/// Clauses of 3 with a megabyte of blanks between their numbers.
fn with_blanks(blanks: &str) -> Vec<u8> {
    let clauses = clauses(585, 3);
    let share = MEGABYTE / (585 * 4) / blanks.len();
    let blanks = blanks.repeat(share);
    text("", 512, &clauses, &blanks, &blanks)
}

/// A text with other bytes at its end.
fn ending(mut text: Vec<u8>, end: &str) -> Vec<u8> {
    text.extend(end.as_bytes());
    text
}

/// A megabyte of numbers of 600 digits, in one clause; V has as many and is the greatest of them
/// but for one, where that is asked for.
fn long_numbers(is_one_over: bool) -> Vec<u8> {
    let most = "8".repeat(600);
    let number = format!("{}7 -{most} ", "8".repeat(599));
    let numbers = number.repeat(MEGABYTE / number.len());
    let last = if is_one_over { "9" } else { "8" };
    format!("p cnf {most} 1\n{numbers}{}{last} 0\n", "8".repeat(599)).into_bytes()
}

/// A file as the libraries of test problems have them, but with single spaces and no trailer.
fn test_problem() -> Vec<u8> {
    let mut clauses = clauses(218, 3);
    for mark in clauses.iter_mut().flatten() {
        *mark = mark.signum() * (1 + mark.abs() % 50);
    }
    let before =
        "c This formula is generated\nc\nc    horn? no\nc    forced? no\nc    mixed sat? no\n\
                  c    clause length = 3\nc\n";
    text(before, 50, &clauses, " ", "\n")
}

/// Every text.
pub fn all() -> Vec<ClauseText> {
    let mut texts = with_comments();
    texts.extend(without_comments());
    texts.extend(with_many_blanks());
    texts.extend(refused());
    texts
}

fn named<const COUNT: usize>(texts: [(&'static str, u64, Vec<u8>); COUNT]) -> Vec<ClauseText> {
    let named = |(name, refusal, text)| ClauseText {
        name,
        refusal,
        text,
    };
    texts.map(named).into()
}

/// 4,000 numbers, of which a book can be made: such a weight allows few marks.
fn mostly_zeros() -> Vec<Clause> {
    let mut all = clauses(95, 1);
    all.resize(3905, Vec::new());
    all
}

/// How the names of the texts begin that are mostly comments.
pub const MOSTLY_COMMENTS: &str = "1 MB of comments";

fn with_comments() -> Vec<ClauseText> {
    let lines = comments(80);
    let one_line = format!("c{}\n", "x".repeat(MEGABYTE));
    named([
        (
            "1 MB of comments, 4,000 numbers (1,000 clauses of 3)",
            16,
            usual(&lines, &clauses(1000, 3)),
        ),
        (
            "1 MB of comments, 4,000 numbers (3,905 of them 0)",
            0,
            usual(&lines, &mostly_zeros()),
        ),
        (
            "1 MB of comments, 585 clauses of 3",
            0,
            usual(&lines, &clauses(585, 3)),
        ),
        (
            "1 MB of comments in one line, 585 clauses of 3",
            0,
            usual(&one_line, &clauses(585, 3)),
        ),
        (
            "1 MB of comments that are c alone, 585 clauses of 3",
            0,
            usual(&"c\n".repeat(MEGABYTE / 2), &clauses(585, 3)),
        ),
    ])
}

fn without_comments() -> Vec<ClauseText> {
    named([
        (
            "4,000 numbers (3,905 of them 0)",
            0,
            usual("", &mostly_zeros()),
        ),
        ("585 clauses of 3", 0, usual("", &clauses(585, 3))),
        (
            "585 clauses of 3, lines end with 13 and 10",
            0,
            text("c\r\n", 512, &clauses(585, 3), " ", "\r\n"),
        ),
        ("4,095 clauses of 0", 0, usual("", &clauses(4095, 0))),
        ("1,365 clauses of 1", 0, usual("", &clauses(1365, 1))),
        ("one clause of 2,047", 0, usual("", &clauses(1, 2047))),
        ("512 options, no clause", 0, usual("", &[])),
        ("50 options, 218 clauses of 3", 0, test_problem()),
    ])
}

fn with_many_blanks() -> Vec<ClauseText> {
    named([
        ("1 MB of spaces, 585 clauses of 3", 0, with_blanks(" ")),
        (
            "1 MB of spaces and tabs, 585 clauses of 3",
            0,
            with_blanks(" \t"),
        ),
        ("1 MB of line ends, 585 clauses of 3", 0, with_blanks("\n")),
        (
            "1 MB of line ends of 13 and 10, 585 clauses of 3",
            0,
            with_blanks("\r\n"),
        ),
    ])
}

fn refused() -> Vec<ClauseText> {
    let many = usual("", &clauses(70_500, 3));
    named([
        (
            "4,000 numbers (1,000 clauses of 3)",
            16,
            usual("", &clauses(1000, 3)),
        ),
        (
            "4,000 numbers (3,905 of them 0), one more at the end",
            15,
            ending(usual("", &mostly_zeros()), "1"),
        ),
        (
            "1 MB of comments, 585 clauses of 3, one more at the end",
            15,
            ending(usual(&comments(80), &clauses(585, 3)), "0"),
        ),
        ("1 MB of numbers", 16, many.clone()),
        (
            "1 MB of numbers, another byte at the end",
            15,
            ending(many, "%"),
        ),
        ("1 MB of numbers of 600 digits", 16, long_numbers(false)),
        (
            "1 MB of numbers of 600 digits, the last over V",
            15,
            long_numbers(true),
        ),
    ])
}
