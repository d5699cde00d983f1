//! Imports: the library against plain Rust on random clause files, whole and damaged, and their
//! times on long ones.

use crate::clause_files::{long_numbers, scramble, scribbled, ClauseFile, FAULTS};
use crate::clause_texts::{self, ClauseText, LONGEST_BOOK};
use crate::ffi;
use crate::measure::{medians, seconds, Noise, Side};
use crate::plain::import::{import, import_by_blocks};
use crate::plain_check;
use crate::random::Random;
use std::collections::BTreeMap;

/// Imports a text into an output: the answer.
pub type Import = fn(&[u8], &mut [u8]) -> u64;

/// The library, plain Rust, and plain Rust that looks for the ends of comments by blocks.
const SIDES: [Import; 3] = [ffi::import, import, import_by_blocks];

/// How often each refusal was given, 0 where a text was accepted.
pub type Seen = BTreeMap<u64, u64>;

/// What one text took.
pub struct Row {
    pub name: &'static str,
    pub refusal: u64,
    pub bytes: usize,
    /// Seconds, in the order of the sides.
    pub times: [f64; 3],
}

impl Row {
    /// The library's time over plain Rust's.
    pub fn ratio(&self) -> f64 {
        self.times[0] / self.times[1]
    }

    pub fn is_mostly_comments(&self) -> bool {
        self.name.starts_with(clause_texts::MOSTLY_COMMENTS)
    }
}

/// Imports a text by all sides, into outputs of this length that held something: the answer and
/// the output, which must be the same. What is refused writes nothing, what is accepted is a
/// book, and nothing is written past it.
fn imported(text: &[u8], room: usize) -> (u64, Vec<u8>) {
    let [ours, plain, by_blocks] = SIDES.map(|import| {
        let mut out = vec![0xA5; room];
        (import(text, &mut out), out)
    });
    if ours != plain || ours != by_blocks {
        let answers = [&ours, &plain, &by_blocks].map(|side| side.0);
        stop(&format!("the imports differ: {answers:?}"), text, room);
    }
    let (answer, out) = ours;
    let (book, past) = out.split_at((answer >> 8) as usize);
    if past.iter().any(|&byte| byte != 0xA5) {
        stop("an import wrote where nothing is due", text, room);
    }
    if answer % 256 == 0 && plain_check::book_check(book) != 0 {
        stop("an import made what is no book", text, room);
    }
    (answer, out)
}

/// Stops with the case that differs.
fn stop(what: &str, text: &[u8], room: usize) -> ! {
    panic!("{what}\n{room} bytes of room for: {}", text.escape_ascii());
}

/// Imports a text: its refusal, which is noted.
fn noted(text: &[u8], room: usize, seen: &mut Seen) -> u64 {
    let refusal = imported(text, room).0 % 256;
    *seen.entry(refusal).or_default() += 1;
    refusal
}

/// A file of about this weight, at most one over it.
fn of_weight(random: &mut Random, weight: usize) -> ClauseFile {
    let marks = random.below(weight / 2);
    let clauses = (weight - 1 - 2 * marks).max(1);
    let options = random.pick(&[1, 2, 50, 511, 512, 513]);
    ClauseFile::any(random, options, clauses, marks)
}

/// Compares imports of a file: of a text of it, where the room just suffices too and where it does
/// not; of one with something wrong; of one with some bytes changed; of some words, and of long
/// numbers.
fn compare(random: &mut Random, file: &ClauseFile, seen: &mut Seen) {
    let mut text = file.text(random);
    if file.fits() {
        let due = file.book().bytes();
        let (answer, book) = imported(&text, due.len());
        assert_eq!(answer, (due.len() as u64) << 8, "not the length due");
        assert!(book == due, "not the book due: {}", text.escape_ascii());
        assert_eq!(noted(&text, random.below(due.len()), seen), 12);
    }
    let due = if file.fits() { 0 } else { 16 };
    assert_eq!(noted(&text, LONGEST_BOOK, seen), due);
    let fault = random.pick(&FAULTS);
    let damaged = file.damaged(random, fault);
    assert_eq!(noted(&damaged, LONGEST_BOOK, seen), 15, "{fault:?}");
    scramble(random, &mut text);
    noted(&text, LONGEST_BOOK, seen);
    noted(&scribbled(random), LONGEST_BOOK, seen);
    noted(&long_numbers(random), LONGEST_BOOK, seen);
}

/// Compares imports of random files, small ones and such that are at a limit.
pub fn random_files(random: &mut Random, small: usize, full: usize, seen: &mut Seen) {
    for _ in 0..small {
        let file = ClauseFile::small(random);
        compare(random, &file, seen);
    }
    for _ in 0..full {
        let weight = random.within(4092, 4100);
        let file = of_weight(random, weight);
        compare(random, &file, seen);
    }
}

/// Measures every text whose name holds this one.
pub fn measured(only: &str, noise: &mut Noise) -> Vec<Row> {
    let mut texts = clause_texts::all();
    texts.retain(|text| text.name.contains(only));
    let row = |text: &ClauseText| {
        noise.sample();
        let row = row(text);
        eprintln!("{}: {:.2} times plain Rust", row.name, row.ratio());
        row
    };
    texts.iter().map(row).collect()
}

/// Compares the sides on a text, then times them in turn.
fn row(text: &ClauseText) -> Row {
    let (answer, _) = imported(&text.text, LONGEST_BOOK);
    assert_eq!(answer % 256, text.refusal, "{}", text.name);
    let mut calls = SIDES.map(|import| {
        let mut out = vec![0; LONGEST_BOOK];
        move || seconds(|| import(&text.text, &mut out))
    });
    let sides = calls.iter_mut().map(|call| call as Side);
    Row {
        name: text.name,
        refusal: text.refusal,
        bytes: text.text.len(),
        times: medians(sides.collect()).try_into().expect("a time a side"),
    }
}
