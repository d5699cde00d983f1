//! The time of the library's book check and code lookup next to plain Rust's by the same
//! methods, and to the Rust reference's.
//!
//!     tools/build-library                                         at the repository's top
//!     cd bench/books && cargo run --release --offline --locked

#[path = "../../sheets/src/at_least.rs"]
mod at_least;
#[path = "../../../tests/rust/src/at_leasts.rs"]
#[allow(dead_code)]
mod at_leasts;
#[path = "../../../tests/rust/src/books.rs"]
#[allow(dead_code)]
mod books;
#[path = "../../sheets/src/families.rs"]
#[allow(dead_code)]
mod families;
#[path = "../../../tests/rust/src/ffi.rs"]
#[allow(dead_code)]
mod ffi;
#[path = "../../sheets/src/nests.rs"]
#[allow(dead_code)]
mod nests;
#[path = "../../sheets/src/nodes.rs"]
#[allow(dead_code)]
mod nodes;
mod plain;
#[path = "../../../tests/rust/src/random.rs"]
#[allow(dead_code)]
mod random;
#[path = "../../../tests/rust/src/reference.rs"]
mod reference;

use books::{characters, codes, node, Book, Likeness, Shape, Size, ALL_OF};
use random::Random;
use std::hint::black_box;
use std::time::{Duration, Instant};

/// Samples of each side; odd, so that one of them is the median.
const SAMPLES: usize = 301;

/// The most that a book may weigh, and how many times plain Rust's time a check of one with
/// at-leasts may take.
const FULL: usize = 4096;
const BAR: f64 = 3.0;

/// The least time of one sample: so short that most samples are not interrupted.
const SAMPLE: Duration = Duration::from_micros(100);

/// Nanoseconds for one call, over so many calls.
fn sample(calls: u32, call: &dyn Fn() -> u64) -> f64 {
    let start = Instant::now();
    for _ in 0..calls {
        black_box(call());
    }
    start.elapsed().as_nanos() as f64 / f64::from(calls)
}

/// As many calls as take the least time of a sample; they warm the caches too.
fn calls_for_sample(call: &dyn Fn() -> u64) -> u32 {
    let mut calls = 1;
    while sample(calls, call) * f64::from(calls) < SAMPLE.as_nanos() as f64 {
        calls *= 2;
    }
    calls
}

fn median(mut times: Vec<f64>) -> f64 {
    times.sort_by(f64::total_cmp);
    times[times.len() / 2]
}

/// Measures the sides in turn, and prints one line: the library, then the others, each with
/// the library's ratio to it. Answers the ratio to plain Rust.
fn compare(what: &str, sides: [&dyn Fn() -> u64; 3]) -> f64 {
    for side in sides {
        assert_eq!(side(), sides[0](), "{what}: the answers differ");
    }
    let calls = sides.map(calls_for_sample);
    let mut times = sides.map(|_| Vec::new());
    for _ in 0..SAMPLES {
        for (k, side) in sides.into_iter().enumerate() {
            times[k].push(sample(calls[k], side));
        }
    }
    let [ours, plain, reference] = times.map(median);
    println!(
        "{what:<64}{ours:>9.0}{plain:>9.0}{:>7.2}{reference:>11.0}{:>7.2}",
        ours / plain,
        ours / reference
    );
    ours / plain
}

fn check(what: &str, book: &Book, due: u64) {
    check_bytes(what, &book.bytes(), due);
}

/// The library's ratio to plain Rust.
fn check_bytes(what: &str, bytes: &[u8], due: u64) -> f64 {
    assert_eq!(ffi::book_check(bytes), due, "{what}: not the answer due");
    compare(
        &format!("check   {what}"),
        [
            &|| ffi::book_check(black_box(bytes)),
            &|| plain::book_check(black_box(bytes)),
            &|| reference::book_check(black_box(bytes)),
        ],
    )
}

/// The families with at-leasts, accepted and with the last member's option named before; prints
/// whether all of them are within the bar.
fn check_at_leasts() {
    let mut worst = (0.0, String::new());
    for family in at_least::families() {
        let rules = (family.make)(FULL);
        let bytes = nodes::book(rules.options, &rules.bodies);
        let ratio = check_bytes(&format!("{}, weight 4,096", family.name), &bytes, 0);
        if ratio > worst.0 {
            worst = (ratio, family.name);
        }
    }
    let twice = named_twice();
    let ratio = check_bytes("at least 32 of 63, an option twice (refused 5)", &twice, 5);
    if ratio > worst.0 {
        worst = (ratio, "an option twice".to_string());
    }
    let met = if worst.0 <= BAR { "met" } else { "MISSED" };
    println!(
        "With at-leasts at most {BAR} times plain Rust: {met}, {:.2} at worst ({}).",
        worst.0, worst.1
    );
}

/// As many at-leasts of 63 as fit, of which the last names its first option at its end again.
fn named_twice() -> Vec<u8> {
    let mut body = vec![nodes::at_least(32, 63)];
    body.extend((0..63).map(|option| nodes::literal(option, false)));
    let mut bodies = vec![body; (FULL - 1) / 127];
    let last = bodies.last_mut().expect("one at least");
    last[63] = nodes::literal(0, true);
    nodes::book(512, &bodies)
}

fn look_up(what: &str, book: &Book, code: &[u8]) {
    let bytes = book.bytes();
    compare(
        &format!("lookup  {what}"),
        [
            &|| ffi::code_lookup(black_box(&bytes), black_box(code)),
            &|| plain::code_lookup(black_box(&bytes), black_box(code)),
            &|| reference::code_lookup(black_box(&bytes), black_box(code)),
        ],
    );
}

fn say_what_is_measured() {
    println!(
        "Book check and code lookup: the library through its C interface against plain Rust by"
    );
    println!(
        "the same methods, and against the Rust reference of the tests. One process, one thread."
    );
    println!("Nanoseconds for one call: the median of {SAMPLES} samples of at least");
    println!("{} us, the sides in turn.", SAMPLE.as_micros());
    println!("The books are made before the clock starts and read again in every call, so the");
    println!("caches are warm; nothing is cleared between calls, and no call writes a buffer.");
    println!("A lookup checks the whole book first. The reference finds equal codes by a hash set");
    println!("and allocates; the library and the plain Rust allocate nothing.");
    println!();
    println!(
        "{:<64}{:>9}{:>9}{:>7}{:>11}{:>7}",
        "", "library", "plain", "ratio", "reference", "ratio"
    );
}

/// The document's first case: 48 bytes.
fn first_case() {
    let first = Book::new(
        vec![books::code(b"P"), books::code(b"Q")],
        &[vec![0x4002, 0x1000, 0x3002, 0x1000, 0x1001]],
    );
    check("2 codes, 1 rule, 5 nodes (48 bytes)", &first, 0);
    look_up("the second code of that book", &first, b"Q");
}

/// Codes alone: 512 that are alike but for their ends, and others.
fn codes_alone(random: &mut Random, ends: &[books::Code]) {
    let alike = Book::new(ends.to_vec(), &[]);
    check(
        "512 codes alike but for their last two characters",
        &alike,
        0,
    );
    for (what, likeness) in [
        ("alike but for their first two characters", Likeness::Starts),
        ("alike but for their first and last", Likeness::Last),
        ("that begin one another", Likeness::Prefixes),
        ("of one or two characters", Likeness::Short),
        ("of any characters", Likeness::Any),
    ] {
        let book = Book::new(codes(random, 512, likeness), &[]);
        check(&format!("512 codes {what}"), &book, 0);
    }
    let mut twice = ends.to_vec();
    twice[0] = twice[511];
    check(
        "512 codes alike, the first again at the end (refused 3)",
        &Book::new(twice, &[]),
        3,
    );
}

/// As many rules of one node as a book has room for.
fn single_rules() -> Vec<Vec<u16>> {
    vec![vec![node(ALL_OF, 0)]; 4095]
}

fn bodies_alone() {
    let mut flat = vec![node(ALL_OF, 0); 4095];
    flat[0] = node(ALL_OF, 4094);
    check("4,095 nodes, one flat rule", &Book::new(vec![], &[flat]), 0);
    let mut nest = vec![node(ALL_OF, 1); 4095];
    nest[4094] = node(ALL_OF, 0);
    check(
        "4,095 nodes, one rule nested as deep as can be",
        &Book::new(vec![], &[nest]),
        0,
    );
    let single = Book::new(vec![], &single_rules());
    check("4,095 nodes, 4,095 rules", &single, 0);
}

fn codes_and_bodies(random: &mut Random, ends: &[books::Code]) {
    let full = Book::new(ends.to_vec(), &single_rules());
    check(
        "512 codes alike, 4,095 rules and nodes (31,234 bytes)",
        &full,
        0,
    );
    look_up("the first code of that book", &full, characters(&ends[0]));
    look_up("the last code of that book", &full, characters(&ends[511]));
    let mut gone = ends[511];
    gone[12] = 0;
    look_up("no code of that book (refused 7)", &full, characters(&gone));
    let size = Size {
        options: 512,
        rules: 100,
        nodes: 2200,
        marks: 1895,
    };
    let mixed = books::book(random, size, Likeness::Ends, Shape::Any);
    check("512 codes alike, 100 rules, weight 4,096", &mixed, 0);
    let mut heavy = mixed.clone();
    let leaf = heavy
        .nodes
        .iter()
        .position(|&node| node % 4096 == 0 && node / 4096 > 2);
    heavy.nodes[leaf.expect("an empty all-of or any-of")] = node(books::OPTION, 0);
    check("the same, weight 4,097 (refused 6)", &heavy, 6);
}

fn main() {
    let random = &mut Random::new(1);
    say_what_is_measured();
    first_case();
    let ends = codes(random, 512, Likeness::Ends);
    codes_alone(random, &ends);
    bodies_alone();
    codes_and_bodies(random, &ends);
    check_at_leasts();
}
