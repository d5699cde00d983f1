//! An earlier build of the library beside the one of now, in one process: first every answer is
//! compared, and a difference stops the benchmark with the case printed (where one of the two does
//! not know node kind 6, calls that speak of it are left out; where one knows no index of mentions,
//! the other one is lent a right one, and what it leaves there is held to plain Rust's count; where
//! one imports no clause files, the other one's imports are held to plain Rust's; where one is asked
//! with the sheet alone whether an order is complete, the other is held to plain Rust's answer, and
//! what is complete for the one must be so for the other); then every call is timed, the two in
//! turn, with a copy of the earlier one as a third, whose time tells the noise, and each at several
//! places in memory.
//!
//!     tools/build-library                                         at the repository's top
//!     bench/before COMMIT [FLAGS]                                 runs this with the first four
//!
//!     --before FILE       the earlier library, an archive
//!     --earlier TEXT      what the text calls it
//!     --after FILE        the library of now, an archive
//!     --now TEXT          what the text calls it
//!     --doc FILE          put the text between the marks of this file too
//!     --bar LIST          how many times slower a call may be (1.1), with commas; a call with a bar
//!                         of its own is named as in the tables: 1.1,step=2,keying=2. Where the
//!                         two are asked differently whether an order is complete, this call has
//!                         no bar but its own
//!     --only TEXT         time only the families and clause files whose names hold this text
//!     --seed NUMBER       of the random books, sheets, orders and clause files (1)
//!     --count FILE.so     only make every call once, by this library and by plain Rust:
//!                         bench/instructions runs this under callgrind

#[path = "../../sheets/src/answers.rs"]
#[allow(dead_code)]
mod answers;
#[path = "../../sheets/src/at_least.rs"]
mod at_least;
mod at_least_calls;
#[path = "../../../tests/rust/src/at_leasts.rs"]
#[allow(dead_code)]
mod at_leasts;
mod bars;
#[path = "../../../tests/rust/src/books.rs"]
#[allow(dead_code)]
mod books;
mod calls;
mod cases;
mod changes;
#[path = "../../../tests/rust/src/clause_files.rs"]
#[allow(dead_code)]
mod clause_files;
#[path = "../../sheets/src/clause_texts.rs"]
#[allow(dead_code)]
mod clause_texts;
mod comparing;
mod completes;
mod counting;
mod damage;
#[path = "../../sheets/src/families.rs"]
#[allow(dead_code)]
mod families;
#[path = "../../sheets/src/figures.rs"]
mod figures;
mod imports;
mod library;
mod limits;
#[path = "../../sheets/src/marks.rs"]
mod marks;
#[path = "../../sheets/src/measure.rs"]
#[allow(dead_code)]
mod measure;
#[path = "../../sheets/src/nests.rs"]
mod nests;
#[path = "../../sheets/src/nodes.rs"]
#[allow(dead_code)]
mod nodes;
#[path = "../../sheets/src/orders.rs"]
#[allow(dead_code)]
mod orders;
mod places;
#[path = "../../sheets/src/plain/mod.rs"]
#[allow(dead_code)]
mod plain;
#[path = "../../books/src/plain.rs"]
mod plain_check;
#[path = "../../../tests/rust/src/random.rs"]
#[allow(dead_code)]
mod random;
#[path = "../../sheets/src/random_books.rs"]
mod random_books;
#[path = "../../../tests/rust/src/reference.rs"]
#[allow(dead_code)]
mod reference;
mod scenes;
mod text;
mod timing;

use bars::Bars;
use calls::Call;
use cases::Case;
use clause_texts::ClauseText;
use comparing::Comparing;
use families::families;
use library::Library;
use measure::Noise;
use places::placed;
use random::Random;
use std::path::Path;
use std::{env, fs, process};
use text::{Cell, Measured};
use timing::Sides;

/// The families whose books are made too heavy: flat rules, and nests.
const TOO_HEAVY: [&str; 2] = ["clauses of 3", "random nests, plain"];

struct Flags {
    before: String,
    earlier: String,
    after: String,
    now: String,
    doc: Option<String>,
    bars: Bars,
    only: String,
    seed: u64,
    count: Option<String>,
}

fn flags() -> Flags {
    let mut flags = Flags {
        before: String::new(),
        earlier: String::from("an earlier build"),
        after: String::new(),
        now: String::from("the build of now"),
        doc: None,
        bars: Bars::new(),
        only: String::new(),
        seed: 1,
        count: None,
    };
    let mut words = env::args().skip(1);
    while let Some(flag) = words.next() {
        let word = words
            .next()
            .unwrap_or_else(|| panic!("{flag} wants a value"));
        match flag.as_str() {
            "--before" => flags.before = word,
            "--earlier" => flags.earlier = word,
            "--after" => flags.after = word,
            "--now" => flags.now = word,
            "--doc" => flags.doc = Some(word),
            "--bar" => flags.bars.set(&word),
            "--only" => flags.only = word,
            "--seed" => flags.seed = word.parse().expect("a whole number"),
            "--count" => flags.count = Some(word),
            _ => panic!("no flag {flag}"),
        }
    }
    flags
}

/// Links and opens the libraries, all in the same way, and the earlier one twice.
fn opened(flags: &Flags) -> Sides {
    let folder = env::temp_dir().join(format!("nibdrumlin-versions-{}", process::id()));
    fs::create_dir(&folder).expect("a folder to link in");
    let sides = Sides {
        before: placed(&folder, "before", &flags.before),
        after: placed(&folder, "after", &flags.after),
        copy: placed(&folder, "copy", &flags.before),
    };
    fs::remove_dir_all(&folder).expect("the folder is removed");
    sides
}

/// Compares every call on random books, sheets, orders and clause files, on those of the families,
/// and at the limits; what was seen, as a sentence.
fn compared(sides: &Sides, seed: u64) -> String {
    let random = &mut Random::new(seed);
    let comparing = &mut Comparing::new(&sides.before[0], &sides.after[0]);
    for (weight, count) in [(12, 4000), (40, 2000), (150, 600), (600, 150)] {
        for _ in 0..count {
            let lent = scenes::random_lent(random, weight, comparing.at_leasts);
            comparing.follow(random, lent, 4);
        }
    }
    limits::random_weights(comparing, random, 300);
    imports::weights(comparing, random, 300);
    for family in families() {
        limits::sizes(comparing, random, &family);
        limits::weights(comparing, random, &family);
        limits::room(comparing, random, &family);
        for weight in [64, 4096] {
            limits::counts(comparing, random, &family, weight);
        }
    }
    comparing.said()
}

/// Times some cases of a family, or of a clause file.
fn cells(sides: &Sides, bars: &Bars, family: &str, cases: Vec<Case>) -> Vec<Cell> {
    let cell = |case: Case| Cell {
        call: case.name,
        family: family.to_string(),
        refusal: case.refusal,
        times: timing::times(sides, case.call, &case.lent, bars.of(case.name)),
    };
    eprintln!("{family}: {} calls", cases.len());
    cases.into_iter().map(cell).collect()
}

/// Times imports, if both sides have them.
fn imports_measured(sides: &Sides, flags: &Flags, noise: &mut Noise) -> Vec<Cell> {
    let library = &sides.before[0];
    if !library.has_import() || !sides.after[0].has_import() {
        return Vec::new();
    }
    let mut texts = clause_texts::all();
    texts.retain(|text| text.name.contains(&flags.only));
    let of_text = |text: ClauseText| {
        noise.sample();
        let name = text.name;
        let case = cases::of_clause_text(library, text);
        cells(sides, &flags.bars, name, vec![case])
    };
    texts.into_iter().flat_map(of_text).collect()
}

fn measured(sides: &Sides, flags: &Flags, noise: &mut Noise) -> Measured {
    let (mut in_families, mut refused) = (Vec::new(), Vec::new());
    let library = &sides.before[0];
    let with_index = library.has_index() && sides.after[0].has_index();
    for family in families() {
        noise.sample();
        if family.name.contains(&flags.only) {
            let cases = cases::of_family(library, &family, with_index);
            in_families.extend(cells(sides, &flags.bars, &family.name, cases));
        }
        if TOO_HEAVY.contains(&family.name.as_str()) {
            let cases = cases::refused_for_weight(library, &family);
            refused.extend(cells(sides, &flags.bars, &family.name, cases));
        }
    }
    noise.sample();
    assert!(!in_families.is_empty(), "no family is named so");
    let measured = Measured {
        families: in_families,
        imports: imports_measured(sides, flags, noise),
        refused,
    };
    for call in flags.bars.named() {
        let is_timed = measured.calls().contains(&call);
        assert!(is_timed, "no call {call:?} has a time");
    }
    measured
}

/// Frees the "complete" question of the usual bar where the two sides are asked it differently:
/// then it does more on one of them.
fn free_complete(sides: &Sides, bars: &mut Bars) {
    if sides.before[0].judges_order() != sides.after[0].judges_order() {
        bars.free(Call::Complete.name());
        bars.free(cases::COMPLETE_SETTLED);
    }
}

fn main() {
    let mut flags = flags();
    if let Some(library) = &flags.count {
        counting::every_call(&Library::open(Path::new(library)), &flags.only);
        return;
    }
    let sides = opened(&flags);
    free_complete(&sides, &mut flags.bars);
    let compared = compared(&sides, flags.seed);
    eprintln!("{compared}");
    let noise = &mut Noise::new();
    let measured = measured(&sides, &flags, noise);
    let names = [&*flags.earlier, &*flags.now];
    let text = text::whole(names, &compared, &noise.said(), &measured, &flags.bars);
    println!("{text}");
    if let Some(file) = &flags.doc {
        marks::put(file, text::MARK, &text);
    }
}
