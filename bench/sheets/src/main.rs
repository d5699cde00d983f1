//! The time of checks, loads, indexes, runs, reports, keyings, withdrawals and the "complete"
//! question on full-size books, and of imports of clause files, through the library's C interface,
//! next to plain Rust's in the same process.  Every answer is compared first; a difference stops
//! the benchmark with the case printed.
//!
//!     tools/build-library                                         at the repository's top
//!     cd bench/sheets && cargo run --release --offline --locked -- [FLAGS]
//!
//!     --doc FILE          put the tables between the marks of this file too
//!     --svg FILE          draw the plot
//!     --patience SECONDS  stop a run of the library that would take longer (20)
//!     --weights LIST      the weights, with commas (1024,2048,4096)
//!     --only TEXT         only the families and clause files whose names hold this text
//!     --seed NUMBER       of the random sheets and clause files (1)
//!     --searches NUMBER   only compare the two searches on so many random sheets

mod answers;
mod at_least;
#[path = "../../../tests/rust/src/at_leasts.rs"]
#[allow(dead_code)]
mod at_leasts;
mod bars;
#[path = "../../../tests/rust/src/books.rs"]
#[allow(dead_code)]
mod books;
#[cfg(test)]
#[path = "../../../tests/rust/src/clause_examples.rs"]
mod clause_examples;
#[path = "../../../tests/rust/src/clause_files.rs"]
mod clause_files;
mod clause_texts;
mod clauses;
mod compare;
mod completes;
mod document;
mod families;
mod ffi;
mod figures;
#[cfg(test)]
mod import_tests;
mod imports;
mod keyings;
mod marks;
mod measure;
mod nests;
mod nodes;
mod orders;
mod plain;
#[path = "../../books/src/plain.rs"]
#[allow(dead_code)]
mod plain_check;
mod plot;
#[path = "../../../tests/rust/src/random.rs"]
#[allow(dead_code)]
mod random;
mod random_books;
#[path = "../../../tests/rust/src/reference.rs"]
#[allow(dead_code)]
mod reference;
#[cfg(test)]
#[path = "../../../tests/rust/src/reference_import.rs"]
mod reference_import;
mod rows;
mod searches;
mod tables;
#[cfg(test)]
mod tests;
mod toys;

use random::Random;
use rows::Row;
use std::fs;

/// The desk's budget, and the comb that it stops at.
const BUDGET: u64 = 100_000;
const STOPPED: usize = 2200;

struct Flags {
    doc: Option<String>,
    svg: Option<String>,
    patience: f64,
    weights: Vec<usize>,
    only: String,
    seed: u64,
    searches: Option<usize>,
}

fn flags() -> Flags {
    let mut flags = Flags {
        doc: None,
        svg: None,
        patience: 20.0,
        weights: vec![1024, 2048, 4096],
        only: String::new(),
        seed: 1,
        searches: None,
    };
    let mut words = std::env::args().skip(1);
    while let Some(flag) = words.next() {
        let word = words
            .next()
            .unwrap_or_else(|| panic!("{flag} wants a value"));
        let number = || {
            word.parse()
                .unwrap_or_else(|_| panic!("{flag} wants a number"))
        };
        match flag.as_str() {
            "--doc" => flags.doc = Some(word),
            "--svg" => flags.svg = Some(word),
            "--patience" => flags.patience = number() as f64,
            "--weights" => {
                let weights = word.split(',').map(|word| word.parse().expect("a weight"));
                flags.weights = weights.collect();
            }
            "--only" => flags.only = word,
            "--seed" => flags.seed = number() as u64,
            "--searches" => flags.searches = Some(number()),
            _ => panic!("no flag {flag}"),
        }
    }
    flags
}

fn sheet_of(rules: &families::Rules) -> [u16; nodes::LENGTH] {
    compare::loaded(&nodes::book(rules.options, &rules.bodies))
}

/// Weights of random sheets, most of them small; one sheet in so many has each.
const SPREAD: [(usize, usize); 6] = [(12, 4), (20, 4), (40, 4), (100, 8), (250, 30), (800, 200)];

/// The two searches on random sheets and on small books of each family, and steps of any kind;
/// what was seen, as a sentence.
fn searches(seed: u64, sheets: usize) -> String {
    let random = &mut Random::new(seed);
    let (mut followed, mut any) = (searches::Steps::default(), searches::Steps::default());
    for (weight, share) in SPREAD {
        searches::random_searches(random, sheets / share, weight, &mut followed);
        searches::random_steps(random, sheets / share, weight.min(250), &mut any);
    }
    for family in all_families() {
        for weight in [64, 100, 256] {
            searches::follow(&sheet_of(&(family.make)(weight)), &mut followed);
        }
    }
    format!(
        "Searches by bounds and by every place agree on {} steps (rules 1 to 17: {}) of random \
         sheets (seed {seed}) and small books of each family. After {} steps that need not be \
         the strategy's (rules 1 to 17: {}) every bound is right.",
        figures::count(followed.iter().sum()),
        by_rule(followed),
        figures::count(any.iter().sum()),
        by_rule(any)
    )
}

/// The steps of each rule, which must all have been met.
fn by_rule(steps: searches::Steps) -> String {
    let missed = (1..steps.len()).filter(|&rule| steps[rule] == 0);
    assert_eq!(missed.collect::<Vec<_>>(), [], "rules that no step was of");
    let steps = steps[1..].iter().map(|&steps| figures::count(steps));
    steps.collect::<Vec<String>>().join(" / ")
}

/// All answers on random sheets, as a sentence.
fn answers_agree(seed: u64) -> String {
    let random = &mut Random::new(seed);
    let seen = &mut compare::Compared::default();
    for (weight, count) in [(12, 400), (40, 400), (150, 200), (600, 60)] {
        compare::random_sheets(random, count, weight, seen);
    }
    format!(
        "Loads, runs and reports agree on {} random sheets and {} steps; the reports of {} of \
         them, {} with at-leasts, also with propagation on their clauses, multiplied out. Indexes \
         of these sheets, before runs and after them, are filled alike ({}).",
        figures::count(seen.sheets),
        figures::count(seen.steps),
        figures::count(seen.with_clauses),
        figures::count(seen.with_leasts),
        figures::by_answer(&seen.fillings, &[0, 11, 12])
    )
}

/// Keyings and withdrawals on random orders, as a sentence.
fn orders_agree(seed: u64) -> String {
    let random = &mut Random::new(seed);
    let seen = &mut keyings::Seen::default();
    for (weight, count) in [(12, 3000), (40, 2000), (150, 1000), (600, 100)] {
        keyings::random_orders(random, count, weight, seen);
    }
    keyings::full_orders(random, 300, seen);
    format!(
        "Keyings agree on random orders ({}), and so do withdrawals ({}); one index in five is \
         stale or short.",
        figures::by_answer(&seen.keyings, &[0, 11, 14, 7, 8, 12]),
        figures::by_answer(&seen.withdrawals, &[0, 1, 2, 3, 4, 5, 6, 11, 13, 8, 12])
    )
}

/// The "complete" question on random orders, as a sentence.
fn completes_agree(seed: u64) -> String {
    let random = &mut Random::new(seed);
    let seen = &mut completes::Seen::new();
    for (weight, count) in [(12, 3000), (40, 2000), (150, 1000), (600, 100)] {
        completes::random_orders(random, count, weight, seen);
    }
    completes::full_orders(random, 300, seen);
    format!(
        "Whether a sheet is complete is answered alike on random orders ({}).",
        completes::said(seen)
    )
}

/// Imports of random clause files, as a sentence.
fn imports_agree(seed: u64) -> String {
    let random = &mut Random::new(seed);
    let seen = &mut imports::Seen::new();
    imports::random_files(random, 20_000, 300, seen);
    format!(
        "Imports agree on random clause files, whole and damaged ({}); every book that they make \
         is accepted, and of a whole file it is the one due.",
        figures::by_answer(seen, &[0, 15, 16, 12])
    )
}

/// The families, those with at-leasts last.
fn all_families() -> Vec<families::Family> {
    let mut families = families::families();
    families.extend(at_least::families());
    families
}

/// Every family at every weight, then the comb that the desk stops at.
fn all_rows(flags: &Flags, noise: &mut measure::Noise) -> Vec<Row> {
    let mut rows = Vec::new();
    let mut families = all_families();
    families.retain(|family| family.name.contains(&flags.only));
    for family in families {
        for &weight in &flags.weights {
            noise.sample();
            let rules = (family.make)(weight);
            let (name, ordinary) = (&family.name, family.ordinary);
            let mut row = rows::measured(name, ordinary, weight, &rules, u64::MAX, flags.patience);
            if weight % 2 == 0 && flags.weights.contains(&(weight / 2)) {
                row.growth = Some(rows::growth(&(family.make)(weight / 2), &rules));
            }
            if weight == bars::FULL {
                let with_room = (family.make)(weight - 2 * orders::SLOTS);
                row.order = Some(keyings::measured(&with_room));
                row.complete = Some(completes::measured(&rules, &with_room));
            }
            eprintln!(
                "{name}, {weight}: {} steps, run {}",
                row.steps,
                figures::time(row.run[0])
            );
            rows.push(row);
        }
    }
    let name = "comb, budget 100,000";
    let rules = families::comb(STOPPED);
    rows.push(rows::measured(
        name,
        false,
        STOPPED,
        &rules,
        BUDGET,
        f64::INFINITY,
    ));
    noise.sample();
    rows
}

fn main() {
    let flags = flags();
    if let Some(sheets) = flags.searches {
        println!("{}", searches(flags.seed, sheets));
        return;
    }
    let agreed = [
        searches(flags.seed, 20_000),
        answers_agree(flags.seed),
        orders_agree(flags.seed),
        completes_agree(flags.seed),
        imports_agree(flags.seed),
    ];
    let noise = &mut measure::Noise::new();
    let rows = all_rows(&flags, noise);
    let imports = imports::measured(&flags.only, noise);
    let text = document::measured(&rows, &imports, &agreed, noise, flags.patience);
    println!("{text}");
    if let Some(file) = &flags.doc {
        marks::put(file, document::MARK, &text);
    }
    if let Some(file) = &flags.svg {
        fs::write(file, plot::svg(&rows)).expect("the plot is written");
    }
}
