//! The library against plain Rust: loads, runs, reports and indexes must be equal.

use crate::answers::{Ran, Run};
use crate::clauses;
use crate::ffi;
use crate::nodes::{kind, LEAST, LENGTH};
use crate::plain::flat::{is_sheet, used};
use crate::plain::{bounds, fast, index, load, parts, simple, sweep};
use crate::random::Random;
use crate::random_books::{self, book_with_leasts};
use std::collections::BTreeMap;

pub type Sheet = [u16; LENGTH];

/// Fills an index from a sheet: the refusal, 0 where it is accepted.
pub type Fill = fn(&[u16], &mut [u16]) -> u64;

/// Stops with the case that differs.
pub fn stop(what: &str, sheet: &[u16], details: &str) -> ! {
    // What is no sheet need not have the nodes that it says.
    let nodes = if is_sheet(sheet) { used(sheet) } else { sheet };
    let nodes: Vec<String> = nodes.iter().map(|node| format!("{node:04x}")).collect();
    panic!(
        "{what}\nN = {}, nodes {}\n{details}",
        sheet[0],
        nodes.join(" ")
    );
}

/// The sheet of a book that is accepted, from both loaders.
pub fn loaded(bytes: &[u8]) -> Sheet {
    let mut sheets = [[7; LENGTH]; 2];
    let refusals = [
        ffi::load(bytes, &mut sheets[0]),
        load::load(bytes, &mut sheets[1]),
    ];
    assert_eq!(refusals, [0, 0], "a book is refused");
    if sheets[0] != sheets[1] {
        stop("the loaded sheets differ", &sheets[0], "");
    }
    sheets[0]
}

/// The most clauses that a sheet is multiplied out into wherever it is met.
const FEW: u128 = 2000;

/// Whether a sheet has so few clauses that its report is compared with that of the clauses.
pub fn has_few_clauses(sheet: &[u16]) -> bool {
    clauses::effort(used(sheet)) <= FEW
}

/// The report by propagation on the clauses, at the start of an output whose rest stays.
fn report_by_clauses(sheet: &[u16], out: &mut [u8]) -> bool {
    let out = &mut out[..usize::from(sheet[0])];
    clauses::report(&clauses::multiplied_out(used(sheet)), out)
}

/// The report, from all methods; the slowest where it is asked for, and the clauses where they
/// are few. The output is longer than any report, and its rest must stay.
pub fn reported(sheet: &[u16], by_sweep: bool) -> Vec<u8> {
    let by = |report: fn(&[u16], &mut [u8]) -> bool| {
        let mut out = vec![9; 600];
        let contradictory = report(sheet, &mut out);
        let rest = out.split_off(usize::from(sheet[0]));
        assert!(rest.iter().all(|byte| *byte == 9), "a report wrote past N");
        out.push(u8::from(contradictory));
        out
    };
    let ours = by(ffi::report);
    let others = [
        Some(by(parts::report)),
        by_sweep.then(|| by(sweep::report)),
        has_few_clauses(sheet).then(|| by(report_by_clauses)),
    ];
    for other in others.into_iter().flatten() {
        if other != ours {
            stop("the reports differ", sheet, &format!("{ours:?}\n{other:?}"));
        }
    }
    ours
}

/// The index of a sheet, counted by plain Rust, and some numbers past it.
pub fn index_of(sheet: &[u16]) -> Vec<u16> {
    let mut index = vec![7; 2 * usize::from(sheet[0]) + 3];
    index::count(sheet, &mut index);
    index
}

/// A run by one method: its answer and the sheet after it. The index must be that sheet's, and
/// the numbers past it stay.
pub fn after(run: Run, start: &Sheet, budget: u64) -> (Ran, Sheet) {
    let (mut sheet, mut index) = (*start, index_of(start));
    let ran = run(&mut sheet, &mut index, budget);
    if index != index_of(&sheet) {
        stop("a run left another index", start, &format!("{index:?}"));
    }
    (ran, sheet)
}

/// Fills indexes that held anything, too short ones and longer ones too, by the library and by
/// plain Rust: the answers, and how often each was given.
fn fill_indexes(random: &mut Random, sheet: &[u16], seen: &mut BTreeMap<u64, u64>) {
    let length = 2 * usize::from(sheet[0]);
    let no_sheet = &sheet[1..];
    for (sheet, length) in [
        (sheet, length.saturating_sub(1)),
        (sheet, length),
        (sheet, length + 3),
        (no_sheet, length),
    ] {
        let held: Vec<u16> = (0..length).map(|_| random.number()).collect();
        let by = |fill: Fill| {
            let mut index = held.clone();
            (fill(sheet, &mut index), index)
        };
        let (ours, plain) = (by(ffi::index), by(index::fill));
        if ours != plain {
            let details = format!("{held:?}: {ours:?}, {plain:?}");
            stop("the indexes differ", sheet, &details);
        }
        *seen.entry(ours.0).or_default() += 1;
    }
}

/// The run that two methods must agree on.
pub fn ran(methods: [Run; 2], sheet: &Sheet, budget: u64) -> (Ran, Sheet) {
    let [one, other] = methods.map(|run| after(run, sheet, budget));
    if one != other {
        let details = format!("budget {budget}: {:?}, {:?}", one.0, other.0);
        stop("the runs differ", sheet, &details);
    }
    one
}

/// A random book of a weight at most, one in two with at-leasts.
pub fn random_book(random: &mut Random, weight: usize) -> Vec<u8> {
    if random.one_in(2) {
        return random_books::random_book(random, weight);
    }
    let leasts = random.pick(&[10, 40]);
    book_with_leasts(random, weight, leasts)
}

/// A random sheet of a weight at most.
pub fn random_sheet(random: &mut Random, weight: usize) -> Sheet {
    loaded(&random_book(random, weight))
}

/// What was compared on random sheets.
#[derive(Default)]
pub struct Compared {
    pub sheets: u64,
    /// Those whose report was compared with that of their clauses, and those of them that have
    /// at-leasts.
    pub with_clauses: u64,
    pub with_leasts: u64,
    pub steps: u64,
    /// How often filling an index was refused so, 0 where it was accepted.
    pub fillings: BTreeMap<u64, u64>,
}

/// Compares every answer on random sheets.
pub fn random_sheets(random: &mut Random, count: usize, weight: usize, seen: &mut Compared) {
    for _ in 0..count {
        let sheet = random_sheet(random, weight);
        let before = reported(&sheet, true);
        let (ran_whole, settled) = ran([ffi::run, bounds::run], &sheet, u64::MAX);
        ran([ffi::run, simple::run], &sheet, u64::MAX);
        ran([ffi::run, fast::run], &sheet, u64::MAX);
        let budget = random.within(0, 1 + ran_whole.count as usize) as u64;
        let (_, stopped) = ran([ffi::run, bounds::run], &sheet, budget);
        for later in [settled, stopped] {
            if reported(&later, true) != before {
                stop("a run changed the report", &sheet, "");
            }
        }
        for sheet in [sheet, stopped, settled] {
            fill_indexes(random, &sheet, &mut seen.fillings);
        }
        let has_leasts = used(&sheet).iter().any(|&node| kind(node) == LEAST);
        let has_clauses = has_few_clauses(&sheet);
        seen.sheets += 1;
        seen.with_clauses += u64::from(has_clauses);
        seen.with_leasts += u64::from(has_clauses && has_leasts);
        seen.steps += ran_whole.count;
    }
}
