//! The measurements of one book: every answer compared first, then every call timed.

use crate::answers::Run;
use crate::compare::{after, index_of, loaded, ran, reported, Fill};
use crate::completes::{self, is_complete, NO_LINES};
use crate::families::Rules;
use crate::ffi;
use crate::keyings::Times;
use crate::measure::{grown, medians, seconds};
use crate::nodes::{book, kind, LEAST, LENGTH};
use crate::plain::flat::used;
use crate::plain::{bounds, index, load, parts, simple, sweep};
use crate::plain_check;

/// The longest that the simplest search is waited for, in seconds.
const SIMPLE: f64 = 1.0;

/// One book's times, in seconds.
pub struct Row {
    pub name: String,
    pub ordinary: bool,
    pub weight: usize,
    pub nodes: usize,
    /// How many of them are at-leasts.
    pub leasts: usize,
    /// The steps of the whole run, and those that were timed.
    pub steps: u64,
    pub timed: u64,
    /// The library and plain Rust.
    pub check: [f64; 2],
    pub load: [f64; 2],
    pub index: [f64; 2],
    pub run: [f64; 2],
    /// The simplest search: the steps that were timed, and their time.
    pub simple: (u64, f64),
    /// The library, plain Rust by parts, plain Rust by sweeps.
    pub before: [f64; 3],
    pub after: [f64; 3],
    /// From the family's book of half the weight, where that is measured too.
    pub growth: Option<Growth>,
    /// Of the family's book that has this weight with 64 lines, where that is measured.
    pub order: Option<Times>,
    /// Of the "complete" question, where that is measured.
    pub complete: Option<completes::Times>,
}

/// How many times longer the library takes than on the book of half the weight, the two timed
/// in turn: a step (where both runs have any), the report, and the report after the run.
#[derive(Clone, Copy)]
pub struct Growth {
    pub step: Option<f64>,
    pub before: f64,
    pub after: f64,
}

impl Row {
    /// The library's time of a step.
    pub fn step(&self) -> Option<f64> {
        (self.timed > 0).then(|| self.run[0] / self.timed as f64)
    }

    pub fn is_whole(&self) -> bool {
        self.timed == self.steps
    }

    /// The "complete" question over a report of the same fresh sheet, where it is measured: the
    /// library's, the two timed in turn, and plain Rust's over its report by parts, timed apart.
    pub fn complete_over_report(&self) -> Option<[f64; 2]> {
        let [ours, plain, report] = self.complete?.fresh;
        Some([ours / report, plain / self.before[1]])
    }
}

type Sheet = [u16; LENGTH];
type Report = fn(&[u16], &mut [u8]) -> bool;

/// Measures a book; the library's run is stopped where it would take longer than `patience`.
pub fn measured(
    name: &str,
    ordinary: bool,
    weight: usize,
    rules: &Rules,
    budget: u64,
    patience: f64,
) -> Row {
    let bytes = book(rules.options, &rules.bodies);
    let sheet = loaded(&bytes);
    let steps = after(bounds::run, &sheet, budget).0.count;
    let timed = affordable(ffi::run, &sheet, steps, patience);
    let simple_steps = affordable(simple::run, &sheet, steps, SIMPLE);
    let settled = compared(&sheet, budget, steps, timed, simple_steps);
    stays_complete(&bytes, [&sheet, &settled]);
    let due = |count| if count == steps { budget } else { count };
    let [simple] = run_times([simple::run], &sheet, due(simple_steps));
    Row {
        name: name.to_string(),
        ordinary,
        weight,
        nodes: usize::from(sheet[1]),
        leasts: leasts(&sheet),
        steps,
        timed,
        check: check_times(&bytes),
        load: load_times(&bytes),
        index: index_times(&sheet),
        run: run_times([ffi::run, bounds::run], &sheet, due(timed)),
        simple: (simple_steps, simple),
        before: report_times(&sheet),
        after: report_times(&settled),
        growth: None,
        order: None,
        complete: None,
    }
}

/// How many of a sheet's nodes are at-leasts.
fn leasts(sheet: &Sheet) -> usize {
    let is_least = |node: &&u16| kind(**node) == LEAST;
    used(sheet).iter().filter(is_least).count()
}

/// The growth from one book to another.
pub fn growth(half: &Rules, whole: &Rules) -> Growth {
    let sheets = [half, whole].map(|rules| loaded(&book(rules.options, &rules.bodies)));
    let runs = sheets.map(|sheet| after(bounds::run, &sheet, u64::MAX));
    let [few, many] = [runs[0].0.count, runs[1].0.count].map(|steps| steps as f64);
    let step = (few > 0.0 && many > 0.0).then(|| {
        let [mut one, mut other] = sheets.map(|sheet| {
            move || {
                let (mut sheet, mut index) = (sheet, index_of(&sheet));
                seconds(|| ffi::run(&mut sheet, &mut index, u64::MAX))
            }
        });
        grown(&mut one, &mut other) * few / many
    });
    Growth {
        step,
        before: report_growth(sheets),
        after: report_growth(runs.map(|run| run.1)),
    }
}

fn report_growth(sheets: [Sheet; 2]) -> f64 {
    let [mut one, mut other] = sheets.map(|sheet| {
        let mut out = vec![0; usize::from(sheet[0])];
        move || seconds(|| ffi::report(&sheet, &mut out))
    });
    grown(&mut one, &mut other)
}

/// How many of so many steps a run does in the time: all, or a round number of them.
fn affordable(run: Run, sheet: &Sheet, steps: u64, time: f64) -> u64 {
    let mut trial = 32;
    while trial < steps {
        let (mut sheet, mut index) = (*sheet, index_of(sheet));
        let took = seconds(|| run(&mut sheet, &mut index, trial));
        if took > 0.05 {
            let step = took / trial as f64;
            return if step * steps as f64 > time {
                round(time / 2.0 / step)
            } else {
                steps
            };
        }
        trial *= 2;
    }
    steps
}

/// The first digit, then zeros.
fn round(number: f64) -> u64 {
    let unit = 10f64.powf(number.max(1.0).log10().floor());
    ((number / unit).floor() * unit).max(1.0) as u64
}

/// Compares all answers on the sheet; the sheet after the whole run.
fn compared(sheet: &Sheet, budget: u64, steps: u64, timed: u64, simple_steps: u64) -> Sheet {
    let due = |count| if count == steps { budget } else { count };
    ran([ffi::run, bounds::run], sheet, due(timed));
    ran([simple::run, bounds::run], sheet, due(simple_steps));
    let settled = after(bounds::run, sheet, budget).1;
    assert!(
        reported(sheet, true) == reported(&settled, true),
        "a run changed the report"
    );
    settled
}

/// Compares whether the sheets before and after the run are complete, which must be the same.
fn stays_complete(bytes: &[u8], sheets: [&Sheet; 2]) {
    let [before, after] = sheets.map(|sheet| is_complete(sheet, bytes, &NO_LINES, 0));
    assert_eq!(before, after, "a run changed whether a sheet is complete");
}

fn check_times(bytes: &[u8]) -> [f64; 2] {
    let checks = [ffi::book_check, plain_check::book_check];
    assert_eq!(
        checks.map(|check| check(bytes)),
        [0, 0],
        "the checks differ"
    );
    let mut calls = checks.map(|check| move || seconds(|| check(bytes)));
    let sides = calls.iter_mut().map(|call| call as &mut dyn FnMut() -> f64);
    medians(sides.collect()).try_into().expect("a time a side")
}

fn load_times(bytes: &[u8]) -> [f64; 2] {
    let mut sheets = [[0; LENGTH]; 2];
    let [one, other] = &mut sheets;
    let times = medians(vec![&mut || seconds(|| ffi::load(bytes, one)), &mut || {
        seconds(|| load::load(bytes, other))
    }]);
    [times[0], times[1]]
}

fn index_times(sheet: &Sheet) -> [f64; 2] {
    let fills: [Fill; 2] = [ffi::index, index::fill];
    let mut calls = fills.map(|fill| {
        let mut index = vec![7; 2 * usize::from(sheet[0])];
        assert_eq!(fill(sheet, &mut index), 0, "an index is refused");
        assert_eq!(index, index_of(sheet)[..index.len()], "the indexes differ");
        move || seconds(|| fill(sheet, &mut index))
    });
    let sides = calls.iter_mut().map(|call| call as &mut dyn FnMut() -> f64);
    medians(sides.collect()).try_into().expect("a time a side")
}

fn run_times<const SIDES: usize>(runs: [Run; SIDES], sheet: &Sheet, budget: u64) -> [f64; SIDES] {
    let mut calls = runs.map(|run| {
        move || {
            let (mut sheet, mut index) = (*sheet, index_of(sheet));
            seconds(|| run(&mut sheet, &mut index, budget))
        }
    });
    let sides = calls.iter_mut().map(|call| call as &mut dyn FnMut() -> f64);
    medians(sides.collect()).try_into().expect("a time a side")
}

fn report_times(sheet: &Sheet) -> [f64; 3] {
    let reports: [Report; 3] = [ffi::report, parts::report, sweep::report];
    let mut calls = reports.map(|report| {
        let mut out = vec![0; usize::from(sheet[0])];
        move || seconds(|| report(sheet, &mut out))
    });
    let sides = calls.iter_mut().map(|call| call as &mut dyn FnMut() -> f64);
    medians(sides.collect()).try_into().expect("a time a side")
}
