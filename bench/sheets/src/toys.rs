//! The multiplied-out reference on toy books, beside the report: where it blows up.

use crate::clauses::{self, multiplied_out, report, toy};
use crate::compare::{loaded, reported, Sheet};
use crate::ffi;
use crate::figures::{count, time};
use crate::measure::{medians, seconds};
use crate::nodes::{at_least, book, literal};
use crate::plain::flat::used;
use crate::plain::parts;
use std::fmt::Write;

/// The most bytes of memory that clauses may take to be multiplied out.
const MEMORY: u128 = 1 << 30;

/// The times of the report by the library, by plain Rust by parts, and by multiplying out and
/// propagating, which must all say the same.
fn times(sheet: &Sheet) -> [f64; 3] {
    let mut outs = [(); 3].map(|_| vec![9; usize::from(sheet[0])]);
    let contradictory = report(&multiplied_out(used(sheet)), &mut outs[0]);
    let due = [outs[0].as_slice(), &[u8::from(contradictory)]].concat();
    assert!(due == reported(sheet, true), "the reports differ");
    let [one, other, last] = &mut outs;
    medians(vec![
        &mut || seconds(|| ffi::report(sheet, one)),
        &mut || seconds(|| parts::report(sheet, other)),
        &mut || seconds(|| report(&multiplied_out(used(sheet)), last)),
    ])
    .try_into()
    .expect("a time a side")
}

/// The times of the report alone, by the library and by plain Rust.
fn times_of_reports(sheet: &Sheet) -> [f64; 2] {
    reported(sheet, true);
    let mut outs = [(); 2].map(|_| vec![9; usize::from(sheet[0])]);
    let [one, other] = &mut outs;
    medians(vec![
        &mut || seconds(|| ffi::report(sheet, one)),
        &mut || seconds(|| parts::report(sheet, other)),
    ])
    .try_into()
    .expect("a time a side")
}

/// One line: k conjunctions of two literals in one disjunction.
fn line(conjunctions: usize) -> String {
    let sheet = loaded(&book(2 * conjunctions, &[toy(conjunctions)]));
    let [ours, _, multiplied] = times(&sheet);
    format!(
        "| {conjunctions} | {} | {} | {} | {} |\n",
        used(&sheet).len(),
        figure(clauses::count(used(&sheet))),
        time(ours),
        time(multiplied)
    )
}

fn figure(number: u128) -> String {
    count(number.try_into().expect("a number of 64 bits"))
}

/// The table, for k from 2 up.
pub fn table(most: usize) -> String {
    let mut text = String::from(
        "| k | nodes | clauses | report | multiplied out, then propagated |\n\
         |--:|--:|--:|--:|--:|\n",
    );
    for conjunctions in 2..=most {
        write!(text, "{}", line(conjunctions)).expect("a string");
    }
    text
}

/// One line: an at-least of literals, beside units that bar as many of them as it can spare.
fn at_least_line(asked: usize, members: usize) -> String {
    let mut rule = vec![at_least(asked, members)];
    rule.extend((0..members).map(|option| literal(option, false)));
    let spared = (0..members - asked).map(|option| vec![literal(option, true)]);
    let bodies: Vec<Vec<u16>> = std::iter::once(rule.clone()).chain(spared).collect();
    let sheet = loaded(&book(members, &bodies));
    let (clauses, literals) = (clauses::count(&rule), members - asked + 1);
    let bytes = clauses * 2 * literals as u128;
    let ([ours, plain], multiplied) = if bytes <= MEMORY {
        let [ours, plain, multiplied] = times(&sheet);
        ([ours, plain], time(multiplied))
    } else {
        let unfit = format!(
            "does not fit in memory: {} GB for the literals alone",
            figure(bytes / 1_000_000_000)
        );
        (times_of_reports(&sheet), unfit)
    };
    format!(
        "| {asked} of {members} | {} | {} | {literals} | {} | {} | {multiplied} |\n",
        used(&sheet).len(),
        figure(clauses),
        time(ours),
        time(plain)
    )
}

/// The table of at-leasts, each as (asked, members).
pub fn at_least_table(shapes: &[(usize, usize)]) -> String {
    let mut text = String::from(
        "| at least | nodes | clauses of it | literals of each | report | plain, by parts \
         | multiplied out, then propagated |\n|--:|--:|--:|--:|--:|--:|--:|\n",
    );
    for &(asked, members) in shapes {
        write!(text, "{}", at_least_line(asked, members)).expect("a string");
    }
    text
}
