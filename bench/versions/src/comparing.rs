//! Every call by both libraries: the answers and all that was lent must be the same.  An index
//! must also be the one that plain Rust counts, which stands for that of a library without one.
//! So too for an import.  Whether an order is complete must also be what plain Rust answers; a
//! library that is asked this of the sheet alone may say so of fewer, and of no others.

use crate::at_least_calls;
use crate::at_least_calls::RULES;
use crate::calls::{refusal, Call, Lent, ANSWERS};
use crate::completes;
use crate::figures::{by_answer, count};
use crate::library::Library;
use crate::plain::complete::complete;
use crate::plain::import::import;
use crate::plain::index;
use crate::random::Random;
use crate::scenes;
use std::collections::BTreeMap;

/// The libraries, and what was seen.
pub struct Comparing<'a> {
    before: &'a Library,
    after: &'a Library,
    /// Whether both know at-leasts. If not, calls that speak of them are left out.
    pub at_leasts: bool,
    /// Whether both know the index of mentions. If not, the one that does is lent a right one.
    indexes: bool,
    /// Which of them judge the "complete" question on the book and the lines.
    judging: [bool; 2],
    left_out: u64,
    /// How often each call gave each answer.
    seen: BTreeMap<&'static str, BTreeMap<u64, u64>>,
    /// How often a step of each rule was accepted.
    steps: [u64; 1 + RULES],
    /// How often neither, one and both of them, where they refused nothing, answered "complete".
    complete: [u64; 3],
}

/// The last rule that has nothing to do with at-leasts.
const OLD_RULES: usize = 14;

impl<'a> Comparing<'a> {
    pub fn new(before: &'a Library, after: &'a Library) -> Comparing<'a> {
        Comparing {
            before,
            after,
            at_leasts: at_least_calls::are_known(before) && at_least_calls::are_known(after),
            indexes: before.has_index() && after.has_index(),
            judging: [before, after].map(Library::judges_order),
            left_out: 0,
            seen: BTreeMap::new(),
            steps: [0; 1 + RULES],
            complete: [0; 3],
        }
    }

    /// A call by both; stops with the case where they differ.
    pub fn call(&mut self, call: Call, lent: &mut Lent) {
        if !self.at_leasts && at_least_calls::are_met(call, lent) {
            self.left_out += 1;
            return;
        }
        if !self.indexes && call.keeps_index() {
            lent.index = scenes::index_of(&lent.sheet);
            lent.index.extend([7, 9]);
        }
        let start = lent.clone();
        let mut other = start.clone();
        let answers = [
            made(self.before, call, lent),
            made(self.after, call, &mut other),
        ];
        let Some(answer) = self.agreed(call, answers) else {
            let said = format!("before answers {}, after {}", answers[0], answers[1]);
            stop(&said, call, &start);
        };
        if *lent != other {
            stop("what they leave differs", call, &start);
        }
        if refusal(answer) != 0 && *lent != start {
            stop("a refused call changed something", call, &start);
        }
        self.tally(call, answer);
    }

    /// The answer of both, if they agree; of two that are asked different things whether an order
    /// is complete, the one that judges all that is lent.
    fn agreed(&mut self, call: Call, answers: [u64; 2]) -> Option<u64> {
        let [before, after] = answers;
        let is_complete = matches!(call, Call::Complete);
        let (agree, answer) = match self.judging {
            [false, true] if is_complete => (completes::follows(before, after), after),
            [true, false] if is_complete => (completes::follows(after, before), before),
            _ => (before == after, before),
        };
        if agree && is_complete && answers.map(refusal) == [0, 0] {
            let sum: u64 = answers.iter().map(|answer| answer >> 8).sum();
            self.complete[sum as usize] += 1;
        }
        agree.then_some(answer)
    }

    fn tally(&mut self, call: Call, answer: u64) {
        let seen = self.seen.entry(call.name()).or_default();
        *seen.entry(refusal(answer)).or_default() += 1;
        if let (Call::Step { rule, .. }, 0) = (call, answer) {
            self.steps[rule as usize] += 1;
        }
    }

    /// Every call on what is lent, each on a copy of its own.
    pub fn every_call(&mut self, random: &mut Random, lent: &Lent) {
        for call in scenes::calls(random, lent) {
            self.call(call, &mut lent.clone());
        }
    }

    /// Every call, then one that may change what is lent, and so on.
    pub fn follow(&mut self, random: &mut Random, mut lent: Lent, rounds: usize) {
        for _ in 0..rounds {
            self.every_call(random, &lent);
            let call = scenes::change(random, &lent);
            self.call(call, &mut lent);
            lent.index = scenes::index(random, &lent.sheet);
        }
    }

    /// What was compared, in sentences; every answer that a call can give must have been given,
    /// and every rule that both know must have done a step.
    pub fn said(&self) -> String {
        let last = if self.at_leasts { RULES } else { OLD_RULES };
        assert!(
            self.steps[1..=last].iter().all(|&steps| steps > 0),
            "a rule did no step: {:?}",
            self.steps
        );
        let calls = ANSWERS.map(|(name, answers)| {
            let seen = &self.seen[name];
            let answers: Vec<u64> = self.possible(name, answers);
            assert_eq!(seen.len(), answers.len(), "{name} answered {seen:?}");
            format!("{name} ({})", by_answer(seen, &answers))
        });
        let total: u64 = self.seen.values().flat_map(BTreeMap::values).sum();
        format!(
            "Both give the same answers, and leave the same in all that they are lent, in {} \
             calls: {}. Steps of rules 1 to {last} are among them.{}{}{}{}",
            count(total),
            calls.join("; "),
            self.left_out_said(),
            self.indexes_said(),
            self.imports_said(),
            self.complete_said()
        )
    }

    /// The answers that a call can give: without an index none is too short, and where the book is
    /// not judged nothing is wrong with it.
    fn possible(&self, name: &str, answers: &[u64]) -> Vec<u64> {
        let keeps_index = ["keying", "withdrawal", "step", "run"].contains(&name);
        let of_sheet = name == "complete" && self.judging == [false, false];
        let mut answers = answers.to_vec();
        answers.retain(|&answer| self.indexes || !keeps_index || answer != 12);
        answers.retain(|answer| !of_sheet || !(1..=6).contains(answer));
        answers
    }

    /// How many of what was lent is complete; all that can be must have been met.
    fn complete_said(&self) -> String {
        let [neither, one, both] = self.complete;
        assert!(neither > 0 && both > 0, "complete: {:?}", self.complete);
        let counts = [neither, one, both].map(count);
        if self.judging[0] == self.judging[1] {
            return format!(
                " Of the sheets that were asked about and not refused {} are complete, {} are not.",
                counts[2], counts[0]
            );
        }
        assert!(one > 0, "no sheet is complete for one of them alone");
        format!(
            " One of them is asked with the sheet alone whether an order is complete, and may \
             differ there: it refuses what is no sheet, as the other does, and of the sheets that \
             both accept {} are complete for both, {} for the other alone, {} for neither. What \
             is said of the call complete is said of the other, whose every answer is also plain \
             Rust's.",
            counts[2], counts[1], counts[0]
        )
    }

    fn indexes_said(&self) -> &'static str {
        match (self.before.has_index(), self.after.has_index()) {
            (true, true) => {
                " Every index that a call leaves is also the one that plain Rust counts; some that \
                 were lent were stale or short."
            }
            (false, false) => " Neither knows an index: plain Rust answers the call index.",
            _ => {
                " One of them knows no index: it is lent none, the other one a right one, and every \
                 index that this one leaves is the one that plain Rust counts. What is said of the \
                 call index is said beside plain Rust."
            }
        }
    }

    fn imports_said(&self) -> &'static str {
        match (self.before.has_import(), self.after.has_import()) {
            (true, true) => " Every answer to an import, and every book made, is also plain Rust's.",
            (false, false) => " Neither imports clause files: plain Rust answers the call import.",
            _ => {
                " One of them imports no clause files: what is said of the call import is said of the \
                 other beside plain Rust."
            }
        }
    }

    fn left_out_said(&self) -> String {
        if self.at_leasts {
            return String::new();
        }
        format!(
            " One of them does not know node kind 6: {} calls that speak of it or of rules 15 to \
             {RULES} are left out.",
            count(self.left_out)
        )
    }
}

/// Makes a call and answers it; the index that it leaves must be right, and so must whether an
/// order is complete. Plain Rust stands in for the index of a library that has none.
fn made(library: &Library, call: Call, lent: &mut Lent) -> u64 {
    if matches!(call, Call::Import) {
        return imported(library, lent);
    }
    let start = lent.clone();
    let is_filling = matches!(call, Call::Index);
    let mut due = start.index.clone();
    if is_filling && !library.has_index() {
        return index::fill(&start.sheet, &mut lent.index);
    }
    let answer = library.call(call, lent);
    if refusal(answer) == 0 && (is_filling || call.keeps_index()) {
        index::count(&lent.sheet, &mut due);
    }
    if !library.has_index() {
        lent.index = due;
    } else if lent.index != due {
        stop("the index that is left is not right", call, &start);
    }
    if matches!(call, Call::Complete) && library.judges_order() {
        let due = complete(&start.sheet, &start.book, &start.lines, start.count);
        if answer != due {
            stop(&format!("it answers {answer}, due is {due}"), call, &start);
        }
    }
    answer
}

/// Imports a clause file and answers it: answer and output must be plain Rust's, which stands in
/// for a library that imports none.
fn imported(library: &Library, lent: &mut Lent) -> u64 {
    let start = lent.clone();
    let mut out = start.out.clone();
    let due = import(&start.text, &mut out);
    if !library.has_import() {
        lent.out = out;
        return due;
    }
    let answer = library.call(Call::Import, lent);
    if answer != due || lent.out != out {
        let said = format!("it answers {answer}, due is {due}, or another book");
        stop(&said, Call::Import, &start);
    }
    answer
}

/// Numbers in hexadecimal.
fn hexadecimal<T: std::fmt::LowerHex>(numbers: &[T], digits: usize) -> String {
    let numbers = numbers.iter().map(|number| format!("{number:0digits$x}"));
    numbers.collect::<Vec<String>>().join(" ")
}

/// Stops with the case that differs.
fn stop(what: &str, call: Call, lent: &Lent) -> ! {
    let end = lent.sheet.iter().rposition(|&number| number != 0);
    let sheet = &lent.sheet[..end.map_or(0, |end| end + 1)];
    panic!(
        "{what}\n{call:?}\nbook of {} bytes: {}\ncode: {}\nsheet of {}, zeros from {} on: {}\n\
         {} slots, {} lines: {:?}\nindex: {:?}\ntext: {}\noutput of {} bytes",
        lent.book.len(),
        hexadecimal(&lent.book, 2),
        hexadecimal(&lent.code, 2),
        lent.sheet.len(),
        sheet.len(),
        hexadecimal(sheet, 4),
        lent.lines.len(),
        lent.count,
        lent.lines,
        lent.index,
        lent.text.escape_ascii(),
        lent.out.len()
    );
}
