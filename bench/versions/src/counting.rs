//! Every call once, on every family and clause file, by a library and by plain Rust (runs by two
//! methods), for `bench/instructions`: that runs this under callgrind, which counts what is done
//! inside `counted` and starts again from zero after each time. A line is printed for each, in the
//! same order.

use crate::answers::{Ran, Run};
use crate::at_least;
use crate::calls::{Call, Lent};
use crate::cases::{self, Case};
use crate::clause_texts;
use crate::families::families;
use crate::library::Library;
use crate::orders::Order;
use crate::plain::{bounds, complete, fast, import, index, lines, load, parts};
use crate::plain_check;
use std::hint::black_box;

/// The weight from which the growth of a step is told.
const HALF: usize = cases::FULL / 2;

/// Plain Rust's runs: by the method that the library is compared with, and the fastest.
const RUNS: [(&str, Run); 2] = [("plain", bounds::run), ("fastest", fast::run)];

/// Makes one call, by whichever side. Its name is kept, for callgrind. What comes after the call
/// keeps the compiler from leaving by a jump, which callgrind would not see as the end of this.
#[no_mangle]
#[inline(never)]
fn counted(call: &mut dyn FnMut() -> u64) -> u64 {
    let answer = call();
    black_box(answer)
}

/// Makes every call on the families and clause files whose names hold this text.
pub fn every_call(library: &Library, only: &str) {
    let knows_all = library.has_index() && library.has_import() && library.judges_order();
    assert!(knows_all, "a library from before U7 has not every call");
    for family in families().iter().chain(&at_least::families()) {
        if family.name.contains(only) {
            let half = cases::run_of(library, family, HALF);
            every_side(library, &family.name, HALF, half);
            for case in cases::of_family(library, family, true) {
                every_side(library, &family.name, cases::FULL, case);
            }
        }
    }
    for text in clause_texts::all() {
        if text.name.contains(only) {
            let (name, bytes) = (text.name, text.text.len());
            every_side(library, name, bytes, cases::of_clause_text(library, text));
        }
    }
}

/// Makes a call by the library, and by plain Rust if it has it: all must answer the same and leave
/// the same.
fn every_side(library: &Library, family: &str, size: usize, case: Case) {
    let mut ours = case.lent.clone();
    let answer = counted(&mut || library.call(case.call, &mut ours));
    let (runs, steps) = match case.call {
        Call::Run { .. } => (&RUNS[..], answer >> 9),
        _ => (&RUNS[..1], 0),
    };
    let tell = |side| println!("{}\t{family}\t{size}\t{steps}\t{side}", case.name);
    tell("library");
    for &(side, run) in runs {
        let mut lent = case.lent.clone();
        if let Some(plain) = by_plain_rust(case.call, run, &mut lent) {
            let said = format!("{} of {family}", case.name);
            assert_eq!(answer, plain, "{said} is answered otherwise");
            assert!(ours == lent, "{said} leaves something else");
            tell(side);
        }
    }
}

/// A call by plain Rust: its answer, as the library gives it. It has no writer and no single step.
fn by_plain_rust(call: Call, run: Run, lent: &mut Lent) -> Option<u64> {
    let mut make: Box<dyn FnMut() -> u64 + '_> = match call {
        Call::Key { .. } | Call::Withdraw { .. } => return Some(of_order(call, lent)),
        Call::Write | Call::Step { .. } => return None,
        Call::Check => Box::new(|| plain_check::book_check(&lent.book)),
        Call::Lookup => Box::new(|| plain_check::code_lookup(&lent.book, &lent.code)),
        Call::Load => Box::new(|| load::load(&lent.book, &mut lent.sheet)),
        Call::Index => Box::new(|| index::fill(&lent.sheet, &mut lent.index)),
        Call::Run { budget } => {
            Box::new(move || number(run(&mut lent.sheet, &mut lent.index, budget)))
        }
        Call::Report => Box::new(|| u64::from(parts::report(&lent.sheet, &mut lent.out)) << 8),
        Call::Complete => {
            Box::new(|| complete::complete(&lent.sheet, &lent.book, &lent.lines, lent.count))
        }
        Call::Import => Box::new(|| import::import(&lent.text, &mut lent.out)),
    };
    Some(counted(&mut *make))
}

/// What a run answers, as one number.
fn number(ran: Ran) -> u64 {
    (ran.count << 1 | u64::from(ran.settled)) << 8
}

/// A keying or a withdrawal by plain Rust, which is lent an order as a whole.
fn of_order(call: Call, lent: &mut Lent) -> u64 {
    let mut order = Order {
        sheet: lent.sheet[..].try_into().expect("a sheet"),
        lines: lent.lines.clone(),
        count: lent.count,
        index: lent.index.clone(),
    };
    let answer = counted(&mut || match call {
        Call::Key { option, negative } => lines::key(&mut order, option, negative),
        Call::Withdraw { k } => lines::withdraw(&mut order, &lent.book, k),
        _ => unreachable!("{call:?} has no order"),
    });
    lent.sheet.copy_from_slice(&order.sheet);
    (lent.lines, lent.count, lent.index) = (order.lines, order.count, order.index);
    answer
}
