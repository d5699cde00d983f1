//! What is timed: every call on every family's book of full size, imports of long clause files, and
//! calls that are refused at the end of a weight's test.

use crate::calls::{refusal, Call, Lent};
use crate::clause_texts::{ClauseText, LONGEST_BOOK};
use crate::families::{Family, Rules};
use crate::imports;
use crate::library::Library;
use crate::limits::{book_of, filled, sheet_of};
use crate::nodes::LENGTH;
use crate::orders::{Line, SLOTS};
use crate::scenes::{index_of, next_step};

/// The most that a sheet may weigh.
pub const FULL: usize = 4096;

/// The report, the "complete" question and another run of a settled sheet, as the tables name
/// them. Such a run does no step: what it costs besides weighs most there. So does the book in the
/// question, where the sheet is all but empty.
pub const REPORT_SETTLED: &str = "report after the run";
pub const COMPLETE_SETTLED: &str = "complete after the run";
pub const RUN_SETTLED: &str = "run of a settled sheet";

/// A call that is timed, with what it is lent and the refusal that it gives.
pub struct Case {
    pub name: &'static str,
    pub call: Call,
    pub lent: Lent,
    pub refusal: u64,
}

/// Whatever is lent with a book that is accepted: its sheet and its index, no lines, its last code.
fn lent(library: &Library, rules: &Rules) -> Lent {
    let book = book_of(rules);
    let end = 8 + 13 * rules.options;
    let mut lent = Lent {
        code: book[end - 13..end].to_vec(),
        out: vec![0; book.len()],
        book,
        sheet: vec![0; LENGTH],
        lines: vec![
            Line {
                option: 0,
                negative: false
            };
            SLOTS
        ],
        count: 0,
        index: Vec::new(),
        text: Vec::new(),
    };
    accepted(library, Call::Load, &mut lent);
    lent
}

/// Makes a call; whatever the library does about an index, it is then the sheet's.
fn accepted(library: &Library, call: Call, lent: &mut Lent) {
    let answer = library.call(call, lent);
    assert_eq!(refusal(answer), 0, "{call:?} is refused");
    lent.index = index_of(&lent.sheet);
}

/// Keys lines until there are so many.
fn key_up_to(library: &Library, lent: &mut Lent, count: usize) {
    let options = u64::from(lent.sheet[0]);
    for at in u64::from(lent.count)..count as u64 {
        let (option, negative) = (at % options, at % 3 == 0);
        accepted(library, Call::Key { option, negative }, lent);
    }
}

/// Every call on a family's book of full size; keyings and withdrawals on its order of 64 lines.
/// Filling an index is timed if it is asked for.
pub fn of_family(library: &Library, family: &Family, with_index: bool) -> Vec<Case> {
    use Call::{Check, Complete, Load, Lookup, Report, Write};
    let loaded = lent(library, &(family.make)(FULL));
    let mut settled = loaded.clone();
    let whole = Call::Run { budget: u64::MAX };
    accepted(library, whole, &mut settled);
    let mut nearly = lent(library, &(family.make)(FULL - 2 * SLOTS));
    key_up_to(library, &mut nearly, SLOTS - 1);
    let mut order = nearly.clone();
    key_up_to(library, &mut order, SLOTS);

    // Where nothing applies, the step is refused.
    let [rule, place, i, j] = [1, 0, 0, 0];
    let step = next_step(&loaded.sheet).unwrap_or(Call::Step { rule, place, i, j });
    let last = Call::Key {
        option: 0,
        negative: true,
    };
    let mut calls = vec![(last, &nearly), (Call::Withdraw { k: 0 }, &order)];
    calls.extend([Check, Lookup, Load, Write].map(|call| (call, &loaded)));
    calls.extend([step, whole, Report, Complete].map(|call| (call, &loaded)));
    if with_index {
        calls.push((Call::Index, &loaded));
    }
    let mut cases: Vec<Case> = calls
        .into_iter()
        .map(|(call, lent)| case(library, call.name(), call, lent))
        .collect();
    cases.push(case(library, REPORT_SETTLED, Report, &settled));
    cases.push(case(library, COMPLETE_SETTLED, Complete, &settled));
    cases.push(case(library, RUN_SETTLED, whole, &settled));
    cases
}

/// The whole run of a family's book of a weight.
pub fn run_of(library: &Library, family: &Family, weight: usize) -> Case {
    let whole = Call::Run { budget: u64::MAX };
    let lent = lent(library, &(family.make)(weight));
    case(library, whole.name(), whole, &lent)
}

fn case(library: &Library, name: &'static str, call: Call, lent: &Lent) -> Case {
    let answer = library.call(call, &mut lent.clone());
    Case {
        name,
        call,
        lent: lent.clone(),
        refusal: refusal(answer),
    }
}

/// The import of a clause file.
pub fn of_clause_text(library: &Library, text: ClauseText) -> Case {
    let lent = imports::lent(text.text, LONGEST_BOOK);
    let case = case(library, Call::Import.name(), Call::Import, &lent);
    assert_eq!(case.refusal, text.refusal, "{}", text.name);
    case
}

/// Calls that are refused for a weight: a book's, a sheet's, a keying's or a withdrawal's.
pub fn refused_for_weight(library: &Library, family: &Family) -> Vec<Case> {
    let of_weight = |weight| {
        let rules = filled(family, weight);
        let sheet = sheet_of(&rules);
        Lent {
            book: book_of(&rules),
            index: index_of(&sheet),
            sheet,
            ..lent(library, &filled(family, FULL))
        }
    };
    let [full, heavy] = [FULL, FULL + 1].map(of_weight);
    // Two lines are on the sheet of a lighter book; on the full book the one that would remain has
    // no room.
    let mut order = lent(library, &filled(family, FULL - 4));
    key_up_to(library, &mut order, 2);
    order.book = full.book.clone();
    let keying = Call::Key {
        option: 0,
        negative: true,
    };
    let whole = Call::Run { budget: u64::MAX };
    [
        ("check", Call::Check, &heavy, 6),
        ("load", Call::Load, &heavy, 6),
        ("report", Call::Report, &heavy, 11),
        ("run", whole, &heavy, 11),
        ("keying", keying, &heavy, 11),
        ("keying", keying, &full, 8),
        ("withdrawal", Call::Withdraw { k: 0 }, &order, 8),
    ]
    .map(|(name, call, lent, due)| {
        let case = case(library, name, call, lent);
        assert_eq!(case.refusal, due, "{call:?} is not refused as it is due");
        case
    })
    .into()
}
