//! Plain Rust held to documents 01 and 02 without the library: at-leasts in books and on sheets,
//! their steps, every report beside propagation on the clauses, the index of mentions, and the
//! "complete" question.

use crate::clauses;
use crate::compare::{index_of, Sheet};
use crate::completes::NO_LINES;
use crate::nodes::{
    at_least, book, is_literal, kind, literal, node, value, ALL, ANY, FALSE, LEAST, LENGTH, ROOT,
    TRUE,
};
use crate::orders::{Line, Order, SLOTS};
use crate::plain::bounds::Bounds;
use crate::plain::complete::complete;
use crate::plain::flat::{is_sheet, used};
use crate::plain::{bounds, index, lines, load, parts, simple, sweep};
use crate::random::Random;
use crate::random_books::book_with_leasts;
use crate::searches::{any_step, flat, follow, Steps};

/// P, Q, R, S and their opposites.
const MARKS: [u16; 4] = [0x1000, 0x1001, 0x1002, 0x1003];
const BARRED: [u16; 4] = [0x2000, 0x2001, 0x2002, 0x2003];

fn loaded(bytes: &[u8]) -> Sheet {
    let mut sheet = [7; LENGTH];
    assert_eq!(load::load(bytes, &mut sheet), 0, "a book is refused");
    sheet
}

/// The rules of the strategy's steps from a sheet of four options, and the nodes left.
fn house_steps(bodies: &[Vec<u16>]) -> (Vec<usize>, Vec<u16>) {
    let mut sheet = loaded(&book(4, bodies));
    let mut bounds = Bounds::new(used(&sheet));
    let mut steps = Vec::new();
    while let Some(redex) = simple::next(flat(&sheet, &bounds)) {
        assert_eq!(bounds.find(used(&sheet)), Some(redex));
        bounds.step(&mut sheet, redex);
        steps.push(redex.rule);
    }
    (steps, used(&sheet).to_vec())
}

/// A rule that is an at-least of these members.
fn least(asked: usize, members: &[u16]) -> Vec<u16> {
    [&[at_least(asked, members.len())], members].concat()
}

#[test]
fn at_leasts_take_the_steps_of_document_02() {
    let [p, q, r, s] = MARKS;
    let [not_p, not_q, ..] = BARRED;
    let cases: [(Vec<Vec<u16>>, &[usize], Vec<u16>); 9] = [
        // Two are out, so the other two are in.
        (
            vec![least(2, &MARKS), vec![not_p], vec![not_q]],
            &[10, 10, 15, 15, 17, 12, 7],
            vec![node(ROOT, 4), r, s, not_p, not_q],
        ),
        // None of two; three of two.
        (vec![least(0, &[p, q])], &[16, 6], vec![node(ROOT, 0)]),
        (vec![least(3, &[p, q])], &[16], vec![node(ROOT, 1), FALSE]),
        // A true one counts, a false one does not.
        (
            vec![least(2, &[p, TRUE, q, FALSE])],
            &[15, 15, 17],
            vec![node(ROOT, 1), node(ANY, 2), p, q],
        ),
        // What is asked for does not fall below none.
        (
            vec![least(0, &[TRUE, p])],
            &[15, 16, 6],
            vec![node(ROOT, 0)],
        ),
        // None of none is true by rule 16, before rule 17 could make it so; one of none is false.
        (vec![least(0, &[])], &[16, 6], vec![node(ROOT, 0)]),
        (vec![least(1, &[])], &[16], vec![node(ROOT, 1), FALSE]),
        // One of one is an any-of.
        (vec![least(1, &[q])], &[17, 8], vec![node(ROOT, 1), q]),
        // Nothing to do.
        (
            vec![least(2, &[p, q, r])],
            &[],
            vec![node(ROOT, 1), at_least(2, 3), p, q, r],
        ),
    ];
    for (bodies, steps, left) in cases {
        assert_eq!(house_steps(&bodies), (steps.to_vec(), left), "{bodies:x?}");
    }
}

#[test]
fn at_leasts_want_marks_of_distinct_options_and_constants() {
    let [p, q, ..] = MARKS;
    let not_p = BARRED[0];
    let inner = least(1, &[q]);
    let accepted = [
        least(2, &[p, q, TRUE, FALSE, TRUE]),
        least(63, &[TRUE; 63]),
        least(63, &[]),
        [&[node(ALL, 1)], least(0, &[not_p]).as_slice()].concat(),
    ];
    let refused = [
        least(1, &[p, p]),
        least(1, &[p, q, not_p]),
        [&[at_least(1, 2), p], inner.as_slice()].concat(),
        vec![at_least(1, 1), node(ALL, 1), p],
        vec![at_least(1, 1), node(ANY, 1), p],
        vec![at_least(1, 1), at_least(0, 0)],
        vec![at_least(1, 1), literal(4, false)],
        vec![at_least(1, 2), p],
        vec![at_least(0, 0), p],
    ];
    for (bodies, due) in [(&accepted[..], 0), (&refused[..], 5)] {
        for body in bodies {
            let mut sheet = [0; LENGTH];
            let bytes = book(4, &[body.clone()]);
            assert_eq!(load::load(&bytes, &mut sheet), due, "{body:x?}");
            (sheet[0], sheet[1], sheet[2]) = (4, 1 + body.len() as u16, node(ROOT, 1));
            sheet[3..3 + body.len()].copy_from_slice(body);
            assert_eq!(is_sheet(&sheet), due == 0, "{body:x?}");
        }
    }
}

/// The report, and whether the sheet is contradictory, by one method.
fn reported(sheet: &Sheet, report: impl Fn(&[u16], &mut [u8]) -> bool) -> (bool, Vec<u8>) {
    let mut out = vec![9; usize::from(sheet[0])];
    (report(sheet, &mut out), out)
}

/// Random sheets with at-leasts that can be multiplied out.
fn random_sheets(seed: u64, count: usize) -> Vec<Sheet> {
    let random = &mut Random::new(seed);
    let mut sheets = Vec::new();
    while sheets.len() < count {
        let weight = random.pick(&[12, 25, 60]);
        let sheet = loaded(&book_with_leasts(random, weight, 40));
        let has_leasts = used(&sheet).iter().any(|&node| kind(node) == LEAST);
        if has_leasts && clauses::effort(used(&sheet)) < 500 {
            sheets.push(sheet);
        }
    }
    sheets
}

/// The report by clauses, which the others must give too.
fn report_due(sheet: &Sheet) -> (bool, Vec<u8>) {
    let all = clauses::multiplied_out(used(sheet));
    assert_eq!(clauses::count(used(sheet)), all.len() as u128);
    let due = reported(sheet, |_, out| clauses::report(&all, out));
    assert_eq!(reported(sheet, parts::report), due, "{:x?}", used(sheet));
    assert_eq!(reported(sheet, sweep::report), due, "{:x?}", used(sheet));
    due
}

#[test]
fn reports_are_those_of_the_clauses_before_and_after_any_step() {
    let random = &mut Random::new(2);
    let (mut contradictory, mut forcing, mut seen) = (0, 0, Steps::default());
    for mut sheet in random_sheets(1, 3000) {
        let due = report_due(&sheet);
        contradictory += usize::from(due.0);
        forcing += usize::from(due.1.iter().any(|&byte| byte == 1 || byte == 2));
        for _ in 0..3 {
            let mut bounds = Bounds::new(used(&sheet));
            let Some(step) = any_step(random, flat(&sheet, &bounds)) else {
                break;
            };
            bounds.step(&mut sheet, step);
            seen[step.rule] += 1;
            assert!(is_sheet(&sheet), "{step:?} left {:x?}", used(&sheet));
            if clauses::effort(used(&sheet)) < 5000 {
                assert_eq!(report_due(&sheet), due, "{step:?} to {:x?}", used(&sheet));
            }
        }
        let mut index = index_of(&sheet);
        bounds::run(&mut sheet, &mut index, u64::MAX);
        assert_eq!(index, index_of(&sheet));
        assert_eq!(reported(&sheet, parts::report), due);
    }
    assert!(contradictory > 100 && forcing > 100);
    assert!(seen[1..].iter().all(|&steps| steps > 10), "{seen:?}");
}

/// The index of a sheet, option by option, each by a pass of its own.
fn index_due(sheet: &Sheet) -> Vec<u16> {
    let entry = |option: usize| {
        let marks = [false, true].map(|barred| literal(option, barred));
        let mut places = (0u16..).zip(used(sheet));
        let mut found = (&mut places).filter(|(_, node)| marks.contains(node));
        let first = found.next().map_or(65_535, |(place, _)| place);
        let more = found.count() as u16;
        [if first == 65_535 { 0 } else { 1 + more }, first]
    };
    (0..usize::from(sheet[0])).flat_map(entry).collect()
}

#[test]
fn an_index_has_two_numbers_an_option() {
    let [p, q, ..] = MARKS;
    let not_q = BARRED[1];
    let bodies = [vec![node(ANY, 2), p, q], least(1, &[p, not_q]), vec![p]];
    let sheet = loaded(&book(4, &bodies));
    let mut index = [9; 10];
    assert_eq!(index::fill(&sheet, &mut index), 0);
    assert_eq!(index, [3, 2, 2, 3, 0, 65_535, 0, 65_535, 9, 9]);
    let mut short = [9; 7];
    assert_eq!(index::fill(&sheet, &mut short), 12);
    assert_eq!(index::fill(&sheet[1..], &mut short), 11);
    assert_eq!(short, [9; 7]);
    assert_eq!(index::fill(&loaded(&[0; 8]), &mut []), 0);
}

#[test]
fn no_step_raises_a_count() {
    let random = &mut Random::new(4);
    let (mut seen, mut lowered) = (Steps::default(), 0);
    for mut sheet in random_sheets(5, 1500) {
        for _ in 0..6 {
            let before = index_due(&sheet);
            assert_eq!(index_of(&sheet)[..before.len()], before);
            let mut bounds = Bounds::new(used(&sheet));
            let Some(step) = any_step(random, flat(&sheet, &bounds)) else {
                break;
            };
            bounds.step(&mut sheet, step);
            seen[step.rule] += 1;
            let counts = index_due(&sheet).into_iter().zip(before).step_by(2);
            for (count, before) in counts {
                assert!(count <= before, "{step:?} to {:x?}", used(&sheet));
                lowered += usize::from(count < before);
            }
        }
    }
    assert!(lowered > 1000);
    assert!(seen[1..].iter().all(|&steps| steps > 10), "{seen:?}");
}

/// An order of four options whose book has one rule, P or Q, with so many lines not R.
fn order(lines: u16) -> (Order, Vec<u8>) {
    let [p, q, ..] = MARKS;
    let bytes = book(4, &[vec![node(ANY, 2), p, q]]);
    let line = Line {
        option: 2,
        negative: true,
    };
    let sheet = loaded(&bytes);
    let mut order = Order {
        sheet,
        lines: vec![line; SLOTS],
        count: 0,
        index: index_of(&sheet),
    };
    for _ in 0..lines {
        assert_eq!(lines::key(&mut order, 2, true), 0);
    }
    (order, bytes)
}

#[test]
fn keyings_and_withdrawals_keep_the_index() {
    let (mut order, bytes) = order(3);
    assert_eq!(order.index[..8], [1, 2, 1, 3, 3, 4, 0, 65_535]);
    assert_eq!(order.index[8..], [7; 3]);
    assert_eq!(lines::key(&mut order, 0, true), 0);
    assert_eq!(order.index[..2], [2, 2]);
    bounds::run(&mut order.sheet, &mut order.index, u64::MAX);
    assert_eq!(order.index, index_of(&order.sheet));
    assert_eq!(lines::withdraw(&mut order, &bytes, 3), 0);
    assert_eq!(order.index[..8], [1, 2, 1, 3, 3, 4, 0, 65_535]);
    assert_eq!(order.index[8..], [7; 3]);
}

/// A stale index is 11 with the other 11s, before 14, 13, 7 and 8; a short one is 12 after all.
#[test]
fn indexes_are_refused_in_their_order() {
    let (few, bytes) = order(2);
    let (many, _) = order(64);
    let (mut wrong, mut full) = (few.clone(), few.clone());
    wrong.count = 65;
    // Of weight 4,096 and of one more.
    let [whole, heavy] = [4093, 4094].map(|trues| {
        let mut bodies = vec![vec![TRUE]; trues];
        bodies.push(vec![MARKS[0]]);
        book(4, &bodies)
    });
    full.sheet = loaded(&whole);
    full.index = index_of(&full.sheet);
    let keyings = [
        (&wrong, 0, 11),
        (&many, 4, 14),
        (&few, 4, 7),
        (&full, 0, 8),
        (&few, 0, 0),
    ];
    let withdrawals = [
        (&few, &bytes[1..], 0, 2),
        (&few, &bytes[..bytes.len() - 1], 0, 1),
        (&few, &heavy, 0, 6),
        (&wrong, &bytes, 0, 11),
        (&few, &bytes, 2, 13),
        (&few, &whole, 0, 8),
        (&few, &bytes, 0, 0),
    ];
    for (order, option, due) in keyings {
        refused(order, due, |order| lines::key(order, option, false));
    }
    for (order, book, k, due) in withdrawals {
        refused(order, due, |order| lines::withdraw(order, book, k));
    }
}

/// A call with a right index, a stale and a short one; what is due is due with the first.
fn refused(order: &Order, due: u64, call: impl Fn(&mut Order) -> u64) {
    let early = matches!(due, 1..=6 | 11);
    let (mut stale, mut short) = (order.clone(), order.clone());
    stale.index[7] = 0;
    short.index.truncate(7);
    let with_stale = if early { due } else { 11 };
    let with_short = if due == 0 { 12 } else { due };
    for (mut order, due) in [
        (order.clone(), due),
        (stale, with_stale),
        (short, with_short),
    ] {
        let before = order.clone();
        assert_eq!(call(&mut order), due);
        assert!(
            due == 0 || order == before,
            "a refused call changed something"
        );
    }
}

/// Lines that name an option each, in the first slots.
fn lines_of(named: &[(u16, bool)]) -> [Line; SLOTS] {
    let mut lines = NO_LINES;
    for (slot, &(option, negative)) in lines.iter_mut().zip(named) {
        *slot = Line { option, negative };
    }
    lines
}

/// The sheet of a book, with lines keyed and then a whole run.
fn settled(bytes: &[u8], keyed: &[(u16, bool)]) -> Sheet {
    let sheet = loaded(bytes);
    let mut order = Order {
        sheet,
        lines: NO_LINES.to_vec(),
        count: 0,
        index: index_of(&sheet),
    };
    for &(option, negative) in keyed {
        assert_eq!(lines::key(&mut order, option.into(), negative), 0);
    }
    bounds::run(&mut order.sheet, &mut order.index, u64::MAX);
    order.sheet
}

/// Books of four options, whether they are complete alone, and whether with P and not R keyed.
#[test]
fn what_is_named_must_be_settled() {
    let [p, q, r, s] = MARKS;
    let [not_p, not_q, ..] = BARRED;
    let any = |marks: &[u16]| [&[node(ANY, marks.len())], marks].concat();
    let cases: [(Vec<Vec<u16>>, bool, bool); 11] = [
        // Nothing is named, or by the lines alone.
        (vec![], true, true),
        (vec![vec![TRUE]], true, true),
        // The other options are reserved.
        (vec![vec![p]], true, true),
        (vec![vec![not_q]], true, true),
        // Named and open; with P keyed, a step removes the last mark of Q.
        (vec![any(&[p, q])], false, false),
        (vec![any(&[not_p, q])], false, true),
        (vec![least(1, &[p, q, s])], false, false),
        (vec![least(0, &[s])], false, false),
        // Contradictory, alone or with the lines.
        (vec![vec![FALSE]], false, false),
        (vec![vec![p], vec![not_p]], false, false),
        (vec![vec![r]], true, false),
    ];
    for (bodies, alone, keyed) in cases {
        let bytes = book(4, &bodies);
        let choices = [(0, false), (2, true)];
        for sheet in [loaded(&bytes), settled(&bytes, &[])] {
            let answer = complete(&sheet, &bytes, &NO_LINES, 0);
            assert_eq!(answer, 256 * u64::from(alone), "{bodies:x?}");
        }
        let sheet = settled(&bytes, &choices);
        let answer = complete(&sheet, &bytes, &lines_of(&choices), 2);
        assert_eq!(answer, 256 * u64::from(keyed), "{bodies:x?} with lines");
    }
    let none = [vec![], vec![vec![FALSE]]].map(|bodies| book(0, &bodies));
    let answers = none.map(|bytes| complete(&loaded(&bytes), &bytes, &NO_LINES, 0));
    assert_eq!(answers, [256, 0]);
}

/// The book and the counted lines that are lent say what is named, and the sheet does not.
#[test]
fn the_sheet_names_nothing() {
    let [p, q, ..] = MARKS;
    let either = book(4, &[vec![node(ANY, 2), p, q]]);
    let [only_p, only_q] = [p, q].map(|mark| book(4, &[vec![mark]]));
    let sheet = settled(&either, &[(0, false)]);
    assert_eq!(used(&sheet), [node(ROOT, 1), p]);
    let lines = lines_of(&[(0, false), (3, false), (4, false)]);
    let cases = [
        // On the sheet P is all that is left.
        (&either, 0, 0),
        (&only_q, 0, 0),
        (&only_p, 0, 256),
        // P is in and S is open; the third line names no option.
        (&only_p, 1, 256),
        (&only_p, 2, 0),
        (&only_p, 3, 11),
    ];
    for (book, count, due) in cases {
        assert_eq!(complete(&sheet, book, &lines, count), due, "{count} lines");
    }
    // Q is open on the sheet, but neither book nor line names it.
    let open = loaded(&either);
    assert_eq!(complete(&open, &book(4, &[]), &NO_LINES, 0), 256);
}

#[test]
fn the_question_is_refused_in_its_order() {
    let good = book(4, &[vec![MARKS[0]]]);
    let sheet = loaded(&good);
    let short = &good[..good.len() - 1];
    let other = book(3, &[]);
    let heavy = book(4, &vec![vec![MARKS[0]]; 2048]);
    // A byte changed in the head, in a code, in the contents and in the body.
    let [head, code, contents, body] = [6, 8, 60, 65].map(|at| {
        let mut bytes = good.clone();
        bytes[at] ^= 64;
        bytes
    });
    let past = lines_of(&[(4, false)]);
    let longer = [NO_LINES.as_slice(), &NO_LINES[..1]].concat();
    let cases: [(&[u16], &[u8], &[Line], u16, u64); 15] = [
        (&sheet[1..], short, &past, 65, 11),
        (&[], short, &[], 0, 11),
        (&sheet, short, &past, 65, 1),
        (&sheet, &head, &past, 65, 2),
        (&sheet, &code, &past, 1, 3),
        (&sheet, &contents, &[], 0, 4),
        (&sheet, &body, &past, 1, 5),
        (&sheet, &heavy, &past, 1, 6),
        (&sheet, &other, &NO_LINES, 0, 11),
        (&sheet, &good, &past, 1, 11),
        (&sheet, &good, &past, 0, 256),
        (&sheet, &good, &NO_LINES[1..], 0, 11),
        (&sheet, &good, &longer, 0, 11),
        (&sheet, &good, &NO_LINES, 65, 11),
        (&sheet, &good, &NO_LINES, 64, 256),
    ];
    for (at, (sheet, book, lines, count, due)) in cases.into_iter().enumerate() {
        assert_eq!(complete(sheet, book, lines, count), due, "case {at}");
    }
}

/// Whether an order is complete, by the clauses of its book and its lines.
fn complete_by_clauses(bytes: &[u8], lines: &[Line]) -> bool {
    let fresh = loaded(bytes);
    let marks = lines
        .iter()
        .map(|line| literal(usize::from(line.option), line.negative));
    let mut all = clauses::multiplied_out(used(&fresh));
    all.extend(marks.clone().map(|mark| vec![mark]));
    let (contradictory, report) = reported(&fresh, |_, out| clauses::report(&all, out));
    let in_book = used(&fresh)
        .iter()
        .copied()
        .filter(|&node| is_literal(node));
    let mut named = in_book.chain(marks).map(value);
    !contradictory && named.all(|option| matches!(report[option], 1 | 2))
}

/// Random orders, keyed and run as far as one likes, beside their clauses.
#[test]
fn complete_is_what_the_clauses_say() {
    let random = &mut Random::new(6);
    let (mut seen, mut reserved) = ([0; 2], 0);
    while seen.iter().sum::<usize>() < 4000 {
        let weight = random.pick(&[6, 12, 25]);
        let bytes = book_with_leasts(random, weight, 40);
        let sheet = loaded(&bytes);
        if clauses::effort(used(&sheet)) > 500 {
            continue;
        }
        let mut order = Order {
            sheet,
            lines: NO_LINES.to_vec(),
            count: 0,
            index: index_of(&sheet),
        };
        for _ in 0..random.below(6) {
            let option = random.below(usize::from(sheet[0]) + 1) as u64;
            lines::key(&mut order, option, random.one_in(3));
        }
        let budget = random.pick(&[0, 1, 3, u64::MAX]);
        bounds::run(&mut order.sheet, &mut order.index, budget);
        let due = complete_by_clauses(&bytes, &order.lines[..usize::from(order.count)]);
        let answer = complete(&order.sheet, &bytes, &order.lines, order.count);
        assert_eq!(answer, 256 * u64::from(due), "{:x?}", used(&sheet));
        seen[usize::from(due)] += 1;
        let open = reported(&order.sheet, parts::report).1.contains(&0);
        reserved += usize::from(due && open);
    }
    assert!(seen[0] > 500 && seen[1] > 500 && reserved > 100);
}

#[test]
fn both_searches_take_the_same_steps() {
    let mut seen = Steps::default();
    for sheet in random_sheets(3, 1000) {
        follow(&sheet, &mut seen);
    }
    assert!(seen[15..].iter().all(|&steps| steps > 100), "{seen:?}");
}
