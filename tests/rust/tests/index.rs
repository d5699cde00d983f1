//! The index of mentions: the call that fills one against the reference, on tens of thousands
//! of sheets, and which indexes a run is refused.

use nibdrumlin_tests::at_leasts::with_at_leasts;
use nibdrumlin_tests::books::{self, size_of_weight, Book, LIKENESSES, SHAPES};
use nibdrumlin_tests::random::Random;
use nibdrumlin_tests::sheets::{any_index, damaged, near_index, sheet, PAST};
use nibdrumlin_tests::{ffi, reference};

/// Numbers before and after whatever is lent.
const MARGIN: usize = 8;
const FILL: u16 = 0xA5A5;

/// What was compared: calls by refusal, 0 for the accepted.
#[derive(Default)]
struct Seen {
    filled: [u64; 13],
    run: [u64; 13],
}

/// Numbers to lend, between others that nobody may write.
struct Lent(Vec<u16>);

impl Lent {
    fn new(numbers: &[u16]) -> Lent {
        Lent([&[FILL; MARGIN], numbers, &[FILL; MARGIN]].concat())
    }

    fn part(&mut self) -> &mut [u16] {
        let end = self.0.len() - MARGIN;
        &mut self.0[MARGIN..end]
    }

    #[track_caller]
    fn must_hold(&self, numbers: &[u16], what: &str) {
        assert_eq!(self.0, Lent::new(numbers).0, "{what}");
    }
}

/// Fills the index both ways; what it holds after.
#[track_caller]
fn fill(seen: &mut Seen, sheet: &[u16], index: &[u16]) -> Vec<u16> {
    let (due, after) = reference::index(sheet, index);
    let (mut lent_sheet, mut lent_index) = (Lent::new(sheet), Lent::new(index));
    let answer = ffi::index(lent_sheet.part(), lent_index.part());
    assert_eq!(
        answer,
        due,
        "filled from {:?} ..",
        &sheet[..sheet.len().min(40)]
    );
    lent_sheet.must_hold(sheet, "a sheet that an index is filled from");
    lent_index.must_hold(&after, "an index, filled or refused");
    seen.filled[answer as usize] += 1;
    after
}

/// A run of no steps with this index: its refusal alone, since whether a rule applies is
/// nothing that the reference knows.  No step is done, so sheet and index stay.
#[track_caller]
fn run(seen: &mut Seen, sheet: &[u16], index: &[u16]) {
    let due = reference::run_refusal(sheet, index);
    let (mut lent_sheet, mut lent_index) = (Lent::new(sheet), Lent::new(index));
    let refusal = ffi::run(lent_sheet.part(), lent_index.part(), 0) & 255;
    assert_eq!(refusal, due, "a run with the index {index:?}");
    lent_sheet.must_hold(sheet, "a sheet after a run of no steps");
    lent_index.must_hold(index, "an index after a run of no steps");
    seen.run[refusal as usize] += 1;
}

fn compare(random: &mut Random, seen: &mut Seen, book: &Book) {
    let whole = sheet(book);
    let index = any_index(random, book.codes.len());
    fill(seen, &whole, &index);
    let right = fill(seen, &whole, &vec![7; 2 * book.codes.len()]);
    run(seen, &whole, &right);
    run(seen, &whole, &near_index(random, &right));
    let bad = damaged(random, whole);
    let index = any_index(random, book.codes.len());
    fill(seen, &bad, &index);
    run(seen, &bad, &near_index(random, &right));
    run(seen, &bad, &reference::index(&bad, &vec![7; 1024]).1);
}

#[test]
fn library_equals_reference() {
    let (mut random, mut seen) = (Random::new(5), Seen::default());
    for _ in 0..20_000 {
        let book = books::small(&mut random, 6, 14);
        let book = with_at_leasts(&mut random, book);
        compare(&mut random, &mut seen, &book);
    }
    for _ in 0..300 {
        let options = random.pick(&[1, 2, 255, 256, 257, 511, 512]);
        let weight = random.pick(&[1, 300, 1000, 4095, 4096]);
        let size = size_of_weight(&mut random, options, weight);
        let (likeness, shape) = (random.pick(&LIKENESSES), random.pick(&SHAPES));
        let book = books::book(&mut random, size, likeness, shape);
        compare(&mut random, &mut seen, &book);
    }
    println!(
        "index: filled, by refusal from 0 {:?}; runs {:?}",
        seen.filled, seen.run
    );
    for refusal in [0, 11, 12] {
        assert!(seen.filled[refusal] >= 1000, "filled {refusal}: too few");
        assert!(seen.run[refusal] >= 1000, "runs {refusal}: too few");
    }
}

/// Each number of an index changed, on a sheet of 512 options.
#[test]
fn every_number() {
    let mut seen = Seen::default();
    let nodes: Vec<u16> = (0..512)
        .map(|at| books::node(1 + at % 2, usize::from(at)))
        .collect();
    let codes = (0..512)
        .map(|at| books::code(format!("C{at}").as_bytes()))
        .collect();
    let bodies: Vec<Vec<u16>> = nodes.iter().map(|&mark| vec![mark]).collect();
    let whole = sheet(&Book::new(codes, &bodies));
    let right = fill(&mut seen, &whole, &[[7; 1024].as_slice(), &PAST].concat());
    for at in 0..right.len() {
        let mut other = right.clone();
        other[at] ^= 1 << (at % 16);
        run(&mut seen, &whole, &other);
    }
    assert_eq!(seen.run[11], 1024, "a changed number is no matter");
    assert_eq!(
        seen.run[0],
        PAST.len() as u64,
        "a number past twice N is looked at"
    );
}

/// An index of no numbers, by a pointer to something and by a null pointer.
#[test]
fn empty_index() {
    let (none, one) = (
        Book::new(vec![], &[]),
        Book::new(vec![books::code(b"P")], &[]),
    );
    for (book, due) in [(none, 0), (one, 12)] {
        assert_eq!(ffi::index(&sheet(&book), &mut []), due);
        assert_eq!(ffi::index_null(&sheet(&book)), due);
    }
    assert_eq!(ffi::index_null(&[]), 11);
}
