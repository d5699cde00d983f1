//! The import of clause files: the library against the reference, on texts written by hand
//! and on tens of thousands that are generated, whole and damaged.

use nibdrumlin_tests::clause_examples::{self, file, ACCEPTED, OTHER_FORMS};
use nibdrumlin_tests::clause_files::{long_numbers, scramble, scribbled, ClauseFile, FAULTS};
use nibdrumlin_tests::random::Random;
use nibdrumlin_tests::{ffi, reference, reference_import};

/// Bytes before and after whatever is lent.
const MARGIN: usize = 16;
const FILL: u8 = 0xA5;

/// What an output holds before a call.
const HELD: u8 = 0x5A;

/// Longer than any book, which has 8 + 13 x 512 + 4 x 4,095 + 2 x 4,095 bytes at most.
const PLENTY: usize = 32_000;

/// What was compared: calls by refusal, 0 for the accepted.
#[derive(Default)]
struct Seen([u64; 17]);

/// Bytes to lend, between others that nobody may write.
struct Lent(Vec<u8>);

impl Lent {
    fn new(bytes: &[u8]) -> Lent {
        Lent([&[FILL; MARGIN], bytes, &[FILL; MARGIN]].concat())
    }

    fn part(&mut self) -> &mut [u8] {
        let end = self.0.len() - MARGIN;
        &mut self.0[MARGIN..end]
    }

    #[track_caller]
    fn must_hold(&self, bytes: &[u8], what: &str) {
        assert!(self.0 == Lent::new(bytes).0, "{what}");
    }
}

/// The first bytes of a text, to be shown.
fn shown(text: &[u8]) -> String {
    let first = &text[..text.len().min(200)];
    format!("{} bytes: {}", text.len(), first.escape_ascii())
}

/// Imports a text both ways, into an output of this length: the answer.
#[track_caller]
fn import(seen: &mut Seen, text: &[u8], room: usize) -> u64 {
    let out = vec![HELD; room];
    let (due, after) = reference_import::import(text, &out);
    let (mut lent_text, mut lent_out) = (Lent::new(text), Lent::new(&out));
    let answer = ffi::import(lent_text.part(), lent_out.part());
    assert_eq!(answer, due, "{}", shown(text));
    lent_text.must_hold(text, "a text that was imported");
    lent_out.must_hold(&after, "the output of an import");
    seen.0[(answer % 256) as usize] += 1;
    answer
}

/// Imports a text of which a book can be made, into outputs of several lengths; the book must
/// be the one due, which the book check accepts.
#[track_caller]
fn accept(seen: &mut Seen, text: &[u8], due: &[u8]) {
    let length = due.len();
    let mut out = vec![HELD; length];
    assert_eq!(ffi::import(text, &mut out), (length as u64) << 8);
    assert!(out == due, "another book: {}", shown(text));
    for check in [ffi::book_check, reference::book_check] {
        assert_eq!(check(&out), 0, "the book is refused: {}", shown(text));
    }
    for room in [length, length + 1, length + 40] {
        assert_eq!(import(seen, text, room) % 256, 0);
    }
    for room in [0, 7, 8, length - 1] {
        let due = if room < length { 12 } else { 0 };
        assert_eq!(import(seen, text, room) % 256, due);
    }
}

/// Imports a text that is refused so, whatever the length of the output.
#[track_caller]
fn refuse(seen: &mut Seen, text: &[u8], due: u64) {
    for room in [0, 8, PLENTY] {
        assert_eq!(import(seen, text, room), due, "{}", shown(text));
    }
}

#[test]
fn texts_written_by_hand() {
    let mut seen = Seen::default();
    let (text, book) = (clause_examples::WHOLE_TEXT, clause_examples::WHOLE_BOOK);
    accept(&mut seen, text, &book);
    for (text, options, clauses) in ACCEPTED {
        accept(&mut seen, text, &file(options, clauses).book().bytes());
    }
    for text in OTHER_FORMS {
        refuse(&mut seen, text, 15);
    }
    for text in clause_examples::large_and_of_another_form() {
        refuse(&mut seen, &text, 15);
    }
    for text in clause_examples::too_large() {
        refuse(&mut seen, &text, 16);
    }
    let mut random = Random::new(7);
    for file in clause_examples::just_accepted() {
        let text = file.text(&mut random);
        accept(&mut seen, &text, &file.book().bytes());
    }
}

/// Each byte of a text changed to each other one, and each byte left out.
#[test]
fn every_byte() {
    let mut seen = Seen::default();
    let text = b"c x\r\np cnf 12 2\n1 -12 0\r\n\t0";
    assert_eq!(import(&mut seen, text, PLENTY) % 256, 0);
    for at in 0..text.len() {
        for byte in 0..=255 {
            let mut other = text.to_vec();
            other[at] = byte;
            import(&mut seen, &other, PLENTY);
            other = text.to_vec();
            other.insert(at, byte);
            import(&mut seen, &other, PLENTY);
        }
        let mut other = text.to_vec();
        other.remove(at);
        import(&mut seen, &other, PLENTY);
        import(&mut seen, &text[..at], PLENTY);
    }
    println!("import: every byte, by refusal from 0 {:?}", seen.0);
    assert!(seen.0[0] >= 1000 && seen.0[15] >= 10_000);
}

/// A file whose weight is this one or, where its counts do not allow that, one more.
fn of_weight(random: &mut Random, options: usize, weight: usize) -> ClauseFile {
    let marks = random.within(0, (weight - 1) / 2 - 1);
    let clauses = (weight - 1 - 2 * marks).max(1);
    ClauseFile::any(random, options, clauses, marks)
}

/// Texts of files at the limits and around them.
fn at_the_limits(random: &mut Random, seen: &mut Seen) {
    for _ in 0..400 {
        let options = random.pick(&[1, 2, 100, 511, 512, 513]);
        let weight = random.within(4093, 4100);
        let file = of_weight(random, options, weight);
        let mut text = file.text(random);
        if file.fits() {
            accept(seen, &text, &file.book().bytes());
        } else {
            refuse(seen, &text, 16);
        }
        let fault = random.pick(&FAULTS);
        refuse(seen, &file.damaged(random, fault), 15);
        scramble(random, &mut text);
        import(seen, &text, PLENTY);
    }
}

#[test]
fn library_equals_reference() {
    let (mut random, mut seen) = (Random::new(7), Seen::default());
    for _ in 0..20_000 {
        let file = ClauseFile::small(&mut random);
        let mut text = file.text(&mut random);
        accept(&mut seen, &text, &file.book().bytes());
        scramble(&mut random, &mut text);
        import(&mut seen, &text, PLENTY);
        import(&mut seen, &scribbled(&mut random), PLENTY);
        import(&mut seen, &long_numbers(&mut random), PLENTY);
    }
    for fault in FAULTS {
        for _ in 0..2_000 {
            let file = ClauseFile::small(&mut random);
            refuse(&mut seen, &file.damaged(&mut random, fault), 15);
        }
    }
    at_the_limits(&mut random, &mut seen);
    println!("import: by refusal from 0 {:?}", seen.0);
    for (refusal, least) in [(0, 50_000), (12, 50_000), (15, 50_000), (16, 5000)] {
        assert!(seen.0[refusal] >= least, "refused {refusal}: too few");
    }
}

/// Texts and outputs of no bytes, by a pointer to something and by a null pointer.
#[test]
fn nothing_lent() {
    assert_eq!(ffi::import(b"", &mut []), 15);
    assert_eq!(ffi::import_null(b""), 15);
    assert_eq!(ffi::import_null(b"p cnf 513 0"), 16);
    assert_eq!(ffi::import_null(b"p cnf 0 0"), 12);
}
