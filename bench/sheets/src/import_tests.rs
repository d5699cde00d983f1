//! Plain Rust's import held to document 02's U7 without the library: texts written by hand for
//! each of its sentences, and generated ones, whole and damaged, beside a slow reading by lines and
//! words.

use crate::clause_examples::{self, file, ACCEPTED, OTHER_FORMS};
use crate::clause_files::{long_numbers, scramble, scribbled, ClauseFile, FAULTS};
use crate::clause_texts::{self, LONGEST_BOOK};
use crate::imports::Import;
use crate::plain::import::{import, import_by_blocks};
use crate::plain::load::checked;
use crate::random::Random;
use crate::reference_import;
use std::collections::BTreeMap;

/// What an output holds before an import.
const HELD: u8 = 0x5A;

/// The answer to a text and the output after it, of this length; by both searches for line ends,
/// and as the slow reading has it.
#[track_caller]
fn imported(text: &[u8], room: usize) -> (u64, Vec<u8>) {
    let due = reference_import::import(text, &vec![HELD; room]);
    for import in [import as Import, import_by_blocks] {
        let mut out = vec![HELD; room];
        let answer = import(text, &mut out);
        assert_eq!(answer, due.0, "{}", text.escape_ascii());
        assert!(out == due.1, "{}", text.escape_ascii());
    }
    due
}

/// A text is accepted, with this book, in an output that just suffices or is longer.
#[track_caller]
fn accept(text: &[u8], book: &[u8]) {
    let answer = (book.len() as u64) << 8;
    let longer = [book, &[HELD; 3]].concat();
    assert_eq!(imported(text, book.len()), (answer, book.to_vec()));
    assert_eq!(imported(text, longer.len()), (answer, longer));
    assert!(checked(book).is_ok(), "{}", text.escape_ascii());
    for room in [0, book.len() - 1] {
        assert_eq!(imported(text, room), (12, vec![HELD; room]));
    }
}

/// A text is refused so, whether or not there is room.
#[track_caller]
fn refuse(text: &[u8], refusal: u64) {
    for room in [0, LONGEST_BOOK] {
        assert_eq!(imported(text, room), (refusal, vec![HELD; room]));
    }
}

#[test]
fn imports_follow_each_sentence() {
    accept(clause_examples::WHOLE_TEXT, &clause_examples::WHOLE_BOOK);
    for (text, options, clauses) in ACCEPTED {
        accept(text, &file(options, clauses).book().bytes());
    }
    for text in OTHER_FORMS {
        refuse(text, 15);
    }
}

#[test]
fn imports_are_refused_in_order() {
    for text in clause_examples::too_large() {
        refuse(&text, 16);
    }
    for text in clause_examples::large_and_of_another_form() {
        refuse(&text, 15);
    }
    let random = &mut Random::new(3);
    for file in clause_examples::just_accepted() {
        let text = file.text(random);
        accept(&text, &file.book().bytes());
        // One clause more than the p line says, or one mark that is not closed.
        for more in [" 0", " 1", "\n-1"] {
            refuse(&[&text, more.as_bytes()].concat(), 15);
        }
    }
}

#[test]
fn imports_read_generated_files_as_the_slow_reading_does() {
    let random = &mut Random::new(7);
    let mut seen = BTreeMap::new();
    for _ in 0..6000 {
        let file = ClauseFile::small(random);
        let mut text = file.text(random);
        accept(&text, &file.book().bytes());
        let fault = random.pick(&FAULTS);
        refuse(&file.damaged(random, fault), 15);
        scramble(random, &mut text);
        for text in [text, scribbled(random), long_numbers(random)] {
            let (answer, _) = imported(&text, LONGEST_BOOK);
            *seen.entry(answer % 256).or_insert(0) += 1;
        }
    }
    for refusal in [0, 15, 16] {
        assert!(seen[&refusal] >= 500, "{seen:?}");
    }
    assert_eq!(seen.len(), 3, "{seen:?}");
}

#[test]
fn imports_keep_the_limits() {
    let random = &mut Random::new(9);
    let (mut fitting, mut over) = (0, 0);
    for weight in (4090..=4100).chain([5000, 9000]) {
        for marks in [0, 1, 2, 100, 585 * 3, 2044, 2045, 2046, 2047, 2048] {
            let clauses = usize::max(1, (weight - 1usize).saturating_sub(2 * marks));
            let options = random.pick(&[1, 9, 511, 512, 513]);
            let file = ClauseFile::any(random, options, clauses, marks);
            let text = file.text(random);
            match file.fits() {
                true => accept(&text, &file.book().bytes()),
                false => refuse(&text, 16),
            }
            fitting += usize::from(file.fits());
            over += usize::from(!file.fits());
        }
    }
    assert!(fitting >= 30 && over >= 30, "{fitting} {over}");
}

#[test]
fn imports_of_the_timed_texts_are_answered_as_they_are_named() {
    for text in clause_texts::all() {
        let (answer, _) = imported(&text.text, LONGEST_BOOK);
        assert_eq!(answer % 256, text.refusal, "{}", text.name);
    }
}
