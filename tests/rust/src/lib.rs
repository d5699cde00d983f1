//! Outside tests of the C-callable book check, code lookup, index of mentions and import of
//! clause files.
//!
//! `reference` is a second version of the first three, written from documents 01 and 02
//! alone, `reference_import` one of the import; `ffi` calls the library under test; `books`
//! makes books, whole and damaged, `at_leasts` puts nodes of kind 6 into them, and `sheets`
//! makes sheets of them with indexes beside them; `clause_files` makes clause files, whole
//! and damaged, and `clause_examples` has some that are written by hand.
//! The tests themselves are in `tests/`.

pub mod at_leasts;
pub mod books;
pub mod clause_examples;
pub mod clause_files;
pub mod ffi;
pub mod random;
pub mod reference;
pub mod reference_import;
pub mod sheets;
