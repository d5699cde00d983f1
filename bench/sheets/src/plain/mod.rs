//! Sheets in plain Rust, from documents 01 and 02: the loader, keying and taking back, the run by
//! three searches, the report by two methods, the "complete" question, the index of mentions; and
//! the import of clause files.

pub mod bounds;
pub mod complete;
pub mod fast;
pub mod flat;
pub mod import;
pub mod index;
pub mod least;
pub mod lines;
pub mod load;
pub mod parts;
pub mod rules;
pub mod simple;
pub mod steps;
pub mod sweep;
