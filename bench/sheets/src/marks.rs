//! The parts of a document that a program writes: each stands between two marks of its own.

use std::fs;

/// Puts the text between the marks of this name in a file.
pub fn put(file: &str, name: &str, text: &str) {
    let [from, to] = ["from", "to"].map(|end| format!("<!-- {name}: {end} here -->\n"));
    let old = fs::read_to_string(file).expect("the document is read");
    let (before, rest) = old.split_once(&from).expect("the first mark");
    let (_, after) = rest.split_once(&to).expect("the last mark");
    fs::write(file, format!("{before}{from}\n{text}\n\n{to}{after}")).expect("it is written");
}
