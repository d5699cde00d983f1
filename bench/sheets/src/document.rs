//! The measured part of the document: all tables, with what the machine was like.

use crate::imports;
use crate::measure::Noise;
use crate::rows::Row;
use crate::{bars, figures, tables, toys};

/// The name of the marks between which a file holds what was measured.
pub const MARK: &str = "measured";

/// The most conjunctions of the multiplied-out toy books.
const TOYS: usize = 18;

/// The at-leasts that are multiplied out, as (asked, members).
const AT_LEASTS: [(usize, usize); 3] = [(2, 4), (10, 20), (32, 63)];

/// Which runs were stopped early, and why.
fn stopped_said(rows: &[Row], patience: f64) -> String {
    let stopped: Vec<String> = rows
        .iter()
        .filter(|row| !row.is_whole())
        .map(|row| {
            format!(
                "{} at weight {}",
                row.name,
                figures::count(row.weight as u64)
            )
        })
        .collect();
    if stopped.is_empty() {
        return "Every run was timed whole.".to_string();
    }
    format!(
        "Timed by their first steps only, on both sides, because the whole run would take the \
         library more than {patience} s: {}.",
        stopped.join("; ")
    )
}

/// All that was measured.
pub fn measured(
    rows: &[Row],
    imports: &[imports::Row],
    agreed: &[String],
    noise: &Noise,
    patience: f64,
) -> String {
    [
        agreed.join(" "),
        noise.said(),
        "### The bars".to_string(),
        bars::table(rows, imports),
        "### Runs".to_string(),
        stopped_said(rows, patience),
        tables::runs(rows),
        "### Reports".to_string(),
        tables::reports(rows),
        "### Checks, loads and indexes".to_string(),
        tables::loads(rows),
        "### Keyings and withdrawals".to_string(),
        tables::orders(rows),
        "### The \"complete\" question".to_string(),
        tables::completes_said(rows),
        tables::completes(rows),
        "### Imports".to_string(),
        tables::imports(imports),
        "### Multiplied out".to_string(),
        toys::table(TOYS),
        "### At-leasts multiplied out".to_string(),
        toys::at_least_table(&AT_LEASTS),
    ]
    .map(|part| part.trim_end().to_string())
    .join("\n\n")
}
