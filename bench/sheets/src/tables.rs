//! The measurements as Markdown.

use crate::figures::{count, time};
use crate::imports;
use crate::measure::mean;
use crate::rows::{Growth, Row};
use std::fmt::Write;

fn ratio(number: f64) -> String {
    let digits = if number < 9.95 { 1 } else { 0 };
    format!("{number:.digits$}")
}

/// How a time grew from half the weight.
fn growth(row: &Row, of: impl Fn(Growth) -> Option<f64>) -> String {
    row.growth.and_then(of).map_or(String::new(), ratio)
}

/// Name, weight and nodes; the name once a family.
fn head(rows: &[Row], at: usize) -> String {
    let row = &rows[at];
    let is_first = at == 0 || rows[at - 1].name != row.name;
    format!(
        "| {} | {} | {} |",
        if is_first { &row.name } else { "" },
        count(row.weight as u64),
        count(row.nodes as u64)
    )
}

fn run_line(rows: &[Row], at: usize) -> String {
    let row = &rows[at];
    let steps = if row.is_whole() {
        count(row.steps)
    } else {
        format!("first {} of {}", count(row.timed), count(row.steps))
    };
    let a_step = row.step().map_or(String::new(), time);
    let simple = match row.simple {
        (0, _) => String::new(),
        (steps, seconds) => time(seconds / steps as f64),
    };
    format!(
        "{} {steps} | {} | {a_step} | {} | {} | {} | {simple} |",
        head(rows, at),
        time(row.run[0]),
        growth(row, |growth| growth.step),
        time(row.run[1]),
        ratio(row.run[0] / row.run[1]),
    )
}

/// The runs.
pub fn runs(rows: &[Row]) -> String {
    let mut text = String::from(
        "| family | weight | nodes | steps | run | a step | growth | plain, by bounds | ratio \
         | plain, simplest: a step |\n|---|--:|--:|--:|--:|--:|--:|--:|--:|--:|\n",
    );
    for at in 0..rows.len() {
        writeln!(text, "{}", run_line(rows, at)).expect("a string");
    }
    text
}

fn report_cells(row: &Row, times: [f64; 3], of: fn(Growth) -> f64) -> String {
    let [ours, parts, sweep] = times;
    format!(
        "{} | {} | {} | {} | {} |",
        time(ours),
        growth(row, |growth| Some(of(growth))),
        time(parts),
        ratio(ours / parts),
        time(sweep)
    )
}

/// The reports.
pub fn reports(rows: &[Row]) -> String {
    let mut text = String::from(
        "| family | weight | nodes | report | growth | plain, by parts | ratio | plain, by \
         sweeps | after the run | growth | plain, by parts | ratio | plain, by sweeps |\n\
         |---|--:|--:|--:|--:|--:|--:|--:|--:|--:|--:|--:|--:|\n",
    );
    for (at, row) in rows.iter().enumerate() {
        let before = report_cells(row, row.before, |growth| growth.before);
        let after = report_cells(row, row.after, |growth| growth.after);
        writeln!(text, "{} {before} {after}", head(rows, at)).expect("a string");
    }
    text
}

/// The orders of 64 lines.
pub fn orders(rows: &[Row]) -> String {
    let mut text = String::from(
        "| family | a keying | plain | ratio | a withdrawal | plain | ratio | plain, a load and 63 \
         keyings | ratio |\n|---|--:|--:|--:|--:|--:|--:|--:|--:|\n",
    );
    for row in rows {
        let Some(times) = row.order else {
            continue;
        };
        let ([key, plain_key], [ours, plain, again]) = (times.key, times.withdraw);
        writeln!(
            text,
            "| {} | {} | {} | {} | {} | {} | {} | {} | {:.2} |",
            row.name,
            time(key),
            time(plain_key),
            ratio(key / plain_key),
            time(ours),
            time(plain),
            ratio(ours / plain),
            time(again),
            ours / again
        )
        .expect("a string");
    }
    text
}

/// The mean over the families of the "complete" question over a report, by both, as a sentence.
pub fn completes_said(rows: &[Row]) -> String {
    let (ours, plain): (Vec<f64>, Vec<f64>) = rows
        .iter()
        .filter_map(Row::complete_over_report)
        .map(|[ours, plain]| (ours, plain))
        .unzip();
    if ours.is_empty() {
        return "Not measured: no book has weight 4,096.".to_string();
    }
    format!(
        "Of a fresh sheet the question takes, in the mean over the families, {:.2} times as long \
         as a report of it; plain Rust's takes {:.2} times as long as its report by parts.",
        mean(&ours),
        mean(&plain)
    )
}

/// The "complete" question.
pub fn completes(rows: &[Row]) -> String {
    let mut text = String::from(
        "| family | complete | plain | ratio | over a report | after the run | plain | ratio \
         | over a report | 64 lines | plain | ratio | over a report |\n\
         |---|--:|--:|--:|--:|--:|--:|--:|--:|--:|--:|--:|--:|\n",
    );
    for row in rows {
        let Some(times) = row.complete else {
            continue;
        };
        let asked = times.each().map(|[ours, plain, report]| {
            format!("{} | {:.2}", cells([ours, plain]), ours / report)
        });
        writeln!(text, "| {} | {} |", row.name, asked.join(" | ")).expect("a string");
    }
    text
}

/// The times of the library and of plain Rust, with their ratio.
fn cells([ours, plain]: [f64; 2]) -> String {
    format!("{} | {} | {}", time(ours), time(plain), ratio(ours / plain))
}

/// The imports.
pub fn imports(rows: &[imports::Row]) -> String {
    let mut text = String::from(
        "| clause file | bytes | answer | import | plain | ratio | plain, comments by blocks \
         | ratio |\n|---|--:|---|--:|--:|--:|--:|--:|\n",
    );
    for row in rows {
        let answer = match row.refusal {
            0 => "accepted".to_string(),
            refusal => format!("refused {refusal}"),
        };
        let [ours, plain, by_blocks] = row.times;
        writeln!(
            text,
            "| {} | {} | {answer} | {} | {} | {:.2} | {} | {:.2} |",
            row.name,
            count(row.bytes as u64),
            time(ours),
            time(plain),
            ours / plain,
            time(by_blocks),
            ours / by_blocks
        )
        .expect("a string");
    }
    text
}

/// The checks, the loads and the indexes.
pub fn loads(rows: &[Row]) -> String {
    let mut text = String::from(
        "| family | weight | nodes | check | plain | ratio | load | plain | ratio | index | plain \
         | ratio |\n|---|--:|--:|--:|--:|--:|--:|--:|--:|--:|--:|--:|\n",
    );
    for (at, row) in rows.iter().enumerate() {
        let [check, load, index] = [row.check, row.load, row.index].map(cells);
        writeln!(text, "{} {check} | {load} | {index} |", head(rows, at)).expect("a string");
    }
    text
}
