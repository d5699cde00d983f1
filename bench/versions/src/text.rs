//! What was compared and timed, as Markdown.

use crate::bars::Bars;
use crate::cases::{COMPLETE_SETTLED, REPORT_SETTLED, RUN_SETTLED};
use crate::figures::time;
use crate::timing::{Pair, Times, AGAIN};

/// The name of the marks between which a file holds this.
pub const MARK: &str = "before and after";

/// The calls of each table of families; a page is not wide enough for all.
const TABLES: [&[&str]; 2] = [
    &[
        "check",
        "lookup",
        "load",
        "write",
        "index",
        "keying",
        "withdrawal",
    ],
    &[
        "step",
        "run",
        RUN_SETTLED,
        "report",
        REPORT_SETTLED,
        "complete",
        COMPLETE_SETTLED,
    ],
];

/// Imports have a table of their own, since clause files are no books of families.
const IMPORT: &str = "import";

/// The times of one call on one family's book, or of the import of one clause file.
pub struct Cell {
    pub call: &'static str,
    pub family: String,
    /// What the call is refused, 0 where it is accepted.
    pub refusal: u64,
    pub times: Times,
}

impl Cell {
    fn said(&self) -> String {
        match self.refusal {
            0 => format!("{}, {}", self.call, self.family),
            refusal => format!("{} refused {refusal}, {}", self.call, self.family),
        }
    }
}

/// All that was timed.
pub struct Measured {
    pub families: Vec<Cell>,
    /// Imports, where both libraries have them.
    pub imports: Vec<Cell>,
    /// Calls that are refused for a weight.
    pub refused: Vec<Cell>,
}

impl Measured {
    /// The calls that were timed, those refused for a weight apart.
    pub fn calls(&self) -> Vec<&'static str> {
        let mut calls = timed(&self.families, &TABLES.concat());
        calls.extend(timed(&self.imports, &[IMPORT]));
        calls
    }

    /// The times of all calls but those refused for a weight.
    fn cells(&self) -> impl Iterator<Item = &Cell> {
        self.families.iter().chain(&self.imports)
    }
}

/// Which of a call's two pairs of times is meant.
type Side = fn(&Cell) -> Pair;

fn after(cell: &Cell) -> Pair {
    cell.times.after
}

fn copy(cell: &Cell) -> Pair {
    cell.times.copy
}

/// The geometric mean of the ratios.
fn mean(cells: &[&Cell], side: Side) -> f64 {
    let sum: f64 = cells.iter().map(|cell| side(cell).ratio.ln()).sum();
    (sum / cells.len() as f64).exp()
}

/// The cell with the greatest ratio.
fn worst<'a>(cells: &[&'a Cell], side: Side) -> &'a Cell {
    let ratio = |cell: &Cell| side(cell).ratio;
    let greatest = cells
        .iter()
        .max_by(|one, other| ratio(one).total_cmp(&ratio(other)));
    greatest.expect("a cell")
}

/// The calls of a table that were timed.
fn timed(cells: &[Cell], calls: &[&'static str]) -> Vec<&'static str> {
    let mut calls = calls.to_vec();
    calls.retain(|call| cells.iter().any(|cell| cell.call == *call));
    calls
}

/// Whether any call is slower than its bar allows: a paragraph for each bar.
fn bars_said(measured: &Measured, bars: &Bars) -> String {
    let cells: Vec<&Cell> = measured.cells().chain(&measured.refused).collect();
    let calls = measured.calls();
    let mut limits: Vec<f64> = calls.iter().map(|call| bars.of(call)).collect();
    limits.sort_by(f64::total_cmp);
    limits.dedup();
    let mut said: Vec<String> = Vec::new();
    for bar in limits {
        let is_held = |call: &&str| bars.of(call) == bar;
        let held: Vec<&str> = calls.iter().copied().filter(|call| is_held(call)).collect();
        let of_bar = cells.iter().copied().filter(|cell| is_held(&cell.call));
        said.push(bar_said(&held, &of_bar.collect::<Vec<&Cell>>(), bar));
    }
    let again = cells.iter().filter(|cell| cell.times.again > 0).count();
    let noisiest = worst(&cells, copy);
    said.push(format!(
        "Of the earlier library's copy the worst is {} ({:.2} times). Measured again, at most \
         {AGAIN} times, because one of the two was over the bar: {again} of {} calls. The least \
         ratio counts, for a slow while of the machine is not the call's.",
        noisiest.said(),
        copy(noisiest).ratio,
        cells.len()
    ));
    said.join("\n\n")
}

/// Whether any of the calls that are held to one bar is slower than it allows.
fn bar_said(calls: &[&str], cells: &[&Cell], bar: f64) -> String {
    let over = cells.iter().filter(|cell| after(cell).ratio > bar).count();
    let verdict = match over {
        0 => "met".to_string(),
        _ => format!("not met by {over} of {}", cells.len()),
    };
    let verdict = match bar {
        f64::INFINITY => "**No bar**".to_string(),
        _ => format!("**At most {bar} times before: {verdict}**"),
    };
    let slowest = worst(cells, after);
    format!(
        "{verdict} ({}). Of {} measured the worst is {} ({:.2} times).",
        calls.join(", "),
        cells.len(),
        slowest.said(),
        after(slowest).ratio
    )
}

/// A row of the table of calls.
fn call_row(name: &str, cells: &[&Cell], said: fn(&Cell) -> String) -> String {
    let (slowest, noisiest) = (worst(cells, after), worst(cells, copy));
    let pair = after(slowest);
    format!(
        "| {name} | {:.2} | {:.2} | {} | {} → {} | {:.2} | {:.2} | {} |\n",
        mean(cells, after),
        pair.ratio,
        said(slowest),
        time(pair.before),
        time(pair.other),
        mean(cells, copy),
        copy(noisiest).ratio,
        said(noisiest)
    )
}

/// A row a call: the mean and the worst of its families.
fn calls_table(measured: &Measured) -> String {
    let mut text = String::from(
        "| call | mean | worst | family | before → after | copy: mean | worst | family |\n\
         |---|--:|--:|---|--:|--:|--:|---|\n",
    );
    for name in measured.calls() {
        let is_of_call = |cell: &&Cell| cell.call == name;
        let cells: Vec<&Cell> = measured.cells().filter(is_of_call).collect();
        text += &call_row(name, &cells, |cell| cell.family.clone());
    }
    let refused: Vec<&Cell> = measured.refused.iter().collect();
    text + &call_row("refused for a weight", &refused, Cell::said)
}

/// A row a family: for each of these calls the time before, times the ratio.
fn families_table(cells: &[Cell], calls: &[&str]) -> String {
    let mut text = format!("| family | {} |\n|---|", calls.join(" | "));
    text += &"--:|".repeat(calls.len());
    for first in cells.iter().filter(|cell| cell.call == calls[0]) {
        text += &format!("\n| {} |", first.family);
        for call in calls {
            let is_meant = |cell: &&Cell| cell.call == *call && cell.family == first.family;
            let pair = after(cells.iter().find(is_meant).expect("every call was timed"));
            text += &format!(" {} × {:.2} |", time(pair.before), pair.ratio);
        }
    }
    text
}

/// Which families' steps are refused.
fn steps_said(cells: &[Cell]) -> String {
    let is_refused = |cell: &&Cell| cell.call == "step" && cell.refusal != 0;
    let names = cells.iter().filter(is_refused).map(|cell| &*cell.family);
    let refused = names.collect::<Vec<&str>>().join("; ");
    let else_refused = match &*refused {
        "" => String::new(),
        names => format!(" Where no rule applies, one is refused 10: {names}."),
    };
    format!(
        "Each time is the earlier library's, then comes the ratio: 10 µs × 1.02 is 10 µs before \
         and 10.2 µs after. A step is the strategy's first.{else_refused}"
    )
}

/// A row a call: both times, the ratio, and the copy's.
fn cells_table(name: &str, cells: &[Cell]) -> String {
    let rows = cells.iter().map(|cell| {
        let pair = after(cell);
        format!(
            "\n| {} | {} → {} | {:.2} | {:.2} |",
            cell.said(),
            time(pair.before),
            time(pair.other),
            pair.ratio,
            copy(cell).ratio
        )
    });
    let head = format!("| {name} | before → after | ratio | copy |\n|---|--:|--:|--:|");
    head + &rows.collect::<String>()
}

/// The whole part of the document.
pub fn whole(
    [earlier, now]: [&str; 2],
    compared: &str,
    noise: &str,
    measured: &Measured,
    bars: &Bars,
) -> String {
    let named = format!("Before: `{earlier}`. After: `{now}`.");
    let mut parts = vec![
        format!("{named} {compared}"),
        noise.to_string(),
        bars_said(measured, bars),
        calls_table(measured),
        steps_said(&measured.families),
    ];
    let families = &measured.families;
    parts.extend(TABLES.map(|calls| families_table(families, &timed(families, calls))));
    if !measured.imports.is_empty() {
        parts.push(cells_table(IMPORT, &measured.imports));
    }
    parts.push(cells_table("refused for a weight", &measured.refused));
    let parts = parts.iter().map(|part| part.trim_end());
    parts.collect::<Vec<&str>>().join("\n\n")
}
