//! The bars that the times have to pass, and the worst case of each.

use crate::completes::Asked;
use crate::figures::time;
use crate::imports;
use crate::measure::mean;
use crate::rows::Row;

/// The most that a sheet may weigh.
pub const FULL: usize = 4096;

/// What is bounded: each ratio, each time, or the mean of the ratios.
enum Kind {
    Ratio,
    Time,
    Mean,
}

/// The value of a row, if it has one that is held to a bar.
type Value<R> = fn(&R) -> Option<f64>;

/// A bar, and the value of the rows that have one.
struct Bar<R> {
    said: &'static str,
    limit: f64,
    kind: Kind,
    of: Value<R>,
}

const fn bar<R>(kind: Kind, said: &'static str, limit: f64, of: Value<R>) -> Bar<R> {
    Bar {
        said,
        limit,
        kind,
        of,
    }
}

const fn ratio<R>(said: &'static str, limit: f64, of: Value<R>) -> Bar<R> {
    bar(Kind::Ratio, said, limit, of)
}

const fn seconds<R>(said: &'static str, limit: f64, of: Value<R>) -> Bar<R> {
    bar(Kind::Time, said, limit, of)
}

const BARS: [Bar<Row>; 16] = [
    ratio("run, times plain Rust by bounds: at most 3", 3.0, |row| {
        is_full(row).then_some(row.run[0] / row.run[1])
    }),
    ratio("report, times plain Rust by parts: at most 3", 3.0, |row| {
        is_full(row).then_some(report_ratio(row))
    }),
    seconds("the comb settles: under 1 s", 1.0, |row| {
        let is_comb = row.name == "comb" && row.is_whole();
        (is_full(row) && is_comb).then_some(row.run[0])
    }),
    seconds(
        "the comb of weight 2,200, 100,000 steps: under 0.5 s",
        0.5,
        |row| (row.weight == 2200).then_some(row.run[0]),
    ),
    seconds("report of any family: under 10 ms", 1e-2, |row| {
        is_full(row).then_some(worse_report(row))
    }),
    seconds("report of an ordinary book: under 0.5 ms", 5e-4, |row| {
        (is_full(row) && row.ordinary).then_some(worse_report(row))
    }),
    ratio("report, growth from weight 2,048: at most 3", 3.0, |row| {
        let growth = row.growth.filter(|_| is_full(row))?;
        Some(growth.before.max(growth.after))
    }),
    ratio(
        "a step, growth from weight 2,048: at most 2.5",
        2.5,
        |row| row.growth.filter(|_| is_full(row))?.step,
    ),
    ratio(
        "with at-leasts: check, times plain Rust: at most 3",
        3.0,
        |row| has_leasts(row).then_some(row.check[0] / row.check[1]),
    ),
    ratio(
        "with at-leasts: load, times plain Rust: at most 3",
        3.0,
        |row| has_leasts(row).then_some(row.load[0] / row.load[1]),
    ),
    ratio(
        "with at-leasts: run, times plain Rust by bounds: at most 3",
        3.0,
        |row| has_leasts(row).then_some(row.run[0] / row.run[1]),
    ),
    ratio(
        "with at-leasts: report, times plain Rust by parts: at most 3",
        3.0,
        |row| has_leasts(row).then_some(report_ratio(row)),
    ),
    ratio("an index, times plain Rust: at most 3", 3.0, |row| {
        is_full(row).then_some(row.index[0] / row.index[1])
    }),
    ratio(
        "a line of 64 taken back, times a load and 63 keyings by plain Rust: at most 1.5",
        1.5,
        |row| {
            let [ours, _, again] = row.order.filter(|_| is_full(row))?.withdraw;
            Some(ours / again)
        },
    ),
    bar(
        Kind::Mean,
        "complete, times a report of the same fresh sheet, in the mean over the families: at most \
         1.5",
        1.5,
        |row| row.complete_over_report().map(|[ours, _]| ours),
    ),
    ratio("complete, times plain Rust: at most 3", 3.0, |row| {
        let ratios = row.complete?.each().map(over_plain);
        ratios.into_iter().reduce(f64::max)
    }),
];

/// The bars of imports, of whatever weight.
const IMPORT_BARS: [Bar<imports::Row>; 2] = [
    ratio(
        "import of 1 MB of comments and 4,000 numbers or fewer, times plain Rust: at most 2",
        2.0,
        |row| row.is_mostly_comments().then_some(row.ratio()),
    ),
    ratio(
        "import of any clause file measured, times plain Rust: at most 4",
        4.0,
        |row| Some(row.ratio()),
    ),
];

/// A row that is told by its name.
trait Named {
    fn name(&self) -> &str;
}

impl Named for Row {
    fn name(&self) -> &str {
        &self.name
    }
}

impl Named for imports::Row {
    fn name(&self) -> &str {
        self.name
    }
}

fn is_full(row: &Row) -> bool {
    row.weight == FULL
}

/// A full-size book of a family with at-leasts.
fn has_leasts(row: &Row) -> bool {
    is_full(row) && row.leasts > 0
}

/// The report's time over plain Rust's by parts, before the run or after it, whichever is more.
fn report_ratio(row: &Row) -> f64 {
    let ratio = |[ours, parts, _]: [f64; 3]| ours / parts;
    ratio(row.before).max(ratio(row.after))
}

/// The time of the "complete" question over plain Rust's.
fn over_plain([ours, plain, _]: Asked) -> f64 {
    ours / plain
}

/// The slower of the reports before and after the run.
fn worse_report(row: &Row) -> f64 {
    row.before[0].max(row.after[0])
}

/// A value as the table shows it.
fn shown<R>(bar: &Bar<R>, value: f64) -> String {
    match bar.kind {
        Kind::Time => time(value),
        // What is near a low bar is told apart by its second digit.
        _ if bar.limit <= 2.0 => format!("{value:.2}"),
        _ => format!("{value:.1}"),
    }
}

/// The values that a bar is for, with their families, the worst first.
fn values<'a, R: Named>(rows: &'a [R], bar: &Bar<R>) -> Vec<(f64, &'a str)> {
    let of_row = |row: &'a R| Some(((bar.of)(row)?, row.name()));
    let mut values: Vec<(f64, &str)> = rows.iter().filter_map(of_row).collect();
    values.sort_by(|one, other| other.0.total_cmp(&one.0));
    values
}

/// How many of the values that are held to a bar are over it, in words.
fn verdict<R>(bar: &Bar<R>, held: &[f64]) -> String {
    match held.iter().filter(|&&value| value > bar.limit).count() {
        0 => "met".to_string(),
        _ if held.len() == 1 => "missed".to_string(),
        missed => format!("missed by {missed} of {}", held.len()),
    }
}

fn line<R: Named>(rows: &[R], bar: &Bar<R>) -> String {
    let values = values(rows, bar);
    let Some(&(worst, name)) = values.first() else {
        return format!("| {} | | | not measured |\n", bar.said);
    };
    let values: Vec<f64> = values.iter().map(|value| value.0).collect();
    let (held, family) = match bar.kind {
        Kind::Mean => {
            let family = format!("{} at worst: {name}", shown(bar, worst));
            (vec![mean(&values)], family)
        }
        _ => (values, name.to_string()),
    };
    let (value, verdict) = (shown(bar, held[0]), verdict(bar, &held));
    format!("| {} | {value} | {family} | {verdict} |\n", bar.said)
}

/// The table of bars.
pub fn table(rows: &[Row], imports: &[imports::Row]) -> String {
    let head =
        "| at weight 4,096; imports | worst | family or clause file | |\n|---|--:|---|---|\n";
    let lines = BARS.iter().map(|bar| line(rows, bar));
    let of_imports = IMPORT_BARS.iter().map(|bar| line(imports, bar));
    let head = std::iter::once(head.to_string());
    head.chain(lines).chain(of_imports).collect()
}
