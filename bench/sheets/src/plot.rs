//! The plot: for each family the library's time over plain Rust's, a line a family, one point a
//! weight for the run and one for the report. The middle line is "as fast as plain Rust".

use crate::rows::Row;
use std::fmt::Write;

/// The names' column, the axis and the margins.
const NAMES: f64 = 232.0;
const AXIS: f64 = 640.0;
const TOP: f64 = 64.0;
const LINE: f64 = 20.0;
/// The ends of the axis, by powers of ten.
const RATIOS: [f64; 2] = [-1.0, 0.7];

/// What is drawn of a row: the colour, how far beside the family's line, the ratio.
struct Series {
    said: &'static str,
    colour: &'static str,
    beside: f64,
    of: fn(&Row) -> f64,
}

const SERIES: [Series; 3] = [
    series("run", "#1f5fa8", -4.0, |row| row.run[0] / row.run[1]),
    series("report", "#c4541a", 0.0, |row| {
        row.before[0] / row.before[1]
    }),
    series("load", "#6b6b6b", 4.0, |row| row.load[0] / row.load[1]),
];

const fn series(
    said: &'static str,
    colour: &'static str,
    beside: f64,
    of: fn(&Row) -> f64,
) -> Series {
    Series {
        said,
        colour,
        beside,
        of,
    }
}

/// Where a ratio stands on the axis.
fn across(ratio: f64) -> f64 {
    let [low, high] = RATIOS;
    NAMES + AXIS * ((ratio.log10() - low) / (high - low)).clamp(0.0, 1.0)
}

fn label(svg: &mut String, at: [f64; 2], anchor: &str, text: &str) {
    let [x, y] = at;
    writeln!(
        svg,
        r#"<text x="{x:.1}" y="{y:.1}" text-anchor="{anchor}">{text}</text>"#
    )
    .expect("a string");
}

fn line(svg: &mut String, from: [f64; 2], to: [f64; 2], stroke: &str) {
    writeln!(
        svg,
        r#"<path d="M{:.1} {:.1}L{:.1} {:.1}" {stroke}/>"#,
        from[0], from[1], to[0], to[1]
    )
    .expect("a string");
}

/// What is shown, and by which colour and size.
fn legend(svg: &mut String) {
    let said = "the library's time over plain Rust's by the same method, at the weights 1,024, 2,048 and 4,096 (the larger the point)";
    label(svg, [10.0, 18.0], "start", said);
    for (at, series) in SERIES.iter().enumerate() {
        let x = NAMES + 90.0 * at as f64;
        writeln!(
            svg,
            r#"<circle cx="{x}" cy="32" r="3.5" fill="{}"/>"#,
            series.colour
        )
        .expect("a string");
        label(svg, [x + 8.0, 35.5], "start", series.said);
    }
}

/// The lines of the axis: 1 is as fast as plain Rust, 3 is the bar.
fn axis(svg: &mut String, bottom: f64) {
    for (ratio, said, stroke) in [
        (0.1, "0.1", r##"stroke="#ddd""##),
        (0.2, "0.2", r##"stroke="#ddd""##),
        (0.5, "0.5", r##"stroke="#ddd""##),
        (
            1.0,
            "1: as fast as plain Rust",
            r##"stroke="#333" stroke-width="1.5""##,
        ),
        (2.0, "2", r##"stroke="#ddd""##),
        (
            3.0,
            "3: the bar",
            r##"stroke="#b02020" stroke-dasharray="4 3""##,
        ),
    ] {
        let x = across(ratio);
        line(svg, [x, TOP - 10.0], [x, bottom], stroke);
        label(svg, [x, TOP - 14.0], "middle", said);
    }
}

/// A family's points; the larger its book, the larger the point.
fn points(svg: &mut String, family: &[&Row], y: f64) {
    for series in &SERIES {
        for (at, row) in family.iter().enumerate() {
            let (x, radius) = (across((series.of)(row)), 1.8 + 0.9 * at as f64);
            writeln!(
                svg,
                r#"<circle cx="{x:.1}" cy="{:.1}" r="{radius:.1}" fill="{}" fill-opacity="0.75"/>"#,
                y + series.beside,
                series.colour
            )
            .expect("a string");
        }
    }
}

/// The picture of all families that were measured at several weights.
pub fn svg(rows: &[Row]) -> String {
    let mut families: Vec<Vec<&Row>> = Vec::new();
    for row in rows {
        match families.last_mut() {
            Some(family) if family[0].name == row.name => family.push(row),
            _ => families.push(vec![row]),
        }
    }
    families.retain(|family| family.len() > 1);
    let bottom = TOP + LINE * families.len() as f64;
    let (width, height) = (NAMES + AXIS + 60.0, bottom + 12.0);
    let mut svg = format!(
        "<svg xmlns=\"http://www.w3.org/2000/svg\" viewBox=\"0 0 {width} {height}\" \
         font-family=\"sans-serif\" font-size=\"11\">\n<rect width=\"100%\" height=\"100%\" \
         fill=\"#fff\"/>\n"
    );
    legend(&mut svg);
    axis(&mut svg, bottom);
    for (at, family) in families.iter().enumerate() {
        let y = TOP + LINE * (at as f64 + 0.5);
        label(&mut svg, [NAMES - 12.0, y + 4.0], "end", &family[0].name);
        line(
            &mut svg,
            [NAMES, y],
            [NAMES + AXIS, y],
            r##"stroke="#eee""##,
        );
        points(&mut svg, family, y);
    }
    svg.push_str("</svg>\n");
    svg
}
