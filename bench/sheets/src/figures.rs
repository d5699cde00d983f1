//! Numbers as sentences and tables show them.

use std::collections::BTreeMap;

/// A time with its unit, to two or three digits.
pub fn time(seconds: f64) -> String {
    let (number, unit) = match seconds {
        s if s < 1e-6 => (s * 1e9, "ns"),
        s if s < 1e-3 => (s * 1e6, "µs"),
        s if s < 1.0 => (s * 1e3, "ms"),
        s => (s, "s"),
    };
    let digits = if number < 9.95 { 1 } else { 0 };
    format!("{number:.digits$} {unit}")
}

/// A whole number with commas.
pub fn count(number: u64) -> String {
    let digits = number.to_string();
    let mut text = String::new();
    for (at, digit) in digits.chars().enumerate() {
        if at > 0 && (digits.len() - at).is_multiple_of(3) {
            text.push(',');
        }
        text.push(digit);
    }
    text
}

/// How often each answer was given; each of those due must have been.
pub fn by_answer(seen: &BTreeMap<u64, u64>, due: &[u64]) -> String {
    by_name(seen, due, |answer| match answer {
        0 => "accepted".to_string(),
        _ => format!("refused {answer}"),
    })
}

/// The same, where each answer has a name.
pub fn by_name(seen: &BTreeMap<u64, u64>, due: &[u64], name: fn(u64) -> String) -> String {
    let said = due.iter().map(|&answer| {
        let given = seen.get(&answer);
        let count = count(*given.unwrap_or_else(|| panic!("no call was answered {answer}")));
        format!("{} {count}", name(answer))
    });
    said.collect::<Vec<String>>().join(", ")
}
