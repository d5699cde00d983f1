//! The import of clause files, written from document 02's U7 alone.
//!
//! A text is cut into lines and these into words; a number stays the string that it is
//! written as.  Nothing is shared with the library under test.

/// The refusals of the import, in their order.
#[derive(Clone, Copy, Debug, PartialEq, Eq)]
pub enum Refusal {
    /// "15 text of any other form"
    OtherForm = 15,
    /// "16 V over 512, C or the body nodes over 4,095, or weight over 4,096"
    TooLarge = 16,
    /// "15 goes first, 12 last"
    TooShort = 12,
}

/// A clause's marks: the number as it is written, and whether a minus stands before it.
type Clause = Vec<(String, bool)>;

/// What a text of the right form says.
struct Problem {
    options: String,
    clauses: Vec<Clause>,
}

/// The import's answer as one number, and the output after it.
pub fn import(text: &[u8], out: &[u8]) -> (u64, Vec<u8>) {
    match imported_book(text, out.len()) {
        Err(refusal) => (refusal as u64, out.to_vec()),
        Ok(book) => {
            let after = [&book, &out[book.len()..]].concat();
            ((book.len() as u64) << 8, after)
        }
    }
}

fn imported_book(text: &[u8], room: usize) -> Result<Vec<u8>, Refusal> {
    let problem = problem(text).ok_or(Refusal::OtherForm)?;
    let marks: usize = problem.clauses.iter().map(Vec::len).sum();
    let nodes = problem.clauses.len() + marks;
    let is_too_large = is_over(&problem.options, "512")
        || problem.clauses.len() > 4095
        || nodes > 4095
        || 1 + nodes + marks > 4096;
    if is_too_large {
        return Err(Refusal::TooLarge);
    }
    let book = book(&problem);
    if room < book.len() {
        return Err(Refusal::TooShort);
    }
    Ok(book)
}

/// "Comment lines starting with c, then one line `p cnf V C`, then C clauses."
fn problem(text: &[u8]) -> Option<Problem> {
    let mut lines = lines(text)
        .into_iter()
        .skip_while(|line| line.starts_with(b"c"));
    let line = String::from_utf8(lines.next()?.to_vec()).ok()?;
    // "The p line has single spaces": between two spaces stands an empty word.
    let words: Vec<&str> = line.split(' ').collect();
    let ["p", "cnf", options, count] = words[..] else {
        return None;
    };
    if !is_decimal(options) || !is_decimal(count) {
        return None;
    }
    let words: Vec<&[u8]> = lines.flat_map(words_of).collect();
    let clauses = clauses(&words, options)?;
    let options = options.to_string();
    (clauses.len().to_string() == count).then_some(Problem { options, clauses })
}

/// "A line ends at byte 10, with or without 13 before it, or at the end of the text."
fn lines(text: &[u8]) -> Vec<&[u8]> {
    let mut lines: Vec<&[u8]> = text.split(|&byte| byte == 10).collect();
    let last = lines.pop().expect("what follows the last 10");
    for line in &mut lines {
        *line = line.strip_suffix(&[13]).unwrap_or(line);
    }
    if !last.is_empty() {
        lines.push(last);
    }
    lines
}

/// "Any spaces, tabs and line ends may stand before and after numbers."
fn words_of(line: &[u8]) -> Vec<&[u8]> {
    let words = line.split(|byte| [b' ', b'\t'].contains(byte));
    words.filter(|word| !word.is_empty()).collect()
}

/// "C clauses, each closed by 0": no word may follow the last 0.
fn clauses(words: &[&[u8]], options: &str) -> Option<Vec<Clause>> {
    let mut parts: Vec<&[&[u8]]> = words.split(|&word| word == b"0").collect();
    let unclosed = parts.pop().expect("what follows the last 0");
    if !unclosed.is_empty() {
        return None;
    }
    let clause = |part: &[&[u8]]| part.iter().map(|word| mark(word, options)).collect();
    parts.into_iter().map(clause).collect()
}

/// "A clause's numbers are 1 to V, a minus directly before the barred ones."
fn mark(word: &[u8], options: &str) -> Option<(String, bool)> {
    let word = String::from_utf8(word.to_vec()).ok()?;
    let (digits, barred) = match word.strip_prefix('-') {
        Some(digits) => (digits, true),
        None => (&*word, false),
    };
    let is_option = is_decimal(digits) && is_over(digits, "0") && !is_over(digits, options);
    is_option.then(|| (digits.to_string(), barred))
}

/// "All numbers are decimal without leading zeros."
fn is_decimal(word: &str) -> bool {
    let are_digits = word.chars().all(|letter| "0123456789".contains(letter));
    word == "0" || !word.is_empty() && are_digits && !word.starts_with('0')
}

/// Whether one decimal number is greater than another, of whatever length: both are filled
/// up with zeros on the left.
fn is_over(number: &str, other: &str) -> bool {
    let width = number.len().max(other.len());
    format!("{number:0>width$}") > format!("{other:0>width$}")
}

/// "Option v - 1 gets as code the letter V and the decimal v. Each clause becomes one
/// any-of, a lone mark too, clauses and marks in file order."
fn book(problem: &Problem) -> Vec<u8> {
    let options: usize = problem.options.parse().expect("at most 512");
    let (mut contents, mut bodies) = (Vec::new(), Vec::new());
    for clause in &problem.clauses {
        contents.extend([bodies.len(), 1 + clause.len()]);
        bodies.push(4 * 4096 + clause.len());
        bodies.extend(clause.iter().map(|(number, barred)| {
            let option = number.parse::<usize>().expect("at most 512") - 1;
            (1 + usize::from(*barred)) * 4096 + option
        }));
    }
    let head = [options, problem.clauses.len(), bodies.len(), 0];
    let codes = (1..=options).map(|number| format!("{:\0<13}", format!("V{number}")));
    [
        bytes(&head),
        codes.collect::<String>().into_bytes(),
        bytes(&contents),
        bytes(&bodies),
    ]
    .concat()
}

/// "16-bit numbers, low byte first."
fn bytes(numbers: &[usize]) -> Vec<u8> {
    let pairs = numbers
        .iter()
        .map(|&number| [(number % 256) as u8, (number / 256) as u8]);
    pairs.flatten().collect()
}
