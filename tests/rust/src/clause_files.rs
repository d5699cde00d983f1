//! Clause files for the tests: accepted ones of every size up to the limits, written in
//! any way that document 02 allows, and damaged ones.

use crate::books::{code, node, Book, ANY_OF, BARRED, OPTION};
use crate::random::Random;

/// A clause file by what it says: the options, and the marks of each clause, as the number
/// of the option (from 1 on) or its opposite.
#[derive(Clone)]
pub struct ClauseFile {
    pub options: usize,
    pub clauses: Vec<Vec<i32>>,
}

impl ClauseFile {
    /// Marks of any options in any clauses, as many of each as are asked for.
    pub fn any(random: &mut Random, options: usize, clauses: usize, marks: usize) -> ClauseFile {
        let mut file = ClauseFile {
            options,
            clauses: vec![Vec::new(); clauses],
        };
        if options > 0 && clauses > 0 {
            for _ in 0..marks {
                let clause = random.below(clauses);
                let option = 1 + random.below(options) as i32;
                file.clauses[clause].push(random.pick(&[option, -option]));
            }
        }
        file
    }

    /// A small one, at times without options or clauses.
    pub fn small(random: &mut Random) -> ClauseFile {
        let options = random.pick(&[0, 1, 2, 9, 10, 99, 120]);
        let (clauses, marks) = (random.below(8), random.below(20));
        ClauseFile::any(random, options, clauses, marks)
    }

    fn marks(&self) -> usize {
        self.clauses.iter().map(Vec::len).sum()
    }

    /// Whether it is within the limits, as they are reckoned from the counts.
    pub fn fits(&self) -> bool {
        let nodes = self.clauses.len() + self.marks();
        self.options <= 512
            && self.clauses.len() <= 4095
            && nodes <= 4095
            && 1 + nodes + self.marks() <= 4096
    }

    /// The book due to it.
    pub fn book(&self) -> Book {
        let codes = (1..=self.options).map(|number| code(format!("V{number}").as_bytes()));
        let mark = |&mark: &i32| {
            let kind = if mark < 0 { BARRED } else { OPTION };
            node(kind, mark.unsigned_abs() as usize - 1)
        };
        let body = |clause: &Vec<i32>| {
            let head = std::iter::once(node(ANY_OF, clause.len()));
            head.chain(clause.iter().map(mark)).collect()
        };
        let bodies: Vec<Vec<u16>> = self.clauses.iter().map(body).collect();
        Book::new(codes.collect(), &bodies)
    }

    /// Its words, and no comments.
    fn words(&self) -> Words {
        let clause = |clause: &Vec<i32>| {
            let words = clause.iter().map(i32::to_string);
            words.chain([String::from("0")]).collect::<Vec<String>>()
        };
        Words {
            comments: Vec::new(),
            problem: format!("p cnf {} {}", self.options, self.clauses.len()),
            numbers: self.clauses.iter().flat_map(clause).collect(),
        }
    }

    /// A text of it, in any way that document 02 allows.
    pub fn text(&self, random: &mut Random) -> Vec<u8> {
        let mut words = self.words();
        words.comments = comments(random);
        words.text(random)
    }

    /// A text of it with something wrong, so that it is refused 15.
    pub fn damaged(&self, random: &mut Random, fault: Fault) -> Vec<u8> {
        let mut words = self.words();
        words.comments = comments(random);
        if fault == Fault::Blank {
            return words.text_with_no_blank(random);
        }
        words.damage(random, fault, self.options);
        words.text(random)
    }
}

/// Some comment lines, of any bytes but 10; a line end is not among them.
fn comments(random: &mut Random) -> Vec<Vec<u8>> {
    let count = random.pick(&[0, 0, 1, 2, 5]);
    let comment = |random: &mut Random| {
        let length = random.pick(&[0, 1, 3, 40]);
        let mut bytes = random.bytes(length);
        bytes.retain(|&byte| byte != b'\n');
        let start = random.pick(&["c", "c ", "cnf", "c p cnf 1 1", "c\r", "c\t", "c\0"]);
        [start.as_bytes(), &bytes].concat()
    };
    (0..count).map(|_| comment(random)).collect()
}

/// What can be wrong with a text; each of these is enough for 15.
#[derive(Clone, Copy, Debug, PartialEq, Eq)]
pub enum Fault {
    /// A number that is no decimal, or has a leading zero or a plus.
    Number,
    /// A number over V.
    Beyond,
    /// A clause that is not closed.
    Unclosed,
    /// Clauses other than C.
    Count,
    /// A p line of another form, twice or not at all.
    Problem,
    /// A line before the p line that is no comment.
    Before,
    /// A comment after it.
    After,
    /// A blank that is none: 13 that is not directly before 10, or another byte.
    Blank,
}

pub const FAULTS: [Fault; 8] = [
    Fault::Number,
    Fault::Beyond,
    Fault::Unclosed,
    Fault::Count,
    Fault::Problem,
    Fault::Before,
    Fault::After,
    Fault::Blank,
];

/// What is no number, where a number is due.
const NO_NUMBERS: [&str; 18] = [
    "-0", "+1", "01", "-01", "00", "-", "--1", "1-", "1-2", "1.0", "1e0", "0x1", "p", "c", "%",
    "- 1", "1,", "\u{0}",
];

/// What is put in place of the p line's beginning, so that it is none.
const OTHER_STARTS: [(&str, &str); 9] = [
    ("p ", "p  "),
    ("p ", "p\t"),
    ("p ", ""),
    ("p cnf", "p CNF"),
    ("p cnf", " p cnf"),
    ("p cnf", "P cnf"),
    ("p cnf ", "p cnf"),
    ("p cnf ", "p cnf  "),
    ("p cnf ", "p cnf 0"),
];

/// What may not follow the p line on it.
const TRAILERS: [&str; 7] = [" ", "\t", "\r\r", " 0", "x", "\0", ".0"];

/// What is no comment line.
const NO_COMMENTS: [&str; 7] = ["", " ", "\t", " c", "C", "%", "\r"];

/// The words of a text: comment lines, the p line, the numbers.
struct Words {
    comments: Vec<Vec<u8>>,
    problem: String,
    numbers: Vec<String>,
}

impl Words {
    /// Puts a word at any place among the numbers.
    fn insert(&mut self, random: &mut Random, word: &str) {
        let at = random.below(self.numbers.len() + 1);
        self.numbers.insert(at, word.to_string());
    }

    /// Makes something wrong.
    fn damage(&mut self, random: &mut Random, fault: Fault, options: usize) {
        match fault {
            Fault::Number => {
                let word = random.pick(&NO_NUMBERS);
                self.insert(random, word);
            }
            Fault::Beyond => {
                let sign = random.pick(&["", "-"]);
                let zeros = "0".repeat(random.pick(&[0, 0, 1, 17, 20, 64]));
                self.insert(random, &format!("{sign}{}{zeros}", options + 1));
            }
            Fault::Unclosed => self.numbers.push(String::from("1")),
            Fault::Count if random.one_in(2) => self.insert(random, "0"),
            // Another C, or one with a leading zero.
            Fault::Count => self.problem += random.pick(&["1", "0", "00000000000000000000"]),
            Fault::Problem => self.damage_problem(random),
            Fault::Before => {
                let line = random.pick(&NO_COMMENTS).as_bytes().to_vec();
                let at = random.below(self.comments.len() + 1);
                self.comments.insert(at, line);
            }
            Fault::After => self.insert(random, "c \n"),
            Fault::Blank => unreachable!("it is made when the words are joined"),
        }
    }

    fn damage_problem(&mut self, random: &mut Random) {
        match random.below(4) {
            0 => self.problem += random.pick(&TRAILERS),
            1 => {
                let (from, to) = random.pick(&OTHER_STARTS);
                self.problem = self.problem.replacen(from, to, 1);
            }
            2 => {
                let last = self.problem.rfind(' ').expect("a space before C");
                self.problem.truncate(last + random.below(2));
            }
            _ => self.problem = format!("{0}\n{0}", self.problem),
        }
    }

    /// The text, with any blanks between the numbers, before and after them.
    fn text(&self, random: &mut Random) -> Vec<u8> {
        let mut text = self.before_numbers(random);
        let style = random.pick(&[Style::Lines, Style::OneLine, Style::Any]);
        let ends_open = random.one_in(2);
        if self.numbers.is_empty() && ends_open && random.one_in(2) {
            return text;
        }
        text.extend(line_end(random));
        text.extend(any_blanks(random));
        for (at, number) in self.numbers.iter().enumerate() {
            text.extend(number.as_bytes());
            let is_last = at + 1 == self.numbers.len();
            if !is_last || !ends_open {
                text.extend(blanks(random, style, number));
            }
        }
        text
    }

    /// The comment lines and the p line, whose end is missing.
    fn before_numbers(&self, random: &mut Random) -> Vec<u8> {
        let mut text = Vec::new();
        for comment in &self.comments {
            text.extend(comment);
            text.extend(line_end(random));
        }
        text.extend(self.problem.as_bytes());
        text
    }

    /// A text in which a byte that is no blank stands where one may stand.
    fn text_with_no_blank(&self, random: &mut Random) -> Vec<u8> {
        let wrong = random.pick(&["\r", "\r\r\n", "\r ", "\u{b}", "\u{c}", "\0", "/", ";", "+"]);
        let at = random.below(self.numbers.len() + 1);
        let mut text = self.before_numbers(random);
        text.extend(line_end(random));
        for number in &self.numbers[..at] {
            text.extend(number.as_bytes());
            text.extend(blanks(random, Style::Any, number));
        }
        text.extend(wrong.as_bytes());
        for number in &self.numbers[at..] {
            text.extend(number.as_bytes());
            text.extend(blanks(random, Style::Any, number));
        }
        text
    }
}

/// How numbers are parted.
#[derive(Clone, Copy)]
enum Style {
    /// A clause a line, single spaces.
    Lines,
    /// All on one line.
    OneLine,
    /// Any blanks.
    Any,
}

/// At least one blank after a number.
fn blanks(random: &mut Random, style: Style, number: &str) -> Vec<u8> {
    match style {
        Style::Lines if number == "0" => line_end(random).to_vec(),
        Style::Lines | Style::OneLine => b" ".to_vec(),
        Style::Any => [blank(random), &any_blanks(random)].concat(),
    }
}

fn line_end(random: &mut Random) -> &'static [u8] {
    random.pick(&[b"\n", b"\r\n"])
}

fn blank(random: &mut Random) -> &'static [u8] {
    random.pick(&[b" ".as_slice(), b"\t", b"\n", b"\r\n"])
}

fn any_blanks(random: &mut Random) -> Vec<u8> {
    let count = random.pick(&[0, 0, 0, 1, 2, 9]);
    (0..count).flat_map(|_| blank(random)).copied().collect()
}

/// Bytes that mean something in a text, and some that do not.
const BYTES: &[u8; 20] = b"0123456789-- \t\n\r\ncp.";

/// Changes, adds, removes or doubles some bytes, which may by chance leave a text right.
pub fn scramble(random: &mut Random, text: &mut Vec<u8>) {
    for _ in 0..random.pick(&[1, 1, 1, 2, 5]) {
        let at = random.below(text.len() + 1);
        let byte = if random.one_in(8) {
            random.byte()
        } else {
            random.pick(BYTES)
        };
        match random.below(6) {
            0 => text.insert(at, byte),
            1 | 2 if at < text.len() => text[at] = byte,
            3 if at < text.len() => drop(text.remove(at)),
            4 if random.one_in(4) => text.truncate(at),
            _ => {
                let end = text.len().min(at + random.below(12));
                let part = text[at..end].to_vec();
                text.splice(at..at, part);
            }
        }
    }
}

/// A text of one clause, whose V has any number of digits, and whose numbers are near it.
pub fn long_numbers(random: &mut Random) -> Vec<u8> {
    let length = random.pick(&[1, 3, 4, 9, 10, 17, 18, 19, 20, 21, 39, 300]);
    let digit = |_| random.pick(b"00123456789999");
    let mut most: Vec<u8> = (0..length).map(digit).collect();
    most[0] = most[0].max(b'1');
    let mut text = [b"p cnf ", &*most, b" 1\n"].concat();
    for _ in 0..random.within(1, 4) {
        text.extend(near(random, &most));
        text.extend(blank(random));
    }
    text.push(b'0');
    text
}

/// A number, or one that is more or less in one digit, or has one digit more or less.
fn near(random: &mut Random, number: &[u8]) -> Vec<u8> {
    let mut near = number.to_vec();
    let at = random.below(near.len());
    match random.below(8) {
        0 => near.push(b'0'),
        1 if near.len() > 1 => drop(near.pop()),
        2..5 if near[at] < b'9' => near[at] += 1,
        5..8 if near[at] > b'1' => near[at] -= 1,
        _ => (),
    }
    if random.one_in(3) {
        near.insert(0, b'-');
    }
    near
}

/// A text of few words that mean something, in any order: mostly of another form.
pub fn scribbled(random: &mut Random) -> Vec<u8> {
    const WORDS: [&str; 16] = [
        "p cnf 2 1",
        "p cnf 0 0",
        "p cnf 1 2",
        "p cnf",
        "c",
        "c c",
        "\n",
        "\r\n",
        " ",
        "\t",
        "0",
        "1",
        "-2",
        "\r",
        "3",
        "00",
    ];
    let count = random.below(9);
    let words = (0..count).map(|_| random.pick(&WORDS).bytes());
    words.flatten().collect()
}
