//! The library against the reference, on hundreds of thousands of books and codes.
//!
//!     tools/build-library                             at the repository's top
//!     cd tests/rust && cargo test --offline --locked
//!
//! `-- --nocapture` shows what was compared.  The environment variable `ND_SEED`
//! takes another seed; a run with the same seed makes the same inputs.

use nibdrumlin_tests::at_leasts::{at_least, with_at_leasts, AT_LEAST, MOST};
use nibdrumlin_tests::books::{self, Book, Fault, Likeness, Shape, Size};
use nibdrumlin_tests::books::{characters, code, node, size_of_weight};
use nibdrumlin_tests::books::{ALL_OF, ANY_OF, BARRED, OPTION};
use nibdrumlin_tests::books::{CHARACTERS, FAULTS, LIKENESSES, SHAPES};
use nibdrumlin_tests::books::{MAX_NODES, MAX_OPTIONS, MAX_RULES, MAX_WEIGHT};
use nibdrumlin_tests::random::Random;
use nibdrumlin_tests::{ffi, reference};

const NO_SUCH_CODE: u64 = 7;

/// Bytes before and after whatever is lent.
const MARGIN: usize = 16;

/// A buffer to lend from: its bytes stand at any alignment between others.
struct Lent {
    buffer: Vec<u8>,
    start: usize,
    fill: u8,
}

impl Lent {
    fn new(random: &mut Random, bytes: &[u8]) -> Lent {
        let fill = random.pick(&[0, b'A', 0xFF, 0x30]);
        let start = random.below(MARGIN);
        let mut buffer = vec![fill; start];
        buffer.extend(bytes);
        buffer.resize(bytes.len() + 2 * MARGIN, fill);
        Lent {
            buffer,
            start,
            fill,
        }
    }

    fn part(&self, length: usize) -> &[u8] {
        &self.buffer[self.start..self.start + length]
    }

    /// Whether the buffer still holds these bytes, and the fill around them.
    fn holds(&self, bytes: &[u8]) -> bool {
        let end = self.start + bytes.len();
        self.part(bytes.len()) == bytes
            && self.buffer[..self.start]
                .iter()
                .all(|&byte| byte == self.fill)
            && self.buffer[end..].iter().all(|&byte| byte == self.fill)
    }
}

/// One family of inputs: its random numbers, and what was compared so far.
struct Family {
    name: &'static str,
    seed: u64,
    random: Random,
    books: u64,
    lookups: u64,
    /// Book checks by refusal, 0 for the accepted.
    checked: [u64; 8],
    /// Lookups by refusal, 0 for the accepted.
    found: [u64; 8],
    /// The length of the longest accepted book.
    longest: usize,
}

impl Family {
    fn new(name: &'static str, seed: u64) -> Family {
        // Each family has random numbers of its own.
        let start = name.bytes().fold(seed, |hash, byte| {
            Random::new(hash ^ u64::from(byte)).bits()
        });
        Family {
            name,
            seed,
            random: Random::new(start),
            books: 0,
            lookups: 0,
            checked: [0; 8],
            found: [0; 8],
            longest: 0,
        }
    }

    fn add(&mut self, other: &Family) {
        self.books += other.books;
        self.lookups += other.lookups;
        for i in 0..8 {
            self.checked[i] += other.checked[i];
            self.found[i] += other.found[i];
        }
        self.longest = self.longest.max(other.longest);
    }

    fn show(&self) {
        println!(
            "{}: {} books, by refusal from 0 {:?}, accepted up to {} bytes; {} lookups {:?}",
            self.name,
            self.books,
            &self.checked[..7],
            self.longest,
            self.lookups,
            self.found
        );
    }

    #[cold]
    fn fail(&self, what: &str, book: &[u8], code: Option<&[u8]>) -> ! {
        let shown = &book[..book.len().min(400)];
        panic!(
            "{what}\nfamily {:?}, ND_SEED={}, after {} books and {} lookups\n\
             book of {} bytes: {shown:02x?}\ncode: {:02x?}",
            self.name,
            self.seed,
            self.books,
            self.lookups,
            book.len(),
            code.map(|code| &code[..code.len().min(400)]),
        );
    }

    /// Checks this book both ways; `due` is the answer where it is known beforehand.
    fn check(&mut self, book: &[u8], due: Option<u64>) -> u64 {
        let lent = Lent::new(&mut self.random, book);
        let ours = ffi::book_check(lent.part(book.len()));
        let theirs = reference::book_check(book);
        if ours != theirs {
            self.fail(
                &format!("book check: library {ours}, reference {theirs}"),
                book,
                None,
            );
        }
        if due.is_some_and(|due| due != ours) {
            self.fail(
                &format!("book check: both {ours}, but {due:?} is due"),
                book,
                None,
            );
        }
        if ours > 6 {
            self.fail(&format!("book check: answer {ours}"), book, None);
        }
        if !lent.holds(book) {
            self.fail("book check: a lent byte was changed", book, None);
        }
        if book.is_empty() && ffi::book_check_null(book) != ours {
            self.fail("book check: another answer for a null pointer", book, None);
        }
        self.books += 1;
        self.checked[ours as usize] += 1;
        if ours == 0 {
            self.longest = self.longest.max(book.len());
        }
        ours
    }

    /// Looks this code up both ways.
    fn look_up(&mut self, book: &[u8], code: &[u8], due: Option<u64>) -> u64 {
        let lent = Lent::new(&mut self.random, book);
        let lent_code = Lent::new(&mut self.random, code);
        let ours = ffi::code_lookup(lent.part(book.len()), lent_code.part(code.len()));
        let theirs = reference::code_lookup(book, code);
        let code_too = Some(code);
        if ours != theirs {
            self.fail(
                &format!("lookup: library {ours}, reference {theirs}"),
                book,
                code_too,
            );
        }
        if due.is_some_and(|due| due != ours) {
            self.fail(
                &format!("lookup: both {ours}, but {due:?} is due"),
                book,
                code_too,
            );
        }
        let (refusal, value) = (ours % 256, ours / 256);
        if refusal > 7 || (refusal != 0 && value != 0) {
            self.fail(&format!("lookup: answer {ours}"), book, code_too);
        }
        if !lent.holds(book) || !lent_code.holds(code) {
            self.fail("lookup: a lent byte was changed", book, code_too);
        }
        if (book.is_empty() || code.is_empty()) && ffi::code_lookup_null(book, code) != ours {
            self.fail("lookup: another answer for a null pointer", book, code_too);
        }
        self.lookups += 1;
        self.found[refusal as usize] += 1;
        ours
    }

    /// Looks up a part of the book itself, so that the two overlap.
    fn look_up_part(&mut self, book: &[u8], start: usize, end: usize) {
        let lent = Lent::new(&mut self.random, book);
        let whole = lent.part(book.len());
        let ours = ffi::code_lookup(whole, &whole[start..end]);
        let theirs = reference::code_lookup(book, &book[start..end]);
        if ours != theirs {
            let what = format!("overlapping lookup: library {ours}, reference {theirs}");
            self.fail(&what, book, Some(&book[start..end]));
        }
        if !lent.holds(book) {
            self.fail("overlapping lookup: a lent byte was changed", book, None);
        }
        self.lookups += 1;
        self.found[(ours % 256) as usize] += 1;
    }

    /// Checks a book that is accepted, and looks up one of its codes and one other; in a
    /// long book one of the two.
    fn accept(&mut self, book: &Book) {
        assert!(
            book.weight() <= MAX_WEIGHT,
            "the generator made too heavy a book"
        );
        let bytes = book.bytes();
        self.check(&bytes, Some(0));
        let (own, other) = match self.random.one_in(2) {
            _ if bytes.len() < 2_000 => (true, true),
            own => (own, !own),
        };
        if own && !book.codes.is_empty() {
            let which = self.random.below(book.codes.len());
            let code = characters(&book.codes[which]);
            self.look_up(&bytes, code, Some((which as u64) << 8));
        }
        if other {
            let code = some_code(&mut self.random, &book.codes);
            self.look_up(&bytes, &code, None);
        }
    }

    /// Checks a book in which something may be wrong, and looks up some code in it.
    fn try_out(&mut self, bytes: &[u8], codes: &[books::Code], due: Option<u64>) {
        let answer = self.check(bytes, due);
        let code = some_code(&mut self.random, codes);
        let due = if answer == 0 { None } else { Some(answer) };
        self.look_up(bytes, &code, due);
    }
}

/// A code to look up: one of these, or one that is like one of them, or any bytes.
fn some_code(random: &mut Random, codes: &[books::Code]) -> Vec<u8> {
    if codes.is_empty() || random.one_in(8) {
        let length = random.below(20);
        return match random.below(3) {
            0 => random.bytes(length),
            1 => vec![0; length],
            _ => (0..length).map(|_| random.pick(CHARACTERS)).collect(),
        };
    }
    let stored = random.pick(codes);
    let mut code = characters(&stored).to_vec();
    let length = code.len();
    match random.below(14) {
        0 | 1 => {}
        2 => *code.last_mut().unwrap() = random.pick(CHARACTERS),
        3 => code[random.below(length)] = random.pick(CHARACTERS),
        4 => code[random.below(length)] ^= 0x20,
        5 => code[random.below(length)] = random.byte(),
        // A zero byte inside, one after the end, or all that the book has there.
        6 => code[random.below(length)] = 0,
        7 => code.push(0),
        8 => code.resize(13, 0),
        // Too short, too long.
        9 => code.truncate(random.below(length)),
        10 => code.push(random.pick(CHARACTERS)),
        11 => code.resize(random.within(14, 40), random.pick(b"A\0")),
        // A length of 8 or 16 bits would not see what follows.
        12 => code.resize(length + if random.one_in(50) { 65536 } else { 256 }, b'A'),
        _ => code.clear(),
    }
    code
}

/// A small accepted book, with at-leasts or without.
fn small(random: &mut Random, options: usize, nodes: usize) -> Book {
    let book = books::small(random, options, nodes);
    if random.one_in(2) {
        with_at_leasts(random, book)
    } else {
        book
    }
}

/// Small accepted books of every kind.
fn small_books(family: &mut Family) {
    for _ in 0..40_000 {
        let book = small(&mut family.random, 6, 14);
        family.accept(&book);
    }
    for _ in 0..3_000 {
        let book = small(&mut family.random, 40, 200);
        family.accept(&book);
    }
}

/// Bytes of the length due to their head and mostly about right.
fn nearly_books(family: &mut Family) {
    for _ in 0..120_000 {
        let bytes = books::nearly(&mut family.random);
        let answer = family.check(&bytes, None);
        if family.random.one_in(3) {
            let code = family
                .random
                .pick(&[&b"A"[..], b"B", b"AA", b"AB", b"BB", b"C", b""]);
            let due = if answer == 0 { None } else { Some(answer) };
            family.look_up(&bytes, code, due);
        }
    }
}

/// Any bytes.
fn random_bytes(family: &mut Family) {
    for _ in 0..20_000 {
        let length = family.random.below(80);
        let mut bytes = family.random.bytes(length);
        if length >= 8 && family.random.one_in(2) {
            // A head within its limits.
            for place in [1, 3, 5, 6, 7] {
                bytes[place] = 0;
            }
        }
        family.try_out(&bytes, &[], None);
    }
    for _ in 0..100 {
        let length = family.random.below(40_000);
        let bytes = family.random.bytes(length);
        family.try_out(&bytes, &[], None);
    }
}

/// Small accepted books with one, two or more of the faults; the refusal is known.
fn known_faults(family: &mut Family) {
    for round in 0..60_000 {
        let book = small(&mut family.random, 5, 12);
        let mut faults = vec![FAULTS[round % FAULTS.len()]];
        while family.random.one_in(2) {
            faults.push(family.random.pick(&FAULTS));
        }
        let (bytes, due) = books::damaged(&mut family.random, &book, &faults);
        family.try_out(&bytes, &book.codes, Some(due));
    }
}

/// Books over the weight, alone and with each other fault.
fn too_heavy(family: &mut Family) {
    for round in 0..1_200 {
        let weight = match round % 5 {
            0 => MAX_WEIGHT + 1,
            1 => MAX_WEIGHT + 2,
            2 => 8191,
            _ => family.random.within(MAX_WEIGHT + 1, 8191),
        };
        let options = family.random.within(1, 20);
        let size = size_of_weight(&mut family.random, options, weight);
        let (likeness, shape) = (family.random.pick(&LIKENESSES), family.random.pick(&SHAPES));
        let book = books::book(&mut family.random, size, likeness, shape);
        assert!(book.weight() == weight, "the generator missed the weight");
        let faults = if round % 2 == 0 {
            vec![]
        } else {
            vec![FAULTS[round / 2 % FAULTS.len()]]
        };
        let (bytes, due) = books::damaged(&mut family.random, &book, &faults);
        family.try_out(&bytes, &book.codes, Some(due));
    }
}

/// Each byte and each number of some small books in turn; each length up to one byte more.
fn each_field(family: &mut Family) {
    for _ in 0..250 {
        let book = small(&mut family.random, 4, 9);
        let bytes = book.bytes();
        for place in 0..bytes.len() {
            let old = bytes[place];
            for new in [
                old.wrapping_add(1),
                old.wrapping_sub(1),
                old ^ 0x10,
                old ^ 0x80,
                0,
            ] {
                let mut other = bytes.clone();
                other[place] = new;
                family.check(&other, None);
                if family.random.one_in(8) {
                    let code = some_code(&mut family.random, &book.codes);
                    family.look_up(&other, &code, None);
                }
            }
        }
        // The numbers: those of the head, then all after the codes.
        let after_codes = 8 + 13 * book.codes.len();
        for place in (0..8).chain(after_codes..bytes.len()).step_by(2) {
            for new in [
                512, 513, 4095, 4096, 8191, 12287, 16384, 20479, 20480, 24576, 24641, 28671, 28672,
                65535,
            ] {
                let mut other = bytes.clone();
                other[place..place + 2].copy_from_slice(&u16::to_le_bytes(new));
                family.check(&other, None);
            }
        }
        for length in 0..bytes.len() {
            family.try_out(&bytes[..length], &book.codes, Some(1));
        }
        for more in [0, 1, b'A', 0x30, 0xFF] {
            let mut longer = bytes.clone();
            longer.push(more);
            family.try_out(&longer, &book.codes, Some(1));
        }
    }
}

/// Several bytes changed, exchanged, moved or left out.
fn changed_bytes(family: &mut Family) {
    for _ in 0..60_000 {
        let book = small(&mut family.random, 4, 9);
        let mut bytes = book.bytes();
        for _ in 0..family.random.within(1, 3) {
            let random = &mut family.random;
            let (place, other) = (random.below(bytes.len()), random.below(bytes.len()));
            match random.below(8) {
                0 => bytes[place] = random.byte(),
                1 => bytes[place] ^= 1 << random.below(8),
                2 => bytes.swap(place, other),
                3 => bytes[place] = bytes[other],
                4 => bytes[place] = bytes[place].wrapping_add(1),
                5 => bytes[place] = bytes[place].wrapping_sub(1),
                6 => {
                    let byte = bytes.remove(place);
                    bytes.push(byte);
                }
                _ => {
                    bytes.remove(place);
                }
            }
            if bytes.is_empty() {
                bytes.push(0);
            }
        }
        family.try_out(&bytes, &book.codes, None);
    }
}

/// Every number in each place of the head of a small book.
fn every_head_number(family: &mut Family) {
    let one = Book::new(vec![code(b"P")], &[vec![node(OPTION, 0)]]).bytes();
    let none = Book::new(vec![], &[]).bytes();
    for bytes in [one, none] {
        for place in [0, 2, 4, 6] {
            let mut other = bytes.clone();
            for number in 0..=u16::MAX {
                other[place..place + 2].copy_from_slice(&number.to_le_bytes());
                family.check(&other, None);
            }
        }
    }
}

/// Every number as a body's only node, and as the last of two.
fn every_node(family: &mut Family) {
    for options in [0, 1, 3] {
        let codes = books::codes(&mut family.random, options, Likeness::Short);
        for number in 0..=u16::MAX {
            let (kind, value) = (number / 4096, usize::from(number % 4096));
            let right = match kind {
                1 | 2 => value < options,
                3 | 4 => value == 0,
                AT_LEAST => value < 64, // k of none
                _ => false,
            };
            let due = Some(if right { 0 } else { 5 });
            let book = Book::new(codes.clone(), &[vec![number]]);
            family.check(&book.bytes(), due);
            if options == 1 {
                let book = Book::new(codes.clone(), &[vec![node(ANY_OF, 1), number]]);
                family.check(&book.bytes(), due);
            }
        }
    }
    // Option numbers near the most that a book can have.
    for options in [255, 256, 257, 511, 512] {
        let codes = books::codes(&mut family.random, options, Likeness::Any);
        for option in (0..6)
            .chain(250..262)
            .chain(505..520)
            .chain(1020..1030)
            .chain([4095])
        {
            for kind in [1, 2] {
                let book = Book::new(codes.clone(), &[vec![node(kind, option)]]);
                let due = if option < options { 0 } else { 5 };
                family.check(&book.bytes(), Some(due));
            }
        }
    }
}

/// An at-least with so many members that are right: marks of distinct options from 7 on,
/// and constants between them.
fn body_of_at_least(random: &mut Random, count: usize, k: usize) -> Vec<u16> {
    let mut body = vec![at_least(count, k)];
    body.extend((0..count).map(|i| match random.below(4) {
        0 => node(random.pick(&[ALL_OF, ANY_OF]), 0),
        _ => node(random.pick(&[OPTION, BARRED]), 7 + i),
    }));
    body
}

/// At-leasts of every number of members with every k, alone and inside a group; with a
/// member too many or too few, an option named twice, and each thing that is no member.
fn at_leasts(family: &mut Family) {
    let codes = books::codes(&mut family.random, 70, Likeness::Any);
    let try_body = |family: &mut Family, body: &[u16], due: u64| {
        let inside = [&[node(ANY_OF, 2), node(BARRED, 0)], body].concat();
        for body in [body.to_vec(), inside] {
            family.check(&Book::new(codes.clone(), &[body]).bytes(), Some(due));
        }
    };
    for (count, k) in (0..=MOST).flat_map(|count| (0..=MOST).map(move |k| (count, k))) {
        let body = body_of_at_least(&mut family.random, count, k);
        try_body(family, &body, 0);
        try_body(family, &[&body[..], &[node(ALL_OF, 0)]].concat(), 5);
        if count > 0 {
            try_body(family, &body[..count], 5);
            let none = [(5, 0), (7, k), (AT_LEAST, k), (ALL_OF, 1), (OPTION, 70)];
            let (kind, value) = family.random.pick(&none);
            let mut other = body.clone();
            other[1 + k % count] = node(kind, value);
            try_body(family, &other, 5);
        }
        if count > 1 {
            let apart = family.random.within(1, count - 1);
            let mut other = body.clone();
            for place in [k % count, (k + apart) % count] {
                other[1 + place] = node(family.random.pick(&[OPTION, BARRED]), 69);
            }
            try_body(family, &other, 5);
        }
    }
}

/// Every byte in every place of a code of every length, as the only code and as the
/// second of two; each looked up too.
fn every_code_byte(family: &mut Family) {
    for length in 1..=13 {
        let name: Vec<u8> = (0..length)
            .map(|_| family.random.pick(CHARACTERS))
            .collect();
        for place in 0..13 {
            for byte in 0..=255 {
                let mut stored = code(&name);
                stored[place] = byte;
                let fits = byte.is_ascii_alphanumeric() || byte == b'-';
                let right = match place {
                    0 => fits,
                    _ if place < length - 1 => fits,
                    _ if place <= length => fits || byte == 0,
                    _ => byte == 0,
                };
                let mut book = Book::new(vec![stored], &[]);
                family.check(&book.bytes(), Some(if right { 0 } else { 3 }));
                if right {
                    let bytes = book.bytes();
                    family.look_up(&bytes, characters(&stored), Some(0));
                    let padded = if characters(&stored).len() == 13 {
                        0
                    } else {
                        NO_SUCH_CODE
                    };
                    family.look_up(&bytes, &stored, Some(padded));
                } else {
                    family.look_up(&book.bytes(), &name, Some(3));
                }
                if byte % 16 == 0 || byte == b'A' {
                    book.codes.insert(0, code(b"first"));
                    book.count();
                    let bytes = book.bytes();
                    family.check(&bytes, Some(if right { 0 } else { 3 }));
                    family.look_up(&bytes, characters(&stored), None);
                }
            }
        }
    }
}

/// Every code of books with codes that are much alike, and codes that are not there.
fn lookups(family: &mut Family) {
    for round in 0..1_200 {
        let most = if round % 100 == 0 { MAX_OPTIONS } else { 16 };
        let count = family.random.within(1, most);
        let likeness = family.random.pick(&LIKENESSES);
        let codes = books::codes(&mut family.random, count, likeness);
        let book = Book::new(codes, &[]);
        let bytes = book.bytes();
        family.check(&bytes, Some(0));
        for (i, stored) in book.codes.iter().enumerate() {
            if count > 16 && i > 0 && i + 1 < count && !family.random.one_in(40) {
                continue;
            }
            let name = characters(stored);
            let here = Some((i as u64) << 8);
            let gone = Some(NO_SUCH_CODE);
            family.look_up(&bytes, name, here);
            // With the zero bytes that the book has after it: not its characters alone.
            if name.len() < 13 {
                family.look_up(&bytes, stored, gone);
                family.look_up(&bytes, &stored[..name.len() + 1], gone);
            }
            // Longer than any code, though all of a code is there.
            let mut longer = stored.to_vec();
            longer.push(0);
            family.look_up(&bytes, &longer, gone);
            *longer.last_mut().unwrap() = family.random.pick(CHARACTERS);
            family.look_up(&bytes, &longer, gone);
            for more in [256, 512] {
                let mut wrapped = name.to_vec();
                wrapped.resize(name.len() + more, 0);
                family.look_up(&bytes, &wrapped, gone);
            }
            // The place in the book itself: all of it, each part, and what follows.
            let start = 8 + 13 * i;
            for end in start..=start + 13 {
                family.look_up_part(&bytes, start, end);
            }
            family.look_up_part(&bytes, start, (start + 26).min(bytes.len()));
        }
        for _ in 0..10 {
            let code = some_code(&mut family.random, &book.codes);
            family.look_up(&bytes, &code, None);
        }
        family.look_up_part(&bytes, 0, bytes.len());
    }
}

/// Codes that differ in character 13 only: two options, and a third that is none.
fn character_13(family: &mut Family) {
    for _ in 0..2_000 {
        let mut letters = *CHARACTERS;
        family.random.shuffle(&mut letters);
        let same: Vec<u8> = (0..12).map(|_| family.random.pick(CHARACTERS)).collect();
        let full = |last: u8| code(&[&same[..], &[last]].concat());
        let mut codes: Vec<books::Code> = letters[..4].iter().map(|&last| full(last)).collect();
        if family.random.one_in(2) {
            // The same twelve characters without a thirteenth are an option too.
            codes.push(code(&same));
        }
        family.random.shuffle(&mut codes);
        let book = Book::new(codes.clone(), &[]);
        let bytes = book.bytes();
        family.check(&bytes, Some(0));
        for (i, stored) in codes.iter().enumerate() {
            family.look_up(&bytes, characters(stored), Some((i as u64) << 8));
        }
        family.look_up(&bytes, &full(letters[5]), Some(NO_SUCH_CODE));
        family.look_up(&bytes, &full(0), Some(NO_SUCH_CODE));
        let twelve = codes
            .iter()
            .position(|stored| characters(stored).len() == 12);
        let due = twelve.map_or(NO_SUCH_CODE, |i| (i as u64) << 8);
        family.look_up(&bytes, &same, Some(due));
        // Alike in character 13 too.
        let mut again = book.clone();
        let (from, to) = (family.random.below(4), family.random.below(codes.len()));
        if from != to {
            again.codes[to] = again.codes[from];
            family.check(&again.bytes(), Some(3));
        }
    }
}

/// Counts in the contents that add up in 16 bits only, and bodies that lack as many nodes
/// as come to 0 in 8, 12 or 16 bits.
fn wrapped_sums(family: &mut Family) {
    for round in 0..3_000 {
        let nodes = if round % 50 == 0 { MAX_NODES } else { 12 };
        let mut book = books::small(&mut family.random, 3, nodes);
        books::wrap_contents(&mut family.random, &mut book);
        family.try_out(&book.bytes(), &book.codes, Some(4));
    }
    for round in 0..3_000 {
        let lacking = [256, 4096, 65536, 2 * 65536][round % 4];
        let mut bodies = vec![books::unfinished_body(&mut family.random, lacking)];
        if family.random.one_in(2) {
            bodies.insert(family.random.below(2), vec![node(ALL_OF, 0)]);
        }
        let book = Book::new(books::codes(&mut family.random, 2, Likeness::Any), &bodies);
        family.try_out(&book.bytes(), &book.codes, Some(5));
    }
}

/// Accepted books with each number of options, of rules and of nodes, and of each weight.
fn every_size(family: &mut Family) {
    for options in 0..=MAX_OPTIONS {
        let likeness = LIKENESSES[options % LIKENESSES.len()];
        let marks = if options == 0 { 0 } else { 9 };
        let size = Size {
            options,
            rules: 3,
            nodes: 20,
            marks,
        };
        let book = books::book(&mut family.random, size, likeness, Shape::Any);
        assert!(book.codes.len() == options);
        family.accept(&book);
    }
    for nodes in 0..=MAX_NODES {
        let shape = SHAPES[nodes % SHAPES.len()];
        let options = family.random.within(0, 8);
        let rules = if nodes == 0 {
            0
        } else {
            family.random.within(1, nodes.min(8))
        };
        let most = if options == 0 {
            0
        } else {
            (nodes - rules).min(MAX_WEIGHT - 1 - nodes)
        };
        let marks = family.random.within(0, most);
        let size = Size {
            options,
            rules,
            nodes,
            marks,
        };
        let book = books::book(&mut family.random, size, Likeness::Any, shape);
        assert!(book.nodes.len() == nodes && book.pairs.len() == rules);
        family.accept(&book);
    }
    for rules in 0..=MAX_RULES {
        let most = if rules == 0 {
            0
        } else {
            (rules + 200).min(MAX_NODES)
        };
        let nodes = family.random.within(rules, most);
        let marks = family
            .random
            .within(0, (nodes - rules).min(MAX_WEIGHT - 1 - nodes));
        let size = Size {
            options: 5,
            rules,
            nodes,
            marks,
        };
        let book = books::book(&mut family.random, size, Likeness::Any, Shape::Any);
        assert!(book.pairs.len() == rules);
        family.accept(&book);
    }
    for weight in 1..=MAX_WEIGHT {
        let options = family.random.within(1, 8);
        let size = size_of_weight(&mut family.random, options, weight);
        let shape = family.random.pick(&SHAPES);
        let book = books::book(&mut family.random, size, Likeness::Any, shape);
        assert!(book.weight() == weight);
        family.accept(&book);
    }
}

/// Books at the limits: whole, with each fault, and one over a limit.
fn full_size(family: &mut Family) {
    for round in 0..360 {
        let (likeness, shape) = (family.random.pick(&LIKENESSES), family.random.pick(&SHAPES));
        let rules = match round % 4 {
            0 => 1,
            1 => MAX_RULES,
            _ => family.random.within(1, MAX_RULES),
        };
        // 4,095 nodes leave room for no mark; fewer, and the weight is still full.
        let size = match round % 3 {
            0 => Size {
                options: MAX_OPTIONS,
                rules,
                nodes: MAX_NODES,
                marks: 0,
            },
            1 => size_of_weight(&mut family.random, MAX_OPTIONS, MAX_WEIGHT),
            _ => Size {
                options: MAX_OPTIONS,
                rules: 1,
                nodes: 2048,
                marks: 2047,
            },
        };
        let book = books::book(&mut family.random, size, likeness, shape);
        assert!(book.weight() == MAX_WEIGHT && book.codes.len() == MAX_OPTIONS);
        family.accept(&book);
        let mixed = with_at_leasts(&mut family.random, book.clone());
        family.accept(&mixed);
        let fault = FAULTS[round / 12 % FAULTS.len()];
        for book in [&book, &mixed] {
            let (bytes, due) = books::damaged(&mut family.random, book, &[fault]);
            family.try_out(&bytes, &book.codes, Some(due));
        }
        // One mark too many.
        let mut heavy = book.clone();
        let leaf = heavy
            .nodes
            .iter()
            .position(|&node| node == 12288 || node == 16384);
        if let Some(leaf) = leaf {
            heavy.nodes[leaf] = node(OPTION, MAX_OPTIONS - 1);
            family.try_out(&heavy.bytes(), &book.codes, Some(6));
        }
    }
    // The longest book, with the first, some and the last code, pair and node damaged.
    let codes = books::codes(&mut family.random, MAX_OPTIONS, Likeness::Ends);
    let book = Book::new(codes, &vec![vec![node(ALL_OF, 0)]; MAX_RULES]);
    for (option, rule) in [(0, 0), (255, 255), (256, 256), (300, 2047), (511, 4094)] {
        for (place, byte) in [(0, 0), (11, b'_'), (12, b'_')] {
            let mut other = book.clone();
            other.codes[option][place] = byte;
            family.try_out(&other.bytes(), &book.codes, Some(3));
        }
        for another in [0, 256, 511] {
            let mut other = book.clone();
            other.codes[option] = book.codes[another];
            let due = if option == another { 0 } else { 3 };
            family.try_out(&other.bytes(), &book.codes, Some(due));
        }
        let first = rule as u16;
        for pair in [
            [first + 1, 1],
            [first ^ 256, 1],
            [first, 0],
            [first, 2],
            [first, 257],
        ] {
            let mut other = book.clone();
            other.pairs[rule] = pair;
            family.try_out(&other.bytes(), &book.codes, Some(4));
        }
        for bad in [node(0, 0), node(5, 0), node(ALL_OF, 1), node(OPTION, 512)] {
            let mut other = book.clone();
            other.nodes[rule] = bad;
            family.try_out(&other.bytes(), &book.codes, Some(5));
        }
        let mut heavy = book.clone();
        heavy.nodes[rule] = node(OPTION, option);
        family.try_out(&heavy.bytes(), &book.codes, Some(6));
    }
    // One over a limit, with the length and all else as it would be due.
    for _ in 0..20 {
        let random = &mut family.random;
        let options = Book::new(books::codes(random, MAX_OPTIONS + 1, Likeness::Any), &[]);
        let rules = Book::new(vec![], &vec![vec![node(ALL_OF, 0)]; MAX_RULES + 1]);
        let mut flat = vec![node(ANY_OF, 0); MAX_NODES + 1];
        flat[0] = node(ANY_OF, MAX_NODES);
        let nodes = Book::new(vec![], &[flat]);
        for book in [options, rules, nodes] {
            family.try_out(&book.bytes(), &book.codes, Some(Fault::Head.refusal()));
        }
    }
    // Nests as deep as the nodes allow, whole, without their end, and with one node more.
    for nodes in (4_000..=MAX_NODES).chain(1..100) {
        for last in [node(ALL_OF, 0), node(OPTION, 0)] {
            let mut body = vec![node(ANY_OF, 1); nodes];
            body[nodes - 1] = last;
            let heavy = nodes == MAX_NODES && last == node(OPTION, 0);
            let due = if heavy { Fault::Weight.refusal() } else { 0 };
            let book = Book::new(vec![code(b"P")], &[body.clone()]);
            family.try_out(&book.bytes(), &book.codes, Some(due));
            body[nodes - 1] = node(ALL_OF, 1);
            let book = Book::new(vec![code(b"P")], &[body.clone()]);
            family.try_out(&book.bytes(), &book.codes, Some(5));
            if nodes > 1 {
                body[nodes - 2] = last;
                body[nodes - 1] = last;
                let book = Book::new(vec![code(b"P")], &[body]);
                family.try_out(&book.bytes(), &book.codes, Some(5));
            }
        }
    }
}

type Run = fn(&mut Family);

const FAMILIES: [(&str, Run); 16] = [
    ("small books", small_books),
    ("nearly books", nearly_books),
    ("random bytes", random_bytes),
    ("known faults", known_faults),
    ("too heavy", too_heavy),
    ("each field", each_field),
    ("changed bytes", changed_bytes),
    ("every head number", every_head_number),
    ("every node", every_node),
    ("at-leasts", at_leasts),
    ("every code byte", every_code_byte),
    ("lookups", lookups),
    ("character 13", character_13),
    ("wrapped sums", wrapped_sums),
    ("every size", every_size),
    ("full size", full_size),
];

/// All families, each on a thread of its own: the calls run at the same time, each on
/// its own buffers.
#[test]
fn library_equals_reference() {
    let seed = match std::env::var("ND_SEED") {
        Ok(seed) => seed.parse().expect("ND_SEED is a number"),
        Err(_) => 1,
    };
    let mut total = Family::new("together", seed);
    let mut failed = Vec::new();
    std::thread::scope(|scope| {
        let threads = FAMILIES.map(|(name, run)| {
            let thread = scope.spawn(move || {
                let mut family = Family::new(name, seed);
                run(&mut family);
                family
            });
            (name, thread)
        });
        for (name, thread) in threads {
            match thread.join() {
                Ok(family) => {
                    family.show();
                    total.add(&family);
                }
                Err(_) => failed.push(name),
            }
        }
    });
    assert!(failed.is_empty(), "failed, each as said above: {failed:?}");
    total.show();
    assert!(total.books >= 200_000, "too few books");
    assert!(total.lookups >= 200_000, "too few lookups");
    assert!(
        total.checked[..7].iter().all(|&times| times >= 100),
        "a refusal was seldom seen"
    );
    assert!(
        total.found.iter().all(|&times| times >= 100),
        "a refusal was seldom seen"
    );
    assert_eq!(total.longest, 31_234, "the longest book was not accepted");
}

/// Slices of length 0, by a pointer to something and by a null pointer.
#[test]
fn empty_slices() {
    let book = Book::new(vec![code(b"P")], &[]).bytes();
    assert_eq!(ffi::book_check(&[]), 1);
    assert_eq!(ffi::book_check_null(&[]), 1);
    assert_eq!(ffi::book_check(&book[..0]), 1);
    for (lent, due) in [(&[][..], 1), (&book[..], NO_SUCH_CODE)] {
        assert_eq!(ffi::code_lookup(lent, &[]), due);
        assert_eq!(ffi::code_lookup_null(lent, &[]), due);
        assert_eq!(ffi::code_lookup(lent, &book[..0]), due);
    }
    assert_eq!(ffi::code_lookup(&[], b"P"), 1);
    assert_eq!(ffi::code_lookup_null(&[], b"P"), 1);
    assert_eq!(ffi::code_lookup_null(&book, b"P"), 0);
}

/// Several threads at a time, each with books of its own.
#[test]
fn several_threads() {
    std::thread::scope(|scope| {
        for thread in 0..8 {
            scope.spawn(move || {
                let mut random = Random::new(thread);
                for _ in 0..2_000 {
                    let book = books::small(&mut random, 8, 30);
                    let bytes = book.bytes();
                    assert_eq!(ffi::book_check(&bytes), 0);
                    for (i, stored) in book.codes.iter().enumerate() {
                        assert_eq!(
                            ffi::code_lookup(&bytes, characters(stored)),
                            (i as u64) << 8
                        );
                    }
                }
            });
        }
    });
}
