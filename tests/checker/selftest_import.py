"""The checker's import against document 02: texts by hand, for each sentence of U7 some that it
accepts and some that it turns away; every short text after a p line, against the grammar as one
regular expression; numbers of any length; the limits, where they decide; and, on random files, that
the book is one, has exactly the file's clauses, and reports what propagation on them derives."""
import re
from itertools import product

from . import books, calls, meaning
from .clause_files import parse
from .expecting import BLANK, done, expect
from .trees import DISJUNCTION

RANDOM = 1500
ROOM = [9] * 200
# (text, V, clauses)
ACCEPTED = [
    # "comment lines starting with c, then one line "p cnf V C""
    (b"p cnf 2 1\n1 -2 0\n", 2, [[1, -2]]), (b"c\np cnf 1 1\n1 0\n", 1, [[1]]),
    (b"c one\nc two\np cnf 1 1\n1 0\n", 1, [[1]]), (b"cnf\np cnf 1 1\n-1 0\n", 1, [[-1]]),
    (b"c p cnf 9 9\np cnf 1 0\n", 1, []), (b"c\tany \0 \r bytes \xff%\np cnf 1 0\n", 1, []),
    # "then C clauses, each closed by 0"
    (b"p cnf 0 0\n", 0, []), (b"p cnf 3 0\n", 3, []), (b"p cnf 0 2\n0 0\n", 0, [[], []]),
    (b"p cnf 2 3\n1 2 0\n0\n-1 0\n", 2, [[1, 2], [], [-1]]),
    (b"p cnf 2 2\n1\n2 0 -2\n-1 0\n", 2, [[1, 2], [-2, -1]]),
    # "All numbers are decimal without leading zeros"
    (b"p cnf 10 1\n10 -10 9 0\n", 10, [[10, -10, 9]]),
    (b"p cnf 100 10\n" + b"100 0 " * 10, 100, [[100]] * 10),
    # "A line ends at byte 10, with or without 13 before it, or at the end of the text."
    (b"c x\r\np cnf 1 1\r\n1 0\r\n", 1, [[1]]), (b"c x\r\r\np cnf 1 1\n1 0", 1, [[1]]),
    (b"p cnf 4 0", 4, []), (b"c\r\np cnf 0 0", 0, []), (b"p cnf 1 1\n0", 1, [[]]),
    # "any spaces, tabs and line ends may stand before and after numbers"
    (b"p cnf 1 1\n \t\n\r\n1\t \r\n\n0 \t\n\r\n ", 1, [[1]]), (b"p cnf 0 0\n \t\r\n\n", 0, []),
    (b"p cnf 1 2\n\t-1\t0\n\n0\t", 1, [[-1], []]),
    # "clauses and marks in file order", as they stand
    (b"p cnf 2 2\n2 1 2 2 0 -1 1 -1 0", 2, [[2, 1, 2, 2], [-1, 1, -1]])]
REFUSED = [
    # no p line, another, one with something before it
    b"", b"\n", b"c", b"c\n", b"c p cnf 0 0", b"1 0\n", b"p cnf 1\n1 0\n", b"p cnf\n", b"p cnf 1 ",
    b"p cnf  0\n", b"p cnf 1 1 1\n1 0\n", b"p dnf 1 0\n", b"P cnf 1 0\n", b"p CNF 1 0\n",
    b"p cnf x 0\n", b"p cnf 1 y\n", b"p cnf -1 0\n", b"p cnf 1 -0\n", b"p cnf +1 0\n",
    b"pcnf 1 0\n", b"\np cnf 0 0\n", b" \np cnf 0 0\n", b"c\n\np cnf 0 0\n", b" c\np cnf 0 0\n",
    b"C\np cnf 0 0\n",
    b"\xef\xbb\xbfp cnf 0 0\n", b"p cnf 0 0\np cnf 0 0\n", b"c x\rp cnf 0 0\n",
    # "the p line has single spaces", and nothing else
    b" p cnf 0 0\n", b"p  cnf 0 0\n", b"p cnf  0 0\n", b"p cnf 0  0\n", b"p cnf 0 0 \n",
    b"p\tcnf 0 0\n", b"p cnf\t0 0\n", b"p cnf 0\t0\n", b"p cnf 0 0\t\n", b"p cnf 0 0 ",
    b"p cnf 20  91 \n", b"p cnf 0\n0\n", b"p\ncnf 0 0\n", b"p cnf 0 0\0\n",
    # a comment after the p line
    b"p cnf 1 1\nc\n1 0\n", b"p cnf 1 1\n1 0\nc x\n", b"p cnf 0 0\nc", b"p cnf 1 1\n1 0\n%\n0\n",
    # "decimal without leading zeros"
    b"p cnf 01 0\n", b"p cnf 00 0\n", b"p cnf 1 00\n", b"p cnf 1 01\n1 0\n", b"p cnf 1 1\n01 0\n",
    b"p cnf 1 1\n-01 0\n", b"p cnf 1 1\n1 00\n", b"p cnf 1 1\n1 -0\n", b"p cnf 1 1\n1.0 0\n",
    b"p cnf 1 1\n0x1 0\n", b"p cnf 1 1\n+1 0\n", b"p cnf 1 1\n1 +0\n", b"p cnf 1 1\n1e0 0\n",
    # "a minus directly before the barred ones"
    b"p cnf 1 1\n- 1 0\n", b"p cnf 1 1\n--1 0\n", b"p cnf 1 1\n1- 0\n", b"p cnf 1 1\n- 0\n",
    b"p cnf 1 1\n-\n1 0\n", b"p cnf 1 1\n1-1 0\n", b"p cnf 1 1\n1 0 -", b"p cnf 1 1\n1 0-\n",
    # "1 to V"
    b"p cnf 1 1\n2 0\n", b"p cnf 1 1\n-2 0\n", b"p cnf 0 1\n1 0\n", b"p cnf 9 1\n10 0\n",
    b"p cnf 10 1\n11 0\n", b"p cnf 512 1\n513 0\n", b"p cnf 99 1\n-100 0\n",
    # "C clauses, each closed by 0"
    b"p cnf 1 1\n", b"p cnf 1 1", b"p cnf 1 1\n1\n", b"p cnf 1 1\n1", b"p cnf 1 2\n1 0\n",
    b"p cnf 1 1\n1 0 1 0\n", b"p cnf 1 1\n1 0 1\n", b"p cnf 1 0\n0\n", b"p cnf 1 0\n1\n",
    b"p cnf 1 1\n0 0\n", b"p cnf 1 2\n1 0 1\n",
    # 13 that no 10 follows, and bytes that are no blanks
    b"p cnf 0 0\r", b"p cnf 0 0\r\r\n", b"p cnf 0 0\r 0\n", b"p cnf 1 1\n1 0\r",
    b"p cnf 1 1\n1\r0\n", b"p cnf 1 1\n\r1 0\n", b"p cnf 1 1\n1 0\r\r\n", b"p cnf 1 1\n1 0 \r \n",
    b"p cnf 1 1\n1\v0\n", b"p cnf 1 1\n1\f0\n", b"p cnf 1 1\n1\0000\n", b"p cnf 1 1\n1\xa00\n",
    b"p cnf 1 1\n1,0\n", b"p cnf 1 1\n1 0\0", b"p cnf 1 1\n1 0;\n", b"p cnf 1 1\n\x851 0\n",
    # "at least one between two"
    b"p cnf 1 1\n10\n", b"p cnf 1 2\n1 00\n", b"p cnf 2 1\n1-2 0\n"]


def by_hand():
    for text, options, clauses in ACCEPTED:
        expect(parse(text) == (options, clauses), text)
        refusal, _, (left,) = calls.import_(text, [9] * 2000)
        expect(refusal == 0 and left[:2] == [options % 256, options // 256], text)
    for text in REFUSED:
        expect(calls.import_(text, ROOM) == (15, 0, (ROOM,)), text)
        expect(calls.import_(text, []) == (15, 0, ([],)), text)


def whole_books():
    """Bytes written out: the head, codes, the contents, bodies; and what stands beyond."""
    for text, book in [
            (b"p cnf 0 0", "00 00 00 00 00 00 00 00"),
            (b"p cnf 0 1\n0", "00 00 01 00 01 00 00 00  00 00 01 00  00 40"),
            (b"p cnf 1 1\n1 0", "01 00 01 00 02 00 00 00  56 31" + " 00" * 11
             + " 00 00 02 00  01 40 00 10"),
            (b"p cnf 2 2\n-2 1 0 0", "02 00 02 00 04 00 00 00  56 31" + " 00" * 11 + " 56 32"
             + " 00" * 11 + " 00 00 03 00 03 00 01 00  02 40 01 20 00 10 00 40")]:
        due = list(bytes.fromhex(book))
        for spare in ([], [7], [0, 255, 1]):
            expect(calls.import_(text, [9] * len(due) + spare)
                   == (0, len(due), (due + spare,)), text)
        short = [9] * (len(due) - 1)
        expect(calls.import_(text, short) == (12, 0, (short,)), text)
        expect(calls.import_(text, []) == (12, 0, ([],)), text)
    codes = books.parse(calls.import_(b"p cnf 512 0\n", [0] * 7000)[2][0][:8 + 13 * 512]).codes
    expect(codes[0] == b"V1" and codes[9] == b"V10" and codes[511] == b"V512", "the codes")


def every_short_text(longest=5):
    """All that can stand after a p line of one clause, made of these bytes."""
    blank = rb"(?:[ \t\n]|\r\n)"
    body = re.compile(rb"%s*(?:-?[12]%s+)*0%s*" % (blank, blank, blank))
    accepted = count = 0
    for length in range(longest + 1):
        for some in product(b"012- \t\n\rc", repeat=length):
            refusal = calls.import_(b"p cnf 2 1\r\n" + bytes(some), ROOM)[0]
            expect((refusal == 0) == bool(body.fullmatch(bytes(some))), bytes(some))
            accepted, count = accepted + (refusal == 0), count + 1
    expect(accepted > 1000, "texts after a p line, accepted")
    return count


def long_numbers():
    """ "1 to V" and "C clauses", whatever the length; 15 goes before 16."""
    for bits in (8, 16, 32, 64, 128):
        much = 2 ** bits
        for due, options, count, mark in [
                (15, much, 2, 1), (15, much, much + 1, 1), (15, 3, 1, much + 1), (15, 3, 1, -much),
                (15, 3, much + 1, 1), (15, much, 1, much + 1), (15, much, 1, -much - 1),
                (16, much + 512, 1, much + 512), (16, much + 512, 1, -much),
                (16, much + 512, 1, 1)]:
            text = b"p cnf %d %d\n%d 0\n" % (options, count, mark)
            expect(calls.import_(text, ROOM) == (due, 0, (ROOM,)), text)
    for digits in (600, 5000, 9000):
        most, above = b"8" * digits, b"8" * (digits - 1) + b"9"
        for due, options, mark in [
                (16, most, most), (16, most, b"-" + most), (15, most, above), (16, above, most),
                (15, most, b"-" + above), (15, most, b"1" + most), (16, most, b"9" * (digits - 1)),
                (15, most, b"0" + most), (15, b"512", most), (16, most, b"512")]:
            text = b"p cnf " + options + b" 1\n" + mark + b" 0"
            expect(calls.import_(text, [])[0] == due, (digits, due))
        expect(calls.import_(b"p cnf 1 " + most + b"\n1 0", [])[0] == 15, "as many clauses")


def text_of(options, clauses):
    """The plainest text: a line each."""
    lines = [b"p cnf %d %d" % (options, len(clauses))]
    lines += [b" ".join(b"%d" % mark for mark in [*clause, 0]) for clause in clauses]
    return b"\n".join(lines) + b"\n"


def limits():
    """ "16 V over 512, C or the body nodes over 4,095, or weight over 4,096" """
    for due, options, sizes in [
            (0, 512, [1]), (16, 513, [1]), (0, 512, []), (16, 513, []), (0, 1, [2047]),
            (16, 1, [2047, 0]), (16, 1, [2048]), (0, 1, [2046, 0, 0]), (0, 0, [0] * 4095),
            (16, 0, [0] * 4096), (0, 1, [1] + [0] * 4092), (16, 1, [1] + [0] * 4093),
            (16, 1, [1] + [0] * 4094), (0, 3, [2] * 819), (16, 3, [2] * 820), (0, 3, [1] * 1365),
            (16, 3, [1] * 1366), (16, 513, [2048]), (16, 600, [0] * 4096)]:
        text = text_of(options, [[at % options + 1 for at in range(size)] for size in sizes])
        length = 8 + 13 * options + 4 * len(sizes) + 2 * (len(sizes) + sum(sizes))
        room = [9] * length
        refusal, value, _ = calls.import_(text, room)
        expect((refusal, value) == (due, 0 if due else length), (options, sizes[:3], len(sizes)))
        expect(calls.import_(text, room[1:])[0] == (due or 12), "16 goes before 12")
        expect(calls.import_(text + b"1", [])[0] == 15, "15 goes before 16")


def propagated(clauses):
    """The marks that unit propagation derives, or None where a clause fails: over and over."""
    known, before = set(), None
    while before != known:
        before = set(known)
        for clause in clauses:
            left = {mark for mark in clause if -mark not in known}
            if not left:
                return None
            if len(left) == 1:
                known |= left
    return known


def random_file(rng):
    """(V, clauses), small; some clauses are empty, and some marks stand there twice or beside their
    opposite."""
    options = rng.choice((0, 1, 2, 3, 4, 5, 12))
    sizes = (0, 1, 1, 2, 2, 2, 3, 3, 4) if rng.random() < 0.2 else (1, 2, 2, 3)
    return options, [[rng.choice((1, -1)) * rng.randint(1, options)
                      for _ in range(rng.choice(sizes) if options else 0)]
                     for _ in range(rng.choice((0, 1, 2, 3, 4, 6, 8)))]


def restyled(rng, text):
    """The same numbers with other blanks, line ends and comments."""
    head, _, rest = text.partition(b"\n")
    comments = [rng.choice((b"c", b"cc", b"c x\r", b"c p cnf 1 1\r", b"c \0\xff\r\r"))
                for _ in range(rng.randint(0, 3))]

    def blanks(least):
        return b"".join(rng.choices((b" ", b"\t", b"\n", b"\r\n"), k=rng.randint(least, 3)))
    words = rest.split()
    body = blanks(0) + b"".join(word + blanks(1) for word in words[:-1]) + b"".join(words[-1:])
    return b"".join(line + b"\n" for line in comments) + head + rng.choice(
        (b"\n", b"\r\n")) + body + blanks(0)


def random_files(rng):
    """How many of them were contradictory, and derived nothing, and something."""
    met = {None: 0, False: 0, True: 0}
    for _ in range(RANDOM):
        options, clauses = random_file(rng)
        text = text_of(options, clauses)
        length, left = done(calls.import_(text, [9] * 400))
        book = bytes(left[:length])
        rules = books.parse(book).rules
        expect([rule.kind for rule in rules] == [DISJUNCTION] * len(clauses), "each an any-of")
        # "exactly the file's clauses as sets"
        expect([{frozenset(mark.option + 1 if mark.positive else -mark.option - 1
                           for mark in clause) for clause in meaning.clauses(rule)}
                for rule in rules] == [{frozenset(clause)} for clause in clauses], text)
        contradictory, marks = done(calls.report(done(calls.load(BLANK, book))[1], [9] * options))
        derived = propagated(clauses)
        due = [3] * options if derived is None else [
            1 if at in derived else 2 if -at in derived else 0 for at in range(1, options + 1)]
        expect((contradictory, marks) == (derived is None, due), text)
        other = restyled(rng, text)
        expect(calls.import_(other, [9] * 400) == (0, length, (left,)), other)
        met[None if derived is None else bool(derived)] += 1
    expect(min(met.values()) > RANDOM // 20, met)


def all_of_them(rng):
    """How many texts, by hand, short and random."""
    by_hand()
    whole_books()
    long_numbers()
    limits()
    short = every_short_text()
    random_files(rng)
    return len(ACCEPTED) + len(REFUSED), short, RANDOM
