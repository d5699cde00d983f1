"""Named cases for the desk program: the sample book, odd lines, as many lines as an order holds, books that cannot be read, input past
its buffers. What is due comes from the checker alone."""
import subprocess
import sys
import tempfile
from pathlib import Path

from checker import desk
from checker.books import build
from checker.trees import conjunction, disjunction, negative, positive
from driver.desks import FOLDER, printed

TOP = Path(__file__).resolve().parent.parent.parent
DESK, EXAMPLES = str(TOP / "target/bin/desk"), TOP / "examples"
BUFFER = 65_536
CRATE = TOP / "crates/desk"  # its data/, stdin and stdout are what rt ci holds the program to

LONG_CODE = b"ABCDEFGHIJKLM"
SMALL = build([b"P", b"Q", b"-"], [disjunction(positive(0), conjunction(positive(0), positive(1)))])
WIDE = build([LONG_CODE, b"P"], [])
FULL = build([b"P"], [disjunction(conjunction(), *[positive(0)] * 2045)])  # weight 4,093: one choice fits, not two
HEAVY, LESS_HEAVY = (build([b"P"], [disjunction(conjunction(), *[positive(0)] * marks)]) for marks in (1983, 1982))  # 63 and 64 choices fit
CLASH = build([b"P"], [positive(0), negative(0)])


def crate_cases():
    """Document 01's own order, with no choices and with those of the crate."""
    book, stdin = (CRATE / "data/book.bin").read_bytes(), (CRATE / "stdin").read_bytes()
    for choices, due in ((b"", b"settled 5\nP in\nQ open\n"), (stdin, (CRATE / "stdout").read_bytes())):
        if desk.output(book, choices) != due:
            raise SystemExit("crates/desk: choices %r: written down %r, due %r" % (choices, due, desk.output(book, choices)))
        yield "document 01's book, choices %r" % choices, book, choices


def sample_book(name, text):
    """A book of examples/, which must be the one that its text describes."""
    book = (EXAMPLES / name).read_bytes()
    with tempfile.TemporaryDirectory() as folder:
        made = Path(folder) / "book.bin"
        subprocess.run([sys.executable, str(TOP / "tools/book"), "make", str(EXAMPLES / text), str(made)], check=True)
        if made.read_bytes() != book:
            raise SystemExit("examples/%s is not the book of examples/%s" % (name, text))
    return book


def sample_cases():
    """The sample books of examples/: the meter, and the seals, whose rules count."""
    book, seals = sample_book("book.bin", "meter.txt"), sample_book("seals/book.bin", "seals/seals.txt")
    yield "seals, no choices", seals, b""
    yield "seals, their choices", seals, (EXAMPLES / "seals/choices.txt").read_bytes()
    yield "seals, three of them", seals, b"+LID-STEEL\n+FOR-BILLING\n"
    yield "seals, choices that clash", seals, b"+LID-STEEL\n+FOR-BILLING\n-SEAL-WIRE\n"
    yield "sample book, no choices", book, b""
    yield "sample book, its choices", book, (EXAMPLES / "choices.txt").read_bytes()
    yield "sample book, choices that clash", book, b"+LID-STEEL\n+BAND-868\n"
    yield "sample book, another choice", book, b"-BATT-LI\n"
    yield "sample book, a code of another works", book, b"+LID-STEEL\n+LID-GLASS\n"


def line_cases():
    for name, text in [
            ("a choice", b"+Q\n"), ("a barred option", b"-Q\n"), ("no last line end", b"+Q\n-P"),
            ("two hyphens bar the code -", b"--\n"), ("plus and the code -", b"+-\n"),
            ("an empty line", b"\n"), ("an empty line between", b"+P\n\n-Q\n"), ("an empty line at the end", b"+P\n\n"),
            ("a sign alone", b"+"), ("no sign", b"P\n"), ("another sign", b"*P\n"), ("a carriage return", b"+P\r\n"),
            ("a tab before", b"\t+P\n"), ("a tab after", b"+P\t\n"), ("a blank between", b"+ P\n"), ("a zero byte", b"+P\0\n"),
            ("bytes over 127", b"+\xc3\x84\n"), ("a small letter for a large one", b"+p\n"), ("fourteen characters", b"+" + b"A" * 14),
            ("the first refusal ends it", b"+P\n+X\n\n-Q\n"), ("both signs", b"+Q\n-Q\n"), ("the same twice", b"+Q\n+Q\n")]:
        yield "line: " + name, SMALL, text


def book_cases():
    for name, book in [
            ("none", None), ("a folder", FOLDER), ("empty", b""), ("seven bytes", bytes(7)), ("eight zero bytes", bytes(8)),
            ("a byte short", SMALL[:-1]), ("a byte long", SMALL + b"\0"), ("a contradiction", CLASH),
            ("cut at the buffer's length", SMALL + bytes(BUFFER - len(SMALL))),
            ("past the buffer", SMALL + bytes(BUFFER)), ("a bad head, past the buffer", b"\1\2" + bytes(2 * BUFFER))]:
        yield "book: " + name, book, b""
        yield "book: %s, with a choice" % name, book, b"+P\n"


def list_cases():
    """An order has 64 lines: the 65th is refused 14 whatever it holds, and a line refused before it comes first."""
    lines = b"+Q\n-P\n" * 32
    for name, text in [
            ("63", lines[3:]), ("64", lines), ("64, no last line end", lines[:-1]), ("65", lines + b"+P\n"),
            ("65, no last line end", lines + b"+P"), ("an empty 65th", lines + b"\n"), ("a 65th without a sign", lines + b"P\n"),
            ("a 65th that is no code", lines + b"+X"), ("a 65th that is one byte", lines + b"\0"), ("200", lines * 3 + b"+P\n" * 8),
            ("a bad third of 80", b"+Q\n-P\n+X\n" + lines + lines[:48]), ("a bad 64th of 80", lines[3:] + b"*P\n" + lines[:48])]:
        yield "lines: " + name, SMALL, text
    yield "lines: a 64th that finds the sheet full", HEAVY, b"+P\n" * 66
    yield "lines: 64 that fill the sheet, and a 65th", LESS_HEAVY, b"+P\n" * 65


def long_cases():
    """A sheet that gets full, and input that goes on past the buffer."""
    choice = b"+" + LONG_CODE + b"\n"
    for count in (1, 2, 3):
        yield "full sheet: %d choices" % count, FULL, b"+P\n" * count
    yield "full sheet: an unknown code before fullness", FULL, b"+P\n+X\n"
    yield "64 long choices, then a line past the buffer", WIDE, choice * 64 + b"+" + b"P" * BUFFER
    yield "63 long choices, then a line past the buffer", WIDE, choice * 63 + b"+" + b"P" * BUFFER
    yield "choices past the buffer", WIDE, choice * 5000
    yield "a line that fills the buffer", WIDE, b"+" + b"P" * (BUFFER - 1) + b"\n"
    yield "a line that ends just past the buffer", WIDE, b"+P" + b" " * (BUFFER - 2) + b"\n+P\n"
    yield "line ends only", WIDE, b"\n" * (2 * BUFFER)


def main():
    count = 0
    for cases in (crate_cases(), sample_cases(), line_cases(), list_cases(), book_cases(), long_cases()):
        for name, book, stdin in cases:
            due, given = desk.output(None if book is FOLDER else book, stdin), printed(DESK, book, stdin)
            if given != due:
                raise SystemExit("%s: printed %r, due %r" % (name, given, due))
            count += 1
    print("%d desk cases, no difference" % count)


if __name__ == "__main__":
    main()
