"""The desk program beside the checker's: random books and choices, odd lines, as many lines as an
order holds and more, missing books."""
import shutil
import subprocess
import tempfile
from pathlib import Path

from checker import desk
from checker.books import build
from checker.trees import conjunction, disjunction, positive

from . import Difference, expect
from .making import random_rules

CODES = [b"P", b"-", b"ABCDEFGHIJKLM", b"A7-z"]
FOLDER = object()  # in the place of a book: a folder, which opens and cannot be read
ODD_LINES = [b"", b"+", b"-", b"P", b"+p", b"+P\r", b"+P ", b" +P", b"\t+P", b"+P\0", b"*P", b"++P",
             b"+ABCDEFGHIJKLMN", b"+ABCDEFGHIJKL", b"+" + b"A" * 5000, b"\xff\xfe", b"+P-"]


def printed(program, book, stdin):
    """What the program prints, run in a folder of its own."""
    folder = Path(tempfile.mkdtemp())
    try:
        if book is FOLDER:
            (folder / "book.bin").mkdir()
        elif book is not None:
            (folder / "book.bin").write_bytes(book)
        ran = subprocess.run([program], cwd=folder, input=stdin, capture_output=True, timeout=60)
    finally:
        shutil.rmtree(folder)
    if ran.returncode != 0 or ran.stderr:
        raise Difference("desk: status %d, said %r" % (ran.returncode, ran.stderr))
    return ran.stdout


def random_desk_book(rng, options):
    data = build(CODES[:options], random_rules(rng, options))
    way = rng.random()
    if way < 0.03:
        return None
    if way < 0.04:
        return FOLDER
    if way < 0.07:
        return data[:rng.randrange(len(data))]
    if way < 0.09:
        return data + bytes(rng.choice((1, 40000, 70000)))
    if way < 0.15:
        at = rng.randrange(len(data))
        return data[:at] + bytes([rng.randrange(256)]) + data[at + 1:]
    return data


def random_input(rng, options):
    """Choices, an odd line among them now and then; the last may lack its line end."""
    codes = CODES[:options] if options and rng.random() < 0.9 else CODES
    lines = [rng.choice((b"+", b"-")) + rng.choice(codes) for _ in range(
        rng.randint(62, 67) if rng.random() < 0.02 else rng.choice((0, 0, 0, 1, 1, 2, 4)))]
    if rng.random() < 0.12:
        lines.insert(rng.randint(0, len(lines)), rng.choice(ODD_LINES))
    text = b"".join(line + b"\n" for line in lines)
    return text[:-1] if rng.random() < 0.3 else text


def compare(comparing, program, book, stdin):
    due, given = desk.output(None if book is FOLDER else book, stdin), printed(program, book, stdin)
    if given != due:
        raise Difference("desk printed %r, due %r\n  book %s\n  input %r" % (
            given, due, book.hex(" ") if isinstance(book, bytes) else book, stdin[:300]))
    comparing.seen["desk runs"] += 1
    comparing.seen["desk " + due.split(b"\n")[0].decode() if due.startswith(b"refused")
                   else "desk " + due.split(b" ")[0].decode()] += 1


def one_desk(comparing, program, rng):
    options = rng.randint(0, 4)
    compare(comparing, program, random_desk_book(rng, options), random_input(rng, options))


def comb(weight):
    """A legal book of this weight whose run is long; no option is settled by it."""
    depth = (weight - 5) // 12
    tree = conjunction(*[positive(0)] * ((weight - 5 - 6 * depth) // 2))
    for _ in range(depth):
        tree = conjunction(tree, disjunction(positive(1), positive(3)))
    return build([b"P", b"Q", b"Z", b"R"], [disjunction(positive(2), tree)])


def in_turn(count):
    """So many choices that are accepted, a line end after each."""
    choices = b"+P\n", b"--\n", b"+A7-z\n", b"-ABCDEFGHIJKLM\n"
    return b"".join(choices[at % 4] for at in range(count))


def long_orders(comparing, program):
    """Document 02: "The desk program begins with an empty list; its 65th line is 14 whatever it
    holds". A line that is refused before that ends the program first."""
    book = build(CODES, [])
    for count in (63, 64, 65, 66, 300, 6000):
        for stdin in (in_turn(count), in_turn(count)[:-1], in_turn(count) + b"\n"):
            compare(comparing, program, book, stdin)
    for line in ODD_LINES:
        for stdin in (in_turn(64) + line, in_turn(64) + line + b"\n", in_turn(63) + line + b"\n+P",
                      in_turn(2) + line + b"\n" + in_turn(80)):
            compare(comparing, program, book, stdin)
    # 8 at the last line that the list holds, and 14 where 8 would be due too
    for marks in (1982, 1983):  # weight 3,967 and 3,969
        heavy = build(CODES, [disjunction(conjunction(), *[positive(0)] * marks)])
        for count in (63, 64, 65):
            compare(comparing, program, heavy, b"+-\n" * count)


def known_cases(comparing, program):
    """Document 01's own order; every odd line alone, first and last; books of every refusal; a sheet
    that gets full; as many options as the screen has bytes."""
    first = bytes.fromhex("02 00 01 00 05 00 00 00 50" + "00" * 12 + "51" + "00" * 12
                          + "00 00 05 00 02 40 00 10 02 30 00 10 01 10")
    expect(printed(program, first, b"") == b"settled 5\nP in\nQ open\n", "document 01's own order")
    book = build(CODES, [])
    for line in ODD_LINES:
        for stdin in (line, line + b"\n", line + b"\n+P\n", b"+P\n" + line, b"+P\n" + line + b"\n"):
            compare(comparing, program, book, stdin)
    bad = [build(CODES * 200, []), build([b"P", b"P"], []), bytes([0, 0, 0, 0, 1, 0, 0, 0, 0, 48]),
           build(CODES, [positive(4)]), build(CODES, [disjunction(*[positive(0)] * 2048)])]
    for data in (None, FOLDER, b"", bytes(7), bytes(8), book, *bad):
        for stdin in (b"", b"\n", b"+P", b"+P\n+P"):
            compare(comparing, program, data, stdin)
    full = build(CODES, [disjunction(conjunction(), *[positive(0)] * 2040)])
    for count in (6, 7, 8, 30000):
        compare(comparing, program, full, b"+-\n" * count)
    codes = [b"C%03d" % number for number in range(512)]
    for options in (511, 512):
        wide = build(codes[:options], [positive(options - 1)])
        for stdin in (b"", b"-C000\n+C255\n", b"-" + codes[options - 1]):
            compare(comparing, program, wide, stdin)
    for stdin in (b"+" + b"A" * 70000, b"+P\n-" + b"A" * 70000 + b"\n"):
        compare(comparing, program, book, stdin)
    # The checker would need an hour for this run; the book's meaning is seen by eye.
    given = printed(program, comb(2200), b"")
    if given != b"stopped 100000\nP open\nQ open\nZ open\nR open\n":
        raise Difference("desk on the comb: printed %r" % given)
    comparing.seen["desk stopped"] += 1
