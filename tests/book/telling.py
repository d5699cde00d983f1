"""What is told where a person has given the wrong thing: a file of another kind, a name or a line that a terminal would act on; and how
many choices an order takes."""
import os
import random
import shutil
import tempfile
from pathlib import Path

from bookfile import books, kinds, saying

from book import check
from book.program import EXAMPLES, done, quick

TEXT, BOOK, CLAUSES = (EXAMPLES / name for name in ("meter.txt", "book.bin", "valves.cnf"))
DUE_BOOK, DUE_TEXT, DUE_CLAUSES = (", and %s is due" % what for what in ("a book", "a text of options and rules", "a clause file"))
MAKE, IMPORT, SHOW = ": `book make` makes a book of it\n", ": `book import` makes a book of it\n", ": `book show` prints its text\n"
SEED, NAMES = 25, 2000


def other_kinds(folder):
    """Each kind in place of each other, named, with the verb that takes it; and nothing of the sort where only a mistake is told."""
    picture, target = folder / "picture.svg", folder / "target.bin"
    quick("draw", BOOK, "-o", picture)
    for arguments in (("check", "X"), ("show", "X"), ("draw", "X"), ("diff", "X", BOOK), ("diff", BOOK, "X")):
        for source, words in ((TEXT, "a text of options and rules" + DUE_BOOK + MAKE), (CLAUSES, "a clause file" + DUE_BOOK + IMPORT),
                              (picture, "a picture (SVG)" + DUE_BOOK + "\n")):
            told = quick(*[source if each == "X" else each for each in arguments], status=1)
            check(told.startswith("%s: refused 2: byte 0: " % source) and told.endswith("; this is " + words), arguments, "tells", told)
    for source, words in ((BOOK, "a book" + DUE_TEXT + SHOW), (CLAUSES, "a clause file" + DUE_TEXT + IMPORT),
                          (picture, "a picture (SVG)" + DUE_TEXT + "\n")):
        told = quick("make", source, target, status=1)
        check(told == "%s: this is %s" % (source, words), "make of", source, "tells", told)
    for source, words in ((BOOK, "a book" + DUE_CLAUSES + SHOW), (TEXT, "a text of options and rules" + DUE_CLAUSES + MAKE),
                          (picture, "a picture (SVG)" + DUE_CLAUSES + "\n")):
        told = quick("import", source, target, status=1)
        check(told.startswith("%s:1:1: refused 15: " % source) and told.endswith("; this is " + words), "import of", source, "tells", told)
    check(not target.exists(), "a book was made of another kind")


def mere_mistakes(folder):
    """A text with a mistake is a text all the same, and a damaged book is not taken for one."""
    given = folder / "given"
    for verb, data, words in (
            ("check", b"optoin A\n", "; this is a text, and a book is due: `book make` makes a book of a text\n"),
            ("check", b"option", "the file has 6 bytes; a book has at least 8, its head; this is a text of options"),
            ("check", "option A\n".encode("utf-16"), "; this is a text, and a book is due"), ("check", b"", "its head\n"),
            ("check", BOOK.read_bytes()[:-1], "it must have 337\n"), ("check", bytes(7), "its head\n"),
            ("make", b"optoin A\n", ":1:1: a statement starts with `option` or `rule`, in small letters; this is `optoin`\n"),
            ("make", b"option A\nrule B\n", ":2:6: no option has the code `B`\n"),
            ("make", BOOK.read_bytes()[:-1], ":1:1: a carriage return without"),
            ("import", b"p cnf 1 1\n1", "0 is expected, to close the clause that begins in line 2, column 1; here the text ends\n"),
            ("import", b"1 0\n", ":1:1: refused 15: a comment line, which begins with `c`, or the line `p cnf V C` is expected")):
        given.write_bytes(data)
        told = quick(verb, given, *([folder / "target"] if verb != "check" else []), status=1)
        check(words in told and ("this is a" in told) == ("this is a" in words), verb, data, "tells", told)


def names_and_lines(folder):
    """Nothing reaches a terminal that it would act on, and no byte that is no text."""
    strange, text = os.fsencode(folder) + b"/\x1b[31mred\n\xff\xe2\x80\xae.bin", folder / "text.txt"
    shown = "%s/U+001B[31mredU+000A\\xffU+202E.bin" % folder
    calls = [("check", strange), ("show", strange), ("draw", strange), ("make", strange, text), ("import", strange, text), (b"\x1b[31m",),
             ("make", TEXT, strange + b"/x"), ("draw", BOOK, "-o", strange + b"/x"), ("check", BOOK, b"\x1b[31m"), ("check", b"--\x1b[31m"),
             *(("make", name, strange) for name in write_lines(folder))]
    for arguments in calls:
        told = quick(*arguments, status=1)
        check(all(" " <= each <= "~" for each in told[:-1]), arguments, "tells", repr(told))
        check(strange not in arguments[:2] or told == shown + ": cannot be read: No such file or directory\n", arguments, "tells", told)
    shutil.copy(BOOK, strange)
    check(quick("check", strange).startswith(shown + ": accepted\n"), "the name of an accepted book is told otherwise")
    umlaut = folder / "M\u00fcll.bin"
    shutil.copy(BOOK, umlaut)
    for encoding, due in (("utf-8", str(umlaut)), ("ascii", "%s/M\\xfcll.bin" % folder)):
        ended = done("check", umlaut, encoding=encoding)
        check(ended.returncode == 0 and ended.stdout.decode().startswith(due + ": accepted\n"), "in", encoding, "there is printed", ended)


def write_lines(folder):
    """Texts whose first mistake stands in a line with characters that are no part of a code."""
    for number, line in enumerate((
            b"\x1b[2J", b"option A\nrule \x1b[2JA", b"option A \x1b[2J", b"option A, \x07", b"option \x7f", b"rule \xc2\x9b31m",
            b"option A\nrule any(A \x08)", b'option "\x1b[2J"', b"option \xff\x1b", b"\x1b(rule)", b"rule A\x00",
            b"option A\nrule A \x1bc")):
        path = folder / ("line%d.txt" % number)
        path.write_bytes(line)
        yield path


def spelled(folder):
    """Whatever a text holds, its visible form can be printed, and what could be printed is as it was."""
    rng = random.Random(SEED)
    for _ in range(NAMES):
        text = "".join(chr(rng.choice((rng.randrange(256), rng.randrange(0x3000), rng.randrange(0xD700, 0x11000)))) for _ in range(9))
        shown = saying.visible(text)
        check(shown.isprintable() and (shown == text) == text.isprintable(), repr(text), "is shown as", repr(shown))
        shown.encode()


def choices(folder):
    """As many as an order has lines for, and the weight room for."""
    lines, weight = "64 choices, since it has 64 lines.", "since each adds 2 to the weight; a run may make room for more."
    for marks, due in ((0, lines), (1982, lines), (1983, lines), (1984, "63 choices, " + weight), (2046, "1 choice, " + weight),
                       (2047, "0 choices, " + weight)):
        body = [books.node(books.ANY_OF, marks)] + [books.node(books.PLAIN, 0)] * marks
        (folder / "book.bin").write_bytes(books.to_bytes(books.Book(["A"], [body])))
        told = quick("check", folder / "book.bin").split("\n")[-2]
        check(told == "An order by this book takes " + due, "of", marks, "marks is told", told)


def kinds_of_bytes(folder):
    for data, due in ((b"", None), (bytes(8), kinds.BOOK), (b"\xff\xfeo\0", kinds.TEXT), (b"\0text", None), (b"<svg>", kinds.PICTURE),
                      (b"<svgs>", kinds.TEXT), (b" \n<!-- -->\n<svg/>", kinds.PICTURE), (b"<!-- a --> " * 40 + b"<sgv>", kinds.TEXT),
                      (b"<!-- <svg> ", kinds.TEXT), (b"# p cnf 1 1\noption A", kinds.RULES), (b"c option\np cnf 1 1\n", kinds.CLAUSES),
                      (b"\xef\xbb\xbf\r\n# \xe4\r\n rule A", kinds.RULES), (b"rules", kinds.TEXT), (b"copper\nprices", kinds.TEXT),
                      (b"c p cnf 1 1\n", kinds.TEXT), (b"#" * 5000, kinds.TEXT), (b"\n" * 70000 + b"option A", kinds.RULES)):
        check(kinds.kind_of(data) == due, data[:60], "is taken for", kinds.kind_of(data))


def run(accepted):
    with tempfile.TemporaryDirectory() as name:
        for part in (other_kinds, mere_mistakes, names_and_lines, spelled, choices, kinds_of_bytes):
            folder = Path(name) / part.__name__
            folder.mkdir()
            part(folder)
    return "the wrong files told"
