"""The verbs of tools/book."""
import argparse

from . import Mistake, books, checking, clause_text, comparing, drawing, files, importing, kinds, notation, showing
from .checking import Refused, counted, in_thousands
from .saying import put_text, tell, visible
from .words import NotationMistake

NOTATION = """\
the notation:
  # a comment, to the end of the line
  option BODY-A             # a code: 1 to 13 of A-Z, a-z, 0-9 and hyphen
  rule one_of(BODY-A, BODY-B)
  rule BODY-A -> any(THREAD-G1,
                     all(THREAD-G2, not LID-STEEL))

  all(..), any(..)          every part holds; at least one part holds
  not A, not any(..)        it does not hold; goes inwards, down to the options
  A -> B                    any(not A, B)
  A <-> B                   all(any(not A, B), any(A, not B))
  at_most_one(A, B, ..)     all(..) of any(not X, not Y) for each pair
  one_of(A, B, ..)          all(any(A, B, ..), and the same pairs)
  at_least(k, A, B, ..)     k of the parts hold, or more
  exactly(k, A, B, ..)      all(at_least(k, A, B, ..), at_least(m - k, not A, not B, ..))
                            for m parts; 0 in place of m - k where k is over m
  true, false               all(), any()
  ( .. )                    holds a formula together, makes no node

  Each statement starts on a line of its own; a rule may go on over several. An
  option may stand below the rules that name it; the options' numbers and the rules
  follow the order of the text. A formula has at most one arrow; more want
  parentheses. A code that is a word of the notation (all, any, not, true, false,
  option, rule) is written in quotes: "all". Any code may be.

  at_least and exactly begin with a number, 0 to 63. Then come at most 63 parts, each
  an option, true or false, with or without `not`; no option stands there twice.

  A book has no room for comments, nor for ->, <->, one_of, at_most_one, exactly or a
  `not` before a group: `show` writes the rules spelled out and without comments. So
  keep the text; it is the source.

Options, rules, nodes and bytes are counted from 0, as document 01 counts them.
"""

FILES = """\
files:
  `-` is standard input or standard output. make, import and draw -o never write the file
  that they read. Another file that stands there is written over if it is of the kind that
  they write (a book; of draw, an SVG) or empty, and any other with --force alone. A text
  without an option or a rule is made a book of nothing with --force alone.

Exit status: 0 done (of diff, whether or not there is a difference), 1 refused or not
understood: one line says why and where, and every file is as it was. Where a file is
written, one line on standard error says what is in it."""

CLAUSE_FILE = """\
a clause file (DIMACS CNF):
  c comment lines, as many as one likes, before all else
  p cnf 3 2
  1 -2 0
  2 3 0

  The p line gives V, the number of options, and C, the number of clauses, with single
  spaces. Then come C clauses, each a row of marks closed by 0: numbers 1 to V, with a
  minus directly before it where the option is barred. Numbers are decimal, without
  leading zeros and without a plus. After the p line any spaces, tabs and line ends may
  stand before and after numbers, at least one between two, and nothing else. A line
  ends at byte 10, with or without byte 13 directly before it.

  Option v - 1 gets the code V and v: V1, V2 and so on. Each clause becomes a rule, an
  any(..) of its marks in their order. A book has room for 512 options, 4,095 clauses and
  a weight (1, the clauses and twice the marks) of 4,096.

The book is made by the library's nd_import: run tools/build-library first. Lines and
columns are counted from 1.
"""

EPILOGS = {"make": [NOTATION], "show": [NOTATION], "import": [CLAUSE_FILE]}
FORCE = "write over a file of another kind, too (never over the one that is read)"
FORCE_EMPTY = "; make a book of nothing, too"


class Parser(argparse.ArgumentParser):
    def error(self, message):
        """One line, as for every other mistake."""
        raise Mistake("%s: %s (%s --help tells more)" % (self.prog, message, self.prog))

    def print_help(self, file=None):
        put_text(self.format_help())


def main(arguments=None):
    """The exit status."""
    try:
        given = parser().parse_args(arguments)
        return given.work(given) or 0
    except Mistake as mistake:
        tell(str(mistake))
    except BrokenPipeError:
        pass  # whoever read the output has seen enough
    except MemoryError:
        tell("book: there is not enough memory for that")
    return 1


def parser():
    top = Parser(prog="book", description="Option books: made from a text or from clauses, shown, checked, compared and drawn.",
                 epilog=NOTATION + "\n" + FILES, formatter_class=argparse.RawDescriptionHelpFormatter)
    verbs = top.add_subparsers(title="verbs", metavar="VERB", required=True)
    for name, work, names, words in (
            ("make", make, ("TEXT", "BOOK"), "write the book that a text describes"),
            ("import", import_clauses, ("CLAUSES", "BOOK"), "write the book of a clause file (DIMACS CNF)"),
            ("show", show, ("BOOK",), "print the text of a book; `make` gives the same bytes again"),
            ("check", check, ("BOOK",), "say whether a file is a book, and if not, why and where; if so, the room used"),
            ("diff", diff, ("OLD", "NEW"), "say which options and rules were added, removed and moved"),
            ("draw", draw, ("BOOK",), "draw the rules as trees (SVG)")):
        verb = verbs.add_parser(name, help=words, description=words, epilog="\n".join([*EPILOGS.get(name, []), FILES]),
                                formatter_class=argparse.RawDescriptionHelpFormatter, allow_abbrev=False)
        for each in names:
            verb.add_argument(each)
        if name == "draw":
            verb.add_argument("-o", metavar="FILE", default=files.STANDARD, help="the file to write; without it, standard output")
        if work in (make, import_clauses, draw):
            verb.add_argument("--force", action="store_true", help=FORCE + (FORCE_EMPTY if work is make else ""))
        verb.set_defaults(work=work)
    return top


def make(given):
    files.check_apart(given.TEXT, given.BOOK)
    data = files.read(given.TEXT, files.MOST_TEXT)
    name = files.input_name(given.TEXT)
    try:
        book = notation.book_of(data)
    except NotationMistake as mistake:
        told = kinds.hint(data, kinds.RULES)
        raise Mistake("%s: %s" % (name, told) if told else "%s:%d:%d: %s" % (name, mistake.line, mistake.column, mistake)) from None
    if not (book.codes or book.bodies or given.force):
        raise Mistake("%s: no option and no rule stands in it; --force makes a book of nothing" % name)
    write_book(given, books.to_bytes(book))


def import_clauses(given):
    files.check_apart(given.CLAUSES, given.BOOK)
    text = files.read(given.CLAUSES)
    name = files.input_name(given.CLAUSES)
    try:
        data = importing.book_of(text)
    except clause_text.Fault as fault:
        line, column = clause_text.place(text, fault.at)
        told = Refused(importing.NO_CLAUSE_FILE, with_hint(fault, text, kinds.CLAUSES))
        raise Mistake("%s:%d:%d: %s" % (name, line, column, told)) from None
    except Refused as refusal:
        raise Mistake("%s: %s" % (name, refusal)) from None
    write_book(given, data)


def write_book(given, data):
    """Writes a book, and says what is in it."""
    book = checking.read(data)
    files.write(given.BOOK, data, kinds.BOOK, given.force)
    tell("%s, %s, weight %s of %s" % (counted(len(book.codes), "option"), counted(len(book.bodies), "rule"),
                                      in_thousands(books.weight(book)), in_thousands(books.MOST_WEIGHT)))


def show(given):
    put_text(showing.text_of(read_book(given.BOOK)))


def check(given):
    name = visible(files.input_name(given.BOOK))
    data = files.read(given.BOOK)
    try:
        book = checking.read(data)
    except Refused as refusal:
        put_text("%s: %s\n" % (name, with_hint(refusal, data, kinds.BOOK)))
        return 1
    lines = ["%s: accepted" % name]
    for what, used, most in (
            ("options", len(book.codes), books.MOST_OPTIONS), ("rules", len(book.bodies), books.MOST_RULES),
            ("nodes", books.count_nodes(book), books.MOST_NODES), ("weight", books.weight(book), books.MOST_WEIGHT)):
        lines.append("%-8s%5s of %s" % (what, in_thousands(used), in_thousands(most)))
    put_text("\n".join([*lines, room_for_choices(book), ""]))
    return 0


def room_for_choices(book):
    """How many choices an order takes before a run: each is one more mark, of weight 2, and has a line of its own."""
    room = (books.MOST_WEIGHT - books.weight(book)) // 2
    if room >= books.MOST_LINES:
        return "An order by this book takes %d choices, since it has %d lines." % (books.MOST_LINES, books.MOST_LINES)
    return "An order by this book takes %s, since each adds 2 to the weight; a run may make room for more." % counted(room, "choice")


def diff(given):
    if given.OLD == given.NEW == files.STANDARD:
        raise Mistake("book diff: standard input can be one of the two books, not both")
    put_text("\n".join([*comparing.report(read_book(given.OLD), read_book(given.NEW)), ""]))


def draw(given):
    files.check_apart(given.BOOK, given.o)
    book = read_book(given.BOOK)
    files.write(given.o, drawing.picture(book).encode("ascii"), kinds.PICTURE, given.force)
    if given.o != files.STANDARD:
        tell("%s, %s drawn" % (counted(len(book.bodies), "rule"), counted(books.count_nodes(book), "node")))


def read_book(path):
    data = files.read(path)
    try:
        return checking.read(data)
    except Refused as refusal:
        raise Mistake("%s: %s" % (files.input_name(path), with_hint(refusal, data, kinds.BOOK))) from None


def with_hint(refusal, data, due):
    """A refusal of these bytes, with what they are where that is the reason."""
    return "; ".join(filter(None, [str(refusal), kinds.hint(data, due)]))
