"""The text of a clause file (DIMACS CNF), read so that a fault has a place.

What is a clause file is decided by the proved nd_import, which answers a number alone. This reader follows the same form byte by byte, to
say where a text leaves it and what is expected there; no book is made of what it reads. Numbers have no limit in the text, so they stay
the digits that they are and are compared as such.
"""
import re
from typing import NamedTuple

from . import Mistake
from .books import MOST_NODES, MOST_OPTIONS, MOST_RULES, MOST_WEIGHT
from .checking import counted, in_thousands
from .words import shown

START = b"p cnf "
BLANKS = re.compile(rb"(?:[ \t\n]|\r\n)*")
LINE_END = re.compile(rb"\r?\n|\Z")
DIGITS = re.compile(rb"[0-9]+")
NUMBER = re.compile(rb"(-?)([0-9]+)")
MARK_OF_UTF_8 = b"\xef\xbb\xbf"
MOST_COUNTED = 18  # digits: no text has as many clauses as a number of more says


class Fault(Mistake):
    """Where a text is no clause file: the byte, from 0, and what is expected there."""

    def __init__(self, at, words):
        super().__init__(words)
        self.at = at


class Sizes(NamedTuple):
    """What a clause file asks of a book."""
    options: bytes  # V, by its digits
    clauses: int
    marks: int


def place(text, at):
    """The line and the column of a byte, both from 1."""
    return text.count(b"\n", 0, at) + 1, at - text.rfind(b"\n", 0, at)


def read(text):
    """The Sizes of a clause file, or its first Fault."""
    at = after_comments(text)
    check_start(text, at)
    options, at = size(text, at + len(START), "V, the number of options,")
    if text[at:at + 1] != b" ":
        raise Fault(at, "one space is expected between V and C; here stands %s" % here(text, at))
    due, at = size(text, at + 1, "C, the number of clauses,")
    end = LINE_END.match(text, at)
    if end is None:
        raise Fault(at, "the p line ends after C; here stands %s" % here(text, at))
    return Sizes(options, *clauses_from(text, end.end(), options, due))


def after_comments(text):
    """Where the p line must begin."""
    at = 0
    while text[at:at + 1] == b"c":
        end = text.find(b"\n", at)
        at = len(text) if end < 0 else end + 1
    return at


def check_start(text, at):
    """The p line as far as its numbers."""
    if text.startswith(MARK_OF_UTF_8):
        raise Fault(0, "a mark of UTF-8 stands before the text, as some editors write it; save the file without")
    if text[at:at + 1] != START[:1]:
        raise Fault(at, "a comment line, which begins with `c`, or the line `p cnf V C` is expected; here stands %s" % here(text, at))
    for place_in, byte in enumerate(START):
        if text[at + place_in:at + place_in + 1] != bytes([byte]):
            raise Fault(at + place_in, "in `p cnf V C`, which has single spaces, %s is expected; here stands %s" % (
                here(START, place_in), here(text, at + place_in)))


def size(text, at, what):
    """V or C, by its digits, and where it ends."""
    found = DIGITS.match(text, at)
    if found is None:
        raise Fault(at, "%s is expected; here stands %s" % (what, here(text, at)))
    check_zeros(at, found.group())
    return found.group(), found.end()


def check_zeros(at, digits):
    if len(digits) > 1 and digits.startswith(b"0"):
        raise Fault(at, "a number has no leading zeros; this is %s" % shown(digits.decode()))


def clauses_from(text, at, options, due):
    """How many clauses and how many marks stand from here to the end."""
    clauses, marks, begun = 0, 0, None  # begun: where a clause that is not closed yet begins
    most = int(due) if len(due) <= MOST_COUNTED else None
    at = BLANKS.match(text, at).end()
    while at < len(text):
        closes, end = number(text, at, options)
        if clauses == most:
            raise Fault(at, "nothing but spaces, tabs and line ends is expected after the last clause, and C is %s; here stands %s" % (
                in_thousands(most), here(text, at)))
        if closes:
            clauses, begun = clauses + 1, None
        else:
            marks, begun = marks + 1, at if begun is None else begun
        at = after_number(text, end)
    if begun is not None:
        raise Fault(at, "0 is expected, to close the clause that begins in line %d, column %d; here the text ends" % place(text, begun))
    if clauses != most:
        raise Fault(at, "a clause is expected, since C is %s; here the text ends, after %s" % (size_shown(due), counted(clauses, "clause")))
    return clauses, marks


def number(text, at, options):
    """Whether a number closes a clause, and where it ends."""
    found = NUMBER.match(text, at)
    if found is None:
        raise Fault(at, no_number(text, at))
    minus, digits = found.groups()
    check_zeros(at, digits)
    if digits == b"0" and minus:
        raise Fault(at, "0 closes a clause and has no minus; this is `-0`")
    if is_over(digits, options):
        raise Fault(at, "a mark is a number from 1 to V, and V is %s; this is %s" % (size_shown(options), size_shown(digits)))
    return digits == b"0", found.end()


def no_number(text, at):
    """What is wrong where a number must stand."""
    byte = text[at:at + 1]
    if byte == b"+":
        return "a number has no plus"
    if byte == b"-":
        return "a minus stands directly before the digits of a mark; after it stands %s" % here(text, at + 1)
    if byte == b"c" and place(text, at)[1] == 1:
        return "a comment line stands before the p line alone; after it there are numbers and nothing else"
    return "a number, a space, a tab or a line end is expected; here stands %s" % here(text, at)


def after_number(text, end):
    """Where the next number must begin."""
    found = BLANKS.match(text, end).end()
    if found == end < len(text):
        raise Fault(end, "a space, a tab or a line end is expected after a number; here stands %s" % here(text, end))
    return found


def is_over(digits, most):
    """Whether a number is over another, both by their digits."""
    return (len(digits), digits) > (len(most), most)


def here(text, at):
    """What stands at a byte, in words."""
    byte = text[at:at + 1]
    if LINE_END.match(text, at):
        return "a line end" if byte else "the end of the text"
    names = {b" ": "a space", b"\t": "a tab", b"\r": "a byte 13 with no 10 after it"}
    if byte in names:
        return names[byte]
    return shown(byte.decode()) if b" " < byte < b"\x7f" else "a byte of value %d" % ord(byte)


def size_shown(digits):
    """A number by its digits, which may be thousands."""
    return in_thousands(int(digits)) if len(digits) <= MOST_COUNTED else shown(digits.decode())


def over_limits(sizes):
    """Each number of a clause file that is over the limit of a book, in words."""
    found = []
    if is_over(sizes.options, str(MOST_OPTIONS).encode()):
        found.append("V, the number of options, is %s; %d is the most" % (size_shown(sizes.options), MOST_OPTIONS))
    for what, given, most in (
            ("C, the number of clauses,", sizes.clauses, MOST_RULES),
            ("the number of nodes (C and the marks)", sizes.clauses + sizes.marks, MOST_NODES),
            ("the weight (1, C and twice the marks)", 1 + sizes.clauses + 2 * sizes.marks, MOST_WEIGHT)):
        if given > most:
            found.append("%s is %s; %s is the most" % (what, in_thousands(given), in_thousands(most)))
    return found
