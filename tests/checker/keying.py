"""The lines of an order: keying adds one and its mark, a withdrawal takes one back.

Document 02, U2: "An order shall keep its choices as a lent list of up to 64 lines, each an option
number and a sense". "The list is lent as 64 slots and a count": here a list of lines and a number.
"""
from typing import NamedTuple

from . import Refused, books, mentions
from .sheets import fill, read
from .trees import ROOT, Tree, negative, numbers, positive, weight

SLOTS = 64


class Line(NamedTuple):
    option: int
    barred: bool

    def mark(self):
        return negative(self.option) if self.barred else positive(self.option)


def check_lines(lines, count, options):
    """ "A count over 64, another number of slots, a counted line naming no option ... is refused
    11." "a slot past the count is never read" """
    if len(lines) != SLOTS or count > SLOTS:
        raise Refused(11)
    if any(option >= options for option, _ in lines[:count]):
        raise Refused(11)


def read_order(sheet, data, lines, count):
    """(N, root, book) of a sheet that a book and lines are lent beside. "Every 11 but the sheet's
    own is tested after 6, with that for N." """
    options, root = read(sheet)
    book = books.parse(data)
    if len(book.codes) != options:  # "a book whose N is not the sheet's"
        raise Refused(11)
    check_lines(lines, count, options)
    return options, root, book


def with_marks(root, lines):
    """Document 01: "A choice appends one mark, plain or barred, as the root's last child." """
    return Tree(ROOT, root.children + tuple(Line(*line).mark() for line in lines))


def key(sheet, lines, count, option, barred, index=None):
    """(sheet, lines, count) after. "keying adds a line and the mark". "14 list full", "after 11 and
    before 7"; then document 01's "7 no such option number", "8 sheet full: weight + 2 is over
    4,096"; last 12."""
    options, root = read(sheet)
    check_lines(lines, count, options)
    mentions.check(options, root, index)
    if count == SLOTS:
        raise Refused(14)
    if option >= options:
        raise Refused(7)
    if weight(root) + 2 > 4096:
        raise Refused(8)
    mentions.check_length(options, index)
    line = Line(option, bool(barred))
    after = fill(options, numbers(with_marks(root, [line])))
    return after, lines[:count] + [line] + lines[count + 1:], count + 1


def withdraw(sheet, data, lines, count, k, index=None):
    """(sheet, lines, count) after. "Taking line k back (counted from 0) removes it, moves later
    lines up, loads the sheet afresh and keys the remaining lines in order." "13 no such line",
    "after 11 and before 7"; last 12."""
    options, now, book = read_order(sheet, data, lines, count)
    mentions.check(options, now, index)
    if k >= count:
        raise Refused(13)
    remaining = lines[:k] + lines[k + 1:count]
    root = Tree(ROOT, book.rules)
    # "Refusal 8 applies if book weight plus twice the remaining lines is over 4,096."
    if weight(root) + 2 * len(remaining) > 4096:
        raise Refused(8)
    mentions.check_length(options, index)
    after = fill(options, numbers(with_marks(root, remaining)))
    # a slot "freed by a withdrawal keeps what it held"
    return after, remaining + lines[count - 1:], count - 1
