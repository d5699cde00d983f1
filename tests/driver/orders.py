"""The order of the rules in the book and of the lines of an order, and lines that were keyed and
taken back again: none of it may matter, before a run or after it."""
from checker.books import build
from checker.sheets import LENGTH

from . import expect
from .indexes import beside
from .library import Lent, sheet as lent_sheet
from .lines import random_line
from .making import CODES, random_rules


class Order:
    """A book loaded, on which lines are keyed and taken back, and an index lent on."""

    def __init__(self, comparing, options, trees):
        self.comparing, self.options = comparing, options
        self.book, self.sheet = Lent(build(CODES[:options], trees)), lent_sheet([7] * LENGTH)
        comparing.done("load", self.book, self.sheet)
        self.lines, self.count, self.index = beside(self.sheet)

    def key(self, lines):
        for line in lines:
            self.comparing.done("key", self.sheet, self.lines, self.count, self.index, *line)

    def key_and_withdraw(self, line, at, lines, budget):
        """Keys the lines with one more at a place among them, runs, and takes that one back."""
        self.key(lines[:at] + [line] + lines[at:])
        self.comparing.done("run", self.sheet, self.index, budget)
        self.comparing.done("withdraw", self.sheet, self.book, self.lines, self.count, self.index,
                            at)

    def report(self):
        output = Lent([9] * self.options)
        return self.comparing.done("report", self.sheet, output), list(output.values)

    def reports(self):
        """Before a run and after it."""
        before = self.report()
        self.comparing.done("run", self.sheet, self.index, 2 ** 64 - 1)
        return before, self.report()


def other_rules(comparing, rng, options, trees, lines, due):
    shuffled = rng.sample(trees, len(trees))
    for other in (trees[::-1], trees[1:] + trees[:1], shuffled):
        order = Order(comparing, options, other)
        order.key(lines)
        expect(order.reports() == due, "another order of the rules, another report")


def other_lines(comparing, rng, options, trees, lines, due):
    for other in (rng.sample(lines, len(lines)), lines[::-1] + lines[:1]):
        order = Order(comparing, options, trees)
        order.key(other)
        expect(order.reports() == due, "another order of the lines, another report")


def taken_back(comparing, rng, options, trees, lines, due):
    """A line more, keyed first, somewhere or last, and taken back after a run: no trace of it."""
    kept, order = Order(comparing, options, trees), Order(comparing, options, trees)
    kept.key(lines)
    order.key_and_withdraw(random_line(rng, options), rng.randint(0, len(lines)), lines,
                           rng.choice((0, 1, 2, 2 ** 64 - 1)))
    expect((order.sheet.held(), order.index.held()) == (kept.sheet.held(), kept.index.held()),
           "a line taken back has left a trace")
    expect(order.lines.held()[:len(lines)] == lines, "a line taken back has changed others")
    expect(order.reports() == due, "a line taken back, another report")


def one_order(comparing, rng):
    options = rng.randint(1, 4)
    trees = random_rules(rng, options) + random_rules(rng, options)
    lines = [random_line(rng, options) for _ in range(rng.randint(1, 3))]
    order = Order(comparing, options, trees)
    order.key(lines)
    due = order.reports()
    expect(due[0] == due[1], "a run changed the report")
    for changed in (other_rules, other_lines, taken_back):
        changed(comparing, rng, options, trees, lines, due)
    comparing.seen["orders"] += 1
