"""At-leasts of many members, up to the 63 that a node has room for, and sheets full of them. Most
have far too many clauses to build: there the checker counts; and where every rule is an at-least of
marks or a mark, each rule is counted alone."""
from checker import meaning
from checker.books import build
from checker.random_trees import mark_of
from checker.sheets import LENGTH, root_of
from checker.trees import (CONJUNCTION, DISJUNCTION, FALSE, ROOT, TRUE, Tree, at_least, negative,
                           positive, weight)

from . import expect
from .indexes import beside
from .library import Lent, sheet as lent_sheet
from .theories import CODES as MANY_CODES, by_report, by_run

OPTIONS = 63
CODES = [b"C%d" % number for number in range(OPTIONS)]
MEMBERS = [positive(option) if option % 3 else negative(option) for option in range(OPTIONS)]
MOST = 2 ** 64 - 1
# What the driver must have seen.
TOO_MANY = "sheets with too many clauses to build"
FULL = ("sheets full of at-leasts, consistent", "sheets full of at-leasts, contradictory")


class Order:
    """An order on a book with wide at-leasts."""

    def __init__(self, comparing, trees):
        self.comparing, self.sheet = comparing, lent_sheet([7] * LENGTH)
        self.book = Lent(build(CODES, trees))
        comparing.done("load", self.book, self.sheet)
        *self.lines, self.index = beside(self.sheet)

    def key(self, option, barred):
        self.comparing.done("key", self.sheet, *self.lines, self.index, option, barred)

    def report(self):
        self.comparing.seen[TOO_MANY] += meaning.is_too_much(root_of(self.sheet.values))
        output = Lent([9] * OPTIONS)
        self.comparing.done("report", self.sheet, output)
        return output.held()

    def settle(self, budgets):
        """Runs, the last to the end; the report must stay, and whether it is complete."""
        before = self.report(), self.is_complete()
        for budget in (*budgets, MOST):
            self.comparing.done("run", self.sheet, self.index, budget)
        expect((self.report(), self.is_complete()) == before,
               "a run changed the report of a wide at-least, or whether it is complete")

    def is_complete(self):
        lines, count = self.lines
        return self.comparing.done("complete", self.sheet, self.book, lines, count.values[0])


def as_many_as_can_be(comparing):
    """k of 63, with as many of them keyed out as leave one to spare, none, and one too few."""
    for asked in (1, 2, 31, 32, 33, 61, 62, 63):
        for spare, due in ((1, {0}), (0, {1, 2}), (-1, {3})):
            out = MEMBERS[:OPTIONS - asked - spare] if spare <= OPTIONS - asked else None
            if out is not None:
                order = Order(comparing, [at_least(asked, *MEMBERS)])
                for member in out:
                    order.key(member.literal.option, member.literal.positive)
                left = set(order.report()[len(out):])
                expect(left <= due, "%d of 63, %d of them out" % (asked, len(out)))
                order.settle((1, 5))
    for asked in (0, 1, 62, 63):
        for constants in ([TRUE] * 63, [FALSE] * 63, [TRUE, FALSE] * 31):
            Order(comparing, [at_least(asked, *constants)]).settle((3,))


def random_wide(rng):
    """A wide at-least, bare or in a group with another or with a mark."""
    def one():
        members = [mark_of(rng, option)
                   for option in rng.sample(range(OPTIONS), rng.randint(5, OPTIONS - 3))]
        for constant in rng.choices((TRUE, FALSE), k=rng.randint(0, 3)):
            members.insert(rng.randint(0, len(members)), constant)
        return at_least(rng.randint(1, len(members)), *members)
    if rng.random() < 0.6:
        return one()
    beside = rng.choice((one, lambda: mark_of(rng, rng.randrange(OPTIONS))))()
    return Tree(rng.choice((CONJUNCTION, DISJUNCTION)), (one(), beside))


def wide_orders(comparing, rng, rounds=12):
    for _ in range(rounds):
        trees = [random_wide(rng) for _ in range(rng.randint(1, 2))]
        order = Order(comparing, trees)
        for option in rng.sample(range(OPTIONS), rng.randint(0, OPTIONS)):
            order.key(option, rng.random() < 0.5)
        order.settle((rng.randint(0, 40),))


def forced(rules):
    """What at-leasts of marks force, or None when contradictory: one of which only k members have
    not failed forces these, and one of which fewer are left contradicts."""
    known, grown = set(), True
    while grown:
        grown = False
        for rule in rules:
            left = [member.literal for member in rule.children
                    if member.literal.opposite() not in known]
            if len(left) < rule.asked:
                return None
            if len(left) == rule.asked and not known.issuperset(left):
                known.update(left)
                grown = True
    return known


def random_full(rng):
    """(options, at-leasts of marks, as many as a sheet holds), a few of them of one mark alone: so
    much is asked for that some is forced, and mostly not so much that it contradicts."""
    options, rules = rng.choice((63, 200, 512)), []
    share = rng.uniform(0.3, 0.6)
    for option in rng.sample(range(options), options // rng.choice((3, 6, 12))):
        rules.append(at_least(1, negative(option)))
    while True:
        count = rng.randint(2, 63)
        named = rng.sample(range(options), count)
        rule = at_least(rng.randint(1, 1 + int(share * count)), *map(positive, named))
        if weight(Tree(ROOT, rules + [rule])) > 4096:
            return options, rules
        rules.append(rule)


def expect_report(comparing, sheet, options, due):
    expect(by_report(comparing.library, sheet, options)[0] == due, "full of at-leasts: its report")


def full_sheets(comparing, rng, rounds=12):
    """The report, before a run and after it, and the settled sheet."""
    for _ in range(rounds):
        options, rules = random_full(rng)
        due, sheet = forced(rules), lent_sheet([7] * LENGTH)
        book = Lent(build(MANY_CODES[:options], rules))
        loaded = comparing.library.call("load", [book, sheet])
        expect(loaded == (0, 0), "full of at-leasts: not loaded")
        expect_report(comparing, sheet, options, due)
        by_run(comparing.library, sheet, due)
        expect_report(comparing, sheet, options, due)
        comparing.seen[FULL[due is None]] += 1


ALL = (as_many_as_can_be,)
RANDOM = (wide_orders, full_sheets)
