"""Random lists of keyings, withdrawals, single steps and runs, from a loaded sheet and any lent
lines, a report after each call, whether the sheet is complete after some, and the three parts of
demand 3 on each list. An index, filled from the loaded sheet, is lent on through the list; now and
then a call is lent another one."""
from checker import books, calls, rules
from checker.books import build
from checker.demands import Account, cube, is_settled
from checker.keying import SLOTS
from checker.sheets import LENGTH, root_of
from checker.trees import AT_LEAST, Literal, numbers, preorder

from . import Difference, expect
from .indexes import PAST, fault_of, random_index
from .library import Lent, Lines, Numbers, sheet as lent_sheet
from .lines import any_slots, random_line, random_lines
from .making import CODES, random_book, random_rules

WIDE = (65536, 2 ** 32, 2 ** 63)  # what a call that narrowed its arguments would not see
MOST = 2 ** 64 - 1
BUDGETS = (0, 0, 1, 1, 2, 3, 4, 6, 9, 1000, 2 ** 32, MOST)
ROOMS = (0, 0, 1, 512, 600)  # outputs of a report: N bytes, or so many if they are more

# Withdrawals that must have been seen.
FROM_STOPPED = "withdrawals from a stopped run"
OTHER_RULES = "withdrawals with other rules"
NONE_LEFT = "withdrawals that leave no line"
NOW_CHOICES = "withdrawals by which first lines become choices"
WITHDRAWALS = (FROM_STOPPED, OTHER_RULES, NONE_LEFT, NOW_CHOICES)

SETTLED_AT_LEASTS = "settled sheets with at-leasts"

# Calls that must have been seen: with the index lent on, accepted and refused, and with another one
# that was right.
LENT_ON, LENT_ON_REFUSED = "calls with an index lent on", "refused calls with an index lent on"
RIGHT_TOO = "calls with another right index"
INDEXES = (LENT_ON, LENT_ON_REFUSED, RIGHT_TOO)

# Questions that must have been seen: whether a sheet is complete, by the order's own book and
# lines, and by others.
OWN = "complete asked by the order's own"
OTHER_BOOK, REFUSED_BOOK = "complete asked by another book", "complete asked, and the book refused"
OTHER_SLOTS = "complete asked with other slots past the count"
OTHER_LINES, NO_LIST = "complete asked by other lines", "complete asked, and the lines refused"
QUESTIONS = (OWN, OTHER_BOOK, REFUSED_BOOK, OTHER_SLOTS, OTHER_LINES, NO_LIST)


def random_step(rng, sheet):
    """An applicable step, of any of the rules that apply; or one a little beside it; or any."""
    listed, way = rules.applicable(sheet), rng.random()
    if listed and way < 0.85:
        rule = rng.choice(sorted({step[0] for step in listed}))
        step = rng.choice([step for step in listed if step[0] == rule])
        if way < 0.7:
            return step
        field = rng.randrange(4)
        moved = (step[field] + rng.choice((1, -1, 2, *WIDE))) % 2 ** 64
        return (*step[:field], moved, *step[field + 1:])
    return (rng.choice((*range(19), *WIDE)), rng.choice((rng.randrange(sheet[1] + 2), *WIDE)),
            rng.randrange(4), rng.randrange(4))


class Order:
    """A sheet from loading on, its lines and its index, with the account of what they are due to
    mean. `other` is an index that the next call is lent in place of the one lent on."""

    def __init__(self, comparing, data, options, trees, lines, count, index):
        self.comparing, self.made, self.stopped = comparing, [], False
        self.book, self.sheet = Lent(data), lent_sheet([7] * LENGTH)
        self.options, self.lines, self.count = options, lines, count
        self.index, self.other = index, None
        self.account = Account(trees, lines.values[:count.values[0]])
        comparing.done("load", self.book, self.sheet)
        comparing.done("index", self.sheet, self.index)
        self.begin_stretch()

    def call(self, name, before, *after):
        """(refusal, value) of a call with an index, by what it is lent before the index and given
        after it. The index lent on is right after each call, and so no call is refused for it; one
        that a call was accepted with is lent on from there."""
        index, seen, counts = self.other or self.index, self.comparing.seen, self.counts()
        self.made.append((name, *after, *([] if self.other is None else ["index", index.values])))
        refusal, value = self.comparing.call(name, self.sheet, *before, index, *after)
        if index is self.index:
            seen[LENT_ON if refusal == 0 else LENT_ON_REFUSED] += 1
        elif refusal == 0:
            self.index = index
            seen[RIGHT_TOO] += 1
        self.other = None
        expect(fault_of(self.sheet.held(), self.index.held()) is None, "an index lent on is wrong")
        if name in ("step", "run"):  # "no step raises any option's count"
            expect(all(new <= old for new, old in zip(self.counts(), counts)), "a count is raised")
        return refusal, value

    def counts(self):
        """How often each option is named, by the index lent on."""
        return self.index.held()[:2 * self.options:2]

    def begin_stretch(self):
        """After loading and each accepted keying and withdrawal. `room` is the least, over all
        stretches that end here, of the steps that each may still do."""
        self.due, self.stopped = self.account.meaning(), False
        self.room = cube(self.sheet.values)

    def count_steps(self, count):
        """ "no stretch of the list without an accepted choice does more steps than the cube" """
        self.room -= count
        expect(self.room >= 0, "more steps than the cube")
        self.room = min(self.room, cube(self.sheet.values))

    def expect_lines(self):
        """Where a keying or a withdrawal was accepted, the lines below the count are those that
        the account reckons."""
        count, = self.count.held()
        expect(self.lines.held()[:count] == self.account.standing, "other lines than reckoned")

    def key(self, option, barred):
        if self.call("key", (self.lines, self.count), option, barred)[0] == 0:
            self.account.key((option, barred))
            self.expect_lines()
            self.begin_stretch()

    def withdraw(self, data, k):
        self.made.append(("book", data.hex(" ")))
        book = Lent(data)
        if self.call("withdraw", (book, self.lines, self.count), k)[0] == 0:
            choices = self.account.choices
            self.account.withdraw(k, books.parse(data).rules)
            self.tally_withdrawal(book, choices)
            self.book = book
            self.expect_lines()
            self.begin_stretch()

    def tally_withdrawal(self, book, choices):
        """Which kinds of it there were; `book` is the one lent to it, `choices` those before."""
        seen, now = self.comparing.seen, self.account.choices
        seen[FROM_STOPPED] += self.stopped
        seen[OTHER_RULES] += book.values != self.book.values
        seen[NONE_LEFT] += not now
        seen[NOW_CHOICES] += len(now) > len(choices)

    def step(self, *step):
        if self.call("step", (), *step)[0] == 0:
            self.comparing.seen["rule %d" % step[0]] += 1
            self.count_steps(1)

    def run(self, budget):
        lent_on = self.other is None
        refusal, value = self.call("run", (), budget)
        expect(refusal == 0 or not lent_on, "a run with the index lent on is refused")
        if refusal == 0:
            self.count_run(budget, *divmod(value, 2))

    def count_run(self, budget, count, settled):
        """What an accepted run says, and the sheet that it leaves."""
        expect(count <= budget if settled else count == budget, "stopped with budget left")
        self.count_steps(count)
        self.stopped = not settled
        if settled:
            expect(is_settled(self.sheet.values, self.due), "settled, but not as demand 3 says")
            kinds = {node.kind for node in preorder(root_of(self.sheet.values))}
            self.comparing.seen[SETTLED_AT_LEASTS] += AT_LEAST in kinds

    def report(self, room):
        """ "the sheet reports what the loaded rules with all accepted choices mean", into an output
        of at least N bytes, whose rest stays"""
        output = Lent([9] * max(room, self.options))
        contradictory = self.comparing.done("report", self.sheet, output)
        expect(contradictory == (self.due is None), "contradictory, or not, unlike the rules")
        due = [3 if self.due is None else 1 if Literal(option, True) in self.due else
               2 if Literal(option, False) in self.due else 0 for option in range(self.options)]
        expect(output.held() == due + [9] * (len(output.values) - self.options),
               "the report differs from what the rules mean")

    def ask(self, data=None, slots=None, count=None):
        """Whether the sheet is complete: by the order's own book and lines, or by others. Document
        02: "if it is not contradictory and every option that some rule of the loaded book or some
        choice names is marked 1 or 2"; what is marked is known from the account, whatever is lent.
        (refusal, value)"""
        book = self.book if data is None else Lent(data)
        lines = self.lines if slots is None else Lines(slots)
        count = self.count.values[0] if count is None else count
        self.made.append(("complete", bytes(book.values).hex(" "), lines.values[:5], count))
        refusal, value = self.comparing.call("complete", self.sheet, book, lines, count)
        if refusal == 0:
            named = set().union(*(rule.options for rule in books.parse(book.values).rules))
            named.update(option for option, _ in lines.values[:count])
            marked = {literal.option for literal in self.due or ()}
            expect(value == (self.due is not None and named <= marked),
                   "complete, or not, unlike the account")
        return refusal, value

    def ask_own(self):
        """ "the loaded book" and the choices are the account's."""
        if self.ask()[0] == 0:
            count, = self.count.held()
            expect(self.lines.held()[:count] == self.account.standing, "asked by other lines")
            expect([numbers(rule) for rule in books.parse(self.book.values).rules]
                   == [numbers(rule) for rule in self.account.rules], "asked by another book")
            self.comparing.seen[OWN] += 1

    def round_trip(self, data=None):
        """ "a sheet written and loaded is the same sheet"; with `data`, "A book loaded and written
        is the same bytes"."""
        output = Lent([9] * (len(self.book.values) + 2000))
        length = self.comparing.done("write", self.sheet, self.book, output)
        written, again = output.values[:length], lent_sheet([5] * LENGTH)
        expect(data is None or written == list(data), "written unlike the book")
        self.comparing.done("load", Lent(written), again)
        expect(again.values == self.sheet.values, "loaded unlike the sheet")


def random_key(rng, order):
    """Mostly an option of the book."""
    known = range(order.options)
    option = rng.choice((*known, *known, *known, order.options, 65_535, *WIDE))
    order.key(option, rng.random() < 0.5)


def random_k(rng, order):
    """Mostly a line that there is; else one just past the last, or one that would be a line if it
    were narrowed."""
    count = order.count.values[0]
    k = rng.randrange(count) if count else 0
    narrowed = k + rng.choice(WIDE)
    return k if rng.random() < 0.8 else rng.choice((count, count + 1, 64, MOST, narrowed, narrowed))


def random_data(rng, order, way):
    """The book that is loaded; other rules for the same options; a book that has more options or
    fewer; or one that is damaged."""
    data, options = bytes(order.book.values), order.options
    if 0.6 < way < 0.85:
        data = build(CODES[:options], random_rules(rng, options))
    elif 0.85 < way < 0.92:
        other = options + 1 if options < 4 else options - 1
        data = build(CODES[:other], random_rules(rng, other))
    elif way > 0.92:
        at = rng.randrange(len(data))
        data = rng.choice((data[:at], data[:at] + bytes([rng.randrange(256)]) + data[at + 1:]))
    return data


def random_withdrawal(rng, order):
    order.withdraw(random_data(rng, order, rng.random()), random_k(rng, order))


def random_slots(rng, order):
    """(kind, slots, count): the order's own lines and any slots past them; a few other lines; or
    any slots and a count, mostly out of order."""
    options, count = order.options, order.count.values[0]
    way = rng.random()
    if way < 0.4:
        own = list(order.lines.values[:count])
        return OTHER_SLOTS, own + any_slots(rng, options, SLOTS - len(own)), count
    if way < 0.8:
        lines = [random_line(rng, options) for _ in range(rng.randint(0, 2)) if options]
        return OTHER_LINES, lines + any_slots(rng, options, SLOTS - len(lines)), len(lines)
    slots = any_slots(rng, options, rng.choice((0, 1, 63, 64, 64, 65, 128)))
    counts = 0, 1, 64, 65, 66, 256, 257, 32_768, 65_535
    return NO_LIST, slots, rng.choice(counts)


def random_question(rng, order):
    """Whether the sheet is complete: by the order's own book and lines, by another book, good or
    not, and by other lines."""
    order.ask_own()
    seen, data = order.comparing.seen, random_data(rng, order, rng.uniform(0.6, 1))
    book_refused = bool(calls.check(data)[0])
    order.ask(data)
    seen[REFUSED_BOOK if book_refused else OTHER_BOOK] += 1
    kind, slots, count = random_slots(rng, order)
    refusal, _ = order.ask(None, slots, count)
    seen[kind] += (refusal == 11) == (kind == NO_LIST)


def random_call(rng, order):
    """Now and then with an index of its own, whatever it may be."""
    if rng.random() < 0.2:
        order.other = random_index(rng, order.sheet.values)
    way = rng.random()
    if way < 0.15:
        random_key(rng, order)
    elif way < 0.27:
        random_withdrawal(rng, order)
    elif way < 0.8:
        order.step(*random_step(rng, order.sheet.values))
    else:
        order.run(rng.choice(BUDGETS))


def changed_mind(rng, order):
    """ "those keyed after a settled run too", and a line taken back after a run, whole or stopped.
    (With lines that are out of order both are refused.)"""
    order.run(MOST)
    order.key(*random_line(rng, order.options))
    order.report(rng.choice(ROOMS))
    order.run(rng.choice((0, 1, 2, MOST)))
    order.report(rng.choice(ROOMS))
    order.withdraw(bytes(order.book.values), random_k(rng, order))
    order.report(rng.choice(ROOMS))
    order.run(MOST)
    order.report(rng.choice(ROOMS))


def one_list(comparing, rng):
    data, options, trees = random_book(rng)
    lines, count = random_lines(rng, options)
    first = lines.values[:5], len(lines.values), count.values[0]
    index = Numbers([7] * (2 * options) + PAST[:rng.choice((0, 0, 1, 6))])
    order = Order(comparing, data, options, trees, lines, count, index)
    try:
        order.report(rng.choice(ROOMS))
        if rng.random() < 0.2:
            order.round_trip(data)
        for _ in range(rng.choice((1, 2, 3, 4, 5, 6, 12))):
            random_call(rng, order)
            order.report(rng.choice(ROOMS))
            if rng.random() < 0.2:
                random_question(rng, order)
        if rng.random() < 0.2:
            order.round_trip()
        if options and rng.random() < 0.2:
            changed_mind(rng, order)
    except Difference as difference:
        raise Difference("%s\n  book %s\n  first lines %s .., %d slots, count %d\n  calls %s" % (
            difference, data.hex(" "), *first, order.made))
    comparing.seen["lists"] += 1
