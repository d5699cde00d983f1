"""The index of mentions: filled from sheets of every size, whatever it held; left as the fresh
count by every call, with what stands past twice N; and wrong, alone and beside each other fault,
where the refusal due is written out."""
from checker.books import build
from checker.calls import load
from checker.cases import NOT_P, P, Q
from checker.keying import SLOTS
from checker.mentions import NO_PLACE
from checker.trees import TRUE, conjunction as all_of, disjunction as any_of, negative, positive

from . import expect
from .indexes import PAST, beside, due_with, fresh_count, lent_index, lent_indexes, with_number
from .library import Lent, NoNumbers, Numbers, sheet as lent_sheet
from .lines import SPARE, lent_lines
from .lists import random_step
from .making import CODES, random_book, random_rules
from .refusals import BLANK, BOOK, LINES, OTHER_BOOK, SHEET
from .refused_orders import BAD_BOOKS, FULL_BOOK, FULL_SHEET, NO_SHEET

MOST = 2 ** 64 - 1
MANY = [b"C%d" % number for number in range(512)]
FULL_LIST = [(0, False)] * SLOTS
# Another sheet of as many options, of other counts and places.
OTHER_SHEET = load(BLANK, build([b"P", b"Q"], [any_of(TRUE, Q), NOT_P, Q]))[2][0]


def sheet_of(codes, trees):
    return load(BLANK, build(codes, trees))[2][0]


# Sheets of every size: no options, one, as many as can be; no mark, one option alone, the last
# option alone; counts and places over 255, a count over 2,000 and a place over 4,000.
SHEETS = [
    sheet_of([], []), sheet_of([], [TRUE] * 9), sheet_of([b"P"], []), sheet_of([b"P"], [P] * 300),
    SHEET, OTHER_SHEET, FULL_SHEET, sheet_of([b"P", b"Q"], [TRUE] * 300 + [Q, P]),
    sheet_of([b"P", b"Q"], [all_of(*[TRUE] * 4090, negative(1))]),
    sheet_of(MANY, []), sheet_of(MANY, [positive(511)]), sheet_of(MANY, [negative(256), P]),
    sheet_of(MANY, [any_of(*[positive(at) if at % 3 else negative(511 - at)
                             for at in range(512)])]),
    sheet_of(MANY, [any_of(positive(at), negative(at + 1)) for at in range(511)])]


def filled(comparing):
    """Each of these from anything that an index held, longer or shorter than needed."""
    for values in SHEETS:
        right = fresh_count(values)
        for past in (0, 1, 9, 2000):
            length = len(right) + past
            for held in (right + [0] * past, [0] * length, [NO_PLACE] * length,
                         [40_000 + at for at in range(length)]):
                index = Numbers(held)
                expect(comparing.call("index", lent_sheet(values), index) == (0, 0), "not filled")
                expect(index.held() == right + held[len(right):], "filled with something else")
        for length in {0, 1, values[0], len(right) - 1} & set(range(len(right))):
            for held in (right[:length], [7] * length):
                expect(comparing.call("index", lent_sheet(values), Numbers(held)) == (12, 0),
                       "a short index is filled")
        expect(comparing.call("index", lent_sheet(values), NoNumbers())
               == (12 if values[0] else 0, 0), "no index is filled")


def not_filled(comparing):
    """11 goes before 12."""
    for values in (NO_SHEET, SHEET[:-1], SHEET + [0], [], [513] + SHEET[1:]):
        for index in (NoNumbers(), Numbers([7] * 3), Numbers(fresh_count(SHEET)), Numbers(PAST)):
            expect(comparing.call("index", lent_sheet(values), index) == (11, 0), "no sheet")


def keyings():
    """(refusal due without an index, call, sheet, what is lent before the index, given after it)"""
    for own, sheet, lines, option in [
            (0, SHEET, [], 0), (0, SHEET, LINES, 1), (11, NO_SHEET, [], 0), (11, SHEET[:-1], [], 0),
            (11, SHEET, [(2, True)], 0), (11, SHEET, [(2, True)], 2), (14, SHEET, FULL_LIST, 0),
            (14, SHEET, FULL_LIST, 2), (14, FULL_SHEET, FULL_LIST, 2), (7, SHEET, [], 2),
            (7, SHEET, LINES, 65_536), (7, FULL_SHEET, [], MOST), (8, FULL_SHEET, LINES, 1)]:
        yield own, "key", sheet, lambda lines=lines: lent_lines(lines), (option, True)


def withdrawals():
    """The same for withdrawals; of bad books, each refusal that a book can be given."""
    several = [(0, SHEET, BOOK, LINES, 1), (0, SHEET, FULL_BOOK, LINES[:1], 0),
               (0, FULL_SHEET, BOOK, LINES, 0), (11, NO_SHEET, BOOK, LINES, 0),
               (11, SHEET, OTHER_BOOK, LINES, 0), (11, SHEET, BOOK, [(2, True)], 0),
               (11, SHEET, BOOK, [(2, True)], 9), (13, SHEET, BOOK, LINES, 2),
               (13, SHEET, BOOK, [], 0), (13, SHEET, FULL_BOOK, LINES, 65_536),
               (8, SHEET, FULL_BOOK, LINES, 1)]
    several += [(None, SHEET, data, lines, 0) for data in BAD_BOOKS for lines in (LINES, SPARE)]
    for own, sheet, book, lines, k in several:
        yield own, "withdraw", sheet, lambda book=book, lines=lines: (
            Lent(book), *lent_lines(lines)), (k,)


def steps_and_runs():
    for own, sheet, step in [
            (0, SHEET, (10, 0, 0, 0)), (0, SHEET, (4, 11, 1, 0)), (0, SHEET, (15, 7, 1, 0)),
            (11, NO_SHEET, (10, 0, 0, 0)), (11, NO_SHEET, (0, 0, 0, 0)), (9, SHEET, (0, 0, 0, 0)),
            (9, SHEET, (18, 9, 9, 9)), (9, SHEET, (65_546, 0, 0, 0)), (10, SHEET, (9, 9, 9, 9)),
            (10, SHEET, (10, 0, 0, 1)), (10, FULL_SHEET, (16, 0, 0, 0))]:
        yield own, "step", sheet, tuple, step
    for own, sheet in ((0, SHEET), (0, FULL_SHEET), (11, NO_SHEET), (11, SHEET[:-1])):
        for budget in (0, 1, 2, MOST):
            yield own, "run", sheet, tuple, (budget,)


def wrong_indexes(comparing):
    """Each of these calls with indexes of every kind. Where nothing is due without one, a right
    index is left as the fresh count of the sheet that is left."""
    for own, name, values, before, after in (*keyings(), *withdrawals(), *steps_and_runs()):
        counted = SHEET if values in (NO_SHEET, SHEET[:-1]) else values
        other = OTHER_SHEET if counted is SHEET else SHEET
        some = slice(0, None, 4 if counted is FULL_SHEET else 1)  # the checker is slow on that one
        for fault, index in list(lent_indexes(counted, other))[some]:
            sheet, held = lent_sheet(values), index.values
            refusal, _ = comparing.call(name, sheet, *before(), index, *after)
            if own is None:  # a bad book's, 1 to 6
                expect(1 <= refusal <= 6, "%s: a book's refusal is due, %d" % (name, refusal))
                continue
            due = due_with(fault if counted is values else None, own)
            expect(refusal == due, "%s, %s: refused %d, due %d" % (name, fault, refusal, due))
            right = held if refusal else fresh_count(sheet.held()) + held[4:]
            expect(index.held() == right, "%s, refused %d: its index" % (name, refusal))


def every_number(comparing):
    """On a sheet of 512 options each number of the index one off, and the right one: a run of no
    steps, whose refusal is that of the index alone."""
    for values in SHEETS[-2:]:
        right = fresh_count(values)
        for at in {*range(0, len(right), 37), *range(4), *range(508, 516), *range(1020, 1024)}:
            for more in ((1, 256), (65_535, 4096))[at % 2]:
                index = Numbers(with_number(right, at, right[at] + more) + PAST)
                expect(comparing.call("run", lent_sheet(values), index, 0) == (11, 0),
                       "number %d of an index is another" % at)
        for index in (Numbers(right), Numbers(right + PAST)):
            expect(comparing.call("run", lent_sheet(values), index, 0)[0] == 0, "a right index")
        for length in (0, 512, 1022, 1023):
            expect(comparing.call("run", lent_sheet(values), Numbers(right[:length]), 0) == (12, 0),
                   "an index of %d numbers for 512 options" % length)


def no_options(comparing):
    """Without options no index is wrong, and none is written."""
    book = Lent(build([], []))
    for values in SHEETS[:2]:
        for index in (NoNumbers(), Numbers([]), Numbers(PAST)):
            for due, name, before, after in [
                    (0, "run", (), (MOST,)), (0 if values[1] > 1 else 10, "step", (), (6, 0, 0, 0)),
                    (7, "key", lent_lines(), (0, False)), (13, "withdraw", (book, *lent_lines()),
                                                           (0,))]:
                given, _ = comparing.call(name, lent_sheet(values), *before, index, *after)
                expect(given == due, "no options, %s: refused %d, due %d" % (name, given, due))


def lent_on(comparing):
    """Keyings, steps, a run and withdrawals on sheets of every size, with one index lent on through
    all of them."""
    for values in SHEETS[2:]:
        sheet, book = lent_sheet(values), Lent(BOOK if values[0] == 2 else build(
            MANY[:values[0]], [any_of(P, P)]))
        lines, count, index = beside(sheet)
        for number in range(3):
            option = (number * 255) % values[0]
            comparing.call("key", sheet, lines, count, index, option, number == 1)
        for step in ((10, 0, 0, 0), (9, 1, 0, 0), (6, 0, 0, 0), (12, 0, 0, 0)):
            comparing.call("step", sheet, index, *step)
        if sheet.values[1] < 100:  # the checker is slow
            comparing.done("run", sheet, index, MOST)
        while count.values != [0]:
            comparing.done("withdraw", sheet, book, lines, count, index, 0)


def changed_indexes(comparing, rng, rounds=150):
    """Sheets of random books; indexes of other books and of the sheet before a step."""
    for _ in range(rounds):
        data, options, _ = random_book(rng)
        sheet = lent_sheet(BLANK)
        comparing.done("load", Lent(data), sheet)
        before = list(sheet.values)
        step = random_step(rng, before)
        comparing.call("step", sheet, lent_index(sheet), *step)
        other = sheet_of(CODES[:options], random_rules(rng, options))
        for index in (fresh_count(before), fresh_count(other), fresh_count(other) + PAST):
            comparing.call("run", lent_sheet(sheet.values), Numbers(index), rng.choice((0, 1)))
            comparing.call("step", lent_sheet(before), Numbers(index), *step)


ALL = (filled, not_filled, wrong_indexes, every_number, no_options, lent_on)
RANDOM = (changed_indexes,)
