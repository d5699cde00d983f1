"""The checker's "complete" against document 02: sheets by hand, with a code that no rule names; the
slots that nobody reads; the order of refusals; and, on small random books, that what document 01
called complete still is, and that nothing but the names has changed. (Through random lists:
selftest_lists.)"""
from . import calls, keying
from .books import build
from .cases import CODES, COMPLETE, EITHER, FALSE, FULL, P, Q, R, TRUE
from .expecting import counted, done, expect, loaded
from .random_trees import random_mark
from .selftest_keying import slots
from .trees import positive

RANDOM = 400
GOOD = slots([(0, False), (1, True)])


def answered(sheet, trees, lines):
    """Whether it is complete; the call is not to be refused."""
    return done(calls.complete(sheet, build(CODES[:sheet[0]], trees), slots(lines), len(lines)))[0]


def by_hand():
    for on_sheet, budget, trees, lines, due in COMPLETE:
        sheet = loaded(3, on_sheet)
        sheet = done(calls.run(sheet, counted(sheet), budget))[1]
        given = answered(sheet, trees, lines)
        expect(given == due, ("complete", sheet[:9], lines[:3], given))


def without_options():
    """ "every option .. is marked 1 or 2" holds where nothing is named, and so where there is no
    option."""
    for on_sheet, due in (([], 1), ([TRUE], 1), ([FALSE], 0)):
        for trees in ([], [TRUE], [FALSE]):
            expect(answered(loaded(0, on_sheet), trees, []) == due, "a sheet without options")


def slots_past_the_count():
    """ "a slot past the count is never read": what it holds makes no difference, an open option
    neither."""
    sheet, book = loaded(3, EITHER + [P]), build(CODES[:3], EITHER)
    for at in range(keying.SLOTS):
        lines = [(number % 2, number % 3 == 0) for number in range(at)] + [(2, at % 2 == 0)]
        for count, due in ((at, 1), (at + 1, 0)):
            given = done(calls.complete(sheet, book, slots(lines), count))[0]
            expect(given == due, ("line", at, "of", count, given))


def refusals():
    """Each alone, and the first that is due where all those after it are there too."""
    sheet, book, wide = loaded(3, [P]), build(CODES[:3], [P]), build(CODES[:4], [])
    heavy, wrong = build(CODES[:4], [TRUE] + FULL), build(CODES[:4], [positive(4)])
    no_line = slots([(3, True)])
    for due, values, data, lines, count in [
            (0, sheet, book, GOOD, 2), (0, sheet, book, GOOD, 0),
            (11, sheet[:-1], book, GOOD, 2), (11, sheet[:-1], b"", no_line, 65),
            (11, sheet[:-1] + [1], heavy, no_line, 1), (11, [], b"", [], 0),
            (1, sheet, b"", GOOD, 2), (1, sheet, book[:-1], no_line, 1),
            (1, sheet, wide + b"\0", GOOD[:9], 65), (2, sheet, bytes([0] * 6 + [1, 0]), [], 65),
            (3, sheet, build([b"P", b"P"], []), no_line, 1),
            (4, sheet, bytes([0, 0, 0, 0, 1, 0, 0, 0, 0, 48]), [], 99),
            (5, sheet, wrong, no_line, 1), (5, sheet, wrong, GOOD, 2),
            (6, sheet, heavy, no_line, 1), (6, sheet, heavy, GOOD, 2),
            (11, sheet, wide, GOOD, 2), (11, sheet, build(CODES[:2], []), GOOD, 2),
            (11, sheet, book, no_line, 1), (0, sheet, book, no_line, 0),
            (11, sheet, book, GOOD[:63], 2), (11, sheet, book, GOOD + GOOD[:1], 2),
            (11, sheet, book, [], 0), (11, sheet, book, GOOD, 3), (11, sheet, book, GOOD, 64),
            (11, sheet, book, [(0, False)] * 64, 65), (11, sheet, book, [(0, False)] * 65, 65),
            (11, sheet, book, [(0, False)] * 64, 65_535), (0, sheet, book, [(0, False)] * 64, 64)]:
        refusal, value, left = calls.complete(values, data, lines, count)
        expect((refusal, left) == (due, ()), ("complete", due, refusal))
        expect(due == 0 or value == 0, "a refusal with a value")


def by_no_others():
    """ "checked by 1 to 6 and 11 as for a withdrawal, by no others": a full sheet, a full list, and
    a book on which the lines do not fit."""
    full, marked = build(CODES[:3], FULL), loaded(3, [P, Q, R])
    expect(done(calls.complete(marked, full, [(2, True)] * 64, 64))[0] == 1, "a full book and list")
    expect(done(calls.complete(loaded(3, FULL), full, slots([]), 0))[0] == 0, "a full sheet")
    expect(calls.withdraw(marked, full, [(2, True)] * 64, [64], None, 0)[0] == 8,
           "the lines do not fit on that book")


def numbers_that_name(numbers):
    """The options that the node numbers name, read off one after another."""
    return {number % 4096 for number in numbers if number // 4096 in (1, 2)}


def random_question(rng, tree_of):
    """A sheet, a book and lines that need have nothing to do with each other: (whether document 01
    called the sheet complete, whether it is now)."""
    options = rng.randint(1, 4)

    def trees():
        marks = [random_mark(rng, options) for _ in range(rng.choice((0, 1, 2, 4)))]
        return marks + [tree_of(rng, options, 2) for _ in range(rng.randint(0, 2))]
    sheet, rules = loaded(options, trees()), trees()
    lines = [(rng.randrange(options), rng.random() < 0.5) for _ in range(rng.choice((0, 0, 1, 2)))]
    contradictory, states = done(calls.report(sheet, [9] * options))
    before = not contradictory and 0 not in states  # "every option is 1 or 2"
    named = numbers_that_name(loaded(options, rules)[3:]) | {option for option, _ in lines}
    now = answered(sheet, rules, lines)
    expect(now == (not contradictory and all(states[option] for option in named)),
           "complete: not as the report and the names say")
    expect(now or not before, "complete by document 01's words, and not now")
    return bool(before), bool(now)


def all_of_them(rng, tree_of):
    """How many were asked."""
    by_hand()
    without_options()
    slots_past_the_count()
    refusals()
    by_no_others()
    met = {random_question(rng, tree_of) for _ in range(RANDOM)}
    expect(met == {(False, False), (False, True), (True, True)}, ("complete then, and now", met))
    return len(COMPLETE) + RANDOM
