"""The checker's index of mentions against document 02: counts written out by hand, the call that
fills an index, the order of refusals with an index that is stale or short, and, on every sheet of a
few nodes, every call: with a right index it answers as without one and leaves the fresh count.
(Random lists, through which an index is lent on: selftest_lists. That no step raises a count, on
more sheets: selftest_every.)"""
from . import calls, keying, rules, sheets
from .books import build
from .cases import CODES, FULL, NOT_P, NOT_Q, P, Q, R
from .expecting import MOST, counted, done, expect, loaded
from .selftest_every import rows_of
from .selftest_lists import PAST, SHORT, STALE, due_with
from .trees import (FALSE, ROOT, TRUE, Tree, at_least, conjunction as all_of, disjunction as any_of,
                    numbers)

NONE = 65_535
OPTIONS, NODES = 2, 3  # of the sheets on which every call is made: so many nodes beside the root

# rules on a sheet of three options; the index, by hand: the root is at place 0
COUNTS = [
    ([], [0, NONE, 0, NONE, 0, NONE]),
    ([P], [1, 1, 0, NONE, 0, NONE]),
    ([NOT_Q, Q, R], [0, NONE, 2, 1, 1, 3]),
    ([any_of(P, all_of(P, Q))], [2, 2, 1, 5, 0, NONE]),
    ([TRUE, any_of(FALSE, all_of(R, NOT_P)), P], [2, 6, 0, NONE, 1, 5]),
    # a member of an at-least is a mark like any other; its k, and the number of children of a
    # group, are no option
    ([at_least(2, NOT_P, TRUE, Q), all_of(all_of(), any_of())], [1, 2, 1, 4, 0, NONE]),
    ([at_least(1, R), at_least(0), R, NOT_P, R], [1, 5, 0, NONE, 3, 2]),
]


def counts_by_hand():
    for trees, due in COUNTS:
        sheet = loaded(3, trees)
        for past in ([], PAST, [8] * 2000):
            for held in ([9] * 6, due, [0] * 6, [NONE] * 6):  # "whatever it held"
                expect(calls.index(sheet, held + past) == (0, 0, (due + past,)), ("a count", due))
        expect(counted(sheet) == due, ("a count, the second way", due))
    full = loaded(3, FULL)  # 2,046 times P, after the root, true, any-of and true
    expect(calls.index(full, [7] * 6)[2] == ([2046, 4, 0, NONE, 0, NONE],), "a full sheet")
    wide = done(calls.load([7] * sheets.LENGTH, build([b"C%d" % at for at in range(512)], [P])))[1]
    expect(calls.index(wide, [7] * 1025)[2] == ([1, 1] + [0, NONE] * 511 + [7],), "512 options")
    expect(calls.index(wide, [7] * 1023) == (12, 0, ([7] * 1023,)), "512 options, one short")


def filling():
    """11, then 12; nothing is written then."""
    sheet, none = loaded(3, [P, Q]), loaded(0, [TRUE])
    for bad in ([], sheet[:-1], [4] + sheet[1:-1] + [1]):
        for index in ([], [7] * 5, [7] * 6, [7] * 9):
            expect(calls.index(bad, index) == (11, 0, (index,)), "no sheet to fill it from")
    for length in range(6):
        expect(calls.index(sheet, [7] * length) == (12, 0, ([7] * length,)), "a short index")
    for index in ([], PAST):
        expect(calls.index(none, index) == (0, 0, (index,)), "no options: nothing to write")


def wrong_ones(sheet):
    """(fault, index): every number changed a little; the counts of other sheets; every shorter
    length, with the right numbers and with others."""
    right = counted(sheet)
    for at, number in enumerate(right):
        for other in {(number + 1) % 65_536, (number - 1) % 65_536, 0, NONE} - {number}:
            yield STALE, right[:at] + [other] + right[at + 1:]
    for other in (right[2:] + right[:2], right[::-1], [number * 256 % 65_536 for number in right]):
        if other != right:
            yield STALE, other
            yield STALE, other + PAST
    for length in range(len(right)):
        yield SHORT, right[:length]
        yield SHORT, [7] * length


def slots(lines):
    return list(lines) + [(NONE, True)] * (keying.SLOTS - len(lines))


def calls_on(sheet, book, lines, option, k, step):
    """Each call by its name, as a function of its index."""
    return {"key": lambda index: calls.key(sheet, *lines, index, option, True),
            "withdraw": lambda index: calls.withdraw(sheet, book, *lines, index, k),
            "step": lambda index: calls.step(sheet, index, *step),
            "run": lambda index: calls.run(sheet, index, 1)}


def orders_with_faults():
    """What is lent beside an index, such that each refusal is due without one, and none is."""
    trees = [P, any_of(P, all_of(NOT_Q, P)), at_least(1, P, Q)]
    sheet, book, full = loaded(3, trees), build(CODES[:3], trees), loaded(3, FULL)
    good, applies = (slots([(0, False)]), [1]), (10, 0, 0, 0)
    return [
        (sheet, book, good, 0, 0, applies), (sheet[:-1], book, good, 0, 0, applies),
        (sheet, book, (slots([(3, True)]), [1]), 3, 9, (0, 0, 0, 0)),  # 11 for the lines; 9
        (sheet, book, ([(0, False)] * 64, [64]), 3, 64, (18, 0, 0, 0)),  # 14, 13, 9
        (sheet, b"", good, 3, 9, (1, 0, 0, 0)),  # 7, 1, 10
        (sheet, build(CODES[:3], [TRUE] + FULL), good, 2, 9, (3, 9, 9, 9)),  # 6
        (sheet, build(CODES[:2], []), good, 2, 9, applies),  # 11 for N
        (full, build(CODES[:3], FULL), (slots([(0, False)] * 2), [2]), 0, 0, (6, 0, 0, 0))]  # 8


def faults_in_order():
    """Each refusal that is due without an index, and none, beside each fault of an index: how many
    of these there are."""
    met = set()
    for order in orders_with_faults():
        whole = order[0] if sheets.is_sheet(order[0]) else order[0] + [0]
        for name, call in calls_on(*order).items():
            own = call(None)[0]
            for fault, index in wrong_ones(whole):
                due = due_with(fault, own)
                refusal, _, (*_, left) = call(index)
                expect((refusal, left) == (due, index), (name, own, fault, refusal, due))
                met.add((name, own, fault))
    for name, refusals in (("key", (0, 7, 8, 11, 14)), ("withdraw", (0, 1, 6, 8, 11, 13)),
                           ("step", (0, 9, 10, 11)), ("run", (0, 11))):
        expect({(name, own, fault) for own in refusals for fault in (STALE, SHORT)} <= met,
               (name, "with a wrong index: what was beside it", met))
    return len(met)


def every_call_on(sheet, lines):
    """Each of many calls, as a function of its index: every step that applies, and some that are
    refused; runs; keyings; withdrawals."""
    book = build(CODES[:OPTIONS], [any_of(Q, P)])
    for step in [*rules.applicable(sheet), (18, 0, 0, 0), (7, 0, 0, 0)]:
        yield lambda index, step=step: calls.step(sheet, index, *step)
    for budget in (0, 1, 2, MOST):
        yield lambda index, budget=budget: calls.run(sheet, index, budget)
    for line in ((0, False), (1, True), (2, True)):
        yield lambda index, line=line: calls.key(sheet, *lines, index, *line)
    for k in (0, 2):
        yield lambda index, k=k: calls.withdraw(sheet, book, *lines, index, k)


def expect_as_without(sheet, call):
    """With a right index a call answers as without one, and leaves the fresh count and what stood
    past it."""
    refusal, value, (*left, none) = call(None)
    expect(none is None, "no index was lent, and one is left")
    for past in ([], PAST):
        *given, (*left_too, index) = call(counted(sheet) + past)
        expect((*given, left_too) == (refusal, value, left), "a right index: not as without one")
        expect(index == counted(left[0]) + past, "the index left: no fresh count")


def expect_keyings(sheet, lines):
    """A choice is one mark more, after all others: its option's count rises by one, and its place
    is the first where there was none."""
    for option in range(OPTIONS):
        due = counted(sheet)
        index = done(calls.key(sheet, *lines, due, option, option == 1))[-1]
        due[2 * option] += 1
        if due[2 * option + 1] == NONE:
            due[2 * option + 1] = sheet[1]
        expect(index == due, "a keying: the index left")


def every_small_sheet():
    """How many calls were made on them."""
    lines, made = (slots([(1, True), (0, False)]), [2]), 0
    for nodes in range(NODES + 1):
        for row in rows_of(nodes, OPTIONS):
            sheet = sheets.fill(OPTIONS, numbers(Tree(ROOT, row)))
            for call in every_call_on(sheet, lines):
                expect_as_without(sheet, call)
                made += 1
            expect_keyings(sheet, lines)
    return made


def all_of_them():
    """(faults beside refusals, calls on small sheets)"""
    counts_by_hand()
    filling()
    return faults_in_order(), every_small_sheet()
