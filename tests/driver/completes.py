"""Whether a sheet is complete, by a book and lines that are lent with it: document 02's own cases;
one open option, and each place of a book and each slot of a list that may name it or not; as many
options and as many nodes as there can be; and every refusal, alone and beside all that come after
it, where the number due is written out. (Damaged books and sheets: refusals. Lines that are out of
order: refused_orders. Orders from loading on: lists.)"""
from checker.books import build
from checker.calls import load
from checker.cases import COMPLETE, NOT_P, NOT_Q, P, Q, R
from checker.keying import SLOTS
from checker.trees import (FALSE, TRUE, at_least, conjunction as all_of, disjunction as any_of,
                           negative, positive)

from . import expect
from .cases import CODES, loaded
from .indexes import lent_index
from .library import Lent, Lines, sheet as lent_sheet
from .lines import SPARE, any_slots, asked_lines, random_line
from .making import random_book, random_rules
from .refusals import BLANK, BOOK, OTHER_BOOK, SHEET
from .refused_orders import FULL_BOOK, NO_SHEET, with_line

MANY = [b"C%d" % number for number in range(512)]
HEAVY = {options: build(MANY[:options], [TRUE, any_of(TRUE, *[P] * 2047)]) for options in (1, 2)}


def asked(comparing, sheet, data, lines, count):
    """Whether it is complete; not refused."""
    return comparing.done("complete", lent_sheet(sheet), Lent(data), Lines(lines), count)


def by_hand(comparing):
    """Document 02's cases, each answer as written beside it; the reserved code among them."""
    for on_sheet, budget, trees, lines, due in COMPLETE:
        sheet = loaded(comparing, 3, on_sheet)
        comparing.done("run", sheet, lent_index(sheet), budget)
        given = comparing.done("complete", sheet, Lent(build(CODES[:3], trees)),
                               *asked_lines(lines))
        expect(given == due, "complete: %d, of %s with %s" % (given, sheet.values[:9], lines[:3]))


def every_slot(comparing):
    """ "a slot past the count is never read": Q is open, and one slot names it; P is in."""
    sheet, data = load(BLANK, build(CODES[:2], [P]))[2][0], build(CODES[:2], [P])
    for at in range(SLOTS):
        for barred in (False, True):
            lines = with_line([(0, True)] * SLOTS, at, (1, barred))
            for count in {0, at, at + 1, 32, SLOTS}:
                given = asked(comparing, sheet, data, lines, count)
                expect(given == (at >= count), "slot %d names an open option, of %d" % (at, count))
            spare = lines[:at + 1] + SPARE[at + 1:]  # past the count no option of any book
            for count, due in ((at, 1), (at + 1, 0)):
                expect(asked(comparing, sheet, data, spare, count) == due, "slots past the count")


def every_place(comparing):
    """Q is open, and one node of the book is a mark of it, plain or barred; P is in."""
    sheet = load(BLANK, build(CODES[:2], [P]))[2][0]
    around = [NOT_P, TRUE, FALSE, at_least(1, P, TRUE), any_of(P, all_of(FALSE, NOT_P)), P]
    for mark in (Q, NOT_Q):
        for body in (mark, all_of(mark), any_of(P, mark), all_of(any_of(TRUE, mark), NOT_P),
                     at_least(1, mark), at_least(0, P, mark), at_least(3, TRUE, mark, NOT_P),
                     any_of(at_least(2, NOT_P, FALSE, mark))):
            for at in range(len(around) + 1):
                for trees, due in ((around[:at] + [body] + around[at:], 0), (around, 1)):
                    given = asked(comparing, sheet, build(CODES[:2], trees), SPARE, 0)
                    expect(given == due, "a mark of an open option in rule %d" % at)


def every_option(comparing):
    """Of 512 options all are in but one, and the book, a line or neither names that one."""
    for option in {*range(0, 512, 47), 1, 7, 8, 15, 16, 31, 32, 63, 64, 255, 256, 510, 511}:
        others = [positive(other) for other in range(512) if other != option]
        sheet, all_others = load(BLANK, build(MANY, others))[2][0], build(MANY, others)
        named = build(MANY, [any_of(negative(option), positive(511 - option))])
        beside = (option + 256) % 512
        for data, lines, count, due in [
                (all_others, SPARE, 0, 1), (named, SPARE, 0, 0),
                (all_others, [(option, True)] * SLOTS, 0, 1),
                (all_others, [(option, True)] + SPARE[1:], 1, 0),
                (all_others, [(beside, False)] * SLOTS, SLOTS, 1),
                (all_others, [(beside, False)] * (SLOTS - 1) + [(option, False)], SLOTS, 0)]:
            given = asked(comparing, sheet, data, lines, count)
            expect(given == due, "option %d of 512 is open" % option)


def of_the_largest_size(comparing):
    """Books and sheets of weight 4,096, and the longest book of all; 8 plays no part."""
    full = load(BLANK, FULL_BOOK)[2][0]  # of P it has no mark, and Q is open
    last = build(CODES[:2], [all_of(*[TRUE] * 4091, Q)])
    trues = build(CODES[:2], [TRUE] * 4095)
    decided = load(BLANK, build(CODES[:2], [NOT_P, Q]))[2][0]
    half = load(BLANK, build(CODES[:2], [P]))[2][0]
    for sheet, data, lines, due in [
            (full, FULL_BOOK, [], 0), (full, trues, [], 1), (full, trues, [(0, True)], 0),
            (decided, FULL_BOOK, [(0, True)] * SLOTS, 1), (half, FULL_BOOK, [], 0),
            (half, last, [], 0), (decided, last, [(1, True)] * SLOTS, 1),
            (half, trues, [(0, False)] * SLOTS, 1),
            (half, trues, [(0, False)] * (SLOTS - 1) + [(1, False)], 0)]:
        given = comparing.done("complete", lent_sheet(sheet), Lent(data), *asked_lines(lines))
        expect(given == due, "of the largest size")


def refused(comparing):
    """Each refusal alone, and with all that come after it."""
    good, no_option = [(1, True)] + SPARE[1:], [(2, True)] + SPARE[1:]
    wrong = build([b"P"], [Q])
    for due, sheet, data, lines, count in [
            (11, NO_SHEET, BOOK, good, 1), (11, SHEET[:-1], b"", no_option, 1),
            (11, SHEET + [0], HEAVY[1], good[:9], 65), (11, [], b"", [], 0),
            (1, SHEET, b"", good, 1), (1, SHEET, BOOK[:7], no_option, 1),
            (1, SHEET, BOOK[:-1], good[:63], 65), (1, SHEET, OTHER_BOOK + b"\0", no_option, 1),
            (2, SHEET, BOOK[:6] + b"\1" + BOOK[7:], good, 1),
            (2, SHEET, b"\0\0\0\0\0\0\1\0", no_option, 1),
            (3, SHEET, build([b"P", b"P"], [P]), good, 1), (3, SHEET, build([b""], []), [], 65),
            (4, SHEET, build([b"P", b"Q"], [])[:4] + b"\1\0" + build([b"P", b"Q"], [])[6:]
             + b"\0\x30", good, 1),
            (4, SHEET, bytes([0, 0, 0, 0, 1, 0, 0, 0, 0, 48]), no_option, 1),
            (5, SHEET, build([b"P", b"Q"], [R]), good, 1), (5, SHEET, wrong, no_option, 65),
            (6, SHEET, HEAVY[2], good, 1), (6, SHEET, HEAVY[1], no_option, 65),
            (11, SHEET, OTHER_BOOK, good, 0), (11, SHEET, OTHER_BOOK, no_option, 1),
            (11, SHEET, BOOK, no_option, 1), (11, SHEET, BOOK, good, 2), (11, SHEET, BOOK, [], 0),
            (11, SHEET, BOOK, good[:63], 1), (11, SHEET, BOOK, good + SPARE[:1], 1),
            (11, SHEET, BOOK, [(0, False)] * SLOTS, 65), (11, SHEET, BOOK, [(0, False)] * 65, 65),
            (11, SHEET, BOOK, [(0, False)] * SLOTS, 256), (11, SHEET, BOOK, good, 65_535)]:
        given = comparing.call("complete", lent_sheet(sheet), Lent(data), Lines(lines), count)
        expect(given == (due, 0), "complete: refused %d, due %d" % (given[0], due))


def random_questions(comparing, rng, rounds=300):
    """Sheets, books and lines that have nothing in common but their options; and as document 01 had
    it: where every option is marked the sheet is complete, whatever is named."""
    for _ in range(rounds):
        data, options, _ = random_book(rng)
        sheet = lent_sheet(BLANK)
        comparing.done("load", Lent(data), sheet)
        if rng.random() < 0.3:
            comparing.done("run", sheet, lent_index(sheet), 2 ** 64 - 1)
        output = Lent([9] * options)
        contradictory = comparing.done("report", sheet, output)
        decided = not contradictory and 0 not in output.held()
        for _ in range(3):
            book = Lent(build(CODES[:options], random_rules(rng, options)))
            lines = [random_line(rng, options) for _ in range(rng.choice((0, 0, 1, 2)))
                     if options]
            slots = lines + any_slots(rng, options, SLOTS - len(lines))
            given = comparing.done("complete", sheet, book, Lines(slots), len(lines))
            expect(given or not decided, "every option is marked, and it is not complete")
            expect(not given or not contradictory, "contradictory and complete")


ALL = (by_hand, every_slot, every_place, every_option, of_the_largest_size, refused)
RANDOM = (random_questions,)
