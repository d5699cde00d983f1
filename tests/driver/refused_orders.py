"""Every refusal of keyings, withdrawals and the "complete" question: faults of the sheet, the book,
the lines, the line that is taken back, the option and the room, each alone and all that can stand
together, which must be answered in the order that documents 01 and 02 give. What is due is the
checker's answer; that nothing lent was written is compared with every call. (Faults of an index:
mentions.)"""
from checker.books import build
from checker.calls import load
from checker.cases import NOT_P, P, Q
from checker.keying import SLOTS
from checker.trees import TRUE, at_least, disjunction as any_of

from .indexes import PAST, beside, fresh_count, lent_index
from .library import Count, Lent, Lines, Numbers, sheet as lent_sheet
from .lines import SPARE, any_slots
from .refusals import BLANK, BOOK, OTHER_BOOK, SHEET

FULL_BOOK = build([b"P", b"Q-7"], [TRUE, any_of(TRUE, *[Q] * 2046)])  # weight 4,096
FULL_SHEET = load(BLANK, FULL_BOOK)[2][0]
NO_SHEET = [3] + SHEET[1:-1] + [1]
MOST = 2 ** 64 - 1
OPTIONS = (0, 1, 2, 65_535, 65_536, 2 ** 32 + 1, 2 ** 63, MOST)


def changed(data, at, value):
    return data[:at] + bytes([value]) + data[at + 1:]


# Books of every refusal, of as many options as the sheet and of another number.
BAD_BOOKS = [b"", BOOK[:7], BOOK[:-1], BOOK + b"\0", changed(BOOK, 6, 1), changed(BOOK, 8, 0),
             build([b"P", b"P"], [P]), build([b"P", b"P", b"Q"], [P]),
             changed(BOOK, 8 + 2 * 13, 1), changed(OTHER_BOOK, 8 + 13, 1),
             changed(BOOK, len(BOOK) - 1, 0x50), build([b"P"], [Q]),
             build([b"P", b"Q"], [at_least(1, P, NOT_P)]),
             build([b"P", b"Q"], [TRUE, TRUE, any_of(*[P] * 2047)]),
             build([b"P"], [any_of(*[P] * 2048)])]


def with_line(lines, at, line):
    return lines[:at] + [line] + lines[at + 1:]


def lists():
    """[(slots, count)]: in order, and each with a fault or several."""
    good = [(at % 2, at % 3 == 0) for at in range(SLOTS)]
    return [(SPARE, 0), (good[:1] + SPARE[1:], 1), (good[:2] + SPARE[2:], 2),
            (good[:63] + SPARE[63:], 63), (good, 64),
            ([], 0), (good[:63], 0), (good[:63], 63), (good + good[:1], 64), (good + good[:1], 65),
            (good, 65), (good, 65_535), (good[:2] + SPARE[2:], 3),
            (with_line(good, 0, (2, True)), 1), (with_line(good, 63, (2, False)), 64),
            (with_line(good, 63, (2, False)), 63), (SPARE, 64), (SPARE[:9], 65)]


def keyings(comparing):
    for sheet in (SHEET, FULL_SHEET, NO_SHEET, SHEET[:-1]):
        index = fresh_count(sheet) + PAST
        for slots, count in lists():
            for option in OPTIONS:
                comparing.call("key", lent_sheet(sheet), Lines(slots), Count(count),
                               Numbers(index), option, option % 2 == 1)


def withdrawals(comparing):
    """Each sheet with each book, but those that are slow to read once; and whether the sheet is
    complete, which is checked "as for a withdrawal"."""
    several = [(sheet, book) for sheet in (SHEET, NO_SHEET, SHEET[:-1])
               for book in (BOOK, OTHER_BOOK)]
    for sheet, book in several + [(SHEET, FULL_BOOK), (FULL_SHEET, BOOK)]:
        index = fresh_count(sheet)
        for slots, count in lists():
            comparing.call("complete", lent_sheet(sheet), Lent(book), Lines(slots), count)
            for k in {0, max(0, count - 1), count, 64, 65_536, 2 ** 32, 2 ** 63, MOST}:
                comparing.call("withdraw", lent_sheet(sheet), Lent(book), Lines(slots),
                               Count(count), Numbers(index), k)


def withdrawals_with_bad_books(comparing):
    for sheet in (SHEET, NO_SHEET):
        for book in BAD_BOOKS:
            for slots, count in lists()[::3]:
                comparing.call("complete", lent_sheet(sheet), Lent(book), Lines(slots), count)
                for k in (0, 64):
                    comparing.call("withdraw", lent_sheet(sheet), Lent(book), Lines(slots),
                                   Count(count), Numbers(fresh_count(SHEET)), k)


def on_lines(comparing, slots, count, k=0):
    comparing.call("complete", lent_sheet(SHEET), Lent(BOOK), Lines(slots), count)
    for name, books, arguments in (("key", (), (1, True)), ("withdraw", (Lent(BOOK),), (k,))):
        sheet = lent_sheet(SHEET)
        comparing.call(name, sheet, *books, Lines(slots), Count(count), lent_index(sheet),
                       *arguments)


def every_slot(comparing):
    """A line that names no option, in each slot: a fault only where it stands below the count."""
    good = [(at % 2, at % 3 == 0) for at in range(SLOTS)]
    for at in range(SLOTS):
        for count in {at, at + 1, 32, 63, 64}:
            on_lines(comparing, with_line(good, at, (2 + at, at % 2 == 0)), count)


def every_count(comparing):
    """Each number of slots and each count near the ones due, in bytes and in 16 bits."""
    good = [(at % 2, at % 3 == 0) for at in range(4 * SLOTS)]
    for slots in (0, 1, 2, 62, 63, 64, 65, 66, 128, 256):
        for count in (0, 1, 2, 62, 63, 64, 65, 66, 128, 255, 256, 257, 320, 32_768, 65_535):
            on_lines(comparing, good[:slots], count)


def every_k(comparing):
    """Each line taken back, and each number that is that line when it is narrowed."""
    good = [(at % 2, at % 3 == 0) for at in range(SLOTS)]
    for count in (0, 1, 2, 3, 63, 64):
        for k in range(count + 2):
            for more in (0, 256, 65_536, 2 ** 32, 2 ** 63):
                sheet = lent_sheet(SHEET)
                comparing.call("withdraw", sheet, Lent(BOOK), *beside(sheet, good[:count]),
                               k + more)


def damaged_lines(comparing, rng, rounds=60):
    """Any slots, any count, any line to take back; a few lines in order at their start."""
    for _ in range(rounds):
        good = [(rng.randrange(2), rng.random() < 0.5) for _ in range(rng.randrange(SLOTS + 1))]
        slots = good + any_slots(rng, 2, SLOTS - len(good))
        for count in {len(good), max(0, len(good) - 1), len(good) + 1, rng.randrange(65_536)}:
            on_lines(comparing, slots, count, rng.randrange(len(good) + 1))


ALL = (keyings, withdrawals, withdrawals_with_bad_books, every_slot, every_count, every_k)
RANDOM = (damaged_lines,)
