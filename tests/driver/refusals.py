"""Every refusal of every call that can give it: damaged books, damaged sheets, outputs of every
length near the one due, and several faults at once, which must be answered in document 01's order.
What is due is the checker's answer; that nothing lent was written is compared with every call.
(The lines of keyings and withdrawals: refused_orders.)"""
from checker.books import build
from checker.calls import load
from checker.cases import NOT_P, NOT_Q, P, Q
from checker.sheets import LENGTH
from checker.trees import TRUE, at_least, conjunction as all_of, disjunction as any_of, positive

from .indexes import PAST, beside, fresh_count
from .library import Lent, NoNumbers, Numbers, sheet as lent_sheet
from .lines import asked_lines, lent_lines

BOOK = build([b"P", b"Q-7"], [P, any_of(P, all_of(NOT_P, Q)), at_least(2, NOT_Q, TRUE, P),
                              all_of(Q, TRUE)])
OTHER_BOOK = build([b"P"], [P])  # another number of options
BLANK = [7] * LENGTH
SHEET = load(BLANK, BOOK)[2][0]
LINES = [(1, True), (0, False)]


def on_book(comparing, data):
    """Every call that reads a book."""
    book, output = Lent(data), Lent([9] * (len(BOOK) + 3))
    comparing.call("check", book)
    for code in (b"P", b"Q-7", b"Q", b""):
        comparing.call("lookup", book, Lent(code))
    comparing.call("load", book, lent_sheet(BLANK))
    comparing.call("write", lent_sheet(SHEET), book, output)
    for lines, k in ((LINES, 1), (LINES, 2), ([(2, True)], 0)):  # in order; no such line; no option
        sheet = lent_sheet(SHEET)
        comparing.call("withdraw", sheet, book, *beside(sheet, lines), k)
    for lines in (LINES, [(2, True)]):  # in order; no option
        comparing.call("complete", lent_sheet(SHEET), book, *asked_lines(lines))
    for index in (NoNumbers(), Numbers(PAST[:4])):  # short; stale
        comparing.call("withdraw", lent_sheet(SHEET), book, *lent_lines(LINES), index, 0)


def on_sheet(comparing, values):
    """Every call that reads a sheet, with arguments that are right and with others."""
    options, right = min(values[0], 600) if values else 0, fresh_count(values)
    for option, barred in ((0, False), (1, True), (options, False), (65535, True)):
        comparing.call("key", lent_sheet(values), *lent_lines(LINES), Numbers(right), option,
                       barred)
    for step in ((10, 0, 0, 0), (4, 11, 1, 0), (15, 7, 1, 0), (0, 0, 0, 0), (18, 0, 0, 0),
                 (9, 9, 9, 9)):
        comparing.call("step", lent_sheet(values), Numbers(right + PAST), *step)
    for index in (Numbers(right), Numbers(PAST), NoNumbers(), Numbers(fresh_count(SHEET))):
        comparing.call("run", lent_sheet(values), index, 1)
        comparing.call("index", lent_sheet(values), index)
    for budget in (0, 2 ** 64 - 1):
        comparing.call("run", lent_sheet(values), Numbers(right), budget)
    for length in {max(0, options - 1), options, options + 1, 512, 600}:
        comparing.call("report", lent_sheet(values), Lent([9] * length))
    for book in (BOOK, OTHER_BOOK, BOOK[:-1]):
        comparing.call("complete", lent_sheet(values), Lent(book), *asked_lines(LINES))
        comparing.call("write", lent_sheet(values), Lent(book), Lent([9] * len(BOOK)))
        comparing.call("withdraw", lent_sheet(values), Lent(book), *lent_lines(LINES),
                       Numbers(right), 0)


def damaged_books(comparing, rng, pairs=150):
    """Each byte of a book set to others; each length; faults two and three at a time."""
    for at, old in enumerate(BOOK):
        for value in {0, 1, 2, old ^ 1, (old + 1) % 256, old ^ 128, 45, 95, 255}:
            on_book(comparing, BOOK[:at] + bytes([value]) + BOOK[at + 1:])
    for length in range(len(BOOK) + 3):
        on_book(comparing, (BOOK + bytes(3))[:length])
    for _ in range(pairs):
        data = bytearray(BOOK)
        for _ in range(rng.randint(2, 3)):
            data[rng.randrange(len(data))] = rng.choice((0, 1, 3, 16, 80, 255, rng.randrange(256)))
        on_book(comparing, bytes(data[:len(data) - rng.choice((0, 0, 0, 1, 2))]))


def damaged_sheets(comparing, rng, pairs=60):
    """Each field of a sheet set to others, unused ones too; each length; several at a time."""
    fields = [*range(2 + SHEET[1] + 2), 2000, LENGTH - 1]
    for at in fields:
        old = SHEET[at]
        kinds = {kind * 4096 + old % 4096 for kind in range(16)}
        near = {0, 1, 2, old + 1, abs(old - 1), old + 64, abs(old - 64), 512, 513, 4095, 4096, 4097,
                65535}
        for value in kinds | near:
            on_sheet(comparing, SHEET[:at] + [value] + SHEET[at + 1:])
    for length in (0, 1, 2, 3, 2 + SHEET[1], LENGTH - 1, LENGTH + 1):
        on_sheet(comparing, (SHEET + [0])[:length])
        comparing.call("load", Lent(BOOK), lent_sheet((BLANK + [7])[:length]))
        comparing.call("load", Lent(BOOK[:9]), lent_sheet((BLANK + [7])[:length]))
    for _ in range(pairs):
        values = list(SHEET)
        for _ in range(rng.randint(2, 4)):
            values[rng.choice(fields)] = rng.choice((0, 1, 2, 4096, 8193, 12288, 16385, 20481))
        on_sheet(comparing, values)


def outputs(comparing):
    """Too short by one, just right, longer."""
    for length in (0, len(BOOK) - 1, len(BOOK), len(BOOK) + 1, len(BOOK) + 1000):
        for book in (BOOK, OTHER_BOOK, BOOK[:7]):
            comparing.call("write", lent_sheet(SHEET), Lent(book), Lent([9] * length))
    for length in (0, 1, 2, 3, 512, 600, LENGTH):
        comparing.call("report", lent_sheet(SHEET), Lent([9] * length))


def full_sheets(comparing):
    """ "8 sheet full: weight + 2 is over 4,096", and 7 before it."""
    for marks, trues in ((2046, 0), (2046, 1), (2047, 0)):
        children = [positive(at % 2) for at in range(marks)] + [TRUE] * trues
        sheet = lent_sheet(BLANK)
        comparing.done("load", Lent(build([b"P", b"Q"], [any_of(*children)])), sheet)
        for option in (2, 0, 1, 65535):
            comparing.call("key", sheet, *beside(sheet), option, True)
        comparing.call("report", sheet, Lent([9] * 2))
    for marks in (2047, 2048):  # a sheet by all but its weight
        nodes = [20481, 16384 + marks] + [4096] * marks
        on_sheet(comparing, [2, len(nodes)] + nodes + [0] * (LENGTH - 2 - len(nodes)))


def limits(comparing):
    """Heads, codes and weights at their limits and just over them."""
    codes = [b"C%012d" % number for number in range(513)]
    for options in (512, 513):
        on_book(comparing, build(codes[:options], [positive(511), NOT_Q]))
    on_book(comparing, build(codes[:512], [positive(512)]))
    for trues in (4094, 4095):
        on_book(comparing, build([], [all_of(*[TRUE] * trues)]))
        on_book(comparing, build([], [TRUE] * (trues + 1)))
    on_book(comparing, build([b"P"], [any_of(*[P] * 2048)]))
    # "node counts that do not add up to T (their sum is 0 if M is 0)"
    on_book(comparing, bytes([0, 0, 0, 0, 1, 0, 0, 0, 0, 48]))
    # counts 65,535 and 3 for T = 2: equal in 16 bits, not as sums
    two = build([], [TRUE, TRUE])
    on_book(comparing, two[:10] + bytes([255, 255, 255, 255, 3, 0]) + two[16:])


ALL = (outputs, full_sheets, limits)
RANDOM = (damaged_books, damaged_sheets)
