"""Calls that are refused, each with the refusal due: every fault of a book, of a sheet, of lines,
of an index and of a clause file, alone and beside others."""
from checker import calls
from checker.books import build
from checker.cases import NOT_P, P, Q
from checker.keying import SLOTS
from checker.sheets import LENGTH
from checker.trees import TRUE, at_least, conjunction as all_of, disjunction as any_of
from driver.indexes import (PAST, SHORT, STALE, due_with, fresh_count, short_indexes,
                            stale_indexes)
from library.lending import SPARE, Count, Lines, asked, slots

MOST = 2 ** 64 - 1

BOOK = build([b"P", b"Q-7"], [P, any_of(P, all_of(NOT_P, Q)), at_least(2, NOT_P, TRUE, Q),
                              all_of(Q, TRUE)])
OTHER_BOOK = build([b"P"], [P])  # another number of options
FULL_BOOK = build([b"P"], [any_of(*[P] * 2047)])
BLANK = [7] * LENGTH
SHEET = calls.load(BLANK, BOOK)[2][0]
FULL_SHEET = calls.load(BLANK, FULL_BOOK)[2][0]
INDEX, FULL_INDEX = fresh_count(SHEET), fresh_count(FULL_SHEET)
OTHER_SHEET = calls.load(BLANK, build([b"P", b"Q"], [any_of(TRUE, Q), NOT_P, Q]))[2][0]
AT = SHEET.index(at_least(2, NOT_P, TRUE, Q).number())  # where the at-least stands
NO_SHEETS = [SHEET[:-1], SHEET + [0], [], [513] + SHEET[1:], SHEET[:-1] + [1],
             SHEET[:2] + [SHEET[2] + 1] + SHEET[3:],
             SHEET[:AT + 1] + [Q.number()] + SHEET[AT + 2:]]  # a member's option a second time
LINES = [(1, True), (0, False)]


def changed(data, at, value):
    return data[:at] + bytes([value]) + data[at + 1:]


# Document 01's refusals of a book, each by one fault; 1 by two.
BAD_BOOKS = [
    (1, b""), (1, BOOK[:7]), (1, BOOK[:-1]), (1, BOOK + b"\0"),
    (2, changed(BOOK, 6, 1)), (2, changed(BOOK, 1, 3)),
    (3, changed(BOOK, 8, 0)), (3, changed(BOOK, 9, ord("_"))),
    (3, build([b"P", b"P"], [P])),
    (4, changed(BOOK, 8 + 2 * 13, 1)), (4, changed(BOOK, 8 + 2 * 13 + 2, 0)),
    (5, changed(BOOK, len(BOOK) - 1, 0x50)), (5, build([b"P"], [Q])),
    (5, build([b"P"], [at_least(1, P, NOT_P)])), (5, build([b"P"], [at_least(1, any_of(P))])),
    (6, build([b"P"], [any_of(*[P] * 2048)]))]


# Lines that are not in order on a sheet of two options.
BAD_LINES = [(Lines(LINES), Count(2)), (Lines(SPARE + SPARE[:1]), Count(0)), (Lines(), Count(0)),
             (Lines([(0, True)] * 64), Count(65)), (Lines([(0, True)] * 64), Count(65_535)),
             slots([(2, False)]), slots([(0, True), (65_535, False)])]


CLAUSES = b"c two options\r\np cnf 2 3\n1 -2 0\n\t2 2\r\n0 0"
CLAUSES_LENGTH = 8 + 13 * 2 + 4 * 3 + 2 * 7  # of its book: three clauses and four marks
# Texts of another form, each by one fault.
NO_CLAUSE_FILES = [
    b"", b"c", CLAUSES[:-1], CLAUSES[:-2], CLAUSES + b" 1", CLAUSES + b" 0", CLAUSES + b"\nc",
    CLAUSES + b"\r", b"\n" + CLAUSES, b" " + CLAUSES] + [CLAUSES.replace(old, new) for old, new in (
        (b"p cnf", b"p  cnf"), (b"p cnf", b"p\tcnf"), (b"2 3", b"02 3"), (b"2 3", b"2 3 "),
        (b"-2", b"-3"), (b"-2", b"- 2"), (b"-2", b"+2"), (b"-2 0", b"-0"), (b"1 -2", b"1-2"),
        (b"1 -2", b"1\r-2"), (b"-2", b"-%d" % (2 ** 64 + 2)), (b"-2", b"-%d" % 10 ** 60))]
# Clause files that no book has room for: by their options; by their clauses, nodes and weight.
TOO_LARGE = [b"p cnf 513 0", b"p cnf %d 1\n%d 0" % (2 ** 64 + 2, 2 ** 64),
             b"p cnf 0 4096\n" + b"0 " * 4096, b"p cnf 1 1\n" + b"1 " * 2048 + b"0",
             b"p cnf 1 1\n" + b"-1\n" * 4095 + b"0"]


def import_refusals():
    """(call, refusal due, arguments) for every fault of a clause file, and an output too short."""
    for out in (b"", b"\x09" * (CLAUSES_LENGTH - 1), b"\x09" * 31_234):
        for text in NO_CLAUSE_FILES:
            yield "import_", 15, (text, out)
        for text in TOO_LARGE:
            yield "import_", 16, (text, out)
            yield "import_", 15, (text + b"-", out)  # 15 goes first
    for length in range(CLAUSES_LENGTH):
        yield "import_", 12, (CLAUSES, b"\x09" * length)


def book_refusals():
    """(call, refusal due, arguments) for every fault of a book."""
    for number, data in BAD_BOOKS:
        yield "check", number, (data,)
        yield "lookup", number, (data, b"")  # the book's comes before 7
        yield "load", number, (data, BLANK)
        yield "write", number, (SHEET, data, b"")  # and before 12
        for index in (INDEX, PAST, []):  # and before 11 for the lines and for the index
            yield "withdraw", number, (SHEET, data, *BAD_LINES[0], index, 9)
        for lines, count in (asked(LINES), (BAD_LINES[0][0], 65), asked([(2, True)])):
            yield "complete", number, (SHEET, data, lines, count)
            yield "complete", 11, (NO_SHEETS[0], data, lines, count)  # and after 11 for the sheet
        yield "load", 11, (data, BLANK[:-1])
    for code in (b"", b"Q", b"Q-7\0", b"p", b"P" * 14):
        yield "lookup", 7, (BOOK, code)


def sheet_refusals():
    """The same for every fault of a sheet, a choice, a step or an output."""
    for sheet in NO_SHEETS:
        yield "write", 11, (sheet, b"", b"")
        yield "report", 11, (sheet, b"")
        yield "complete", 11, (sheet, BOOK, *asked(LINES))
        for index in (INDEX, []):
            yield "key", 11, (sheet, *slots([(0, True)] * 64), index, 9, True)
            yield "withdraw", 11, (sheet, b"", *slots(), index, 9)
            yield "step", 11, (sheet, index, 0, 0, 0, 0)
            yield "run", 11, (sheet, index, 0)
            yield "index", 11, (sheet, index)
    for length in (0, 1, LENGTH - 1, LENGTH + 1):
        yield "load", 11, (BOOK, [7] * length)
    yield "write", 11, (SHEET, OTHER_BOOK, b"")
    yield "write", 12, (SHEET, BOOK, bytes(len(BOOK) - 1))
    for length in (0, 1):
        yield "report", 12, (SHEET, bytes(length))
    for length in range(4):
        yield "index", 12, (SHEET, [7] * length)
    for rule in (0, 18, 2 ** 64 + 10, -1):
        yield "step", 9, (SHEET, INDEX, rule, 99, 99, 99)
    for step in ((9, 0, 0, 0), (10, 0, 0, 1), (10, 2 ** 64, 0, 0), (10, 0, 2 ** 64, 0),
                 (10, 0, 0, -1), (15, AT - 2, 0, 0), (16, AT - 2, 0, 0), (17, AT - 2, 0, 0)):
        yield "step", 10, (SHEET, INDEX, *step)


def order_refusals():
    """The same for every fault of a keying, of a withdrawal or of the lines beside a question."""
    for lines, count in BAD_LINES:
        yield "complete", 11, (SHEET, BOOK, lines, int(count))
        for index in (INDEX, []):
            yield "key", 11, (SHEET, lines, count, index, 9, True)
            yield "withdraw", 11, (SHEET, BOOK, lines, count, index, 99)
    for count in (65, 65_535, 65_536, 65_538, 2 ** 64, -1):  # not narrowed: 65,538 is not 2
        yield "complete", 11, (SHEET, BOOK, slots(LINES)[0], count)
    yield "complete", 11, (SHEET, OTHER_BOOK, *asked([(0, True)]))
    yield "withdraw", 11, (SHEET, OTHER_BOOK, *slots(LINES), INDEX, 99)
    full = [(0, False)] * SLOTS
    for sheet, index, option in ((SHEET, INDEX, 0), (SHEET, INDEX, 2), (FULL_SHEET, FULL_INDEX, 0),
                                 (FULL_SHEET, FULL_INDEX, 1)):
        yield "key", 14, (sheet, *slots(full), index, option, True)
    for option in (2, 65_535, 65_536, 2 ** 64, -1):  # not narrowed: 65,536 is not option 0
        yield "key", 7, (SHEET, *slots(full[1:]), INDEX, option, False)
    yield "key", 7, (FULL_SHEET, *slots(), FULL_INDEX, 1, False)
    yield "key", 8, (FULL_SHEET, *slots(), FULL_INDEX, 0, True)
    for k in (2, 64, 65_536, 2 ** 32, 2 ** 64, -1):
        yield "withdraw", 13, (SHEET, BOOK, *slots(LINES), INDEX, k)
        yield "withdraw", 13, (FULL_SHEET, FULL_BOOK, *slots(full[:2]), FULL_INDEX, k)
    yield "withdraw", 8, (FULL_SHEET, FULL_BOOK, *slots(full[:2]), FULL_INDEX, 1)


def index_refusals():
    """The same for every fault of an index, alone and beside what is due without one."""
    wrong = [*((STALE, index) for index in stale_indexes(SHEET, OTHER_SHEET)),
             *((SHORT, index) for index in short_indexes(SHEET))]
    for call, own, before, after in [
            ("key", 0, slots(LINES), (1, True)), ("key", 7, slots(LINES), (2, True)),
            ("key", 14, slots([(0, False)] * SLOTS), (2, True)),
            ("withdraw", 0, (BOOK, *slots(LINES)), (1,)),
            ("withdraw", 13, (BOOK, *slots(LINES)), (2,)),
            ("step", 0, (), (10, 0, 0, 0)), ("step", 9, (), (18, 0, 0, 0)),
            ("step", 10, (), (10, 0, 0, 1)), ("run", 0, (), (0,)), ("run", 0, (), (MOST,))]:
        for fault, index in wrong:
            yield call, due_with(fault, own), (SHEET, *before, index, *after)


def all_refusals():
    return [*book_refusals(), *sheet_refusals(), *order_refusals(), *index_refusals(),
            *import_refusals()]
