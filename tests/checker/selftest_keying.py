"""The checker's keying and taking back against document 02: its orders, what each slot holds, and
the order of refusals. (The random lists with withdrawals are the self-test's.)"""
from . import calls, keying
from .books import build
from .cases import CODES, FULL, ORDERS, P, Q
from .expecting import BLANK, counted, done, expect, loaded
from .trees import TRUE, disjunction as any_of, positive

SPARE = [(65_535 - at, at % 3 == 0) for at in range(keying.SLOTS)]  # what nobody may read


def slots(lines):
    """A list of 64 slots that begins with these lines; past them each slot is unlike all others."""
    return list(lines) + SPARE[len(lines):]


class Order:
    """What is lent from call to call: a sheet, the lines, their count, and an index."""

    def __init__(self, trees, first_lines):
        self.book, sheet = build(CODES[:3], trees), loaded(3, trees)
        self.lent = sheet, slots(first_lines), [len(first_lines)], counted(sheet)

    def call(self, name, arguments):
        """(refusal, value)"""
        sheet, *order = self.lent
        if name == "run":
            lines, count, index = order
            refusal, value, (sheet, index) = calls.run(sheet, index, *arguments)
            self.lent = sheet, lines, count, index
            return refusal, value
        if name == "withdraw":
            k, *other = arguments
            book = build(CODES[:3], *other) if other else self.book
            refusal, value, self.lent = calls.withdraw(sheet, book, *order, k)
        else:
            refusal, value, self.lent = calls.key(sheet, *order, *arguments)
        return refusal, value


def orders():
    for trees, first, made, left, report in ORDERS:
        order = Order(trees, first)
        for name, arguments, due in made:
            before = order.lent
            given = order.call(name, arguments)
            expect(given == due, (first, name, arguments, given))
            expect(due[0] == 0 or order.lent == before, "a refused call changed something")
            expect(order.lent[3] == counted(order.lent[0]), "an order: its index")
        sheet, lines, (count,), _ = order.lent
        expect(lines[:count] == left, ("the lines left", lines[:count], left))
        given = calls.report(sheet, [9] * 3)[2][0]
        expect(given == report, ("the report of an order", given, report))


def every_slot():
    """ "a slot past the count is never read, and one freed by a withdrawal keeps what it held" """
    sheet, book = loaded(3, [P]), build(CODES[:3], [P])
    _, sheet, lines, count, index = done(
        calls.key(sheet, slots([]), [0], counted(sheet), 2, True))
    expect((lines, count) == ([(2, True)] + SPARE[1:], [1]), "a first line")
    _, sheet, lines, count, index = done(calls.key(sheet, lines, count, index, 1, False))
    expect((lines, count) == ([(2, True), (1, False)] + SPARE[2:], [2]), "a second line")
    expect(sheet == loaded(3, [P, keying.Line(2, True).mark(), Q]), "the marks, in order")
    _, first, lines_after, count_after, _ = done(
        calls.withdraw(sheet, book, lines, count, index, 0))
    expect((lines_after, count_after) == ([(1, False), (1, False)] + SPARE[2:], [1]),
           "the later line moves up, and its slot keeps what it held")
    expect(first == loaded(3, [P, Q]), "the mark of the line that stands")
    _, last, lines_after, count_after, index = done(
        calls.withdraw(sheet, book, lines, count, index, 1))
    expect((lines_after, count_after) == (lines, [1]), "the last line's slot keeps what it held")
    _, none, lines_after, count_after, _ = done(calls.withdraw(last, book, lines, [1], index, 0))
    expect((none, lines_after, count_after) == (loaded(3, [P]), lines, [0]), "no line is left")


def afresh():
    """ "loads the sheet afresh and keys the remaining lines in order", by the calls themselves"""
    lines = slots([(at % 3, at % 2 == 1) for at in range(64)])
    book = build(CODES[:3], [any_of(P, Q), TRUE])
    for k in (0, 1, 31, 62, 63):
        sheet = loaded(3, [Q])
        after = done(calls.withdraw(sheet, book, lines, [64], counted(sheet), k))
        sheet = done(calls.load(BLANK, book))[1]
        again = sheet, slots([]), [0], counted(sheet)
        for option, barred in lines[:k] + lines[k + 1:]:
            again = done(calls.key(*again, option, barred))[1:]
        expect((after[1], after[4]) == (again[0], again[3]), "not as loaded and keyed")
        expect(after[2][:63] == again[1][:63] and after[3] == again[2], "other lines than keyed")


def lists_out_of_order():
    """11 for the lines, whatever the rest; and the same lists in order."""
    sheet, book, good = loaded(3, [P]), build(CODES[:3], [P]), slots([(2, True), (0, False)])
    for lines, count, due in [
            (good, 2, 0), (good[:63], 2, 11), (good + SPARE[:1], 2, 11), ([], 0, 11),
            (good, 3, 11), (good, 64, 11), (good, 65, 11), (good, 65_535, 11), (good[:2], 2, 11),
            ([(0, False)] * 64, 65, 11), ([(0, False)] * 65, 65, 11), (slots([(3, False)]), 1, 11),
            (slots([(3, False)]), 0, 0), (slots([(0, True), (2, True), (3, False)]), 3, 11)]:
        left = sheet, lines, [count], counted(sheet)
        for option in (0, 3):  # 11 before 7
            given = calls.key(*left, option, True)
            expect(given[0] == (due or 7 * (option == 3)), (count, given[0], due))
            expect(given[0] == 0 or given[2] == left, "a refused keying changed something")
        for k, after in ((0, 13 * (count == 0)), (count, 13)):  # 11 before 13
            given = calls.withdraw(sheet, book, lines, [count], counted(sheet), k)
            expect(given[0] == (due or after), (count, k, given[0], due))
            expect(given[0] == 0 or given[2] == left, "a refused withdrawal changed something")


def faults_in_order():
    """The first fault due is the answer, when all those after it are there too."""
    full, book = loaded(3, FULL), build(CODES[:3], FULL)
    bad_lines, full_list = slots([(3, True)]), [(0, False)] * 64
    for due, sheet, lines, count, option in [
            (11, full[:-1], full_list, 64, 3), (11, full, bad_lines, 1, 3),
            (14, full, full_list, 64, 3), (7, full, full_list, 63, 3), (8, full, full_list, 63, 2)]:
        lent = sheet, lines, [count], counted(sheet)
        expect(calls.key(*lent, option, True) == (due, 0, lent), ("a keying", due))
    wide = build(CODES[:4], [])
    for due, sheet, data, lines, count, k in [
            (11, full[:-1], b"", bad_lines, 1, 9), (1, full, b"", bad_lines, 1, 9),
            (5, full, build(CODES[:4], [positive(4)]), bad_lines, 1, 9),
            (6, full, build(CODES[:4], [TRUE] + FULL), bad_lines, 1, 9),
            (11, full, wide, slots([(0, False)]), 1, 9), (11, full, book, bad_lines, 1, 9),
            (13, full, book, full_list, 2, 2), (8, full, book, full_list, 2, 1),
            (0, full, book, full_list, 1, 0)]:
        order = lines, [count], counted(sheet)
        given = calls.withdraw(sheet, data, *order, k)
        expect(given[0] == due, ("a withdrawal", due, given[0]))
        expect(due == 0 or given[2] == (sheet, *order), "a refused withdrawal changed it")


def all_of_them():
    orders()
    every_slot()
    afresh()
    lists_out_of_order()
    faults_in_order()
