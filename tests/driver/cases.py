"""Document 01's own cases: the steps written beside them done one by one, then by runs with budgets
0, 1, 2, ...; single steps of every rule; the cases that are executed only; faults side by side on
inputs of the largest size, each with the number that document 01 gives it; and what document 02
gives: orders whose lines are keyed and taken back, and reports into outputs about N bytes long."""
from checker import rules
from checker.books import build
from checker.cases import BAD, CASES, CODES, ORDERS, STEPS
from checker.sheets import LENGTH
from checker.trees import (FALSE, ROOT, TRUE, Tree, conjunction as all_of, disjunction as any_of,
                           negative, positive)

from . import expect
from .indexes import beside, lent_index
from .library import Lent, sheet as lent_sheet
from .lines import lent_lines

MOST = 2 ** 64 - 1


def loaded(comparing, options, trees, codes=CODES):
    sheet = lent_sheet([7] * LENGTH)
    comparing.done("load", Lent(build(codes[:options], trees)), sheet)
    return sheet


def report(comparing, sheet):
    """(contradictory, the marks)"""
    output = Lent([9] * sheet.values[0])
    return comparing.done("report", sheet, output), output.values


def books_to_try(comparing):
    for trees, choices, expected, steps, left in CASES:
        options = len(Tree(ROOT, trees).options)
        sheet = loaded(comparing, options, trees)
        *lines, index = beside(sheet)
        for choice in choices:
            comparing.done("key", sheet, *lines, index, *choice)
        start, taken, after = list(sheet.values), [], [list(sheet.values)]
        due = (1, [3] * options) if expected is BAD else (0, expected)
        expect(report(comparing, sheet) == due, "a book to try: its report")
        while rules.house_step(sheet.values):
            taken.append(rules.house_step(sheet.values))
            comparing.done("step", sheet, index, *taken[-1])
            after.append(list(sheet.values))
            expect(report(comparing, sheet) == due, "a book to try: its report after steps")
        expect(steps in (..., [step[0] for step in taken]), "a book to try: its steps")
        expect(left is ... or sheet.values == loaded(comparing, options, left).values,
               "a book to try: what is left")
        for budget in (*range(len(taken) + 2), MOST):
            again, count = lent_sheet(start), min(budget, len(taken))
            value = comparing.done("run", again, lent_index(again), budget)
            expect(value == 2 * count + (count == len(taken)), "a book to try: its run")
            expect(again.values == after[count], "a book to try: its sheet after a run")


def single_steps(comparing):
    for before, (rule, place, i, j), after in STEPS:
        start = loaded(comparing, 3, before).values
        sheet = lent_sheet(start)
        comparing.call("step", sheet, lent_index(sheet), rule, place, i, j)
        expect(sheet.values == (start if after is None else loaded(comparing, 3, after).values),
               "a single step of rule %d" % rule)
        for more in (1, 2, 65536, 2 ** 32, 2 ** 63):  # each number, moved off its value
            for wrong in ((rule + more, place, i, j), (rule, place + more, i, j),
                          (rule, place, i + more, j), (rule, place, i, j + more)):
                sheet = lent_sheet(start)
                comparing.call("step", sheet, lent_index(sheet), *wrong)


def executed_only(comparing):
    empty = lent_sheet([7] * LENGTH)
    comparing.done("load", Lent(bytes(8)), empty)
    expect(empty.values == [0, 1, 20480] + [0] * 4095, "eight zero bytes")
    codes = [b"C%d" % number for number in range(512)]
    marks = [positive(at % 512) for at in range(2048)]
    full = loaded(comparing, 512, [any_of(*marks[1:])], codes)
    expect(keyed(comparing, full, 511, False) == (8, 0), "2,047 marks: a choice")
    for trees, refusal in (([any_of(*marks)], 6), ([positive(512)], 5)):
        book = Lent(build(codes, trees))
        expect(comparing.call("check", book) == (refusal, 0), "refused %d" % refusal)
    ends = Lent(build([b"ABCDEFGHIJKLM", b"ABCDEFGHIJKLN"], []))
    for option, code in enumerate((b"ABCDEFGHIJKLM", b"ABCDEFGHIJKLN")):
        expect(comparing.done("lookup", ends, Lent(code)) == option, "codes to character 13")
    # The checker needs minutes for this run: each step parses the sheet anew. What is due is known.
    trues = loaded(comparing, 0, [all_of(*[TRUE] * 4094)])
    index = lent_index(trues)
    expect(comparing.library.call("run", [trues, index, MOST]) == (0, 2 * 4095 + 1),
           "4,094 trues: a run")
    trues.must_hold(empty.values)
    index.must_hold(index.values)


def of_weight(weight, options=2, wrong=None):
    """A book whose sheet has this weight, at least 4: one any-of with as many marks as fit, and a
    true where one is over. `wrong` is the option of the last mark, in place of its own."""
    marks = [positive(at % options) for at in range((weight - 2) // 2)]
    if wrong is not None:
        marks[-1] = positive(wrong)
    return build(CODES[:options], [any_of(*marks, *[TRUE] * (weight % 2))])


def keyed(comparing, sheet, option, barred, lines=()):
    """(refusal, value) of a keying on an order with these lines."""
    return comparing.call("key", sheet, *beside(sheet, lines), option, barred)


def orders_to_try(comparing):
    """Document 02's orders: each answer as written beside it, then the lines and the report."""
    for trees, first, made, left, report_due in ORDERS:
        book, sheet = Lent(build(CODES[:3], trees)), loaded(comparing, 3, trees)
        lines, count, index = beside(sheet, first)
        for name, arguments, due in made:
            if name == "run":
                given = comparing.call("run", sheet, index, *arguments)
            elif name == "key":
                given = comparing.call("key", sheet, lines, count, index, *arguments)
            else:
                k, *other = arguments
                lent = Lent(build(CODES[:3], *other)) if other else book
                given = comparing.call("withdraw", sheet, lent, lines, count, index, k)
            expect(given == due, "an order to try: %s %s gives %s" % (name, arguments, given))
        expect((lines.held()[:len(left)], count.held()) == (left, [len(left)]),
               "an order to try: its lines")
        expect(report(comparing, sheet)[1] == report_due, "an order to try: its report")


def freed_slots(comparing):
    """ "The list is lent as 64 slots and a count; a slot past the count is never read, and one
    freed by a withdrawal keeps what it held": every slot, written out, after each of 64 of them."""
    lines, count = lent_lines((at, at % 3 == 0) for at in range(64))  # no two alike
    codes = [b"C%d" % number for number in range(64)]
    book, sheet = Lent(build(codes, [])), loaded(comparing, 64, [], codes)
    due, index = lines.held(), lent_index(sheet)
    for number in range(64):
        k, standing = (0, 31, 63)[number % 3] % (64 - number), 64 - number
        due[k:standing - 1] = due[k + 1:standing]  # and due[standing - 1] stays
        comparing.done("withdraw", sheet, book, lines, count, index, k)
        expect((lines.held(), count.held()) == (due, [standing - 1]), "a slot after a withdrawal")
    for number in range(64):
        comparing.done("key", sheet, lines, count, index, 1, True)
        due[number] = (1, True)
        expect((lines.held(), count.held()) == (due, [number + 1]), "a slot after a keying")


def weights_of_withdrawals(comparing):
    """ "Refusal 8 applies if book weight plus twice the remaining lines is over 4,096", whatever
    the weight of the sheet; after 13."""
    light = loaded(comparing, 2, []).values
    for weight, most in ((4093, 2), (4094, 2), (4095, 1), (4096, 1), (3970, 64), (3971, 63)):
        book = Lent(of_weight(weight))
        for count in {1, 2, 3, 62, 63, 64}:  # at most `most` lines stand before it
            lines = [(at % 2, at % 2 == 1) for at in range(count)]
            due = 0 if count <= most else 8
            for k, number in ((0, due), (count - 1, due), (count, 13)):
                sheet = lent_sheet(light)
                given = comparing.call("withdraw", sheet, book, *beside(sheet, lines), k)
                expect(given == (number, 0), "book weight %d, %d lines: taking back %d" % (
                    weight, count, k))


def faults_of_keyings(comparing):
    """ "8 sheet full: weight + 2 is over 4,096", alone, after 7, and after 11."""
    for weight, refusal in ((4093, 0), (4094, 0), (4095, 8), (4096, 8)):
        for option, barred, due in ((0, False, refusal), (1, True, refusal), (2, False, 7),
                                    (65535, True, 7)):
            sheet = lent_sheet([7] * LENGTH)
            comparing.done("load", Lent(of_weight(weight)), sheet)
            expect(keyed(comparing, sheet, option, barred) == (due, 0),
                   "weight %d: the choice of option %d" % (weight, option))
            if due == 0:  # now it is full
                for again, full in ((option, 8), (2, 7)):
                    expect(keyed(comparing, sheet, again, barred) == (full, 0),
                           "weight %d: a second choice" % weight)
            if due == 8:  # "14 list full ... before 7", and so before 8
                for again in (option, 2):
                    expect(keyed(comparing, sheet, again, barred, [(0, False)] * 64) == (14, 0),
                           "weight %d: a choice for a full list" % weight)
    # "The weight ... is at most 4,096. Anything else is no sheet." A mark more: 11 comes before 7.
    nodes = [20481, 16384 + 2048] + [4096] * 2048
    heavy = [2, len(nodes)] + nodes + [0] * (LENGTH - 2 - len(nodes))
    for option in (0, 2):
        for lines in ([], [(0, False)] * 64):
            expect(keyed(comparing, lent_sheet(heavy), option, False, lines) == (11, 0),
                   "weight 4,098: a choice")


def faults_of_books(comparing):
    """ "6 weight over 4,096", alone, after 5, and before 7, 11 for N and 12."""
    sheet = loaded(comparing, 2, []).values
    for book, due in ((of_weight(4096), 0), (of_weight(4097), 6), (of_weight(4098), 6),
                      (of_weight(4096, wrong=2), 5), (of_weight(4097, wrong=2), 5),
                      (of_weight(4098, wrong=2), 5), (of_weight(4098, wrong=511), 5)):
        what = "a book of weight 4,096 or more: %d is due" % due
        expect(comparing.call("check", Lent(book)) == (due, 0), what)
        expect(comparing.call("load", Lent(book), lent_sheet([7] * LENGTH)) == (due, 0), what)
        expect(comparing.call("lookup", Lent(book), Lent(b"none")) == (due or 7, 0), what)
        expect(comparing.call("write", lent_sheet(sheet), Lent(book), Lent([])) == (due or 12, 0),
               what)
    for weight, due in ((4096, 11), (4097, 6)):  # N is 1, and the sheet's is 2
        book = of_weight(weight, options=1)
        expect(comparing.call("write", lent_sheet(sheet), Lent(book), Lent([])) == (due, 0),
               "written with a book of another N")


def outputs_of_reports(comparing):
    """Document 02: "A report shall accept any output of at least N bytes, fill the first N and keep
    the rest. ... Refusal 12 is now for a shorter output only." The first option is in, the second
    out, and the others are open; or the sheet is contradictory."""
    codes = [b"C%d" % number for number in range(512)]
    for options in (0, 1, 2, 3, 511, 512):
        marks = [1, 2][:options] + [0] * (options - 2)
        for trees, contradictory, due in (([positive(0), negative(1)][:options], 0, marks),
                                          ([FALSE], 1, [3] * options)):
            sheet = loaded(comparing, options, trees, codes)
            for length in {max(0, options - 1), options, options + 1, 512, 600}:
                before, short = [at % 251 + 4 for at in range(length)], length < options
                output = Lent(before)
                expect(comparing.call("report", sheet, output)
                       == ((12, 0) if short else (0, contradictory)), "a report's answer")
                expect(output.held() == (before if short else due + before[options:]),
                       "a report's bytes, or those past N")


ALL = (outputs_of_reports, books_to_try, single_steps, executed_only, orders_to_try, freed_slots,
       weights_of_withdrawals, faults_of_keyings, faults_of_books)
