"""The checker against documents 01 and 02: their books and orders to try, their refusals, and
demands 2 and 3 on small random books. From the folder above: python3 -m checker.selftest"""
import random
import sys
import time
from collections import Counter
from pathlib import Path

if not __package__:
    sys.path.insert(0, str(Path(__file__).resolve().parent.parent))
from checker import (calls, desk, keying, meaning, rules, selftest_at_least, selftest_complete,
                     selftest_every, selftest_import, selftest_keying, selftest_lists,
                     selftest_mentions, selftest_older, sheets)
from checker.books import build
from checker.cases import BAD, CASES, CODES, ORDERS, P, Q, STEPS
from checker.expecting import BLANK, MOST, counted, done, expect, loaded
from checker.trees import (ROOT, TRUE, Tree, conjunction as all_of, disjunction as any_of, negative,
                           positive, weight)

NO_LINES = [(0, False)] * keying.SLOTS


def keyed(sheet, option, barred):
    """A choice on an order that has no lines yet: (refusal, the sheet after)."""
    refusal, _, (sheet, *_) = calls.key(sheet, NO_LINES, [0], counted(sheet), option, barred)
    return refusal, sheet


def books_to_try():
    for trees, choices, expected, steps, left in CASES:
        options = len(Tree(ROOT, trees).options)
        sheet = loaded(options, trees)
        for choice in choices:
            refusal, sheet = keyed(sheet, *choice)
            expect(refusal == 0, "a book to try: its choice")
        taken, after, index = [], [sheet], counted(sheet)
        while rules.applicable(after[-1]):
            taken.append(min(rules.applicable(after[-1])))
            _, stepped, index = done(calls.step(after[-1], index, *taken[-1]))
            after.append(stepped)
        expect(steps in (..., [step[0] for step in taken]), "a book to try: its steps")
        expect(left is ... or after[-1] == loaded(options, left), "a book to try: what is left")
        due = (1, [3] * options) if expected is BAD else (0, expected)
        for at in (sheet, after[-1]):
            expect(done(calls.report(at, [9] * options)) == due, "a book to try: its report")
        for budget in (*range(len(after) + 1), MOST):
            count = min(budget, len(taken))
            due = 2 * count + (count == len(taken)), after[count], counted(after[count])
            expect(done(calls.run(sheet, counted(sheet), budget)) == due, "a book to try: its run")


def limits_to_try():
    # "Eight zero bytes: a book; the sheet is 0, 1, 20480, zeros."
    empty = done(calls.load(BLANK, bytes(8)))[1]
    expect(empty == [0, 1, 20480] + [0] * 4095, "eight zero bytes")
    expect(calls.complete(empty, bytes(8), NO_LINES, 0) == (0, 1, ()),
           "a sheet without options is complete")
    # "One any-of with 2,047 marks is accepted and a choice is then refused 8; with 2,048, refused
    # 6." "An all-of with 4,094 trues is accepted." "Option 512 is refused 5."
    codes = [b"C%d" % number for number in range(512)]
    marks = [positive(at % 512) for at in range(2048)]
    full = done(calls.load(BLANK, build(codes, [any_of(*marks[1:])])))[1]
    expect(keyed(full, 511, False) == (8, full), "2,047 marks: a choice")
    expect(keyed(full, 512, False) == (7, full), "2,047 marks: no such option")
    expect(calls.check(build(codes, [any_of(*marks)])) == (6, 0, ()), "2,048 marks")
    expect(calls.check(build([], [all_of(*[TRUE] * 4094)])) == (0, 0, ()), "4,094 trues")
    expect(keyed(loaded(1, [TRUE] * 4094), 0, True)[0] == 8, "a choice at weight 4,095")
    refusal, chosen = keyed(loaded(1, [TRUE] * 4093), 0, True)
    expect(refusal == 0 and weight(sheets.root_of(chosen)) == 4096, "a choice at weight 4,094")
    expect(calls.check(build(codes, [positive(512)])) == (5, 0, ()), "option 512")
    # "Two codes that differ in character 13 are two options."
    near = build([b"ABCDEFGHIJKLM", b"ABCDEFGHIJKLN"], [])
    expect(calls.lookup(near, b"ABCDEFGHIJKLN") == (0, 1, ()), "codes to character 13")
    # besides: a nest 4,000 deep, and a book that is too much for clauses
    nest = P
    for _ in range(2000):
        nest = any_of(all_of(nest))
    expect(done(calls.report(loaded(1, [nest]), [0])) == (0, [1]), "a deep nest: its report")
    expect(done(calls.run(loaded(1, [nest]), [1, 4001], 3))[0] == 6, "a deep nest: a run")
    expect(meaning.is_too_much(any_of(*[all_of(positive(at), negative(at)) for at in range(20)])),
           "2 ^ 20 clauses")


def single_steps():
    for before, (rule, place, i, j), after in STEPS:
        sheet, left = loaded(3, before), loaded(3, before if after is None else after)
        lent, number = (sheet, counted(sheet)), 10 if after is None else 0
        expect(calls.step(*lent, rule, place, i, j) == (number, 0, (left, counted(left))),
               (rule, place, i, j))
        for more in (1, 2, 65536, 2 ** 32):  # each index, moved off its value
            for wrong in [(place + more, i, j), (place, i + more, j), (place, i, j + more)]:
                expect((rule, *wrong) in rules.applicable(sheet)
                       or calls.step(*lent, rule, *wrong) == (10, 0, lent), (rule, *wrong))
        for wrong in (0, 18, 65536 + rule):
            expect(calls.step(*lent, wrong, place, i, j) == (9, 0, lent), (wrong, place, i, j))


def desk_program():
    book = bytes.fromhex("02 00 01 00 05 00 00 00 50" + "00" * 12 + "51" + "00" * 12
                         + "00 00 05 00 02 40 00 10 02 30 00 10 01 10")
    expect(book == build(CODES[:2], CASES[0][0]), "the first case's book")
    hyphen = build([b"P", b"-"], [any_of(P, Q)])
    for case, stdin, printed in [
            (book, b"", b"settled 5\nP in\nQ open\n"), (None, b"", b"refused 1\n"),
            (book, b"+Q", b"settled 5\nP in\nQ in\n"), (book, b"\n", b"refused 7\n"),
            (book, b"-P\n-Q\n", b"contradiction 7\n"), (book, b"+P\r\n", b"refused 7\n"),
            (book, b"+Q\n\n", b"refused 7\n"), (book, b"Q\n", b"refused 7\n"),
            (hyphen, b"--\n", b"settled 3\nP in\n- out\n"), (book, b"+", b"refused 7\n"),
            (bytes(8), b"", b"settled 0\n"), (bytes(7), b"+", b"refused 1\n"),
            # document 02: "its 65th line is 14 whatever it holds" (64 lines: the 5 steps, one by
            # which 63 of them become true, and 63 by which these go)
            (book, b"+Q\n" * 64, b"settled 69\nP in\nQ in\n"),
            (book, b"+Q\n" * 65, b"refused 14\n"), (book, b"+Q\n" * 64 + b"\n", b"refused 14\n"),
            (book, b"+Q\n" * 64 + b"*", b"refused 14\n"),
            (book, b"+Q\n" * 64 + b"+Z\n", b"refused 14\n"),
            (book, b"+Q\n" * 63 + b"\n+Q\n", b"refused 7\n"),
            (book, b"+Q\n+Q\n+Z\n" + b"+Q\n" * 80, b"refused 7\n")]:
        expect(desk.output(case, stdin) == printed, (stdin, desk.output(case, stdin)))


GOOD = build([b"P", b"Q"], [P, any_of(P, Q)])


def with_bytes(*changes):
    data = bytearray(GOOD)
    for at, value in changes:
        data[at] = value
    return bytes(data)


def refusals_of_books():
    for due, data in [
            (1, GOOD[:7]), (1, GOOD[:-1]), (1, GOOD + b"\0"), (2, with_bytes((1, 3))),
            (2, with_bytes((3, 16))), (2, with_bytes((5, 16))), (2, with_bytes((7, 1))[:8]),
            (3, with_bytes((8, 0))), (3, with_bytes((10, 65))), (3, with_bytes((8, 95))),
            (3, with_bytes((21, 80))), (4, with_bytes((34, 1))), (4, with_bytes((36, 0))),
            (4, with_bytes((40, 4))), (4, with_bytes((36, 255), (37, 255), (40, 5))),
            (4, with_bytes((36, 0), (38, 0), (40, 4))),
            (4, bytes([0, 0, 0, 0, 1, 0, 0, 0, 0, 48])), (5, with_bytes((43, 80))),
            (5, with_bytes((43, 0))), (5, with_bytes((42, 2))), (5, with_bytes((44, 1))),
            (5, with_bytes((44, 3)))]:
        expect(calls.check(data) == (due, 0, ()), (due, data))
        expect(calls.load(BLANK, data) == (due, 0, (BLANK,)), (due, data))
        expect(calls.lookup(data, b"Z") == (due, 0, ()), (due, data))
    expect(calls.load(BLANK[1:], b"") == (11, 0, (BLANK[1:],)), "a target a number short")
    for code in (b"", b"P\0", b"p", b"P" * 14, b"Z"):
        expect(calls.lookup(GOOD, code) == (7, 0, ()), code)


def refusals_of_sheets():
    sheet = loaded(2, [P, any_of(P, Q)])
    changes = [(0, 513), (0, 1), (1, 0), (1, 4), (1, 6), (1, 4097), (2, 20481), (2, 12290),
               (3, 20480), (3, 4098), (4, 16387), (4097, 1)]
    for bad in [[], sheet[:-1], sheet + [0]] + [
            sheet[:at] + [value] + sheet[at + 1:] for at, value in changes]:
        for given, left in (
                (calls.step(bad, [], 0, 0, 0, 0), (bad, [])),
                (calls.key(bad, NO_LINES, [64], [], 99, True), (bad, NO_LINES, [64], [])),
                (calls.withdraw(bad, b"", NO_LINES, [0], [], 99), (bad, NO_LINES, [0], [])),
                (calls.run(bad, [], 0), (bad, [])), (calls.index(bad, []), ([],)),
                (calls.report(bad, []), ([],)),
                (calls.complete(bad, b"", NO_LINES, 65), ()),
                (calls.write(bad, b"", []), ([],))):
            expect(given == (11, 0, left), bad[:9])
    expect(keyed(sheet, 2, True) == (7, sheet), "no such option")
    expect(calls.report(sheet, [0]) == (12, 0, ([0],)), "a report a byte short")
    for spare in ([], [8], [8] * 598):
        expect(done(calls.report(sheet, [9, 9] + spare)) == (0, [1, 0] + spare),
               "a report with room to spare")
    expect(calls.write(sheet, bytes(8), []) == (11, 0, ([],)), "a book of another N")
    expect(calls.write(sheet, b"", []) == (1, 0, ([],)), "no book")
    short = [9] * (len(GOOD) - 1)
    expect(calls.write(sheet, GOOD, short) == (12, 0, (short,)), "an output a byte short")
    expect(done(calls.write(sheet, GOOD, short + [9] * 5)) == (len(GOOD), list(GOOD) + [9] * 4),
           "an output with room to spare")


def main(books=3000, seed=1):
    start, rng, met = time.time(), random.Random(seed), Counter()
    books_to_try()
    limits_to_try()
    single_steps()
    desk_program()
    refusals_of_books()
    refusals_of_sheets()
    selftest_keying.all_of_them()
    mentions = selftest_mentions.all_of_them()
    selftest_at_least.all_of_them(rng)
    asked = selftest_complete.all_of_them(rng, selftest_lists.random_tree)
    every = selftest_every.all_of_them(rng)
    imported = selftest_import.all_of_them(random.Random(seed))
    for_older = selftest_older.all_of_them()
    for number in range(books):
        sheet = selftest_lists.check_book(rng, met)
        if number % 100 == 0 and sheet[1] < 12:
            selftest_lists.check_listing(sheet)
    expect(all(met[what] for what in selftest_lists.TO_MEET), met)
    steps = [met[rule] for rule in rules.TABLE]
    print("selftest: %d books and %d orders to try, %d steps, the refusals, %d faults of an index "
          "beside them and %d calls with one and without, %d small sheets with every step from "
          "them (%d), %d sheets complete or not, %d clause files by hand, %d short and %d random "
          "ones, %d books for an older program and %d that one was given, and %d random books with "
          "%d steps (each rule %d times or more), %d keyings, %d withdrawals and %d questions all "
          "held, %.0f s" % (
              len(CASES) + 5, len(ORDERS), len(STEPS), *mentions, *every, asked, *imported,
              *for_older, books, sum(steps), min(steps), met["key", 0], met["withdraw", 0],
              met["complete", 0], time.time() - start))


if __name__ == "__main__":
    main()
