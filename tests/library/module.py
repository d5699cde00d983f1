"""The Python module: every refusal that each call can give, memory beside and under what is lent,
orders, reports, runs, indexes and imports beside the checker's. From the folder above:
python3 -m library.module"""
import ctypes
import random
import sys
import time
from array import array
from pathlib import Path

from checker import calls, clause_files
from checker.books import build
from checker.cases import CASES, CODES, COMPLETE, ORDERS, P, Q, R
from checker.keying import SLOTS
from checker.mentions import NO_PLACE
from checker.sheets import LENGTH
from checker.trees import disjunction as any_of
from driver.comparing import CAN_REFUSE
from driver.indexes import PAST, fresh_count
from driver.making import random_book
from library.lending import SPARE, Lent, asked, lend, slots
from library.refusing import (AT, BAD_BOOKS, BLANK, BOOK, CLAUSES, CLAUSES_LENGTH, FULL_BOOK, INDEX,
                              LINES, NO_CLAUSE_FILES, NO_SHEETS, OTHER_BOOK, SHEET, TOO_LARGE,
                              all_refusals)

sys.path.insert(0, str(Path(__file__).resolve().parent.parent.parent / "python"))
import nibdrumlin  # noqa: E402
from nibdrumlin import Book, LibraryMissing, Order, Refused, Slot, State  # noqa: E402

MOST = 2 ** 64 - 1
RANDOM_BOOKS = 150
SECONDS = 3
SYMBOLS = {"check": "nd_book_check", "lookup": "nd_code_lookup", "import_": "nd_import"}


class Failed(Exception):
    """Something that must hold does not."""


def expect(holds, what):
    if not holds:
        raise Failed(what)


def number_of(work, *arguments):
    """The refusal of a call, 0 where it is accepted."""
    try:
        work(*arguments)
    except Refused as refusal:
        expect(refusal.meaning == nibdrumlin.MEANINGS[refusal.number], "a refusal of no meaning")
        expect("refused %d, %s" % (refusal.number, refusal.meaning) in str(refusal),
               "the message does not say the refusal")
        return refusal.number
    return 0


def check_refusals():
    """Each is the one due, and nothing lent nor beside it was written."""
    seen = {call: set() for call in CAN_REFUSE}
    count = 0
    for call, due, arguments in all_refusals():
        given = [lend(value) for value in arguments]
        lent = [value for value in given if hasattr(value, "part")]
        plain = [value.part if value in lent else value for value in given]
        number = number_of(getattr(nibdrumlin, SYMBOLS.get(call, "nd_" + call)), *plain)
        expect(number == due, "%s: refused %d, due %d" % (call, number, due))
        expect(all(value.is_unchanged() for value in lent),
               "%s, refused %d: lent memory was written" % (call, due))
        seen[call].add(due)
        count += 1
    for call, numbers in CAN_REFUSE.items():
        expect(seen[call] == set(numbers), "%s: only refusals %s were seen" % (call, seen[call]))
    return count


def check_accepted():
    """An accepted call writes what it is due to write and nothing beside it."""
    sheet, out, states = Lent(BLANK), Lent(b"\x09" * (len(BOOK) + 3)), Lent(b"\x09" * 5)
    nibdrumlin.nd_load(BOOK, sheet.part)
    expect(sheet.part.tolist() == SHEET, "nd_load: the sheet differs")
    expect(nibdrumlin.nd_write(sheet.part, BOOK, out.part) == len(BOOK), "nd_write: its length")
    expect(out.part.tobytes() == BOOK + b"\x09" * 3, "nd_write: the bytes, or those beyond")
    contradictory = nibdrumlin.nd_report(sheet.part, states.part)
    _, bad, (due,) = calls.report(SHEET, [9] * 5)
    expect((contradictory, states.part.tolist()) == (bool(bad), due), "nd_report differs")
    lines, count = map(lend, slots(LINES))
    index = Lent([7] * 4 + PAST)

    def expect_index(call):
        expect(index.part.tolist() == fresh_count(sheet.part.tolist()) + PAST, call + ": its index")
    expect(nibdrumlin.nd_index(sheet.part, index.part) is None, "nd_index: it has no value")
    expect_index("nd_index")
    nibdrumlin.nd_key(sheet.part, lines.part, count.part, index.part, 1, True)
    expect(lines.held() == LINES + [(1, True)] + SPARE[3:] and count.part[0] == 3, "nd_key: lines")
    expect_index("nd_key")
    nibdrumlin.nd_withdraw(sheet.part, BOOK, lines.part, count.part, index.part, 0)
    expect(lines.held() == [(0, False), (1, True), (1, True)] + SPARE[3:] and count.part[0] == 2,
           "nd_withdraw: lines")
    due = calls.withdraw(SHEET, BOOK, LINES + [(1, True)] + SPARE[3:], [3], INDEX, 0)[2][0]
    expect(sheet.part.tolist() == due, "nd_withdraw: the sheet differs")
    expect_index("nd_withdraw")
    nibdrumlin.nd_step(sheet.part, index.part, 10, 0, 0, 0)
    expect_index("nd_step")
    nibdrumlin.nd_run(sheet.part, index.part, MOST)
    expect_index("nd_run")
    expect(all(lent.has_guards() for lent in (sheet, out, states, lines, count, index)),
           "a guard was written")
    expect(all("index" in nibdrumlin.MEANINGS[number] for number in (11, 12)),
           "the meanings of 11 and 12 say nothing of an index")


def check_books():
    """Book: its refusals, its codes, its options."""
    for number, data in BAD_BOOKS:
        expect(number_of(Book, data) == number, "Book: refusal %d is due" % number)
        expect(number_of(Book.check, data) == number, "Book.check: refusal %d is due" % number)
    book = Book(bytearray(BOOK))
    expect(book.data == BOOK and book.options == 2, "Book: data or options")
    expect(book.codes == ("P", "Q-7"), "Book: codes")
    expect([book.lookup("P"), book.lookup(b"Q-7")] == [0, 1], "Book: lookup")
    for code in ("", "Q", "\u00c4", "\ud800", "P\0", b"P" * 14):
        expect(number_of(book.lookup, code) == 7, "Book: lookup of %r" % code)
    none = Book(bytes(8))
    expect((none.options, none.codes) == (0, ()), "Book: eight zero bytes")


def check_imports():
    """nd_import writes the checker's book and nothing beside it; Book.from_clauses, whatever memory
    holds the text and however long it is, is that book, and orders of it go by its clauses."""
    due = clause_files.book_of(CLAUSES)
    for spare in (0, 1, 40):
        text, out = Lent(CLAUSES), Lent(b"\x09" * (CLAUSES_LENGTH + spare))
        expect(nibdrumlin.nd_import(text.part, out.part) == CLAUSES_LENGTH, "nd_import: its length")
        expect(out.part.tobytes() == due + b"\x09" * spare, "nd_import: the bytes, or those beyond")
        expect(text.is_unchanged() and out.has_guards(), "nd_import: other memory was written")
    for text in (CLAUSES, bytearray(CLAUSES), memoryview(CLAUSES), array("B", CLAUSES),
                 b"c%s\n" % (b"\xff" * 3_000_000) + CLAUSES, CLAUSES + b"\r\n\t " * 500_000):
        expect(Book.from_clauses(text).data == due, "Book.from_clauses: its bytes")
    for number, texts in ((15, NO_CLAUSE_FILES), (16, TOO_LARGE)):
        for text in texts:
            expect(number_of(Book.from_clauses, text) == number, "a clause file, due %d" % number)
    longest = b"p cnf 512 4095\n" + b"0\n" * 4095
    expect(len(Book.from_clauses(longest).data) == nibdrumlin.BOOK_LONGEST, "the longest book")
    order = Order(Book.from_clauses(b"p cnf 3 2\n1 -2 0\n2 3 0\n"))
    order.key("V1", barred=True)
    expect(list(order.report().states.items()) == [("V1", 2), ("V2", 2), ("V3", 1)],
           "an order of imported clauses")


def check_refused_orders():
    """Order: its refusals leave it as it was."""
    order, full = Order(Book(BOOK)), Order(Book(FULL_BOOK))
    expect(order.numbers.tolist() == SHEET and order.lines == (), "Order: loaded")
    long = Order.from_numbers(Book(BOOK), SHEET, [(0, True)] * SLOTS)
    order.key(1)
    for number, held, work, arguments in [
            (7, order, order.key, ("Q",)), (7, order, order.key, (2, True)),
            (7, order, order.key, (65_536,)), (7, full, full.key, (1,)),
            (8, full, full.key, ("P",)), (8, full, full.key, (0, True)),
            (14, long, long.key, (0,)), (14, long, long.key, (2,)), (14, long, long.key, ("Q",)),
            (13, order, order.withdraw, (1,)), (13, order, order.withdraw, (-1,)),
            (13, order, order.withdraw, (2 ** 64,)), (13, full, full.withdraw, (0,)),
            (11, order, order.withdraw, (0, Book(OTHER_BOOK))),
            (8, long, long.withdraw, (0, Book(build([b"P", b"Q"], [any_of(*[P] * 2047)])))),
            (9, order, order.step, (18, 0)), (10, order, order.step, (17, 0)),
            (10, order, order.step, (9, 0))]:
        before = held.numbers.tobytes(), held.lines, held.book
        expect(number_of(work, *arguments) == number, "Order: refusal %d is due" % number)
        expect((held.numbers.tobytes(), held.lines, held.book) == before,
               "Order: a refused call changed it")
        expect_mentions(held)
    for option in ("Q", b"", 2, 65_536):
        expect(number_of(order.mentions, option) == 7, "Order: mentions of %r" % option)


def expect_mentions(order):
    """What an order says of each option, by number and by code: the fresh count of its sheet."""
    index = fresh_count(order.numbers.tolist())
    for option, code in enumerate(order.book.codes):
        count, place = index[2 * option:2 * option + 2]
        due = count, None if place == NO_PLACE else place
        for name in (option, code, code.encode()):
            expect(tuple(order.mentions(name)) == due, "Order: mentions of %r" % name)


def check_kept_orders():
    """Order: one that was kept elsewhere, and what it is refused."""
    for numbers in NO_SHEETS:
        expect(number_of(Order.from_numbers, Book(BOOK), numbers) == 11, "Order: no sheet")
    expect(number_of(Order.from_numbers, Book(OTHER_BOOK), SHEET) == 11, "Order: another N")
    for lines in ([(2, True)], [(0, True)] * 65, [(65_536, False)], [(-1, False)],
                  [(0, True), (9, False)], [(0, True)] * 65_536):
        expect(number_of(Order.from_numbers, Book(BOOK), SHEET, lines) == 11, "Order: bad lines")
    kept = Order.from_numbers(Book(BOOK), SHEET, LINES)
    expect(kept.lines == tuple(LINES) and kept.numbers.tolist() == SHEET, "Order: kept elsewhere")
    expect_mentions(kept)
    due = SHEET
    for step in ((10, 0, 0, 0), (15, AT - 2, 0, 0), (15, AT - 2, 0, 0), (17, AT - 2, 0, 0)):
        kept.step(*step)
        due = calls.step(due, None, *step)[2][0]
        expect(kept.numbers.tolist() == due, "Order: a step of rule %d" % step[0])
        expect_mentions(kept)


def check_orders():
    """Document 02's orders: answers, lines and reports as written beside them."""
    for rules, first, made, left, report in ORDERS:
        book = Book(build(CODES[:3], rules))
        order = Order.from_numbers(book, Order(book).numbers, first)
        for name, arguments, (refusal, value) in made:
            if name == "run":
                ran = order.run(*arguments)
                expect((ran.steps, ran.settled) == (value // 2, value % 2 == 1), "an order's run")
                continue
            if name == "withdraw":
                k, *other = arguments
                arguments = (k, *[Book(build(CODES[:3], trees)) for trees in other])
            given = number_of(getattr(order, name), *arguments)
            expect(given == refusal, "an order: %s is refused %d, due %d" % (name, given, refusal))
            expect_mentions(order)
        expect(order.lines == tuple(left), "an order: its lines")
        expect(list(order.report().states.values()) == report, "an order: its report")
    return len(ORDERS)


def check_complete():
    """Document 02's sheets, complete or not as written beside them, by an order and by the call,
    which writes to nothing; and an order that is moved to another book: that one is asked then."""
    for on_sheet, budget, rules, lines, due in COMPLETE:
        made, book = Order(Book(build(CODES[:3], on_sheet))), Book(build(CODES[:3], rules))
        made.run(budget)
        order = Order.from_numbers(book, made.numbers, lines)
        expect(order.is_complete() is due, "complete: %s is due" % due)
        slots_lent, count = asked(lines)
        given = [lend(value) for value in (made.numbers.tolist(), book.data, slots_lent)]
        expect(nibdrumlin.nd_complete(*(lent.part for lent in given), count) is due,
               "nd_complete: %s is due" % due)
        expect(all(lent.is_unchanged() for lent in given), "nd_complete: memory was written")
    order = Order(Book(build(CODES[:3], [P, any_of(Q, R)])))
    order.key("Q", barred=False)
    expect(not order.is_complete(), "complete: R is open, and the book names it")
    order.withdraw(0, Book(build(CODES[:3], [P])))
    expect(order.is_complete(), "complete: the order's book is another now")
    return len(COMPLETE)


def raises(error, work, *arguments):
    try:
        work(*arguments)
    except error:
        return True
    return False


def check_misuse():
    """What Python itself must refuse: other widths, memory that cannot be written."""
    order, nd_key = Order(Book(BOOK)), nibdrumlin.nd_key
    lines, index = (Slot * SLOTS)(), array("H", INDEX)
    for name, error, work, arguments in [
            ("a sheet of bytes", TypeError, nibdrumlin.nd_complete,
             (bytes(2 * LENGTH), BOOK, lines, 0)),
            ("lines to read that are no slots", TypeError, nibdrumlin.nd_complete,
             (order.numbers, BOOK, array("I", [0] * SLOTS), 0)),
            ("a count that is lent, where a number is due", TypeError, nibdrumlin.nd_complete,
             (order.numbers, BOOK, lines, ctypes.c_uint16(0))),
            ("a book of 16-bit numbers", TypeError, nibdrumlin.nd_book_check, (array("H", [0] * 4),)),
            ("an output that is read-only", TypeError, nibdrumlin.nd_report,
             (order.numbers, bytes(2))),
            ("every second byte", TypeError, nibdrumlin.nd_book_check, (memoryview(BOOK)[::2],)),
            ("lines that are no slots", TypeError, nd_key,
             (order.numbers, array("I", [0] * SLOTS), ctypes.c_uint16(0), index, 0, False)),
            ("a list for slots", TypeError, nd_key,
             (order.numbers, [(0, True)] * SLOTS, ctypes.c_uint16(0), index, 0, False)),
            ("a count of two numbers", TypeError, nd_key,
             (order.numbers, lines, array("H", [0, 0]), index, 0, False)),
            ("a count of 32 bits", TypeError, nd_key,
             (order.numbers, lines, ctypes.c_uint32(0), index, 0, False)),
            ("a count that is read-only", TypeError, nd_key,
             (order.numbers, lines, bytes(2), index, 0, False)),
            ("an index of 32 bits", TypeError, nibdrumlin.nd_index,
             (order.numbers, array("I", [0] * 9))),
            ("an index of bytes", TypeError, nibdrumlin.nd_run, (order.numbers, bytearray(9), 0)),
            ("an index that is read-only", TypeError, nibdrumlin.nd_step,
             (order.numbers, memoryview(index).toreadonly(), 0, 0, 0, 0)),
            ("a text of characters", TypeError, Book.from_clauses, ("p cnf 0 0",)),
            ("a text of 16-bit numbers", TypeError, Book.from_clauses, (array("H", [112]),)),
            ("a book's room that is read-only", TypeError, nibdrumlin.nd_import,
             (CLAUSES, bytes(CLAUSES_LENGTH))),
            ("a negative budget", ValueError, order.run, (-1,))]:
        expect(raises(error, work, *arguments), "%s: %s is due" % (name, error.__name__))
    expect(issubclass(LibraryMissing, Exception) and not issubclass(LibraryMissing, Refused),
           "a missing library is no refusal")


def compare(data, options, keyed, budget):
    """Keyings, report, complete, run and write of one book, as keyed and after each line is taken
    back, beside the checker's."""
    order, (due, lines, count) = Order(Book(data)), (calls.load(BLANK, data)[2][0], SPARE, [0])
    for option, barred in keyed:
        order.key(option, barred)
        due, lines, count, _ = calls.key(due, lines, count, None, option, barred)[2]
    due = compare_sheets(order, due, options, budget)
    for left in range(len(keyed), 0, -1):
        expect(order.lines == tuple(lines[:left]), "the lines differ")
        order.withdraw((left - 1) // 2)
        due, lines, count, _ = calls.withdraw(due, data, lines, count, None, (left - 1) // 2)[2]
        due = compare_sheets(order, due, options, budget)
    expect(order.lines == (), "there are lines where none is due")


def compare_sheets(order, due, options, budget):
    """What can be asked of a sheet, before a run and after it; the checker's sheet after it."""
    for _ in range(2):
        expect(order.numbers.tolist() == due, "the sheet differs")
        expect_mentions(order)
        _, bad, (states,) = calls.report(due, [9] * options)
        given = order.report()
        expect(given.contradictory == bool(bad), "contradictory differs")
        expect(list(given.states) == list(order.book.codes), "the report's codes differ")
        expect([int(state) for state in given.states.values()] == states, "the report differs")
        expect(all(isinstance(state, State) for state in given.states.values()), "no State")
        expect(order.is_complete()
               == bool(calls.complete(due, order.book.data, *asked(order.lines))[1]),
               "complete differs")
        again = Order(Book(order.write()))
        expect(again.numbers == order.numbers, "written and loaded is another sheet")
        ran, (_, value, (due, _)) = order.run(budget), calls.run(due, None, budget)
        expect((ran.steps, ran.settled) == (value // 2, value % 2 == 1), "the run differs")
    return due


def check_reports(rng):
    """The papers' cases, and small random books."""
    for rules, choices, *_ in CASES:
        options = 1 + max((max(rule.options, default=-1) for rule in rules), default=-1)
        compare(build(CODES[:options], rules), options, choices, MOST)
    for _ in range(RANDOM_BOOKS):
        data, options, _ = random_book(rng)
        keyed = [(rng.randrange(options), rng.random() < 0.5)
                 for _ in range(rng.randint(0, 3) if options else 0)]
        compare(data, options, keyed, rng.choice((0, 1, 3, MOST)))
    return len(CASES) + RANDOM_BOOKS


def main():
    start = time.process_time()  # what else the machine does is not counted
    try:
        refusals = check_refusals()
        check_accepted()
        check_books()
        check_imports()
        check_refused_orders()
        check_kept_orders()
        orders = check_orders()
        completes = check_complete()
        check_misuse()
        books = check_reports(random.Random(1))
        seconds = time.process_time() - start
        expect(seconds < SECONDS, "the test took %.1f s, %d are allowed" % (seconds, SECONDS))
    except (Failed, Refused, LibraryMissing) as error:
        raise SystemExit("module: %s" % error)
    print("module: %d refused calls, %d orders, %d sheets complete or not, %d books beside the "
          "checker, %.1f s" % (refusals, orders, completes, books, seconds))


if __name__ == "__main__":
    main()
