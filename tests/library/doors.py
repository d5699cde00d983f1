"""What the Python module is given, at its doors: another type than the one due is a TypeError, one
sentence that names the argument; a number of any value is answered or gets its refusal; memory that
C could not take is turned away. From the folder above: python3 -m library.doors"""
import ctypes
import inspect
import itertools
import reprlib
from array import array
from fractions import Fraction

from checker.keying import SLOTS
from checker.sheets import LENGTH
from desk.cases import EXAMPLES
from driver.library import CALLS
from library.module import Failed, expect, number_of, raises
from library.refusing import BOOK, CLAUSES, INDEX, LINES, SHEET

import nibdrumlin
from nibdrumlin import Book, Line, Order, Refused, Slot


class Whole:
    """Not an int, but a whole number: as those of other libraries are."""

    def __init__(self, number):
        self.number = number

    def __index__(self):
        return self.number


NO_WHOLE = [True, False, 1.0, "1", b"1", None, Fraction(1), [1], Whole]
NO_TRUTH = ["no", "", 0, 1, None, b"\1", 1.0, [], Whole(1)]
NO_BYTES = [8, True, None, "P", 1.5, [80], (80,), array("H", [80]), array("I", [80]), {}, object(),
            memoryview(bytes(4)).cast("B", (2, 2))]
NO_NUMBERS = [8, None, "P", [0] * 9, bytes(8), bytearray(8), array("B", [0] * 8),
              array("i", [0] * 4), array("f", [0]), (ctypes.c_uint16.__ctype_be__ * 4)()]
NO_OPTION = [True, False, 1.0, None, [0], Fraction(1), ("P",), object(), array("H", [80])]
NO_BOOK = [BOOK, None, 8, "book.bin", Order, Book]
NO_ROW = [5, None, True, 1.5, object()]
NO_LINES = [None, [Slot()] * SLOTS, Slot(), array("I", [0] * SLOTS), bytes(256), 5,
            (Slot * SLOTS * 1)()]
NO_COUNT = [0, None, 2.0, array("H", [0, 0]), ctypes.c_uint32(0), bytes(2), bytearray(1), Slot(),
            "0"]


def lent():
    """What the calls are lent, each by its name: of the types due."""
    return {"book": BOOK, "code": b"P", "text": CLAUSES, "out": bytearray(99),
            "sheet": array("H", SHEET), "index": array("H", INDEX), "lines": (Slot * SLOTS)(),
            "count": ctypes.c_uint16(0), "option": 0, "negative": False, "k": 0, "rule": 10,
            "place": 0, "i": 0, "j": 0, "budget": 3}


WRONG = {"b": NO_BYTES, "B": [*NO_BYTES, BOOK], "s": NO_NUMBERS,
         "S": [*NO_NUMBERS, memoryview(array("H", SHEET)).toreadonly()], "l": NO_LINES,
         "L": NO_LINES, "C": NO_COUNT, "2": [*NO_WHOLE, ctypes.c_uint16(0)], "8": NO_WHOLE,
         "?": NO_TRUTH}
WRONG["I"] = WRONG["S"]  # an index


def function_doors():
    """(name of the argument, work, arguments) for each argument of each function for C, of each
    wrong type."""
    for call, letters in CALLS.values():
        work = getattr(nibdrumlin, call)
        names = list(inspect.signature(work).parameters)
        expect(len(names) == len(letters), "%s: its arguments" % call)
        for name, letter in zip(names, letters):
            for wrong in WRONG[letter]:
                given = lent()
                if "2" in letters:
                    given["count"] = 0
                given[name] = wrong
                yield name, work, [given[other] for other in names]


def book_doors():
    """The same for books."""
    book = Book(BOOK)
    for wrong in NO_BYTES:
        yield "data", Book, (wrong,)
        yield "book", Book.check, (wrong,)
        yield "text", Book.from_clauses, (wrong,)
    for wrong in (5, None, True, 1.5, b"book.bin", [EXAMPLES]):
        yield "path", Book.from_file, (wrong,)
    for wrong in (True, 0, 5, None, 1.5, ["P"], object(), array("H", [80])):
        yield "code", book.lookup, (wrong,)


def order_doors():
    """The same for orders."""
    book = Book(BOOK)
    order = Order.from_numbers(book, SHEET, LINES)
    for wrong in NO_BOOK:
        yield "book", Order, (wrong,)
        yield "book", Order.from_numbers, (wrong, SHEET)
        if wrong is not None:
            yield "book", order.withdraw, (0, wrong)
    for wrong in NO_ROW:
        yield "numbers", Order.from_numbers, (book, wrong)
        yield "numbers", setattr, (order, "numbers", wrong)
        yield "lines", Order.from_numbers, (book, SHEET, wrong)
        yield "a line", Order.from_numbers, (book, SHEET, [wrong])
    for wrong in NO_WHOLE:
        yield "numbers", Order.from_numbers, (book, [*SHEET[:9], wrong, *SHEET[10:]])
        yield "a line's option", Order.from_numbers, (book, SHEET, [(wrong, True)])
        yield "k", order.withdraw, (wrong,)
        yield "budget", order.run, (wrong,)
        for name in ("rule", "place", "i", "j"):
            yield name, lambda given: order.step(**given), ({"rule": 10, "place": 0, name: wrong},)
    for wrong in NO_TRUTH:
        yield "a line's barred", Order.from_numbers, (book, SHEET, [(0, wrong)])
        yield "barred", order.key, (0, wrong)
    for wrong in ("", "P", (), (0,), (0, True, 1), {}, [[0, True]]):
        yield "a line", Order.from_numbers, (book, SHEET, [wrong])
    for wrong in NO_OPTION:
        yield "option", order.key, (wrong,)
        yield "option", order.mentions, (wrong,)


def told(name, arguments):
    return "%s of %s" % (name, ", ".join(map(reprlib.repr, arguments)))


def check_doors():
    """Each is turned away by a sentence of its own; how many there are."""
    count = 0
    for name, work, arguments in [*book_doors(), *order_doors(), *function_doors()]:
        try:
            work(*arguments)
        except TypeError as error:
            said = str(error)
        except (Refused, ValueError, AttributeError) as error:
            raise Failed("%s: %r, where TypeError is due" % (told(name, arguments), error))
        else:
            raise Failed("%s: it is taken" % told(name, arguments))
        expect(said.startswith(name + ": ") and "\n" not in said and len(said) < 200,
               "%s: said %r" % (told(name, arguments), said))
        count += 1
    return count


def check_whole_numbers():
    """What has __index__ is a number, wherever one is due."""
    order, alone = Order(Book(BOOK)), Order(Book(BOOK))
    order.key(Whole(1), True)
    order.key(Whole(0))
    order.withdraw(Whole(1))
    expect(order.mentions(Whole(1)) == order.mentions(1), "mentions of a whole number")
    expect(order.run(Whole(2)).steps == 2, "a budget that is a whole number")
    alone.key(1, True)
    alone.run(2)
    expect((order.numbers, order.lines) == (alone.numbers, alone.lines), "whole numbers")
    given = lent()
    nibdrumlin.nd_step(given["sheet"], given["index"], *map(Whole, (10, 0, 0, 0)))
    expect(given["sheet"].tolist() != SHEET, "a step of whole numbers")
    kept = Order.from_numbers(Book(BOOK), map(Whole, SHEET), [(Whole(1), True)])
    expect((kept.numbers.tolist(), kept.lines) == (SHEET, (Line(1, True),)), "kept as they are")
    for number, work, arguments in ((7, order.key, (Whole(2),)), (7, order.key, (Whole(-1),)),
                                    (13, order.withdraw, (Whole(2 ** 70),)),
                                    (9, order.step, (Whole(18), 0))):
        expect(number_of(work, *arguments) == number, "refusal %d of a whole number" % number)
    expect(raises(ValueError, order.run, -1) and raises(ValueError, order.run, Whole(-1)),
           "a negative budget")


def check_rows():
    """Sheets and lines that are kept elsewhere: by any row and by bytes; a number that 16 bits do
    not hold, another length and an endless row are 11."""
    book, data = Book(BOOK), array("H", SHEET).tobytes()
    for numbers in (SHEET, tuple(SHEET), array("H", SHEET), array("I", SHEET), iter(SHEET), data,
                    bytearray(data), memoryview(array("H", SHEET)),
                    (ctypes.c_uint16 * LENGTH)(*SHEET)):
        kept = Order.from_numbers(book, numbers, iter(LINES))
        expect((kept.numbers.tolist(), kept.lines) == (SHEET, tuple(LINES)), "kept elsewhere")
    for at, number in itertools.product((0, 1, 2, 7, LENGTH - 1), (65_536, 2 ** 64, -1)):
        wrong = SHEET[:at] + [number] + SHEET[at + 1:]
        expect(number_of(Order.from_numbers, book, wrong) == 11, "a number of over 16 bits")
    for wrong in (itertools.count(), itertools.repeat(0), data[:-1], data + b"\0", data + b"\0\0"):
        expect(number_of(Order.from_numbers, book, wrong) == 11, "numbers of another length")
    expect(number_of(Order.from_numbers, book, SHEET, itertools.repeat((0, True))) == 11,
           "endless lines")
    order, mine = Order(book), array("H", SHEET)
    order.numbers = mine
    mine[2] = 0
    expect(order.numbers.tolist() == SHEET and order.run().settled, "numbers that are given")
    expect(raises(AttributeError, setattr, order, "book", book), "an order's book that is set")


def check_runs_of_bytes():
    """A book, a text or a code by any run of bytes; those that do not lie side by side are copied
    for a Book, and no function takes them."""
    spread = bytearray(2 * len(BOOK))
    spread[::2] = BOOK
    for data in (BOOK, bytearray(BOOK), memoryview(BOOK), array("B", BOOK), array("b", [
            byte - byte // 128 * 256 for byte in BOOK]), memoryview(spread)[::2],
            (ctypes.c_uint8 * len(BOOK))(*BOOK)):
        expect(Book(data).data == BOOK, "a run of bytes")
        expect([Book(BOOK).lookup(code) for code in (b"P", bytearray(b"P"), memoryview(b"P"), "P")]
               == [0] * 4, "a code")
    for work, arguments in ((Book.check, (memoryview(spread)[::2],)),
                            (nibdrumlin.nd_report, (array("H", SHEET),
                                                    memoryview(bytearray(9))[::2])),
                            (nibdrumlin.nd_index, (memoryview(array("H", SHEET * 2))[::2],
                                                   array("H", INDEX)))):
        expect(raises(TypeError, work, *arguments), "memory that does not lie side by side")
    expect(Book.from_file(str(EXAMPLES / "book.bin")).data
           == Book.from_file(EXAMPLES / "book.bin").data, "a book's path")


def check_memory():
    """What a call writes overlaps nothing else, and 16-bit numbers lie at even addresses."""
    order, both = Order(Book(BOOK)), bytearray(2 * LENGTH + 99)
    both[:2 * LENGTH] = array("H", SHEET).tobytes()
    sheet, view = memoryview(both)[:2 * LENGTH].cast("H"), memoryview(both)
    lines = (Slot * SLOTS).from_buffer(both, 8000)
    before = bytes(both)
    odd = memoryview(bytearray(2 * LENGTH + 1))[1:].cast("H")
    for work, arguments in [
            (nibdrumlin.nd_index, (sheet, sheet)), (nibdrumlin.nd_index, (sheet, sheet[-4:])),
            (nibdrumlin.nd_report, (sheet, view[2 * LENGTH - 1:])),
            (nibdrumlin.nd_report, (sheet, view[:2])),
            (nibdrumlin.nd_run, (sheet, sheet[90:99], 5)),
            (nibdrumlin.nd_load, (view[9:99], sheet)), (nibdrumlin.nd_import, (view, view)),
            (nibdrumlin.nd_key, (sheet, lines, ctypes.c_uint16(0), array("H", INDEX), 0, False)),
            (nibdrumlin.nd_key, (order.numbers, (Slot * SLOTS)(), sheet[:1], sheet[:9], 0, False)),
            (nibdrumlin.nd_report, (odd, bytearray(9))), (nibdrumlin.nd_run, (odd, sheet[:9], 5))]:
        expect(raises(ValueError, work, *arguments), "%s: overlapping, odd" % work.__name__)
        expect(bytes(both) == before, "%s: memory was written" % work.__name__)
    nibdrumlin.nd_report(sheet, view[2 * LENGTH:])  # beside it is not over it
    nibdrumlin.nd_code_lookup(bytearray(BOOK), bytearray(BOOK)[8:9])
    again = bytearray(BOOK)
    expect(number_of(nibdrumlin.nd_code_lookup, again, again) == 7, "what is read may overlap")


def main():
    try:
        count = check_doors()
        check_whole_numbers()
        check_rows()
        check_runs_of_bytes()
        check_memory()
    except (Failed, Refused) as fault:
        raise SystemExit("doors: %s" % fault)
    print("doors: %d arguments of another type are turned away by name" % count)


if __name__ == "__main__":
    main()
