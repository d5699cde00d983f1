"""The Python module's books, orders and refusals copied, pickled, and sent to other processes: what
arrives is what was sent, on its own. From the folder above: python3 -m library.processes"""
import copy
import multiprocessing
import os
import pickle
import signal
import threading
import time
from array import array
from concurrent.futures import ProcessPoolExecutor

from checker.books import build
from checker.cases import P
from driver.desks import comb
from library.module import Failed, expect, expect_mentions, number_of, raises
from library.refusing import BAD_BOOKS, BOOK, OTHER_BOOK

from nibdrumlin import (INDEX_LONGEST, MEANINGS, Book, LibraryMissing, Line, Mentions, Order,
                        Refused, State)

SECONDS = 60
PROTOCOLS = range(pickle.HIGHEST_PROTOCOL + 1)
WAYS = [("copy", copy.copy), ("deepcopy", copy.deepcopy),
        *(("pickle %d" % number, lambda thing, number=number:
           pickle.loads(pickle.dumps(thing, number))) for number in PROTOCOLS)]
LONG = comb(2200)  # a run of 100,000 steps takes a tenth of a second


class NamedBook(Book):
    """A book with attributes of its own, one of them in a slot, made of other arguments."""
    __slots__ = ("year",)

    def __init__(self, name, data, year):
        self.name, self.year = name, year
        super().__init__(data)


class NamedOrder(Order):
    """An order with attributes of its own, one of them in a slot, made of other arguments."""
    __slots__ = ("name",)

    def __init__(self, name, notes, book):
        super().__init__(book)
        self.name, self.notes = name, notes


class RefusedOrder(Refused):
    """A refusal that is made of other arguments."""

    def __init__(self, customer, refusal):
        super().__init__(refusal.call, refusal.number)
        self.customer = customer


def an_order(data=BOOK):
    """With lines, a run that stands stopped, and a slot that a withdrawal freed."""
    order = Order(Book(data))
    for line in ((1, True), (0, False), (1, False)):
        order.key(*line)
    order.withdraw(1)
    order.run(2)
    return order


def parts(order):
    return (order.numbers.tolist(), order.lines, order.book.data, order.report(),
            order.is_complete(), order.write(), tuple(map(order.mentions, order.book.codes)))


def check_refusals():
    """A refusal keeps its call, number, meaning and message, and so does one of a subclass."""
    for number in [*MEANINGS, 99]:
        refusal = Refused("nd_key", number)
        refusal.line = "+P"
        ordered = RefusedOrder("Meyer", refusal)
        for way, done in WAYS:
            again, other = done(refusal), done(ordered)
            expect(again is not refusal and type(again) is Refused, "%s of a refusal" % way)
            expect((vars(again), str(again), again.args) == (vars(refusal), str(refusal),
                                                             refusal.args), "%s: a refusal" % way)
            expect(type(other) is RefusedOrder and vars(other) == vars(ordered),
                   "%s: a subclass of Refused" % way)
    for way, done in WAYS:
        expect(str(done(LibraryMissing("no library"))) == "no library", "%s of no library" % way)
        for plain in (Line(1, True), Mentions(2, None), State.OUT, an_order().report()):
            expect(done(plain) == plain and type(done(plain)) is type(plain), "%s: answers" % way)


def check_books():
    """A book, and one of a subclass; changed bytes in a pickle are refused as a book's are."""
    book, named = Book(BOOK), NamedBook("meter", BOOK, 1998)
    for way, done in WAYS:
        again = done(book)
        expect(again is not book and again.data == BOOK and again.codes == book.codes,
               "%s of a book" % way)
        if way not in ("pickle 0", "pickle 1"):  # these know no slots
            other = done(named)
            expect((type(other), other.name, other.year, other.data) == (
                NamedBook, "meter", 1998, BOOK), "%s: a subclass of Book" % way)
    for number, data in BAD_BOOKS:
        if len(data) == len(BOOK):
            changed = pickle.dumps(book).replace(BOOK, data)
            expect(number_of(pickle.loads, changed) == number, "unpickled: %d is due" % number)
        for state in ({"data": data}, ({"data": data}, {})):
            expect(number_of(Book.__new__(Book).__setstate__, state) == number,
                   "a book's state: %d is due" % number)
    for state in ({}, {"data": None}, {"data": 8}, {"data": "P"}, [1], 5, ({"data": BOOK}, 5)):
        expect(raises(TypeError, Book.__new__(Book).__setstate__, state), "a state of no book")


def expect_apart(way, one, other):
    """What is done with one order does not touch the other."""
    for changed, kept in ((one, other), (other, one)):
        before = parts(kept)
        changed.key(0, True)
        changed.run()
        changed.withdraw(0, Book(build([b"P", b"Q-7"], [P])))
        changed.numbers[3] ^= 1
        expect(parts(kept) == before, "%s: a copy is changed with its order" % way)
        expect_mentions(kept)
        changed.numbers[3] ^= 1
    expect(one.exclusively() is not other.exclusively(), "%s: one lock for two orders" % way)
    with one.exclusively():
        held = threading.Thread(target=other.run)
        held.start()
        held.join(10)
        expect(not held.is_alive(), "%s: a copy waits for its order" % way)


def check_orders():
    """An order keeps its sheet, lines, index and book, goes on as the first would, and apart."""
    for way, done in WAYS:
        order = an_order()
        again, due = done(order), parts(order)
        expect(type(again) is Order and parts(again) == due, "%s of an order" % way)
        expect_mentions(again)
        expect((again.book is order.book) is (way == "copy"), "%s: its book" % way)
        for one in (order, again):
            one.run(1)
            one.key("P")
            one.withdraw(0)
        expect(parts(again) == parts(order), "%s: an order goes on otherwise" % way)
        expect_apart(way, order, again)
        named = NamedOrder("Meyer", ["urgent"], Book(BOOK))
        named.key(1)
        other = done(named)
        expect((type(other), other.name, other.notes) == (NamedOrder, "Meyer", ["urgent"]),
               "%s: a subclass of Order" % way)
        expect(parts(other) == parts(named), "%s: an order of a subclass" % way)
        expect((other.notes is named.notes) is (way == "copy"), "%s: its attributes" % way)
        expect_apart(way, named, other)


def check_shared_books():
    """Orders of one book are, together, copied to orders of one book."""
    book = Book(BOOK)
    for way, done in WAYS[1:]:
        again = done({"first": Order(book), "second": Order(book), "book": book})
        expect(again["first"].book is again["second"].book is again["book"] is not book,
               "%s: orders of one book" % way)
        again["first"].key(0)
        expect(again["second"].lines == (), "%s: orders of one book share more than it" % way)


def check_stale_orders():
    """A stale index stays stale; numbers that are no sheet of the book are refused 11."""
    for way, done in WAYS:
        order = an_order()
        order.numbers[:] = Order(Book(BOOK)).numbers
        again = done(order)
        expect(again.numbers == order.numbers and again.mentions(0) == order.mentions(0),
               "%s: a stale order" % way)
        for one in (order, again):
            expect([number_of(one.key, 0), number_of(one.withdraw, 0), number_of(one.run),
                    number_of(one.step, 10, 0)] == [11] * 4, "%s: a stale index is taken" % way)
            one.refill()
            one.key(0)
            expect_mentions(one)
        for at, number in ((0, 600), (2, 0), (-1, 1)):
            order = an_order()
            order.numbers[at] = number
            expect(number_of(done, order) == 11, "%s: no sheet, 11 is due" % way)
            expect(number_of(pickle.dumps, order) == 11, "no sheet, and it is sent")
        order = an_order()
        order.numbers = Order(Book(OTHER_BOOK)).numbers
        expect(number_of(done, order) == 11, "%s: another N, 11 is due" % way)


def check_changed_pickles():
    """What is unpickled is tested as by from_numbers."""
    order = an_order()
    sheet = order.numbers.tobytes()
    kept = pickle.dumps(order, 4)
    expect(kept.count(sheet) == 1, "the sheet of a pickle is not found")
    for at in (0, 2, 4, 6, len(sheet) - 1):
        changed = sheet[:at] + bytes([sheet[at] ^ 0x81]) + sheet[at + 1:]
        expect(number_of(pickle.loads, kept.replace(sheet, changed)) == 11, "unpickled: no sheet")
    book, numbers, lines, index = order.__getstate__()["_held"]
    for number, held in [
            (11, (Book(OTHER_BOOK), numbers, lines, index)),
            (11, (book, numbers[1:], lines, index)),
            (11, (book, numbers, [(2, True)], index)), (11, (book, [], lines, index)),
            (11, (book, numbers, [(0, True)] * 65, index))]:
        expect(number_of(Order.__new__(Order).__setstate__, {"_held": held}) == number,
               "an order's state: %d is due" % number)
    for state in (None, {}, [], {"_held": None}, {"_held": (book, numbers, lines)},
                  {"_held": (BOOK, numbers, lines, index)}, {"_held": (book, 5, lines, index)},
                  {"_held": (book, numbers, 5, index)}, {"_held": (book, numbers, lines, None)},
                  {"_held": (book, numbers, lines, index[1:])},
                  {"_held": (book, numbers, [(0, 1)], index)}):
        expect(raises(TypeError, Order.__new__(Order).__setstate__, state), "a state of no order")
    wrong = Order.__new__(Order)
    wrong.__setstate__({"_held": (book, numbers, lines, array("H", [3] * INDEX_LONGEST))})
    expect(number_of(wrong.run) == 11, "a changed index is taken")


def moments_amid_a_run(sheets):
    """An order that another thread runs is copied meanwhile: of which moments, by the sheets of one that runs alone."""
    order = Order(Book(LONG))

    def run():
        for _ in range(40):
            order.run(2000)
    thread = threading.Thread(target=run)
    thread.start()
    seen = set()
    while thread.is_alive() or not seen:
        for way, done in WAYS[:2] + WAYS[-1:]:
            again = done(order)
            at = sheets.index(again.numbers.tobytes())
            seen.add(at)
            expect_mentions(again)
    thread.join()
    expect(order.numbers.tobytes() == sheets[-1], "a run beside copies differs")
    return seen


def check_amid_a_run():
    """An order that is pickled and copied while other threads run it is of one moment."""
    alone = Order(Book(LONG))
    sheets = [alone.numbers.tobytes()]
    for _ in range(40):
        alone.run(2000)
        sheets.append(alone.numbers.tobytes())
    # On a busy machine a run may be over before a second moment is seen: then once more.
    for _ in range(30):
        seen = moments_amid_a_run(sheets)
        if len(seen) > 1:
            break
    expect(len(seen) > 1, "copies of one moment alone")


# What other processes do.

def keyed(order, option, barred=False):
    """The order after, or the refusal."""
    order.key(option, barred)
    return order


def looked_up(book, code):
    return book.lookup(code)


def ran(order):
    return order.run(), order


def expect_tasks(way, submit):
    """Orders, books and refusals there and back; submit(work, *arguments) gives what gives the
    answer."""
    order = an_order()
    alone = copy.deepcopy(order)
    waiting = [submit(keyed, order, "P", True), submit(ran, order),
               submit(looked_up, order.book, "P")]
    refused = [(7, submit(keyed, order, "Q")), (7, submit(looked_up, order.book, b"")),
               (14, submit(keyed, Order.from_numbers(order.book, order.numbers, [(0, True)] * 64),
                           0))]
    alone.key("P", True)
    expect(parts(waiting[0]()) == parts(alone), "%s: a keyed order" % way)
    again = an_order()
    due = again.run()
    answer, done = waiting[1]()
    expect(answer == due and parts(done) == parts(again), "%s: an order that was run" % way)
    expect(waiting[2]() == 0, "%s: a code looked up" % way)
    for number, answer in refused:
        expect(number_of(answer) == number, "%s: refusal %d is due" % (way, number))
    expect(parts(order) == parts(an_order()), "%s: the order here is changed" % way)


def check_pools():
    """Both pools of the standard library, by both ways to begin a process."""
    for start in ("fork", "spawn"):
        context = multiprocessing.get_context(start)
        with context.Pool(1) as pool:
            def submit_to_pool(work, *arguments):
                waiting = pool.apply_async(work, arguments)
                return lambda: waiting.get(SECONDS)
            expect_tasks("Pool, %s" % start, submit_to_pool)
        with ProcessPoolExecutor(1, mp_context=context) as executor:
            def submit(work, *arguments):
                waiting = executor.submit(work, *arguments)
                return lambda: waiting.result(SECONDS)
            expect_tasks("ProcessPoolExecutor, %s" % start, submit)


def forked(work, order):
    """Whether the work is done in a forked process, in ten seconds at most."""
    child = os.fork()
    if child == 0:
        signal.alarm(10)
        try:
            work(order)
        except BaseException as fault:
            print("forked: %r" % fault, flush=True)
            os._exit(1)
        os._exit(0)
    return os.waitpid(child, 0)[1] == 0


def check_forks():
    """An order in a forked process: while another thread runs it, while its own thread has the
    lock, and while nobody has."""
    orders, sheets = [Order(Book(LONG)) for _ in range(9)], []
    alone = copy.deepcopy(orders[0])
    for _ in range(5):
        sheets.append(alone.numbers.tobytes())
        alone.run(20_000)
    due = alone.report()

    def use(order):
        expect(order.numbers.tobytes() in sheets and order.report() == due, "forked amid a run")
        order.key(1, True)
        order.key(0)
        order.withdraw(0)
        expect(order.lines == (Line(0, False),), "forked: its lines")
        expect_mentions(order)
    expect(forked(use, orders[0]), "an order in a forked process")
    with orders[0].exclusively():
        expect(forked(lambda order: (use(order), order.exclusively().release()), orders[0]),
               "an order in a process forked by who has its lock")
    amid = 0
    for order in orders[1:]:
        thread = threading.Thread(target=lambda: [order.run(20_000) for _ in sheets[1:]])
        thread.start()
        time.sleep(0.01)
        amid += thread.is_alive()
        expect(forked(use, order), "an order in a process that was forked during a run")
        thread.join()
        expect((order.numbers.tobytes(), order.lines) == (sheets[-1], ()),
               "a fork changed the order")
    expect(amid > 0, "all runs were over before the forks")


PARTS = [check_refusals, check_books, check_orders, check_shared_books, check_stale_orders,
         check_changed_pickles, check_amid_a_run, check_pools, check_forks]


def main():
    start, faults = time.monotonic(), []
    for part in PARTS:
        try:
            part()
        except Exception as fault:  # each part is told, so that none hides another
            faults.append("processes: %s: %s%s" % (
                part.__name__, "" if isinstance(fault, Failed) else type(fault).__name__ + ": ",
                fault))
    if faults:
        raise SystemExit("\n".join(faults))
    print("processes: books, orders and refusals copied, pickled by %d protocols, in forked and "
          "spawned processes, %.1f s" % (len(PROTOCOLS), time.monotonic() - start))


if __name__ == "__main__":
    main()
