"""The Python module's orders in threads: one that many share, and one each. All answers are those
that one thread gets which makes the same calls one after the other. Each part is made in a process
of its own, so that one that crashes is told. From the folder above: python3 -m library.threads"""
import random
import signal
import subprocess
import sys
import threading
import time

from checker import books
from checker.books import build
from checker.trees import TRUE, negative, positive
from desk.cases import EXAMPLES
from driver.desks import comb
from library.module import Failed, expect, expect_mentions, number_of

from nibdrumlin import LINES_MOST, Book, Line, Order, Refused

SAMPLE = (EXAMPLES / "book.bin").read_bytes()
LONG = comb(2200)  # a run of 100,000 steps takes a tenth of a second
CODES = [b"P", b"Q"]
SECONDS = 60


def together(*works):
    """What each gives, all begun at once, each in a thread of its own."""
    given, faults, start = [None] * len(works), [], threading.Barrier(len(works))

    def body(at, work):
        start.wait()
        try:
            given[at] = work()
        except BaseException as fault:  # told by the thread that waits
            faults.append(fault)
    threads = [threading.Thread(target=body, args=pair) for pair in enumerate(works)]
    for thread in threads:
        thread.start()
    for thread in threads:
        thread.join()
    for fault in faults:
        raise fault
    return given


def until(event, work):
    """Work for a thread: again and again until the event; how often."""
    def body():
        count = 0
        while not event.is_set() or count == 0:
            work()
            count += 1
        return count
    return body


def ending(event, work):
    """Work for a thread, after which the event comes, however it ends."""
    def body():
        try:
            return work()
        finally:
            event.set()
    return body


def state(order):
    """All that can be asked of an order."""
    return (order.lines, order.numbers.tobytes(), order.report(), order.is_complete(),
            order.write(), tuple(map(order.mentions, order.book.codes)), order.book)


def expect_whole(order):
    """An order is one that a single thread could have: kept elsewhere, it is the same, and its
    index is right."""
    again = Order.from_numbers(order.book, order.numbers, order.lines)
    expect(state(again) == state(order), "an order's parts are not of one moment")
    expect_mentions(order)


def check_keys():
    """Eight threads key 96 choices on one order: the first 64 are accepted, all others 14, and the
    order is the one on which one thread keys the lines that stand."""
    def work(order, option):
        return [number_of(order.key, option, at % 3 == 0) for at in range(12)]
    for _ in range(40):
        order, alone = Order(Book(SAMPLE)), Order(Book(SAMPLE))
        given = together(*[lambda option=option: work(order, option) for option in range(8)])
        expect({number for numbers in given for number in numbers} == {0, 14}, "not 0 or 14")
        for option, numbers in enumerate(given):
            kept = [line for line in order.lines if line.option == option]
            accepted = numbers.count(0)
            expect(numbers[:accepted] == [0] * accepted, "accepted after 14")
            expect(kept == [(option, at % 3 == 0) for at in range(accepted)], "a thread's lines")
        expect(len(order.lines) == LINES_MOST, "accepted choices were lost")
        for line in order.lines:
            alone.key(*line)
        expect(state(order)[:-1] == state(alone)[:-1], "the order differs from one thread's")


def check_steps():
    """Four threads run one order with small budgets: each house step is done once."""
    for seed in range(6):
        data = comb(300 + 12 * seed)
        order, alone, rng = Order(Book(data)), Order(Book(data)), random.Random(seed)
        due = alone.run()

        def work(budget):
            steps = 0
            while True:
                ran = order.run(budget)
                steps += ran.steps
                expect(ran.steps == budget or ran.settled, "stopped with budget left")
                if ran.settled:
                    return steps
        steps = together(*[lambda budget=rng.randint(1, 3): work(budget) for _ in range(4)])
        expect(sum(steps) == due.steps > 1000, "%s steps, due %d" % (steps, due.steps))
        expect(order.numbers == alone.numbers, "the settled sheet differs from one thread's")
        expect_whole(order)


def cycle(order, other):
    """The calls of an order that comes back to where it was, one after the other."""
    first = order.book
    return [lambda: order.key("LID-STEEL"), lambda: order.run(3), lambda: order.key(1, True),
            order.run, lambda: order.withdraw(1, other), lambda: order.step(6, 0),
            lambda: order.run(5), lambda: order.withdraw(0, first)]


def two_books():
    """Two of as many options, the second with a rule that is true before all others."""
    sample = books.parse(SAMPLE)
    return Book(SAMPLE), Book(build(sample.codes, [TRUE, *sample.rules]))


def states_of_a_cycle():
    """Each state in which one thread finds the order between two calls of the cycle."""
    first, other = two_books()
    order = Order(first)
    found = []
    for call in cycle(order, other):
        found.append(state(order))
        call()
    expect(state(order) == found[0], "the cycle does not come back")
    return order, other, found


def check_moments():
    """While one thread makes the calls of a cycle, whatever others ask is answered as of a moment
    between two of its calls."""
    order, other, found = states_of_a_cycle()
    asks = [lambda: order.lines, lambda: order.numbers.tobytes(), order.report, order.is_complete,
            order.write, lambda: tuple(map(order.mentions, order.book.codes)), lambda: order.book]
    seen = [set() for _ in asks]
    end = threading.Event()

    def change():
        for _ in range(150):
            for call in cycle(order, other):
                call()

    def ask(at):
        answer = asks[at]()
        if at == 5:  # of as many moments as it has options
            expect(all(one in {whole[at][option] for whole in found}
                       for option, one in enumerate(answer)), "mentions of no moment")
            return
        expect(any(answer == whole[at] for whole in found), "answer %d is of no moment" % at)
        seen[at].add(repr(answer))
    together(ending(end, change), *[until(end, lambda at=at: ask(at)) for at in range(len(asks))])
    expect(state(order) == found[0], "the cycle does not come back")
    expect(len(seen[0]) > 1 and len(seen[1]) > 1, "the readers have seen one moment alone")


def check_exclusively():
    """Several calls of one moment, while other threads would change the order."""
    order, other, found = states_of_a_cycle()
    end = threading.Event()

    def change():
        for _ in range(150):
            for call in cycle(order, other):
                call()

    def ask():
        with order.exclusively():
            whole = state(order)
        expect(whole in found, "a state of no moment")
    together(ending(end, change), until(end, ask), until(end, ask))


class SlowBook(Book):
    """Looking a code up in it takes so long that another thread's call comes meanwhile."""

    def lookup(self, code):
        number = super().lookup(code)
        self.is_looked_up.set()
        time.sleep(0.2)
        return number


def check_lookups():
    """A code is looked up in the book that the order has when it is keyed: a withdrawal that moves
    it to another book, where the code has another number, is made before or after all of that."""
    slow = SlowBook(build(CODES, [positive(0)]))
    slow.is_looked_up = threading.Event()
    other = Book(build(CODES[::-1], [negative(1)]))
    order = Order(slow)
    order.key(1)

    def withdraw():
        slow.is_looked_up.wait()
        order.withdraw(0, other)
        return order.lines
    _, seen = together(lambda: order.key("P"), withdraw)
    expect(seen == (Line(0, False),) == order.lines, "keyed amid a withdrawal: %s, then %s" % (
        seen, order.lines))
    expect_whole(order)


def check_written():
    """One thread writes any numbers to the sheet while others make calls, long ones among them:
    these are answered or refused, and with the right sheet back all is as it was."""
    order, rng, end = Order(Book(LONG)), random.Random(3), threading.Event()
    right, numbers, before = order.numbers[:], order.numbers, state(order)

    def spoil():
        for _ in range(150):
            numbers[:] = right
            number_of(order.refill)
            time.sleep(0.001)
            for _ in range(40):
                numbers[rng.randrange(400)] = rng.choice((0x4FFF, 0x3FFF, rng.randrange(65_536)))

    def call():
        for work in (lambda: order.run(9000), order.report, order.is_complete, order.write,
                     lambda: order.key(3), lambda: order.withdraw(0), lambda: order.step(9, 4)):
            expect(number_of(work) in (0, 7, 8, 10, 11, 12, 13, 14), "another refusal")
    together(ending(end, spoil), until(end, call), until(end, call))
    for _ in (*order.lines, None):
        numbers[:] = right
        order.refill()
        if order.lines:
            order.withdraw(0)
    expect(state(order) == before, "the right sheet is answered otherwise")


def check_each():
    """Eight threads with an order each, all of one book: as one thread's. And a call of one order
    does not wait for the run of another."""
    book, other = two_books()

    def work():
        order, found = Order(book), []
        for _ in range(10):
            for call in cycle(order, other):
                call()
                found.append(state(order))
        return found
    due = work()
    for found in together(*[work] * 8):
        expect(found == due, "an order of one's own differs")
    long, short, end = Order(Book(LONG)), Order(book), threading.Event()
    ran, count = together(ending(end, lambda: long.run(100_000)), until(end, short.report))
    expect(ran.steps == 100_000, "the long run")
    expect(count > 5, "%d calls of another order during a long run" % count)


def check_signals():
    """The handler of a signal that comes during a run makes a call of the same order: it is as if
    one had been made after the other."""
    order = Order(Book(LONG))
    signal.signal(signal.SIGALRM, lambda *_: order.key(2, True))
    signal.setitimer(signal.ITIMER_REAL, 0.01)
    given = order.run(100_000), state(order)[:-1]
    expect(order.lines == (Line(2, True),), "the handler's choice was lost")
    ways = []
    for is_keyed_first in (True, False):
        alone = Order(Book(LONG))
        if is_keyed_first:
            alone.key(2, True)
        ran = alone.run(100_000)
        if not is_keyed_first:
            alone.key(2, True)
        ways.append((ran, state(alone)[:-1]))
    expect(given in ways, "a run and the handler's choice, neither after the other")


class Interrupted(KeyboardInterrupt):
    """As Ctrl-C raises it."""


def check_interrupts():
    """A call that is interrupted is done wholly or not at all."""
    order, other, found = states_of_a_cycle()
    sheets = [whole[1] for whole in found]

    def interrupt(*_):
        raise Interrupted
    signal.signal(signal.SIGALRM, interrupt)
    rng, at, interrupted = random.Random(4), 0, 0
    calls = cycle(order, other)
    while interrupted < 300:
        try:
            signal.setitimer(signal.ITIMER_REAL, rng.uniform(2e-5, 1e-3))
            while True:
                calls[at]()
                at = (at + 1) % len(calls)
        except Interrupted:
            interrupted += 1
        signal.setitimer(signal.ITIMER_REAL, 0)
        whole = state(order)
        expect(whole in found, "an interrupted call is half done")
        expect(order.numbers.tobytes() in sheets, "numbers of no moment")
        at = found.index(whole)


PARTS = {"keys": check_keys, "steps": check_steps, "moments": check_moments,
         "exclusively": check_exclusively, "lookups": check_lookups, "written": check_written,
         "each": check_each, "signals": check_signals, "interrupts": check_interrupts}


def ended(status):
    return "ended by signal %d" % -status if status < 0 else "ended with status %d" % status


def main():
    faults, start = [], time.monotonic()
    for name in PARTS:
        try:
            ran = subprocess.run([sys.executable, "-m", "library.threads", name],
                                 capture_output=True, timeout=SECONDS)
        except subprocess.TimeoutExpired:
            faults.append("%s: no end in %d s" % (name, SECONDS))
            continue
        if ran.returncode != 0:
            faults.append("%s: %s\n%s" % (name, ended(ran.returncode), ran.stderr.decode()[-600:]))
    if faults:
        raise SystemExit("threads: " + "threads: ".join(fault.rstrip() + "\n" for fault in faults))
    print("threads: %d ways to use orders in threads, answered as one thread is, %.1f s" % (
        len(PARTS), time.monotonic() - start))


if __name__ == "__main__":
    if sys.argv[1:]:
        sys.setswitchinterval(1e-5)
        try:
            PARTS[sys.argv[1]]()
        except (Failed, Refused) as fault:
            raise SystemExit(str(fault))
    else:
        main()
