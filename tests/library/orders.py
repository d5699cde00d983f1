"""The examples in C and in Python beside the desk program and the checker's, on the sample book, odd
lines and odd books. From the folder above: python3 -m library.orders [--without-desk]"""
import os
import subprocess
import sys
import time

from checker import desk
from desk.cases import (DESK, FULL, LONG_CODE, TOP, WIDE, book_cases, line_cases, list_cases,
                        sample_cases)
from driver.comparing import Difference
from driver.desks import FOLDER, comb, printed

PROGRAMS = {"C": TOP / "target/library/order", "C++": TOP / "target/library/order-c++",
            "Python": TOP / "examples/order.py"}
SECONDS = 2


def due_cases():
    """(name, book, choices, what is due); all but the last are due by the checker."""
    more = [("full sheet: %d choices" % count, FULL, b"+P\n" * count) for count in (1, 2)]
    more += [("the longest code", WIDE, b"-" + LONG_CODE),
             ("the longest code and a character more", WIDE, b"-" + LONG_CODE + b"A\n")]
    for name, book, stdin in [*sample_cases(), *line_cases(), *list_cases(), *book_cases(), *more]:
        yield name, book, stdin, desk.output(None if book is FOLDER else book, stdin)
    # The checker would need an hour for this run; the book's meaning is seen by eye.
    yield "a run that stops", comb(2200), b"", b"stopped 100000\nP open\nQ open\nZ open\nR open\n"


def compare(programs):
    """Each program prints what is due, in the time allowed: how many cases, the slowest time."""
    count, slowest = 0, 0.0
    for name, book, stdin, due in due_cases():
        for language, program in programs.items():
            start = time.monotonic()
            given = printed(str(program), book, stdin)
            slowest = max(slowest, time.monotonic() - start)
            if given != due:
                raise Difference("%s, %s: printed %r, due %r" % (name, language, given, due))
        count += 1
    if slowest > SECONDS:
        raise Difference("a program took %.1f s, %d are allowed" % (slowest, SECONDS))
    return count, slowest


def check_missing():
    """Without a library, or with a file that is none, the example says in one line what to run."""
    for library in ("/nowhere", str(PROGRAMS["Python"])):
        ran = subprocess.run([str(PROGRAMS["Python"]), str(TOP / "examples/book.bin")], input=b"",
                             env=dict(os.environ, NIBDRUMLIN_LIBRARY=library), capture_output=True,
                             timeout=60)
        if ran.returncode != 1 or ran.stdout or ran.stderr.count(b"\n") != 1:
            raise Difference("no library: status %d, said %r" % (ran.returncode, ran.stderr))
        if b"tools/build-library" not in ran.stderr:
            raise Difference("no library: %r does not say what to run" % ran.stderr)


def main():
    programs = dict(PROGRAMS)
    if sys.argv[1:] == ["--without-desk"]:
        print("orders: THE DESK PROGRAM IS NOT COMPARED (--without-desk)")
    elif not os.path.exists(DESK):
        raise SystemExit("no %s: build it with tools/build-desk, or say --without-desk" % DESK)
    else:
        programs["desk"] = DESK
    try:
        count, slowest = compare(programs)
        check_missing()
    except Difference as difference:
        raise SystemExit("orders: %s" % difference)
    print("orders: %d orders, %s and the checker print the same, %.1f s at most" % (
        count, ", ".join(programs), slowest))


if __name__ == "__main__":
    main()
