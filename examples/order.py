#!/usr/bin/env python3
"""order.py [BOOK] < CHOICES: what the desk program prints, by the Python module.

    cd examples && python3 order.py book.bin < choices.txt

Choices are lines: + or - and a code, 64 of them at most. The last may lack its line end.
"""
import sys
from pathlib import Path

sys.path.insert(0, str(Path(__file__).resolve().parent.parent / "python"))
from nibdrumlin import LINES_MOST, Book, LibraryMissing, Order, Refused  # noqa: E402

BUDGET = 100_000
NO_SUCH_CODE, LIST_FULL = 7, 14


def key(order: Order, line: bytes) -> None:
    """Keys the choice of one line. A line of another form is refused as an unknown code is; one for
    which the list has no slot left is refused whatever it holds."""
    if len(order.lines) == LINES_MOST:
        raise Refused("key", LIST_FULL)
    if line[:1] not in (b"+", b"-"):
        raise Refused("key", NO_SUCH_CODE)
    order.key(line[1:], barred=line[:1] == b"-")


def answer(book: bytes, choices: bytes) -> str:
    """The lines to print, for an order that is not refused."""
    order = Order(Book(book))
    lines = choices.split(b"\n")
    if not lines[-1]:  # nothing after the last line end is no line
        lines.pop()
    for line in lines:
        key(order, line)
    ran, report = order.run(BUDGET), order.report()
    if report.contradictory:
        return "contradiction %d\n" % ran.steps
    text = "%s %d\n" % ("settled" if ran.settled else "stopped", ran.steps)
    for code, state in report.states.items():
        text += "%s %s\n" % (code, state.name.lower())
    return text


def contents(path: str) -> bytes:
    """A book that cannot be read counts as empty."""
    try:
        return Path(path).read_bytes()
    except OSError:
        return b""


def main() -> None:
    book = contents(sys.argv[1] if len(sys.argv) > 1 else "book.bin")
    try:
        print(answer(book, sys.stdin.buffer.read()), end="")
    except Refused as refusal:
        print("refused %d" % refusal.number)
    except LibraryMissing as missing:
        raise SystemExit(str(missing))


if __name__ == "__main__":
    main()
