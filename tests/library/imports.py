"""The example in C that makes a book of a clause file, beside the checker: the book's length and
what its clauses and the choices force, or the refusal; and examples/README.md, which shows some of
it. From the folder above: python3 -m library.imports"""
import random

from checker import Refused, calls, clause_files, keying, sheets
from desk.cases import EXAMPLES
from driver.comparing import Difference
from library.examples import LANGUAGES, check_shown, compare, keyed

RANDOM_FILES = 200
SHOWN = ("+V6",)  # the choice of examples/README.md
VALVES = (EXAMPLES / "valves.cnf").read_bytes()
STATES = b"open", b"in", b"out"


def with_comments(length):
    """The sample, longer than any buffer of fixed length would be."""
    return b"c %s\r\n" % (b"x" * 77) * (length // 81) + VALVES


CASES = [
    (VALVES, ()), (VALVES, SHOWN), (VALVES, ("+V2",)), (VALVES, ("+V2", "+V6")), (VALVES, ("-V3",)),
    (VALVES, ("+V4", "-V6")), (VALVES, ("+V9",)), (VALVES, ("+V10",)), (VALVES, ("V1",)),
    (VALVES, ("-V9",) * 65), (VALVES.replace(b"\n", b"\r\n"), SHOWN), (VALVES.rstrip(), SHOWN),
    (with_comments(65_536), SHOWN), (with_comments(1_000_000), ("+V2",)),
    (VALVES + b"c the end\n", SHOWN), (VALVES.replace(b"cnf 9", b"cnf 8"), ()),
    (VALVES.replace(b"cnf 9 12", b"cnf 9 11"), ()), (VALVES.replace(b"cnf 9 12", b"cnf 09 12"), ()),
    (VALVES.replace(b"cnf 9 ", b"cnf 513 "), SHOWN), (VALVES.replace(b"cnf 9 ", b"cnf 7 "), ()),
    (b"p cnf 0 0", ()), (b"p cnf 0 1\n0", ()), (b"p cnf 2 2\n1 0 -1 0", ()), (b"p cnf 1 0\r", ()),
    (b"p cnf 2 3\n1 2 0 -1 2 0 -2 -2 0", ()), (b"p cnf 1 1\n1 -1 0", ()), (b"p cnf 1 1\n1 1 0", ()),
    (b"p cnf 512 4095\n" + b"0 " * 4095, ()), (b"p cnf 512 4096\n" + b"0 " * 4096, ()),
    (b"p cnf 1 1\n" + b"-1 " * 2047 + b"0", ()), (b"p cnf 1 1\n" + b"1 " * 2048 + b"0", ()),
    (b"p cnf 1 1\n" + b"-1 " * 2047 + b"0", ("-V1",)), (b"", ()), (None, ())]


def whole_order(text, words):
    book = clause_files.book_of(text)
    told = b"a book of %d bytes\n" % len(book)
    try:
        order = sheets.load([0] * sheets.LENGTH, book), [(0, False)] * keying.SLOTS, 0
        for word in words:
            order = keyed(book, *order, word)
    except Refused as refusal:
        return told + b"refused %d\n" % refusal.number
    _, contradictory, (states,) = calls.report(order[0], [9] * order[0][0])
    if contradictory:
        return told + b"contradiction\n"
    return told + b"".join(b"V%d %s\n" % (option + 1, STATES[state])
                           for option, state in enumerate(states))


def due(text, words):
    try:
        return whole_order(text or b"", words)
    except Refused as refusal:
        return b"refused %d\n" % refusal.number


def random_cases(rng):
    """Small files, one in four with a byte too few, and choices of what they may have."""
    for _ in range(RANDOM_FILES):
        options, count = rng.randint(1, 6), rng.randint(0, 9)
        rows = [b" ".join(b"%d" % (rng.choice((-1, 1)) * rng.randint(1, options))
                          for _ in range(rng.choice((1, 2, 2, 3)))) + b" 0" for _ in range(count)]
        text = b"\n".join([b"p cnf %d %d" % (options, count), *rows])
        if rng.random() < 0.25:
            at = rng.randrange(len(text))
            text = text[:at] + text[at + 1:]
        yield text, ["%sV%d" % (rng.choice("+-"), rng.randint(1, options))
                     for _ in range(rng.choice((0, 0, 1, 2)))]


def due_cases():
    seen = set()
    for text, words in [*CASES, *random_cases(random.Random(7))]:
        told = due(text, words)
        seen |= set(told.replace(b"\n", b" ").split(b" "))
        yield text, words, told
    for word in (b"in", b"out", b"open", b"contradiction", b"7", b"8", b"14", b"15", b"16"):
        if word not in seen:
            raise Difference("no clause file whose answer has %r was tried" % word)


def main():
    try:
        count = compare("import", due_cases())
        check_shown("../target/import valves.cnf %s" % " ".join(SHOWN), due(VALVES, SHOWN))
    except Difference as difference:
        raise SystemExit("imports: %s" % difference)
    print("imports: %d clause files with choices, %s and the checker print the same, and so does "
          "examples/README.md" % (count, ", ".join(LANGUAGES)))


if __name__ == "__main__":
    main()
