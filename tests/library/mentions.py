"""The example in C that tells how often a sheet names each option, beside the checker: what it
prints of the sheet as keyed, of its run and of the sheet that the run leaves, each time by a fresh
count; and examples/README.md, which shows some of it. From the folder above:
python3 -m library.mentions"""
import random
import sys
from array import array

from checker import Refused, books, keying, mentions, rules, sheets
from checker.books import build
from checker.trees import TRUE, conjunction as all_of, disjunction as any_of, negative, positive
from desk.cases import EXAMPLES, TOP
from driver.comparing import Difference
from driver.desks import comb
from driver.making import CODES, random_book
from library.examples import BUDGET, LANGUAGES, SAMPLE, check_shown, compare, keyed

sys.path.insert(0, str(TOP / "python"))
from nibdrumlin import nd_run  # noqa: E402

RANDOM_BOOKS = 200
SHOWN = ("+LID-STEEL",)  # the choice of examples/README.md
SEALS = (EXAMPLES / "seals/book.bin").read_bytes()
FULL = build([b"P"], [any_of(TRUE, *[positive(0)] * 2045)])  # weight 4,093: room for one choice
MANY = build([b"C-%d" % at for at in range(512)],
             [any_of(*[positive(at) if at % 3 else negative(511 - at) for at in range(512)])])
# places over 255; the longest code; an option without a mark
FAR = build([b"ABCDEFGHIJKLM", b"-", b"Q"], [all_of(*[TRUE] * 300, positive(0)), negative(1)])
CASES = [
    (SAMPLE, ()), (SAMPLE, SHOWN), (SAMPLE, ("+LID-STEEL", "-BODY-C")), (SAMPLE, ("-BATT-LI",) * 3),
    (SAMPLE, ("+LID-STEEL", "+BAND-868")), (SEALS, ("+LID-STEEL", "+FOR-BILLING")),
    (SAMPLE, ("+BODY-A",) * 64), (SAMPLE, ("+BODY-A",) * 65), (SAMPLE, ("+BODY-A",) * 64 + ("+X",)),
    (SAMPLE, ("+LID-STEEL", "+LID-GLASS")), (SAMPLE, ("+LID-STEEL", "0")), (SAMPLE, ("",)),
    (SAMPLE, ("+",)), (SAMPLE, ("LID-STEEL",)), (SAMPLE, ("+BODY-A ",)), (SAMPLE, ("*BODY-A",)),
    (FULL, ("-P",)), (FULL, ("-P", "+P")), (FULL, ("-P", "+Q")), (MANY, ()), (MANY, ("-C-511",)),
    (FAR, ()), (FAR, ("--", "+ABCDEFGHIJKLM")), (FAR, ("+ABCDEFGHIJKLMN",)),
    (bytes(8), ()), (bytes(8), ("+P",)), (None, ()), (b"", ("+P",)), (SAMPLE[:-1], SHOWN),
    (SAMPLE + b"\0", ()), (SAMPLE + bytes(40_000), SHOWN), (b"\1\2" + bytes(40_000), ())]


def told(codes, sheet):
    """A line for each option, by a fresh count of the sheet."""
    index = mentions.fresh_count(*sheets.read(sheet))
    text = b""
    for code, count, place in zip(codes, index[::2], index[1::2]):
        text += b"%s marks %d" % (code, count)
        text += b"\n" if place == mentions.NO_PLACE else b", first at %d\n" % place
    return text


def whole_order(book, words, run):
    order = sheets.load([0] * sheets.LENGTH, book), [(0, False)] * keying.SLOTS, 0
    for word in words:
        order = keyed(book, *order, word)
    sheet, _, count = order
    codes = books.parse(book).codes
    steps, settled, after = run(sheet, BUDGET)
    return b"keyed %d\n%s%s %d\n%s" % (count, told(codes, sheet),
                                       b"settled" if settled else b"stopped", steps,
                                       told(codes, after))


def due(book, words, run=rules.run):
    try:
        return whole_order(book or b"", words, run)
    except Refused as refusal:
        return b"refused %d\n" % refusal.number


def run_by_the_library(sheet, budget):
    """(steps, settled, sheet), as of the checker's run."""
    after = array("H", sheet)
    index = array("H", mentions.fresh_count(*sheets.read(sheet)))
    ran = nd_run(after, index, budget)
    return ran.steps, ran.settled, after.tolist()


def random_cases(rng):
    for _ in range(RANDOM_BOOKS):
        book, options, _ = random_book(rng)
        codes = CODES[:options] if options and rng.random() < 0.9 else CODES
        yield book, [rng.choice("+-") + rng.choice(codes).decode()
                     for _ in range(rng.choice((0, 0, 1, 1, 2, 3, 5)))]


def due_cases():
    for book, words in [*CASES, *random_cases(random.Random(5))]:
        yield book, words, due(book, words)
    # The checker would need an hour for this run: the sheet that it leaves is the library's.
    long = due(comb(2200), (), run_by_the_library)
    if b"stopped %d\n" % BUDGET not in long:
        raise Difference("a run that is to stop: %r is due" % long)
    yield comb(2200), (), long


def main():
    try:
        count = compare("mentions", due_cases())
        check_shown("../target/mentions book.bin %s" % " ".join(SHOWN), due(SAMPLE, SHOWN))
    except Difference as difference:
        raise SystemExit("mentions: %s" % difference)
    print("mentions: %d books with choices, %s and the checker print the same, and so does "
          "examples/README.md" % (count, ", ".join(LANGUAGES)))


if __name__ == "__main__":
    main()
