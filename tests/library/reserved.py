"""The example in C that asks whether an order is complete, beside the checker: with codes that no
rule names, open or keyed; and examples/README.md, which shows some of it. From the folder above:
python3 -m library.reserved"""
import random

from checker import Refused, books, calls, keying, meaning, sheets
from checker.books import build
from checker.trees import (TRUE, at_least, conjunction as all_of, disjunction as any_of, negative,
                           positive)
from desk.cases import sample_book
from driver.comparing import Difference
from library.examples import LANGUAGES, SAMPLE, check_shown, compare, keyed
from library.mentions import FAR, FULL, SEALS, random_cases

RESERVED = sample_book("reserved/book.bin", "reserved/reserved.txt")
SHOWN = ("+LID-STEEL",)  # the choice of examples/README.md
STATES = b"open", b"in", b"out"
# the rule names Q although steps would take its mark away; of R an at-least that is always true
GONE = build([b"P", b"Q", b"R"], [any_of(positive(0), all_of(positive(0), positive(1)))])
MEMBER = build([b"P", b"Q", b"R"], [positive(0), at_least(0, negative(2), TRUE)])
CASES = [
    (RESERVED, ()), (RESERVED, SHOWN), (RESERVED, ("+LID-STEEL", "+TAG-NFC")),
    (RESERVED, ("+TAG-NFC", "-CLAMP-2")), (RESERVED, ("-SEAL-WIRE",)),
    (RESERVED, ("+LID-PLAST", "-SEAL-WIRE", "-CLAMP-2")), (RESERVED, ("+LID-STEEL", "+SEAL-LABEL")),
    (RESERVED, ("+TAG-NFC", "-TAG-NFC")), (RESERVED, ("-TAG-NFC",) * 65),
    (RESERVED, ("+TAG-WIFI",)), (RESERVED, ("TAG-NFC",)), (RESERVED[:-1], SHOWN),
    (SAMPLE, ()), (SAMPLE, ("+LID-STEEL", "-BODY-C")), (SAMPLE, ("+LID-STEEL", "+BAND-868")),
    (SEALS, ("+LID-STEEL",)), (SEALS, ("+LID-STEEL", "-SEAL-RING")),
    (GONE, ()), (GONE, ("-Q",)), (GONE, ("+R",)), (MEMBER, ()), (MEMBER, ("+R",)),
    (FAR, ()), (FAR, ("+Q",)), (FULL, ("-P",)), (FULL, ("-P", "+P")),
    (bytes(8), ()), (None, ()), (b"", ("+P",))]


def whole_order(book, words):
    order = sheets.load([0] * sheets.LENGTH, book), [(0, False)] * keying.SLOTS, 0
    for word in words:
        order = keyed(book, *order, word)
    sheet, lines, count = order
    _, contradictory, (states,) = calls.report(sheet, [9] * sheet[0])
    if contradictory:
        return b"contradiction\n"
    rules, text = books.parse(book), b"incomplete\n"
    if meaning.complete(sheet, book, lines, count):
        text = b"complete\n"
    named = meaning.named(rules.rules, lines[:count])
    for option, code in enumerate(rules.codes):
        text += code + b" " + STATES[states[option]]
        text += b"\n" if option in named else b", nothing names it\n"
    return text


def due(book, words):
    try:
        return whole_order(book or b"", words)
    except Refused as refusal:
        return b"refused %d\n" % refusal.number


def due_cases():
    for book, words in [*CASES, *random_cases(random.Random(6))]:
        yield book, words, due(book, words)


def check_reserved():
    """The sample, by hand: the steel lid settles all that a rule names, and two codes are open."""
    for words, first, unnamed in (((), b"incomplete", 2), (SHOWN, b"complete", 2),
                                  (("+LID-STEEL", "+TAG-NFC"), b"complete", 1)):
        text = due(RESERVED, words)
        if (text.split(b"\n")[0], text.count(b" open, nothing names it\n")) != (first, unnamed):
            raise Difference("the reserved codes of the sample: %r is due" % text)


def main():
    try:
        check_reserved()
        count = compare("reserved", due_cases())
        check_shown("../target/reserved reserved/book.bin %s" % " ".join(SHOWN),
                    due(RESERVED, SHOWN))
    except Difference as difference:
        raise SystemExit("reserved: %s" % difference)
    print("reserved: %d books with choices, %s and the checker print the same, and so does "
          "examples/README.md" % (count, ", ".join(LANGUAGES)))


if __name__ == "__main__":
    main()
