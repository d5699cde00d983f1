"""The example in C that changes its mind, beside the checker: choices keyed, lines taken back, and
what is printed before each taking back and at the end. From the folder above:
python3 -m library.changes"""
from checker import Refused, desk, keying, rules, sheets
from checker.books import build
from checker.trees import TRUE, disjunction as any_of, positive
from driver.comparing import Difference
from library.examples import BUDGET, LANGUAGES, SAMPLE, compare, keyed

# Weight 4,096: a run makes room, and what is keyed there cannot always be taken back.
FULL = build([b"P", b"Q"], [TRUE, any_of(TRUE, *[positive(0)] * 2046)])
CASES = [
    (SAMPLE, ()), (SAMPLE, ("+LID-STEEL", "-BODY-C")), (SAMPLE, ("+LID-STEEL", "+BAND-868", "1")),
    (SAMPLE, ("+LID-STEEL", "+BAND-868", "0")), (SAMPLE, ("+LID-STEEL", "-BODY-C", "0", "0")),
    (SAMPLE, ("+BODY-A", "+BODY-B", "+LID-PLAST", "1", "-BODY-B", "0", "1")),
    (SAMPLE, ("-BATT-LI", "0", "-BATT-LI", "0", "-BATT-LI")),
    (SAMPLE, ("0",)), (SAMPLE, ("+LID-STEEL", "1")), (SAMPLE, ("+LID-STEEL", "4294967296")),
    (SAMPLE, ("+LID-STEEL", "18446744073709551616")), (SAMPLE, ("+LID-STEEL", "+NONE", "0")),
    (SAMPLE, ("+BODY-A",) * 64), (SAMPLE, ("+BODY-A",) * 65), (SAMPLE, ("+BODY-A",) * 64 + ("+X",)),
    (SAMPLE, ("+BODY-A",) * 64 + ("63", "-BODY-B", "-BODY-C")),
    (FULL, ("+P",)), (SAMPLE[:-1], ("+LID-STEEL", "0"))]


class Order:
    """What the example keeps, by the checker, and what it has printed."""

    def __init__(self, book):
        self.book, self.sheet = book, sheets.load([0] * sheets.LENGTH, book)
        self.lines, self.count, self.text = [(0, False)] * keying.SLOTS, 0, b""

    def tell(self):
        steps, settled, self.sheet = rules.run(self.sheet, BUDGET)
        self.text += desk.told(self.book, steps, settled, self.sheet)

    def do(self, word):
        order = self.sheet, self.lines, self.count
        if word.isdigit():
            self.tell()
            k = int(word)
            self.sheet, self.lines, self.count = keying.withdraw(
                self.sheet, self.book, self.lines, self.count, k)
            self.text += b"line %d taken back, %d left\n" % (k, self.count)
        else:
            self.sheet, self.lines, self.count = keyed(self.book, *order, word)


def due(book, words):
    try:
        order = Order(book)
    except Refused as refusal:
        return b"refused %d\n" % refusal.number
    try:
        for word in words:
            order.do(word)
    except Refused as refusal:
        return order.text + b"refused %d\n" % refusal.number
    order.tell()
    return order.text


def main():
    try:
        count = compare("change", ((book, words, due(book, words)) for book, words in CASES))
    except Difference as difference:
        raise SystemExit("changes: %s" % difference)
    print("changes: %d orders with lines taken back, %s and the checker print the same" % (
        count, ", ".join(LANGUAGES)))


if __name__ == "__main__":
    main()
