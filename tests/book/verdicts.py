"""Damaged books: the tool's refusal is the proved library's, and its words name a byte or a rule."""
import re
from itertools import chain, product

from bookfile import books, checking, notation

from book import check

TEXTS = (
    b"",
    b"option P\noption Q\nrule any(P, all(P, Q))\n",
    b"option A\noption B\noption ABCDEFGHIJKLM\nrule A\nrule any(not B, all())\nrule all(any(A, ABCDEFGHIJKLM))\n",
    b"option A\noption B\noption C\nrule at_least(2, A, not B, true, C)\nrule any(at_least(0), at_least(1, false), all(A))\n")


def verdict(data):
    """(refusal or 0, its words)"""
    try:
        checking.read(data)
    except checking.Refused as refusal:
        return refusal.number, str(refusal)
    return 0, ""


def compare(data, accepted, met):
    number, words = verdict(data)
    check(number == accepted(data), "the library answers", accepted(data), "the tool", number, words, data.hex())
    check(number == 0 or re.search(r"byte|weight", words), "no place in the words:", words)
    met.setdefault(number, set()).add(re.sub(r"[0-9,]+", "#", words))


def damaged(book):
    """Every byte changed to every value, and other lengths."""
    for place in range(len(book)):
        for value in range(256):
            yield book[:place] + bytes([value]) + book[place + 1:]
    for length in range(len(book)):
        yield book[:length]
    for more in (b"\0", b"\0" * 13, b"A" * 40):
        yield book + more


def heavy():
    """Books around the limit of the weight, and whole heads at their limits."""
    for count in range(2044, 2052):
        yield books.to_bytes(books.Book(["P"], [[books.node(books.ANY_OF, count)] + [books.node(books.BARRED, 0)] * count]))
    for count in (4093, 4094):
        yield books.to_bytes(books.Book([], [[books.node(books.ALL_OF, count)] + [books.node(books.ALL_OF, 0)] * count]))
    for head in ((512, 0, 0, 0), (513, 0, 0, 0), (0, 4095, 0, 0), (0, 4096, 0, 0), (0, 0, 4095, 0), (0, 0, 4096, 0), (0, 0, 0, 1)):
        yield books.low_byte_first(head)
        yield books.low_byte_first(head).ljust(min(books.length_due(*head[:3]), 40000), b"\0")
    # counts whose sum is T only at 16 bits
    yield books.low_byte_first([0, 2, 1, 0, 0, 65535, 65535, 2, 12288])


def at_leasts():
    """At-leasts of marks, of constants and of what they do not take: at the top of a rule and inside, of the first member and the last."""
    plain, barred = [books.node(books.PLAIN, option) for option in (0, 1, 2)], [books.node(books.BARRED, option) for option in (0, 1, 2)]
    strange = [[books.node(books.ALL_OF, 1), plain[2]], [books.at_least(0, 0)], [books.at_least(1, 1), plain[2]], [books.node(5, 0)]]
    members = [[number] for number in plain + barred + [books.TRUE, books.FALSE]] + strange
    for chosen in product(members, repeat=3):
        tree = [books.at_least(2, 3)] + chosen[0] + chosen[1] + chosen[2]
        yield [tree]
        yield [[books.node(books.ANY_OF, 2)] + tree + [plain[0]], plain[:1]]
    for count in (62, 63):
        yield [[books.at_least(63, count)] + [books.TRUE] * count]
        yield [[books.at_least(0, 63)] + [books.FALSE] * count]
        yield [[books.at_least(0, 63)] + [books.node(books.PLAIN, 0)] * count]


def run(accepted):
    count, met = 0, {}
    for text in TEXTS:
        for data in damaged(books.to_bytes(notation.book_of(text))):
            compare(data, accepted, met)
            count += 1
    for data in chain(heavy(), (books.to_bytes(books.Book(["A", "B", "C"], bodies)) for bodies in at_leasts())):
        compare(data, accepted, met)
        count += 1
    check(sorted(met) == list(range(7)), "refusals met:", sorted(met))
    return "%d damaged books, %d kinds of words" % (count, sum(map(len, met.values())))
