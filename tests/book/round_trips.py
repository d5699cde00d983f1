"""Books shown and made again: the same bytes, accepted by the proved check."""
import random

from bookfile import books, checking, notation, showing
from book import check
from book.making import random_book

BOOKS, SEED = 5000, 20


def round_trip(data, accepted):
    check(accepted(data) == 0, "the library refuses", data.hex())
    text = showing.text_of(checking.read(data))
    again = books.to_bytes(notation.book_of(text.encode()))
    check(again == data, "shown and made again it is another book:", data.hex(), text)
    check(max(map(len, text.split("\n"))) <= showing.WIDTH, "a line is too long to read:", text)
    return text


def run(accepted):
    rng, longest, met = random.Random(SEED), 0, set()
    for _ in range(BOOKS):
        book = random_book(rng)
        longest = max(longest, len(round_trip(books.to_bytes(book), accepted)))
        met |= {number for body in book.bodies for number in body}
    check(longest > 4000, "no book of some size was met")
    for asked, members in ((0, 0), (1, 0), (1, 1), (2, 4), (5, 4), (0, 63), (63, 63)):
        check(books.at_least(asked, members) in met, "no at-least of", asked, "of", members, "was met")
    full = books.Book(["P"], [[books.node(books.ANY_OF, 2047)] + [books.node(books.PLAIN, 0)] * 2047])
    many = books.Book(["C%d" % number for number in range(512)], [[books.node(books.ALL_OF, 0)]] * 4095)
    wide = books.Book(["ABCDEFGHIJK%02d" % number for number in range(63)],
                      [[books.at_least(32, 63)] + [books.node(books.BARRED, number) for number in range(63)]])
    for book in (books.Book([], []), full, many, wide):
        round_trip(books.to_bytes(book), accepted)
    return "%d books shown and made again" % (BOOKS + 4)
