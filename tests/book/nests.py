"""Nests as deep as books allow, through every verb; and texts whose nest makes no node at all."""
from bookfile import books, checking, comparing, drawing, notation, showing

from book import check
from book.round_trips import round_trip

DEEPEST = 4093  # groups around one mark: weight 1 + 4,093 + 2


def nest(depth):
    return b"option A\nrule " + b"".join((b"any(", b"all(")[at % 2] for at in range(depth)) + b"A" + b")" * depth + b"\n"


def run(accepted):
    for depth in (1500, DEEPEST):
        book = notation.book_of(nest(depth))
        check(list(map(len, book.bodies)) == [depth + 1], "a nest of", depth, "has nodes", len(book.bodies[0]))
        data = books.to_bytes(book)
        round_trip(data, accepted)
        other = checking.read(books.to_bytes(notation.book_of(nest(depth - 1))))
        check("1 added, 1 removed" in comparing.report(book, other)[1], "a deep rule's change is not told")
        check(drawing.picture(book).count("<rect ") == depth + 2, "a deep rule is not drawn whole")
        negated = notation.book_of(nest(depth).replace(b"rule ", b"rule not "))
        check(books.taken_apart(negated.bodies[0][-1]) == (books.BARRED, 0), "`not` did not reach the mark of a deep nest")
    for text in (b"option A\nrule " + b"(" * 50000 + b"A" + b")" * 50000, b"option A\nrule " + b"not " * 50000 + b"A",
                 b"option A\nrule " + b"(A -> " * 1360 + b"A" + b")" * 1360 + b" \n"):
        round_trip(books.to_bytes(notation.book_of(text)), accepted)
    check(showing.text_of(books.Book([], [])) == "", "the empty book's text is not empty")
    return "nests of up to %d" % DEEPEST
