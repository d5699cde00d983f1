"""The desk program: what it prints for a book and its standard input."""
from . import Refused, books, keying, meaning, rules, sheets

SCREEN = 512  # document 02: "The desk's screen has one fixed buffer of 512 bytes"


def output(book, stdin):
    """The bytes printed; `book` is None where book.bin cannot be opened ("counts as empty")."""
    try:
        return whole_order(book or b"", stdin)
    except Refused as refusal:  # "prints only `refused` and its number, a space between"
        return b"refused %d\n" % refusal.number


def whole_order(book, stdin):
    sheet = sheets.load([0] * sheets.LENGTH, book)
    # Document 02: "The desk program begins with an empty list".
    lines, count = [(0, False)] * keying.SLOTS, 0
    # "choices from standard input, one a line ... the last may lack its line end"
    typed = stdin.split(b"\n")
    for text in typed if typed[-1] else typed[:-1]:
        sheet, lines, count = keyed(book, sheet, lines, count, text)
    # "It keys them in order, then makes one run with a budget of 100,000."
    return told(book, *rules.run(sheet, 100_000))


def keyed(book, sheet, lines, count, text):
    """(sheet, lines, count) after one line of the input."""
    if count == keying.SLOTS:  # "its 65th line is 14 whatever it holds"
        raise Refused(14)
    # "+ or - and a code (any other line, an empty one too, is 7"
    if text[:1] not in (b"+", b"-"):
        raise Refused(7)
    option = books.lookup(book, text[1:])
    return keying.key(sheet, lines, count, option, text[:1] == b"-")


def told(book, steps, settled, sheet):
    """ "Line 1: contradiction if reported, else settled or stopped; a space; the steps. Then,
    unless contradictory, a line for each option: code, space, in, out or open." """
    contradiction, marks = meaning.report(sheet, [0] * SCREEN)
    if contradiction:
        return b"contradiction %d\n" % steps
    text = (b"settled" if settled else b"stopped") + b" %d\n" % steps
    for code, mark in zip(books.parse(book).codes, marks):
        text += code + b" " + (b"open", b"in", b"out")[mark] + b"\n"
    return text
