"""Every call in one form: (refusal or 0, value, buffers after).

Buffers are lists of numbers and are not changed in place; `buffers after` is the tuple of those
that the call may write, as it leaves them. Arguments are unsigned and of any size: none is narrowed
before it is compared. The lines of an order are a buffer of (option, barred), their count a buffer
of one number (to complete, which changes nothing, a number), and an index of mentions is None where
none is lent. Values: lookup, the option; write and import_, the length; run, 2 x count and 1 more
if settled; report, 1 if contradictory; complete, 1 if so; the others, 0.
"""
from . import Refused, books, clause_files, keying, meaning, mentions, rules, sheets


def answer(work, *lent):
    """ "A refusal is its number alone; lent memory is untouched." """
    try:
        value, *after = work()
    except Refused as refusal:
        return refusal.number, 0, tuple(None if buffer is None else list(buffer) for buffer in lent)
    return 0, int(value), tuple(after)


def check(book):
    def work():
        books.parse(book)
        return (0,)
    return answer(work)


def lookup(book, code):
    return answer(lambda: (books.lookup(book, code),))


def load(target, book):
    return answer(lambda: (0, sheets.load(target, book)), target)


def write(sheet, book, output):
    return answer(lambda: sheets.write(sheet, book, output), output)


def order(sheet, lines, count, index):
    """What a keying or a withdrawal gives, and leaves; the index is still as it was lent."""
    return 0, sheet, lines, [count], mentions.brought_up_to_date(sheet, index)


def key(sheet, lines, count, index, option, barred):
    return answer(
        lambda: order(*keying.key(sheet, lines, *count, option, barred, index), index),
        sheet, lines, count, index)


def withdraw(sheet, book, lines, count, index, k):
    return answer(lambda: order(*keying.withdraw(sheet, book, lines, *count, k, index), index),
                  sheet, lines, count, index)


def step(sheet, index, rule, place, i, j):
    def work():
        after = rules.apply(sheet, rule, place, i, j, index)
        return 0, after, mentions.brought_up_to_date(after, index)
    return answer(work, sheet, index)


def run(sheet, index, budget):
    def work():
        count, settled, after = rules.run(sheet, budget, index)
        return 2 * count + settled, after, mentions.brought_up_to_date(after, index)
    return answer(work, sheet, index)


def index(sheet, index):
    return answer(lambda: (0, mentions.fill(sheet, index)), index)


def report(sheet, output):
    return answer(lambda: meaning.report(sheet, output), output)


def complete(sheet, book, lines, count):
    return answer(lambda: (meaning.complete(sheet, book, lines, count),))


def import_(text, output):
    return answer(lambda: clause_files.import_text(text, output), output)
