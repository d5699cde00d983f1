"""The check of an older program beside the present one: "An older program meets such a book with
refusal 5" (document 02, U4). A book with a node of kind 6 is 5 there unless 1 to 4 is due, and any
other book gets the present answer. And the older program's answers themselves, as it gave them."""
import random
import re
from collections import Counter
from pathlib import Path

from . import calls, older
from .books import build, words
from .cases import CODES
from .expecting import expect
from .random_trees import random_at_least, random_mark
from .trees import CONJUNCTION, DISJUNCTION, FALSE, TRUE, Tree, at_least, disjunction, positive

ANSWERS = Path(__file__).with_name("older_answers.txt")


def random_tree(rng, options, depth, share):
    """A tree in which a share of the leaves and of the groups are at-leasts."""
    if rng.random() < share:
        return random_at_least(rng, options)
    if depth == 0 or rng.random() < 0.3:
        return rng.choice((TRUE, FALSE)) if options == 0 else random_mark(rng, options)
    return Tree(rng.choice((CONJUNCTION, DISJUNCTION)),
                [random_tree(rng, options, depth - 1, share) for _ in range(rng.randint(0, 3))])


def random_book(rng):
    """A small book, with at-leasts or without; in one of two cases a byte or two of it changed, or
    its length."""
    options, share = rng.randint(0, 3), rng.choice((0, 0.1, 0.4))
    rules = [random_tree(rng, options, 2, share) for _ in range(rng.randint(0, 3))]
    data = bytearray(build(CODES[:options], rules))
    for _ in range(rng.choice((0, 0, 1, 2))):
        at = rng.choice((rng.randrange(len(data)), rng.randrange(min(8, len(data)))))
        data[at] = rng.choice((0, 1, 2, 80, rng.randrange(256)))
    return bytes(data[:len(data) - rng.choice((0,) * 9 + (1,))])


def heavy_books():
    """Of the largest weight and of one more, without an at-least and with one."""
    for count in (2047, 2048):
        marks = disjunction(*[positive(0)] * count)
        yield build(CODES[:1], [marks])
        yield build(CODES[:1], [marks, at_least(0)])
    yield build(CODES[:1], [at_least(0), disjunction(*[positive(0)] * 2046)])
    for count in (4095, 4096):
        yield build([], [at_least(0)] * count)
        yield build([], [TRUE] * count)


def has_at_least(data):
    """Whether a node of its bodies is of kind 6; of bytes without bodies, whose length is not the
    one due, none is."""
    if len(data) < 8:
        return False
    n, m, t, _ = words(data[:8])
    bodies = 8 + 13 * n + 4 * m
    return len(data) == bodies + 2 * t and any(node // 4096 == 6 for node in words(data[bodies:]))


def compare(data, answer, seen):
    """What an older program answers, by what the present one does. (A request that changes which
    books are refused 1 to 4 is one that an older program does not know: it belongs here then.)"""
    now, such = calls.check(data)[0], has_at_least(data)
    due = 5 if such and now in (0, 5, 6) else now
    expect(answer == due, ("an older program", answer, "due", due, bytes(data).hex()))
    seen[such, now] += 1


def spelled(data):
    """In hexadecimal; a byte, or two, that stands there often is written once: 0030*4094."""
    pieces, at = [], 0
    for run in re.finditer(rb"(..?)\1{7,}", data, re.DOTALL):
        pieces += [data[at:run.start()].hex(),
                   "%s*%d" % (run[1].hex(), len(run[0]) // len(run[1]))]
        at = run.end()
    return " ".join(piece for piece in [*pieces, data[at:].hex()] if piece)


def read(text):
    """The bytes that are spelled so."""
    pieces = (piece.partition("*") for piece in text.split())
    return b"".join(bytes.fromhex(part) * int(often or 1) for part, _, often in pieces)


def stored():
    """(answer, book) of each line: what nd_book_check of the older build answered."""
    for line in ANSWERS.read_text(encoding="ascii").splitlines():
        if not line.startswith("#"):
            answer, _, text = line.partition(" ")
            yield int(answer), read(text)


# What must be met: a book with an at-least that is accepted now, refused for its body, for its
# weight, and by each of 1 to 4 (but for 1, since bytes of another length have no bodies); and
# without one by each answer.
TO_MEET = [(True, now) for now in (0, 2, 3, 4, 5, 6)] + [(False, now) for now in range(7)]


def all_of_them(books=8000, seed=1):
    rng, asked, given = random.Random(seed), Counter(), Counter()
    for data in [*heavy_books(), *(random_book(rng) for _ in range(books))]:
        compare(data, older.check(data), asked)
    for answer, data in stored():
        expect(older.check(data) == answer, ("the older build answered", answer, data.hex()))
        expect(read(spelled(data)) == data, data.hex())
        compare(data, answer, given)
    for seen, least in ((asked, 800), (given, 200)):
        expect(all(seen[kind] for kind in TO_MEET) and seen[True, 0] >= least, seen)
    return sum(asked.values()), sum(given.values())
