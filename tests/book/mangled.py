"""Texts with pieces lost, doubled and put elsewhere: each is a book that the library accepts, or a mistake inside the text."""
import random

from bookfile import books, notation
from bookfile.words import NotationMistake

from book import check

TEXTS, SEED = 3000, 22
WHOLE = b"""# a sample
option A # the first
option "not"
option B-1
rule one_of(A, "not", B-1)
rule A -> any(B-1,
              all(not A, "not"))
rule not (A <-> at_most_one(B-1, true))
rule any(at_least(2, A, not B-1, true), exactly(1, "not", B-1)) # the last
"""
PIECES = (b"(", b")", b",", b"->", b"<->", b"not", b"all(", b"any(", b"one_of(", b"A", b"B-1", b'"', b"#", b"\n", b" ", b"rule", b"option",
          b"at_least(", b"exactly(", b"2", b"64, ", b"true", b"-", b">", b"_", b"\xff", b"\0", b"\r", b"\t", b"\xc3\xa4")


def mangled(rng):
    text = WHOLE
    for _ in range(rng.randint(1, 4)):
        at = rng.randrange(len(text) + 1)
        end = min(len(text), at + rng.randint(0, 6))
        text = text[:at] + rng.choice((b"", rng.choice(PIECES), text[at:end] * 2)) + text[rng.choice((at, end)):]
    return text


def run(accepted):
    rng, made = random.Random(SEED), 0
    for _ in range(TEXTS):
        text = mangled(rng)
        try:
            data = books.to_bytes(notation.book_of(text))
        except NotationMistake as mistake:
            lines = text.decode("utf-8", "replace").split("\n")
            check(1 <= mistake.line <= len(lines) and 1 <= mistake.column <= len(lines[mistake.line - 1]),
                  "a mistake outside the text:", mistake.line, mistake.column, text)
        else:
            made += 1
            check(accepted(data) == 0, "the library refuses the book of", text)
    check(TEXTS // 20 < made < TEXTS - TEXTS // 20, "books made of mangled texts:", made)
    return "%d mangled texts" % TEXTS
