"""The indexes that calls are lent: right ones, as long as needed or longer, and wrong ones."""
from checker import mentions
from checker.sheets import root_of

from .library import NoNumbers, Numbers
from .lines import lent_lines

# What stands past twice N: no count and no place, and no two alike.
PAST = [60_001 + 97 * at for at in range(40)]
# What is wrong with an index.
STALE, SHORT = "stale index", "short index"


def fresh_count(sheet):
    """The index of these numbers, where they are a sheet; else as much as one could need, of no
    count and no place."""
    root = root_of(sheet)
    if root is None:
        return [50_000 + at for at in range(1200)]
    return mentions.fresh_count(sheet[0], root)


def fault_of(sheet, index):
    """What is wrong with an index beside these numbers; None where nothing is, or where they are no
    sheet."""
    root = root_of(sheet)
    if root is None:
        return None
    if mentions.is_short(sheet[0], index):
        return SHORT
    return STALE if mentions.is_stale(sheet[0], root, index) else None


def lent_index(sheet, past=3):
    """A right index, with so many numbers past twice N."""
    return Numbers(fresh_count(sheet.values) + PAST[:past])


def beside(sheet, lines=()):
    """What keyings and withdrawals are lent beside a sheet: slots, their count, a right index."""
    return (*lent_lines(lines), lent_index(sheet))


def with_number(index, at, number):
    return index[:at] + [number % 65_536] + index[at + 1:]


def stale_indexes(sheet, other):
    """Long enough and wrong: a count or a first place, of the first option or of the last, one too
    high or too low; the count of the other sheet, of as many options; numbers in other places, and
    none of them right. Each as long as needed, and longer."""
    right = fresh_count(sheet)
    wrong = [with_number(right, at, right[at] + more)
             for at in (0, 1, len(right) - 2, len(right) - 1) for more in (1, 65_535)]
    wrong += [fresh_count(other), right[2:] + right[:2], right[1:] + right[:1], right[::-1],
              [number * 257 % 65_536 for number in right], [0] * len(right),
              [mentions.NO_PLACE] * len(right), PAST[:1] * len(right)]
    for index in wrong:
        if index != right:
            yield index
            yield index + PAST


def short_indexes(sheet):
    """Of no numbers, of N, of one too few: the first of the right ones, and others."""
    right = fresh_count(sheet)
    for length in sorted({0, len(right) // 2, len(right) - 1}):
        yield right[:length]
        yield PAST[:1] * length
        yield [0] * length


def lent_indexes(sheet, other):
    """(what is wrong with it or None, an index to lend), of every kind; the sheet has options."""
    right = fresh_count(sheet)
    for past in (0, 1, len(right), len(PAST)):
        yield None, Numbers(right + PAST[:past])
    for index in stale_indexes(sheet, other):
        yield STALE, Numbers(index)
    yield SHORT, NoNumbers()
    for index in short_indexes(sheet):
        yield SHORT, Numbers(index)


def due_with(fault, own):
    """The refusal due with such an index, by the one that is due without it. Document 02: the 11 of
    an index "is tested after 6", with the other 11s, and so before 13 and 14, which "both come
    after 11", and before 7 to 10; 12 is last."""
    if fault == STALE and not 1 <= own <= 6:
        return 11
    return 12 if fault == SHORT and own == 0 else own


def random_index(rng, sheet):
    """One that a call of a list names for itself: right, and more often wrong."""
    right, way = fresh_count(sheet), rng.random()
    if way < 0.2 or not right:
        return Numbers(right + PAST[:rng.choice((0, 1, 9))])
    if way < 0.5:
        at = rng.randrange(len(right))
        number = rng.choice((right[at] + 1, right[at] - 1, 0, 1, 65_535, rng.randrange(65_536)))
        return Numbers(with_number(right, at, number) + PAST[:rng.choice((0, 0, 1, 9))])
    if way < 0.6:
        return Numbers(rng.choices((0, 1, 2, 3, 65_535), k=rng.choice((len(right), 9, 1024))))
    length = rng.choice((0, len(right) // 2, len(right) - 1, rng.randrange(len(right))))
    if length == 0 and way < 0.8:
        return NoNumbers()
    return Numbers(right[:length] if way < 0.9 else PAST[:1] * length)
