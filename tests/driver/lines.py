"""The lines that keyings and withdrawals are lent: a new order's, those of any order, and random
ones, in order or not."""
from checker.keying import SLOTS

from .library import Count, Lines

# What a slot past the count may hold: anything, an option that no book has among it.
SPARE = [(65_535 - 257 * at, at % 3 == 0) for at in range(SLOTS)]


def lent_lines(lines=()):
    """(slots, count) of an order with these lines, 64 at most; of the slots past them no two are
    alike."""
    lines = list(lines)
    return Lines(lines + SPARE[len(lines):]), Count(len(lines))


def asked_lines(lines=()):
    """The same for a call that changes nothing: the count is a plain number."""
    lent, count = lent_lines(lines)
    return lent, count.values[0]


def random_line(rng, options):
    return rng.randrange(options), rng.random() < 0.5


def any_slots(rng, options, number):
    """Slots that nobody need have keyed: their options are the book's, just beyond it, or any."""
    several = [*range(options + 2), 511, 65_535, rng.randrange(65_536)]
    return list(zip(rng.choices(several, k=number), rng.choices((False, True), k=number)))


def random_count(rng, options):
    """Mostly a new order or a few lines, now and then as many as the list holds, or nearly."""
    way = rng.random()
    if options == 0 or way < 0.5:
        return 0
    return rng.randint(1, 4) if way < 0.985 else rng.randint(61, 64)


def random_lines(rng, options):
    """(slots, count), which nobody need have keyed. Some have a fault: another number of slots, a
    count over 64, a line that names no option."""
    count = random_count(rng, options)
    slots = [random_line(rng, options) for _ in range(count)]
    slots += any_slots(rng, options, SLOTS - count)
    fault = rng.random()
    if fault < 0.02:
        slots = (slots + slots)[:rng.choice((0, 1, count, 63, 65, 128))]
    elif fault < 0.04:
        count = rng.choice((65, 66, 128, 256 + count, 32_768 + count, 65_535))
    elif fault < 0.06 and count:
        slots[rng.randrange(count)] = rng.choice((options, options + 1, 65_535)), False
    return Lines(slots), Count(count)
