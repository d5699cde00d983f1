"""What a comparison calls added, removed and moved, on random rows, by plainer means."""
import random

from bookfile.comparing import changes

from book import check

ROWS, SEED = 2000, 21


def common_length(old, new):
    """The length of a longest row that is part of both, by the table of all prefixes."""
    table = [0] * (len(new) + 1)
    for key in old:
        before = table[:]
        for place, other in enumerate(new, 1):
            table[place] = before[place - 1] + 1 if key == other else max(before[place], table[place - 1])
    return table[-1]


def run(accepted):
    rng = random.Random(SEED)
    for _ in range(ROWS):
        keys = "ABCDEFGHIJ"[:rng.randint(1, 10)]
        old, new = rng.sample(keys, rng.randint(0, len(keys))), rng.sample(keys, rng.randint(0, len(keys)))
        found = changes(old, new)
        check([old[place] for place in found.removed] == [key for key in old if key not in new], "removed:", old, new)
        check([new[place] for place in found.added] == [key for key in new if key not in old], "added:", old, new)
        check(all(old[before] == new[after] for before, after in found.moved), "moved:", old, new)
        shared = len(set(old) & set(new))
        check(len(found.moved) == shared - common_length(old, new), "more were moved than need be:", old, new)
        # with keys that stand more than once, every place of both rows is still accounted for
        old, new = [rng.choice(keys) for _ in range(6)], [rng.choice(keys) for _ in range(7)]
        found = changes(old, new)
        check(sorted(old + [new[place] for place in found.added]) == sorted(new + [old[place] for place in found.removed]), old, new)
    return "%d comparisons" % ROWS
