"""What changed from one book to another: options and rules added, removed and moved.

Rules are compared by the codes that they name and not by the options' numbers, so that a new option in front changes no rule.
"""
from bisect import bisect_left
from typing import NamedTuple

from . import books
from .books import MARKS
from .checking import counted
from .showing import code_text, rule_text


class Changes(NamedTuple):
    """Places in the old row, in the new row, or both."""
    removed: list
    added: list
    moved: list  # as few as can be said to have moved: the others kept their order


def changes(old, new):
    """Between two rows of keys. Where a key stands more than once, the first stands for the first, and so on."""
    places = {key: place for place, key in enumerate(numbered(new))}
    common, removed = [], []
    for place, key in enumerate(numbered(old)):
        if key in places:
            common.append((place, places.pop(key)))
        else:
            removed.append(place)
    kept = longest_rising([after for _, after in common])
    return Changes(removed, sorted(places.values()), [pair for at, pair in enumerate(common) if at not in kept])


def numbered(keys):
    """Each key with how often it stood before."""
    seen, found = {}, []
    for key in keys:
        seen[key] = seen.get(key, -1) + 1
        found.append((key, seen[key]))
    return found


def longest_rising(numbers):
    """The places of a longest rising part of a row of different numbers."""
    ends, places, before = [], [], []  # ends: the least number that a rising part of each length can end in
    for place, number in enumerate(numbers):
        length = bisect_left(ends, number)
        before.append(places[length - 1] if length else None)
        ends[length:length + 1] = [number]
        places[length:length + 1] = [place]
    found, place = set(), places[-1] if places else None
    while place is not None:
        found.add(place)
        place = before[place]
    return found


def in_any_order(body, codes, names):
    """A number for the rule that stays when the children of a group change places; `names` keeps the numbers given so far."""
    right = []  # the names of the trees to the right, the nearest last
    for number in reversed(body):
        kind, value = books.taken_apart(number)
        # a group's number says its kind, how many children it has and, of an at-least, how many it asks for
        key = (kind, codes[value]) if kind in MARKS else (number, tuple(sorted(right.pop() for _ in range(books.children_of(number)))))
        right.append(names.setdefault(key, len(names)))
    return right.pop()


def report(old, new):
    """The lines that tell the changes."""
    options = changes(old.codes, new.codes)
    rules = [rule_text(body, old.codes) for body in old.bodies], [rule_text(body, new.codes) for body in new.bodies]
    found = changes(*rules)
    turned, found = apart_from_turned(old, new, found)
    if not any(options) and not any(found) and not turned:
        return ["no difference: the same options and rules in the same order"]
    lines = part("option", options, [code_text(code) for code in old.codes], [code_text(code) for code in new.codes])
    lines += part("rule", found, *rules)
    for before, after in turned:
        lines.append("= rule %d, now rule %d: the same parts in another order: %s" % (before, after, rules[1][after]))
    if not (options.removed or options.added or found.removed or found.added):
        lines.append("only the order moved: both books have the same options and rules")
    return lines


def apart_from_turned(old, new, found):
    """Pairs of a removed and an added rule that differ in the order inside alone, and the changes without them."""
    names, waiting, turned = {}, {}, []
    for place in found.removed:
        waiting.setdefault(in_any_order(old.bodies[place], old.codes, names), []).append(place)
    for place in found.added:
        alike = waiting.get(in_any_order(new.bodies[place], new.codes, names))
        if alike:
            turned.append((alike.pop(0), place))
    before, after = {pair[0] for pair in turned}, {pair[1] for pair in turned}
    return turned, Changes([place for place in found.removed if place not in before],
                           [place for place in found.added if place not in after], found.moved)


def part(what, found, old, new):
    """The lines for the options or for the rules."""
    lines = ["%s: %d added, %d removed, %d moved" % (
        counted(len(new), what), len(found.added), len(found.removed), len(found.moved))]
    lines += ["- %s %d: %s" % (what, place, old[place]) for place in found.removed]
    lines += ["+ %s %d: %s" % (what, place, new[place]) for place in found.added]
    lines += ["> %s %d, now %s %d: %s" % (what, before, what, after, new[after]) for before, after in found.moved]
    return lines
