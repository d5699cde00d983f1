"""Formulas spelled out as nodes: all-of, any-of, at-least and marks alone."""
from itertools import combinations

from . import books
from .books import ALL_OF, ANY_OF, BARRED, MOST_MEMBERS, MOST_NODES, PLAIN
from .checking import in_thousands
from .grammar import Formula
from .words import NotationMistake


def nodes_of(formula, numbers, start):
    """The nodes of a rule's formula, a node before its children; `numbers` gives the option of each code.

    `not` goes inwards, down to the marks: a group becomes its opposite, of the parts negated. Every formula that waits gives at
    least one node, so that a text which spells out as millions is refused before they are made."""
    found, waiting = [], [(formula, False)]
    while waiting:
        formula, negated = waiting.pop()
        if formula.form == "code":
            found.append(books.node(BARRED if negated else PLAIN, numbers[formula.word.text]))
        elif formula.form == "not":
            waiting.append((formula.parts[0], not negated))
        else:
            check_room(len(found) + len(waiting) + fewest_nodes(formula), start)
            group = opposite(spelled(formula)) if negated else spelled(formula)
            found.append(head_of(group))
            waiting.extend((part, negated) for part in reversed(group.parts))
    return found


def head_of(group):
    """The node of an all-of, any-of or at-least."""
    if group.form == "at_least":
        return books.at_least(group.count, len(group.parts))
    return books.node(ALL_OF if group.form == "all" else ANY_OF, len(group.parts))


def opposite(group):
    """The group of the negated parts that holds where this one, of the parts, does not.

    Not at least k of m hold where at least m - k + 1 do not. Of more than m that is true, as at least 0 is; not at least 0 is false,
    which at least 64 of 63 would say if a book had room for it."""
    if group.form != "at_least":
        return group._replace(form="any" if group.form == "all" else "all")
    count = max(len(group.parts) + 1 - group.count, 0)
    return group._replace(count=count) if count <= MOST_MEMBERS else Formula("any", (), group.word)


def fewest_nodes(formula):
    """At least so many nodes come of a formula that is no code and no `not`."""
    count = len(formula.parts)
    return 1 + (count * (count - 1) // 2 if formula.form in ("one_of", "at_most_one") else count)


def check_room(nodes, start):
    if nodes > MOST_NODES:
        raise NotationMistake(start, "this rule, spelled out in all-of, any-of and at-least, has more than %s nodes, all that a book has "
                              "room for" % in_thousands(MOST_NODES))


def spelled(formula):
    """The same as all-of, any-of or at-least; its parts may still have to be spelled out."""
    def group(form, *parts, count=0):
        return Formula(form, parts, formula.word, count)

    def negated(part):
        return group("not", part)

    def pairs():
        return [group("any", negated(one), negated(other)) for one, other in combinations(formula.parts, 2)]

    if formula.form == "->":
        left, right = formula.parts
        return group("any", negated(left), right)
    if formula.form == "<->":
        left, right = formula.parts
        return group("all", group("any", negated(left), right), group("any", left, negated(right)))
    if formula.form == "at_most_one":
        return group("all", *pairs())
    if formula.form == "one_of":
        return group("all", group("any", *formula.parts), *pairs())
    if formula.form == "exactly":
        # of more than there are the first part is false already, and the second asks for none
        barred = max(len(formula.parts) - formula.count, 0)
        return group("all", group("at_least", *formula.parts, count=formula.count),
                     group("at_least", *map(negated, formula.parts), count=barred))
    return formula
