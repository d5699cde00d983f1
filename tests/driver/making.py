"""Small random books: nested, with constants, duplicates, marks beside their opposites, and
at-leasts."""
from checker.books import build
from checker.random_trees import random_at_least, random_mark
from checker.trees import CONJUNCTION, DISJUNCTION, Tree, conjunction, disjunction

CODES = [b"P", b"Q", b"R", b"S"]


def random_tree(rng, options, depth):
    if options and (depth == 0 or rng.random() < 0.35):
        return random_mark(rng, options)
    if depth == 0:
        return rng.choice((conjunction(), disjunction()))
    if options and rng.random() < 0.07:
        return factorable(rng, options, depth)
    if rng.random() < 0.15:
        return random_at_least(rng, options)
    children = [random_tree(rng, options, depth - 1)
                for _ in range(rng.choice((0, 1, 1, 2, 2, 2, 2, 3, 3)))]
    return Tree(rng.choice((CONJUNCTION, DISJUNCTION)), children)


def factorable(rng, options, depth):
    """An any-of of all-ofs that share a mark, and perhaps a mark beside them: rule 14's."""
    shared = random_mark(rng, options)
    children = [random_mark(rng, options)] if rng.random() < 0.3 else []
    for _ in range(rng.randint(2, 3)):
        inner = [random_tree(rng, options, depth - 1) for _ in range(rng.randint(0, 2))]
        inner.insert(rng.randint(0, len(inner)), shared)
        children.insert(rng.randint(0, len(children)), conjunction(*inner))
    return disjunction(*children)


def random_rules(rng, options):
    """0 to 4 rules; a copy of one now and then."""
    rules = [random_tree(rng, options, rng.choice((0, 1, 2, 2, 3, 3)))
             for _ in range(rng.choice((0, 1, 1, 2, 2, 2, 3, 4)))]
    if rules and rng.random() < 0.1:
        rules.append(rng.choice(rules))
    return rules


def random_book(rng):
    """(its bytes, its number of options, its rules)"""
    options = rng.choice((0, 1, 2, 2, 3, 3, 4, 4))
    rules = random_rules(rng, options)
    return build(CODES[:options], rules), options, rules
