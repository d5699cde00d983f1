"""Every sheet of a few nodes, at-leasts among them, and random ones with wider at-leasts; every
step from them, step after step: what a step keeps, what is left where no rule applies, and how long
a stretch can be."""
from collections import Counter
from functools import lru_cache
from itertools import product
from typing import NamedTuple

from . import meaning, mentions, rules, sheets
from .demands import cube_of
from .expecting import counted, expect
from .models import models
from .random_trees import random_at_least, random_mark
from .trees import (AT_LEAST, CONJUNCTION, DISJUNCTION, FALSE, ROOT, TRUE, Tree, are_members,
                    at_least, negative, numbers, positive, preorder, weight)

OPTIONS, NODES = 2, 5  # of all sheets: so many options, and so many nodes at most, the root counted
RANDOM_OPTIONS, RANDOM_NODES, RANDOM = 4, 8, 120


def leaves(options):
    marks = [mark(option) for option in range(options) for mark in (positive, negative)]
    return [*marks, TRUE, FALSE]


@lru_cache(maxsize=None)
def trees_of(nodes, options):
    """Every tree of so many nodes; of at-leasts whose k exceeds the members, one."""
    if nodes == 1:
        return [*leaves(options), at_least(0), at_least(1)]
    found = [Tree(kind, row) for row in rows_of(nodes - 1, options)
             for kind in (CONJUNCTION, DISJUNCTION)]
    return found + [at_least(asked, *members)
                    for members in product(leaves(options), repeat=nodes - 1)
                    if are_members(members) for asked in range(nodes + 1)]


@lru_cache(maxsize=None)
def rows_of(nodes, options):
    """Every row of trees that have so many nodes together."""
    if nodes == 0:
        return [()]
    return [(tree, *row) for first in range(1, nodes + 1) for tree in trees_of(first, options)
            for row in rows_of(nodes - first, options)]


def marks_of(nodes):
    """How often the node numbers name each option."""
    return Counter(node % 4096 for node in nodes if node // 4096 in (1, 2))


class Kept(NamedTuple):
    """What no step may change."""
    facts: frozenset  # None where contradictory
    models: frozenset


class Every:
    """Sheets as tuples of their used nodes, each looked at once, with the most steps from it."""

    def __init__(self, options):
        self.options, self.kept, self.longest = options, {}, {}
        self.steps = self.settled_at_leasts = 0

    def root(self, nodes):
        root = sheets.root_in(nodes, self.options)
        expect(root is not None, "a step leaves no sheet")
        return root

    def keeps(self, nodes, root):
        if nodes not in self.kept:
            facts = meaning.meaning(root)
            self.kept[nodes] = Kept(None if facts is None else frozenset(facts),
                                    frozenset(models(self.options, root)))
        return self.kept[nodes]

    def most_steps(self, nodes):
        """The most steps that a stretch from this sheet can do, each step of them checked."""
        if nodes not in self.longest:
            root, most = self.root(nodes), 0
            expect(mentions.fresh_count(self.options, root)
                   == counted([self.options, len(nodes), *nodes]), "two counts of a sheet")
            listed = list(rules.redexes(root))
            for step in listed:
                most = max(most, 1 + self.most_steps(self.after(nodes, root, step)))
            if not listed:
                self.expect_settled(nodes, root)
            expect(most <= cube_of(root), "a stretch of more steps than the cube")
            self.longest[nodes] = most
        return self.longest[nodes]

    def after(self, nodes, root, step):
        """The sheet after a step, which keeps "every node before the place", the report, what the
        sheet would report if more were keyed, and, at most, the weight. Document 02: "no step
        raises any option's count"."""
        self.steps += 1
        new = tuple(rules.rewritten(root, *step))
        changed = self.root(new)
        expect(new[:step[1]] == nodes[:step[1]], "a step changed nodes before its place")
        expect(weight(changed) <= weight(root), "a step raised the weight")
        expect(marks_of(new) <= marks_of(nodes), "a step raised an option's count")
        expect(self.keeps(new, changed) == self.keeps(nodes, root), "a step changed the meaning")
        return new

    def expect_settled(self, nodes, root):
        """Where no rule applies: the lone contradiction exactly if it is contradictory, else the
        bare marks are the facts; and an at-least has k from 2 to below its members, all marks."""
        facts = self.keeps(nodes, root).facts
        lone = [child.number() for child in root.children] == [FALSE.number()]
        expect(lone == (facts is None), "settled: contradictory, or not")
        bare = {child.literal for child in root.children if child.literal}
        expect(lone or bare == facts, "settled: other bare marks than the facts")
        for node in preorder(root):
            if node.kind == AT_LEAST:
                self.settled_at_leasts += 1
                expect(2 <= node.asked < len(node.children), "settled: k and its members")
                expect(all(member.literal for member in node.children), "settled: a constant")


def random_sheet(rng):
    """An at-least or two, bare or in a group, beside marks that are theirs too."""
    def rule():
        wide = random_at_least(rng, RANDOM_OPTIONS)
        beside = random_mark(rng, RANDOM_OPTIONS)
        kind = rng.choice((CONJUNCTION, DISJUNCTION))
        return rng.choice((wide, Tree(kind, (wide, beside)), Tree(kind, (beside, wide)), beside))
    while True:
        nodes = tuple(numbers(Tree(ROOT, [rule() for _ in range(rng.randint(1, 3))])))
        if len(nodes) <= RANDOM_NODES:
            return nodes


def all_of_them(rng):
    """(how many sheets, how many steps from them and from what they left)"""
    small, wide = Every(OPTIONS), Every(RANDOM_OPTIONS)
    for nodes in range(NODES):
        for row in rows_of(nodes, OPTIONS):
            small.most_steps(tuple(numbers(Tree(ROOT, row))))
    for _ in range(RANDOM):
        wide.most_steps(random_sheet(rng))
    expect(wide.settled_at_leasts > 0, "no settled sheet has an at-least")
    return len(small.longest) + len(wide.longest), small.steps + wide.steps
