"""The meaning without building clauses, for trees that have too many of them: a 32 of 63 has 9 x
10^17. (The self-test holds it to the clauses really built, where these are few.)

Whether a node has a clause all of whose marks are in a given set follows from its children: a mark
has one if it is in the set itself; an all-of or the root, if some child has one; an any-of, if
every child has one, since a clause is taken from each; an at-least, if members - k + 1 of the
members have one, since that many are united (for k = 0 there are never so many, and if k exceeds
the members there always are). So the children are only counted.
"""
from .trees import AT_LEAST, DISJUNCTION, fold, preorder


def has_clause_within(tree, marks):
    """Whether some clause of the tree has no mark but these."""
    def has_one(node, parts):
        if node.literal:
            return node.literal in marks
        if node.kind == AT_LEAST:
            return sum(parts) >= len(parts) - node.asked + 1
        return all(parts) if node.kind == DISJUNCTION else any(parts)
    return fold(tree, has_one)


def meaning(tree):
    """The set of facts, or None when contradictory: a clause that lies within the opposites of the
    facts makes the sheet contradictory, and where none does, one that lies within these and one
    mark more makes that mark a fact."""
    marks, known = {node.literal for node in preorder(tree) if node.literal}, set()
    while True:
        failing = {literal.opposite() for literal in known}
        if has_clause_within(tree, failing):
            return None
        new = {mark for mark in marks - known if has_clause_within(tree, failing | {mark})}
        if not new:
            return known
        known |= new
