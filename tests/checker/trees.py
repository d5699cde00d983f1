"""Node numbers to trees and back. Nests may be 4,000 deep, so nothing here recurses.

"A node is one number: kind x 4,096 + value. Kind 1 is an option (value its number, 0 to N - 1),
2 the same option barred, 3 all-of and 4 any-of (value the number of children, 0 to 4,095), 5 the
root." Document 02: "A new node kind 6 has value members x 64 + k, both 0 to 63".
"""
from typing import NamedTuple

POSITIVE, NEGATIVE, CONJUNCTION, DISJUNCTION, ROOT, AT_LEAST = 1, 2, 3, 4, 5, 6


class Literal(NamedTuple):
    option: int
    positive: bool

    def opposite(self):
        return Literal(self.option, not self.positive)


class Tree:
    """A node with its children, never changed once made."""
    __slots__ = ("kind", "children", "literal", "options", "asked")

    def __init__(self, kind, children=(), option=None, asked=None):
        self.kind = kind
        self.children = tuple(children)
        self.asked = asked  # kind 6: k, of so many members at least
        # "Kinds 1 and 2 are marks."
        self.literal = None if option is None else Literal(option, kind == POSITIVE)
        # every option that occurs in the tree, at any depth
        own = frozenset() if option is None else frozenset((option,))
        self.options = own.union(*(child.options for child in self.children))

    # "An empty all-of is true, an empty any-of is false."
    def is_true(self):
        return self.kind == CONJUNCTION and not self.children

    def is_false(self):
        return self.kind == DISJUNCTION and not self.children

    def with_children(self, children):
        """The same node with other children; of an at-least, k stays."""
        return Tree(self.kind, children, asked=self.asked)

    def number(self):
        count = len(self.children)
        value = (self.literal.option if self.literal else
                 64 * count + self.asked if self.kind == AT_LEAST else count)
        return self.kind * 4096 + value


def positive(option):
    return Tree(POSITIVE, option=option)


def negative(option):
    return Tree(NEGATIVE, option=option)


def conjunction(*children):
    return Tree(CONJUNCTION, children)


def disjunction(*children):
    return Tree(DISJUNCTION, children)


def at_least(asked, *members):
    return Tree(AT_LEAST, members, asked=asked)


TRUE, FALSE = conjunction(), disjunction()


def are_members(trees):
    """ "in book and sheet alike its members are true, false, or marks, the marks of distinct
    options" """
    named = [tree.literal.option for tree in trees if tree.literal]
    return (len(set(named)) == len(named)
            and all(tree.literal or tree.is_true() or tree.is_false() for tree in trees))


def preorder(tree):
    """Every subtree, "a node before its children"; its index is its place."""
    found, waiting = [], [tree]
    while waiting:
        found.append(waiting.pop())
        waiting.extend(reversed(found[-1].children))
    return found


def numbers(tree):
    return [node.number() for node in preorder(tree)]


def weight(tree):
    """ "The weight is nodes plus marks (root counted)" """
    return sum(2 if node.literal else 1 for node in preorder(tree))


def fold(tree, value_of):
    """value_of(node, values of its children), from the leaves up to the root."""
    right = []  # values of the subtrees to the right of a node, the nearest last
    for node in reversed(preorder(tree)):
        right.append(value_of(node, [right.pop() for _ in node.children]))
    return right.pop()


def forest(nodes, options):
    """The trees that the numbers `nodes` hold one after another; None if they hold no such.

    Read from the last node to the first: what stands to the right of a node is then a row of whole
    trees, and the node takes the nearest as its children."""
    right = []  # the nearest last
    for number in reversed(nodes):
        kind, value = divmod(number, 4096)
        if kind in (POSITIVE, NEGATIVE) and value < options:
            right.append(Tree(kind, option=value))
            continue
        count, asked = divmod(value, 64) if kind == AT_LEAST else (value, None)
        if kind not in (CONJUNCTION, DISJUNCTION, AT_LEAST) or count > len(right):
            return None
        children = [right.pop() for _ in range(count)]
        if kind == AT_LEAST and not are_members(children):
            return None
        right.append(Tree(kind, children, asked=asked))
    return right[::-1]
