"""What demand 3 reckons with, and what it says of a settled sheet and of the steps in a stretch."""
from . import meaning, rules, sheets
from .keying import with_marks
from .trees import AT_LEAST, ROOT, Tree, preorder


class Account:
    """The loaded rules, the accepted choices and the lines that stand, "reckoned from those first
    lines and the accepted calls" and never read off what is lent. The list "starts with any lent
    lines": those that nobody keyed are no choices before the first accepted withdrawal."""

    def __init__(self, trees, first_lines=()):
        self.rules, self.choices, self.standing = list(trees), [], list(first_lines)

    def key(self, line):
        """ "keying adds one at the end" """
        self.choices.append(line)
        self.standing.append(line)

    def withdraw(self, k, trees):
        """ "taking back k removes line k". "After an accepted withdrawal the accepted choices are
        the lines still standing ... and the loaded rules are those of the book lent to it." """
        del self.standing[k]
        self.rules, self.choices = list(trees), list(self.standing)

    def meaning(self):
        """ "those of every body, and for each accepted choice the clause of its mark alone": the
        forced marks, None when contradictory."""
        return meaning.meaning(with_marks(Tree(ROOT, self.rules), self.choices))


def cube(sheet):
    return cube_of(sheets.root_of(sheet))


def cube_of(root):
    """ "the cube of n + 2l, for n nodes and l option marks". Document 02: "The step bound counts
    each kind 6 node twice." """
    nodes = preorder(root)
    twice = sum(node.kind == AT_LEAST for node in nodes)
    return (len(nodes) + twice + 2 * sum(node.literal is not None for node in nodes)) ** 3


def is_settled(sheet, due):
    """ "no rule applies to the sheet; it holds the lone contradiction exactly when those rules and
    choices are contradictory, and otherwise its bare marks are exactly the forced ones." `due` is
    the set of the forced ones, None when contradictory."""
    children = sheets.root_of(sheet).children
    lone = len(children) == 1 and children[0].is_false()
    bare = {child.literal for child in children if child.literal}
    return (rules.house_step(sheet) is None and lone == (due is None)
            and (lone or bare == due))
