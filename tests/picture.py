"""Pictures in docs/: the sheet before each step and after the last, each as a small tree, from the checker's trace.
third-case.svg is document 01's third starred case; at-least.svg is two of four options, two of which are barred.
Run from anywhere: python3 tests/picture.py"""
from pathlib import Path
from typing import NamedTuple

from checker import rules
from checker.books import build
from checker.cases import CASES, CODES
from checker.sheets import LENGTH, load, root_of
from checker.trees import CONJUNCTION, DISJUNCTION, ROOT, forest

WORDS = {7: "an all-of with one child: the child replaces it",
         8: "an any-of with one child: the child replaces it",
         10: "a bare mark: its option is a constant elsewhere",
         12: "a mark in an all-of moves up to the root",
         14: "the mark that the all-ofs share is taken out",
         15: "a false member goes; as many are asked for",
         17: "all members are asked for: an all-of"}
AT_LEAST, ASKED = 6, 64  # its kind, and the factor beside what it asks for
LABELS = {ROOT: "root", CONJUNCTION: "all of", DISJUNCTION: "any of"}
COLOURS = {ROOT: "#d9d9d9", CONJUNCTION: "#cfe3f7", DISJUNCTION: "#fbe3c0", AT_LEAST: "#eadff5"}
ACROSS, DOWN, NARROWEST, HEADING, PER_ROW = 58, 46, 310, 110, 4


class Picture(NamedTuple):
    name: str
    rules: list  # trees
    options: int
    settled: str  # what the last panel says


def pictures():
    two_of_four = [AT_LEAST * 4096 + 4 * ASKED + 2, 4096, 4097, 4098, 4099]
    return [Picture("third-case.svg", CASES[2][0], 3, "no rule applies; P is forced, Q and R are open"),
            Picture("at-least.svg", forest(two_of_four + [8192, 8193], 4), 4, "no rule applies; R and S are forced")]


def trace(picture):
    """[(root, the step to come or None)]"""
    sheet = load([0] * LENGTH, build(CODES[:picture.options], picture.rules))
    states = []
    while True:
        step = rules.house_step(sheet)
        states.append((root_of(sheet), step))
        if step is None:
            return states
        sheet = rules.apply(sheet, *step)


class Box:
    """A node with its place in the picture: x in leaves from the left, y in levels."""

    def __init__(self, node, y, boxes, leaves):
        boxes.append(self)
        self.node, self.y = node, y
        self.below = [Box(child, y + 1, boxes, leaves) for child in node.children]
        if not self.below:
            leaves.append(self)
        self.x = (sum(box.x for box in self.below) / len(self.below) if self.below
                  else len(leaves) - 1)


def label(node):
    if node.literal:
        return ("" if node.literal.positive else "not ") + "PQRS"[node.literal.option]
    if node.kind == AT_LEAST:
        return "%d of %d" % (node.number() % ASKED, len(node.children))
    if node.kind != ROOT and not node.children:
        return "true" if node.kind == CONJUNCTION else "false"
    return LABELS[node.kind]


def boxed(root):
    """(the boxes of a tree, how many leaves it has)"""
    boxes, leaves = [], []
    Box(root, 0, boxes, leaves)
    return boxes, len(leaves)


def panel_size(states):
    """(the width, the height) that every tree fits in."""
    trees = [boxed(root) for root, _ in states]
    deepest = max(box.y for boxes, _ in trees for box in boxes)
    return max([NARROWEST] + [ACROSS * leaves + 20 for _, leaves in trees]), HEADING + DOWN * deepest


def drawn(root, step, left, top, wide):
    """One tree: its lines, then its boxes. Where the step to come takes place the edge is red."""
    lines, shapes = [], []
    boxes, leaves = boxed(root)
    shift = left + (wide - ACROSS * (leaves - 1)) / 2
    for place, box in enumerate(boxes):
        x, y = shift + ACROSS * box.x, top + 74 + DOWN * box.y
        for child in box.below:
            lines.append('<line x1="%.0f" y1="%.0f" x2="%.0f" y2="%.0f" stroke="#888888"/>' % (
                x, y, shift + ACROSS * child.x, y + DOWN))
        redex = step is not None and step[1] == place
        shapes.append(
            '<rect x="%.0f" y="%.0f" width="50" height="24" rx="%d" fill="%s" stroke="%s" '
            'stroke-width="%d"/>' % (
                x - 25, y - 12, 12 if box.node.literal else 4,
                COLOURS.get(box.node.kind, "#ffffff"), "#c02020" if redex else "#555555",
                3 if redex else 1))
        shapes.append('<text x="%.0f" y="%.0f" text-anchor="middle">%s</text>' % (
            x, y + 4, label(box.node)))
        if redex:
            # above the box, on the side that the line from its parent leaves free
            left_free = any(box in other.below and other.x > box.x for other in boxes)
            shapes.append('<text x="%.0f" y="%.0f" text-anchor="%s" fill="#c02020" font-size="11">place %d</text>' % (
                x - 6 if left_free else x + 6, y - 17, "end" if left_free else "start", place))
    return lines + shapes


def title(number, step, settled, left, top):
    """What is about to happen at the red node."""
    if step is None:
        words = ["after %d steps: settled" % number, settled]
    else:
        words = ["step %d: rule %d at place %d, i %d, j %d" % (number + 1, *step), WORDS[step[0]]]
    styles = 'font-weight="bold"', 'fill="#444444"'
    return ['<text x="%d" y="%d" %s>%s</text>' % (left + 8, top + 20 + 16 * at, style, line)
            for at, (line, style) in enumerate(zip(words, styles))]


def draw(picture):
    states = trace(picture)
    wide, high = panel_size(states)
    width, height = wide * PER_ROW, high * -(-len(states) // PER_ROW)
    parts = ['<svg xmlns="http://www.w3.org/2000/svg" viewBox="0 0 %d %d" width="%d" height="%d" '
             'font-family="sans-serif" font-size="12">' % (width, height, width, height),
             '<rect width="%d" height="%d" fill="#ffffff"/>' % (width, height)]
    for number, (root, step) in enumerate(states):
        left, top = wide * (number % PER_ROW), high * (number // PER_ROW)
        parts += title(number, step, picture.settled, left, top)
        parts += drawn(root, step, left, top, wide)
    target = Path(__file__).resolve().parent.parent / "docs" / picture.name
    target.write_text("\n".join(parts + ["</svg>"]) + "\n")
    print("%s: %d trees, rules %s" % (
        target.name, len(states), [step[0] for _, step in states if step]))


def main():
    for picture in pictures():
        draw(picture)


if __name__ == "__main__":
    main()
