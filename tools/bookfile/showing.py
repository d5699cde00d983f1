"""A book as text. `make` gives the same bytes again: each node is written as it is, an all-of of one part too."""
from . import books
from .books import ALL_OF, AT_LEAST, BARRED, MARKS
from .grammar import RESERVED

WIDTH = 110  # columns of a line, where a rule can be broken so short
INDENT, DEEPEST_INDENT = 2, 40  # a nest of thousands must not march off to the right


def text_of(book):
    options = ["option %s\n" % code_text(code) for code in book.codes]
    rules = ["rule %s\n" % rule_text(body, book.codes, WIDTH) for body in book.bodies]
    return "".join(options) + ("\n" if options and rules else "") + "".join(rules)


def code_text(code):
    """A code as it is, in quotes where it would be read as a word of the notation."""
    return '"%s"' % code if code in RESERVED else code


def head_text(number, codes):
    """A mark, or the word of a group with its parenthesis and, of an at-least, the number that comes first."""
    kind, value = books.taken_apart(number)
    if kind in MARKS:
        return ("not " if kind == BARRED else "") + code_text(codes[value])
    if kind == AT_LEAST:
        return "at_least(%d" % books.asked_of(number)
    return "all(" if kind == ALL_OF else "any("


def lengths(body, codes):
    """The length of each node's text with all its children, on one line."""
    found, right = [0] * len(body), []  # right: the lengths of the trees to the right, the nearest last
    for index in range(len(body) - 1, -1, -1):
        number = body[index]
        kind, children = books.taken_apart(number)[0], books.children_of(number)
        length = len(head_text(number, codes))
        if kind not in MARKS:
            separators = children if kind == AT_LEAST else max(children - 1, 0)
            length += sum(right.pop() for _ in range(children)) + 2 * separators + 1
        found[index] = length
        right.append(length)
    return found


class Writer:
    """The text of a rule while it is written; `broken` groups have each child on a line of its own."""

    def __init__(self, width):
        self.width = width  # None: all on one line
        self.pieces = []
        self.column = len("rule ")
        self.open = []  # groups that are open, as [children to come, broken]; the innermost last

    def write(self, text):
        self.pieces.append(text)
        self.column += len(text)

    def separate(self, broken):
        """The comma before a child; a new line comes with the child."""
        self.write("," if broken else ", ")

    def new_line(self):
        self.column = min(INDENT * len(self.open), DEEPEST_INDENT)
        self.pieces.append("\n" + " " * self.column)

    def start(self, length):
        """Before a node: a new line where the group around is broken. Answers whether its text, so long, has to be broken."""
        around_broken = not self.open or self.open[-1][1]
        if self.open and around_broken:
            self.new_line()
        # one column more for the comma behind it
        return around_broken and self.width is not None and self.column + length + 1 > self.width

    def finish(self):
        """After a mark or a group without children: the end of each group that is whole now, and the comma."""
        while self.open:
            self.open[-1][0] -= 1
            if self.open[-1][0] > 0:
                self.separate(self.open[-1][1])
                return
            _, broken = self.open.pop()
            if broken:
                self.new_line()
            self.write(")")


def rule_text(body, codes, width=None):
    """The formula of a rule."""
    writer = Writer(width)
    for number, length in zip(body, lengths(body, codes)):
        kind, children = books.taken_apart(number)[0], books.children_of(number)
        broken = writer.start(length)
        writer.write(head_text(number, codes))
        if children > 0:
            if kind == AT_LEAST:
                writer.separate(broken)
            writer.open.append([children, broken])
        else:
            writer.write("" if kind in MARKS else ")")
            writer.finish()
    return "".join(writer.pieces)
