"""A book as a picture (SVG): each rule as a tree, its top at the left, the marks one below another as the rule names them."""
from . import books
from .books import ALL_OF, AT_LEAST, BARRED, MARKS

ROW, COLUMN, MARGIN, TITLE = 26, 96, 20, 34  # sizes in pixels
BOX_HEIGHT, LETTER, PADDING, GAP = 20, 7.8, 8, 33
STYLE = """<style>
text { font: 13px monospace; fill: #222; }
.title { font-weight: bold; }
path { fill: none; stroke: #888; }
rect { stroke: #555; }
.all { fill: #dbe9f6; }
.any { fill: #fdeccc; }
.least { fill: #eadff5; }
.plain { fill: #e4f2e0; }
.barred { fill: #f8dcdc; stroke-dasharray: 4 2; }
</style>"""


def picture(book):
    """The whole SVG, rules one below another in the book's order."""
    pieces, top, width = [], MARGIN, 480
    for rule, body in enumerate(book.bodies):
        pieces.append(text(MARGIN, top + 14, "rule %d" % rule, "title"))
        drawn, right, bottom = tree(body, book.codes, top + TITLE)
        pieces += drawn
        top, width = bottom + MARGIN, max(width, right)
    if not book.bodies:
        pieces.append(text(MARGIN, top + 14, "a book without rules", "title"))
        top += TITLE
    head = '<svg xmlns="http://www.w3.org/2000/svg" width="%d" height="%d">' % (width + MARGIN, top + MARGIN)
    ground = '<rect width="100%" height="100%" style="fill:white;stroke:none"/>'
    return "\n".join([head, STYLE, ground] + pieces + ["</svg>"]) + "\n"


def tree(body, codes, top):
    """(the pieces of a rule's tree, its right edge, its lower edge)"""
    above = books.parents(body)
    faces = [face(number, codes) for number in body]
    widths = [len(label) * LETTER + 2 * PADDING for label, _ in faces]
    lefts, (rows, count) = columns(above, widths), places(above)
    middles = [top + ROW * row for row in rows]
    pieces = []
    for index, parent in enumerate(above):
        if parent >= 0:
            pieces.append(line(lefts[parent] + round(widths[parent]) - GAP, middles[parent], lefts[index], middles[index]))
    for (label, look), left, width, middle in zip(faces, lefts, widths, middles):
        pieces.append('<rect class="%s" x="%d" y="%.1f" width="%.1f" height="%d" rx="%d"/>' % (
            look, left, middle - BOX_HEIGHT / 2, width, BOX_HEIGHT, 10 if look == "any" else 2))
        pieces.append(text(left + PADDING, middle + 4.5, label))
    return pieces, max(map(sum, zip(lefts, widths))), top + ROW * count


def columns(above, widths):
    """The left edge of each box: children stand a column to the right of their group, further where its box is wide."""
    lefts = []
    for parent in above:
        lefts.append(lefts[parent] + max(COLUMN, round(widths[parent]) + GAP) if parent >= 0 else MARGIN)
    return lefts


def places(above):
    """(rows, number of rows): a node without children has a row of its own, any other stands midway between its outer children."""
    rows, count = [None] * len(above), 0
    first, last = [None] * len(above), [None] * len(above)
    for index, parent in enumerate(above):
        if parent >= 0:
            first[parent], last[parent] = index if first[parent] is None else first[parent], index
    for index in range(len(above)):
        if first[index] is None:
            rows[index], count = count, count + 1
    for index in range(len(above) - 1, -1, -1):  # children stand behind their group
        if first[index] is not None:
            rows[index] = (rows[first[index]] + rows[last[index]]) / 2
    return rows, count


def face(number, codes):
    """(what is written in the box of a node, its look)"""
    kind, value = books.taken_apart(number)
    if kind in MARKS:
        return ("not " + codes[value], "barred") if kind == BARRED else (codes[value], "plain")
    if kind == AT_LEAST:
        return "at least %d of %d" % (books.asked_of(number), books.children_of(number)), "least"
    look = "all" if kind == ALL_OF else "any"
    return (look + " of" if value else "true" if kind == ALL_OF else "false"), look


def line(left, middle, to_left, to_middle):
    """From inside a group's box, which hides its start, to the left edge of a child's."""
    bend = (left + 40 + to_left) / 2
    return '<path d="M%d %.1f C%.1f %.1f %.1f %.1f %d %.1f"/>' % (
        left, middle, bend, middle, bend, to_middle, to_left, to_middle)


def text(left, line_, words, look=None):
    """Codes hold nothing that XML would have to escape."""
    return '<text%s x="%d" y="%.1f">%s</text>' % (' class="%s"' % look if look else "", left, line_, words)
