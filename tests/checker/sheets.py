"""The order sheet: what is one, loading and writing. (Keying stands in keying.)"""
from . import Refused, books
from .trees import ROOT, Tree, forest, numbers, weight

LENGTH = 4098


def root_of(sheet):
    """The root of a sheet; None where the numbers, however many, are no sheet.

    "A lent run of exactly 4,098 16-bit numbers: N (0 to 512), the count of nodes used, the nodes
    from the root on as one tree with kind 5 only at its head, then zeros. ... The weight ... is at
    most 4,096. Anything else is no sheet." """
    if len(sheet) != LENGTH:
        return None
    options, used = sheet[:2]
    if options > 512 or not 1 <= used <= LENGTH - 2:
        return None
    if sheet[2 + used:].count(0) != LENGTH - 2 - used:
        return None
    return root_in(sheet[2:2 + used], options)


def root_in(nodes, options):
    """The root that a sheet's used nodes, one or more, spell; None where they spell none."""
    kind, count = divmod(nodes[0], 4096)
    rules = forest(nodes[1:], options)
    if kind != ROOT or rules is None or len(rules) != count:
        return None
    root = Tree(ROOT, rules)
    return root if weight(root) <= 4096 else None


def is_sheet(sheet):
    return root_of(sheet) is not None


def read(sheet):
    """(N, root), or refused: "11 not a sheet"."""
    root = root_of(sheet)
    if root is None:
        raise Refused(11)
    return sheet[0], root


def fill(options, nodes):
    """The sheet with these node numbers, "then zeros"."""
    return [options, len(nodes)] + nodes + [0] * (LENGTH - 2 - len(nodes))


def load(target, data):
    """The target after. "The loader's target need only be 4,098 long, else 11; it is wholly
    filled." "The root's children are the rules, in book order." """
    if len(target) != LENGTH:
        raise Refused(11)
    book = books.parse(data)
    return fill(len(book.codes), numbers(Tree(ROOT, book.rules)))


def write(sheet, data, output):
    """(length, output after). "The writer takes the codes from a lent book, fills from the start
    and returns the length; bytes beyond stay." """
    options, root = read(sheet)
    book = books.parse(data)
    if len(book.codes) != options:  # "a book whose N is not the sheet's"
        raise Refused(11)
    written = list(books.build(book.codes, root.children))
    if len(output) < len(written):  # "12 output shorter than needed"
        raise Refused(12)
    return len(written), written + list(output[len(written):])
