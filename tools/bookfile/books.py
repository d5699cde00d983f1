"""The book file of documents 01 and 02: its limits, its nodes, and a book as bytes."""
from typing import NamedTuple

MOST_OPTIONS, MOST_RULES, MOST_NODES, MOST_WEIGHT = 512, 4095, 4095, 4096
MOST_LINES = 64  # of an order, one for each choice
HEAD_BYTES, CODE_BYTES, PAIR_BYTES, NODE_BYTES = 8, 13, 4, 2

PLAIN, BARRED, ALL_OF, ANY_OF, AT_LEAST = 1, 2, 3, 4, 6  # 5 is the root of a sheet
MARKS, GROUPS = (PLAIN, BARRED), (ALL_OF, ANY_OF, AT_LEAST)
MOST_MEMBERS = 63  # of an at-least, and the most that it can ask for
CODE_CHARACTERS = frozenset("ABCDEFGHIJKLMNOPQRSTUVWXYZabcdefghijklmnopqrstuvwxyz0123456789-")


class Book(NamedTuple):
    codes: list  # of strings, without the zero bytes that fill them up
    bodies: list  # of lists of nodes, one for each rule, a node before its children


def node(kind, value):
    return kind * 4096 + value


def taken_apart(number):
    """(kind, value) of a node."""
    return divmod(number, 4096)


TRUE, FALSE = node(ALL_OF, 0), node(ANY_OF, 0)


def at_least(asked, members):
    """The node of an at-least: so many of so many members."""
    return node(AT_LEAST, members * (MOST_MEMBERS + 1) + asked)


def asked_of(number):
    """How many of its members an at-least asks for."""
    return taken_apart(number)[1] % (MOST_MEMBERS + 1)


def children_of(number):
    """How many children a node has."""
    kind, value = taken_apart(number)
    if kind in MARKS:
        return 0
    return value // (MOST_MEMBERS + 1) if kind == AT_LEAST else value


def count_nodes(book):
    return sum(map(len, book.bodies))


def weight_of(nodes):
    """Nodes plus marks, without the root."""
    return sum(2 if taken_apart(number)[0] in MARKS else 1 for number in nodes)


def weight(book):
    """As document 01 counts it: the root is one node more."""
    return 1 + sum(map(weight_of, book.bodies))


def length_due(options, rules, nodes):
    return HEAD_BYTES + CODE_BYTES * options + PAIR_BYTES * rules + NODE_BYTES * nodes


def to_bytes(book):
    """The bytes of a book within its limits."""
    pairs, first = [], 0
    for body in book.bodies:
        pairs += [first, len(body)]
        first += len(body)
    nodes = [number for body in book.bodies for number in body]
    codes = b"".join(code.encode("ascii").ljust(CODE_BYTES, b"\0") for code in book.codes)
    return low_byte_first([len(book.codes), len(book.bodies), first, 0]) + codes + low_byte_first(pairs + nodes)


def low_byte_first(numbers):
    return b"".join(number.to_bytes(2, "little") for number in numbers)


def numbers_in(data):
    """The 16-bit numbers, low byte first, of an even number of bytes."""
    return [low + 256 * high for low, high in zip(data[::2], data[1::2])]


def parents(body):
    """For each node of a body the index of the group that it hangs from, -1 for the topmost."""
    above, waiting = [], []  # waiting: nodes with the children that they lack, as [index, how many]; the innermost last
    for index, number in enumerate(body):
        while waiting and waiting[-1][1] == 0:
            waiting.pop()
        above.append(waiting[-1][0] if waiting else -1)
        if waiting:
            waiting[-1][1] -= 1
        waiting.append([index, children_of(number)])
    return above
