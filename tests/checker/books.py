"""The book file: its check (refusals 1 to 6), code lookup (7), and building one."""
import re
from typing import NamedTuple

from . import Refused
from .trees import ROOT, Tree, forest, numbers, weight


class Book(NamedTuple):
    codes: list  # their characters alone, as bytes
    rules: list  # one tree for each body


def words(data):
    """ "16-bit numbers, low byte first." """
    return [data[at] + 256 * data[at + 1] for at in range(0, len(data), 2)]


def parse(data):
    """The Book in these bytes, or Refused in the order "1 (under 8), 2, 1, 3, 4, 5, 6"."""
    data = bytes(data)
    if len(data) < 8:
        raise Refused(1)
    # "Head, four numbers: N options (0 to 512), M rules (0 to 4,095), T body nodes (0 to 4,095),
    # zero." "The length is exactly 8 + 13N + 4M + 2T."
    n, m, t, zero = words(data[:8])
    if n > 512 or m > 4095 or t > 4095 or zero != 0:
        raise Refused(2)
    if len(data) != 8 + 13 * n + 4 * m + 2 * t:
        raise Refused(1)
    # "A code has 1 to 13 characters from A-Z, a-z, 0-9 and hyphen, then zero bytes. All 13 bytes
    # are compared." "3 a malformed code, or one equal to an earlier."
    codes = [data[at:at + 13] for at in range(8, 8 + 13 * n, 13)]
    if not all(re.fullmatch(rb"[A-Za-z0-9-]+\x00*", code) for code in codes):
        raise Refused(3)
    if len(set(codes)) != n:
        raise Refused(3)
    # "4 a contents pair out of line (its first node is not the sum of the counts before it, or its
    # count is 0), or node counts that do not add up to T"
    pairs = words(data[8 + 13 * n:8 + 13 * n + 4 * m])
    nodes = words(data[8 + 13 * n + 4 * m:])
    total, bodies = 0, []
    for first, count in zip(pairs[::2], pairs[1::2]):
        if first != total or count == 0:
            raise Refused(4)
        bodies.append(nodes[total:total + count])
        total += count
    if total != t:
        raise Refused(4)
    # "A body is one tree, a node before its children, without kind 5."
    forests = [forest(body, n) for body in bodies]
    if any(trees is None or len(trees) != 1 for trees in forests):
        raise Refused(5)
    rules = [trees[0] for trees in forests]
    # "6 weight over 4,096": that of the sheet it would fill, "root counted".
    if weight(Tree(ROOT, rules)) > 4096:
        raise Refused(6)
    return Book([code.rstrip(b"\0") for code in codes], rules)


def lookup(data, code):
    """The option's number. "A code to look up is given as its characters alone; one that equals no
    code of the book, an empty or over-long one too, is refused 7." The book's own come first."""
    codes = parse(data).codes
    if bytes(code) not in codes:
        raise Refused(7)
    return codes.index(bytes(code))


def build(codes, rules):
    """The book's bytes; nothing is checked, so that bad books can be built."""
    pairs, nodes = [], []
    for rule in rules:
        body = numbers(rule)
        pairs += [len(nodes), len(body)]
        nodes += body

    def low_byte_first(values):
        return b"".join(value.to_bytes(2, "little") for value in values)
    return (low_byte_first([len(codes), len(rules), len(nodes), 0])
            + b"".join(code.ljust(13, b"\0") for code in codes) + low_byte_first(pairs + nodes))
