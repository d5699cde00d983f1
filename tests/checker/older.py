"""The book check of a program from before kind 6: document 01's, whole and on its own.

"An older program meets such a book with refusal 5" (document 02, U4). Such a program stays as it
is, so nothing here follows a later request, and nothing but the reading of 16-bit numbers is
shared with `books`. Its answers are held to those that such a program gave (older_answers.txt).
"""
import re
from itertools import accumulate

from .books import words


def check(data):
    """0, or the refusal that is due: "the book as 1 (under 8), 2, 1, 3, 4, 5, 6"."""
    data = bytes(data)
    if len(data) < 8:
        return 1
    n, m, t, zero = words(data[:8])
    if n > 512 or m > 4095 or t > 4095 or zero != 0:
        return 2
    contents, bodies = 8 + 13 * n, 8 + 13 * n + 4 * m
    if len(data) != bodies + 2 * t:
        return 1
    if not are_codes([data[at:at + 13] for at in range(8, contents, 13)]):
        return 3
    # "its first node is not the sum of the counts before it, or its count is 0", "node counts that
    # do not add up to T"
    pairs, nodes = words(data[contents:bodies]), words(data[bodies:])
    firsts, counts = pairs[::2], pairs[1::2]
    if 0 in counts or [*accumulate(counts, initial=0)] != [*firsts, t]:
        return 4
    if not all(is_body(nodes[first:first + count], n) for first, count in zip(firsts, counts)):
        return 5
    marks = sum(node // 4096 in (1, 2) for node in nodes)
    return 6 if 1 + t + marks > 4096 else 0


def are_codes(codes):
    """ "A code has 1 to 13 characters from A-Z, a-z, 0-9 and hyphen, then zero bytes. All 13 bytes
    are compared." "3 a malformed code, or one equal to an earlier." """
    return (all(re.fullmatch(rb"[A-Za-z0-9-]{1,13}\x00*", code) for code in codes)
            and len(set(codes)) == len(codes))


def is_body(nodes, options):
    """ "A body is one tree, a node before its children, without kind 5", and of kinds 1 to 4, all
    that there are. Read from the first node on: until the last a tree is still to come, then none.
    """
    to_come = 1
    for node in nodes:
        kind, value = divmod(node, 4096)
        if to_come == 0 or kind not in (1, 2, 3, 4) or (kind < 3 and value >= options):
            return False
        to_come += -1 if kind < 3 else value - 1
    return to_come == 0
