"""What the notation means, by truth table: the made rule, evaluated by the checker's reading of the bytes, against plain Python."""
from itertools import product

from bookfile import books, notation
from checker.books import parse
from checker.meaning import clauses
from checker.trees import DISJUNCTION, fold

from book import check
from book.round_trips import round_trip

OPTIONS = b"option A\noption B\noption C\noption D\n"
CASES = (
    ("A", lambda a, b, c, d: a), ("not A", lambda a, b, c, d: not a), ("not not A", lambda a, b, c, d: a),
    ("not not not A", lambda a, b, c, d: not a), ("true", lambda a, b, c, d: True), ("false", lambda a, b, c, d: False),
    ("not true", lambda a, b, c, d: False), ("not false", lambda a, b, c, d: True),
    ("all(A, B, not C)", lambda a, b, c, d: a and b and not c), ("any(A, B, not C)", lambda a, b, c, d: a or b or not c),
    ("not all(A, any(B, not C))", lambda a, b, c, d: not (a and (b or not c))), ("not (A)", lambda a, b, c, d: not a),
    ("not any(A, all(B, not C), not (D))", lambda a, b, c, d: not (a or (b and not c) or not d)),
    ("A -> B", lambda a, b, c, d: not a or b), ("not A -> B", lambda a, b, c, d: a or b), ("A->not B", lambda a, b, c, d: not (a and b)),
    ("not (A -> B)", lambda a, b, c, d: a and not b), ("(A -> B) -> C", lambda a, b, c, d: not (not a or b) or c),
    ("A -> (B -> C)", lambda a, b, c, d: not a or not b or c), ("all(A, B) -> any(C, D)", lambda a, b, c, d: not (a and b) or c or d),
    ("A <-> B", lambda a, b, c, d: a == b), ("A<->not B", lambda a, b, c, d: a != b), ("not (A <-> B)", lambda a, b, c, d: a != b),
    ("(A <-> B) <-> (C <-> D)", lambda a, b, c, d: (a == b) == (c == d)),
    ("A <-> all(B, C)", lambda a, b, c, d: a == (b and c)), ("not (A <-> any(B, not C))", lambda a, b, c, d: a != (b or not c)),
    ("one_of(A, B, C, D)", lambda *row: sum(row) == 1), ("one_of(A, B)", lambda a, b, c, d: a != b), ("one_of(A)", lambda a, b, c, d: a),
    ("one_of()", lambda *row: False), ("not one_of(A, B, C)", lambda a, b, c, d: a + b + c != 1),
    ("at_most_one(A, B, C, D)", lambda *row: sum(row) <= 1), ("at_most_one(A)", lambda *row: True), ("at_most_one()", lambda *row: True),
    ("not at_most_one(A, B, C)", lambda a, b, c, d: a + b + c > 1),
    ("one_of(not A, all(B, C), A -> D)", lambda a, b, c, d: (not a) + (b and c) + (not a or d) == 1),
    ("A -> one_of(B, C)", lambda a, b, c, d: not a or b != c), ("any(A -> B, C <-> D)", lambda a, b, c, d: not a or b or c == d),
    ("at_most_one(A <-> B, C -> D)", lambda a, b, c, d: not (a == b and (not c or d))),
    ("at_least(2, A, B, C, D)", lambda *row: sum(row) >= 2), ("at_least(0)", lambda *row: True), ("at_least(1)", lambda *row: False),
    ("at_least(3, A, not B, true, false, D)", lambda a, b, c, d: a + (not b) + 1 + d >= 3),
    ("at_least(5, A, B, C, D)", lambda *row: False), ("not at_least(5, A, B, C, D)", lambda *row: True),
    ("at_least(4, A, B, C, D)", lambda *row: all(row)), ("not at_least(4, A, B, C, D)", lambda *row: not all(row)),
    ("at_least(1, A, B)", lambda a, b, c, d: a or b), ("not at_least(1, A, B)", lambda a, b, c, d: not (a or b)),
    ("not at_least(2, A, not B, C)", lambda a, b, c, d: a + (not b) + c < 2), ("not at_least(0, A, B)", lambda *row: False),
    ("not at_least(3, A, true, not D)", lambda a, b, c, d: not (a and not d)),
    ("not not at_least(2, A, B, C)", lambda a, b, c, d: a + b + c >= 2), ("not at_least(0%s)" % (", true" * 63), lambda *row: False),
    ("D -> at_least(2, A, B, C)", lambda a, b, c, d: not d or a + b + c >= 2),
    ("at_least(2, A, B, C) -> D", lambda a, b, c, d: a + b + c < 2 or d),
    ("at_least(2, A, B, C) <-> exactly(1, A, D)", lambda a, b, c, d: (a + b + c >= 2) == (a + d == 1)),
    ("exactly(2, A, B, C, D)", lambda *row: sum(row) == 2), ("exactly(0, A, B, C)", lambda a, b, c, d: not (a or b or c)),
    ("exactly(4, A, B, C, D)", lambda *row: all(row)), ("exactly(3, A, B)", lambda *row: False), ("exactly(0)", lambda *row: True),
    ("exactly(1)", lambda *row: False), ("exactly(2, A, not B, true, false)", lambda a, b, c, d: a + (not b) == 1),
    ("not exactly(2, A, B, C, D)", lambda *row: sum(row) != 2), ("not exactly(3, A, B)", lambda *row: True),
    ("not exactly(0)", lambda *row: False), ("not exactly(63%s)" % (", true" * 63), lambda *row: False),
    ("not exactly(1, A, not B, true)", lambda a, b, c, d: a + (not b) != 0))
# each spelled out in all-of, any-of and at-least only, node for node
SPELLED = (
    ("A -> B", "any(not A, B)"), ("A <-> B", "all(any(not A, B), any(A, not B))"), ("true", "all()"), ("false", "any()"),
    ("at_most_one(A, B, C)", "all(any(not A, not B), any(not A, not C), any(not B, not C))"),
    ("one_of(A, B, C)", "all(any(A, B, C), any(not A, not B), any(not A, not C), any(not B, not C))"),
    ("one_of()", "all(any())"), ("at_most_one(A)", "all()"), ("not all(A, any(B))", "any(not A, all(not B))"), ("((A))", "A"),
    ("not at_most_one(A, B)", "any(all(A, B))"), ("not (A -> B)", "all(A, not B)"), ('"A"', "A"),
    ("any(A,\n  # a comment\n  B\n)", "any(A, B)"), ("A\n  ->\n\n B", "any(not A, B)"), ("not\nA", "not A"),
    ("exactly(1, A, not B, true)", "all(at_least(1, A, not B, true), at_least(2, not A, B, false))"),
    ("exactly(0)", "all(at_least(0), at_least(0))"), ("exactly(3, A)", "all(at_least(3, A), at_least(0, not A))"),
    ("not at_least(1, A, not B, true)", "at_least(3, not A, B, false)"), ("not at_least(3, A, B)", "at_least(0, not A, not B)"),
    ("not at_least(7, A, B)", "at_least(0, not A, not B)"), ("not at_least(0)", "at_least(1)"), ("not at_least(1)", "at_least(0)"),
    ("not exactly(1, A, B, C)", "any(at_least(3, not A, not B, not C), at_least(2, A, B, C))"),
    ("not at_least(0%s)" % (", true" * 63), "any()"), ("not at_least(1%s)" % (", true" * 63), "at_least(63%s)" % (", false" * 63)),
    ("at_least(02, (A), all(), not true, not not B)", "at_least(2, A, true, false, B)"), ("at_least(\n2\n,\nA)", "at_least(2, A)"))
# the same clauses, spelled by other nodes
ALIKE = (
    ("exactly(1, A, B, C, D)", "one_of(A, B, C, D)"), ("at_least(3, not A, not B, not C, not D)", "at_most_one(A, B, C, D)"),
    ("at_least(1, A, not B, C)", "any(A, not B, C)"), ("at_least(3, A, not B, C)", "all(A, not B, C)"), ("at_least(0, A, B)", "true"),
    ("at_least(3, A, B)", "false"), ("at_least(2, A, true, not B, false, C)", "any(A, not B, C)"),
    ("at_least(2, A, B, C, D)", "all(any(A, B, C), any(A, B, D), any(A, C, D), any(B, C, D))"))
# kind, and how many it asks for, of the nodes that the checker reads
AT_LEAST, ASKED = 6, 64


def made(formula):
    return books.to_bytes(notation.book_of(OPTIONS + b"rule " + formula.encode() + b"\n"))


def holds(tree, row):
    def value(node, parts):
        if node.literal:
            return row[node.literal.option] == node.literal.positive
        if node.kind == AT_LEAST:
            return sum(parts) >= node.number() % ASKED
        return any(parts) if node.kind == DISJUNCTION else all(parts)
    return fold(tree, value)


def run(accepted):
    for formula, due in CASES:
        data = made(formula)
        round_trip(data, accepted)
        tree = parse(data).rules[0]
        for row in product((False, True), repeat=4):
            check(holds(tree, row) == bool(due(*row)), formula, "is wrong for", row)
    for formula, spelled in SPELLED:
        check(made(formula) == made(spelled), formula, "is not spelled out as", spelled)
    for formula, other in ALIKE:
        check(clauses(parse(made(formula)).rules[0]) == clauses(parse(made(other)).rules[0]), formula, "has other clauses than", other)
    return "%d truth tables" % len(CASES)
