"""The checker's kind 6 against document 02: its clauses against what "at least k of these" says in
plain words, the second way to the meaning against the first, and which members are refused."""
from itertools import product

from . import calls, counting, meaning, sheets
from .books import build
from .cases import CODES, NOT_P, NOT_R, P, Q, R
from .demands import cube
from .expecting import BLANK, done, expect, loaded
from .random_trees import random_at_least, random_mark
from .trees import (CONJUNCTION, DISJUNCTION, FALSE, ROOT, TRUE, Tree, are_members, at_least,
                    negative, numbers, positive, weight)

WIDE = [b"C%d" % number for number in range(63)]


def holds(literal, world):
    return world[literal.option] == literal.positive


def clauses_of_every_small_one():
    """In each world, in which every option is in or out, all clauses hold exactly if at least k
    members do; and no clause holds a mark that is no member's."""
    for members in rows_of_members(4):
        marks = {member.literal for member in members if member.literal}
        for asked in range(7):
            all_clauses = meaning.clauses(at_least(asked, *members))
            expect(all(clause <= marks for clause in all_clauses), "a mark of no member")
            for world in product((False, True), repeat=3):
                true = sum(holds(member.literal, world) if member.literal else member.is_true()
                           for member in members)
                satisfied = all(any(holds(literal, world) for literal in clause)
                                for clause in all_clauses)
                expect(satisfied == (true >= asked), ("clauses", asked, world))


def rows_of_members(most):
    for count in range(most + 1):
        for members in product((P, NOT_P, Q, NOT_R, TRUE, FALSE), repeat=count):
            if are_members(members):
                yield members


def counted_and_built(rng, trees=1500):
    """Both ways to the meaning of random trees that are full of at-leasts."""
    contradictory = 0
    for _ in range(trees):
        rules = [random_tree(rng, 4, 2) for _ in range(rng.randint(1, 4))]
        tree = Tree(ROOT, rules + [random_mark(rng, 4) for _ in range(rng.randint(0, 3))])
        expect(not meaning.is_too_much(tree), "a tree to build clauses of")
        due = meaning.meaning(tree)
        expect(counting.meaning(tree) == due, "counted: another meaning than that of the clauses")
        contradictory += due is None
    expect(0 < contradictory < trees, "trees of one kind alone")


def random_tree(rng, options, depth):
    way = rng.random()
    if depth == 0 or way < 0.6:
        return random_mark(rng, options) if way < 0.2 else random_at_least(rng, options)
    return Tree(rng.choice((CONJUNCTION, DISJUNCTION)),
                [random_tree(rng, options, depth - 1) for _ in range(rng.randint(0, 3))])


def as_wide_as_can_be():
    """32 of 63, whose clauses nobody can build: 31 that fail force the rest, a 32nd contradicts.
    63 of 63, 1 of 63 and 63 of none, which have few."""
    everyone = [positive(at) if at % 2 else negative(at) for at in range(63)]
    against = [negative(at) if at % 2 else positive(at) for at in range(63)]
    kept = [1 if at % 2 else 2 for at in range(63)]  # the report if all of them hold
    lost = [3 - mark for mark in kept]  # and if none does
    expect(meaning.is_too_much(at_least(32, *everyone)), "32 of 63: too many clauses")
    for asked, failing, due in ((32, 30, lost[:30] + [0] * 33), (32, 31, lost[:31] + kept[31:]),
                                (32, 32, [3] * 63), (63, 0, kept), (63, 1, [3] * 63),
                                (1, 61, lost[:61] + [0, 0]), (1, 62, lost[:62] + kept[62:])):
        given = reported([at_least(asked, *everyone), *against[:failing]])
        expect(given == due, "%d of 63, %d of them failing" % (asked, failing))
    expect(reported([at_least(63)]) == [3] * 63, "63 of none")
    expect(numbers(at_least(63, *everyone))[0] == 28671, "the largest number of kind 6")


def reported(rules):
    sheet = done(calls.load(BLANK, build(WIDE, rules)))[1]
    return done(calls.report(sheet, [9] * 63))[1]


# Whether the nodes after a root or a contents pair are one well-formed tree, of two options.
SIX, PLAIN, BARRED, ANY = 6 * 4096, 4096, 8192, 16384
T, F = 12288, 16384
BODIES = [
    (True, [SIX]), (True, [SIX + 1]), (True, [SIX + 63]),
    (True, [SIX + 64 + 1, PLAIN]), (True, [SIX + 128 + 1, PLAIN, BARRED + 1]),
    (True, [SIX + 128 + 63, PLAIN + 1, PLAIN]), (True, [SIX + 128, PLAIN + 1, PLAIN]),
    (True, [SIX + 64 * 5 + 2, T, F, PLAIN, T, BARRED + 1]), (True, [SIX + 64 * 63 + 63] + [T] * 63),
    (True, [ANY + 2, SIX + 64, F, SIX + 64, T]),  # each a child, neither a member
    (False, [SIX + 128 + 1, PLAIN, PLAIN]),  # an option twice
    (False, [SIX + 128 + 1, PLAIN, BARRED]),  # plain beside barred
    (False, [SIX + 192 + 1, BARRED + 1, T, BARRED + 1]),
    (False, [SIX + 64 + 1, PLAIN + 2]),  # no such option
    (False, [SIX + 64 + 1, ANY + 1, PLAIN]),  # a group with children as a member
    (False, [SIX + 64 + 1, T + 1, T]), (False, [SIX + 128 + 1, PLAIN, ANY + 1, PLAIN + 1]),
    (False, [SIX + 64 + 1, SIX]), (False, [SIX + 64, SIX + 64 + 1, PLAIN]),  # at-leasts as members
    (False, [SIX + 64 + 1, 5 * 4096]), (False, [SIX + 64 + 1, 7 * 4096]),  # no kind of a book
    (False, [SIX + 64 + 1, 0]),
    (False, [SIX + 64 + 1]), (False, [SIX + 128 + 1, PLAIN]),  # fewer than announced
    (False, [SIX + 64 * 63 + 1] + [T] * 62), (False, [SIX + 1, PLAIN]),  # more than announced
    (False, [SIX + 64 * 63 + 1] + [T] * 64),
]


def members_refused():
    """5 in a book, 11 in a sheet, each where members are malformed and nowhere else."""
    for good, body in BODIES:
        data = bytearray(build(CODES[:2], [TRUE] * len(body)))
        head = 8 + 2 * 13
        data[2:4] = bytes([1, 0])
        data[head:] = b"".join(number.to_bytes(2, "little") for number in [0, len(body), *body])
        expect(calls.check(data) == (0 if good else 5, 0, ()), ("a body", body))
        nodes = [5 * 4096 + 1] + body
        sheet = [2, len(nodes)] + nodes + [0] * (sheets.LENGTH - 2 - len(nodes))
        expect(calls.index(sheet, [7] * 4)[0] == (0 if good else 11), ("a sheet", body))
        if good:
            expect(done(calls.load(BLANK, data))[1] == sheet, ("a body loaded", body))


def one_node_of_the_weight():
    """Only for the step bound is an at-least counted twice."""
    for count in (1, 4095):
        sheet = loaded(0, [at_least(0)] * count)
        expect(weight(sheets.root_of(sheet)) == 1 + count, "at-leasts of none: their weight")
        expect(cube(sheet) == (1 + 2 * count) ** 3, "at-leasts of none: the step bound")
    sheet = loaded(3, [R, at_least(2, P, Q, R)])
    expect(cube(sheet) == (6 + 1 + 2 * 4) ** 3, "an at-least and four marks: the step bound")
    full = [at_least(2, P, Q, R)] * 585  # 1 + 585 x 7 = 4,096
    for more, due in (([], 0), ([at_least(0)], 6)):
        expect(calls.check(build(CODES[:3], full + more))[0] == due, "weight 4,096, or 4,097")


def all_of_them(rng):
    clauses_of_every_small_one()
    counted_and_built(rng)
    as_wide_as_can_be()
    members_refused()
    one_node_of_the_weight()
