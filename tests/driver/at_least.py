"""Node kind 6, at least k of its members: every way in which members can be wrong, in books and in
sheets, with the number that is due written out; steps of rules 15 to 17 at their conditions and
beside them. (At-leasts with many members: wide.)"""
from itertools import product

from checker.books import build
from checker.cases import NOT_P, NOT_Q, P, Q, R
from checker.random_trees import random_at_least
from checker.sheets import LENGTH
from checker.trees import (FALSE, TRUE, are_members, at_least, conjunction as all_of,
                           disjunction as any_of, numbers)

from . import expect
from .indexes import beside, fresh_count, lent_index
from .library import Lent, Numbers, sheet as lent_sheet
from .lines import asked_lines

CODES = [b"P", b"Q", b"R"]
MOST = 2 ** 64 - 1


def node(kind, value):
    return kind * 4096 + value


ALL_OF, ANY_OF, ROOT, SIX = (node(kind, 0) for kind in (3, 4, 5, 6))
PLAIN, BARRED = node(1, 0), node(2, 0)
GOOD = [PLAIN, ALL_OF, BARRED + 1, ANY_OF]  # P, true, not Q, false; of R there is no mark

# What may stand for one member beside the good ones, and what may not: each a whole tree.
MEMBERS = [[PLAIN + 2], [BARRED + 2], [ALL_OF], [ANY_OF]]
NO_MEMBERS = [
    [PLAIN], [BARRED + 1],  # the same mark again
    [BARRED], [PLAIN + 1],  # plain beside barred
    [PLAIN + 3], [BARRED + 3], [PLAIN + 4095],  # no such option
    [ALL_OF + 1, PLAIN + 2], [ANY_OF + 1, PLAIN + 2], [ANY_OF + 2, ALL_OF, ANY_OF],
    [ALL_OF + 1, ALL_OF], [ANY_OF + 1, ANY_OF],  # groups with children
    [SIX], [SIX + 1], [SIX + 64 + 1, PLAIN + 2], [SIX + 64, ALL_OF],  # at-leasts
    [ROOT], [ROOT + 1, PLAIN + 2],
    *([node(kind, value)] for kind in (0, *range(7, 16)) for value in (0, 1))]
# What may stand before and after an at-least in the tree of a rule.
AROUND = [([], []), ([ALL_OF + 2, PLAIN], []), ([ANY_OF + 3, BARRED], [ALL_OF + 1, PLAIN + 1]),
          ([ALL_OF + 2, ANY_OF + 2, SIX + 64 + 1, PLAIN], [PLAIN])]


def low_byte_first(values):
    return b"".join(value.to_bytes(2, "little") for value in values)


def book_of(body):
    """A book whose one rule has these nodes."""
    codes = build(CODES, [])[8:]
    return low_byte_first([len(CODES), 1, len(body), 0]) + codes + low_byte_first(
        [0, len(body), *body])


def sheet_of(body):
    """The sheet of that book."""
    nodes = [ROOT + 1] + body
    return [len(CODES), len(nodes)] + nodes + [0] * (LENGTH - 2 - len(nodes))


def answers(comparing, body):
    """The refusals of a rule of these nodes, in a book and on a sheet."""
    book, sheet = Lent(book_of(body)), lent_sheet(sheet_of(body))
    lines = asked_lines([(2, True)])
    of_book = [comparing.call("check", book)[0],
               comparing.call("load", book, lent_sheet([7] * LENGTH))[0],
               comparing.call("complete", lent_sheet(sheet_of(GOOD[:1])), book, *lines)[0]]
    others = (("complete", (book, *lines)), ("index", (lent_index(sheet),)),
              ("run", (lent_index(sheet), 1)), ("report", (Lent([9] * len(CODES)),)),
              ("key", (*beside(sheet), 2, True)))
    of_sheet = [comparing.call(name, lent_sheet(sheet_of(body)), *arguments)[0]
                for name, arguments in others]
    return set(of_book), set(of_sheet)


def compare_body(comparing, body, good, around=AROUND):
    """5 in a book and 11 on a sheet where the nodes are malformed, and nowhere else."""
    for before, after in around:
        whole = before + body + after
        expect(answers(comparing, whole) == (({0}, {0}) if good else ({5}, {11})),
               "members of kind 6: the rule %s" % low_byte_first(whole).hex(" ", 2))


def members_good_and_wrong(comparing):
    """Each at each place among good ones, for several k."""
    for good, trees in ((True, MEMBERS), (False, NO_MEMBERS)):
        for tree in trees:
            for at in range(len(GOOD) + 1):
                members = GOOD[:at] + tree + GOOD[at:]
                compare_body(comparing, [SIX + 64 * 5 + 2 + at] + members, good)


def numbers_of_members(comparing):
    """Every number announced, with so many there and with others; every k."""
    for announced in range(64):
        for there in {0, 1, announced, abs(announced - 1), announced + 1, 63, 64}:
            compare_body(comparing, [SIX + 64 * announced + announced // 2] + [ALL_OF] * there,
                         there == announced, AROUND[1:3])
    for asked in range(64):
        compare_body(comparing, [SIX + asked], True)
        compare_body(comparing, [SIX + 64 * 3 + asked, BARRED, PLAIN + 2, ANY_OF], True)
        compare_body(comparing, [SIX + 64 * 3 + asked, BARRED, PLAIN + 2, PLAIN], False)


def small_groups():
    """Every at-least with at most two members, some with three, and other groups of the same."""
    leaves = P, NOT_Q, TRUE, FALSE
    rows = [members for count in range(3) for members in product(leaves, repeat=count)]
    for members in rows + [(P, TRUE, NOT_Q), (FALSE, P, NOT_Q), (P, R, NOT_Q)]:
        if are_members(members):
            for asked in range(len(members) + 2):
                yield at_least(asked, *members)
            yield all_of(*members)
            yield any_of(*members)


def steps_beside_the_rules(comparing):
    """Rules 14 to 18 on a group, on what is around it and on its first member, at each i and j from
    the first member to past the last."""
    for group in small_groups():
        sheet = lent_sheet([7] * LENGTH)
        comparing.done("load", Lent(build(CODES, [R, any_of(group, NOT_P)])), sheet)
        start, index = list(sheet.values), fresh_count(sheet.values)
        for rule, i, j in product(range(14, 19), range(len(group.children) + 2), range(2)):
            for place in (2, 3, 4):
                comparing.call("step", lent_sheet(start), Numbers(index), rule, place, i, j)
        comparing.done("run", sheet, Numbers(index), MOST)


def weights(comparing):
    """An at-least is one node of the weight: 585 of three marks each weigh 4,095."""
    full = [at_least(2, P, Q, R)] * 585
    for trees, check, key in ((full, 0, 8), (full[1:], 0, 0), (full + [at_least(0)], 6, None),
                              ([at_least(1)] * 4095, 0, 8), ([at_least(1)] * 4094, 0, 8),
                              ([at_least(1)] * 4093, 0, 0)):
        book, sheet = Lent(build(CODES, trees)), lent_sheet([7] * LENGTH)
        expect(comparing.call("check", book) == (check, 0), "at-leasts: the weight of a book")
        if check == 0:
            comparing.done("load", book, sheet)
            expect(comparing.call("key", sheet, *beside(sheet), 0, True) == (key, 0),
                   "at-leasts: the weight of a sheet")


def changed_numbers(comparing, rng, rounds=400):
    """A rule with an at-least, one or two of its numbers changed a little, or one more put in."""
    for _ in range(rounds):
        before, after = rng.choice(AROUND)
        body = before + numbers(random_at_least(rng, len(CODES))) + after
        for _ in range(rng.randint(1, 2)):
            at, other = rng.randrange(len(body)), rng.choice(body)
            body[at] = rng.choice((body[at] + 1, abs(body[at] - 1), body[at] + 64,
                                   abs(body[at] - 64), body[at] ^ 4096, body[at] ^ 12288, other,
                                   node(rng.randrange(16), body[at] % 4096))) % 65_536
        if rng.random() < 0.3:
            body.insert(rng.randint(0, len(body)), rng.choice((*body, ALL_OF, PLAIN + 2)))
        of_book, of_sheet = answers(comparing, body)
        expect((of_book == {0}) == (of_sheet == {0}), "good in a book, or on a sheet, alone")


ALL = (members_good_and_wrong, numbers_of_members, steps_beside_the_rules, weights)
RANDOM = (changed_numbers,)
