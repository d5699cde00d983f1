"""Random theories by document 003's Figure 3, larger than the checker's toy books: the report,
before a run and after it, against unit propagation on the multiplied-out clauses, where these fit;
and the index, filled before the run, after it."""
import time
from typing import NamedTuple

from checker.books import build
from checker.demands import is_settled
from checker.meaning import TooManyClauses
from checker.sheets import LENGTH, root_of
from checker.trees import (CONJUNCTION, DISJUNCTION, NEGATIVE, POSITIVE, ROOT, Literal, Tree, fold,
                           preorder, weight)

from . import expect
from .indexes import PAST, fresh_count
from .library import Lent, Numbers, sheet as lent_sheet

LIMIT = 100_000  # most literals in the clauses of a theory
CODES = [b"V%d" % number for number in range(512)]


def random_formula(rng, negative, variables, and_width, or_width, depth, p):
    """Figure 3; `negative` is the share of negative literals."""
    p = p ** depth  # "to taper off the nesting depth"
    if rng.random() < p:
        kind = rng.choice((CONJUNCTION, DISJUNCTION))
        width = rng.randint(1, and_width if kind == CONJUNCTION else or_width)
        return Tree(kind, [
            random_formula(rng, negative, variables, and_width, or_width, depth + 1, p)
            for _ in range(width)])
    kind = NEGATIVE if rng.random() < negative else POSITIVE
    return Tree(kind, option=rng.randrange(variables))


def random_theory(rng, negative):
    """(variables, formulas): the parameters over a wide range, as much as a book holds."""
    while True:
        variables = rng.choice((50, 100, 200, 400, 512))
        formulas = rng.choice((10, 25, 50, 100))
        widths, p = (rng.randint(2, 8), rng.randint(2, 8)), rng.uniform(0.6, 0.99)
        trees = [random_formula(rng, negative, variables, *widths, 1, p) for _ in range(formulas)]
        if weight(Tree(ROOT, trees)) <= 4096:
            return variables, trees


def multiplied_out(tree):
    """The list of clauses, each a set; equal clauses are not merged. None where they do not fit."""
    def clauses(node, parts):
        if node.literal:
            return [frozenset((node.literal,))]
        if node.kind != DISJUNCTION:
            return within_limit([clause for part in parts for clause in part])
        unions = [frozenset()]
        for part in parts:
            if len(unions) * len(part) > LIMIT:
                raise TooManyClauses
            unions = within_limit([union | clause for union in unions for clause in part])
        return unions
    try:
        return fold(tree, clauses)
    except TooManyClauses:
        return None


def within_limit(clauses):
    if sum(map(len, clauses)) > LIMIT:
        raise TooManyClauses
    return clauses


def propagated(clauses):
    """(facts, or None where a clause becomes false; literals left) by unit propagation in linear
    time: a count of the literals of each clause that have not failed."""
    holds, left = {}, [len(clause) for clause in clauses]
    for at, clause in enumerate(clauses):
        for literal in clause:
            holds.setdefault(literal, []).append(at)
    facts, waiting = set(), [next(iter(clause)) for clause in clauses if len(clause) == 1]
    if 0 in left:
        return None, 0
    while waiting:
        literal = waiting.pop()
        if literal in facts:
            continue
        facts.add(literal)
        for at in holds.get(literal.opposite(), ()):
            left[at] -= 1
            if left[at] == 0:
                return None, 0
            if left[at] == 1:
                waiting += [other for other in clauses[at] if other.opposite() not in facts]
    open_clauses = [count for clause, count in zip(clauses, left) if not clause & facts]
    return facts, len(facts) + sum(open_clauses)


class Measured(NamedTuple):
    """One theory; times in milliseconds, sizes in literals. None: contradictory, no run, no fit."""
    facts: set
    size: int
    report_time: float
    run_time: float
    run_left: int
    clauses_time: float
    clauses_left: int


def timed(work):
    start = time.perf_counter()
    value = work()
    return value, 1000 * (time.perf_counter() - start)


def literals_in(tree):
    return sum(node.literal is not None for node in preorder(tree))


def by_report(library, sheet, variables):
    """((facts, or None when contradictory), milliseconds)"""
    output = Lent([9] * variables)
    (refusal, contradictory), cost = timed(lambda: library.call("report", [sheet, output]))
    expect(refusal == 0, "a theory's report is refused")
    facts = {Literal(option, mark == 1) for option, mark in enumerate(output.held()) if mark}
    return None if contradictory else facts, cost


def filled_index(library, sheet):
    """An index that was filled from a sheet; it held anything before."""
    count = fresh_count(sheet.held())
    index = Numbers([7] * len(count) + PAST)
    expect(library.call("index", [sheet, index]) == (0, 0), "a theory's index is not filled")
    index.must_hold(count + PAST)
    return index


def by_run(library, sheet, facts):
    """(literals left on the settled sheet, milliseconds)"""
    index = filled_index(library, sheet)
    (refusal, value), cost = timed(lambda: library.call("run", [sheet, index, 2 ** 64 - 1]))
    expect(refusal == 0 and value % 2 == 1, "a theory's run does not settle")
    after = sheet.held()
    expect(is_settled(after, facts), "a theory settled, but not as demand 3 says")
    index.must_hold(fresh_count(after) + PAST)
    return literals_in(root_of(after)), cost


def measured(library, variables, trees):
    root, sheet = Tree(ROOT, trees), lent_sheet([7] * LENGTH)
    loaded = library.call("load", [Lent(build(CODES[:variables], trees)), sheet])
    expect(loaded == (0, 0), "a theory is not loaded")
    facts, report_time = by_report(library, sheet, variables)
    run_left = run_time = clauses_time = clauses_left = None
    if "run" in library.functions:
        run_left, run_time = by_run(library, sheet, facts)
        expect(by_report(library, sheet, variables)[0] == facts, "a run changed the report")
    clauses, making = timed(lambda: multiplied_out(root))
    if clauses is not None:
        (due, clauses_left), propagating = timed(lambda: propagated(clauses))
        expect(due == facts, "a theory's report differs from propagation on its clauses")
        clauses_time = making + propagating
    return Measured(facts, literals_in(root), report_time, run_time, run_left, clauses_time,
                    clauses_left)


def one_theory(comparing, rng):
    found = measured(comparing.library, *random_theory(rng, rng.choice((0.0, 0.1, 0.5))))
    comparing.seen["theories"] += 1
    comparing.seen["theories whose clauses fit"] += found.clauses_left is not None
    comparing.seen["theories contradictory"] += found.facts is None
