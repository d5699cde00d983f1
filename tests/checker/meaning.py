"""Meaning: the rules really multiplied out into clauses, then unit propagation. (Where the clauses
are too many for that: counting.)"""
from itertools import combinations
from math import comb

from . import Refused, counting
from .keying import read_order
from .sheets import read
from .trees import AT_LEAST, DISJUNCTION, Literal, fold, preorder

LIMIT = 50_000  # most unions that one more child may make, and most members in all choices of them


class TooManyClauses(Exception):
    """The book is no toy: its clauses would pass the limit."""


def clauses(tree):
    """The set of clauses, each a frozenset of literals.

    "The clauses of a mark are one clause holding it; of an all-of or root, those of all children;
    of an any-of, every union that takes one clause from each child. A clause is a set, so
    duplicates merge. So true has no clause and false has the empty one." """
    def multiplied_out(node, parts):
        if node.literal:
            return {frozenset((node.literal,))}
        if node.kind == AT_LEAST:
            return over_choices(node.asked, parts)
        return unions(parts) if node.kind == DISJUNCTION else set().union(*parts)
    return fold(tree, multiplied_out)


def unions(parts):
    """ "every union that takes one clause from each" part"""
    made = {frozenset()}
    for part in parts:
        if len(made) * len(part) > LIMIT:
            raise TooManyClauses
        made = {union | clause for union in made for clause in part}
    return made


def over_choices(asked, parts):
    """Document 02, of kind 6: "every union of members' clauses over members - k + 1 of them; none
    if k is 0; the empty clause if k exceeds the members." """
    members = len(parts)
    if asked == 0:
        return set()
    if asked > members:
        return {frozenset()}
    chosen = members - asked + 1
    if comb(members, chosen) * chosen > LIMIT:
        raise TooManyClauses
    return set().union(*map(unions, combinations(parts, chosen)))


def is_too_much(tree):
    """Whether the tree is no toy."""
    try:
        clauses(tree)
    except TooManyClauses:
        return True
    return False


def facts(all_clauses):
    """ "Facts are the least set such that a mark of a clause is a fact when the opposite of every
    other mark in that clause is a fact." """
    known, grown = set(), True
    while grown:
        grown = False
        for clause in all_clauses:
            for literal in clause - known:
                if all(other.opposite() in known for other in clause if other != literal):
                    known.add(literal)
                    grown = True
    return known


def contradictory(all_clauses, known):
    """ "The sheet is contradictory when some clause has the opposite of every mark among the
    facts." """
    return any(all(literal.opposite() in known for literal in clause) for clause in all_clauses)


def meaning(tree):
    """The set of facts, or None when contradictory."""
    try:
        all_clauses = clauses(tree)
    except TooManyClauses:
        return counting.meaning(tree)
    known = facts(all_clauses)
    return None if contradictory(all_clauses, known) else known


def marks(options, tree):
    """N bytes: "0 open, 1 in, 2 out"; None when contradictory."""
    known = meaning(tree)
    return None if known is None else [1 if Literal(option, True) in known else
                                       2 if Literal(option, False) in known else 0
                                       for option in range(options)]


def report(sheet, output):
    """(contradictory, output after). "All 3 when contradictory, which its result says too".
    Document 02: it "shall accept any output of at least N bytes, fill the first N and keep the
    rest"; 12 is "for a shorter output only"."""
    options, root = read(sheet)
    if len(output) < options:
        raise Refused(12)
    found = marks(options, root)
    filled = [3] * options if found is None else found
    return found is None, filled + list(output[options:])


def named(rules, lines):
    """ "every option that some rule of the loaded book or some choice names": by a mark, plain or
    barred; a member of an at-least is one too"""
    return {node.literal.option for rule in rules for node in preorder(rule) if node.literal} | {
        option for option, _ in lines}


def complete(sheet, data, lines, count):
    """Document 02, U6: "A sheet is complete from now on if it is not contradictory and every option
    that some rule of the loaded book or some choice names is marked 1 or 2. The mention is judged
    on the book and the choices, since a step can remove the last mark of an option; both are lent
    with the sheet, and checked by 1 to 6 and 11 as for a withdrawal, by no others." """
    options, root, book = read_order(sheet, data, lines, count)
    found = marks(options, root)
    return found is not None and all(found[option] in (1, 2)
                                     for option in named(book.rules, lines[:count]))
