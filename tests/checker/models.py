"""What every step keeps, said without facts. Document 02, U11: "Give each option 0, 1 or 2, its
barred mark 2 less that; a sheet is satisfied if in each clause the marks add up to at least 2."

Sheets that the same givings satisfy report the same, and go on to do so whatever is keyed on both;
sheets with the same facts need not. So these are what a step must not change.
"""
from itertools import product

from .meaning import clauses


def value(giving, literal):
    return giving[literal.option] if literal.positive else 2 - giving[literal.option]


def models(options, tree):
    """Every giving, a number for each option, that satisfies the tree."""
    all_clauses = clauses(tree)
    return {giving for giving in product((0, 1, 2), repeat=options)
            if all(sum(value(giving, literal) for literal in clause) >= 2
                   for clause in all_clauses)}
