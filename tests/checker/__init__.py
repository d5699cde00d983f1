"""A clause-building reference checker for the option book and the order sheet.

Written from document 01, and document 02 where its requests have landed, alone: a second and
independent rendering of their definitions. It keeps to the wording and not to speed: clauses are
really multiplied out, so it is for toy books. The papers' words and the field's terms: mark =
literal (barred = negative), all-of = conjunction, any-of = disjunction; where a rule applies is a
redex, what it leaves there the contractum.

trees: node numbers to trees and back. books: the book file. older: its check in a program from
before kind 6. clause_files: the books that clause files become. sheets: the order sheet. mentions:
the index beside a sheet. keying: the lines of an order, keyed and taken back. meaning: clauses and
facts, reports, and what is complete. counting: the same meaning, where the clauses are too many to
build. models: what a step keeps. rules: the seventeen rules. calls: every call in one form. desk:
the desk program. cases: the papers' cases as tables. demands: the parts of demand 3. naming: the
kinds of answers to "complete". random_trees: marks and at-leasts for random books. selftest and its
parts: all of it against the papers.
"""


class Refused(Exception):
    """One refusal, `number` as in documents 01 and 02."""

    def __init__(self, number):
        super().__init__(number)
        self.number = number
