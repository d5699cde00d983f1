"""Document 003's claim, rerun: on random theories by its Figure 3 our report infers exactly the
literals that propagation on the multiplied-out clauses infers, and never multiplies out.

    python3 tests/claim_003.py [THEORIES]     after tools/build-library; prints the table
                                              of docs/EVIDENCE.md

Clauses are lists of sets of literals, as the document's DUP-BCP has them. A theory whose clauses do
not fit is counted and left out of the averages where they fit.
"""
import random
import sys

from driver.library import Library
from driver.theories import LIMIT, measured, random_theory


def line(name, found, times, left):
    """One method: averages of its time, of the literals inferred and of the share that is left."""
    def average(values):
        return "" if None in values else "%.3f" % (sum(values) / len(values))
    shares = [None if size is None else size / one.size for one, size in zip(found, left)]
    return "| %s | %d | %s | %s | %s |" % (
        name, len(found), average(times), average([len(one.facts) for one in found]),
        average(shares))


def table(every):
    good = [one for one in every if one.facts is not None]
    fitting = [one for one in good if one.clauses_left is not None]
    yield "| method | consistent theories | time, ms | literals inferred | size left / size |"
    yield "|---|---|---|---|---|"
    for found, which in ((good, "all"), (fitting, "where the clauses fit")):
        yield line("our report, " + which, found, [one.report_time for one in found],
                   [None for _ in found])
        yield line("our run, " + which, found, [one.run_time for one in found],
                   [one.run_left for one in found])
    yield line("multiplied out, in Python", fitting, [one.clauses_time for one in fitting],
               [one.clauses_left for one in fitting])


def main(count=1000, library=None):
    library = library or Library()
    for name, negative in (("Variables only, as Figure 3 prints it", 0.0),
                           ("Every second literal negative", 0.5)):
        every = [measured(library, *random_theory(random.Random("003/%d" % number), negative))
                 for number in range(count)]
        print("%s: %d theories, %d of them contradictory; the clauses of %d fit (%d literals at "
              "most), and on each of these the literals inferred are the same.\n" % (
                  name, count, sum(one.facts is None for one in every),
                  sum(one.clauses_left is not None for one in every), LIMIT))
        print("\n".join(table(every)) + "\n")


if __name__ == "__main__":
    main(*map(int, sys.argv[1:]))
