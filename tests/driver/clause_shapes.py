"""Clause files of the shapes that others publish: random clauses of three marks, pigeon holes,
parity chains, plans, colourings and implications, each with unit clauses or without. Imported,
loaded and reported, against unit propagation on the clauses that were written, in linear time and,
where they are few, the checker's own.

A shape gives (V, clauses, a mark for each option that may be added as a clause of its own)."""
from itertools import combinations

from checker import meaning
from checker.sheets import LENGTH
from checker.trees import Literal

from . import expect
from .clause_texts import plain, restyled
from .library import Lent, sheet as lent_sheet
from .theories import propagated

FEW = 250  # clauses, of which the checker's own propagation is quick enough
DERIVED = ("clause files that derive nothing", "clause files that derive their unit clauses",
           "clause files that derive more", "clause files that are contradictory")


def some_sign(rng, option):
    return rng.choice((option, -option))


def random_threes(rng):
    """As the files named uf20-91 and uf50-218: clauses of three options, signs by chance. The marks
    to add are those of one giving that satisfies every clause."""
    options, count = rng.choice(((20, 91), (20, 91), (50, 218), (50, 218), (75, 325), (100, 430)))
    hidden = [some_sign(rng, option) for option in range(1, options + 1)]
    clauses = []
    while len(clauses) < count:
        clause = [some_sign(rng, option) for option in rng.sample(range(1, options + 1), 3)]
        if set(clause) & set(hidden):
            clauses.append(clause)
    return options, clauses, hidden


def pigeon_holes(rng):
    """A pigeon more than there are holes: each sits somewhere, no two in one hole."""
    holes = rng.randint(2, 9)

    def sits(pigeon, hole):
        return pigeon * holes + hole + 1
    clauses = [[sits(pigeon, hole) for hole in range(holes)] for pigeon in range(holes + 1)]
    clauses += [[-sits(one, hole), -sits(other, hole)] for hole in range(holes)
                for one, other in combinations(range(holes + 1), 2)]
    options = holes * (holes + 1)
    return options, clauses, [some_sign(rng, option) if rng.random() < 0.1 else -option
                              for option in range(1, options + 1)]


def parity_chain(rng):
    """Sums of two bits, the next from the last: y = x + z, four clauses each."""
    length = rng.randint(3, 130)
    clauses = []
    for at in range(length):
        one, other, both = 2 * at + 1, 2 * at + 2, 2 * at + 3
        clauses += [[-one, -other, -both], [one, other, -both], [one, -other, both],
                    [-one, other, both]]
    marks = [some_sign(rng, option) for option in range(2, 2 * length + 2, 2)]
    return 2 * length + 1, clauses, [some_sign(rng, 1), *marks]


def plan(rng):
    """Parcels between places, step by step: a parcel that is not moved stays; a move wants it where
    it starts and has it where it ends; no two moves of a parcel at a time; each is somewhere first.
    The marks to add are the first places and a plan's moves, done or not."""
    parcels, places, steps = rng.choice(((2, 2, 5), (1, 3, 6), (2, 3, 4), (3, 2, 6), (1, 4, 4)))
    numbers = {}

    def number(*what):
        return numbers.setdefault(what, len(numbers) + 1)
    clauses, marks = [], []
    for parcel in range(parcels):
        now = rng.randrange(places)
        marks += [number("at", parcel, place, 0) * (1 if place == now else -1)
                  for place in range(places)]
        for step in range(steps):
            target = rng.randrange(places)
            moves = {(start, end): number("move", parcel, start, end, step)
                     for start in range(places) for end in range(places) if start != end}
            marks += [move if way == (now, target) else -move for way, move in moves.items()]
            clauses += one_step(number, parcel, places, step, moves)
            now = target
    return len(numbers), clauses, marks


def one_step(number, parcel, places, step, moves):
    """What a parcel's moves at one time do, and what stays."""
    clauses = [[-one, -other] for one, other in combinations(moves.values(), 2)]
    for (start, end), move in moves.items():
        clauses += [[-move, number("at", parcel, start, step)],
                    [-move, number("at", parcel, end, step + 1)],
                    [-move, -number("at", parcel, start, step + 1)]]
    for place in range(places):
        before, after = (number("at", parcel, place, at) for at in (step, step + 1))
        leaving = [move for (start, _), move in moves.items() if start == place]
        coming = [move for (_, end), move in moves.items() if end == place]
        clauses += [[-before, after, *leaving], [before, -after, *coming]]
    return clauses


def colouring(rng):
    """Each of some places has a colour and no two; neighbours have different ones."""
    places, colours = rng.randint(3, 40), rng.choice((2, 3, 4))

    def has(place, colour):
        return place * colours + colour + 1
    clauses = [[has(place, colour) for colour in range(colours)] for place in range(places)]
    clauses += [[-has(place, one), -has(place, other)] for place in range(places)
                for one, other in combinations(range(colours), 2)]
    for place in range(1, places):
        for neighbour in {place - 1, rng.randrange(place)}:
            clauses += [[-has(place, colour), -has(neighbour, colour)] for colour in range(colours)]
    return places * colours, clauses, [has(place, rng.randrange(colours))
                                       for place in range(places)]


def implications(rng):
    """Long chains: one or two options together bring the next, now and then out."""
    options = rng.randint(3, 512)
    clauses = [[-(at - 1), at] if rng.random() < 0.8 else [-(at - 1), -rng.randint(1, at - 1), at]
               for at in range(2, options + 1)]
    rng.shuffle(clauses)
    marks = [rng.choice((option, option, -option)) for option in rng.sample(range(1, options), 2)]
    return options, clauses, [rng.choice((1, 1, 1, -1)), *marks, options]


SHAPES = (random_threes, pigeon_holes, parity_chain, plan, colouring, implications)


def random_file(rng, shape):
    """(V, clauses) of that shape: with no units, a few, or many, first, last or anywhere; no more
    than a book holds."""
    options, clauses, marks = shape(rng)
    share = rng.choice((0, 0.05, 0.3, 0.7, 1))
    units = [[mark] for mark in marks if rng.random() < share]
    way = rng.choice(("first", "last", "anywhere"))
    clauses = units + clauses if way == "first" else clauses + units
    if way == "anywhere":
        rng.shuffle(clauses)
    while 1 + len(clauses) + 2 * sum(map(len, clauses)) > 4096:
        clauses.pop()
    return options, clauses


def as_literals(clauses):
    return [frozenset(Literal(abs(mark) - 1, mark > 0) for mark in clause) for clause in clauses]


def derived(clauses):
    """The literals that propagation derives, None where it finds a contradiction."""
    literals = as_literals(clauses)
    found, _ = propagated(literals)
    if len(clauses) <= FEW:
        facts = meaning.facts(literals)
        expect(found == (None if meaning.contradictory(literals, facts) else facts),
               "the checker propagates a clause file otherwise")
    return found


def kind_of(clauses, found):
    """Which of the kinds a file is, by what propagation derives."""
    if found is None:
        return DERIVED[3]
    units = {*map(tuple, clauses)} & {(mark,) for clause in clauses for mark in clause}
    return DERIVED[2 if len(found) > len(units) else bool(found)]


def report_due(options, found):
    """(contradictory, the bytes of the report)"""
    if found is None:
        return 1, [3] * options
    return 0, [1 if Literal(option, True) in found else 2 if Literal(option, False) in found else 0
               for option in range(options)]


def reported(library, text, options):
    """(contradictory, the bytes): the text imported, loaded and reported by the library alone."""
    output, marks = Lent([9] * 40_000), Lent([9] * options)
    sheet = lent_sheet([7] * LENGTH)
    refusal, length = library.call("import_", [Lent(text), output])
    expect(refusal == 0, "a clause file is refused %d" % refusal)
    expect(library.call("load", [Lent(output.held()[:length]), sheet]) == (0, 0), "is not loaded")
    refusal, contradictory = library.call("report", [sheet, marks])
    expect(refusal == 0, "a clause file's report is refused %d" % refusal)
    return contradictory, marks.held()


def one_file(comparing, rng):
    shape = rng.choice(SHAPES)
    options, clauses = random_file(rng, shape)
    parts = plain(options, clauses)
    text = (parts if rng.random() < 0.5 else restyled(rng, parts)).text()
    comparing.done("import_", Lent(text), Lent([9] * 40_000))
    found = derived(clauses)
    expect(reported(comparing.library, text, options) == report_due(options, found),
           "a clause file's report differs from propagation on its clauses")
    comparing.seen["clause files, " + shape.__name__] += 1
    comparing.seen[kind_of(clauses, found)] += 1


def due_counts(files):
    """What must have been seen of so many files."""
    return {**{kind: files // 50 for kind in DERIVED},
            **{"clause files, " + shape.__name__: files // 20 for shape in SHAPES}}
