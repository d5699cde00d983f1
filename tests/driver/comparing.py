"""One call on the library and on the checker: the answers and every lent byte must be equal."""
from collections import Counter

from checker import books, calls, meaning, naming, sheets

from . import Difference, expect
from .indexes import SHORT, STALE, fault_of
from .library import CALLS, Lent, NoNumbers

# Documents 01 and 02, who can cause which refusal and their order, for each call.
CAN_REFUSE = {
    "check": [1, 2, 3, 4, 5, 6], "lookup": [1, 2, 3, 4, 5, 6, 7], "load": [11, 1, 2, 3, 4, 5, 6],
    "write": [11, 1, 2, 3, 4, 5, 6, 12], "report": [11, 12], "complete": [11, 1, 2, 3, 4, 5, 6],
    "key": [11, 14, 7, 8, 12], "withdraw": [11, 1, 2, 3, 4, 5, 6, 13, 8, 12],
    "step": [11, 9, 10, 12], "run": [11, 12], "index": [11, 12], "import_": [15, 16, 12]}

# What a call with an index can be refused without one, where there is a sheet to count: of these
# each, and none, must stand beside each fault of an index.
BESIDE_AN_INDEX = {"key": [11, 14, 7, 8], "withdraw": [11, 1, 2, 3, 4, 5, 6, 13, 8],
                   "step": [9, 10], "run": []}
FAULTS = [(call, fault, own) for call, refusals in BESIDE_AN_INDEX.items()
          for fault in (STALE, SHORT) for own in [0] + refusals]
NULL = "calls with a null index"

# What the value of an accepted call says, where it says one of two things: by its lowest bit.
SAYS = {"run": ("stopped", "settled"), "report": ("consistent", "contradictory"),
        "complete": ("incomplete", "complete")}


def names_of(sheet, data, lines, count):
    """What names which options, where nothing is refused."""
    options, root = sheets.read(sheet)
    marks = meaning.marks(options, root)
    return naming.Names(
        set(range(options)),
        None if marks is None else {option for option in range(options) if marks[option] != 0},
        meaning.named(books.parse(data).rules, []), meaning.named([], lines[:count]), root.options)


class Comparing:
    """The library beside the checker, with a tally of what was seen."""

    def __init__(self, library):
        self.library = library
        # (call, refusal or 0), (call, what it says), (call, what is wrong with its index, refusal
        # or 0 that is due without one), and words for more
        self.seen = Counter()

    def call(self, name, *arguments):
        """(refusal, value), the same of both."""
        values = [argument.values if isinstance(argument, Lent) else argument
                  for argument in arguments]
        if name == "load":  # the checker takes the target first
            values.reverse()
        refusal, value, after = getattr(calls, name)(*values)
        before = [bytes(argument.memory) if isinstance(argument, Lent) else None
                  for argument in arguments]
        given = self.library.call(name, arguments)
        if given != (refusal, value):
            raise Difference("%s: (refusal, value) is %s, due %s" % (name, given, (refusal, value)))
        self.compare_memory(name, refusal, zip(CALLS[name][1], arguments, before), after)
        self.seen[name, refusal] += 1
        if refusal == 0 and name in SAYS:
            self.tally(name, SAYS[name][value % 2], values)
        if name in BESIDE_AN_INDEX:
            self.tally_index(name, values)
            self.seen[NULL] += any(isinstance(argument, NoNumbers) for argument in arguments)
        return refusal, value

    @staticmethod
    def compare_memory(name, refusal, arguments, after):
        """What the call may write holds what the checker leaves; all else every byte that it held
        before, those too of which no promise speaks. `arguments` are (letter, lent, before)."""
        written = iter(after)
        for letter, argument, before in arguments:
            if isinstance(argument, Lent):
                try:
                    if letter.isupper():
                        argument.must_hold(next(written))
                    else:
                        expect(argument.memory == before, "lent to be read, and written")
                except Difference as difference:
                    raise Difference("%s, refusal %d, argument %s: %s" % (
                        name, refusal, letter, difference))

    def tally(self, name, said, values):
        self.seen[name, said] += 1
        if name == "complete":
            self.seen.update(names_of(*values).kinds())
        if name == "report" and len(values[1]) > values[0][0]:
            self.seen["roomier reports, " + said] += 1

    def tally_index(self, name, values):
        """What is wrong with an index, beside what is due without one."""
        at = CALLS[name][1].index("I")
        fault = fault_of(values[0], values[at])
        if fault:
            own, *_ = getattr(calls, name)(*values[:at], None, *values[at + 1:])
            self.seen[name, fault, own] += 1

    def done(self, name, *arguments):
        """The value of a call that must not be refused."""
        refusal, value = self.call(name, *arguments)
        expect(refusal == 0, "%s is refused %d" % (name, refusal))
        return value
