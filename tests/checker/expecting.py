"""What the parts of the self-test share: what must hold, answers that must not be refusals, and a
count of mentions that goes another way than the checker's."""
from . import calls, sheets
from .books import build
from .cases import CODES

BLANK = [7] * sheets.LENGTH  # a target: no sheet, and "wholly filled"
MOST = 2 ** 64 - 1  # "a 64-bit budget"


class Wrong(Exception):
    """Something that document 01 or 02 says does not hold of the checker."""


def expect(holds, what):
    """No `assert`: python3 -O would leave that out."""
    if not holds:
        raise Wrong(what)


def done(answer):
    """(value, buffers) of an answer that must not be a refusal."""
    refusal, value, after = answer
    expect(refusal == 0, "refused %d" % refusal)
    return (value, *after)


def loaded(options, trees):
    return done(calls.load(BLANK, build(CODES[:options], trees)))[1]


def counted(sheet):
    """The index of a sheet, read off its numbers one after another."""
    index = [0, 65_535] * sheet[0]
    for place, node in enumerate(sheet[2:2 + sheet[1]]):
        kind, option = divmod(node, 4096)
        if kind in (1, 2):
            index[2 * option] += 1
            index[2 * option + 1] = min(index[2 * option + 1], place)
    return index
