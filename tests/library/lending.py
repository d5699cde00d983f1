"""Memory that is lent to the module's calls, with guards on both sides: bytes, 16-bit numbers, the
lines of an order and their count."""
import ctypes
import sys
from array import array
from pathlib import Path

from checker.keying import SLOTS

sys.path.insert(0, str(Path(__file__).resolve().parent.parent.parent / "python"))
from nibdrumlin import Slot  # noqa: E402

GUARD = 16  # elements before and after lent memory
SPARE = [(65_535 - at, at % 2 == 0) for at in range(SLOTS)]  # what slots past the count hold


class Lent:
    """Memory with guards on both sides; `part` is what is lent of it."""

    def __init__(self, values):
        kind, guard = ("B", 0xA5) if isinstance(values, (bytes, bytearray)) else ("H", 0xA5A5)
        self.memory = array(kind, [guard] * GUARD + list(values) + [guard] * GUARD)
        self.before = self.memory.tobytes()
        self.part = memoryview(self.memory)[GUARD:GUARD + len(values)]

    def is_unchanged(self):
        return self.memory.tobytes() == self.before

    def has_guards(self):
        size = GUARD * self.memory.itemsize
        after = self.memory.tobytes()
        return after[:size] == self.before[:size] and after[-size:] == self.before[-size:]


class LentLines:
    """The same for lines; the last byte of each is nobody's, and is not compared."""
    SIZE = ctypes.sizeof(Slot)

    def __init__(self, values):
        start = GUARD * self.SIZE
        self.memory = bytearray(b"\xA5" * (2 * start + self.SIZE * len(values)))
        self.part = (Slot * len(values)).from_buffer(self.memory, start)
        for at, (option, barred) in enumerate(values):
            self.part[at].option, self.part[at].negative = option, barred
        self.before = self.promised()

    def promised(self):
        first, end = GUARD * self.SIZE, len(self.memory) - GUARD * self.SIZE
        return [byte for at, byte in enumerate(self.memory)
                if not first <= at < end or (at - first) % self.SIZE != 3]

    def held(self):
        return [(slot.option, slot.negative) for slot in self.part]

    def is_unchanged(self):
        return self.promised() == self.before

    def has_guards(self):
        size = GUARD * self.SIZE
        return self.memory[:size] + self.memory[-size:] == b"\xA5" * (2 * size)


class Lines(list):
    """Slots, to be lent as lines."""


class Count(int):
    """A number, to be lent as the count of lines."""


def lend(value):
    """Guarded memory for what is lent, anything else as it is."""
    if isinstance(value, Lines):
        return LentLines(value)
    if isinstance(value, Count):
        return Lent([value])
    return Lent(value) if isinstance(value, (bytes, list)) else value


def slots(lines=()):
    """An order's lines and their count, for lending."""
    lines = list(lines)
    return Lines(lines + SPARE[len(lines):]), Count(len(lines))


def asked(lines=()):
    """The same for a call that changes nothing: the count is a plain number."""
    lent, count = slots(lines)
    return lent, int(count)
