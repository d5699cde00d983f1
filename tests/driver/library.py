"""The calls of the shared library, over ctypes, and the memory that is lent to them."""
import ctypes
import struct
from array import array
from pathlib import Path

LIBRARY = Path(__file__).resolve().parent.parent.parent / "target/library/libnibdrumlin_sheets.so"

from . import expect

# Each call by its arguments: a lent run of bytes, of 16-bit numbers (a sheet, or an index) or of
# lines; a lent count of lines, which has no length; or a number of so many bytes. A capital letter
# marks what the call may write.
CALLS = {
    "check": ("nd_book_check", "b"), "lookup": ("nd_code_lookup", "bb"),
    "load": ("nd_load", "bS"), "write": ("nd_write", "sbB"),
    "report": ("nd_report", "sB"), "complete": ("nd_complete", "sbl2"),
    "key": ("nd_key", "SLCI8?"), "withdraw": ("nd_withdraw", "SbLCI8"),
    "step": ("nd_step", "SI8888"), "run": ("nd_run", "SI8"), "index": ("nd_index", "sI"),
    "import_": ("nd_import", "bB")}
RUN = (ctypes.c_void_p, ctypes.c_size_t)
ARGUMENTS = {"b": RUN, "B": RUN, "s": RUN, "S": RUN, "l": RUN, "L": RUN, "I": RUN,
             "C": (ctypes.c_void_p,), "2": (ctypes.c_uint16,), "8": (ctypes.c_uint64,),
             "?": (ctypes.c_bool,)}
GUARD = 16  # elements before and after lent memory, which no call may write


class Lent:
    """Memory lent to calls, here bytes: `values` is what it must hold, `memory` what it does."""
    SIZE = 1

    def __init__(self, values):
        self.hold(values)

    def hold(self, values):
        """Holds these values, as nobody but a test writes them."""
        self.values = list(values)
        self.expected = self.guarded()
        self.memory = bytearray(self.expected)
        self.view = (ctypes.c_char * len(self.memory)).from_buffer(self.memory)

    def guarded(self):
        guard = b"\xA5" * (GUARD * self.SIZE)
        return guard + self.laid_out(self.values) + guard

    @staticmethod
    def laid_out(values):
        return bytes(values)

    @staticmethod
    def read(memory):
        return list(memory)

    def arguments(self):
        """As a call takes it: a pointer and a number of elements."""
        return [ctypes.addressof(self.view) + GUARD * self.SIZE, len(self.values)]

    def held(self):
        """The values that it does hold."""
        return self.read(self.memory[GUARD * self.SIZE:-GUARD * self.SIZE])

    def must_hold(self, values):
        """The values that a call must have left, and nothing written beside them."""
        if values != self.values:
            self.values = list(values)
            self.expected = self.guarded()
        expect(self.promised() == self.expected, "lent memory differs")

    def promised(self):
        """All bytes that a promise speaks of."""
        return self.memory


class NoBytes(Lent):
    """No bytes, by a null pointer."""

    def __init__(self):
        super().__init__([])

    def arguments(self):
        return [None, 0]


class Numbers(Lent):
    """16-bit numbers: a sheet, or an index."""
    SIZE = 2

    @staticmethod
    def laid_out(values):
        return array("H", values).tobytes()

    @staticmethod
    def read(memory):
        return array("H", bytes(memory)).tolist()


class NoNumbers(Numbers):
    """No numbers, by a null pointer."""

    def __init__(self):
        super().__init__([])

    def arguments(self):
        return [None, 0]


class Count(Numbers):
    """One 16-bit number, lent without a length."""

    def __init__(self, value):
        super().__init__([value])

    def arguments(self):
        return super().arguments()[:1]


class Lines(Lent):
    """Lines of an order, (option, barred) each. In C a line is a 16-bit number, a truth value and a
    byte that fills it up to 4; that byte is nobody's."""
    SIZE = 4
    FILLING = 0x3C

    @classmethod
    def laid_out(cls, values):
        return b"".join(struct.pack("=H?B", *line, cls.FILLING) for line in values)

    @staticmethod
    def read(memory):
        return [line[:2] for line in struct.iter_unpack("=H?B", memory)]

    def promised(self):
        own = bytearray(self.memory)
        last = GUARD * self.SIZE + 3  # of the first line
        own[last:len(own) - GUARD * self.SIZE:4] = bytes([self.FILLING]) * len(self.values)
        return own


def sheet(values):
    return Numbers(values)


class Library:
    """call(name, arguments) answers (refusal, value)."""

    def __init__(self, path=LIBRARY):
        if not Path(path).exists():
            raise SystemExit("no %s: run 'tools/build-library' first" % path)
        functions = ctypes.CDLL(str(path))
        self.functions = {}
        for name, (symbol, letters) in CALLS.items():
            function = functions[symbol]
            function.restype = ctypes.c_uint64
            function.argtypes = [kind for letter in letters for kind in ARGUMENTS[letter]]
            self.functions[name] = function

    def call(self, name, arguments):
        plain = []
        for argument in arguments:
            plain += argument.arguments() if isinstance(argument, Lent) else [argument]
        answer = self.functions[name](*plain)
        return answer % 256, answer // 256
