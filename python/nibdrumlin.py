"""Option books and orders: every call of the library, from Python.

    book = Book.from_file("book.bin")
    order = Order(book)
    order.key("LID-STEEL")
    order.key("BODY-C", barred=True)
    print(order.run(100_000), order.report())
    order.withdraw(1)  # line 1 is taken back; counted from 0, that is BODY-C
    print(order.lines, order.run(100_000), order.report())
    print(order.mentions("BODY-C").count)  # how often the sheet names BODY-C
    print(order.is_complete())  # whether all that is named in its book or lines is in or out
    book = Book.from_clauses(Path("valves.cnf").read_bytes())  # of a partner's clause file

A call that is refused raises Refused, which has the number of the refusal and its meaning, and
leaves everything as it was. A number may have any value: one that is no option's, no line's or no
rule's gets its refusal. What is of another type is a TypeError that names the argument, before
anything is looked at: a whole number is an int or whatever else has __index__ (numpy's integers,
say) and never True or False, a truth value is True or False and nothing else. The library is
target/library/libnibdrumlin_sheets.so of this repository, which tools/build-library makes; the
environment variable NIBDRUMLIN_LIBRARY names another file.

Threads may share books and orders. Books, orders and refusals can be copied (copy.copy and
copy.deepcopy) and pickled, so they go to and from other processes: what arrives is on its own.

Book and Order stand on the functions nd_load, nd_run and so on, which are the C functions of
include/nibdrumlin.h and include/nibdrumlin_sheets.h on memory that the caller lends: a book, a text
or an output is any run of bytes, a sheet or an index any run of 16-bit numbers (array("H"), say),
the lines of an order a ctypes array of Slot, their count one 16-bit number (ctypes.c_uint16, say;
where the call changes nothing, an int). What a call writes must not overlap anything else that it
is lent, which is a ValueError. Nor may any other thread use it meanwhile: that is for the caller to
see to.
"""
import copyreg
import ctypes
import functools
import itertools
import operator
import os
import reprlib
import sys
import threading
import weakref
from array import array
from enum import IntEnum
from pathlib import Path
from typing import (Any, Callable, Dict, Iterable, Iterator, List, NamedTuple, Optional, Tuple,
                    TypeVar, Union)

SHEET_LENGTH = 4098
OPTIONS_MOST = 512
INDEX_LONGEST = 1024
LINES_MOST = 64
BOOK_LONGEST = 31_234
CODE_LENGTH = 13
HEAD_LENGTH = 8
BUDGET_MOST = 2 ** 64 - 1
NO_NUMBER = 2 ** 64 - 1  # of no option and of no line
NO_PLACE = 65_535  # in an index: the option has no mark
NO_SUCH_OPTION = 7

MEANINGS = {
    1: "the book's length: fewer than 8 bytes, or not the length due",
    2: "the book's head: a number over its limit, or the fourth not zero",
    3: "a malformed code in the book, or one equal to an earlier",
    4: "the book's contents: a pair out of line, or node counts that do not add up",
    5: "a malformed body in the book",
    6: "the book's weight is over 4,096",
    7: "no such option number or code",
    8: "the sheet is full, or would be with the remaining lines",
    9: "the rule is not 1 to 17",
    10: "the step does not apply",
    11: "not a sheet, a book whose number of options is not the sheet's, lines not in order, or an "
        "index that is not the sheet's",
    12: "the output or the index is too short",
    13: "no such line",
    14: "the list is full: it has 64 lines",
    15: "the text is no clause file: it has another form",
    16: "the clause file is too large for a book: its options, clauses, nodes or weight",
}

LIBRARY = Path(__file__).resolve().parent.parent / "target/library/libnibdrumlin_sheets.so"

# Each C function by its arguments, with their names: b a run of bytes, s a run of 16-bit numbers, l
# lines, C their count (capitals: it may be written), 2 or 8 a number of so many bytes, ? a truth
# value.
SIGNATURES = {
    "nd_book_check": "book:b", "nd_code_lookup": "book:b code:b", "nd_load": "book:b sheet:S",
    "nd_write": "sheet:s book:b out:B", "nd_report": "sheet:s out:B",
    "nd_complete": "sheet:s book:b lines:l count:2", "nd_index": "sheet:s index:S",
    "nd_key": "sheet:S lines:L count:C index:S option:8 negative:?",
    "nd_withdraw": "sheet:S book:b lines:L count:C index:S k:8",
    "nd_step": "sheet:S index:S rule:8 place:8 i:8 j:8", "nd_run": "sheet:S index:S budget:8",
    "nd_import": "text:b out:B"}
ARGUMENTS = {call: [tuple(argument.split(":")) for argument in said.split()]
             for call, said in SIGNATURES.items()}
NUMBERS = {"2": ctypes.c_uint16, "8": ctypes.c_uint64, "?": ctypes.c_bool}
SIZES = {"b": 1, "s": 2}
RUNS = {"b": "a run of bytes", "s": "a run of 16-bit numbers"}
NATIVE = "@=" + ("<" if sys.byteorder == "little" else ">")  # how formats of native order begin

Lent = Union[bytes, bytearray, memoryview, "array[int]"]
Option = Union[int, str, bytes]
Answer = TypeVar("Answer")


class Slot(ctypes.Structure):
    """A line of an order as C has it."""

    _fields_ = [("option", ctypes.c_uint16), ("negative", ctypes.c_bool)]


class Refused(Exception):
    """A refused call: `call` is the C function, `number` the refusal, `meaning` what it says."""

    def __init__(self, call: str, number: int) -> None:
        self.call = call
        self.number = number
        self.meaning = MEANINGS.get(number, "an unknown refusal")
        super().__init__("%s: refused %d, %s" % (call, number, self.meaning))

    def __reduce__(self) -> Tuple[Any, ...]:
        """For copies and pickles: __init__ is not called again, which takes other arguments than
        the message that an exception keeps."""
        return copyreg.__newobj__, (type(self), *self.args), self.__dict__  # type: ignore


class LibraryMissing(Exception):
    """The shared library is not there, or has not all functions; the message says what to run."""


class State(IntEnum):
    """What a report says of an option."""

    OPEN = 0
    IN = 1
    OUT = 2
    CONTRADICTORY = 3


class Ran(NamedTuple):
    """What a run did: `settled` where no rule applies any more, else it stopped on its budget."""

    settled: bool
    steps: int


class Line(NamedTuple):
    """A line of an order: an option's number, taken or barred."""

    option: int
    barred: bool


class Mentions(NamedTuple):
    """How often a sheet names an option, taken or barred, and the place of the first of these
    marks, counted from the root, 0; None where there is none."""

    count: int
    first: Optional[int]


class Report(NamedTuple):
    """Whether the sheet is contradictory, and the state of each option, by its code."""

    contradictory: bool
    states: Dict[str, State]


# The doors: what is given, of the type due.

def _unfit(name: str, want: str, given: Any) -> TypeError:
    """What to raise for an argument of another type."""
    return TypeError("%s: want %s, not %.60s (%s)" % (name, want, reprlib.repr(given),
                                                     type(given).__name__))


def _whole(name: str, value: Any, want: str = "a whole number") -> int:
    """A whole number: an int, or what else has __index__, but no truth value."""
    if not isinstance(value, bool):
        try:
            return operator.index(value)
        except TypeError:
            pass
    raise _unfit(name, want, value)


def _truth(name: str, value: Any) -> bool:
    """True or False: no word that says no, and no number."""
    if not isinstance(value, bool):
        raise _unfit(name, "True or False", value)
    return value


def _number(value: int, size: int) -> int:
    """A number for C, of so many bytes. One that does not fit is given as the largest that does: no
    book has so many options, no sheet so many places and no order so many lines, as many as 16 bits
    count neither, so the answer is the one due."""
    most = 2 ** (8 * size) - 1
    return value if 0 <= value <= most else most


def _run(name: str, memory: Any, letter: str) -> memoryview:
    """Memory as a run of the elements that the letter says, side by side or not."""
    try:
        view = memoryview(memory)
    except TypeError:
        raise _unfit(name, RUNS[letter], memory) from None
    if view.ndim != 1 or view.itemsize != SIZES[letter]:
        raise _unfit(name, RUNS[letter], memory)
    if letter == "s" and view.format.lstrip(NATIVE) not in ("H", "h"):
        raise _unfit(name, "16-bit numbers as the machine has them", memory)
    return view


def _items(name: str, want: str, things: Any, most: int) -> Iterator[Any]:
    """The things of a row, one more than `most` at most: so an endless row has an end too."""
    try:
        return itertools.islice(iter(things), most + 1)
    except TypeError:
        raise _unfit(name, want, things) from None


def _code(name: str, want: str, code: Any) -> Lent:
    """The bytes of a code; those of text that is no ASCII equal no code."""
    if isinstance(code, str):
        return code.encode("utf-8", "surrogatepass")
    try:
        return _run(name, code, "b").tobytes()
    except TypeError:
        raise _unfit(name, want, code) from None


def _numbers_of(numbers: Any) -> "array[int]":
    """An array of its own, of a row of whole numbers or of the bytes that tobytes() gives of one.
    A number that 16 bits do not hold, or half a number, becomes 65,535: it stands on no sheet."""
    if isinstance(numbers, array) and numbers.typecode == "H":
        return numbers[:]
    if isinstance(numbers, (bytes, bytearray)):
        whole = len(numbers) // 2 * 2
        return array("H", bytes(numbers[:whole])) + array("H", [NO_PLACE] * (len(numbers) - whole))
    want = "a row of whole numbers"
    return array("H", [_number(_whole("numbers", number), 2)
                       for number in _items("numbers", want, numbers, SHEET_LENGTH)])


def _slot(line: Any) -> Slot:
    """A line of a row of pairs, as C has it."""
    try:
        option, barred = line
    except (TypeError, ValueError):
        raise _unfit("a line", "an option's number and True or False", line) from None
    return Slot(_number(_whole("a line's option", option), 2), _truth("a line's barred", barred))


# The C functions, on memory that the caller lends.

@functools.lru_cache(maxsize=None)
def _functions() -> Dict[str, Any]:
    """The functions of the library, opened when the first one is wanted."""
    path = Path(os.environ.get("NIBDRUMLIN_LIBRARY") or LIBRARY)
    if not path.is_file():
        raise LibraryMissing("no %s: run 'tools/build-library' first, or name the library in "
                             "NIBDRUMLIN_LIBRARY" % path)
    try:
        library = ctypes.CDLL(str(path.resolve()))
        functions = {name: library[name] for name in SIGNATURES}
    except (OSError, AttributeError) as error:  # no library at all, or one from before a call
        raise LibraryMissing("%s is no library of these calls (%s): run 'tools/build-library' again"
                             % (path, error)) from None
    for name, function in functions.items():
        function.restype = ctypes.c_uint64
        function.argtypes = [kind for _, letter in ARGUMENTS[name] for kind in _types(letter)]
    return functions


def _types(letter: str) -> Tuple[Any, ...]:
    """A number goes to C as it is, a count as a pointer, a run as a pointer and a length."""
    if letter in NUMBERS:
        return (NUMBERS[letter],)
    return (ctypes.c_void_p,) if letter == "C" else (ctypes.c_void_p, ctypes.c_size_t)


def _lend_lines(name: str, lines: Any) -> Tuple[Any, int]:
    """A pointer and the number of slots."""
    if not isinstance(lines, ctypes.Array) or lines._type_ is not Slot:
        raise _unfit(name, "a ctypes array of Slot", lines)
    return (lines, len(lines)) if len(lines) else (None, 0)


def _lend_count(name: str, count: Any) -> Tuple[Any]:
    """A pointer to one number."""
    want = "one 16-bit number that can be written"
    try:
        view = memoryview(count)
    except TypeError:
        raise _unfit(name, want, count) from None
    if view.itemsize != 2 or view.nbytes != 2 or view.readonly:
        raise _unfit(name, want, count)
    return ((ctypes.c_char * view.nbytes).from_buffer(view),)


def _lend(name: str, memory: Lent, letter: str) -> Tuple[Any, int]:
    """A pointer and a length in elements. What a call may write is lent itself; what it only reads
    is copied where Python does not let go of its address."""
    view = _run(name, memory, letter.lower())
    if not view.c_contiguous:
        raise _unfit(name, RUNS[letter.lower()] + " side by side", memory)
    if letter.isupper() and view.readonly:
        raise TypeError("%s: the call writes to this memory, and it is read-only" % name)
    if view.nbytes == 0:
        return None, 0
    if view.readonly:
        return ctypes.create_string_buffer(view.tobytes(), view.nbytes), len(view)
    return (ctypes.c_char * view.nbytes).from_buffer(view), len(view)


def _plain(name: str, argument: Any, letter: str) -> Tuple[Any, ...]:
    """An argument as C takes it."""
    if letter == "?":
        return (_truth(name, argument),)
    if letter in NUMBERS:
        return (_number(_whole(name, argument), int(letter)),)
    if letter == "C":
        return _lend_count(name, argument)
    return _lend_lines(name, argument) if letter in "lL" else _lend(name, argument, letter)


def _check_memory(lent: List[Tuple[str, str, Any]]) -> None:
    """What the headers ask of memory and Python does not see to: 16-bit numbers at even addresses,
    and nothing that is written over anything else. Each is lent by a name, a letter and a block."""
    spans = []
    for name, letter, block in lent:
        start = ctypes.addressof(block)
        if start % 2 and letter not in "bB":
            raise ValueError("%s: 16-bit numbers at an odd address" % name)
        spans.append((start, start + ctypes.sizeof(block), name, letter))
    for (start, end, name, letter), (start_2, end_2, name_2, letter_2) in itertools.combinations(
            spans, 2):
        if start < end_2 and start_2 < end and not (letter + letter_2).islower():
            raise ValueError("%s and %s overlap, and the call writes there" % (name, name_2))


def _call(name: str, *arguments: Any) -> int:
    """The value of an accepted call."""
    plain: List[Any] = []
    lent = []
    for (argument, letter), given in zip(ARGUMENTS[name], arguments):
        made = _plain(argument, given, letter)
        plain.extend(made)
        if isinstance(made[0], ctypes.Array):
            lent.append((argument, letter, made[0]))
    _check_memory(lent)
    answer = _functions()[name](*plain)
    if answer % 256 != 0:
        raise Refused(name, answer % 256)
    return answer // 256


def nd_book_check(book: Lent) -> None:
    """Accepted exactly when the bytes are a book. Refused 1 to 6."""
    _call("nd_book_check", book)


def nd_code_lookup(book: Lent, code: Lent) -> int:
    """The number of the option with this code, its characters alone. Refused 1 to 6, 7."""
    return _call("nd_code_lookup", book, code)


def nd_import(text: Lent, out: Lent) -> int:
    """Makes a book of a clause file, at the start of `out`, whose rest stays, and answers its
    length, BOOK_LONGEST at most. Refused 15, 16, 12."""
    return _call("nd_import", text, out)


def nd_load(book: Lent, sheet: Lent) -> None:
    """Fills the 4,098 numbers of the sheet from the book. Refused 11, 1 to 6."""
    _call("nd_load", book, sheet)


def nd_write(sheet: Lent, book: Lent, out: Lent) -> int:
    """Writes the sheet as a book with that book's codes, and answers its length. Refused 11, 1 to
    6, 11 (another number of options), 12."""
    return _call("nd_write", sheet, book, out)


def nd_report(sheet: Lent, out: Lent) -> bool:
    """A byte for each option, as State numbers them, at the start of `out`, whose rest stays;
    whether the sheet is contradictory. Refused 11, 12."""
    return bool(_call("nd_report", sheet, out))


def nd_complete(sheet: Lent, book: Lent, lines: Any, count: int) -> bool:
    """Whether every option that a rule of the book or one of the first `count` lines names is in or
    out and nothing contradicts. What the sheet itself names plays no part. Refused 11, 1 to 6, 11
    (another number of options, lines that are not in order)."""
    return bool(_call("nd_complete", sheet, book, lines, count))


def nd_index(sheet: Lent, index: Lent) -> None:
    """Fills the index, whatever it held: for each option the count of its marks on the sheet and
    the place of the first, 65,535 if none. What is past these two numbers an option stays. Refused
    11, 12."""
    _call("nd_index", sheet, index)


# Each of the next four wants the index of the sheet as it is lent, and leaves that of the sheet
# after the call. A stale index is refused 11 with the other 11s, a short one 12, last of all.

def nd_key(sheet: Lent, lines: Any, count: Any, index: Lent, option: int, negative: bool) -> None:
    """Takes the option, or bars it: a mark on the sheet, and a line in the slot at the count, which
    rises by one. Refused 11, 14, 7, 8, 12."""
    _call("nd_key", sheet, lines, count, index, option, negative)


def nd_withdraw(sheet: Lent, book: Lent, lines: Any, count: Any, index: Lent, k: int) -> None:
    """Takes line k back: the sheet is that of the book with the remaining lines keyed in order, the
    later lines move up, the count falls by one. Refused 11, 1 to 6, 11, 13, 8, 12."""
    _call("nd_withdraw", sheet, book, lines, count, index, k)


def nd_step(sheet: Lent, index: Lent, rule: int, place: int, i: int, j: int) -> None:
    """One step of the seventeen rules. Refused 11, 9, 10, 12."""
    _call("nd_step", sheet, index, rule, place, i, j)


def nd_run(sheet: Lent, index: Lent, budget: int) -> Ran:
    """House steps until no rule applies or the budget is used up. Refused 11, 12."""
    if _whole("budget", budget) < 0:
        raise ValueError("a budget is 0 or more")
    value = _call("nd_run", sheet, index, budget)
    return Ran(value % 2 == 1, value // 2)


# Books and orders as Python would have them.

class Book:
    """An option book. One is made only of bytes that the book check accepts, by unpickling too.
    Nothing changes it, so any number of orders and threads may share it."""

    def __init__(self, data: Lent) -> None:
        """Checks the bytes, any run of them; refused 1 to 6."""
        self.data = _run("data", data, "b").tobytes()
        self.check(self.data)

    @classmethod
    def from_file(cls, path: Union[str, "os.PathLike[str]"]) -> "Book":
        """The book in a file."""
        if not isinstance(path, (str, os.PathLike)):
            raise _unfit("path", "the path of a file", path)
        return cls(Path(path).read_bytes())

    @classmethod
    def from_clauses(cls, text: Lent) -> "Book":
        """The book of a clause file (DIMACS CNF) of any length, by its bytes: a rule for each
        clause, and the codes V1, V2 and so on; refused 15, 16."""
        out = bytearray(BOOK_LONGEST)
        return cls(memoryview(out)[:nd_import(text, out)])

    @staticmethod
    def check(data: Lent) -> None:
        """Accepted exactly when the bytes are a book; refused 1 to 6."""
        nd_book_check(data)

    def lookup(self, code: Union[str, bytes]) -> int:
        """The number of the option with this code; refused 7."""
        return nd_code_lookup(self.data, _code("code", "a code, in text or bytes", code))

    @property
    def options(self) -> int:
        """The number of options."""
        return int.from_bytes(self.data[:2], "little")

    @property
    def codes(self) -> Tuple[str, ...]:
        """The codes, by option number."""
        end = HEAD_LENGTH + CODE_LENGTH * self.options
        return tuple(self.data[at:at + CODE_LENGTH].rstrip(b"\0").decode("ascii")
                     for at in range(HEAD_LENGTH, end, CODE_LENGTH))

    def __setstate__(self, state: Any) -> None:
        """What a copy or a pickle kept: the attributes, and beside them those of __slots__ that a
        subclass has. The bytes are checked as at first."""
        for part in state if isinstance(state, tuple) else (state,):
            if not isinstance(part, (dict, type(None))):
                raise _unfit("state", "what a book keeps", state)
            for name, value in (part or {}).items():
                object.__setattr__(self, name, value)
        Book.__init__(self, vars(self).get("data"))


class _Held:
    """All that an order holds, at one moment. From the time that an order holds it nobody writes to
    it, so whoever has it may read it: a call that changes something is lent a copy."""

    def __init__(self, book: Book, sheet: "array[int]", lines: List[Slot]) -> None:
        """Of no index yet."""
        self.book = book
        self.sheet = sheet
        self.slots = (Slot * max(LINES_MOST, len(lines)))(*lines)
        self.count = ctypes.c_uint16(len(lines))
        self.index = array("H", bytes(2 * INDEX_LONGEST))

    def copied(self) -> "_Held":
        """A copy that may be written."""
        made = _Held.__new__(_Held)
        made.book = self.book
        made.sheet = self.sheet[:]
        made.slots = type(self.slots).from_buffer_copy(self.slots)
        made.count = ctypes.c_uint16(self.count.value)
        made.index = self.index[:]
        return made

    def lines(self) -> Tuple[Line, ...]:
        """The lines that stand."""
        return tuple(Line(slot.option, slot.negative) for slot in self.slots[:self.count.value])

    def number(self, option: Option) -> int:
        """The number of an option. A code that the book does not have becomes a number that it does
        not have, so that it is refused when its turn comes: after a full list, as 7."""
        want = "the code or the number of an option"
        if hasattr(type(option), "__index__"):
            return _whole("option", option, want)
        _code("option", want, option)
        try:
            return self.book.lookup(option)
        except Refused:  # 7: the book was checked when it was made
            return NO_NUMBER

    def check(self) -> None:
        """Refused 11 unless there are a sheet, as many options as the book's, and lines in order:
        all of that is tested before it is found that there is no such line. No index is lent, for
        none is right yet: a short one is looked at last. Being refused, the call writes nothing."""
        try:
            nd_withdraw(self.sheet, self.book.data, self.slots, self.count, array("H"), NO_NUMBER)
        except Refused as refusal:
            if refusal.number != 13:
                raise

    @classmethod
    def checked(cls, book: Book, numbers: Iterable[int],
                lines: Iterable[Tuple[int, bool]]) -> "_Held":
        """Of an order that was kept elsewhere; refused 11."""
        want = "pairs of an option's number and True or False"
        kept = [_slot(line) for line in _items("lines", want, lines, LINES_MOST)]
        held = cls(_a_book(book), _numbers_of(numbers), kept)
        held.check()
        nd_index(held.sheet, held.index)
        return held


def _a_book(book: Any) -> Book:
    """A Book: bytes are made one by Book(..)."""
    if not isinstance(book, Book):
        raise _unfit("book", "a Book", book)
    return book


# What each order makes for itself, and no copy takes over; and all orders that there are, by id.
_OWN = {"_order_lock", "_held", "_shown", "_numbers"}
_ORDERS: "weakref.WeakValueDictionary[int, Order]" = weakref.WeakValueDictionary()


class Order:
    """An order: the sheet of a book, the lines keyed on it, and the index of the sheet. `numbers`
    are the sheet's 4,098. Every call of an order keeps the index right. Whoever writes to `numbers`
    makes it stale: the calls that change the sheet are then refused 11 until refill().

    Threads may share an order. Each has a lock of its own, so that the calls of one order are made
    one after the other, and those of different orders side by side; what is read is always of one
    moment between two calls. For several calls without another's between them, or to write to the
    `numbers` of a shared order:

        with order.exclusively():
            order.key("LID-STEEL")
            print(order.run(), order.report())

    A call that an exception ends (Ctrl-C, say) is done wholly or not at all. A forked process has
    each order as it stood between two calls, whatever other threads were doing.

    A copy (copy.copy, copy.deepcopy, pickle) has a sheet, lines, an index and a lock of its own,
    and its index is stale where this one's is. Refused 11 where `numbers` hold no sheet of the book
    any more; what is unpickled is tested as by from_numbers."""

    def __init__(self, book: Book) -> None:
        """An order of a book, with no lines."""
        held = _Held(_a_book(book), array("H", bytes(2 * SHEET_LENGTH)), [])
        nd_load(book.data, held.sheet)
        nd_index(held.sheet, held.index)
        self._begin(held)

    @classmethod
    def from_numbers(cls, book: Book, numbers: Iterable[int],
                     lines: Iterable[Tuple[int, bool]] = ()) -> "Order":
        """An order that was kept elsewhere, by its book, the numbers of its sheet (or the bytes
        that their tobytes() gave) and its lines; refused 11. Lines that were never keyed are on the
        sheet after the next withdrawal."""
        held = _Held.checked(book, numbers, lines)
        order = cls(book)
        order._begin(held)
        return order

    @property
    def book(self) -> Book:
        """The order's book; withdraw() can change it."""
        return self._now().book

    @property
    def numbers(self) -> "array[int]":
        """The sheet, as the last call left it. What is written to it is the sheet from the next
        call on; while that may be another thread's, hold exclusively()."""
        return self._numbers

    @numbers.setter
    def numbers(self, numbers: Iterable[int]) -> None:
        with self._order_lock:
            self._numbers = _numbers_of(numbers)

    @property
    def lines(self) -> Tuple[Line, ...]:
        """The lines that stand, in the order in which they were keyed."""
        return self._now().lines()

    def exclusively(self) -> Any:
        """The order's lock, to be taken by `with`: calls of other threads wait until it is left."""
        return self._order_lock

    def key(self, option: Option, barred: bool = False) -> None:
        """Takes an option, by its code or number, or bars it, as the order's last line; refused 14,
        7, 8."""
        self._change(lambda held: nd_key(held.sheet, held.slots, held.count, held.index,
                                         held.number(option), _truth("barred", barred)))

    def withdraw(self, k: int, book: Optional[Book] = None) -> None:
        """Takes line k back, counted from 0. What steps and runs had done is dropped. With another
        book of as many options, its rules are the order's from then on; lines name options by
        number. Refused 11, 13, 8."""
        def call(held: _Held) -> None:
            held.book = held.book if book is None else _a_book(book)
            nd_withdraw(held.sheet, held.book.data, held.slots, held.count, held.index, k)
        self._change(call)

    def step(self, rule: int, place: int, i: int = 0, j: int = 0) -> None:
        """One step of the seventeen rules; refused 9, 10."""
        self._change(lambda held: nd_step(held.sheet, held.index, rule, place, i, j))

    def run(self, budget: int = BUDGET_MOST) -> Ran:
        """House steps until no rule applies or the budget is used up."""
        return self._change(lambda held: nd_run(held.sheet, held.index, budget))

    def mentions(self, option: Option) -> Mentions:
        """How often the sheet names an option, by its code or number, and where first; refused 7.
        It counts marks, the rules' and the choices' alike, as they stand now."""
        held = self._now()
        number = held.number(option)
        if not 0 <= number < held.book.options:
            raise Refused("mentions", NO_SUCH_OPTION)
        count, first = held.index[2 * number:2 * number + 2]
        return Mentions(count, None if first == NO_PLACE else first)

    def refill(self) -> None:
        """Makes the index right again, after `numbers` was written to; refused 11 where that left
        no sheet."""
        self._change(lambda held: nd_index(held.sheet, held.index))

    def report(self) -> Report:
        """What the rules and choices force, whether or not the sheet was run."""
        held = self._now()
        out = bytearray(held.book.options)
        contradictory = nd_report(held.sheet, out)
        return Report(contradictory, dict(zip(held.book.codes, map(State, out))))

    def is_complete(self) -> bool:
        """Whether every option that a rule of the order's book or a line names is in or out, and
        nothing contradicts. An option that neither names, a reserved code say, may be open."""
        held = self._now()
        return nd_complete(held.sheet, held.book.data, held.slots, held.count.value)

    def write(self) -> bytes:
        """The sheet as a book, with the codes of its own book."""
        held, out = self._now(), bytearray(BOOK_LONGEST)
        return bytes(out[:nd_write(held.sheet, held.book.data, out)])

    def __getstate__(self) -> Dict[str, Any]:
        """What a copy or a pickle keeps; a subclass's attributes and __slots__ too. Refused 11 here
        already: other processes do not always say why they cannot unpickle."""
        held = self._now()
        held.check()
        names = {*dict(vars(self)), *copyreg._slotnames(type(self))} - _OWN  # type: ignore
        own = {name: getattr(self, name) for name in names if hasattr(self, name)}
        return dict(own, _held=(held.book, held.sheet, held.lines(), held.index))

    def __setstate__(self, state: Any) -> None:
        """The copy; refused 11."""
        try:
            book, numbers, lines, index = state["_held"]
        except (TypeError, KeyError, ValueError):
            raise _unfit("state", "what an order keeps", state) from None
        held = _Held.checked(book, numbers, lines)
        held.index = _numbers_of(index)
        if len(held.index) != INDEX_LONGEST:
            raise _unfit("index", "%d numbers" % INDEX_LONGEST, index)
        for name, value in state.items():
            object.__setattr__(self, name, value)
        self._begin(held)

    def _begin(self, held: _Held) -> None:
        """Holds this from now on. Beside it stand the numbers that the caller may write to, and
        what they showed last, with the bytes of its sheet."""
        self._order_lock = threading.RLock()
        self._held = held
        self._numbers = held.sheet[:]
        self._shown = held, held.sheet.tobytes()
        _ORDERS[id(self)] = self

    def _show(self) -> None:
        """Lets the caller see the sheet."""
        held = self._held
        self._numbers[:] = held.sheet
        self._shown = held, held.sheet.tobytes()

    def _now(self) -> _Held:
        """What the order holds. Where the numbers are not those last shown, the caller has written
        to them, and they are its sheet. Where other numbers are held, an exception came between a
        call and its showing. Each line may be the last before one, and the next call goes on."""
        with self._order_lock:
            shown, numbers = self._shown
            if self._numbers.tobytes() != numbers:
                held = self._held.copied()
                held.sheet = self._numbers[:]
                self._held = held
                self._shown = held, held.sheet.tobytes()
            elif shown is not self._held:
                self._show()
            return self._held

    def _change(self, call: Callable[[_Held], Answer]) -> Answer:
        """Makes a call on a copy of what the order holds, which then takes its place: at once, by
        one assignment. While C works, the handler of a signal may want to make another call in this
        thread, which the lock lets in: then that was the first, and this one is made again."""
        with self._order_lock:
            while True:
                before = self._now()
                after = before.copied()
                answer = call(after)
                if self._held is before:
                    break
            self._held = after
            self._show()
            return answer


def _renew_locks() -> None:
    """In a process that was forked while another thread had an order's lock, nobody is there to
    give it back: the order gets a new one."""
    for order in list(_ORDERS.values()):
        if order._order_lock.acquire(blocking=False):
            order._order_lock.release()
        else:
            order._order_lock = threading.RLock()


if hasattr(os, "register_at_fork"):
    os.register_at_fork(after_in_child=_renew_locks)
