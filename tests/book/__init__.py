"""tools/book, executed: against the proved book check, and against the checker where meaning counts.

making: random books. round_trips: shown and made again. verdicts: damaged books, the library's refusal beside the tool's. messages:
every mistake of the notation, with its line and column. mangled: texts with pieces lost. meanings: truth tables. nests: as deep as
books allow. changes: what a comparison calls added, removed and moved. imports: clause files, the reader of the tool beside the proved
import. program: the tool as a program. verbs: what each does. keeping: that no file is lost. telling: what is said of files of another
kind, of names and lines that a terminal would act on. `tests/book/run` runs all.
"""
import ctypes
from pathlib import Path

TOP = Path(__file__).resolve().parent.parent.parent
LIBRARY = TOP / "target/library/libnibdrumlin_sheets.so"


class Failed(Exception):
    """A check that did not hold."""


def check(holds, *words):
    """Raises where something does not hold, also where Python is told to leave assertions out."""
    if not holds:
        raise Failed(" ".join(str(word) for word in words))


def library_check():
    """The proved nd_book_check, as a function from bytes to the refusal, 0 where accepted."""
    function = ctypes.CDLL(str(LIBRARY)).nd_book_check
    function.restype, function.argtypes = ctypes.c_uint64, [ctypes.c_char_p, ctypes.c_size_t]
    return lambda data: function(data, len(data))
