"""A clause file to a book. The proved nd_import makes it or refuses; why, and where, is then said by the reader of the text."""
import sys
from pathlib import Path

from . import Mistake, clause_text
from .checking import Refused

sys.path.insert(0, str(Path(__file__).resolve().parent.parent.parent / "python"))
import nibdrumlin  # noqa: E402

NO_CLAUSE_FILE, TOO_LARGE = 15, 16


def book_of(text):
    """The bytes of the book; or clause_text.Fault, where the place is known, or Refused."""
    try:
        return nibdrumlin.Book.from_clauses(text).data
    except nibdrumlin.LibraryMissing as missing:
        raise Mistake(" ".join(str(missing).split())) from None
    except nibdrumlin.Refused as refusal:
        number, meaning = refusal.number, refusal.meaning
    explain(text, number)
    raise Refused(number, "%s; where, this tool cannot say: its own reader finds nothing of the kind. Report that, with the file" % meaning)


def explain(text, number):
    """Raises what is due for a refusal, unless the reader finds something else than the library does."""
    try:
        over = clause_text.over_limits(clause_text.read(text))
    except clause_text.Fault:
        if number == NO_CLAUSE_FILE:
            raise
        return
    if over and number == TOO_LARGE:
        raise Refused(number, "; ".join(over))
