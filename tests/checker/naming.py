"""The kinds of answers that "complete" can have, by what names which options: whoever tests it must
have met each of them."""
from typing import NamedTuple

WITH_OPTIONS = "complete, with options that are named"
OPEN = "complete, with an open option that nothing lent names"
OPEN_ON_THE_SHEET = "complete, with an open option that the sheet alone names"
NOTHING_NAMED = "complete, with options of which none is named"
CONTRADICTORY = "incomplete, contradictory"
A_LINE_ALONE = "incomplete for an option that a line alone names"
THE_BOOK_ALONE = "incomplete for an option that the book alone names"
GONE = "incomplete for an option that the book alone names, gone from the sheet"
KINDS = (WITH_OPTIONS, OPEN, OPEN_ON_THE_SHEET, NOTHING_NAMED, CONTRADICTORY, A_LINE_ALONE,
         THE_BOOK_ALONE, GONE)


class Names(NamedTuple):
    """Sets of options: those of the sheet; those in or out, None where it is contradictory; and
    those that a rule of the book, a counted line and the sheet itself name."""
    options: set
    derived: set
    book: set
    lines: set
    sheet: set

    def is_complete(self):
        return self.derived is not None and self.book | self.lines <= self.derived

    def kinds(self):
        """Which of the kinds hold."""
        if self.derived is None:
            return {CONTRADICTORY}
        still_open = self.options - self.derived
        named = self.book | self.lines
        missing = named & still_open
        holds = {
            WITH_OPTIONS: not missing and named, OPEN: not missing and still_open,
            OPEN_ON_THE_SHEET: not missing and still_open & self.sheet,
            NOTHING_NAMED: self.options and not named,
            A_LINE_ALONE: missing and not missing & self.book,
            THE_BOOK_ALONE: missing and not missing & self.lines,
            GONE: missing and not missing & (self.lines | self.sheet)}
        return {kind for kind, held in holds.items() if held}
