"""What a file is, by its bytes: told where another kind is due, and asked before a file is written over."""
import re

from . import checking
from .words import MARKS_OF_UTF_16

BOOK, PICTURE, CLAUSES, RULES, TEXT = "a book", "a picture (SVG)", "a clause file", "a text of options and rules", "a text"

START = rb"(?:\xef\xbb\xbf)?"  # a mark of UTF-8, as some editors write it
PROLOG = rb"(?:\s|<\?(?:(?!\?>).)*\?>|<!--(?:(?!-->).)*-->|<!DOCTYPE[^>[]*(?:\[[^]]*\]\s*)?>)*"
PICTURE_START = re.compile(START + PROLOG + rb"<(?:svg:)?svg[\s/>]", re.DOTALL)
LOOKED_AT = 1 << 16  # bytes, for the start of a picture
CLAUSES_START = re.compile(START + rb"\s*(?:c[^\n]*\n\s*)*p\s+cnf\s")
RULES_START = re.compile(START + rb"(?:\s|#[^\n]*\n)*(?:option|rule)\b")
NO_TEXT = re.compile(rb"[\0-\x08\x0b\x0e-\x19\x1c-\x1f]")  # all control characters but those that may stand in a text

WHAT_TO_DO = {BOOK: ": `book show` prints its text", CLAUSES: ": `book import` makes a book of it",
              RULES: ": `book make` makes a book of it", TEXT: ": `book make` makes a book of a text"}


def kind_of(data):
    """One of the kinds, or None. A book always has a zero byte, so that it is none of the others."""
    if is_book(data):
        return BOOK
    for kind, start, most in ((PICTURE, PICTURE_START, LOOKED_AT), (CLAUSES, CLAUSES_START, None), (RULES, RULES_START, None)):
        if start.match(data[:most]):
            return kind
    return TEXT if data.startswith(MARKS_OF_UTF_16) or data and not NO_TEXT.search(data) else None


def is_book(data):
    try:
        checking.read(data)
    except checking.Refused:
        return False
    return True


def hint(data, due):
    """What these bytes are, where they are refused and something else is due; empty where that explains nothing. Any text may have been
    meant as a text of the kind that is due, so that only another kind of text is named."""
    found = kind_of(data)
    if found in (None, due) or (found == TEXT and due != BOOK):
        return ""
    return "this is %s, and %s is due%s" % (found, due, WHAT_TO_DO.get(found, ""))
