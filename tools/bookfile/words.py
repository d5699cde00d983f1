"""A text cut into words, each with its line and column."""
import re
from typing import NamedTuple

from . import Mistake
from .saying import visible

# A hyphen right before `>` belongs to an arrow and never to a code, so that A->B needs no blanks: no text could mean A- there, since
# `>` alone is no word.
PATTERN = re.compile(r"""(?P<blank>[ \t]+ | \#.*)
    | (?P<sign><-> | -> | [(),])
    | (?P<quoted>"[^"]*")
    | (?P<bare>(?:[^\s(),\#"<>-] | -(?!>))+)""", re.VERBOSE)
LONGEST_SHOWN = 40
MARKS_OF_UTF_16 = (b"\xff\xfe", b"\xfe\xff")


class Word(NamedTuple):
    text: str  # of a quoted code, what stands between the quotes
    sort: str  # sign, quoted or bare
    line: int
    column: int
    first: bool  # whether it is the first word of its line

    def is_bare(self, *texts):
        return self.sort == "bare" and self.text in texts

    def is_sign(self, *texts):
        return self.sort == "sign" and self.text in texts


class NotationMistake(Mistake):
    """A mistake in a text, at a line and a column, both from 1."""

    def __init__(self, place, words):
        """`place` is a Word, or (line, column)."""
        super().__init__(words)
        self.line, self.column = (place.line, place.column) if isinstance(place, Word) else place


def decoded(data):
    """The text of a file. A mark of UTF-8 at its start, as some editors write it, is no part of it."""
    if data.startswith(MARKS_OF_UTF_16):
        raise NotationMistake((1, 1), "this text is in UTF-16, as some editors save it; save it as UTF-8")
    try:
        return data.decode("utf-8-sig")
    except UnicodeDecodeError as error:
        before = data[:error.start].split(b"\n")
        column = len(before[-1].decode("utf-8", "replace")) + 1
        raise NotationMistake((len(before), column), "this byte is no UTF-8 text (value %d); save the text as UTF-8" % (
            data[error.start])) from None


def cut(text):
    """The words of a text, without blanks and comments, one after another: of a long file that is no such text, only the first is asked
    for."""
    for number, line in enumerate(text.split("\n"), 1):
        yield from cut_line(line[:-1] if line.endswith("\r") else line, number)


def cut_line(line, number):
    found, at = [], 0
    while at < len(line):
        match = PATTERN.match(line, at)
        if match is None:
            raise NotationMistake((number, at + 1), no_word(line[at]))
        sort, text = match.lastgroup, match.group()
        if sort != "blank":
            found.append(Word(text.strip('"'), sort, number, at + 1, not found))
        at = match.end()
    return found


def no_word(character):
    if character == '"':
        return "this quote is not closed on its line"
    if character == "\r":
        return "a carriage return without a line feed behind it ends no line; save the text with line ends of Unix or Windows"
    if character in "<>":
        return "%s alone means nothing; the arrows are -> and <->" % shown(character)
    return "the character %s means nothing here" % shown(character)


def shown(text):
    """A piece of the text inside a message: short, on one line, and with nothing that a terminal would act on."""
    cut_off = text if len(text) <= LONGEST_SHOWN else text[:LONGEST_SHOWN] + "..."
    return "`%s`" % visible(cut_off)
