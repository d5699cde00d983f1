"""Clause files: a DIMACS CNF text read, and the book that it becomes.

Document 02, U7: "Import shall accept comment lines starting with c, then one line "p cnf V C", then
C clauses, each closed by 0." Marks are kept as the file has them: v for option v - 1, -v for the
same option barred. Numbers are Python's, so that none is too long to be compared.
"""
import re
from typing import NamedTuple

from . import Refused, books
from .trees import ROOT, Tree, disjunction, negative, numbers, positive, weight

# "All numbers are decimal without leading zeros, and the p line has single spaces."
P_LINE = re.compile(rb"p cnf (0|[1-9][0-9]*) (0|[1-9][0-9]*)")
# "A clause's numbers are 1 to V, a minus directly before the barred ones"; 0 closes a clause.
NUMBER = re.compile(rb"0|-?[1-9][0-9]*")
# "spaces, tabs and line ends", of which "at least one between two" numbers
BLANK = re.compile(rb" |\t|\r?\n")
AT_ONCE = 4000  # so many digits Python reads at once


class ClauseFile(NamedTuple):
    options: int  # V
    clauses: list  # each the list of its marks, in file order


def first_line(text):
    """(the first line without its end, the text after it). "A line ends at byte 10, with or without
    13 before it, or at the end of the text." """
    line, end, rest = text.partition(b"\n")
    return (line[:-1] if end and line.endswith(b"\r") else line), rest


def value(digits):
    """The number that these digits are, however many; a minus may stand before them."""
    if len(digits) <= AT_ONCE:
        return int(digits)
    if digits.startswith(b"-"):
        return -value(digits[1:])
    return value(digits[:-AT_ONCE]) * 10 ** AT_ONCE + int(digits[-AT_ONCE:])


def words_of(rest):
    """What stands after the p line: "any spaces, tabs and line ends may stand before and after
    numbers, at least one between two, and nothing else." """
    words = [word for word in BLANK.split(rest) if word]
    if not all(map(NUMBER.fullmatch, words)):
        raise Refused(15)
    return words


def clauses_of(words, options):
    """Clauses, "each closed by 0", of numbers "1 to V" """
    clauses, open_clause = [], []
    for number in map(value, words):
        if abs(number) > options:
            raise Refused(15)
        if number == 0:
            clauses.append(open_clause)
            open_clause = []
        else:
            open_clause.append(number)
    if open_clause:
        raise Refused(15)
    return clauses


def parse(text):
    """The ClauseFile in this text, or refused: "15 text of any other form"."""
    line, rest = first_line(bytes(text))
    while line.startswith(b"c"):  # "comment lines starting with c, then one line .."
        line, rest = first_line(rest)
    head = P_LINE.fullmatch(line)
    if head is None:
        raise Refused(15)
    options, count = map(value, head.groups())
    clauses = clauses_of(words_of(rest), options)
    if len(clauses) != count:  # "then C clauses"
        raise Refused(15)
    return ClauseFile(options, clauses)


def rules_of(clauses):
    """ "Each clause becomes one any-of, a lone mark too, clauses and marks in file order." """
    return [disjunction(*(positive(number - 1) if number > 0 else negative(-number - 1)
                          for number in clause)) for clause in clauses]


def check_limits(options, rules):
    """ "16 V over 512, C or the body nodes over 4,095, or weight over 4,096" """
    root = Tree(ROOT, rules)
    body_nodes = sum(len(numbers(rule)) for rule in rules)
    if options > 512 or len(rules) > 4095 or body_nodes > 4095 or weight(root) > 4096:
        raise Refused(16)


def book_of(text):
    """The bytes of the book. "Option v - 1 gets as code the letter V and the decimal v." """
    options, clauses = parse(text)
    rules = rules_of(clauses)
    check_limits(options, rules)
    return books.build([b"V%d" % number for number in range(1, options + 1)], rules)


def import_text(text, output):
    """(length, output after), "by the writer's rules for its output": it "fills from the start and
    returns the length; bytes beyond stay". "15 goes first, 12 last." """
    book = list(book_of(text))
    if len(output) < len(book):  # "12 output shorter than needed"
        raise Refused(12)
    return len(book), book + list(output[len(book):])
