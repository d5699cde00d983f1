"""Clause files: every fault of a text with its line and column, the reader of the tool beside the proved nd_import on damaged texts, texts
around the limits, and random clauses in random layout, whose book is the checker's. The list of faults is whole, as in messages."""
import ast
import inspect
import random
from unittest import mock

from bookfile import Mistake, clause_text, importing
from checker.books import build
from checker.trees import disjunction as any_of, negative, positive

from book import Failed, check

FILES, DAMAGED, SEED = 1000, 20000, 23
P32, ROWS = b"p cnf 3 2\n", b"1 -2 0\n3 0\n"  # three options, two clauses
WHOLE = P32 + ROWS
LINE_OR_COMMENT = "a comment line, which begins with `c`, or the line `p cnf V C` is expected; here stands "
SINGLE = "in `p cnf V C`, which has single spaces, "
AFTER_NUMBER = "a space, a tab or a line end is expected after a number; here stands "
FAULTS = (
    # the text, with one fault where that can be; the line and column, words of the message
    (b"", 1, 1, LINE_OR_COMMENT + "the end of the text"),
    (b"c only a comment", 1, 17, LINE_OR_COMMENT + "the end of the text"),
    (b"c one\nc two\n", 3, 1, LINE_OR_COMMENT + "the end of the text"),
    (b"\n" + WHOLE, 1, 1, LINE_OR_COMMENT + "a line end"), (b"\r\n" + WHOLE, 1, 1, LINE_OR_COMMENT + "a line end"),
    (b"c one\n\n" + WHOLE, 2, 1, LINE_OR_COMMENT + "a line end"), (b"c one\n \n" + WHOLE, 2, 1, LINE_OR_COMMENT + "a space"),
    (b" c one\n" + WHOLE, 1, 1, LINE_OR_COMMENT + "a space"), (b" " + WHOLE, 1, 1, LINE_OR_COMMENT + "a space"),
    (b"\t" + WHOLE, 1, 1, LINE_OR_COMMENT + "a tab"), (b"# one\n" + WHOLE, 1, 1, LINE_OR_COMMENT + "`#`"),
    (b"1 -2 0\n" + WHOLE, 1, 1, LINE_OR_COMMENT + "`1`"), (b"c\rC one\nC two\n" + WHOLE, 2, 1, LINE_OR_COMMENT + "`C`"),
    (b"\r" + WHOLE, 1, 1, LINE_OR_COMMENT + "a byte 13 with no 10 after it"),
    (b"\xc3\xa4\n" + WHOLE, 1, 1, LINE_OR_COMMENT + "a byte of value 195"),
    (b"\xef\xbb\xbf" + WHOLE, 1, 1, "a mark of UTF-8 stands before the text"),
    (b"p", 1, 2, SINGLE + "a space is expected; here stands the end of the text"),
    (b"p\n", 1, 2, SINGLE + "a space is expected; here stands a line end"),
    (b"p\tcnf 3 2\n" + ROWS, 1, 2, SINGLE + "a space is expected; here stands a tab"),
    (b"c one\np  cnf 3 2\n" + ROWS, 2, 3, SINGLE + "`c` is expected; here stands a space"),
    (b"p dnf 3 2\n" + ROWS, 1, 3, SINGLE + "`c` is expected; here stands `d`"), (b"p CNF 3 2\n" + ROWS, 1, 3, "here stands `C`"),
    (b"p cnf\t3 2\n" + ROWS, 1, 6, SINGLE + "a space is expected; here stands a tab"),
    (b"p cnf+ 3 2\n" + ROWS, 1, 6, SINGLE + "a space is expected; here stands `+`"),
    (b"p cnf  3 2\n" + ROWS, 1, 7, "V, the number of options, is expected; here stands a space"),
    (b"p cnf +3 2\n" + ROWS, 1, 7, "V, the number of options, is expected; here stands `+`"),
    (b"p cnf -3 2\n" + ROWS, 1, 7, "V, the number of options, is expected; here stands `-`"),
    (b"p cnf \n", 1, 7, "V, the number of options, is expected; here stands a line end"),
    (b"p cnf 03 2\n" + ROWS, 1, 7, "a number has no leading zeros; this is `03`"), (b"p cnf 00 0\n", 1, 7, "leading zeros; this is `00`"),
    (b"p cnf 3", 1, 8, "one space is expected between V and C; here stands the end of the text"),
    (b"p cnf 3\n" + ROWS, 1, 8, "one space is expected between V and C; here stands a line end"),
    (b"p cnf 3\t2\n" + ROWS, 1, 8, "one space is expected between V and C; here stands a tab"),
    (b"p cnf 3.0 2\n" + ROWS, 1, 8, "one space is expected between V and C; here stands `.`"),
    (b"p cnf 3  2\n" + ROWS, 1, 9, "C, the number of clauses, is expected; here stands a space"),
    (b"p cnf 3 \n" + ROWS, 1, 9, "C, the number of clauses, is expected; here stands a line end"),
    (b"p cnf 3 02\n" + ROWS, 1, 9, "a number has no leading zeros; this is `02`"),
    (b"p cnf 3 2 \n" + ROWS, 1, 10, "the p line ends after C; here stands a space"),
    (b"p cnf 3 2\t\r\n" + ROWS, 1, 10, "the p line ends after C; here stands a tab"),
    (b"p cnf 3 2 1\n" + ROWS, 1, 10, "the p line ends after C; here stands a space"),
    (b"p cnf 3 2\r1 0 2 0", 1, 10, "the p line ends after C; here stands a byte 13 with no 10 after it"),
    (b"p cnf 3 0\r", 1, 10, "the p line ends after C; here stands a byte 13 with no 10 after it"),
    (b"p cnf 3 2\r\r\n" + ROWS, 1, 10, "the p line ends after C; here stands a byte 13 with no 10 after it"),
    (P32 + b"1 -02 0 3 0\n", 2, 3, "a number has no leading zeros; this is `02`"), (P32 + b"1 00 0", 2, 3, "this is `00`"),
    (P32 + b"1 0\n+2 0\n", 3, 1, "a number has no plus"), (P32 + b"1 -0 0", 2, 3, "0 closes a clause and has no minus; this is `-0`"),
    (P32 + b"1 - 2 0 0", 2, 3, "a minus stands directly before the digits of a mark; after it stands a space"),
    (P32 + b"1 0 2 0 -", 2, 9, "a minus stands directly before the digits of a mark; after it stands the end of the text"),
    (P32 + b"1 --2 0 0", 2, 3, "a minus stands directly before the digits of a mark; after it stands `-`"),
    (P32 + b"1 4 0 0", 2, 3, "a mark is a number from 1 to V, and V is 3; this is 4"),
    (P32 + b"1\n-10 0 0", 3, 1, "a mark is a number from 1 to V, and V is 3; this is 10"),
    (P32 + b"1 " + b"9" * 5000 + b" 0 0", 2, 3, "and V is 3; this is `999"),
    (b"p cnf " + b"9" * 30 + b" 1\n1" + b"0" * 30 + b" 0", 2, 1, "and V is `999"), (b"p cnf 0 1\n1 0", 2, 1, "and V is 0; this is 1"),
    (P32 + b"1 2", 2, 4, "0 is expected, to close the clause that begins in line 2, column 1; here the text ends"),
    (P32 + b"1 0\n -2\n3\n", 5, 1, "0 is expected, to close the clause that begins in line 3, column 2; here the text ends"),
    (P32, 2, 1, "a clause is expected, since C is 2; here the text ends, after 0 clauses"),
    (P32 + b"1 0\n", 3, 1, "a clause is expected, since C is 2; here the text ends, after 1 clause"),
    (b"p cnf 3 10000\n0", 2, 2, "a clause is expected, since C is 10,000; here the text ends, after 1 clause"),
    (b"p cnf 3 " + b"9" * 5000 + b"\n0", 2, 2, "a clause is expected, since C is `999"),
    (P32 + b"1 0 2 0 3 0", 2, 9, "nothing but spaces, tabs and line ends is expected after the last clause, and C is 2; here stands `3`"),
    (P32 + b"0 0 0", 2, 5, "is expected after the last clause, and C is 2; here stands `0`"),
    (b"p cnf 3 0\n\n0", 3, 1, "is expected after the last clause, and C is 0; here stands `0`"),
    (P32 + b"1 0\nc two\n2 0", 3, 1, "a comment line stands before the p line alone"),
    (P32 + b"1 0 2 0\nc the end\n", 3, 1, "a comment line stands before the p line alone"),
    (P32 + b"1 0 c 2 0", 2, 5, "a number, a space, a tab or a line end is expected; here stands `c`"),
    (P32 + b"1 0 2 0\n%\n0\n", 3, 1, "a number, a space, a tab or a line end is expected; here stands `%`"),
    (WHOLE + P32, 4, 1, "a number, a space, a tab or a line end is expected; here stands `p`"),
    (P32 + b"1 0 \r2 0", 2, 5, "a number, a space, a tab or a line end is expected; here stands a byte 13 with no 10 after it"),
    (P32 + b"1 0 2 0\n\r", 3, 1, "here stands a byte 13 with no 10 after it"), (P32 + b"1 0 2 0 \x1a", 2, 9, "a byte of value 26"),
    (P32 + b"1 0 2 0\0", 2, 8, AFTER_NUMBER + "a byte of value 0"), (P32 + b"1\x0b2 0 0", 2, 2, AFTER_NUMBER + "a byte of value 11"),
    (P32 + b"1\r2 0 0", 2, 2, AFTER_NUMBER + "a byte 13 with no 10 after it"), (P32 + b"1-2 0 0", 2, 2, AFTER_NUMBER + "`-`"),
    (P32 + b"1,2 0 0", 2, 2, AFTER_NUMBER + "`,`"), (P32 + b"1 0 2 0c", 2, 8, AFTER_NUMBER + "`c`"), (P32 + b"1e0 0 0", 2, 2, "`e`"))
ACCEPTED = (
    # the text, V, and each clause by its numbers
    (b"p cnf 0 0", 0, []), (b"p cnf 512 0\r\n", 512, []), (b"p cnf 2 0\n \t\r\n\n", 2, []), (b"p cnf 0 2\n0\n0", 0, [[], []]),
    (b"c\ncnf\nc\r\r\xff\0 p cnf 1 1\r\np cnf 2 1\r\n1 -2 0\r\n", 2, [[1, -2]]), (b"p cnf 3 2\n1 1 -1\n0\t\t-3   0", 3, [[1, 1, -1], [-3]]),
    (b"p cnf 3 2\n\n\r\n \t3\n\n0 0 ", 3, [[3], []]))


def clause_file(options, clauses):
    rows = b"".join(b"%d " % mark for clause in clauses for mark in [*clause, 0])
    return b"p cnf %d %d\n" % (options, len(clauses)) + rows


# What is at each limit, and over it: options, clauses, what is told.
LIMITS = (
    (512, [], ()), (513, [], ("V, the number of options, is 513; 512 is the most",)),
    (1, [[]] * 4095, ()), (1, [[]] * 4096, ("C, the number of clauses, is 4,096; 4,095 is the most", "nodes (C and the marks) is 4,096",
                                            "the weight (1, C and twice the marks) is 4,097; 4,096 is the most")),
    (1, [[1] * 2047], ()), (1, [[1] * 2047, []], ("the weight (1, C and twice the marks) is 4,097",)), (1, [[-1] * 2048], ("is 4,098",)),
    (1, [[1]] * 1365, ()), (1, [[1]] * 1366, ("the weight (1, C and twice the marks) is 4,099",)),
    (1, [[1] * 4094], ("is 8,190; 4,096",)), (1, [[1] * 4095], ("nodes (C and the marks) is 4,096; 4,095 is the most", "is 8,192; 4,096")),
    (10 ** 30, [[10 ** 30]], ("V, the number of options, is `1000000000000000000000000000000`; 512 is the most",)),
    (10 ** 100, [[1] * 5000], ("options, is `1000", "nodes (C and the marks) is 5,001", "is 10,002")))


def book_due(options, clauses):
    """By the checker: each clause one any-of of its marks."""
    return build([b"V%d" % number for number in range(1, options + 1)],
                 [any_of(*(positive(mark - 1) if mark > 0 else negative(-mark - 1) for mark in clause)) for clause in clauses])


def found_in(text):
    """(refusal, where, words) by the reader: 15, 16, or 0 where the text is a clause file within the limits."""
    try:
        over = clause_text.over_limits(clause_text.read(text))
    except clause_text.Fault as fault:
        return 15, clause_text.place(text, fault.at), str(fault)
    return (16, None, "; ".join(over)) if over else (0, None, "")


def raised_at(text):
    """The line of the reader that raises the fault of a text."""
    try:
        clause_text.read(text)
    except clause_text.Fault as fault:
        last = fault.__traceback__
        while last.tb_next is not None:
            last = last.tb_next
        return last.tb_lineno
    raise Failed("no fault was found in %r" % text)


def check_faults(imported):
    met = set()
    for text, line, column, due in FAULTS:
        number, where, words = found_in(text)
        check((number, where) == (15, (line, column)), "a fault at", (line, column), "is found as", number, where, text[:99], words)
        check(due in words and "\n" not in words and len(words) < 200, "the words are", words, "and not", due)
        check(imported(text) == (15, None), "the library does not refuse 15:", text[:99])
        met.add(raised_at(text))
    for each in ast.walk(ast.parse(inspect.getsource(clause_text))):
        if isinstance(each, ast.Raise):
            check(any(each.lineno <= line <= each.end_lineno for line in met), "no case meets the fault of line", each.lineno)


def check_accepted(imported):
    for text, options, clauses in ACCEPTED:
        check(found_in(text)[0] == 0, "the reader refuses", text, found_in(text))
        check(imported(text) == (0, book_due(options, clauses)), "another book is made of", text)


def check_limits(imported):
    for options, clauses, due in LIMITS:
        text = clause_file(options, clauses)
        number, _, words = found_in(text)
        check(number == (16 if due else 0), "at a limit the reader says", number, words)
        check(all(each in words for each in due) and words.count(" is the most") == len(due), "over a limit the words are", words)
        check(imported(text) == ((16, None) if due else (0, book_due(options, clauses))), "at a limit another answer is due:", words)
        check(imported(text + b"1")[0] == 15, "a fault beside too large a file is not refused 15")


def random_clauses(rng):
    options = rng.choice((0, 1, 2, 5, 12, 100, 512))
    marks = [mark for mark in range(-options, options + 1) if mark]
    sizes = [rng.choice((0, 1, 1, 2, 3, 3, 9)) if marks else 0 for _ in range(rng.choice((0, 1, 2, 4, 30)))]
    return options, [[rng.choice(marks) for _ in range(size)] for size in sizes]


def random_layout(rng, options, clauses):
    """A clause file of these clauses, with comments before it and blanks of every sort in it."""
    ends = (b"\n", b"\r\n")
    comments = [b"c" + bytes(rng.choice(b"c p\r\t 10-\xff") for _ in range(rng.randint(0, 9))) for _ in range(rng.choice((0, 0, 1, 3)))]
    lines = [line + rng.choice(ends) for line in [*comments, b"p cnf %d %d" % (options, len(clauses))]]

    def blanks(fewest):
        return b"".join(rng.choice((b" ", b" ", b"\t", *ends)) for _ in range(rng.choice((fewest, fewest, 1, 3))))
    numbers = [b"%d" % mark for clause in clauses for mark in [*clause, 0]]
    return b"".join(lines) + blanks(0) + b"".join(number + blanks(1) for number in numbers[:-1]) + b"".join(numbers[-1:]) + blanks(0)


def damaged(rng, text):
    pieces = (b"", b" ", b"\t", b"\n", b"\r\n", b"\r", b"0", b"1", b"9", b"-", b"+", b"c", b"p", b"%", b"\0", b" 0 ", b" 1 0\n",
              b"p cnf 2 1\n")
    for _ in range(rng.choice((1, 1, 2))):
        at = rng.randrange(len(text) + 1)
        end = min(len(text), at + rng.choice((0, 0, 1, 1, 2, 7)))
        text = text[:at] + rng.choice(pieces) + text[end:]
    return text


def check_random(imported):
    """Whole files, then damaged ones: the reader finds what the library answers, and where it finds a fault, that is inside the text."""
    rng, answers = random.Random(SEED), {0: 0, 15: 0, 16: 0}
    for _ in range(FILES):
        options, clauses = random_clauses(rng)
        text = random_layout(rng, options, clauses)
        check(found_in(text)[0] == 0 and imported(text) == (0, book_due(options, clauses)), "another book is due of", text)
        for _ in range(DAMAGED // FILES):
            worse = damaged(rng, text)
            number, where, words = found_in(worse)
            check(imported(worse)[0] == number, "the reader finds", number, words, "and the library", imported(worse)[0], "in", worse)
            answers[number] += 1
            if where is not None:
                lines = worse.split(b"\n")
                check(where[0] <= len(lines) and 1 <= where[1] <= len(lines[where[0] - 1]) + 1, "a fault outside the text:", where, worse)
    check(answers[0] > DAMAGED // 20 and answers[15] > DAMAGED // 4, "damaged texts:", answers)


def check_words():
    """What the tool says where the reader and the library differ: that it cannot tell, and nothing made up."""
    good, bad, large = b"p cnf 1 1\n1 0", b"p cnf 1 1\n1", clause_file(513, [])
    refused, missing = importing.nibdrumlin.Refused, importing.nibdrumlin.LibraryMissing
    lost = "this tool cannot say"
    for text, number, due in ((good, 15, lost), (large, 15, lost), (good, 16, lost), (bad, 16, lost), (bad, 15, "0 is expected"),
                              (large, 16, "refused 16: V, the number")):
        told = told_of(text, refused("nd_import", number))
        check(due in told and (lost in told) == (due == lost), "refused", number, "the tool says", told)
        check(due != lost or told.startswith("refused %d: " % number), "the number is lost:", told)
    check(told_of(good, missing("run it")) == "run it", "a missing library is not told")


def told_of(text, answer):
    """What the tool says of a text to which the library gives this answer."""
    with mock.patch.object(importing.nibdrumlin.Book, "from_clauses", side_effect=answer):
        try:
            importing.book_of(text)
        except Mistake as told:
            return str(told)
    raise Failed("a book was made in spite of %s" % answer)


def imported_by_the_library(text):
    """(refusal or 0, the book)"""
    try:
        return 0, importing.nibdrumlin.Book.from_clauses(text).data
    except importing.nibdrumlin.Refused as refusal:
        return refusal.number, None


def run(accepted):
    check_faults(imported_by_the_library)
    check_accepted(imported_by_the_library)
    check_limits(imported_by_the_library)
    check_random(imported_by_the_library)
    check_words()
    return "%d faults of clause files, %d damaged ones" % (len(FAULTS), DAMAGED)
