"""Every mistake of the notation: the line, the column and the words. The list is whole: each place in the tool's modules that raises
such a mistake is met by a case."""
import ast
import inspect
import re

from bookfile import grammar, notation, spelling, words
from bookfile.words import NotationMistake

from book import Failed, check

AB = "option A\noption B\n"
MANY_OPTIONS = "".join("option C%d\n" % number for number in range(513))
CASES = (
    # the text, the line and column, words of the message
    (AB + "rule A -> ", 3, 8, "a formula is missing after `->`"),
    (AB + "rule A -> \nrule B", 3, 8, "a formula is missing after `->`"),
    (AB + "rule A B", 3, 8, "nothing joins `B` to the formula before it"),
    (AB + "rule (A B)", 3, 9, "nothing joins `B` to the formula before it"),
    (AB + "rule A (B)", 3, 6, "`A` is no group"),
    (AB + "rule (A) (B)", 3, 10, "nothing joins `(`"),
    (AB + "rule any(A B)", 3, 12, "a comma or an arrow is missing before `B`"),
    (AB + "ruel any(A, B)", 3, 1, "a statement starts with `option` or `rule`"),
    (AB + "rule A\nruel any(A, B)", 4, 1, "a statement starts with `option` or `rule`"),
    ("ruel any(A, B)", 1, 1, "a statement starts with `option` or `rule`"),
    ("Option A", 1, 1, "in small letters; this is `Option`"),
    (AB + "RULE A", 3, 1, "in small letters; this is `RULE`"),
    ("any(A, B)", 1, 1, "this is `any`"),
    ("option BODY_A", 1, 12, "`_` cannot stand in the code `BODY_A`"),
    ('option "BODY A"', 1, 13, "` ` cannot stand in the code"),
    ("option \u00c4", 1, 8, "`\u00c4` cannot stand in the code"),
    ("option ABCDEFGHIJKLMN", 1, 8, "has 14 characters; a code has 1 to 13"),
    ('option ""', 1, 8, "has 0 characters"),
    ("option", 1, 1, "no code follows `option` on its line"),
    ("option\nA", 1, 1, "no code follows `option` on its line"),
    ("option all", 1, 8, 'for a code of that name write "all"'),
    ("option (A)", 1, 8, "a code is missing before `(`"),
    ("option A B", 1, 10, "each option has a line of its own: write `option B` on the next, or # before it if it is a comment"),
    ('option A "all"', 1, 10, "a line of its own: write `option \"all\"` on the next"),
    ("option A " + "B" * 5000, 1, 10, "a line of its own: write `option BBB"),
    ("option A option B", 1, 10, "`option` begins a line of its own: break the line before it"),
    ("option A rule A", 1, 10, "`rule` begins a line of its own: break the line before it"),
    ("option A, B", 1, 9, "each option has a line of its own, and no comma: write `option B` on the next"),
    ('option A,"B"', 1, 9, "each option has a line of its own, and no comma: write `option \"B\"` on the next"),
    ("option A,\noption B", 1, 9, "each option has a line of its own, and no comma"),
    ("option A,\nB", 1, 9, "each option has a line of its own, and no comma"),
    ("option A (the small one)", 1, 10, "nothing but a comment, which begins with #, may follow the code of an option; this is `(`"),
    ("option A // the small one", 1, 10, "a comment, which begins with #, may follow the code of an option; this is `//`"),
    ("option A -- the small one", 1, 10, "a comment, which begins with #, may follow the code of an option; this is `--`"),
    ("option A B_1", 1, 10, "write `option B_1` on the next"),
    ("// options\noption A", 1, 1, "in small letters, and a comment with #; this is `//`"),
    (AB + "rule A\n;", 4, 1, "in small letters, and a comment with #; this is `;`"),
    (AB + "rule A rule B", 3, 8, "`rule` begins a line of its own: break the line before it"),
    (AB + "rule A option C", 3, 8, "`option` begins a line of its own: break the line before it"),
    (AB + "rule any(A, B rule B", 3, 15, "break the line before it, and close the parenthesis of `any` first"),
    (AB + "\n option A", 4, 9, "the code `A` is that of an option already, on line 1"),
    (MANY_OPTIONS, 513, 1, "one option too many: a book has at most 512"),
    (AB + "rule any(A, BODY-X)", 3, 13, "no option has the code `BODY-X`"),
    ("option BODY-A\nrule BODYA", 2, 6, "no option has the code `BODYA`; is `BODY-A` meant?"),
    (AB + "rule at_most_one(X)", 3, 18, "no option has the code `X`"),
    (AB + "rule A_B", 3, 7, "`_` cannot stand in the code `A_B`"),
    (AB + "rule", 3, 1, "a formula is missing after `rule`"),
    (AB + "rule not", 3, 6, "a formula is missing after `not`"),
    (AB + "rule any(not)", 3, 10, "a formula is missing after `not`"),
    (AB + "rule any(A,)", 3, 11, "a formula is missing after `,`"),
    (AB + "rule any(A ->)", 3, 12, "a formula is missing after `->`"),
    (AB + "rule ()", 3, 6, "a formula is missing after `(`"),
    (AB + "rule any(,A)", 3, 10, "a formula is missing between `(` and `,`"),
    (AB + "rule -> A", 3, 6, "a formula is missing between `rule` and `->`"),
    (AB + "rule A -> <-> B", 3, 11, "a formula is missing between `->` and `<->`"),
    (AB + "rule A -> B -> A", 3, 13, "a second arrow: put parentheses"),
    (AB + "rule A, B", 3, 7, "a comma stands only inside all(..)"),
    (AB + "rule (A, B)", 3, 8, "a comma stands only inside all(..)"),
    (AB + "rule any(A, B", 3, 6, "the parenthesis of this `any` is not closed"),
    (AB + "rule any(A, (B)\nrule A", 3, 6, "the parenthesis of this `any` is not closed"),
    (AB + "rule (A", 3, 6, "the parenthesis of this `(` is not closed"),
    (AB + "rule any(A, B))", 3, 15, "this parenthesis closes nothing"),
    (AB + "rule )", 3, 6, "this parenthesis closes nothing"),
    (AB + "rule all", 3, 6, 'no parenthesis follows `all`; for a code of that name write "all"'),
    (AB + "rule one_of A", 3, 6, "no parenthesis follows `one_of`"),
    (AB + "rule ANY(A, B)", 3, 6, "`ANY` is no group; the groups are all(..), any(..), one_of(..)"),
    (AB + "rule Any(A, B)", 3, 6, "at_most_one(..), at_least(..) and exactly(..), in small letters"),
    (AB + "rule exactly_one(A, B)", 3, 6, "`exactly_one` is no group"),
    (AB + "rule at-least(1, A)", 3, 6, "`at-least` is no group"), (AB + "rule Exactly(1, A)", 3, 6, "`Exactly` is no group"),
    (AB + "rule any(A, option)", 3, 13, 'write "option"'),
    (AB + "rule any(A,\noption, B)", 4, 7, "a code is missing before `,`"),
    (AB + "rule A = B", 3, 8, "nothing joins `=`"),
    (AB + "rule A => B", 3, 9, "`>` alone means nothing; the arrows are -> and <->"),
    (AB + "rule A < B", 3, 8, "`<` alone means nothing"),
    (AB + 'rule "A', 3, 6, "this quote is not closed on its line"),
    (AB + "rule\u00a0A", 3, 5, "the character `U+00A0` means nothing here"),
    (AB + "rule \x1b[2JA", 3, 6, "`U+001B` cannot stand in the code `U+001B[2JA`"),
    (AB + "rule one_of(A, B, A)", 3, 19, "`A` stands twice in this one_of"),
    (AB + "rule at_most_one(A, A)", 3, 21, "`A` stands twice in this at_most_one"),
    (AB + "rule at_least", 3, 6, "no parenthesis follows `at_least`"),
    (AB + "rule exactly", 3, 6, "no option has the code `exactly`"),
    (AB + "rule exactly 1, A", 3, 14, "nothing joins `1` to the formula before it"),
    (AB + "rule at_least(", 3, 6, "the parenthesis of this `at_least` is not closed"),
    (AB + "rule at_least(1", 3, 6, "the parenthesis of this `at_least` is not closed"),
    (AB + "rule any(A, exactly(1, B\n)", 3, 6, "the parenthesis of this `any` is not closed"),
    (AB + "rule at_least()", 3, 15, "at_least begins with a number, as in at_least(2, A, B, C); this is `)`"),
    (AB + "rule at_least(A, B)", 3, 15, "at_least begins with a number, as in at_least(2, A, B, C); this is `A`"),
    (AB + "rule exactly(A, B)", 3, 14, "exactly begins with a number, as in exactly(2, A, B, C); this is `A`"),
    (AB + "rule at_least(\n  -1, A, B)", 4, 3, "begins with a number, as in at_least(2, A, B, C); this is `-1`"),
    (AB + 'rule at_least("1", A, B)', 3, 15, 'begins with a number, as in at_least(2, A, B, C); this is `"1"`'),
    (AB + "rule at_least(not 1, A)", 3, 15, "this is `not`"), (AB + "rule at_least(one, A)", 3, 15, "this is `one`"),
    (AB + "rule at_least(1.0, A)", 3, 15, "this is `1.0`"), (AB + "rule at_least(\u0663, A)", 3, 15, "this is `\u0663`"),
    (AB + "rule at_least((1), A)", 3, 15, "this is `(`"), (AB + "rule at_least(, A)", 3, 15, "this is `,`"),
    (AB + "rule at_least(64, A)", 3, 15, "at_least can ask for 63 at most; this is `64`"),
    (AB + "rule exactly(100, A)", 3, 14, "exactly can ask for 63 at most; this is `100`"),
    (AB + "rule at_least(" + "9" * 5000 + ", A)", 3, 15, "at_least can ask for 63 at most; this is `999"),
    (AB + "rule at_least(1 A, B)", 3, 17, "a comma is missing before `A`"),
    (AB + "rule at_least(1 -> A, B)", 3, 17, "a comma is missing before `->`"),
    (AB + "rule at_least(1,)", 3, 16, "a formula is missing after `,`"),
    (AB + "rule exactly(1, A,)", 3, 18, "a formula is missing after `,`"),
    (AB + "rule at_least(1,, A)", 3, 17, "a formula is missing between `,` and `,`"),
    (AB + "rule at_least(1, A B)", 3, 20, "a comma or an arrow is missing before `B`"),
    (AB + "rule at_least(1, A, any(B))", 3, 21, "a part of at_least is an option, true or false"),
    (AB + "rule at_least(1, A -> B)", 3, 20, "a part of at_least is an option, true or false"),
    (AB + "rule exactly(1,\n  not all(A, B))", 4, 3, "a part of exactly is an option, true or false"),
    (AB + "rule at_least(1, at_least(0))", 3, 18, "a part of at_least is an option, true or false"),
    (AB + "rule at_least(1, at_most_one())", 3, 18, "a part of at_least is an option, true or false"),
    (AB + "rule at_least(1, A, B, A)", 3, 24, "`A` stands twice in this at_least"),
    (AB + "rule exactly(1, A, not A)", 3, 24, "`A` stands twice in this exactly"),
    (AB + "rule at_least(1, not (not A), true, (A))", 3, 38, "`A` stands twice in this at_least"),
    (AB + "rule at_least(1, A, X)", 3, 21, "no option has the code `X`"),
    (AB + "rule at_least(1" + ", true" * 64 + ")", 3, 18 + 6 * 63, "one part too many: at_least has at most 63"),
    (AB + "rule any(" + "A, " * 4095 + "B)", 3, 1, "has more than 4,095 nodes"),
    (AB + "rule any(" + "exactly(1, A, B), " * 600 + "B)", 3, 1, "has more than 4,095 nodes"),
    (AB + "rule at_most_one(" + "not A, " * 100 + "B)", 3, 1, "has more than 4,095 nodes"),
    (AB + "rule " + "(A <-> " * 60 + "B" + ")" * 60, 3, 1, "has more than 4,095 nodes"),
    (AB + "rule any(" + "A, " * 2046 + "B, B)", 3, 1, "the book's weight (nodes and marks) is 4,098; 4,096 is the most"),
    (AB + "rule any(" + "A, " * 2046 + "B)\nrule true", 4, 1, "weight (nodes and marks) is 4,097"),
    (AB + "rule true\n" * 4096, 4098, 1, "one rule too many: a book has at most 4,095"),
    (AB + "rule true\n" * 4094 + "rule all(true)", 4097, 1, "with this rule the book has 4,096 nodes; it has room for 4,095"))
NO_TEXT = (
    (b"option A\n# \xc3\xa4 \xff\n", 2, 5, "this byte is no UTF-8 text (value 255); save the text as UTF-8"),
    ("option A\n".encode("utf-16"), 1, 1, "this text is in UTF-16, as some editors save it; save it as UTF-8"),
    (b"\xfe\xff\0o", 1, 1, "this text is in UTF-16"),
    (b"option A\roption B\r", 1, 9, "a carriage return without a line feed behind it ends no line"))
# Texts that may mean two options: one who does as the message says has both.
TWO_OPTIONS = ("option A option B", "option A, B", "option A,B", "option A B", 'option "A" "B"', "option A, B, C")


def mistake_of(data):
    """(the mistake of a text, the module and line that raised it)"""
    try:
        notation.book_of(data)
    except NotationMistake as mistake:
        last = mistake.__traceback__
        while last.tb_next is not None:
            last = last.tb_next
        return mistake, (last.tb_frame.f_code.co_filename, last.tb_lineno)
    raise Failed("no mistake was found in %r" % data[-200:])


def raising_places():
    """Every place in the notation's modules that raises a mistake, as (module, first line, last line)."""
    for module in (words, grammar, spelling, notation):
        for each in ast.walk(ast.parse(inspect.getsource(module))):
            if isinstance(each, ast.Raise):
                yield module.__file__, each.lineno, each.end_lineno


def check_hints():
    """Whoever does what the message says has both options: none is lost in a comment."""
    for text in TWO_OPTIONS:
        mistake, _ = mistake_of(text.encode())
        done = mended(text, mistake)
        check(codes_of(done) == ["A", "B"], "of", repr(text), "is told:", mistake, "and that makes", repr(done))


def mended(text, mistake):
    """A text of one line after what its message says first: a line that it spells out, a line that is broken, or else a comment."""
    at = mistake.column - 1
    line = re.search("write `(option .*?)` on the next", str(mistake))
    if line:
        return text[:at] + "\n" + line.group(1)
    return text[:at] + ("\n" if "break the line before it" in str(mistake) else "#") + text[at:]


def codes_of(text):
    try:
        return notation.book_of(text.encode()).codes
    except NotationMistake:
        return None


def run(accepted):
    check_hints()
    met = set()
    for text, line, column, due in [*CASES, *NO_TEXT]:
        mistake, place = mistake_of(text if isinstance(text, bytes) else text.encode())
        given = (mistake.line, mistake.column)
        check(given == (line, column), "a mistake at", (line, column), "is told at", given, repr(text[-60:]), mistake)
        check(due in str(mistake), "the words are", mistake, "and not", due)
        check("\n" not in str(mistake) and len(str(mistake)) < 200, "too long a message:", mistake)
        met.add(place)
    for file, first, last in raising_places():
        check(any(file == where and first <= line <= last for where, line in met), "no case meets the mistake of", file, first)
    return "%d mistakes" % len([*CASES, *NO_TEXT])
