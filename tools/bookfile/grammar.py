"""Words to statements and formulas.

    text      = { statement }                    each statement starts on a line of its own
    statement = "option" CODE                    on one line
              | "rule" formula                   over as many lines as it takes
    formula   = side [ ("->" | "<->") side ]
    side      = { "not" } item
    item      = CODE | "true" | "false" | "(" formula ")"
              | ("all" | "any" | "one_of" | "at_most_one") "(" [ formula { "," formula } ] ")"
              | ("at_least" | "exactly") "(" NUMBER { "," member } ")"
    member    = a formula that is an option, true or false, each with any number of "not" before it
    CODE      = a code as it is, or in quotes; in quotes where it is a word of the notation
    NUMBER    = decimal digits, 0 to 63; without quotes
"""
from typing import NamedTuple

from .books import CODE_BYTES, CODE_CHARACTERS, MOST_MEMBERS
from .words import NotationMistake, Word, shown

STARTS = ("option", "rule")
COUNTED = ("at_least", "exactly")  # groups that begin with a number
GROUP_WORDS = ("all", "any", "one_of", "at_most_one") + COUNTED
CONSTANTS = {"true": "all", "false": "any"}  # as groups without parts
# The words of the notation that could be codes too. `exactly` is none: before a parenthesis no code can stand, and anywhere else it is
# a code, as it was before it became a group.
RESERVED = STARTS + ("all", "any", "not", "true", "false")
GROUPS_IN_WORDS = "all(..), any(..), one_of(..), at_most_one(..), at_least(..) and exactly(..)"


class Formula(NamedTuple):
    form: str  # code, not, ->, <-> or a word of GROUP_WORDS
    parts: tuple  # of formulas
    word: Word  # where it stands; of a code, the code
    count: int = 0  # of a group that begins with a number, that number


class Statement(NamedTuple):
    start: Word
    words: list  # those after the first


def statements(words):
    """The statements of a text, in its order."""
    found = []
    for word in words:
        if word.first and word.is_bare(*STARTS):
            found.append(Statement(word, []))
        elif not found:
            raise no_start(word)
        else:
            found[-1].words.append(word)
    return found


def no_start(word):
    return NotationMistake(word, "a statement starts with `option` or `rule`, in small letters%s; this is %s" % (
        ", and a comment with #" if is_decoration(word) else "", shown(word.text)))


def is_decoration(word):
    """Whether a word is as // or --, by which other notations begin a comment, and nothing that could be meant as a code."""
    return word.sort == "bare" and not any(character.isalnum() for character in word.text)


def option_code(statement):
    """The word with the code of an option's statement."""
    if not statement.words or statement.words[0].line != statement.start.line:
        raise NotationMistake(statement.start, "no code follows `option` on its line")
    code, *more = statement.words
    check_code(code)
    if more and more[0].first:
        raise no_start(more[0])
    if more:
        raise NotationMistake(more[0], after_code(*more[:2]))
    return code


def after_code(word, following=None):
    """What to do with a word behind the code of an option. It may be meant as an option too: then it must not become a comment."""
    if word.is_bare(*STARTS):
        return own_line(word)
    if word.is_sign(","):
        words = "each option has a line of its own, and no comma"
        another = following is not None and following.sort != "sign" and not following.first
        return words + ": write %s on the next" % option_line(following) if another else words
    if word.sort == "sign" or is_decoration(word):
        return "nothing but a comment, which begins with #, may follow the code of an option; this is %s" % shown(word.text)
    return "each option has a line of its own: write %s on the next, or # before it if it is a comment" % option_line(word)


def option_line(word):
    return shown("option " + as_written(word))


def own_line(word):
    return "%s begins a line of its own: break the line before it" % shown(word.text)


def check_code(word):
    """Whether a word can be a code; whether an option has it is another question."""
    if word.sort == "sign":
        raise NotationMistake(word, "a code is missing before %s" % shown(word.text))
    if word.is_bare(*RESERVED):
        raise NotationMistake(word, '%s is a word of the notation; for a code of that name write "%s"' % (shown(word.text), word.text))
    for place, character in enumerate(word.text):
        if character not in CODE_CHARACTERS:
            raise NotationMistake((word.line, word.column + place + (word.sort == "quoted")), (
                "%s cannot stand in the code %s: a code has letters A-Z a-z, digits and hyphens alone" % (
                    shown(character), shown(word.text))))
    if not 1 <= len(word.text) <= CODE_BYTES:
        raise NotationMistake(word, "the code %s has %d characters; a code has 1 to %d" % (
            shown(word.text), len(word.text), CODE_BYTES))


class Level:
    """What is read so far inside one pair of parentheses, or of the rule outside all of them."""

    def __init__(self, form, start, last):
        self.form = form  # a word of GROUP_WORDS; "(" for parentheses alone; "rule" outside all
        self.start = start  # the word that opened it
        self.last = last  # the word that was read last
        self.count = 0  # the number that the group begins with, if it does
        self.parts = []  # whole formulas, each with a comma behind it
        self.left = self.arrow = None  # the left side, once an arrow stands behind it
        self.value = None  # the side that was read last; None where one must come
        self.negation = None  # the first `not` of those that wait for their item
        self.negated = False  # whether they are an odd number

    def put(self, item, last):
        """Takes an item as the side that must come."""
        self.value = Formula("not", (item,), self.negation) if self.negated else item
        self.negation, self.negated, self.last = None, False, last

    def formula(self):
        """The formula that ends here, both sides joined by their arrow."""
        if self.value is None:
            raise NotationMistake(self.last, "a formula is missing after %s" % shown(self.last.text))
        whole = self.value if self.arrow is None else Formula(self.arrow.text, (self.left, self.value), self.arrow)
        self.left = self.arrow = self.value = None
        return whole

    def is_empty(self):
        """Whether no part stands behind the opening parenthesis yet, nor anything that wants one."""
        return self.last.is_sign("(")


def rule_formula(statement):
    """The formula of a rule's statement."""
    levels = [Level("rule", statement.start, statement.start)]  # the innermost last
    words, at = statement.words, 0
    while at < len(words):
        at += take(levels, words[at], words[at + 1:at + 4])
    if len(levels) > 1:
        raise NotationMistake(levels[-1].start, "the parenthesis of this %s is not closed where the rule ends" % (
            shown(levels[-1].start.text)))
    return levels[0].formula()


def take(levels, word, following):
    """Reads a word, or the word of a group with what must follow it, up to three words; answers how many words it read."""
    level = levels[-1]
    if word.is_sign(")"):
        close(levels, word)
    elif level.value is not None:
        join(level, word)
    elif opens_group(word, following):
        return open_group(levels, word, following)
    elif word.is_sign("("):
        levels.append(Level("(", word, word))
    else:
        begin(level, word, following)
    return 1


def opens_group(word, following):
    """Whether a word is that of a group. `exactly` is so before a parenthesis alone: anywhere else it is a code."""
    if not word.is_bare(*GROUP_WORDS):
        return False
    if following and following[0].is_sign("("):
        return True
    if word.text == "exactly":
        return False
    raise NotationMistake(word, no_parenthesis(word))


def no_parenthesis(word):
    words = "no parenthesis follows %s" % shown(word.text)
    return words + '; for a code of that name write "%s"' % word.text if word.text in RESERVED else words


def open_group(levels, word, following):
    """Reads the word of a group, its parenthesis and, where it begins with one, its number with the comma behind it."""
    parenthesis, *following = following
    level = Level(word.text, word, parenthesis)
    levels.append(level)
    if word.text not in COUNTED or not following:
        return 2
    number, *following = following
    level.count = count_in(number, word.text)
    if not following or following[0].is_sign(")"):
        return 3
    if not following[0].is_sign(","):
        raise NotationMistake(following[0], "a comma is missing before %s" % shown(following[0].text))
    level.last = following[0]
    return 4


def count_in(word, group):
    """The number that a group begins with."""
    if word.sort != "bare" or not (word.text.isascii() and word.text.isdigit()):
        raise NotationMistake(word, "%s begins with a number, as in %s(2, A, B, C); this is %s" % (group, group, shown(as_written(word))))
    if len(word.text.lstrip("0")) > 2 or int(word.text) > MOST_MEMBERS:
        raise NotationMistake(word, "%s can ask for %d at most; this is %s" % (group, MOST_MEMBERS, shown(word.text)))
    return int(word.text)


def as_written(word):
    return '"%s"' % word.text if word.sort == "quoted" else word.text


def begin(level, word, following):
    """Reads a word that is no parenthesis where a side must come."""
    if word.sort == "sign":
        raise NotationMistake(word, "a formula is missing between %s and %s" % (shown(level.last.text), shown(word.text)))
    if word.is_bare("not"):
        level.negation, level.negated, level.last = level.negation or word, not level.negated, word
    elif word.is_bare(*CONSTANTS):
        level.put(Formula(CONSTANTS[word.text], (), word), word)
    elif following and following[0].is_sign("("):
        raise NotationMistake(word, "%s is no group; the groups are %s, in small letters" % (shown(word.text), GROUPS_IN_WORDS))
    else:
        check_code(word)
        level.put(Formula("code", (), word), word)


def join(level, word):
    """Reads a word behind a side."""
    if word.is_sign("->", "<->"):
        if level.arrow is not None:
            raise NotationMistake(word, "a second arrow: put parentheses around one of the two formulas with an arrow")
        level.left, level.arrow, level.value = level.value, word, None
    elif word.is_sign(",") and level.form in GROUP_WORDS:
        level.parts.append(level.formula())
    elif word.is_sign(","):
        raise NotationMistake(word, "a comma stands only inside %s" % GROUPS_IN_WORDS)
    elif word.is_bare(*STARTS):
        raise NotationMistake(word, own_line(word) + ("" if level.form == "rule" else ", and close the parenthesis of %s first" % (
            shown(level.start.text))))
    elif level.form == "rule" and word.first:
        raise no_start(word)
    elif level.form in GROUP_WORDS:
        raise NotationMistake(word, "a comma or an arrow is missing before %s" % shown(word.text))
    else:
        raise NotationMistake(word, "nothing joins %s to the formula before it: write an arrow between, or all(.., ..) or any(.., ..)" % (
            shown(word.text)))
    level.last = word


def close(levels, word):
    """Reads a closing parenthesis: what it closes is an item of the level around."""
    level = levels.pop()
    if not levels:
        raise NotationMistake(word, "this parenthesis closes nothing")
    if level.form == "(":
        levels[-1].put(level.formula(), word)
        return
    if not level.is_empty():
        level.parts.append(level.formula())
    if level.form in ("one_of", "at_most_one"):
        check_repeats(level, [part for part in level.parts if part.form == "code"])
    if level.form in COUNTED:
        check_members(level)
    levels[-1].put(Formula(level.form, tuple(level.parts), level.start, level.count), word)


def check_repeats(level, codes):
    """A code twice in one_of or at_most_one would bar its option for good: nobody means that. In at_least and exactly a book has no
    room for it."""
    seen = set()
    for code in codes:
        if code.word.text in seen:
            raise NotationMistake(code.word, "%s stands twice in this %s" % (shown(code.word.text), level.form))
        seen.add(code.word.text)


def check_members(level):
    """The parts of at_least and exactly: at most 63, each an option, true or false, negated or not, and no option twice."""
    for place, part in enumerate(level.parts):
        if place == MOST_MEMBERS:
            raise NotationMistake(part.word, "one part too many: %s has at most %d" % (level.form, MOST_MEMBERS))
        if without_not(part).form not in ("code", *CONSTANTS.values()) or without_not(part).parts:
            raise NotationMistake(part.word, "a part of %s is an option, true or false, each with or without `not`" % level.form)
    items = map(without_not, level.parts)
    check_repeats(level, [item for item in items if item.form == "code"])


def without_not(formula):
    """What stands behind every `not`."""
    while formula.form == "not":
        formula, = formula.parts
    return formula


def code_words(formula):
    """The words of all codes in a formula, in the order of the text."""
    found, waiting = [], [formula]
    while waiting:
        formula = waiting.pop()
        if formula.form == "code":
            found.append(formula.word)
        waiting.extend(reversed(formula.parts))
    return found
