"""The check of a book: the refusals 1 to 6 of documents 01 and 02, in order, each with words that say what is wrong and where.

Bytes, options, rules and nodes are counted from 0, as document 01 counts them.
"""
from . import Mistake, books
from .books import AT_LEAST, CODE_BYTES, CODE_CHARACTERS, FALSE, GROUPS, HEAD_BYTES, MARKS, NODE_BYTES, PAIR_BYTES, TRUE

KINDS = MARKS + GROUPS


class Refused(Mistake):
    """A refusal of document 01, by its number."""

    def __init__(self, number, words):
        super().__init__("refused %d: %s" % (number, words))
        self.number = number


def read(data):
    """The Book in these bytes, or Refused."""
    if len(data) < HEAD_BYTES:
        raise Refused(1, "the file has %s; a book has at least %d, its head" % (counted(len(data), "byte"), HEAD_BYTES))
    options, rules, nodes = check_head(data)
    due = books.length_due(options, rules, nodes)
    if len(data) != due:
        raise Refused(1, "the file has %d bytes; by its head (%s, %s, %s) it must have %d" % (
            len(data), counted(options, "option"), counted(rules, "rule"), counted(nodes, "node"), due))
    contents = HEAD_BYTES + CODE_BYTES * options
    bodies = contents + PAIR_BYTES * rules
    codes = check_codes(data[HEAD_BYTES:contents])
    counts = check_contents(books.numbers_in(data[contents:bodies]), contents, nodes)
    found = check_bodies(books.numbers_in(data[bodies:]), counts, bodies, options)
    book = books.Book(codes, found)
    if books.weight(book) > books.MOST_WEIGHT:
        raise Refused(6, "the weight is %s (1, and 1 for each of %s, and 1 more for each mark); %s is the most" % (
            in_thousands(books.weight(book)), counted(nodes, "node"), in_thousands(books.MOST_WEIGHT)))
    return book


def check_head(data):
    """(options, rules, nodes)"""
    *numbers, zero = books.numbers_in(data[:HEAD_BYTES])
    limits = (("options", books.MOST_OPTIONS), ("rules", books.MOST_RULES), ("nodes", books.MOST_NODES))
    for place, (number, (what, most)) in enumerate(zip(numbers, limits)):
        if number > most:
            raise Refused(2, "byte %d: the head says %s %s; %s is the most" % (
                2 * place, in_thousands(number), what, in_thousands(most)))
    if zero != 0:
        raise Refused(2, "byte 6: the fourth number of the head is %s; it must be 0" % in_thousands(zero))
    return numbers


def check_codes(data):
    """The codes as strings."""
    seen = {}
    for option in range(len(data) // CODE_BYTES):
        start = CODE_BYTES * option
        code = code_in(data[start:start + CODE_BYTES], option)
        if code in seen:
            raise Refused(3, "byte %d: the code %s of option %d is that of option %d already" % (
                HEAD_BYTES + start, code, option, seen[code]))
        seen[code] = option
    return list(seen)


def code_in(stored, option):
    """The code in 13 bytes: its characters, then zero bytes."""
    code = stored.rstrip(b"\0").decode("latin-1")
    start = HEAD_BYTES + CODE_BYTES * option
    if not code:
        raise Refused(3, "byte %d: the code of option %d is empty" % (start, option))
    for place, character in enumerate(code):
        if character == "\0":
            raise Refused(3, "byte %d: a zero byte inside the code of option %d; after it only zero bytes may stand" % (
                start + place, option))
        if character not in CODE_CHARACTERS:
            raise Refused(3, "byte %d: %s inside the code of option %d; a code has letters A-Z a-z, digits and hyphens alone" % (
                start + place, "byte value %d" % ord(character), option))
    return code


def check_contents(pairs, start, nodes):
    """The node counts of the rules. The sums are exact: they do not wrap at 16 bits."""
    total = 0
    for rule, (first, count) in enumerate(zip(pairs[::2], pairs[1::2])):
        place = start + PAIR_BYTES * rule
        if first != total:
            raise Refused(4, "byte %d: the contents say that rule %d begins at node %d; the rules before it end at node %d" % (
                place, rule, first, total))
        if count == 0:
            raise Refused(4, "byte %d: the contents say that rule %d has no nodes" % (place + 2, rule))
        total += count
    if total != nodes:
        raise Refused(4, "the contents give the rules %s in all; the head (byte 4) says %s" % (
            counted(total, "node"), in_thousands(nodes)))
    return pairs[1::2]


def check_bodies(nodes, counts, start, options):
    """The nodes of each rule."""
    found, first = [], 0
    for rule, count in enumerate(counts):
        body = nodes[first:first + count]
        check_body(body, rule, start + NODE_BYTES * first, options)
        found.append(body)
        first += count
    return found


def check_body(body, rule, start, options):
    """One tree, a node before its children."""
    due = 1  # trees that must still come
    for place, number in enumerate(body):
        where = "byte %d: node %d of rule %d" % (start + NODE_BYTES * place, place, rule)
        kind, value = books.taken_apart(number)
        if due == 0:
            raise Refused(5, where + " stands after the end of the rule's tree")
        if kind not in KINDS:
            raise Refused(5, where + " is of kind %d; a rule has kinds 1 to 4 and 6 alone" % kind)
        if kind in MARKS and value >= options:
            raise Refused(5, where + " names option %d; the book has %s, counted from 0" % (value, counted(options, "option")))
        due += books.children_of(number) - 1
    if due > 0:
        raise Refused(5, "byte %d: rule %d ends here with %s missing" % (
            start + NODE_BYTES * len(body), rule, counted(due, "child", "children")))
    for place, number in enumerate(body):
        if books.taken_apart(number)[0] == AT_LEAST:
            check_members(body, place, rule, start)


def check_members(body, place, rule, start):
    """What an at-least counts: marks of different options, true and false. Each is one node, so they stand right behind it."""
    named = {}
    for member in range(place + 1, place + 1 + books.children_of(body[place])):
        where = "byte %d: node %d of rule %d" % (start + NODE_BYTES * member, member, rule)
        if body[member] in (TRUE, FALSE):
            continue
        kind, value = books.taken_apart(body[member])
        if kind not in MARKS:
            raise Refused(5, where + " hangs from the at-least at node %d, which takes marks, true and false alone" % place)
        if value in named:
            raise Refused(5, where + " names option %d again in the at-least at node %d; node %d does already" % (
                value, place, named[value]))
        named[value] = member


def counted(number, one, many=None):
    return "%s %s" % (in_thousands(number), one if number == 1 else many or one + "s")


def in_thousands(number):
    return "{:,}".format(number)
