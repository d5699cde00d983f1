"""Clause files imported: every form of the grammar, every fault, small texts with each byte
changed, and outputs of every length near the one due. (Texts by their form: clause_texts; with a
fault each: clause_faults. Numbers and texts of any length, and the limits: import_limits. Files as
others have them, and what they report: clause_shapes.)"""
from functools import partial

from checker.clause_files import value

from . import expect
from .clause_faults import FAULTS
from .clause_texts import (BYTES, FORMS, PARTS, changed, damaged, forms, inserted, plain,
                           random_clauses, restyled)
from .library import Lent, NoBytes

LEAST = 100  # how often each form, fault, limit and length must have been seen
MARKERS = bytes((37 * at + 11) % 256 for at in range(140_000))  # what an output holds before
ROOM = 320  # more than a small book needs

TEXTS = "texts imported or refused"
SAME = "texts that differ in comments, blanks and line ends alone"
OUTPUTS = ("no output at all", "an empty output", "an output a byte short", "an output just right",
           "an output a byte longer")
# 16 by its four conditions; that C or the body nodes are too many never decides alone.
LIMITS = ("16 for V", "16 for weight", "16 for nodes, weight", "16 for C, nodes, weight")
FIRST = ("15 beside 16", "15 beside 12", "16 beside 12")
LONG = ("a number over 64 bits: 15", "a number over 64 bits: 16", "a number of 600 digits: 15",
        "a number of 600 digits: 16")
# Small texts of every form, to have each byte changed to every other.
BASES = (b"p cnf 0 0", b"c\np cnf 0 1\n0", b"p cnf 2 2\r\n1 -2 0\r\n2 0\r\n",
         b"p cnf 12 1\n-10 12 0", b"c x\r\nc\np cnf 1 2\n\t1\n 0 0 ", b"p cnf 513 1\n9 0\n")


def counted(what):
    """How a form, or another kind of text, stands in the tally."""
    return "import: %s" % what


def over_limits(text):
    """Which of 16's conditions hold of a text that is one."""
    _, options, count, _, rest = PARTS.fullmatch(text).groups()
    options, count = value(options), value(count)
    marks = sum(word != b"0" for word in rest.split())
    return "16 for " + ", ".join(name for name, over in (
        ("V", options > 512), ("C", count > 4095), ("nodes", count + marks > 4095),
        ("weight", 1 + count + 2 * marks > 4096)) if over)


def tally_forms(comparing, text):
    comparing.seen.update(counted(form) for form, holds in forms(text).items() if holds)


def imported(comparing, text, room=ROOM):
    """(refusal, length), compared; and counted, by what is accepted or decides."""
    output = NoBytes() if room is None else Lent(MARKERS[:room])
    lent = NoBytes() if room is None and not text else Lent(text)
    refusal, length = comparing.call("import_", lent, output)
    comparing.seen[TEXTS] += 1
    if refusal == 0:
        tally_forms(comparing, text)
    if refusal == 16:
        comparing.seen[counted(over_limits(text))] += 1
        comparing.seen[counted("16 beside 12")] += room is None
    return refusal, length


def expect_refusal(comparing, text, due, what, room=ROOM):
    given = imported(comparing, text, room)
    expect(given == (due, 0), "%s: refused %d, due %d: %r" % (what, given[0], due, text[:200]))


def outputs(comparing, text, length):
    """Into outputs of every length near the one that an accepted text needs."""
    for what, room in zip(OUTPUTS, (None, 0, length - 1, length, length + 1)):
        due = (12, 0) if room is None or room < length else (0, length)
        expect(imported(comparing, text, room) == due, "%s: %r" % (what, text[:200]))
        comparing.seen[counted(what)] += 1


def other_styles(comparing, rng, parts, length):
    """The same numbers with other comments, blanks and line ends: the same bytes."""
    books = set()
    for _ in range(12):
        text, output = restyled(rng, parts).text(), Lent(MARKERS[:length])
        expect(comparing.call("import_", Lent(text), output) == (0, length), "another style")
        books.add(bytes(output.held()))
        comparing.seen[SAME] += 1
        comparing.seen[TEXTS] += 1
        tally_forms(comparing, text)
    expect(len(books) == 1, "texts of the same numbers give several books")


def faults(comparing, rng, parts):
    """Each fault alone; beside an output that is too short; and in a text with too many options."""
    count = parts.p_line.split()[3]
    many = parts._replace(p_line=b"p cnf %d " % rng.choice((513, 2 ** 64, 10 ** 30)) + count)
    head = many.comments + many.p_line + (many.end or b"\n")
    for what, fault in FAULTS.items():
        text = fault(rng, parts)
        if text is not None:
            expect_refusal(comparing, text, 15, what)
            comparing.seen[counted(what)] += 1
        if text is not None and rng.random() < 0.2:
            expect_refusal(comparing, text, 15, what, None)
            comparing.seen[counted("15 beside 12")] += 1
            text = fault(rng, many)
            expect(text is not None, "a fault for few options alone")
            expect_refusal(comparing, text, 15, what)
            comparing.seen[counted("15 beside 16")] += text.startswith(head)


def one_text(comparing, rng):
    """A small text, in other styles, with every fault and damaged."""
    parts = restyled(rng, plain(*random_clauses(rng)))
    refusal, length = imported(comparing, parts.text())
    expect(refusal == 0, "refused %d: %r" % (refusal, parts.text()))
    outputs(comparing, parts.text(), length)
    other_styles(comparing, rng, parts, length)
    faults(comparing, rng, parts)
    for text in damaged(rng, parts.text()):
        imported(comparing, text)


def every_byte(text, comparing):
    """Each byte of a text changed to every other, and many put before it."""
    made = [changed(text, at, byte) for at in range(len(text)) for byte in range(256)]
    made += [inserted(text, at, byte) for at in range(len(text) + 1) for byte in BYTES]
    made += [text[:at] + text[end:] for at in range(len(text)) for end in range(at, len(text) + 1)]
    for one in dict.fromkeys(made):
        imported(comparing, one)


KINDS = tuple(map(counted, (*FORMS, *FAULTS, *OUTPUTS, *LIMITS, *FIRST, *LONG)))


def due_counts(texts):
    """What must have been seen, and how often at least, after so many of one_text."""
    return {TEXTS: 400 * texts, SAME: 12 * texts, **{kind: LEAST for kind in KINDS}}


def tell(seen):
    """Of what is counted here, what was seen most rarely."""
    rarest = min(KINDS, key=lambda kind: seen[kind])
    print("  clause files: %d forms, faults, limits and lengths of the output, each %d times or "
          "more (%s)" % (len(KINDS), seen[rarest], rarest))


ALL = tuple(partial(every_byte, text) for text in BASES)
