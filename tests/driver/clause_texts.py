"""Clause files as texts: written in every style that document 02 allows, with one fault each that
it does not, and with single bytes changed; and what an accepted text shows of the grammar."""
import re
from typing import NamedTuple

BLANKS = {"a space": b" ", "a tab": b"\t", "10": b"\n", "13 10": b"\r\n"}
COMMENTS = (b"c", b"c\r", b"c a comment", b"c a comment\r", b"cnf", b"c p cnf 2 1", b"cp cnf 0 0\r",
            b"c\r\r", b"c \r 1 0", b"c 1 0", b"c\t", b"c \0", b"c \xc3\xa4\xff", b"cc\0\r")
PARTS = re.compile(rb"((?:c[^\n]*\n)*)p cnf ([0-9]+) ([0-9]+)(\r?\n|\Z)(.*)", re.DOTALL)
# Those that numbers, blanks and line ends are made of, bytes beside them, and some far from them.
BYTES = b"\0\t\n\v\f\r !%+,-./0123456789:CPcnpf\x7f\x80\x85\xa0\xff"
STRANGE = bytes(sorted(set(range(256)) - set(b"0123456789- \t\r\n")))


class Parts(NamedTuple):
    """A text by its parts: comment lines with their ends; the p line, its end; the rest."""
    comments: bytes
    p_line: bytes
    end: bytes
    rest: bytes

    def text(self):
        return b"".join(self)

    def words(self):
        return self.rest.split()


def plain(options, clauses):
    """The plainest text: a line each."""
    lines = [b" ".join(b"%d" % mark for mark in (*clause, 0)) + b"\n" for clause in clauses]
    return Parts(b"", b"p cnf %d %d" % (options, len(clauses)), b"\n", b"".join(lines))


def some_blanks(rng, least):
    return b"".join(rng.choices(tuple(BLANKS.values()), k=rng.choice((least, 1, 1, 2, 3))))


def random_comment(rng):
    """Any bytes but 10, after a c."""
    if rng.random() < 0.8:
        return rng.choice(COMMENTS)
    return b"c" + rng.randbytes(rng.randint(0, 9)).replace(b"\n", b"\r")


def spread(rng, words):
    """The numbers with any blanks before, between and after them; or in lines, as files have it."""
    if rng.random() < 0.3:
        end = rng.choice((b"\n", b"\r\n"))
        lines = re.sub(rb"\b0 ", b"0" + end, b" ".join(words)) + rng.choice((end, b""))
        return lines if words else rng.choice((b"", end))
    inner = b"".join(word + some_blanks(rng, 1) for word in words[:-1])
    return some_blanks(rng, 0) + inner + b"".join(words[-1:]) + some_blanks(rng, 0)


def restyled(rng, parts):
    """The same p line and the same numbers, all else another."""
    comments = b"".join(random_comment(rng) + b"\n" for _ in range(rng.choice((0, 0, 1, 2, 3))))
    words = parts.words()
    if not words and rng.random() < 0.3:
        return parts._replace(comments=comments, end=b"", rest=b"")
    return parts._replace(comments=comments, end=rng.choice((b"\n", b"\r\n")),
                          rest=spread(rng, words))


def random_clauses(rng):
    """(V, clauses), small."""
    options = rng.choice((0, 0, 1, 1, 2, 2, 3, 4, 9, 10, 12))
    count, sizes = rng.choice((0, 1, 1, 2, 2, 3, 4)), rng.choice(((0, 1), (1, 2, 3), (0, 1, 2, 4)))
    clauses = [[rng.choice((1, -1)) * rng.choice((options, rng.randint(1, options)))
                for _ in range(rng.choice(sizes) if options else 0)] for _ in range(count)]
    return options, clauses


def comment_forms(comments):
    lines = comments.split(b"\n")[:-1]
    return {
        "no comment line": not lines, "a comment line": len(lines) == 1,
        "several comment lines": len(lines) > 1, "a comment of c alone": b"c" in lines,
        "a comment without a blank after c": any(re.match(rb"c[^ \t\r]", line) for line in lines),
        "a comment ended by 13 10": any(line.endswith(b"\r") for line in lines),
        "a comment ended by 10 alone": any(not line.endswith(b"\r") for line in lines),
        "a comment with 13 inside": any(b"\r" in line[:-1] for line in lines),
        "a comment with a zero byte": b"\0" in comments,
        "a comment with a byte over 127": re.search(rb"[\x80-\xff]", comments),
        "a comment with a p line in it": b"p cnf" in comments}


def p_line_forms(options, count, end):
    return {
        "V is 0": options == 0, "V is 0, with clauses": options == 0 and count,
        "C is 0": count == 0, "C is 0, with options": count == 0 and options,
        "V of two digits": options > 9,
        "a p line ended by 10": end == b"\n", "a p line ended by 13 10": end == b"\r\n",
        "a p line ended by the end of the text": end == b""}


def clause_forms(options, words):
    clauses = [clause.split() for clause in re.split(rb"\b0\b", b" ".join(words))[:-1]]
    marks = {mark for clause in clauses for mark in clause}
    return {
        "an empty clause": [] in clauses, "an empty clause first": clauses[:1] == [[]],
        "an empty clause last": clauses[-1:] == [[]],
        "a lone mark": any(len(clause) == 1 for clause in clauses),
        "a lone barred mark": any(len(clause) == 1 and clause[0][:1] == b"-" for clause in clauses),
        "three marks or more": any(len(clause) > 2 for clause in clauses),
        "a barred mark": any(mark[:1] == b"-" for mark in marks),
        "the last option": b"%d" % options in marks,
        "the last option barred": b"-%d" % options in marks,
        "a mark of two digits": any(len(mark.lstrip(b"-")) == 2 for mark in marks),
        "a mark repeated": any(len(set(clause)) < len(clause) for clause in clauses),
        "opposite marks": any(b"-" + mark in clause for clause in clauses for mark in clause),
        "an option that no clause names": any(
            not {b"%d" % v, b"-%d" % v} & marks for v in range(1, min(options, 20) + 1)),
        "a clause repeated": any(clauses.count(clause) > 1 for clause in clauses)}


def has_blank(run, blank):
    return blank in (run.replace(b"\r\n", b"") if blank == b"\n" else run)


def blank_forms(rest):
    before, *between = re.split(rb"[-0-9]+", rest)
    after, among = (between.pop(), b"|".join(between)) if between else (b"", b"")
    numbers = bool(rest.strip())
    holds = {
        "no byte after the p line's end": not rest,
        "several blanks between two numbers": re.search(rb"[ \t\n]\r?[ \t\n]", among),
        "a line end inside a clause": re.search(rb"[1-9][0-9]*[ \t]*\r?\n", rest),
        "two clauses in a line": re.search(rb"\b0[ \t]+-?[0-9]", rest),
        "the text ended by a digit": rest[-1:].isdigit(),
        "no blank before the first number": numbers and not before}
    for name, blank in BLANKS.items():
        holds.update({name + " before the first number": numbers and has_blank(before, blank),
                      name + " between two numbers": has_blank(among, blank),
                      name + " after the last number": has_blank(after, blank),
                      name + " and no number": not numbers and has_blank(rest, blank)})
    return holds


def forms(text):
    """What an accepted text shows of the grammar: a dictionary of all of it."""
    comments, options, count, end, rest = PARTS.fullmatch(text).groups()
    return {**comment_forms(comments), **p_line_forms(int(options), int(count), end),
            **clause_forms(int(options), rest.split()), **blank_forms(rest)}


FORMS = tuple(forms(b"p cnf 0 0"))


def changed(text, at, byte):
    return text[:at] + bytes((byte,)) + text[at + 1:]


def inserted(text, at, byte):
    return text[:at] + bytes((byte,)) + text[at:]


def damaged(rng, text, several=5):
    """Every byte changed to several others, and several put before it; each removed, doubled and
    swapped with the next; each text once."""
    made = [text[:at] for at in range(len(text))]
    for at in range(len(text) + 1):
        made += [inserted(text, at, byte) for byte in rng.choices(BYTES, k=several)]
        if at < len(text):
            made += [changed(text, at, byte) for byte in rng.choices(BYTES, k=several)]
            made += [text[:at] + text[at + 1:], inserted(text, at, text[at]),
                     text[:at] + text[at:at + 2][::-1] + text[at + 2:]]
    return dict.fromkeys(made)
