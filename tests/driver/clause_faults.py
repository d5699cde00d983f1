"""One fault each that makes a good clause file "text of any other form": document 02's 15. Every
fault takes a random generator and the parts of a good text and gives the text with it, or None
where these parts have no place for it."""
import re

from .clause_texts import STRANGE, some_blanks


def p_lines(*patterns):
    """Another p line in place of the right one; V and # (for C) become its numbers."""
    def fault(rng, parts):
        options, count = parts.p_line.split()[2:]
        p_line = rng.choice(patterns).replace(b"V", options).replace(b"#", count)
        return parts._replace(p_line=p_line).text()
    return fault


def word_becomes(what, replacement):
    """One of the numbers that are `what` becomes something else."""
    def fault(rng, parts):
        found = [match.span() for match in re.finditer(rb"[-0-9]+", parts.rest)
                 if re.fullmatch(what, match.group())]
        if not found:
            return None
        start, end = rng.choice(found)
        word = re.sub(what, replacement, parts.rest[start:end], count=1)
        return parts._replace(rest=parts.rest[:start] + word + parts.rest[end:]).text()
    return fault


def before(*several):
    """Something before the p line, after the comments or before them."""
    def fault(rng, parts):
        more = rng.choice(several)
        return (more + parts.text() if rng.random() < 0.5
                else parts._replace(p_line=more + parts.p_line).text())
    return fault


def in_the_rest(*several):
    """Something where a blank stands after the p line, or last; it is no number and no blank."""
    def fault(rng, parts):
        # not between 13 and 10, so that the 13 of a line end is never the fault
        places = [0, len(parts.rest)] + [match.end() for match in re.finditer(rb"\r?\n|[ \t]",
                                                                              parts.rest)]
        at = rng.choice(places)
        end = parts.end or b"\n"
        return parts._replace(end=end, rest=parts.rest[:at] + rng.choice(several)
                              + parts.rest[at:]).text()
    return fault


def strange_byte(rng, parts):
    at = rng.randint(0, len(parts.rest))
    return parts._replace(end=parts.end or b"\n", rest=parts.rest[:at] + bytes(
        (rng.choice(STRANGE),)) + parts.rest[at:]).text()


def lone_13(rng, parts):
    """Before anything but 10: inside a word, between two, at the end."""
    places = [at for at in range(len(parts.rest) + 1) if parts.rest[at:at + 1] != b"\n"]
    at = rng.choice(places)
    return parts._replace(end=parts.end or b"\n", rest=parts.rest[:at] + b"\r"
                          + parts.rest[at:]).text()


def p_line_ended_by_13(rng, parts):
    rest = parts.rest.lstrip(b"\r\n")
    return parts._replace(end=rng.choice((b"\r", b"\r\r\n")), rest=rest).text()


def not_closed(rng, parts):
    """The last 0 is gone, and the clause before it has marks."""
    rest = re.fullmatch(rb"(.*[1-9][0-9]*[ \t\r\n]+)0[ \t\r\n]*", parts.rest, re.DOTALL)
    if not rest or parts.words()[-2:-1] == [b"0"]:
        return None
    return parts._replace(rest=rest[1] + some_blanks(rng, 0)).text()


def clause_too_many(rng, parts):
    more = rng.choice((b"0", b"1 0", b"-1 0", b"0 0", b"1"))
    return parts._replace(end=parts.end or b"\n", rest=parts.rest + b" " + more).text()


def clause_too_few(_, parts):
    words = parts.words()
    if not words:
        return None
    closed = [at for at, word in enumerate(words[:-1]) if word == b"0"]
    return parts._replace(rest=b" ".join(words[:closed[-1] + 1] if closed else [])).text()


def number_over_options(rng, parts):
    """V + 1 and more, as a mark of a clause, plain or barred."""
    if not parts.words():
        return None
    options = int(parts.p_line.split()[2])
    more = rng.choice((1, 1, 1, 9, 10 * options + 10, 256, 65_536, 2 ** 32, 2 ** 64))
    return parts._replace(rest=b"%d " % (rng.choice((1, -1)) * (options + more))
                          + parts.rest.lstrip()).text()


def other_count(rng, parts):
    """A C that is as good as the right one in so many bits."""
    options, count = map(int, parts.p_line.split()[2:])
    more = rng.choice((1, 1, 256, 65_536, 2 ** 32, 2 ** 64, 10 ** 600))
    return parts._replace(p_line=b"p cnf %d %d" % (options, count + more)).text()


def without_p_line(rng, parts):
    return rng.choice((parts.comments, parts.comments + parts.rest, b""))


FAULTS = {
    "a leading zero in V": p_lines(b"p cnf 0V #", b"p cnf 00V #"),
    "a leading zero in C": p_lines(b"p cnf V 0#", b"p cnf V 00#"),
    "a sign in the p line": p_lines(b"p cnf +V #", b"p cnf -V #", b"p cnf V +#", b"p cnf V -#"),
    "a tab in the p line": p_lines(b"p\tcnf V #", b"p cnf\tV #", b"p cnf V\t#"),
    "two spaces in the p line": p_lines(b"p  cnf V #", b"p cnf  V #", b"p cnf V  #"),
    "a blank at the p line's end": p_lines(b"p cnf V # ", b"p cnf V #\t"),
    "another word in the p line": p_lines(b"P cnf V #", b"p CNF V #", b"p dnf V #", b"p cn V #",
                                          b"p cnff V #", b"q cnf V #", b"pcnf V #", b"cnf V # #"),
    "a number too few in the p line": p_lines(b"p cnf V", b"p cnf V ", b"p cnf", b"p cnf  #"),
    "a number too many in the p line": p_lines(b"p cnf V # 0", b"p cnf V # #", b"p cnf V V #"),
    "two p lines": p_lines(b"p cnf V #\np cnf V #", b"p cnf 0 0\np cnf V #"),
    "a comment after the p line": in_the_rest(b"c\n", b"\nc x\n", b"\nc", b" c 1 0\r\n"),
    "a byte before the p line": before(b" ", b"\t", b"\0", b"\r", b"0", b"\xef\xbb\xbf", b"-"),
    "a blank line before the p line": before(b"\n", b"\r\n", b" \n", b"\t\r\n"),
    "no p line": without_p_line, "a p line ended by 13 alone": p_line_ended_by_13,
    "a leading zero in a number": word_becomes(rb"(-?)([0-9]+)", rb"\g<1>0\2"),
    "a barred zero": word_becomes(rb"0", b"-0"),
    "a plus": word_becomes(rb"([0-9]+)", rb"+\1"),
    "two minuses": word_becomes(rb"-([0-9]+)", rb"--\1"),
    "a minus apart": word_becomes(rb"-([0-9]+)", rb"- \1"),
    "a minus behind": word_becomes(rb"([0-9]+)", rb"\1-"),
    "two numbers without a blank": word_becomes(rb"(-?[0-9]+)", rb"\1-1"),
    "a minus alone": in_the_rest(b"- ", b"-\n", b"-\t"),
    "13 alone after the p line": lone_13, "another byte after the p line": strange_byte,
    "what a library of files has after its clauses": in_the_rest(b"%\n0\n"),
    "a number over V": number_over_options, "a clause not closed": not_closed,
    "a clause too many": clause_too_many, "a clause too few": clause_too_few,
    "another C": other_count}
