"""Clause files of any length: numbers that no machine word holds, of which 15 goes first all the
same; texts at the limits of a book and far over them; texts and outputs longer than 16 bits say."""
from . import expect
from .clause_texts import BLANKS, plain, restyled
from .imports import LONG, ROOM, counted, expect_refusal, imported, outputs


def numbers_about(rng):
    """A number of any length, and some a little beside it or equal to it in so many bits."""
    if rng.random() < 0.2:
        digits = rng.choice((20, 21, 600))
        number = rng.randrange(10 ** (digits - 1), 10 ** digits)
    else:
        number = rng.choice((512, 2 ** 16, 2 ** 31, 2 ** 32, 2 ** 63, 2 ** 64, 2 ** 128))
        number += rng.randint(-3, 520)
    near = [number + more for more in (-1, 0, 1, 10 ** rng.randrange(len(str(number))), number)]
    return number, [*near, number % 2 ** 16, number % 2 ** 32, number % 2 ** 64, number // 10]


def long_numbers(comparing, rng):
    """ "1 to V" and "C clauses", whatever the length; 15 goes before 16."""
    number, near = numbers_about(rng)
    for options, mark in [(number, mark) for mark in near] + [(mark, number) for mark in near]:
        if not mark or not options:
            continue
        due = 15 if mark > options else 16 if options > 512 else None
        text = plain(options, [[rng.choice((1, -1)) * mark], []]).text()
        room = 7000 if due is None else rng.choice((ROOM, ROOM, None))
        given, _ = imported(comparing, text, room)
        expect(given == (due or 0), "V is %d, a mark is %d: refused %d" % (options, mark, given))
        size = max(len(str(options)), len(str(mark)))
        if due and size > 19:
            comparing.seen[counted(LONG[(due == 16) + 2 * (size >= 600)])] += 1
    parts = plain(3, [[1, -2], []])
    for count in (number, number - number % 2 ** 32 + 2, number - number % 2 ** 64 + 2):
        if count != 2:
            expect_refusal(comparing, parts._replace(p_line=b"p cnf 3 %d" % count).text(), 15, "C")


def length_of(options, clauses):
    """Of the book: a code for each option; a pair and a node for each clause, a node for each
    mark."""
    return 8 + 13 * options + 6 * len(clauses) + 2 * sum(map(len, clauses))


def random_sizes(rng, count, marks):
    """So many marks in so many clauses."""
    sizes = [0] * count
    for at in rng.choices(range(count), k=marks):
        sizes[at] += 1
    return sizes


def large_counts(rng):
    """(clauses, marks) at the limits: as much as a book holds, and what is just too much, by each
    condition that can decide."""
    way = rng.randrange(8)
    if way < 3:  # the weight as large as can be, or one or two more than that
        marks = rng.choice((rng.randint(2, 2046), 2047) if way else (0, 1, 1000, 2047))
        return 4095 - 2 * marks + (rng.randint(1, 2) if way else 0), marks
    if way < 5:  # a node too many, and so too much weight
        marks = rng.choice((1, rng.randint(2, 2000), 4095))
        return 4096 - marks, marks
    if way < 7:  # a clause too many, and so a node
        return 4096 + rng.choice((0, 0, 1)), rng.choice((0, 0, 1))
    return 4095, 0


def at_the_limits(comparing, rng):
    """A text with as much as a book holds, or more; now and then with 15 or 12 beside that."""
    count, marks = large_counts(rng)
    options = rng.choice((1, 3, 99, 512))
    clauses = [[rng.choice((1, -1)) * rng.randint(1, options) for _ in range(size)]
               for size in random_sizes(rng, count, marks)]
    fits = 1 + count + 2 * marks <= 4096
    parts = plain(options, clauses)
    text = (restyled(rng, parts) if rng.random() < 0.2 else parts).text()
    length = length_of(options, clauses)
    room = rng.choice((length, length, length + 1, length - 1))
    due = (16, 0) if not fits else (12, 0) if room < length else (0, length)
    expect(imported(comparing, text, room) == due, "%d clauses, %d marks" % (count, marks))
    if rng.random() < 0.1:
        expect_refusal(comparing, text + rng.choice((b"1", b" 0", b"-", b"\r")), 15, "15 before 16")
    if rng.random() < 0.1:
        expect_refusal(comparing, text, 12 if fits else 16, "16 before 12", None)


def far_over(comparing):
    """ "C or the body nodes over 4,095, or weight over 4,096": so far over that fewer bits would
    hold a number within."""
    for sizes in ([0] * 8192, [0] * 65_536, [0] * 65_534 + [1, 0], [4096], [32_767], [32_767, 0],
                  [1, 65_535], [1, 65_536], [2048] * 16, [1] * 21_845):
        text = plain(2, [[1] * size for size in sizes]).text()
        expect_refusal(comparing, text, 16, "%d clauses, %d marks" % (len(sizes), sum(sizes)))


def long_texts(comparing):
    """Longer than 16 bits say, and outputs too: comments and blanks have no limit."""
    parts, much = plain(3, [[1, -3], []]), 70_000
    length = length_of(3, [[1, -3], []])
    for other in (parts._replace(comments=b"c" * much + b"\n"),
                  parts._replace(comments=b"c\r\n" * (much // 3)),
                  *(parts._replace(rest=parts.rest.replace(b" ", blank * much))
                    for blank in BLANKS.values()),
                  *(parts._replace(rest=blank * much + parts.rest + blank * much)
                    for blank in BLANKS.values())):
        for room in (length, length - 1, 65_535, 65_536, 65_536 + length - 1, 140_000):
            due = (12, 0) if room < length else (0, length)
            expect(imported(comparing, other.text(), room) == due, "a long text or output")
        expect_refusal(comparing, other.text() + b"\r", 15, "a long text")


def numbers_of_many_digits(comparing):
    """More digits than 16 bits can count: V, a mark and C, equal, less and more by one digit."""
    for digits in (65_536, 65_537):
        most = b"7" * digits
        lower, higher = most[:-1] + b"6", b"8" + most[1:]
        for due, options, count, mark in [
                (16, most, b"1", most), (16, most, b"1", b"-" + lower), (15, lower, b"1", most),
                (15, most, b"1", higher), (15, most, b"1", b"-" + higher), (16, higher, b"1", most),
                (15, most, b"1", most + b"7"), (16, most, b"1", most[1:]), (16, most, b"1", b"9"),
                (15, b"9", b"1", most), (15, b"9", b"1", b"1" + b"0" * digits),
                (15, b"9", most, b"1"), (15, b"9", b"1" + b"0" * digits, b"1"),
                (15, most, most, most), (15, most, b"1", b"0" + most),
                (15, b"0" + most, b"1", b"1")]:
            text = b"p cnf " + options + b" " + count + b"\n" + mark + b" 0\n"
            expect_refusal(comparing, text, due, "numbers of many digits")


def one_large(comparing, rng):
    """A text at the limits, and large numbers."""
    at_the_limits(comparing, rng)
    long_numbers(comparing, rng)


def many_options(comparing):
    """ "V over 512": the largest V, and one more; "1 to V" at each of them, and 15 before 16."""
    for options in (0, 1, 9, 10, 11, 99, 100, 101, 255, 256, 257, 511, 512, 513, 514, 999, 1000):
        for clauses in ([], [[]], [[at + 1] for at in range(options)],
                        [[at + 1, -at - 1, options] for at in range(0, options, 7)]):
            text = plain(options, clauses).text()
            if options > 512:
                expect_refusal(comparing, text, 16, "V over 512")
                expect_refusal(comparing, text, 16, "V over 512", None)
            else:
                outputs(comparing, text, length_of(options, clauses))
        for mark in (options + 1, -options - 1, 10 * options + 10):
            expect_refusal(comparing, plain(options, [[mark]]).text(), 15, "a mark over V")
    for text in (b"", b"p", b"c", b"\n", b"0"):
        expect_refusal(comparing, text, 15, "no p line")
        expect_refusal(comparing, text, 15, "no p line", None)


ALL = (many_options, far_over, long_texts, numbers_of_many_digits)
