"""The program as it is called: its output, its status, and the files that it leaves."""
import os
import re
import tempfile
from itertools import combinations
from pathlib import Path
from xml.etree import ElementTree

from book import check
from book.nests import DEEPEST, nest
from book.program import EXAMPLES, call


def sample_books(folder):
    """The committed samples are the books of their texts, and come back from their own."""
    made, text = folder / "book.bin", folder / "shown.txt"
    for source, book, due in (
            ("meter.txt", "book.bin",
             ["options    13 of 512", "rules      10 of 4,095", "nodes      60 of 4,095", "weight     97 of 4,096"]),
            ("seals/seals.txt", "seals/book.bin",
             ["options     7 of 512", "rules       4 of 4,095", "nodes      22 of 4,095", "weight     38 of 4,096"])):
        call("make", EXAMPLES / source, made)
        check(made.read_bytes() == (EXAMPLES / book).read_bytes(), "examples/%s is not the book of examples/%s" % (book, source))
        text.write_text(call("show", made))
        call("make", text, folder / "again.bin")
        check((folder / "again.bin").read_bytes() == made.read_bytes(), "the sample shown and made again is another book:", source)
        told = call("check", made)
        check(told.split("\n")[1:5] == due, "the sample's room is told wrong:", told)
    for words in ("one_of(A, B, ..)", "at_least(k, A, B, ..)", "exactly(k, A, B, ..)", "no room for comments"):
        check(words in call("--help") and words in call("make", "--help"), "the help lacks the notation:", words)


def refused_files(folder):
    """After a refusal the target is as it was, and nothing stands beside it."""
    text, target, bad = folder / "bad.txt", folder / "target.bin", folder / "bad.bin"
    target.write_bytes(b"as it was")
    text.write_text("option A\nrule A -> \n")
    before = sorted(os.listdir(folder))
    check(call("make", text, target, status=1) == "%s:2:8: a formula is missing after `->`\n" % text, "another message")
    for arguments, words in (
            (("make", folder / "none.txt", target), "none.txt: cannot be read: No such file or directory"),
            (("make", folder, target), "cannot be read: Is a directory"),
            (("make", EXAMPLES / "meter.txt", folder / "no" / "book.bin"), "book.bin: cannot be written: there is no folder "),
            (("show", target), "target.bin: refused 2: byte 0: the head says 29,537 options; 512 is the most"),
            (("draw", target, "-o", folder / "x.svg"), "target.bin: refused 2"), (("diff", EXAMPLES / "book.bin", target), "refused 2"),
            (("import", folder / "none.cnf", target), "none.cnf: cannot be read: No such file or directory"),
            (("import", folder, target), "cannot be read: Is a directory"), (("import", text), "required: BOOK"),
            (("import", EXAMPLES / "valves.cnf", folder / "no" / "book.bin"), "book.bin: cannot be written: there is no folder "),
            (("check", folder / "none.bin"), "none.bin: cannot be read"), (("mkae", text, target), "invalid choice"),
            (("make", text), "required: BOOK"), ((), "required: VERB"),
            (("make", text, target, "--forc"), "unrecognized arguments: --forc"),
            (("diff", "-", "-"), "standard input can be one of the two books, not both")):
        told = call(*arguments, status=1)
        check(words in told, arguments, "tells", told)
    check(target.read_bytes() == b"as it was" and sorted(os.listdir(folder)) == before, "a refusal left its traces")
    bad.write_bytes(bytes(7))
    check("refused 1: the file has 7 bytes" in call("check", bad, status=1), "refusal 1 is not told")


def refused_clauses(folder):
    """A clause file that is refused: where and why in one line, and the book that stood there stays. So it does without a library."""
    clauses, target = folder / "bad.cnf", folder / "target.bin"
    target.write_bytes((EXAMPLES / "book.bin").read_bytes())
    for text, due in (
            (b"c one\r\np cnf 2 2\r\n1 0\r\n2 3 0\r\n", ":4:3: refused 15: a mark is a number from 1 to V, and V is 2; this is 3"),
            (b"p cnf 1 2\n1 0\n", ":3:1: refused 15: a clause is expected, since C is 2; here the text ends, after 1 clause"),
            (b"p cnf 1 1\n+1 0", ":2:1: refused 15: a number has no plus"),
            (b"p cnf 600 1\n" + b"1 " * 2048 + b"0", ": refused 16: V, the number of options, is 600; 512 is the most; "
             "the weight (1, C and twice the marks) is 4,098; 4,096 is the most")):
        clauses.write_bytes(text)
        check(call("import", clauses, target, status=1) == "%s%s\n" % (clauses, due), "another message than", due)
    clauses.write_bytes(b"p cnf 1 0")
    for library in (folder / "none.so", clauses):
        told = call("import", clauses, target, status=1, library=library)
        check(str(library) in told and "tools/build-library" in told, "without a library the tool says", told)
    check(target.read_bytes() == (EXAMPLES / "book.bin").read_bytes(), "a refused clause file changed the book that stood there")
    check(sorted(os.listdir(folder)) == ["bad.cnf", "target.bin"], "a refused clause file left its traces")


def imported_files(folder):
    """The sample of clauses: a book with a rule for each, which is shown, checked and made again like any other."""
    made, text = folder / "valves.bin", folder / "shown.txt"
    call("import", EXAMPLES / "valves.cnf", made)
    shown = call("show", made)
    sizes = re.search(r"^p cnf (\d+) (\d+)$", (EXAMPLES / "valves.cnf").read_text(), re.M).groups()
    check((shown.count("option V"), shown.count("rule any(")) == tuple(map(int, sizes)), "the sample of clauses is shown as", shown)
    text.write_text(shown)
    call("make", text, folder / "again.bin")
    check((folder / "again.bin").read_bytes() == made.read_bytes(), "the sample of clauses shown and made again is another book")
    check("accepted" in call("check", made), "the book of the sample of clauses is not accepted")
    for words in ("p cnf 3 2", "without\n  leading zeros", "tools/build-library"):
        check(words in call("import", "--help"), "the help of import lacks:", words)


def texts_of_other_systems(folder):
    text, target = folder / "text.txt", folder / "book.bin"
    text.write_bytes(b"\xef\xbb\xbf# caf\xc3\xa9\r\noption A # the small one\r\n\trule A\r\n")
    call("make", text, target)
    check(call("show", target) == "option A\n\nrule A\n", "a text from another system is not read")


def changes(folder):
    def report(old, new):
        for name, text in (("old", old), ("new", new)):
            (folder / (name + ".txt")).write_text(text)
            call("make", folder / (name + ".txt"), folder / (name + ".bin"))
        return call("diff", folder / "old.bin", folder / "new.bin").rstrip("\n").split("\n")
    ab = "option A\noption B\n"
    only = "only the order moved: both books have the same options and rules"
    check(report(ab, ab + "# same\n") == ["no difference: the same options and rules in the same order"], "no difference")
    check(report(ab + "rule A\nrule B\nrule A -> B", "option B\noption A\nrule B\nrule A -> B\nrule A") == [
        "2 options: 0 added, 0 removed, 1 moved", "> option 0, now option 1: A", "3 rules: 0 added, 0 removed, 1 moved",
        "> rule 0, now rule 2: A", only], "moved")
    check(report(ab + "rule any(A, B)\nrule A", "option C\n" + ab + "rule A\nrule A") == [
        "3 options: 1 added, 0 removed, 0 moved", "+ option 0: C", "2 rules: 1 added, 1 removed, 0 moved", "- rule 0: any(A, B)",
        "+ rule 1: A"], "added and removed")
    check(report(ab + "rule any(A, all(A, B))", ab + "rule any(all(B, A), A)")[2:] == [
        "= rule 0, now rule 0: the same parts in another order: any(all(B, A), A)", only], "order inside a rule")
    counted = ab + "rule at_least(%d, %s)\n"
    check(report(counted % (1, "A, B"), counted % (1, "B, A"))[2:] == [
        "= rule 0, now rule 0: the same parts in another order: at_least(1, B, A)", only], "order inside an at_least")
    for before, after in (((1, "A, B"), (2, "B, A")), ((1, "A, B"), (1, "not B, A")), ((1, "A, true"), (1, "A"))):
        told = report(counted % before, counted % after)
        check(told[1].startswith("1 rule: 1 added, 1 removed"), "at_least", before, "to", after, "is told as", told)
    check(report(ab + "rule at_least(1, A, B)", ab + "rule any(A, B)")[2:] == [
        "- rule 0: at_least(1, A, B)", "+ rule 0: any(A, B)"], "an any-of in place of an at_least")


def pictures(folder):
    for book, boxes in ((EXAMPLES / "book.bin", 60), (EXAMPLES / "seals/book.bin", 22)):
        printed = call("draw", book)
        check_boxes(printed, boxes)
        call("draw", book, "-o", folder / "book.svg")
        check((folder / "book.svg").read_text() == printed, "-o writes another picture")
    check(printed.count(">at least 2 of 4<") == 1 and printed.count(">at least 1 of 2<") == 2, "the seals' at-leasts are not drawn")
    members = ", ".join("C%d" % number for number in range(63))
    text = "".join("option C%d\n" % number for number in range(63)) + "rule any(at_least(32, %s), all(at_least(1), C0))\n" % members
    (folder / "wide.txt").write_text(text)
    call("make", folder / "wide.txt", folder / "wide.bin")
    drawn = call("draw", folder / "wide.bin")
    check_boxes(drawn, 68)
    check(">at least 32 of 63<" in drawn and ">at least 1 of 0<" in drawn, "a wide at-least is not drawn")


def check_boxes(drawn, count):
    """A picture has so many boxes; none is over another, and none beyond the right edge."""
    picture = ElementTree.fromstring(drawn)
    boxes = [each for each in picture.iter() if each.tag.endswith("rect") and each.get("class")]
    check(len(boxes) == count, "a picture has", len(boxes), "boxes and not", count)
    places = [[float(box.get(name)) for name in ("x", "y", "width", "height")] for box in boxes]
    for (left, top, width, height), (other_left, other_top, other_width, other_height) in combinations(places, 2):
        check(left + width <= other_left or other_left + other_width <= left or top + height <= other_top
              or other_top + other_height <= top, "two boxes of the picture overlap")
    check(all(left + width <= float(picture.get("width")) for left, _, width, _ in places), "a box is cut off at the right")


def deep_files(folder):
    text, book = folder / "deep.txt", folder / "deep.bin"
    text.write_bytes(nest(DEEPEST))
    call("make", text, book)
    check("weight  4,096 of 4,096" in call("check", book), "a deep book's weight")
    text.write_text(call("show", book))
    call("make", text, folder / "deep-again.bin")
    check("no difference" in call("diff", book, folder / "deep-again.bin"), "a deep book shown and made again is another")
    check(call("draw", book).count("<rect class") == DEEPEST + 1, "a deep book is not drawn whole")


def run(accepted):
    with tempfile.TemporaryDirectory() as name:
        for part in (sample_books, refused_files, refused_clauses, imported_files, texts_of_other_systems, changes, pictures, deep_files):
            folder = Path(name) / part.__name__
            folder.mkdir()
            part(folder)
            check(not list(folder.glob(".book-*")), "a file was left beside its target")
    return "every verb"
