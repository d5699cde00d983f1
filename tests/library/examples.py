"""The examples in C that take a file, mostly a book, and words: what each prints, as C and as C++,
beside what is due; what examples/README.md shows of it; and a choice as all of them key it."""
import re
import subprocess
import tempfile
from pathlib import Path

from checker import Refused, books, keying
from desk.cases import EXAMPLES, TOP
from driver.comparing import Difference

BUDGET = 100_000
LANGUAGES = {"C": "", "C++": "-c++"}
SAMPLE = (EXAMPLES / "book.bin").read_bytes()


def keyed(book, sheet, lines, count, word):
    """(sheet, lines, count) after. The code is looked up first, so that an unknown one is 7 also
    where the list is full; the desk program's 65th line is 14 whatever it holds."""
    if word[:1] not in ("+", "-"):
        raise Refused(7)
    option = books.lookup(book, word[1:].encode())
    return keying.key(sheet, lines, count, option, word[0] == "-")


def printed(program, path, words):
    ran = subprocess.run([str(program), str(path), *words], capture_output=True, timeout=60)
    if ran.returncode != 0 or ran.stderr:
        raise Difference("%s: status %d, said %r" % (program, ran.returncode, ran.stderr))
    return ran.stdout


def compare(name, cases):
    """Each case is a book, or None where there is no such file, words, and what is due; how many
    there are."""
    count = 0
    with tempfile.TemporaryDirectory() as folder:
        path = Path(folder) / "book.bin"
        for book, words, due in cases:
            path.unlink(missing_ok=True)
            if book is not None:
                path.write_bytes(book)
            for language, ending in LANGUAGES.items():
                given = printed(TOP / "target/library" / (name + ending), path, words)
                if given != due:
                    raise Difference("%s, %s: printed %r, due %r" % (
                        language, " ".join(words)[:99], given, due))
            count += 1
    return count


def check_shown(command, due):
    """What examples/README.md shows below a command, where ... stands for lines left out."""
    text = (EXAMPLES / "README.md").read_text(encoding="utf-8")
    shown = re.search(r"(?:^    .*\n)+", text.partition("    %s\n" % command)[2], re.M)
    if shown is None:
        raise Difference("examples/README.md does not show what this prints: %s" % command)
    lines = [line.strip() for line in shown[0].splitlines()]
    form = "".join(r"(?:.+\n)+" if line == "..." else re.escape(line) + r"\n" for line in lines)
    if re.fullmatch(form, due.decode()) is None:
        raise Difference("examples/README.md shows %s, printed is %s" % (shown[0], due.decode()))
