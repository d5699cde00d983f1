"""What the build before kind 6 answers, asked once and kept in tests/checker/older_answers.txt.

    python3 tests/older_answers.py     clones that commit under target/older, proves and builds its
                                       two C calls there (some minutes), asks, writes the file

The checker's self-test reads the file and never builds anything; this is how the file was made."""
import ctypes
import random
import subprocess
from collections import Counter
from pathlib import Path

from checker import calls
from checker.selftest_older import ANSWERS, TO_MEET, has_at_least, heavy_books, random_book, spelled

COMMIT = "b9511c2"  # the last one before U4
TOP = Path(__file__).resolve().parent.parent
BUILD = TOP / "target/older" / COMMIT
LIBRARY = BUILD / "target/older.so"
ACCEPTED_NOW, EACH_OTHER = 250, 40  # books with an at-least that are accepted; of each other kind
LONGEST = 400  # characters of a line: the books stay small to the eye


def build_older():
    """The older library, once."""
    if LIBRARY.exists():
        return
    if not BUILD.exists():
        subprocess.run(["git", "clone", "--quiet", "--no-checkout", TOP, BUILD], check=True)
        subprocess.run(["git", "checkout", "--quiet", "--detach", COMMIT], cwd=BUILD, check=True)
    subprocess.run(["rt", "staticlib", "c_calls"], cwd=BUILD, check=True)
    subprocess.run(["gcc", "-shared", "-o", LIBRARY, "-Wl,--whole-archive",
                    BUILD / "target/staticlib/libc_calls.a", "-Wl,--no-whole-archive"], check=True)


def chosen_books():
    """Different books, so many of each kind, by whether they have an at-least and what the present
    check says of them."""
    rng, met, books = random.Random(4), Counter(), {}
    room = {kind: EACH_OTHER for kind in TO_MEET}
    room[True, 0] = ACCEPTED_NOW
    candidates = [bytes(7), bytes(8), *heavy_books(), *(random_book(rng) for _ in range(20_000))]
    for data in dict.fromkeys(candidates):
        kind = has_at_least(data), calls.check(data)[0]
        if met[kind] < room[kind] and len(spelled(data)) <= LONGEST:
            met[kind] += 1
            books[data] = kind
    return sorted(books, key=lambda data: (books[data], len(data), data))


def main():
    build_older()
    check = ctypes.CDLL(str(LIBRARY)).nd_book_check
    check.restype, check.argtypes = ctypes.c_uint64, [ctypes.c_char_p, ctypes.c_size_t]
    lines = ["# What nd_book_check of %s, the commit before kind 6, answers: its refusal (0: "
             "accepted), and the book. Made by tests/older_answers.py." % COMMIT]
    lines += ["%d %s" % (check(data, len(data)), spelled(data)) for data in chosen_books()]
    ANSWERS.write_text("\n".join(lines) + "\n", encoding="ascii")
    print("%s: %d books" % (ANSWERS, len(lines) - 1))


if __name__ == "__main__":
    main()
