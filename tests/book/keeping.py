"""Nothing is lost: the file that is read is never written, by whatever name; a file of another kind is written over with --force alone; an
empty text is no book unasked; whatever fails midway, the target is as it was and nothing stands beside it."""
import os
import pty
import resource
import shutil
import signal
import subprocess
import sys
import tempfile
import threading
from pathlib import Path
from unittest import mock

from bookfile import Mistake, files, kinds, notation
from bookfile.commands import main

from book import TOP, Failed, check
from book.program import EXAMPLES, TOOL, call, done, quick

TEXT, BOOK, CLAUSES = (EXAMPLES / name for name in ("meter.txt", "book.bin", "valves.cnf"))
MADE, DRAWN = "13 options, 10 rules, weight 97 of 4,096\n", "10 rules, 60 nodes drawn\n"
IMPORTED = "9 options, 12 rules, weight 63 of 4,096\n"
NOBODY = 65534


def snapshot(folder):
    """Every file of a folder: its bytes, its number on the disk and its rights."""
    return {path.relative_to(folder): (path.read_bytes(), path.stat().st_ino, path.stat().st_mode)
            for path in folder.rglob("*") if path.is_file()}


def own_input(folder):
    """The file that is read, by its own name, another name, a link of either sort, and as standard input or output."""
    inside = folder / "inside"
    inside.mkdir()
    (folder / "other").symlink_to(inside)
    for sample in (TEXT, CLAUSES, BOOK):
        shutil.copy(sample, inside)
        (inside / ("link-" + sample.name)).symlink_to(sample.name)
        os.link(inside / sample.name, inside / ("hard-" + sample.name))
    before = snapshot(folder)
    for verb, sample in (("make", TEXT), ("import", CLAUSES), ("draw", BOOK)):
        source, link, hard = (inside / (kind + sample.name) for kind in ("", "link-", "hard-"))
        for name in (source, link, hard, folder / "other" / sample.name, os.path.relpath(source), "%s/./%s" % (inside, sample.name)):
            refuse_own(quick, verb, source, name)
        refuse_own(quick, verb, link, hard, "--force")
        with open(source, "rb") as given:
            refuse_own(call, verb, "-", source, "--force", stdin=given)
        with open(source, "ab") as output:  # as `>>` in a shell
            refuse_own(call, verb, source, "-", "--force", stdout=output)
    check(snapshot(folder) == before, "the file that is read was written")


def refuse_own(calling, verb, source, target, *more, **how):
    told = calling(verb, source, *(["-o"] if verb == "draw" else []), target, *more, status=1, **how)
    check(": not written: it is the same file as " in told, verb, source, target, "tells", told)


def other_kinds(folder):
    """What would be lost stays, and is named. With --force it is written over."""
    picture = folder / "picture.svg"
    quick("draw", BOOK, "-o", picture)
    kept = {"text.txt": (b"option A\nrule A\n", "a text of options and rules"), "notes": (b"gr\xfc\xdfe\n", "a text"),
            "utf16.txt": ("option A\n".encode("utf-16"), "a text"), "clauses.cnf": (b"c x\np cnf 1 0\n", "a clause file"),
            "picture.svg": (picture.read_bytes(), "a picture (SVG)"), "cut.bin": (BOOK.read_bytes()[:-1], None),
            "longer.bin": (BOOK.read_bytes() + b"\0", None), "data": (bytes(range(256)), None), "zeros": (bytes(7), None)}
    for name, (data, what) in kept.items():
        (folder / name).write_bytes(data)
        refuse_kind(("make", TEXT, folder / name), what or "something that is not a book")
    refuse_kind(("import", CLAUSES, folder / "clauses.cnf"), "a clause file")
    shutil.copy(BOOK, folder / "book.bin")
    for name, what in (("text.txt", "a text of options and rules"), ("book.bin", "a book"),
                       ("data", "something that is not a picture (SVG)")):
        refuse_kind(("draw", EXAMPLES / "seals/book.bin", "-o", folder / name), what)
    (folder / "svg.html").write_text("<html><!-- <svg> --><svg/></html>")
    refuse_kind(("draw", BOOK, "-o", folder / "svg.html"), "a text")
    check(quick("make", TEXT, folder / "text.txt", "--force") == MADE and (folder / "text.txt").read_bytes() == BOOK.read_bytes(), "make")
    check(quick("import", CLAUSES, folder / "data", "--force") == IMPORTED and kinds.is_book((folder / "data").read_bytes()), "import")
    check(quick("draw", BOOK, "--force", "-o", folder / "book.bin") == DRAWN, "draw")
    check((folder / "book.bin").read_bytes() == picture.read_bytes(), "--force draws another picture")


def refuse_kind(arguments, what):
    target = Path(arguments[-1])
    before = snapshot(target.parent)
    told = quick(*arguments, status=1)
    check(told == "%s: not written: %s stands there and would be lost; --force writes over it\n" % (target, what), arguments, "tells", told)
    check(snapshot(target.parent) == before, arguments, "changed a file")


def same_kind(folder):
    """What is of the kind that is written is written over, and so is an empty file; each time one line says what was written."""
    target, picture = folder / "target.bin", folder / "target.svg"
    for there in (None, b"", bytes(8), BOOK.read_bytes()):
        for verb, source, due in (("make", TEXT, MADE), ("import", CLAUSES, IMPORTED)):
            if there is not None:
                target.write_bytes(there)
            check(quick(verb, source, target) == due and kinds.is_book(target.read_bytes()), verb, "over", there)
    prolog = b"\xef\xbb\xbf<?xml version='1.0'?>\n<!-- <x> --><!DOCTYPE svg [ <!ENTITY a 'b'> ]>\n"
    for there in (None, b"", b"<svg/>", prolog + b"<svg:svg\n x='1'/>"):
        if there is not None:
            picture.write_bytes(there)
        check(quick("draw", BOOK, "-o", picture) == DRAWN and picture.read_bytes().startswith(b"<svg xmlns"), "draw over", there)
    (folder / "one.txt").write_text("option A\nrule A\n")
    check(quick("make", folder / "one.txt", target) == "1 option, 1 rule, weight 3 of 4,096\n", "one of each is told otherwise")


def empty_texts(folder):
    text, target = folder / "empty.txt", folder / "target.bin"
    for data in (b"", b"\n \r\n", b"\xef\xbb\xbf", b"# option A\n# rule A\n", b"# a text with the line ends of old\roption A\r"):
        text.write_bytes(data)
        shutil.copy(BOOK, target)
        told = quick("make", text, target, status=1)
        check(told == "%s: no option and no rule stands in it; --force makes a book of nothing\n" % text, data, "is told as", told)
        check(target.read_bytes() == BOOK.read_bytes(), "an empty text was written over a book:", data)
        check(quick("make", "--force", text, target) == "0 options, 0 rules, weight 1 of 4,096\n", "an empty book is told otherwise")
        check(target.read_bytes() == bytes(8), "the book of nothing is no eight zero bytes:", data)
    for data, due in ((b"option A\n", "1 option, 0 rules, weight 1"), (b"rule true\n", "0 options, 1 rule, weight 2")):
        text.write_bytes(data)
        check(quick("make", text, target) == due + " of 4,096\n", "options alone, or rules alone, are something")
    text.write_bytes(b"p cnf 0 0")
    check(quick("import", text, target) == "0 options, 0 rules, weight 1 of 4,096\n", "clauses that say that there are none")


def rights(folder):
    """Those of the target stay, and it stays behind its link; a new file has those of any other."""
    target, link = folder / "kept.bin", folder / "link.bin"
    shutil.copy(BOOK, target)
    os.chmod(target, 0o640)
    link.symlink_to(target.name)
    call("make", EXAMPLES / "seals/seals.txt", link)
    check(link.is_symlink() and target.read_bytes() == (EXAMPLES / "seals/book.bin").read_bytes(), "the link is lost")
    check(target.stat().st_mode & 0o777 == 0o640, "the rights of the target are lost")
    call("make", TEXT, folder / "new.bin", preexec_fn=lambda: os.umask(0o027))
    check((folder / "new.bin").stat().st_mode & 0o777 == 0o640, "a new file has other rights than any new file")
    os.unlink(target)
    call("make", TEXT, link)
    check(link.is_symlink() and target.read_bytes() == BOOK.read_bytes(), "through a link that leads nowhere no file is made")


def failures_midway(folder):
    """A disk that is full, and whatever else goes wrong at any point of the way."""
    target, picture = folder / "target.bin", folder / "target.svg"
    shutil.copy(EXAMPLES / "seals/book.bin", target)
    picture.write_text("<svg/>")
    before = snapshot(folder)
    for arguments in (("make", TEXT, target), ("import", CLAUSES, target), ("draw", BOOK, "-o", picture)):
        told = call(*arguments, status=1, preexec_fn=lambda: resource.setrlimit(resource.RLIMIT_FSIZE, (100, 100)))
        check(told == "%s: cannot be written: File too large\n" % arguments[-1], arguments, "tells", told)
        check(snapshot(folder) == before, "a failure midway left its traces:", arguments)
    for place in ("os.fsync", "os.chmod", "os.replace", "tempfile.mkstemp", "bookfile.files.read"):
        for failure in (OSError(28, "No space left on device"), KeyboardInterrupt()):
            with mock.patch(place, side_effect=failure):
                try:
                    files.write(str(target), BOOK.read_bytes(), kinds.BOOK, True)
                    raise Failed("with a failure of %s a book was written" % place)
                except (Mistake, KeyboardInterrupt) as told:
                    check(isinstance(told, KeyboardInterrupt) or "No space left on device" in str(told), place, told)
            check(snapshot(folder) == before, "a failure of", place, "left its traces")
    for data, kind in ((bytes(7), kinds.BOOK), (b"<sgv/>", kinds.PICTURE), (BOOK.read_bytes(), kinds.PICTURE)):
        try:
            files.write(str(target), data, kind, True)
            raise Failed("written as %s: %r" % (kind, data))
        except Mistake as told:
            check("what was made is not " + kind in str(told) and snapshot(folder) == before, told)


def streams(folder):
    """Standard input and output, pipes and devices."""
    with open(TEXT, "rb") as given:
        ended = done("make", "-", "-", stdin=given)
    check((ended.returncode, ended.stdout, ended.stderr.decode()) == (0, BOOK.read_bytes(), MADE), "make - - gives", ended)
    for name in ("-", "/dev/stdin"):
        with open(BOOK, "rb") as given:
            check(call("show", name, stdin=given) == call("show", BOOK), "a book is shown otherwise from", name)
    ended = done("make", TEXT, "/dev/stdout")
    check((ended.stdout, ended.stderr.decode()) == (BOOK.read_bytes(), MADE), "make into a pipe by name gives", ended)
    check(call("draw", BOOK, "-o", "-") == call("draw", BOOK) and not list(folder.iterdir()), "draw -o - gives another picture")
    check(call("make", TEXT, "/dev/null") == MADE, "/dev/null is refused")
    pipe, got = folder / "pipe", []
    os.mkfifo(pipe)
    reader = threading.Thread(target=lambda: got.append(pipe.read_bytes()))
    reader.start()
    check(call("draw", BOOK, "-o", pipe) == DRAWN, "a named pipe is not drawn into")
    reader.join()
    check(got == [call("draw", BOOK).encode()], "through a named pipe there comes another picture")
    with open(folder / "new.bin", "wb") as output:  # as `>` in a shell
        check(call("make", TEXT, "/dev/stdout", stdout=output) == MADE, "/dev/stdout as a file")
    check((folder / "new.bin").read_bytes() == BOOK.read_bytes(), "the file behind /dev/stdout has another book")


def no_room(folder):
    """A terminal, which is no place for a book, and a full disk."""
    ours, theirs = pty.openpty()
    for name in ("-", "/dev/stdout"):
        told = call("make", TEXT, name, status=1, stdout=theirs)
        check(told.endswith(": not written: it is a terminal, and a book is no text; name a file\n"), "for a terminal:", told)
    os.close(theirs)
    os.close(ours)
    for arguments in (("make", TEXT, "/dev/full"), ("draw", BOOK, "-o", "/dev/full")):
        check(call(*arguments, status=1) == "/dev/full: cannot be written: No space left on device\n", "/dev/full")
    for arguments in (("show", BOOK), ("check", BOOK), ("draw", BOOK), ("diff", BOOK, BOOK), ("make", TEXT, "-"), ("--help",)):
        with open("/dev/full", "wb") as full:
            told = call(*arguments, status=1, stdout=full)
        check(told == "standard output: cannot be written: No space left on device\n", arguments, "on a full disk tells", told)


def heed_interrupts():
    """As at a terminal: whoever starts these tests in the background lets them ignore Ctrl-C, and so what they start."""
    signal.signal(signal.SIGINT, signal.SIG_DFL)


def ended_early(folder):
    """Closed outputs, a reader that has seen enough, and Ctrl-C: no traceback, nothing made up, and no file left."""
    tool = '"%s" "%s"' % (sys.executable, TOOL)
    for line, status, told in (
            ('%s show "%s" >&-' % (tool, BOOK), 1, "standard output: cannot be written: it is closed\n"),
            ('%s make - "%s/x" <&-' % (tool, folder), 1, "standard input: cannot be read: Bad file descriptor\n"),
            ('%s make none "%s/x" 2>&-' % (tool, folder), 1, ""), ('%s check "%s" 2>/dev/full >/dev/null' % (tool, BOOK), 0, ""),
            ('%s make "%s" "%s/x" 2>&- && cmp "%s/x" "%s"' % (tool, TEXT, folder, folder, BOOK), 0, ""),
            ('%s make "%s" "%s/x" 2>/dev/full && rm "%s/x"' % (tool, TEXT, folder, folder), 0, "")):
        ended = subprocess.run(["sh", "-c", line], capture_output=True, check=False)
        check((ended.returncode, ended.stdout, ended.stderr.decode()) == (status, b"", told), line, "gives", ended)
    read, write = os.pipe()
    os.close(read)
    with open(write, "wb") as closed:
        ended = done("draw", BOOK, stdout=closed)
    check((ended.returncode, ended.stderr) == (1, b""), "for a reader that has gone draw says", ended)
    interrupted(folder)
    check(not list(folder.iterdir()), "a file was left")


def interrupted(folder):
    """Ctrl-C while the text is read: the pipe can be opened once the program waits for it."""
    pipe = folder / "pipe"
    os.mkfifo(pipe)
    with subprocess.Popen([sys.executable, TOOL, "make", str(pipe), str(folder / "x")], stderr=subprocess.PIPE,
                          preexec_fn=heed_interrupts) as waiting:
        with open(pipe, "wb"):
            waiting.send_signal(signal.SIGINT)
            told = waiting.communicate(timeout=60)[1]
        check((waiting.returncode, told) == (-signal.SIGINT, b""), "on Ctrl-C it ends with", waiting.returncode, told)
    pipe.unlink()


def places(folder):
    """Where no file can be written, and what cannot be read: told by what is the matter."""
    (folder / "file").write_bytes(b"x")
    (folder / "loop").symlink_to("loop")
    for target, words in (
            (folder, "it is the name of a folder"), ("%s/new/" % folder, "it is the name of a folder"),
            (folder / "no/book.bin", "there is no folder %s/no" % os.path.realpath(folder)), ("", "it is the name of a folder"),
            (folder / "file/book.bin", "Not a directory"), (folder / "loop", "Too many levels of symbolic links"),
            (folder / ("n" * 300), "File name too long")):
        told = quick("make", TEXT, target, "--force", status=1)
        check(told == "%s: cannot be written: %s\n" % (target or '""', words), target, "is told as", told)
    for source, words in ((folder / "none", "No such file or directory"), (folder, "Is a directory"), ("", "No such file or directory"),
                          ("/dev/zero", "it has more than 4,194,304 bytes")):
        for verb in ("make", "import") if source == folder else ("make",):
            told = quick(verb, source, folder / "x.bin", status=1)
            check(told == "%s: cannot be read: %s\n" % (source or '""', words), source, "is told as", told)
    check([path.name for path in sorted(folder.iterdir())] == ["file", "loop"], "a refusal left its traces")


def protected(folder):
    """Files and folders without rights, as one meets them who is not allowed everything."""
    locked, shut, text = folder / "locked", folder / "shut.txt", folder / "text.txt"
    locked.mkdir()
    for name in ("book.bin", "protected.bin", "secret.bin", "locked/book.bin"):
        shutil.copy(BOOK, folder / name)
    for path in (text, shut):
        shutil.copy(TEXT, path)
    if os.geteuid() == 0:
        for path in [folder, *folder.rglob("*")]:
            os.chown(path, NOBODY, NOBODY)
    before = snapshot(folder)
    for path, mode in ((locked, 0o555), (folder / "protected.bin", 0o444), (folder / "secret.bin", 0o200), (shut, 0)):
        os.chmod(path, mode)
    no_file = "cannot be written: no file can be made in its folder: Permission denied"
    for source, target, words in (
            (shut, folder / "book.bin", "%s: cannot be read: Permission denied" % shut),
            (text, folder / "protected.bin", "%s/protected.bin: cannot be written: it is write-protected" % folder),
            (text, folder / "secret.bin", "%s/secret.bin: cannot be read: Permission denied; so it may be no book, and is not written over "
             "without --force" % folder),
            (text, locked / "book.bin", "%s/book.bin: %s" % (locked, no_file)),
            (text, locked / "new.bin", "%s/new.bin: %s" % (locked, no_file))):
        given = called_as_nobody("make", source, target)
        check(given == (1, words + "\n"), source, "to", target, "gives", given)
    for path in [locked, *folder.rglob("*.*")]:
        os.chmod(path, 0o755 if path == locked else 0o644)
    check([each[:2] for each in snapshot(folder).values()] == [each[:2] for each in before.values()], "a file without rights was written")


def called_as_nobody(*arguments):
    """(status, standard error). The program is not started anew, since it may stand where nobody else can read it."""
    notation.book_of(TEXT.read_bytes())  # whatever it loads only when it is used
    read, write = os.pipe()
    child = os.fork()
    if child == 0:
        status = 99
        try:
            os.dup2(write, 2)
            if os.geteuid() == 0:
                os.setgid(NOBODY)
                os.setuid(NOBODY)
            status = main([str(each) for each in arguments])
        finally:
            os._exit(status)
    os.close(write)
    with open(read) as told:
        words = told.read()
    return os.WEXITSTATUS(os.waitpid(child, 0)[1]), words


def run(accepted):
    with tempfile.TemporaryDirectory() as name:
        os.chmod(name, 0o755)
        for part in (own_input, other_kinds, same_kind, empty_texts, rights, failures_midway, streams, no_room, ended_early, places,
                     protected):
            folder = Path(name) / part.__name__
            folder.mkdir()
            part(folder)
            check(not list(folder.rglob(".book-*")), "a file was left beside its target")
    return "files kept"
