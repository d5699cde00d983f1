"""Reading files, and writing them so that nothing is lost: the target is either as it was or whole, it is never the file that was read, and
it is written over only where it is of the kind that is written, or where that is asked for."""
import os
import stat
import tempfile
from contextlib import suppress

from . import Mistake, kinds, saying
from .checking import in_thousands
from .saying import reason

STANDARD = "-"  # names standard input or standard output
MOST_BYTES, MOST_TEXT = 1 << 28, 1 << 22  # to read a text takes up to 250 times its length of memory
PIECE = 1 << 20


def read(path, most=MOST_BYTES):
    """The bytes of a file. One without an end, as some devices are, must not fill the memory."""
    pieces, length = [], 0
    try:
        with open(0, "rb", closefd=False) if path == STANDARD else open(path, "rb") as source:
            for piece in iter(lambda: source.read(PIECE), b""):
                pieces.append(piece)
                length += len(piece)
                if length > most:
                    raise Mistake("%s: cannot be read: it has more than %s bytes" % (input_name(path), in_thousands(most)))
    except (OSError, ValueError) as error:
        raise Mistake("%s: cannot be read: %s" % (input_name(path), reason(error))) from None
    return b"".join(pieces)


def input_name(path):
    return "standard input" if path == STANDARD else path or '""'


def output_name(path):
    return "standard output" if path == STANDARD else path or '""'


def check_apart(source, target):
    """The file that is read must not be written, by whatever name or link: it would be lost."""
    try:
        found, there = [os.fstat(standard) if path == STANDARD else os.stat(path) for path, standard in ((source, 0), (target, 1))]
    except (OSError, ValueError):
        return  # one of the two is not there: whoever reads or writes it says so
    if stat.S_ISREG(found.st_mode) and os.path.samestat(found, there):
        raise Mistake("%s: not written: it is the same file as %s, which is read, and would be lost; name another" % (
            output_name(target), input_name(source)))


def write(path, data, kind, force=False):
    """Writes bytes of a kind. Into a pipe or a device, which keep nothing that could be lost, they go as they are."""
    if kinds.kind_of(data) != kind:
        raise Mistake("%s: not written, since what was made is not %s: report that" % (output_name(path), kind))
    if path == STANDARD:
        check_no_terminal(1, path, kind)
        saying.put(data)
        return
    try:
        found = status_of(path)
        if found is not None and (stat.S_ISFIFO(found.st_mode) or stat.S_ISCHR(found.st_mode)):
            with open(os.open(path, os.O_WRONLY), "wb") as output:
                check_no_terminal(output.fileno(), path, kind)
                output.write(data)
            return
        target = os.path.realpath(path)  # behind a link the file itself is replaced, not the link
        check_place(path, target, found)
        if found is not None and not force:
            check_kept(path, found, kind)
        replace(target, data, found)
    except (OSError, ValueError) as error:
        raise Mistake("%s: cannot be written: %s" % (output_name(path), reason(error))) from None


def check_no_terminal(handle, path, kind):
    if kind == kinds.BOOK and os.isatty(handle):
        raise Mistake("%s: not written: it is a terminal, and a book is no text; name a file" % output_name(path))


def status_of(path):
    try:
        return os.stat(path)
    except FileNotFoundError:
        return None


def check_place(path, target, found):
    """Whether a plain file stands there that may be written, or none yet."""
    if not os.path.basename(path) or (found is not None and stat.S_ISDIR(found.st_mode)):
        raise OSError("it is the name of a folder")
    if not os.path.isdir(os.path.dirname(target)):
        raise OSError("there is no folder %s" % os.path.dirname(target))
    if found is not None and not stat.S_ISREG(found.st_mode):
        raise OSError("it is no plain file")
    if found is not None and not os.access(target, os.W_OK):
        raise OSError("it is write-protected")  # its name could be given to another file all the same


def check_kept(path, found, kind):
    """A file of another kind stays. An empty one, as a shell makes it, holds nothing."""
    if found.st_size == 0:
        return
    try:
        there = kinds.kind_of(read(path)) or "something that is not %s" % kind
    except Mistake as mistake:
        raise Mistake("%s; so it may be no %s, and is not written over without --force" % (mistake, kind.split(" ", 1)[1])) from None
    if there != kind:
        raise Mistake("%s: not written: %s stands there and would be lost; --force writes over it" % (path, there))


def replace(target, data, found):
    """Writes beside the target, reads that again, and only then gives it the target's name."""
    try:
        handle, beside = tempfile.mkstemp(prefix=".book-", dir=os.path.dirname(target))
    except OSError as error:
        raise OSError("no file can be made in its folder: %s" % reason(error)) from None
    try:
        with open(handle, "wb") as output:
            output.write(data)
            output.flush()
            os.fsync(handle)
        if read(beside) != data:
            raise OSError("what was written is read back otherwise")
        give_rights(beside, found)
        os.replace(beside, target)
    except BaseException:
        with suppress(OSError):
            os.unlink(beside)
        raise


def give_rights(beside, found):
    """The owner, as far as that is ours to say, and the rights of the file that stands there; or else those of any new file."""
    if found is None:
        mask = os.umask(0)
        os.umask(mask)
        os.chmod(beside, 0o666 & ~mask)
        return
    if hasattr(os, "chown"):
        with suppress(OSError):
            os.chown(beside, found.st_uid, found.st_gid)
    os.chmod(beside, stat.S_IMODE(found.st_mode))
