"""What the tool says on standard output and standard error, with nothing in it that a terminal would act on."""
import os
import sys
from contextlib import suppress

from . import Mistake


def visible(text):
    """A text on one line: what cannot be printed is spelled out, a control character too, and a byte of a file's name that is no text."""
    return "".join(each if each.isprintable() else spelled_out(each) for each in text)


def spelled_out(character):
    number = ord(character)
    return "\\x%02x" % (number - 0xDC00) if 0xDC80 <= number <= 0xDCFF else "U+%04X" % number


def tell(words):
    """One line on standard error. Where nobody can be told, the exit status must do."""
    if sys.stderr is not None:
        with suppress(OSError):
            sys.stderr.write(visible(words) + "\n")
            sys.stderr.flush()


def put_text(text):
    """Writes a text to standard output; what has no place in its encoding is spelled out."""
    put(text.encode(getattr(sys.stdout, "encoding", None) or "utf-8", "backslashreplace"))


def put(data):
    """Writes bytes to standard output, all of them or a Mistake. BrokenPipeError: whoever read it has seen enough."""
    if sys.stdout is None:
        raise Mistake("standard output: cannot be written: it is closed")
    try:
        sys.stdout.buffer.write(data)
        sys.stdout.buffer.flush()
    except BrokenPipeError:
        drop_output()
        raise
    except OSError as error:
        drop_output()
        raise Mistake("standard output: cannot be written: %s" % reason(error)) from None


def drop_output():
    """What could not be written would be tried once more as the program ends."""
    os.dup2(os.open(os.devnull, os.O_WRONLY), sys.stdout.fileno())


def reason(error):
    return getattr(error, "strerror", None) or str(error)
