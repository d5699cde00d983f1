"""tools/book as a program: called with arguments, its output, its line on standard error and its status."""
import io
import os
import subprocess
import sys
from contextlib import redirect_stderr, redirect_stdout

from bookfile.commands import main

from book import LIBRARY, TOP, check

TOOL, EXAMPLES = str(TOP / "tools/book"), TOP / "examples"


def done(*arguments, library=LIBRARY, encoding="utf-8", **how):
    """The call when it has ended. Whatever it is given, it must not end in a traceback."""
    surroundings = dict(os.environ, NIBDRUMLIN_LIBRARY=str(library), PYTHONIOENCODING=encoding)
    ended = subprocess.run([sys.executable, TOOL, *map(os.fspath, arguments)], stdout=how.pop("stdout", subprocess.PIPE),
                           stderr=subprocess.PIPE, check=False, env=surroundings, **how)
    check(b"Traceback" not in ended.stderr, arguments, ended.stderr.decode())
    return ended


def call(*arguments, status=0, **how):
    """What the program prints, or where it prints nothing, its one line on standard error: it has failed, or has written a file."""
    ended = done(*arguments, **how)
    return told_by(arguments, status, ended.returncode, ended.stdout or b"", ended.stderr.decode())


def quick(*arguments, status=0):
    """The same without a program of its own, which takes longer to start than to do its work."""
    output, errors = io.TextIOWrapper(io.BytesIO(), encoding="utf-8"), io.StringIO()
    with redirect_stdout(output), redirect_stderr(errors):
        ended = main([os.fsdecode(each) for each in arguments])
    output.flush()
    return told_by(arguments, status, ended, output.buffer.getvalue(), errors.getvalue())


def told_by(arguments, due, status, printed, told):
    check(status == due, arguments, "ends with", status, told)
    check(told.count("\n") == (0 if printed else 1), arguments, "tells", repr(told))
    return printed.decode() or told
