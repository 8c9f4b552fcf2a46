"""What the programs write to standard output, and how they end where that or a file fails."""

import os
import sys

from records import Unreadable

HERE = os.path.dirname(os.path.abspath(__file__))

# The status where nothing could be read, or the report couldn't be written.
FAILED = 2


def colljob_of():
    """The program that judges texts: the one that the variable COLLJOB names, or the one two folders above."""
    return os.environ.get("COLLJOB", os.path.normpath(os.path.join(HERE, "..", "..", "colljob")))


def write_out(text):
    """Writes to standard output, all of it or an OSError that names it."""
    try:
        sys.stdout.buffer.write(text.encode("utf-8", "surrogateescape"))
        sys.stdout.buffer.flush()
    except OSError as why:
        # What is left in the buffer would fail once more as Python ends.
        os.dup2(os.open(os.devnull, os.O_WRONLY), sys.stdout.fileno())
        raise OSError(why.errno, why.strerror, "standard output") from why


def write_file(path, text):
    """Writes a file, all of it or an OSError that names it."""
    try:
        with open(path, "w", encoding="utf-8", errors="surrogateescape") as file:
            file.write(text)
    except OSError as why:
        raise OSError(why.errno, why.strerror, path) from why


def run_reporting(name, main):
    """Runs MAIN, and gives its status; of what can't be read or written, one line on standard error and status 2."""
    try:
        return main()
    except Unreadable as why:
        print(f"{name}: {why}", file=sys.stderr)
    except OSError as why:
        print(f"{name}: {why.filename or 'input or output'}: {why.strerror}", file=sys.stderr)
    return FAILED
