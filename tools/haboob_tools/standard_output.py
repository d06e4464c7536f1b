"""Writes what a tool answers on standard output."""
import os
import sys

from .tool_run import Fault


def printable(text):
    """A text with escapes for what no UTF-8 has, as names of files may have it."""
    return text.encode("utf-8", "backslashreplace").decode()


def write(text):
    """Writes lines to standard output at once; a fault where it is closed or full."""
    if sys.stdout is None:
        raise Fault("standard output is closed")
    encoding = sys.stdout.encoding or "utf-8"
    try:
        sys.stdout.write(text.encode(encoding, "backslashreplace").decode(encoding))
        sys.stdout.flush()
    except OSError as error:
        sys.stdout = open(os.devnull, "w", encoding="utf-8")  # so that the end of the program doesn't try it again
        raise Fault("standard output: %s" % error.strerror) from None
