"""The sources and the pages of the repository; rattle_syntax.py reads the syntax of the sources."""
import os

TOP = os.path.dirname(os.path.dirname(os.path.dirname(os.path.abspath(__file__))))


def read(path, **how):
    """The text of a file, by its path from the top."""
    with open(os.path.join(TOP, path), encoding="utf-8", **how) as file:
        return file.read()
