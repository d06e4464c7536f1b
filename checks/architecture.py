#!/usr/bin/env python3
"""Compares docs/ARCHITECTURE.md with the sources.

    checks/architecture.py

Its table of crates names each crate of crates.txt that holds no tests, at its level, which is one above the highest of
the own crates that crates.txt gives it; and each file that a recipe ("To add ..") names is there, from the top or in a
crate that the recipe names. Exits with 1 where something differs, with a line for each.
"""
import os
import re
import sys

from lib import cited
from lib.report import end
from lib.sources import TOP, read
from lib.usage import parser_of

ROW = re.compile(r"^\| (\d+) \| `(\w+)` \|", re.MULTILINE)
FILE = re.compile(r"`((?:[\w*-]+/)*[\w*-]+\.(?:rt|antt|py|md))`")
CRATE = re.compile(r"`crates/(\w+)")


def crates():
    """The crates of crates.txt that hold no tests, each with its level."""
    _, own = cited.crates()
    levels = {}

    def level(name):
        if name not in levels:
            levels[name] = 1 + max(map(level, own[name]), default=0)
        return levels[name]

    return {name: level(name) for name in own if not name.endswith("_tests") and name != "test_support"}


def differences(page):
    """Where the table differs from crates.txt."""
    wanted = crates()
    rows = {name: int(level) for level, name in ROW.findall(page)}
    for name in sorted(wanted.keys() | rows.keys()):
        if rows.get(name) != wanted.get(name):
            yield "%s: its level is %s, and the page says %s" % (name, wanted.get(name), rows.get(name))


def absent(page):
    """The files that a recipe names and that aren't there."""
    for recipe in re.findall(r"^- \*\*.*$", page[page.index("## To add"):], re.MULTILINE):
        folders = [""] + ["crates/%s/" % name for name in CRATE.findall(recipe)]
        folders += [folder + part for folder in folders[1:] for part in ("src/", "specs/", "proofs/")]
        for name in FILE.findall(recipe):
            if "*" not in name and not any(os.path.isfile(os.path.join(TOP, folder + name)) for folder in folders):
                yield "%s: no such file (%s)" % (name, recipe[4:30])


def main():
    parser_of(__doc__, runs_program=False).parse_args()
    page = read("docs/ARCHITECTURE.md")
    wrong = list(differences(page)) + list(absent(page))
    return end(wrong, "%d crates" % len(crates()))


if __name__ == "__main__":
    sys.exit(main())
