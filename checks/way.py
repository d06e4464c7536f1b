#!/usr/bin/env python3
"""Walks the way of a request that docs/ARCHITECTURE.md draws, through the sources, and counts its stops.

    checks/way.py [--print]

The page has it as a block of lines, a stop each: a file below crates/ and a function in it, deeper than the one that
calls it. (A line that names no file is in the file of the stop above it.) Each function has to be in its file, and its
caller's body has to name it, or, where it is a method of a trait, the trait's. Then come, in one line that the page has
too, the stops, their files and crates, and the returns: how often the way comes back, by a new call, to a file that it
had left. Exits with 1 where something differs, with a line for each. `--print` prints the stops with their numbers.
"""
import os
import re
import sys

from lib.sources import TOP, read
from lib.usage import end_unread, parser_of

STOP = re.compile(r"^    (?P<indent>(?:  )*)(?:(?P<file>[\w/]+\.rt) )?(?P<function>\w+)$", re.MULTILINE)
FUNCTION = r"^(?P<indent> *)(?:pub(?:\([a-z]+\))? )?fn %s\b.*?^(?P=indent)\}$"


def stops(page):
    """The stops of the page: depth, file and function."""
    place, found = None, []
    for stop in STOP.finditer(page[page.index("## The way of a request") :].split("\n## ")[0]):
        place = stop["file"] or place
        crate, name = place.split("/", 1)
        found.append((len(stop["indent"]) // 2, os.path.join("crates", crate, "src", name), stop["function"]))
    return found


def bodies(path, function):
    """The texts of the functions of this name in a file, with their contracts."""
    return [found[0] for found in re.finditer(FUNCTION % function, read(path), re.MULTILINE | re.DOTALL)]


def amiss(way):
    """What isn't as the page has it."""
    above = []
    for depth, path, function in way:
        above = above[:depth]
        if not os.path.isfile(os.path.join(TOP, path)) or not bodies(path, function):
            yield "%s: no function %s" % (path, function)
            continue
        callers = above[-1:]
        called = re.compile(r"(?<!fn )\b%s\b" % function)
        if len(above) != depth:
            yield "%s: %s: is deeper than what calls it" % (path, function)
        elif callers and not any(called.search(body) for body in bodies(*callers[0])):
            yield "%s: %s isn't called by %s" % (path, function, callers[0][1])
        above.append((path, function))


def figures(way):
    """The line of counts."""
    files = [path for _, path, _ in way]
    changes = [(one, two) for one, two in zip(files, files[1:]) if one != two]
    crates = {path.split(os.sep)[1] for path in files}
    left, returns = set(), 0
    for one, two in changes:
        left.add(one)
        returns += two in left
    return "%d stops in %d files of %d crates, %d returns to a file that was left" % (
        len(way), len(set(files)), len(crates), returns)


def main():
    end_unread()
    parser = parser_of(__doc__, runs_program=False)
    parser.add_argument("--print", action="store_true", dest="shown", help="print the stops with their numbers")
    options, page = parser.parse_args(), read("docs/ARCHITECTURE.md")
    way = stops(page)
    if options.shown:
        for number, (depth, path, name) in enumerate(way, 1):
            print("%2d  %s%s: %s" % (number, "  " * depth, path, name))
    counted, wrong = figures(way), list(amiss(way))
    if counted not in page:
        wrong.append("docs/ARCHITECTURE.md: has not the line: " + counted)
    print("\n".join(wrong + ["%s: %d wrong" % (counted, len(wrong))]))
    return int(bool(wrong))


if __name__ == "__main__":
    sys.exit(main())
