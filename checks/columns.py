#!/usr/bin/env python3
"""Looks at the lines of the sources: none has more than 120 columns.

    checks/columns.py

Sources are the files `.rt` below crates/, but for those of the crates in LONGER. Exits with 1 where a line has more,
with its place and its columns, or where LONGER names a crate that has none. checks/test_columns.py tries that it can
fail.
"""
import glob
import os
import sys

from lib.report import end
from lib.sources import TOP, read
from lib.usage import parser_of

MOST = 120
# Crates that may have longer lines.
LONGER = {"traffic_bench"}


def sources():
    """The texts of the sources, by their paths below crates/."""
    folder = os.path.join(TOP, "crates")
    names = glob.glob("*/src/**/*.rt", root_dir=folder, recursive=True)
    return {name: read(os.path.join(folder, name)) for name in sorted(names)}


def amiss(texts):
    """The lines that are too long, and crates of LONGER that have none."""
    found = [(path, number, len(line)) for path, text in texts.items()
             for number, line in enumerate(text.split("\n"), 1) if len(line) > MOST]
    crates = {path.split("/")[0] for path, _, _ in found}
    yield from ("%s:%d: %d columns" % it for it in found if it[0].split("/")[0] not in LONGER)
    yield from ("LONGER: %s has no longer line" % crate for crate in sorted(LONGER - crates))


def main():
    parser_of(__doc__, runs_program=False).parse_args()
    texts = sources()
    return end(list(amiss(texts)), "%d lines" % sum(text.count("\n") for text in texts.values()))


if __name__ == "__main__":
    sys.exit(main())
