#!/usr/bin/env python3
"""Runs `haboob upgrade`, and compares status, line, output and capture with a table."""
import sys

from lib.report import Report
from lib.texts import HEADER, HEADER_TRAFFIC, HEADER_TWO
from lib.usage import program_of
from program_parts import LIVES, OLDEST, PIECE, check_rewrites

OLDER = HEADER + PIECE + b"end 5 0\nstop 2\n"
NEWER = HEADER_TWO + PIECE + b"end 5 0\nstop 2\n"
TRAFFIC = HEADER_TRAFFIC + PIECE + b"end 5 0\nstop 2\n"
UPGRADE = ["--capture", "capture", "--output", "output"]
TO_TWO, TO_TRAFFIC = UPGRADE + ["--to", "2"], UPGRADE + ["--to", "traffic"]
TIERED = HEADER_TRAFFIC + PIECE + b"tier 0 1\n"

# A capture, the words after `upgrade`, and then the status, the line on standard error (None: a text of the command
# line), and what stands in the output, which held an older text (None: there is no output), and in the capture.
UPGRADES = [
    ("version 1", OLDER, UPGRADE, 0, b"", NEWER),
    ("version 2", NEWER, UPGRADE, 0, b"", NEWER),
    ("version 1 to version 2", OLDER, TO_TWO, 0, b"", NEWER),
    ("version 2 to version 2", NEWER, TO_TWO, 0, b"", NEWER),
    ("version 1 to traffic", OLDER, TO_TRAFFIC, 0, b"", TRAFFIC),
    ("version 2 to traffic", NEWER, TO_TRAFFIC, 0, b"", TRAFFIC),
    ("version 2 to traffic, --to first", NEWER, ["--to=traffic"] + UPGRADE, 0, b"", TRAFFIC),
    ("a traffic text", TRAFFIC, UPGRADE, 0, b"", TRAFFIC),
    ("a traffic text to version 2", TRAFFIC, TO_TWO, 0, b"", TRAFFIC),
    ("a traffic text to traffic", TRAFFIC, TO_TRAFFIC, 0, b"", TRAFFIC),
    ("numbers used again", LIVES, UPGRADE, 0, b"", LIVES),
    ("numbers used again, to version 2", LIVES, TO_TWO, 0, b"", LIVES),
    ("numbers used again, to traffic", LIVES, TO_TRAFFIC, 0, b"", LIVES),
    ("a capture with an end twice, to traffic", HEADER_TWO + b"end 5 0\nend 5 0\nstop 2\n", TO_TRAFFIC, 5,
     b"haboob: capture: record 2: Ended\n", HEADER_TRAFFIC + b"end 5 0\n"),
    ("a tier in version 1, to traffic", HEADER + b"tier 0 1\nstop 1\n", TO_TRAFFIC, 5,
     b"haboob: capture: record 1: Kind\n", HEADER_TRAFFIC),
    ("a traffic text with a tier too late", TIERED, UPGRADE, 5, b"haboob: capture: record 2: Tier\n", TIERED[:-9]),
    ("a traffic text cut", TRAFFIC[:-1], TO_TWO, 5, b"haboob: capture: record 3: Cut\n", TRAFFIC[:-7]),
    ("a traffic text of version 2", b"haboob-traffic 2 0\nstop 0\n", TO_TRAFFIC, 5,
     b"haboob: capture: record 0: Header\n", b""),
    ("--to without a word", OLDER, UPGRADE + ["--to"], 2, None, OLDEST),
    ("--to twice", OLDER, TO_TWO + ["--to", "traffic"], 2, None, OLDEST),
    ("options in another order", OLDER, ["--output=output", "--capture=capture"], 0, b"", NEWER),
    ("a record cut", (HEADER + PIECE)[:-20], UPGRADE, 5, b"haboob: capture: record 1: Cut\n", HEADER_TWO),
    ("no last line", HEADER + PIECE, UPGRADE, 5, b"haboob: capture: record 2: Cut\n", HEADER_TWO + PIECE),
    ("an empty capture", b"", UPGRADE, 5, b"haboob: capture: record 0: Cut\n", b""),
    ("version 3", b"haboob-capture 3 0\nstop 0\n", UPGRADE, 5, b"haboob: capture: record 0: Header\n", b""),
    ("connection 4096 in version 1", HEADER + b"end 0 4096\nstop 1\n", UPGRADE, 5,
     b"haboob: capture: record 1: Connection\n", HEADER_TWO),
    ("connection 65535 in version 2", HEADER_TWO + b"end 0 65535\nstop 1\n", UPGRADE, 0, b"",
     HEADER_TWO + b"end 0 65535\nstop 1\n"),
    ("no such capture", OLDER, ["--capture", "none", "--output", "output"], 6, b"haboob: open: capture\n", OLDEST),
    ("a folder as capture", OLDER, ["--capture", "folder", "--output", "output"], 6, b"haboob: read: capture\n", b""),
    ("no folder for the output", OLDER, ["--capture", "capture", "--output", "none/output"], 6,
     b"haboob: open: output\n", OLDEST),
    ("a folder as output", OLDER, ["--capture", "capture", "--output", "folder"], 6, b"haboob: open: output\n", OLDEST),
    ("a full device as output", OLDER, ["--capture", "capture", "--output", "/dev/full"], 6, b"haboob: write: output\n",
     OLDEST),
    ("a device as output", OLDER, ["--capture", "capture", "--output", "/dev/null"], 0, b"", OLDEST),
    ("the capture as output", OLDER, ["--capture", "capture", "--output", "capture"], 6, b"haboob: open: output\n",
     OLDEST),
    ("the capture by another name", OLDER, ["--capture", "capture", "--output", "./folder/../capture"], 6,
     b"haboob: open: output\n", OLDEST),
    ("the capture by a link", OLDER, ["--capture", "capture", "--output", "link"], 6, b"haboob: open: output\n",
     OLDEST),
    ("the capture by a hard link", OLDER, ["--capture", "same", "--output", "capture"], 6, b"haboob: open: output\n",
     OLDEST),
    ("no output", OLDER, ["--capture", "capture"], 2, None, OLDEST),
    ("no capture", OLDER, ["--output", "output"], 2, None, OLDEST),
    ("an option of replay", OLDER, UPGRADE + ["--engine", "plain"], 2, None, OLDEST),
    ("help", OLDER, ["--help"], 2, None, OLDEST),
]


def main():
    program, report = program_of(__doc__), Report()
    check_rewrites(report, program, "upgrade", UPGRADES)
    return report.end()


if __name__ == "__main__":
    sys.exit(main())
