#!/usr/bin/env python3
"""Runs the program on damaged snapshots and captures, and compares it with reference.py: status, line, replies, report.

    checks/hostile.py PROGRAM [COUNT [FIRST]]

COUNT runs (100 without it) are made from the seeds FIRST (0 without it), FIRST + 1 and so on. Each takes a random
replay of compare_replays.py, and damages its snapshot, its capture or both a few times: bytes are changed, cut out,
doubled or put in, lines change places or come twice, numbers become others or stand at a limit. Each is run on both
engines, with limits of time and memory; its table of decisions and what its capture holds are compared as well. Exits
with 1 where a run answers otherwise than the reference, hangs, is killed, or takes more memory than MEMORY.
"""
import random
import re
import sys
import tempfile

from lib.run import contents, options, put, run_measured, without_words
from lib.usage import parser_of, with_seeds
import compare_replays

SECONDS = 120

# The most memory of a run, in bytes: the inputs have less than a megabyte.
MEMORY = 128 * 2**20

LIMITS = (0, 1, 3, 4, 64, 255, 256, 1023, 1024, 1025, 4095, 4096, 8191, 8192, 65_535, 65_536, 65_537, 2**20, 2**24,
          2**24 + 1, 2**29, 2**30, 2**32, 4_102_444_800, 10**15, 10**15 + 1, 2**50, 2**63, 2**64 - 1, 2**64, 10**25)
WORDS = (b"\n", b"\r\n", b"\n\r", b" ", b"\0", b"\xff", b"piece 0 0 1\n", b"end 0 0\n", b"tier 0 1\n", b"stop 0\n",
         b"file 0 1 1\n", b"haboob-capture 2 0\n", b"haboob-traffic 1 0\n", b"GET / HTTP/1.1\r\n",
         b"Content-Length: 65537\r\n", b"Host:\r\n", b"\r\n\r\n")


def lines_exchanged(chance, text):
    """Two lines change places."""
    lines = text.split(b"\n")
    one, other = chance.randrange(len(lines)), chance.randrange(len(lines))
    lines[one], lines[other] = lines[other], lines[one]
    return b"\n".join(lines)


def line_doubled(chance, text):
    """A line comes twice."""
    lines = text.split(b"\n")
    lines.insert(chance.randrange(len(lines) + 1), chance.choice(lines))
    return b"\n".join(lines)


def number_changed(chance, text):
    """A number becomes the next, the one before, a limit, or has a nought before it."""
    numbers = list(re.finditer(rb"\d+", text))
    if not numbers:
        return text
    found = chance.choice(numbers)
    value = int(found[0][:30])
    new = chance.choice((value + 1, max(0, value - 1), chance.choice(LIMITS)))
    written = chance.choice((b"%d" % new, b"%d" % new, b"0%d" % new))
    return text[: found.start()] + written + text[found.end() :]


def byte_changed(chance, text):
    """A byte becomes another."""
    at = chance.randrange(len(text))
    return (
        text[:at]
        + bytes([chance.choice((text[at] ^ (1 << chance.randrange(8)), chance.randrange(256)))])
        + text[at + 1 :]
    )


def cut_out(chance, text):
    """Some bytes go, at times all to the end."""
    at = chance.randrange(len(text))
    return text[:at] + (b"" if chance.random() < 0.3 else text[at + chance.randrange(1, 40) :])


def part_doubled(chance, text):
    """Some bytes come twice."""
    at = chance.randrange(len(text))
    part = text[at : at + chance.randrange(1, 200)]
    return text[:at] + part + text[at:]


def word_put_in(chance, text):
    """A word of the formats, or one that is in none, comes in."""
    at = chance.randrange(len(text) + 1)
    return text[:at] + chance.choice(WORDS) + text[at:]


DAMAGES = (lines_exchanged, line_doubled, number_changed, number_changed, byte_changed, cut_out, part_doubled,
           word_put_in)


def damaged(chance, text):
    """A text that was damaged a few times."""
    for _ in range(chance.choice((1, 1, 1, 2, 3, 8))):
        if text:
            text = chance.choice(DAMAGES)(chance, text)
    return text


def hostile_replay(seed):
    """Snapshot, capture and settings of a seed, with damage in the first two."""
    snapshot, capture, settings = compare_replays.random_replay(seed, ("",))
    chance = random.Random("hostile, %d" % seed)
    which = chance.choice(("snapshot", "capture", "capture", "capture", "both"))
    if which != "capture":
        snapshot = damaged(chance, snapshot)
    if which != "snapshot":
        capture = damaged(chance, capture)
    return snapshot, capture, settings


class Limited(compare_replays.Comparison):
    """A comparison whose replays have limits of time and memory, and the most memory that one took, in bytes."""

    most = 0

    def run_replay(self, words, *texts):
        files = compare_replays.replay_files(*texts)
        with tempfile.TemporaryDirectory() as folder:
            put(folder, files)
            ran, peak = run_measured(self.program, ["replay", *words, *options(*files)], folder, SECONDS)
            status, line, report = ran
            replies = contents(folder, "replies")
        self.most = max(self.most, peak)
        above = b"(%d bytes of memory) " % peak if peak > MEMORY else b""
        return status, above + without_words(line), replies, report


def main():
    words = with_seeds(parser_of(__doc__), 100).parse_args()
    comparison, ends = Limited(words.program), {}
    for seed in range(words.first, words.first + words.count):
        texts = hostile_replay(seed)
        status, *_ = comparison.replay_as_reference("seed %d" % seed, *texts)
        ends[status] = ends.get(status, 0) + 1
        comparison.explain("seed %d" % seed, *texts)
    figures = words.count, compare_replays.ends_text(ends), comparison.most >> 20
    return comparison.end("%d damaged inputs (%s), %d MiB at most, {wrong} wrong" % figures)


if __name__ == "__main__":
    sys.exit(main())
