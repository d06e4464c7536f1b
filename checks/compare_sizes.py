#!/usr/bin/env python3
"""Compares large replays with those of reference.py, with memory enough: a program that gives up above some size, or
that answers otherwise there, is found.

    checks/compare_sizes.py PROGRAM

Each replay is compared as those of compare_replays.py are: both engines, the table of decisions, what the capture
holds, the settings, and the upgrade. Exits with 1 where anything differs.
"""
import sys

from lib.texts import OPEN, REQUEST, SNAPSHOT, TIME as START, recording_text, snapshot_text, table_text
from lib.usage import program_of
import reference
from compare_replays import Comparison, in_order

# The shortest request.
SHORTEST = b"G / HTTP/1.1\nHost:\n\n"
WRONG = b"G / HTTP/1.1\n\n"
ONE, TWO, TRAFFIC = reference.FORMATS
LAST = TWO.last


def floor(**keys):
    """A table of settings for the floors."""
    return table_text("floor", **keys)


def pieces(count, connections=50, data=REQUEST):
    """So many pieces of the same bytes, over so many connections."""
    return [(number, number % connections, data) for number in range(count)]


def in_turn(count, connections=50, data=REQUEST):
    """So many lives of one request each, in turn on so many numbers, in a traffic text."""
    return [record for number in range(count)
            for record in ((number, number % connections, data), (number, number % connections))]


def with_fault(records, instead, form=ONE):
    """The text of a recording whose last line is another."""
    text = recording_text(records, form.begin)
    return text[:text.rindex(b"stop")] + instead


def late_faults():
    """Name, capture and settings of replays with a fault after many records, in batches of many sizes."""
    for count in (4_096, 5_000, 100_000):
        for batch in (1_000, 4_096, 65_536):
            for name, instead in (
                ("a wrong record", b"peice 0 0 0\n"), ("cut", b""), ("a tick before the last", b"end 0 7\n"),
            ):
                if count < 100_000 or (batch, name) in ((1_000, "cut"), (65_536, "a wrong record")):
                    settings = OPEN + floor(batch=batch)
                    yield "%s after %d, batch %d" % (name, count, batch), with_fault(pieces(count), instead), settings
    ended = in_turn(50_000), b"tier 49 4\n", TRAFFIC
    yield "a wrong tier after 50,000 lives", with_fault(*ended), OPEN + floor(batch=65_536)


def sized_captures():
    """Name, format, records and settings of replays with much of one thing."""
    yield "10,000 pieces a batch", ONE, pieces(20_000), OPEN + floor(batch=10_000)
    most = SHORTEST * (reference.PIECE_LIMIT // len(SHORTEST))
    yield "the most requests of a piece", ONE, pieces(3, 2, most), OPEN
    yield "the most requests of a piece, turned away", ONE, pieces(3, 2, most), b"[policy]\nevery = 4096\n"
    yield "every connection", TWO, pieces(LAST + 1, LAST + 1), OPEN + floor(batch=30_000)
    yield "a fault on every connection", TWO, pieces(LAST + 1, LAST + 1, WRONG), OPEN + floor(batch=65_536)
    given = [("tier", LAST, 3), ("tier", LAST - 1, 2)]
    yield "tiers of the last connections", TWO, given + [(0, LAST - 1, REQUEST), (1, LAST, REQUEST * 20)], None
    yield "every number twice", TRAFFIC, in_turn(2 * (LAST + 1), LAST + 1), OPEN + floor(batch=65_536)
    yield "50,000 lives of one number", TRAFFIC, in_turn(50_000, 1), OPEN + floor(batch=30_000)
    cut = [(0, 1, REQUEST[:20]), (0, 1), (0, 1, REQUEST[20:]), (0, 1)] * 20_000
    yield "blocks that end with their lives", TRAFFIC, cut, OPEN
    yield "ends alone", TRAFFIC, [(number, number % 70) for number in range(70_000)], OPEN
    tiers = [record for number in range(20_000) for record in (
        ("tier", number % 9, number % 4), (number, number % 9, REQUEST), (number, number % 9))]
    yield "a tier for each life", TRAFFIC, tiers, OPEN + b"every = 1\nwindow = 1\n"
    byte_by_byte = [(at, at % 2, b"%c" % byte) for at, byte in enumerate(REQUEST * 300)]
    yield "bytes", ONE, [(at, 5, data) for at, _, data in byte_by_byte], OPEN + floor(batch=5_000)
    window = b"window = 4096\nevery = 4096\n"
    yield "the widest window", ONE, pieces(20_000), OPEN + window
    yield "twenty thousand controls", ONE, pieces(20_000), OPEN + b"every = 1\nwindow = 1\n"
    yield "the most workers", ONE, pieces(3_000), OPEN + floor(front_workers=[16] * 3, back_workers=[16] * 2)
    narrow = floor(front_capacities=[1] * 3, back_capacities=[1] * 2, front_workers=[16] * 3, back_workers=[16] * 2)
    yield "the most workers, room for one", ONE, pieces(3_000), OPEN + narrow
    longest = floor(front_capacities=[4096] * 3, back_capacities=[4096] * 2)
    yield "the longest queues", ONE, pieces(9_000), OPEN + longest
    head = b"POST /a.txt HTTP/1.1\r\nHost: a\r\nContent-Length: 65536\r\n\r\n"
    bodies = [(at, at % 500, data) for at, data in enumerate([head] * 500 + [b"x" * 65_536] * 500)]
    yield "bodies of 500 connections at once", ONE, bodies, OPEN


def sized_snapshots():
    """Name, files, records and settings of replays of large snapshots."""
    names = [b"%04d.html" % number for number in range(3_000)]
    asked = [(at, at % 7, b"GET /%b HTTP/1.1\r\nHost: a\r\n\r\n" % names[at * 7 % 3_000]) for at in range(9_000)]
    for cache in (0, 100_000, 1_000_000):
        yield "3,000 pages, cache %d" % cache, [(name, START, name) for name in names], asked, OPEN + floor(cache=cache)
    long = sorted("é" * (length // 2) + "x" * (length % 2) for length in range(1, reference.NAME_LIMIT + 1))
    long = [(name.encode(), START, b"") for name in sorted(long, key=str.encode)]
    targets = ["/" + "".join("%%%02X" % byte for byte in name) for name, _, _ in long[::40]]
    asked = [(at, at, b"GET %b HTTP/1.1\r\nHost: a\r\n\r\n" % text.encode()) for at, text in enumerate(targets)]
    yield "names of all lengths", long, asked, OPEN
    folders = b"/".join([b"d"] * 512) + b"e"
    asked = [(0, 0, b"GET /%b HTTP/1.1\r\nHost: a\r\n\r\n" % folders)]
    yield "the deepest folder", [(folders, START, b"deep\n")], asked, OPEN
    large = [(b"%d.bin" % number, START, b"%d" % number * (reference.FILE_LIMIT - number)) for number in range(4)]
    asked = [(at, at, b"GET /%d.bin HTTP/1.1\r\nHost: a\r\n\r\n" % (at % 4)) for at in range(8)]
    yield "the largest files", large, asked, OPEN + floor(cache=0)


def documents():
    """Name and text of settings that are large."""
    yield "a key of 5,000 bytes", b"[policy]\n" + b"k" * 5_000 + b" = 1\n"
    yield "a list of 10,000", b"[floor]\nfront_cuts = [" + b"1, " * 10_000 + b"]\n"
    yield "an integer past 64 bits", b"[policy]\ndepth = 9223372036854775808\n"
    whole = b"[policy]\ndepth = 7\n"
    yield "the longest document", whole + b"#" * (reference.SETTINGS_LIMIT - len(whole))


def main():
    comparison = Comparison(program_of(__doc__))
    for name, capture, settings in late_faults():
        comparison.compare(name, SNAPSHOT, capture, settings)
    for name, form, records, settings in sized_captures():
        comparison.compare(name, SNAPSHOT, recording_text(records, form.begin), settings)
    for name, files, records, settings in sized_snapshots():
        comparison.compare(name, snapshot_text(in_order(files)), recording_text(records), settings)
    for name, document in documents():
        comparison.settings(name, document)
    return comparison.end()


if __name__ == "__main__":
    sys.exit(main())
