#!/usr/bin/env python3
"""Runs each command over more messages than 2^22, and compares all that it writes, byte for byte.

    checks/many_messages.py PROGRAM

A capture has at most 2^20 messages, a traffic text any number. Two of these have 2^22 + 2, each in a record of its own.
Where all come at tick 0, only the first is let in. Where they come a tick after each other, all are: the service is 201
ticks, so the n-th (from 0) is finished at 201 (n + 1), and its sample is 200 n + 201; a control looks at the last sample
alone, after each 4,096. The first text without its last line is a fault of the record after so many; of a capture of
them the table has the rows within the limit. The expected texts are counted up from this.
Prints a line for each run, and exits with 1 where one is wrong.
"""
import itertools
import os
import subprocess
import sys
import tempfile
import threading

from lib.report import Report
from lib.run import options
from lib.texts import HEADER, HEADER_TRAFFIC, REQUEST, SNAPSHOT
from lib.usage import program_of
from program_parts import FIRST_LINE, HEADING, PIECE, REJECTED, REPLY, STATUSES, TIGHT

COUNT = 2**22 + 2
LIMIT = 2**20
SECONDS = 300
BLOCK = 1024  # messages that are written, and compared, at once
SLIM_PIECE = b"piece 0 0 27\nGET /a.txt HTTP/1.1\nHost:\n\n\n"
EVERY = 4096
OPEN = (
    b"[policy]\nrate = 1000000000\nrate_min = 1000000000\nrate_max = 1000000000\nevery = %d\nwindow = 1\n"
    b"smoothing = 0\n" % EVERY
)
ROW = b"%d,0,0,0,503,rejected,201,0,1000,,,201,GET,/a.txt\n"
FIRST_ROW = b"0,0,0,0,200,admitted,201,1000000000,1000,0,201,0,GET,/a.txt\n"
TOO_MANY = b"haboob: capture: message %d: TooMany\n" % LIMIT
CUT = b"haboob: capture: record %d: Cut\n" % (COUNT + 1)  # the first line is record 0
INSPECTION = (
    b"haboob-inspection 1\nversion %b\nstart 784111777\nrecords %d\npieces %d\nends 0\ntiers 0\nfirst 0\nlast 0\n"
    b"connections 1\n%bbytes %d\nmessages %d\nrequests %d\nmethod GET %d\nmethod HEAD 0\nmethod other 0\n"
    b"protocol HTTP/1.0 0\nprotocol HTTP/1.1 %d\nfault TooLong 0\nfault Block 0\nfault Host 0\nfault Coding 0\n"
    b"fault Length 0\nfault BodySize 0\nafter-close 0 0\nunfinished 0 0\nbusiest 0 %d\nend\n"
)


def repeated(text, count):
    """This text so many times, in parts."""
    yield from itertools.repeat(text * BLOCK, count // BLOCK)
    yield text * (count % BLOCK)


def numbered(form, first, last):
    """This form with each number from the first up to the one before the last, in parts."""
    for number in range(first, last, BLOCK):
        yield b"".join([form % n for n in range(number, min(number + BLOCK, last))])


def paced():
    """The pieces of requests that come a tick after each other, in parts."""
    yield from numbered(PIECE.replace(b"piece 0 ", b"piece %d "), 0, COUNT)


def answered():
    """The replies to them, in parts: the date is that of the second."""
    for second, first in enumerate(range(0, COUNT, 1_000_000)):
        form = REPLY.replace(b"Date: Sun, 06 Nov 1994 08:49:37", b"Date: Sun, 06 Nov 1994 08:49:%d" % (37 + second))
        yield from numbered(form, first, min(first + 1_000_000, COUNT))


def report(admitted, percentiles, controls):
    """The report, in parts; all but those that were admitted were turned away."""
    yield b"haboob-report 1\nmessages %d\nbypassed 0\nadmitted %d\nrejected %d\n" % (COUNT, admitted, COUNT - admitted)
    yield STATUSES % (admitted, COUNT - admitted) + b"p50 %d\np90 %d\np99 %d\n" % percentiles
    yield b"controls %d\n" % len(controls) + b"".join(controls)
    yield from numbered(b"reject %d\n", admitted, COUNT)
    yield b"end\n"


def report_of_paced():
    """The report of the requests that come a tick after each other: the sample of rank r is that of number r - 1."""
    percentiles = tuple(200 * (-(-q * COUNT // 100) - 1) + 201 for q in (50, 90, 99))
    lines = []
    for last in range(EVERY - 1, COUNT, EVERY):
        instant, sample = 201 * (last + 1), 200 * last + 201
        if instant < COUNT:  # the last request comes at COUNT - 1
            lines.append(b"control %d %d %d %d 1000000000\n" % (len(lines) + 1, instant, sample, sample))
    return report(COUNT, percentiles, lines)


def differs(stream, parts):
    """Where a stream isn't the text of these parts: the place of the first part that differs; None where it is. It is
    read up to its end."""
    place = None
    read = 0
    for part in parts:
        if place is None and stream.read(len(part)) != part:
            place = read
        read += len(part)
    rest = sum(map(len, iter(lambda: stream.read(1 << 20), b"")))
    return read if place is None and rest else place


def compare_run(program, folder, words, wanted, output):
    """The status and the line of a run, and where its standard output (of which `wanted` are the parts) and the text
    that it writes to the pipe `output` differ from what they must be."""
    found = {}
    with subprocess.Popen([program, *words], cwd=folder, stdin=subprocess.DEVNULL, stdout=subprocess.PIPE,
                          stderr=subprocess.PIPE) as child:
        killer = threading.Timer(SECONDS, child.kill)
        killer.start()

        def read_output():
            with open(os.path.join(folder, "pipe"), "rb") as pipe:
                found["output"] = differs(pipe, output)

        reader = threading.Thread(target=read_output, daemon=True)
        if output is not None:
            reader.start()
        found["report"] = differs(child.stdout, wanted)
        line = child.stderr.read()
        child.wait()
        killer.cancel()
        if output is not None:
            reader.join(SECONDS)
    return child.returncode, line, found


def named(words, capture):
    """These words with this capture in the place of the traffic text."""
    return [capture if word == "traffic" else word for word in words]


def runs():
    """Each run: its name, its words, the parts of standard output and those of what it writes; the line of its
    fault."""
    replay = ["replay", *options("snapshot", capture="traffic", replies="pipe")]
    tight, once = ["--settings", "tight"], (1, (201, 201, 201), [])
    last, chain = [b"stop %d\n" % COUNT], itertools.chain
    for engine in ("plain", "staged"):
        away = chain([FIRST_LINE, REPLY % 0], numbered(REJECTED, 1, COUNT), last)
        yield "replay: turned away, " + engine, [*replay, *tight, "--engine", engine], report(*once), away, b""
    alike = chain([FIRST_LINE], answered(), last)
    yield "replay: admitted", named(replay, "paced") + ["--settings", "open"], report_of_paced(), alike, b""
    away = chain([FIRST_LINE, REPLY % 0], numbered(REJECTED, 1, COUNT))
    yield "replay: cut", named(replay, "cut") + tight, [], away, CUT
    explain = ["explain", *options("snapshot", capture="traffic", messages="pipe"), *tight]
    rows = chain([HEADING + FIRST_ROW], numbered(ROW, 1, COUNT))
    yield "explain", explain, report(*once), rows, b""
    within = chain([HEADING + FIRST_ROW], numbered(ROW, 1, LIMIT))
    yield "explain: too many", named(explain, "capture"), [], within, TOO_MANY
    many = (b"traffic", COUNT, COUNT, b"open 1\n", COUNT * len(REQUEST)) + (COUNT,) * 5
    yield "inspect", ["inspect", "--capture", "traffic"], [INSPECTION % many], None, b""
    yield "inspect: cut", ["inspect", "--capture", "cut"], [INSPECTION % many], None, CUT
    slim = ["slim", "--capture", "traffic", "--output", "pipe"]
    yield "slim", slim, [], chain([HEADER_TRAFFIC], repeated(SLIM_PIECE, COUNT), last), b""
    upgrade = ["upgrade", "--capture", "capture", "--output", "pipe", "--to", "traffic"]
    yield "upgrade", upgrade, [], chain([HEADER_TRAFFIC], repeated(PIECE, COUNT), last), b""


def write_inputs(folder):
    """The snapshot, two settings, a capture, the same as a traffic text, one with other ticks, one without its end."""
    stop = [b"stop %d\n" % COUNT]
    for name, parts in (
        ("snapshot", [SNAPSHOT]),
        ("tight", [TIGHT]),
        ("open", [OPEN]),
        ("traffic", itertools.chain([HEADER_TRAFFIC], repeated(PIECE, COUNT), stop)),
        ("paced", itertools.chain([HEADER_TRAFFIC], paced(), stop)),
        ("capture", itertools.chain([HEADER], repeated(PIECE, COUNT), stop)),
        ("cut", itertools.chain([HEADER_TRAFFIC], repeated(PIECE, COUNT))),
    ):
        with open(os.path.join(folder, name), "wb") as file:
            file.writelines(parts)
    os.mkfifo(os.path.join(folder, "pipe"))


def main():
    program, seen = program_of(__doc__), Report()
    with tempfile.TemporaryDirectory() as folder:
        write_inputs(folder)
        for name, words, wanted, output, line in runs():
            status, error, found = compare_run(program, folder, words, wanted, output)
            good = error == line and status == (5 if line else 0) and set(found.values()) == {None}
            seen.see_run(name, good, (status, error, found))
    return seen.end()


if __name__ == "__main__":
    sys.exit(main())
