#!/usr/bin/python3
"""Gives damaged logs, packets, tables of decisions and words to the capture tools and to timeline.py, and looks at what
they say and at what stands.

    python3 tools/fuzz_captures.py [COUNT [SEED [FIRST]]]

COUNT inputs (500 without a word) from number FIRST (0) are drawn from the stored ones with SEED (1) and damaged: bytes,
lines and numbers changed, taken out, repeated; files cut, and compressed. Each has to end within 20 seconds of the
processor's time (and 10 minutes in all) with a status of 0, 1 or 2 and without a traceback; with 0 the output has to be
a capture by its rules, or a whole page, else the older output has to stand as it was; and nothing else may be left in
the folder. Prints how many ended with which status, and exits with 1 at the first that didn't end so.
"""
import bz2
import collections
import contextlib
import gzip
import io
import lzma
import os
import random
import signal
import sys
import tempfile
import traceback
import unittest.mock

import test_capture_from_pcap as made
import test_timeline as tables
from test_support import DATA, GET, SERVED, read_capture

from haboob_tools import capture_from_log, capture_from_pcap, timeline, tool_run

LONGEST = 20  # seconds of the processor's time
LONGEST_WAIT = 600  # seconds
LARGEST = 40_000  # bytes that are taken of a stored file
OLDER = b"older"
FORMATS = ("timed", "combined", "common", "vhost_combined", "haproxy", "caddy", "json", "$msec $request",
           '$1msec "$request"', '$remote_addr - $remote_user [$time_local] "$request" $status',
           "%h %{usec}t %{end:usec}t %D %r", '%h %l %u %t \\"%r\\" %>s %b')
NUMBERS = (b"0", b"-1", b"2090", b"99999999999999999999999", b"1795661743.674", b"1e999", b"\xd9\xa3")
PIECES = (b"\0", b"\n", b"\r\n", b"\xff\xfe", b'"', b"\\", b"[" * 3000, b"{" * 3000, b" " * 200, b"\\x0a",
          b"x" * 70_000)
TIMES = ("0", "1795661744", "2026-11-26T02:55:45Z", "9999-12-31T23:59:59Z", "0001-01-01T00:00:00+14:00")
TARGETS = ("/", "/a%2520b", "=1+1", "/%22;@a", "/%FF%0A", "/" + "x" * 2000)
WORK = {capture_from_log: capture_from_log.convert, capture_from_pcap: capture_from_pcap.convert,
        timeline: lambda: timeline.work(timeline.arguments(None))}


def stored(names):
    """The begin of each of some stored files."""
    found = []
    for name in names:
        with open(name, "rb") as file:
            found.append(file.read(LARGEST))
    return found


def sources():
    """The inputs that are damaged: for each tool a list."""
    logs = [os.path.join(SERVED, name) for name in sorted(os.listdir(SERVED)) if name.endswith(".log")]
    recorded = [os.path.join(SERVED, name) for name in ("nginx.pcap", "nginx_cut.pcap")]
    packets = [(tick, made.packet(100 + 27 * tick, GET)) for tick in range(20)]
    packets += [(30, made.packet(99, b"", made.SYN, made.CLIENT6, made.SERVER6)),
                (31, made.packet(100, GET, made.ACK, made.CLIENT6, made.SERVER6))]
    built = [made.pcap(packets), made.pcapng(packets), made.pcap(packets, ">", 10**9, 101),
             made.pcap(packets, tags=b"\x81\x00\x00\x07"), made.pcap(packets, size=80)]
    return {capture_from_log: stored([*logs, os.path.join(DATA, "nginx.log")]),
            capture_from_pcap: stored([*recorded, os.path.join(DATA, "loopback.pcap")]) + built,
            timeline: [tables.TABLE.encode(), tables.POOLS.encode(), long_table().encode()]}


def long_table():
    """A table of decisions over more than an hour, of targets of many kinds."""
    admitted = [tables.admitted(number, number * 10**8, 10, target="/", tier=number % 4) for number in range(20)]
    rejected = [tables.rejected(number, number * 10**8, target, number % 4)
                for number, target in enumerate(10 * TARGETS, 20)]
    return tables.HEADING + "".join(admitted + rejected)


def damage(drawn, data):
    """Data with one thing wrong."""
    at, length = drawn.randrange(len(data) + 1), drawn.choice((1, 2, 4, 16, 100, 1000))
    kind = drawn.randrange(8)
    if kind == 0:
        return data[:at] + drawn.randbytes(length) + data[at + length:]
    if kind == 1:
        return data[:at] + data[at + length:]
    if kind == 2:
        return data[:at] + data[at:at + length] * drawn.choice((2, 3, 50)) + data[at:]
    if kind == 3:
        return data[:at]
    if kind == 4:
        return data[:at] + drawn.choice(PIECES) + data[at:]
    if kind == 5:
        lines = data.split(b"\n")
        drawn.shuffle(lines)
        return b"\n".join(lines)
    if kind == 6:
        old = drawn.choice((b"1795", b"2026", b"200", b"GET", b"Nov", b"00000", b",0,"))
        return data.replace(old, drawn.choice(NUMBERS), drawn.choice((1, -1)))
    return data[:at] + bytes([data[at] ^ 1 << drawn.randrange(8)]) + data[at + 1:] if at < len(data) else data


def draw_input(drawn, choices):
    """A damaged input."""
    data = drawn.choice(choices)
    for _ in range(drawn.choice((1, 1, 1, 2, 5, 30))):
        data = damage(drawn, data)[:3 * LARGEST]
    pack = drawn.choice((None,) * 9 + (gzip.compress, bz2.compress, lzma.compress))
    if pack:
        data = pack(data)
        data = damage(drawn, data) if drawn.random() < 0.7 else data
    return data


def draw_words(drawn, tool):
    """Words for a tool, some of them wrong."""
    if tool is timeline:
        return draw_words_of_timeline(drawn)
    words = []
    if tool is capture_from_pcap:
        words += ["--port=80", "--port=18101", "--port=18098"]
    elif drawn.random() < 0.3:
        form = drawn.choice(FORMATS)
        if drawn.random() < 0.3:
            form = damage(drawn, form.encode())[:500].decode("latin-1").replace("\0", "")
        words += ["--log-format=" + form]
    for option, values in (("--from", TIMES), ("--to", TIMES), ("--sample", ("2", "0", "7")),
                           ("--tier", ("/=1", "127.0.0.0/8=2", "~a(=3", "~[0-9]$=3")),
                           ("--without", ("Referer", "If-None-Match", "a b")),
                           ("--format", ("2", "traffic", "1"))):
        if drawn.random() < 0.06:
            words.append(option + "=" + drawn.choice(values))
    return words + ["--lenient"] * (drawn.random() < 0.6)


def draw_words_of_timeline(drawn):
    """Words for timeline.py, some of them wrong."""
    words = ["--csv=/dev/null", "--targets=/dev/null"]
    for option, values in (("--from", (*TIMES, "1:30", "x")), ("--to", (*TIMES, "25:00")),
                           ("--step", ("1", "0.5", "250ms", "1h", "0", "999999999h"))):
        if drawn.random() < 0.06:
            words.append(option + "=" + drawn.choice(values))
    return words


def run_once(tool, words, folder):
    """Runs a tool; returns its status and what it said. What it raises goes on."""
    output, path = os.path.join(folder, "out"), os.path.join(folder, "input")
    with open(output, "wb") as file:
        file.write(OLDER)
    with unittest.mock.patch("sys.argv", [tool.TOOL, "--output", output, *words, path]):
        with contextlib.redirect_stderr(io.StringIO()) as errors:
            signal.setitimer(signal.ITIMER_PROF, LONGEST)
            signal.alarm(LONGEST_WAIT)
            try:
                status = tool_run.run(tool.TOOL, WORK[tool])
            except SystemExit as fault:
                status = fault.code
            finally:
                signal.setitimer(signal.ITIMER_PROF, 0)
                signal.alarm(0)
    return status, errors.getvalue()


def check(tool, status, said, folder):
    """Raises AssertionError where what a run left isn't what its status tells."""
    with open(os.path.join(folder, "out"), "rb") as file:
        text = file.read()
    assert sorted(os.listdir(folder)) == ["input", "out"], os.listdir(folder)
    assert "Traceback" not in said, said
    if status == 0 and tool is timeline:
        assert text.startswith(b"<!DOCTYPE html>\n") and text.endswith(b"</html>\n"), text[-20:]
    elif status == 0:
        read_capture(text)
    else:
        assert status in (1, 2) and text == OLDER, (status, said)
        assert status == 2 or said.count("\n") == 1, said


def overdue(*_):
    """Ends a run that takes too long; it isn't an Exception, so that no tool takes it for a fault."""
    raise KeyboardInterrupt


def main():
    count, seed, first = (int(word) for word in (sys.argv[1:] + ["500", "1", "0"][len(sys.argv) - 1:])[:3])
    for limit in (signal.SIGALRM, signal.SIGPROF):
        signal.signal(limit, overdue)
    choices, ended = sources(), collections.Counter()
    with tempfile.TemporaryDirectory() as folder:
        for number in range(first, first + count):
            drawn = random.Random("%d %d" % (seed, number))
            tool = drawn.choice(list(choices))
            words = draw_words(drawn, tool)
            with open(os.path.join(folder, "input"), "wb") as file:
                file.write(draw_input(drawn, choices[tool]))
            try:
                status, said = run_once(tool, words, folder)
                check(tool, status, said, folder)
            except BaseException:
                print("input %d of seed %d: %s %s" % (number, seed, tool.TOOL, words))
                traceback.print_exc(file=sys.stdout)
                return 1
            ended[tool.TOOL, status] += 1
    for (name, status), times in sorted(ended.items()):
        print("%s: status %d: %d" % (name, status, times))
    return 0


if __name__ == "__main__":
    sys.exit(main())
