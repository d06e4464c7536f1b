#!/usr/bin/env python3
"""Measures the peak of memory of both engines and of upgrades on the worst inputs, and compares each with a formula.

    checks/worst_memory.py PROGRAM [--folder FOLDER] [--only WORD]

The formula adds up what a run keeps at a time, in bytes. All runs:

  the program          8 MiB, its buffers, a piece and what is cut from it included
  the snapshot         its text, and 192 for each file
  the connections      512 for each number up to the greatest that sent something, and 2 up to the greatest with a tier;
                       16 KiB for each of which a block came in several pieces; and the method and the target of each
                       whose body isn't whole
  the requests         24 for each that was decided on, 72 for each admitted one whose response isn't complete, and 96
                       for each control
  the report           twice its text without the lines of rejected requests, which are written one by one

The staged engine besides:

  the batch            its pieces, 16 MiB and a piece at most, and 192 for each record; 256 for each message that ends
                       in them, also beyond the limit
  a part of it         4,096 messages and those of one piece, at most: 2 KiB for each; and their pages, as often as they
                       are asked for, but no more than 32 MiB (96 with what the C library keeps of pages that are given
                       back), where the cache can't hold those of all files
  the cache            its limit at most, and 160 for each file of the snapshot; the largest file's page
  the threads          64 KiB for each worker, in both floors together

An upgrade keeps what the program does, and no more. Peaks are those that the system tells of the process (ru_maxrss). A
run also fails where its status is another than is known. It takes some minutes, and 2 GiB in the folder. Exits with 1
where a peak is above the formula.
"""
import os
import resource
import sys
import tempfile

from lib.report import Report
from lib.run import limit, options, put, run_measured
from lib.texts import ONE, REQUEST, TIME, TWO, file_parts, piece, write_counted
from lib.usage import parser_of

MIB = 2**20
BASE = 8 * MIB
SECONDS = 1800

# More address space than the formula gives bytes: stacks and arenas take much of which little is used.
SPACE = 16 * 2**30

PLAIN, STAGED = ["--engine", "plain"], []
DEFAULT_WORKERS = 10
DEFAULT_CACHE = 64 * MIB
DEFAULT_BATCH = 1024
FILE = [(b"a.txt", b"hi\n")]
SHORTEST = b"A / HTTP/1.1\nHost:\n\n"
# A piece holds some more than 2,048 of these, so that the list of its messages has room for nearly twice as many.
UNEVEN = b"GET /a.tx HTTP/1.1\r\nHost: a\r\n\r\n"
MOST_PIECE = 65_536
MOST_MESSAGES = 1_048_576
ENOUGH = 4_096
MOST_BATCH = 16 * MIB + MOST_PIECE
MOST_HELD = 96 * MIB

# All are admitted, with a control at each; or all but the first are turned away.
OPEN = b"[policy]\ndepth = 1000000\nrate = 1000000000\nrate_max = 1000000000\nrate_min = 1000000000\nevery = 1\n"
OPEN += b"window = 4096\n"
SHUT = b"[policy]\ndepth = 1\nrate = 1\nrate_min = 1\nrate_max = 1\n"


class Input:
    """A replay's texts, and the numbers of the formula. `write` gives the records of the capture, each as bytes."""

    def __init__(self, name, records, version=1, status=0, files=FILE, settings=b"", **numbers):
        self.name, self.records, self.version, self.status = name, records, version, status
        self.files, self.settings = files, settings
        self.numbers = {"sent": 0, "tiers": 0, "blocks": 0, "heads": 0, "requests": 0, "in_flight": 0, "controls": 0,
                        "pieces": 0, "waiting": 0, "messages": 0, "page": 0, "unshared": 0, "cache": 0,
                        "workers": DEFAULT_WORKERS, **numbers}

    def write(self, folder):
        """Writes the texts into the folder; the bytes of the snapshot."""
        path = os.path.join(folder, "snapshot")
        files = self.files() if callable(self.files) else self.files
        count = write_counted(path, b"haboob-snapshot 1\n", (b"".join(file_parts(*file, 0)) for file in files), b"end")
        begin = ONE if self.version == 1 else TWO
        write_counted(os.path.join(folder, "capture"), b"%s%d\n" % (begin, TIME), self.records(), b"stop")
        put(folder, {"settings": self.settings})
        return os.path.getsize(path), count

    def bound(self, engine, snapshot, files, report):
        """The formula."""
        n = self.numbers
        total = BASE + snapshot + 192 * files
        total += 512 * n["sent"] + 2 * n["tiers"] + 16_384 * n["blocks"] + n["heads"]
        total += 24 * n["requests"] + 72 * n["in_flight"] + 96 * n["controls"] + 2 * report
        if engine == STAGED:
            part = min(n["messages"], ENOUGH + MOST_PIECE // len(SHORTEST))
            total += min(n["waiting"], MOST_BATCH) + 192 * n["pieces"] + 256 * n["messages"]
            total += 2048 * part + min(n["unshared"], MOST_HELD) + n["cache"] + 160 * files + n["page"]
            total += MOST_PIECE * n["workers"]
        return total


def unfinished(count):
    """Connections that each send 8,191 bytes of a block, the last of them in a piece of its own."""
    block = b"GET /" + b"a" * 8186
    for conn in range(count):
        yield piece(0, conn, block[:-1])
    for conn in range(count):
        yield piece(0, conn, block[-1:])


def bodies(count, sent):
    """Connections that each send a head of 8,192 bytes, its last byte in a piece of its own, and so much of a body."""
    front, rest = b"POST /", b" HTTP/1.1\r\nHost: a\r\nContent-Length: 65536\r\n\r\n"
    head = front + b"a" * (8192 - len(front) - len(rest)) + rest
    for conn in range(count):
        yield piece(0, conn, head[:-1])
        yield piece(0, conn, head[-1:] + b"b" * sent)


def ends(count):
    return (b"end 0 %d\n" % conn for conn in range(count))


def tiers(count):
    return (b"tier %d 3\n" % conn for conn in range(count))


def empty_lines(count):
    """Connections that each send 65,535 bytes of empty lines, after the beginning of one in a piece of its own."""
    for conn in range(count):
        yield piece(0, conn, b"\r")
        yield piece(0, conn, b"\n" * 65_535)


def requests(request, count, service=0):
    """So many of a request on one connection, as many to a piece as fit; each piece comes after the service of those
    before it."""
    most = MOST_PIECE // len(request)
    for done in range(0, count, most):
        yield piece(done * service, 0, request * min(most, count - done))


def in_batch(request, count):
    """How many of so many requests end in the pieces of one batch, at most."""
    return min(count, (MOST_BATCH // MOST_PIECE + 1) * (MOST_PIECE // len(request)))


def many_files():
    """65,536 files of no bytes."""
    return ((b"%05d" % number, b"") for number in range(65_536))


def each_file():
    """A request for each of these files."""
    for first in range(0, 65_536, 2048):
        names = range(first, first + 2048)
        yield piece(0, 0, b"".join(b"GET /%05d HTTP/1.1\r\nHost: a\r\n\r\n" % number for number in names))


def large_files(count):
    """Files of 16 MiB."""
    return ((b"%02d.txt" % number, b"x" * 2**24) for number in range(count))


def each_large_file(count, times):
    """Requests for each of these files, so often, in turn."""
    asked = (b"GET /%02d.txt HTTP/1.1\r\nHost: a\r\n\r\n" % number for number in range(count))
    yield piece(0, 0, b"".join(asked) * times)


def page_of(size):
    """A file of so many bytes."""
    return [(b"a.txt", b"x" * size)]


# The settings of one batch of all pieces; of a cache that can't hold the page of a file of 100,000 bytes.
LARGE_BATCH = b"[floor]\nbatch = 65536\n"
PAGE = 100_000 + len(b"Content-Type: text/plain\r\nContent-Length: 100000\r\n")
SMALL_CACHE = b"[floor]\ncache = %d\n" % (PAGE - 1) + OPEN


def inputs():
    of_all = {"requests": MOST_MESSAGES, "messages": in_batch(REQUEST, MOST_MESSAGES), "sent": 1, "pieces": 512}
    of_all["waiting"] = 512 * MOST_PIECE
    head = 8192
    yield Input("one request", lambda: requests(REQUEST, 1), sent=1, requests=1, pieces=1, waiting=32, messages=1)
    yield Input("4,096 unfinished blocks", lambda: unfinished(4096), sent=4096, blocks=4096, pieces=DEFAULT_BATCH,
                waiting=DEFAULT_BATCH * 8190)
    yield Input("65,536 unfinished blocks", lambda: unfinished(65_536), version=2, sent=65_536, blocks=65_536,
                pieces=DEFAULT_BATCH, waiting=DEFAULT_BATCH * 8190)
    yield Input("65,536 unfinished blocks in one batch", lambda: unfinished(65_536), version=2, settings=LARGE_BATCH,
                sent=65_536, blocks=65_536, pieces=65_536, waiting=65_536 * 8190)
    yield Input("65,536 unfinished bodies", lambda: bodies(65_536, 1), version=2, sent=65_536, blocks=65_536,
                heads=65_536 * head, pieces=DEFAULT_BATCH, waiting=DEFAULT_BATCH * 4096)
    yield Input("4,096 bodies but for a byte", lambda: bodies(4096, 65_535), sent=4096, blocks=4096, heads=4096 * head,
                pieces=DEFAULT_BATCH, waiting=DEFAULT_BATCH // 2 * (MOST_PIECE + 8191))
    yield Input("65,536 tiers", lambda: tiers(65_536), version=2, tiers=65_536)
    yield Input("65,536 ends", lambda: ends(65_536), version=2)
    yield Input("empty lines on 4,096 connections", lambda: empty_lines(4096), sent=4096, blocks=4096,
                pieces=DEFAULT_BATCH, waiting=DEFAULT_BATCH // 2 * MOST_PIECE)
    yield Input("1,048,576 requests, a control at each", lambda: requests(REQUEST, MOST_MESSAGES, 201),
                settings=OPEN, controls=MOST_MESSAGES, **of_all)
    yield Input("1,048,576 requests at once", lambda: requests(REQUEST, MOST_MESSAGES), settings=OPEN,
                in_flight=1_000_000, **of_all)
    yield Input("1,048,576 requests, all but one rejected", lambda: requests(REQUEST, MOST_MESSAGES), settings=SHUT,
                **of_all)
    yield Input("65,536 files, each asked for", each_file, files=many_files, settings=OPEN, sent=1, requests=65_536,
                in_flight=65_536, controls=65_536, pieces=32, waiting=32 * MOST_PIECE, messages=65_536,
                cache=65_536 * 66)
    yield Input("a cache one byte too small", lambda: requests(REQUEST, 8192), files=page_of(100_000),
                settings=SMALL_CACHE, sent=1, requests=8192, controls=8192, pieces=4, waiting=4 * MOST_PIECE,
                messages=8192, in_flight=8192, page=PAGE, cache=PAGE, unshared=ENOUGH * PAGE)
    yield Input("a batch of 3,354,624 messages", lambda: requests(SHORTEST, 1024 * 3276), status=5,
                settings=LARGE_BATCH, sent=1, requests=MOST_MESSAGES, pieces=1024, waiting=1024 * MOST_PIECE,
                messages=in_batch(SHORTEST, 1024 * 3276))
    yield Input("a batch of 2,164,736 messages", lambda: requests(UNEVEN, 1024 * 2114), status=5,
                settings=LARGE_BATCH, sent=1, requests=MOST_MESSAGES, pieces=1024, waiting=1024 * MOST_PIECE,
                messages=in_batch(UNEVEN, 1024 * 2114))
    yield Input("12 files of 16 MiB, each asked for 6 times", lambda: each_large_file(12, 6), settings=OPEN,
                files=lambda: large_files(12), sent=1, requests=72, controls=72, pieces=1, waiting=MOST_PIECE,
                messages=72, page=2**24, unshared=72 * 2**24, cache=DEFAULT_CACHE)
    yield Input("3 files of 16 MiB, each asked for 24 times", lambda: each_large_file(3, 24), settings=OPEN,
                files=lambda: large_files(3), sent=1, requests=72, controls=72, pieces=1, waiting=MOST_PIECE,
                messages=72, page=2**24, cache=DEFAULT_CACHE)


def run(program, words, folder, bound):
    """The status and the peak of a run, and the bytes that it wrote to standard output, but for the lines of rejected
    requests."""
    with open(os.path.join(folder, "out"), "wb") as out:
        (status, *_), peak = run_measured(program, words, folder, SECONDS, stdout=out,
                                          preexec_fn=limit(resource.RLIMIT_AS, bound + SPACE))
    with open(os.path.join(folder, "out"), "rb") as out:
        return status, peak, sum(len(line) for line in out if not line.startswith(b"reject "))


def see(report, name, status, wanted, peak, bound):
    """Tells the peak of a run, and whether it is one that may be."""
    numbers = "status %d, peak %7.1f MiB of %7.1f" % (status, peak / MIB, bound / MIB)
    report.see(name, status == wanted and peak <= bound, numbers, numbers)


def measure(report, program, given, folder):
    """Runs an input on both engines, and upgrades its capture."""
    snapshot, files = given.write(folder)
    words = ["replay", *options("snapshot", "capture", "settings", replies=os.devnull)]
    for name, engine in (("plain", PLAIN), ("staged", STAGED)):
        status, peak, figures = run(program, words + engine, folder, given.bound(engine, snapshot, files, 0))
        see(report, "%s, %s" % (given.name, name), status, given.status, peak,
            given.bound(engine, snapshot, files, figures))
    status, peak, _ = run(program, ["upgrade", *options("capture", output=os.devnull)], folder, 0)
    see(report, "%s, upgrade" % given.name, status, 0, peak, BASE)


def main():
    parser = parser_of(__doc__)
    parser.add_argument("--folder", help="where the files stand; without it a folder for temporary files")
    parser.add_argument("--only", default="", metavar="WORD", help="the inputs whose name has this word")
    words, report = parser.parse_args(), Report(width=52)
    with tempfile.TemporaryDirectory(dir=words.folder) as folder:
        for given in inputs():
            if words.only in given.name:
                measure(report, words.program, given, folder)
    return report.end("{runs} runs, {wrong} wrong")


if __name__ == "__main__":
    sys.exit(main())
