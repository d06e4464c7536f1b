#!/usr/bin/env python3
"""Refuses each request of the program for memory in turn, and looks at what it says and writes then.

    checks/refuse_memory.py PROGRAM

For N = 1, 2, .. the Nth request is refused, until some runs make fewer. (Of a replay that is large enough for threads,
which makes very many, the first MOST are refused, and above these each STRIDEth.) Each such run, a replay, an upgrade
or a snapshot, says `haboob: memory`, with status 7, a prefix of the replies, of the upgraded capture or of the snapshot
that the run writes with ample memory, and no report; or it ends as with ample memory, where the program can do
without. Then it counts the requests of 64 GETs of one file, with the cache of pages and without: each page that the
cache spares is a request less, so a staged engine that goes round its cache shows. It needs a C compiler (CC, or cc)
and the C library of GNU; without a compiler it fails.
"""
import os
import sys
import tempfile

from lib import shim
from lib.report import Report
from lib.run import HANGS, contents, options, put, run, without_words
from lib.sources import TOP
from lib.texts import REQUEST, SNAPSHOT, TRAFFIC, recording_text, table_text
from lib.usage import program_of
import devices

# So many runs that meet no refusal end a sweep.
MISSED = 5
MOST, STRIDE = 300, 31
SITE = os.path.join(TOP, "examples", "site.snapshot")
BURST = os.path.join(TOP, "examples", "burst.capture")
TIGHT = os.path.join(TOP, "examples", "tight.toml")
TIERS = os.path.join(TOP, "examples", "tiers.capture")
FIRST_RUN = os.path.join(TOP, "crates", "haboob", "stdin")
CUT = "cut"  # a capture without its last line, in the folder of the runs
LIVES = "lives"  # a traffic text, there too
REPLAY = ["replay", "--snapshot", SITE, "--capture", BURST, "--replies", "written"]
REPLAY_LIVES = ["replay", "--snapshot", SITE, "--capture", LIVES, "--replies", "written", "--settings", TIGHT]

# The words of each run, and its standard input.
RUNS = [
    ("the first run", [], FIRST_RUN),
    ("a replay on one thread", REPLAY + ["--settings", TIGHT, "--engine", "plain"], os.devnull),
    ("a replay by the staged engine", REPLAY + ["--settings", TIGHT], os.devnull),
    ("a traffic text on one thread", REPLAY_LIVES + ["--engine", "plain"], os.devnull),
    ("a traffic text by the staged engine", REPLAY_LIVES, os.devnull),
    ("an inspection of a traffic text", ["inspect", "--capture", LIVES], os.devnull),
    ("a fault of the settings", REPLAY + ["--settings", SITE], os.devnull),
    ("a fault of the capture", ["replay", "--snapshot", SITE, "--capture", SITE, "--replies", "written"], os.devnull),
    ("too few words", ["replay", "--snapshot", SITE], os.devnull),
    ("an upgrade from version 1", ["upgrade", "--capture", BURST, "--output", "written"], os.devnull),
    ("an upgrade from version 2", ["upgrade", "--capture", TIERS, "--output", "written"], os.devnull),
    ("an upgrade to traffic", ["upgrade", "--capture", TIERS, "--output", "written", "--to", "traffic"], os.devnull),
    ("an upgrade with a fault", ["upgrade", "--capture", CUT, "--output", "written"], os.devnull),
    ("an upgrade, too few words", ["upgrade", "--capture", BURST], os.devnull),
    ("a snapshot", ["snapshot", "--folder", "tree/b", "--output", "written"], os.devnull),
    ("a snapshot with a fault", ["snapshot", "--folder", "tree", "--output", "written"], os.devnull),
    ("a snapshot, some left out", ["snapshot", "--folder", "tree", "--output", "written", "--skip"], os.devnull),
    ("a snapshot of no folder", ["snapshot", "--folder", "none", "--output", "written"], os.devnull),
]
# A replay that makes so many requests that only some are refused, with the files of `shared_files`.
SHARED = ["replay", "--snapshot", "shared/snapshot", "--capture", "shared/capture", "--settings", "shared/settings"]
SHARED_RUN = ("a replay whose work is shared by threads", SHARED + ["--replies", "written"], os.devnull)


class Ending:
    """How a run ended: its status, its line, what it wrote to standard output and into its file."""

    def __init__(self, ran, written):
        self.status, line, self.output = ran
        self.written = written
        # where there is no memory for the words, a fault's line alone is written
        self.line = without_words(line)

    def is_same(self, other):
        return vars(self) == vars(other)

    def is_out_of_memory(self, ample, has_words):
        """Whether it says that memory ran out, with a prefix of what was due: in the output, and of the lines that a
        run without a fault writes on standard error (of the names that are left out)."""
        *before, last = self.line.splitlines(keepends=True) or [b""]
        earlier = b"".join(before)
        said = (self.status, last) == (7, b"haboob: memory\n") and (
            not earlier or ample.status == 0 and ample.line.startswith(earlier)
        )
        whole = self.output == b"" if has_words else ample.output.startswith(self.output)
        return said and whole and ample.written.startswith(self.written)


def run_refused(program, words, given, folder, refuser, number):
    """How a run ends, and whether the request of this number was refused in it."""
    put(folder, {"written": b""})
    with open(given, "rb") as stdin:
        ran, was_refused = shim.refusing(program, words, folder, refuser, number, stdin=stdin)
    return Ending(ran, contents(folder, "written")), was_refused


def sweep(report, program, title, words, given, folder, refuser, stride=1):
    """Refuses each request of a run in turn, and above MOST one of so many. (Runs on many threads make some requests
    more or less.)"""
    ample, _ = run_refused(program, words, given, folder, refuser, 0)
    number, refused, missed, before = 0, 0, 0, report.wrong
    while missed < MISSED:
        number += 1 if number < MOST else stride
        ending, was_refused = run_refused(program, words, given, folder, refuser, number)
        refused, missed = (refused + 1, 0) if was_refused else (refused, missed + 1)
        if not ending.is_same(ample) and not ending.is_out_of_memory(ample, bool(words)):
            report.tell_wrong("WRONG: %s, request %d: %d %r" % (title, number, ending.status, ending.line))
        if ending.status == HANGS:
            break
    counts = title, ample.status, refused, report.wrong - before
    print("%-40s status %d, %d requests refused, %d wrong" % counts, flush=True)


def requests_made(program, cache, folder, refuser):
    """How many requests for memory a staged replay makes of 64 GETs of one file, with a cache of so many bytes."""
    one_worker = {"front_workers": [1, 1, 1], "back_workers": [1, 1]}
    put(folder, {"site": SNAPSHOT, "capture": recording_text([(0, 0, REQUEST * 64)]), "counted": bytes(8),
                 "settings": table_text("floor", **one_worker, cache=cache)})
    words = ["replay", *options("capture", "settings", snapshot="site", replies=os.devnull)]
    world = shim.world(refuser, COUNTED=os.path.join(folder, "counted"))
    status, line, _ = run(program, words, folder, env=world)
    if status:
        sys.exit("refuse_memory: status %d: %s" % (status, line.decode()))
    return int.from_bytes(contents(folder, "counted"), sys.byteorder)


def check_pages(report, program, folder, refuser):
    """The cache spares pages: 64 GETs of one file build it once with a cache, and 64 times without."""
    with_cache = requests_made(program, 1 << 26, folder, refuser)
    without = requests_made(program, 0, folder, refuser)
    print("%-40s %d requests with a cache, %d without" % ("64 requests for one file", with_cache, without))
    if with_cache + 32 > without:
        report.tell_wrong("WRONG: the cache spares too few requests")


def make_tree(tree):
    """A folder with files, folders and a link."""
    put(tree, {name: name.encode() * 1000 for name in ("a", "b/a", "b/d/a", "b/d/b", "b/e", "d")})
    os.symlink("a", os.path.join(tree, "c"))


def lives(count):
    """A traffic text of so many connections in turn on four numbers, each with a tier, a request and half of another,
    which its end cuts."""
    get, records = b"GET / HTTP/1.1\r\nHost: a\r\n\r\n", []
    for tick in range(count):
        conn = tick % 4
        records += [("tier", conn, tick % 3), (tick, conn, get + get[:9]), (tick, conn)]
    return recording_text(records, TRAFFIC)


def shared_files():
    """The files of a replay that is worth threads: the large batch of devices.py, which sees that some are started."""
    capture = devices.capture_of([devices.LARGE_REQUEST] * devices.LARGE)
    return {"shared/snapshot": SNAPSHOT, "shared/capture": capture, "shared/settings": devices.LARGE_SETTINGS}


def main():
    program, report = program_of(__doc__), Report()
    with tempfile.TemporaryDirectory() as folder:
        refuser = shim.built("refuse_memory", folder)
        if refuser is None:
            print("no C compiler: nothing was tried")
            return 1
        make_tree(os.path.join(folder, "tree"))
        whole = contents(TIERS)
        put(folder, {CUT: whole[:whole.rindex(b"\n", 0, -1) + 1], LIVES: lives(60), **shared_files()})
        for row in RUNS:
            sweep(report, program, *row, folder, refuser)
        sweep(report, program, *SHARED_RUN, folder, refuser, STRIDE)
        check_pages(report, program, folder, refuser)
    return int(report.wrong > 0)


if __name__ == "__main__":
    sys.exit(main())
