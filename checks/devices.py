#!/usr/bin/env python3
"""Runs the program on poor devices, and looks at its status, its line and what stands at the devices then.

    checks/devices.py PROGRAM

Replays with both engines, a run from standard input to standard output, and upgrades. Inputs come from pipes, byte by
byte; the replies go into a pipe that is read byte by byte, or into one whose reader goes away; replies and report go
into a file that may have only so many bytes, and replies onto a disk with little room (where one can be mounted: a
user's own tmpfs). With a C compiler (CC, or cc) besides: each read gives one byte, each write takes one byte; each read
fails in turn, then each write, by an error and by an interruption; no more reads are made than buffers of the inputs'
sizes need; and each thread in turn can't be started, in small batches and in large ones: with work for threads that cut
pieces and for both floors, and for one floor alone. Each replay has to start as many as its settings ask for, none
where each floor has one worker. (Whatever the machine has, the program sees PROCESSORS processors.) What stands
at a device is always a prefix of what is right, all of it where the status is 0, and a file that is full has all that
it may have.
"""
import errno
import os
import resource
import shutil
import signal
import sys
import tempfile
import threading

from lib import shim
from lib.report import Report
from lib.run import HANGS, contents, options, put, run
from lib.texts import REQUEST, SNAPSHOT, recording_text, snapshot_text
from lib.usage import program_of
import reference

SECONDS = 60
SETTINGS = b"[policy]\ndepth = 50\n[floor]\nbatch = 100\n"
# A batch that is worth threads, once it is read whole for its long targets: for its cutting, more than 5,000,000 bytes
# without the first 1,024 of each piece, and for the front floor 4 MiB of targets and more.
LARGE = 6000
LARGE_REQUEST = REQUEST.replace(b".txt", b".txt?" + b"x" * 2005)
LARGE_SETTINGS = b"[policy]\ndepth = 50\n[floor]\nbatch = 8192\n"
# Batches that are worth a floor with more than one worker, and whose pieces have too few bytes to be cut by threads. A
# back floor pays for 64 MiB of pages that aren't in the cache. Each comes after 256 pieces that tell that floors pay.
ALONE = b"[policy]\ndepth = 1000000\n[floor]\nbatch = 8192\n"
NARROW_FRONT = b"front_cuts = [3]\nfront_workers = [1]\nfront_capacities = [64]\n"
NARROW_BACK = b"back_cuts = [2]\nback_workers = [1]\nback_capacities = [64]\n"
LONG_TARGET = b"GET /%b HTTP/1.1\r\nHost: a\r\n\r\n" % (b"a.txt/" * 250)
LARGE_FILE = snapshot_text([(b"a.txt", b"hi\n"), (b"b.txt", b"hi" * 2**19)])
PROCESSORS = 4
ENGINES = (["--engine", "plain"], ["--engine", "staged"])
# How often the settings are read: once whole, once more at their end.
SETTINGS_READS = 2
# The program's buffers, in bytes. An input is read once for each buffer that it fills, once for the rest, and once more
# at its end.
ROOM = 65_536
# The places where a file is full: in the first line, in a reply, at the end of the program's buffer, in a later one.
PLACES = (0, 1, 16, 17, 100, 4096, 65_535, 65_536, 65_537, 100_000)
DISK = 64 * 1024
WRITE = 6, b"haboob: write: replies\n"
REPORT = 6, b"haboob: write: report\n"
MEMORY = 7, b"haboob: memory\n"


def capture_of(requests, connections=50):
    """A capture of these requests, one to a piece, on so many connections."""
    return recording_text([(100 * number, number % connections, data) for number, data in enumerate(requests)])


class Replay:
    """The files of a replay, and what it is to write."""

    def __init__(self, requests, settings=SETTINGS, connections=50, snapshot=SNAPSHOT):
        self.snapshot, self.capture = snapshot, capture_of(requests, connections)
        self.files = {"snapshot": snapshot, "capture": self.capture, "settings": settings, "replies": b""}
        status, line, self.replies, self.report = reference.replay(snapshot, self.capture, settings)
        assert (status, line) == (0, b"")


def words(engine, **names):
    """The words of a replay; each file has the name of its option where no other is given."""
    return ["replay", *options("snapshot", "capture", "settings", "replies", **names), *engine]


def feed(name, data):
    """Writes data into a pipe byte by byte."""
    try:
        with open(name, "wb", buffering=0) as pipe:
            for at in range(len(data)):
                pipe.write(data[at:at + 1])
    except BrokenPipeError:
        pass


def drain(name, most, into):
    """Reads a pipe byte by byte, and goes away after so many."""
    with open(name, "rb", buffering=0) as pipe:
        while len(into) < most:
            byte = pipe.read(1)
            if not byte:
                break
            into.extend(byte)


def by_pipes(program, replay, engine, most):
    """A replay whose inputs come byte by byte, and whose replies go into a pipe with such a reader."""
    with tempfile.TemporaryDirectory() as folder:
        put(folder, replay.files)
        for name in ("pipe_in", "pipe_too", "pipe_out"):
            os.mkfifo(os.path.join(folder, name))
        got = bytearray()
        helpers = [threading.Thread(target=feed, args=(os.path.join(folder, "pipe_in"), replay.snapshot)),
                   threading.Thread(target=feed, args=(os.path.join(folder, "pipe_too"), replay.capture)),
                   threading.Thread(target=drain, args=(os.path.join(folder, "pipe_out"), most, got))]
        for helper in helpers:
            helper.start()
        ran = run(program, words(engine, snapshot="pipe_in", capture="pipe_too", replies="pipe_out"), folder, SECONDS)
        for helper in helpers:
            helper.join()
        return ran, bytes(got)


def check_pipes(report, program):
    small, large = Replay([REQUEST] * 40), Replay([REQUEST] * 5000)
    for engine in ENGINES:
        ran, got = by_pipes(program, small, engine, len(small.replies) + 1)
        good = (ran, got) == ((0, b"", small.report), small.replies)
        report.see("pipes, byte by byte, " + engine[1], good, (ran, got))
        ran, got = by_pipes(program, large, engine, 100)
        good = (ran, got) == ((*WRITE, b""), large.replies[:100])
        report.see("a reader that goes away, " + engine[1], good, (ran, got))


def full_at(place):
    """What a child does so that no file of its own may have more bytes."""
    def limit():
        signal.signal(signal.SIGXFSZ, signal.SIG_IGN)
        resource.setrlimit(resource.RLIMIT_FSIZE, (place, place))
    return limit


def check_full_files(report, program):
    replay = Replay([REQUEST] * 1000)
    for engine in ENGINES:
        for place in PLACES:
            with tempfile.TemporaryDirectory() as folder:
                put(folder, replay.files)
                ran = run(program, words(engine), folder, SECONDS, preexec_fn=full_at(place))
                got = ran, contents(folder, "replies")
            good = got == ((*WRITE, b""), replay.replies[:place])
            report.see("replies full at %d, %s" % (place, engine[1]), good, got)
        for place in (0, 10, len(replay.report) - 1):
            with tempfile.TemporaryDirectory() as folder, open(os.path.join(folder, "report"), "wb") as out:
                put(folder, replay.files)
                ran = run(program, words(engine, replies="/dev/null"), folder, SECONDS, stdout=out,
                          preexec_fn=full_at(place))
                got = ran, contents(folder, "report")
            good = got == ((*REPORT, None), replay.report[:place])
            report.see("report full at %d, %s" % (place, engine[1]), good, got)


MOUNTED = 'mount -t tmpfs -o size=%d none disk || exit 99; "$@"; status=$?; cat disk/replies >kept; exit $status' % DISK


def check_full_disk(report, program):
    """The replies go onto a disk of its own with room for a part of them; whether there was one."""
    replay = Replay([REQUEST] * 1000)
    for engine in ENGINES:
        with tempfile.TemporaryDirectory() as folder:
            put(folder, replay.files)
            os.mkdir(os.path.join(folder, "disk"))
            own = ["--user", "--map-root-user", "--mount", "sh", "-c", MOUNTED, "sh", program]
            on_disk = words(engine, replies="disk/replies")
            ran = run("unshare", own + on_disk, folder, SECONDS) if shutil.which("unshare") else (99, b"", b"")
            if ran[0] in (1, 99):
                return False
            got = ran, contents(folder, "kept")
        report.see("a full disk, " + engine[1], got == ((*WRITE, b""), replay.replies[:DISK]), got)
    return True


class Task:
    """A run with poor devices: its words, its standard input, what it is to write, by the name of the file, and its
    inputs."""

    def __init__(self, name, words, given, wanted, inputs=()):
        self.name, self.words, self.given, self.wanted, self.inputs = name, words, given, wanted, inputs


def tasks(requests):
    """The tasks of a capture of so many requests."""
    replay = Replay([REQUEST] * requests)
    lines = reference.replay(SNAPSHOT, replay.capture)[2]
    upgraded = replay.capture.replace(b"capture 1", b"capture 2")
    for engine in ENGINES:
        wanted, inputs = {"replies": replay.replies, "out": replay.report}, (SNAPSHOT, replay.capture, SETTINGS)
        yield replay, Task("replay, " + engine[1], words(engine), b"", wanted, inputs)
    given = SNAPSHOT + replay.capture
    yield replay, Task("bundle", [], given, {"out": lines}, [given])
    upgrade = ["upgrade", "--capture", "capture", "--output", "output"]
    yield replay, Task("upgrade", upgrade, b"", {"output": upgraded, "out": b""}, [replay.capture])
    traffic = replay.capture.replace(b"haboob-capture 1", b"haboob-traffic 1")
    wanted = {"output": traffic, "out": b""}
    yield replay, Task("upgrade to traffic", upgrade + ["--to", "traffic"], b"", wanted, [replay.capture])


def run_poorly(program, replay, task, library, **poor):
    """Status, line and what stands at each device of a run with poor devices, and whether a call failed."""
    with tempfile.TemporaryDirectory() as folder:
        put(folder, replay.files)
        put(folder, {"in": task.given, "output": b"", "failed": b""})
        with open(os.path.join(folder, "in"), "rb") as given, open(os.path.join(folder, "out"), "wb") as out, \
                open(os.path.join(folder, "failed"), "wb") as failed:
            descriptor = failed.fileno()
            world = shim.world(library, **{"FAILED": descriptor, "PROCESSORS": PROCESSORS, **poor})
            how = {"env": world, "stdin": given, "stdout": out, "pass_fds": [descriptor]}
            status, line, _ = run(program, task.words, folder, SECONDS, **how)
        return status, line, {name: contents(folder, name) for name in task.wanted}, contents(folder, "failed") != b""


def is_prefix(wanted, got):
    return all(wanted[name].startswith(got[name]) for name in wanted)


def check_failing(report, program, replay, task, library, calls, error):
    """Fails each read or each write of a task in turn, until one run meets no failure."""
    line = b"haboob: " + calls.lower().encode() + b": "
    # std's own reader of a whole file, which reads the settings before all else, tries an interrupted read again
    tried = SETTINGS_READS if error == errno.EINTR and calls == "READ" and "--settings" in task.words else 0
    number, met = 0, True
    while met:
        number += 1
        poor = {"READ_MOST": 256, "WRITE_MOST": 256, calls + "_FAILS": number, "ERROR": error}
        status, printed, got, met = run_poorly(program, replay, task, library, **poor)
        whole = (status, printed, got) == (0, b"", task.wanted)
        refused = status == 6 and printed.startswith(line) and is_prefix(task.wanted, got)
        good = whole if not met or number <= tried else refused
        name = "%s: %s %d fails by %s" % (task.name, calls, number, errno.errorcode[error])
        report.see(name, good, (status, printed, got))
        met = met and status != HANGS


def check_reads(report, program, replay, task, library):
    """No read after those that the inputs need: the next one would fail."""
    most = sum(len(given) // ROOM + 2 for given in task.inputs)
    got = run_poorly(program, replay, task, library, READ_FAILS=most + 1, ERROR=errno.EIO)
    report.see("%s: at most %d reads" % (task.name, most), got == (0, b"", task.wanted, False), got)


def check_threads(report, program, replay, task, library):
    """Refuses each thread of a task in turn, until a run starts no more."""
    number, met = 0, True
    while met:
        number += 1
        status, printed, got, met = run_poorly(program, replay, task, library, THREAD_FAILS=number)
        whole = (status, printed, got) == (0, b"", task.wanted)
        refused = (status, printed, got["out"]) == (*MEMORY, b"") and is_prefix(task.wanted, got)
        name = "%s: thread %d can't be started" % (task.name, number)
        report.see(name, whole or (met and refused), (status, printed, got))
        met = met and status != HANGS
    return number - 1


def staged_replays():
    """Replays of the staged engine: what they have work for, and how many threads they start at least. The helpers
    are started at the beginning, one for each processor but the calling thread's; those that cut come with the work."""
    large = [LARGE_REQUEST] * LARGE
    files = [LARGE_REQUEST] * 256 + [REQUEST.replace(b"a.txt", b"b.txt")] * 70
    helpers = PROCESSORS - 1
    yield "small batches", Replay([REQUEST] * 300), helpers
    yield "a large batch", Replay(large, LARGE_SETTINGS), helpers + 1
    yield "the front floor alone", Replay([LONG_TARGET] * 1500, ALONE + NARROW_BACK, 1), helpers
    yield "the back floor alone", Replay(files, ALONE + NARROW_FRONT, 1, LARGE_FILE), helpers
    yield "one worker on each floor", Replay(large, ALONE + NARROW_FRONT + NARROW_BACK), 0


def check_staged_threads(report, program, library):
    """Refuses each thread of some staged replays in turn."""
    for name, replay, least in staged_replays():
        task = Task("staged, " + name, words(ENGINES[1]), b"", {"replies": replay.replies, "out": replay.report})
        count = check_threads(report, program, replay, task, library)
        print("%s: %d threads were refused in turn" % (name, count))
        report.see("threads of " + name, count >= least if least else count == 0, count)


def check_poor(report, program):
    """Whether there is a compiler for what makes devices poor."""
    with tempfile.TemporaryDirectory() as folder:
        library = shim.built("devices", folder)
        if library is None:
            return False
        for requests in (12, 5000):
            for replay, task in tasks(requests):
                check_reads(report, program, replay, task, library)
        for replay, task in tasks(12):
            for poor in ({"READ_MOST": 1}, {"WRITE_MOST": 1}, {"READ_MOST": 1, "WRITE_MOST": 1}):
                got = run_poorly(program, replay, task, library, **poor)
                report.see("%s with %s" % (task.name, poor), got == (0, b"", task.wanted, False), got)
            for calls in ("READ", "WRITE"):
                for error in (errno.EIO, errno.EINTR):
                    check_failing(report, program, replay, task, library, calls, error)
        check_staged_threads(report, program, library)
    return True


def main():
    program, report = program_of(__doc__), Report(quiet=True)
    check_pipes(report, program)
    check_full_files(report, program)
    if not check_full_disk(report, program):
        print("no disk can be mounted: a full one was not tried")
    if not check_poor(report, program):
        report.see("a C compiler, for poor reads and writes", False, "none")
    return report.end("{runs} runs, {wrong} wrong")


if __name__ == "__main__":
    sys.exit(main())
