#!/usr/bin/env python3
"""Measures how the program's seconds grow with its input, beside other programs where one does the same.

usage: scale.py PROGRAM [RUNS]
       scale.py PROGRAM day [MILLIONS ..]

The seconds are those that processors worked for a run, the fewest of RUNS runs (3 if left out):

  the seconds a request for 10,000, 100,000 and 1,000,000 small requests, by both engines, with the settings that the
  program has by default and with a control at each request: in linear time they are the same
  the seconds of replies with bodies of 16 MiB into a file, beside those of `cat` with the same bytes
  the seconds to read a snapshot of 65,536 files, with a capture of none, beside those of plain Rust
  (read_snapshot.rs, where `rustc` is there)

It needs 2 GB in the folder for temporary files.

`day` replays a traffic text of 1, 10 and 86.4 million messages, or of other MILLIONS, each with 20,000 connections open
at once (day.py), which comes over a pipe and never stands on the disk, by both engines, with the replies thrown away,
and inspects it. Of each run it prints the seconds that passed, those that processors worked for it, and the most memory
that it had; and how many times those of the size before these are: in linear time as many as there are messages, in
constant memory once. 86.4 million messages are 20 GB of text, which take some minutes each time.
"""
import json
import os
import shutil
import subprocess
import sys
import tempfile
import time

import day
from measure import ENGINES, SETTINGS, snapshot, write_capture

HERE = os.path.dirname(os.path.abspath(__file__))
REQUEST = b"GET /a.txt HTTP/1.1\r\nHost: a\r\n\r\n"
SMALL = [(b"a.txt", b"hi\n")]
EACH = b"[policy]\ndepth = 1000000\nrate = 1000000000\nrate_max = 1000000000\nevery = 1\nwindow = 1\n"
LONGEST = 16 * 2**20
BODIES = 32
MILLIONS = [1, 10, 86.4]

# A small process of its own starts the program: the peak of a child begins with that of its parent.
RUNNER = """
import json, os, sys
child = os.fork()
if child == 0:
    os.execv(sys.argv[1], sys.argv[1:])
_, status, used = os.wait4(child, 0)
figures = os.waitstatus_to_exitcode(status), used.ru_utime + used.ru_stime, used.ru_maxrss * 1024
sys.stderr.write("\\n" + json.dumps(figures))
"""


def seconds(words, runs, output=os.devnull):
    """The seconds that processors worked for the fastest run, whose output goes into a file, anew each time."""
    best = []
    for _ in range(runs):
        with open(output, "wb") as file:
            child = subprocess.Popen(words, stdout=file)
            _, status, used = os.wait4(child.pid, 0)
        if status != 0:
            sys.exit("%s failed" % words[0])
        best.append(used.ru_utime + used.ru_stime)
    return min(best)


def write_input(folder, files, requests):
    """Writes a snapshot and a capture; answers their names."""
    names = [os.path.join(folder, name) for name in ("snapshot", "capture")]
    with open(names[0], "wb") as file:
        file.write(snapshot(files))
    with open(names[1], "wb") as file:
        write_capture(file, requests)
    return names


def replay(program, names, engine, replies, more=()):
    """The words of a replay."""
    files = ["--snapshot", names[0], "--capture", names[1], "--replies", replies]
    return [program, "replay", *files, "--engine", engine, *more]


def grow(program, runs, folder):
    """Prints the seconds a request of small requests, with the settings by default and a control at each."""
    settings = os.path.join(folder, "settings")
    with open(settings, "wb") as file:
        file.write(EACH)
    for title, more in (("by default", []), ("a control each", ["--settings", settings])):
        for engine in ENGINES:
            for count in (10_000, 100_000, 1_000_000):
                names = write_input(folder, SMALL, (REQUEST for _ in range(count)))
                each = seconds(replay(program, names, engine, os.devnull, more), runs) / count
                print("%-14s %-6s %9d requests: %5.2f us each" % (title, engine, count, each * 1e6), flush=True)


def copy_bodies(program, runs, folder):
    """Prints the seconds of replies with long bodies into a file, and of cat."""
    names = write_input(folder, [(b"a.txt", bytes(LONGEST))], (REQUEST for _ in range(BODIES)))
    body, copy, replies = (os.path.join(folder, name) for name in ("body", "copy", "replies"))
    with open(body, "wb") as file:
        file.write(bytes(LONGEST))
    cat = seconds(["cat"] + [body] * BODIES, runs, copy)
    os.unlink(copy)
    print("%d bodies of 16 MiB into a file: cat %.2f s" % (BODIES, cat))
    for engine in ENGINES:
        print("  %-6s %.2f s" % (engine, seconds(replay(program, names, engine, replies), runs)), flush=True)
        os.unlink(replies)


def read_files(program, runs, folder):
    """Prints the seconds to read a snapshot of as many files as one may have, and those of plain Rust."""
    files = [(b"files/%05d.html" % number, b"x" * (number % 4096)) for number in range(65_536)]
    names = write_input(folder, files, [])
    print("a snapshot of 65,536 files: %.3f s" % seconds(replay(program, names, "plain", os.devnull), runs))
    if shutil.which("rustc"):
        plain = os.path.join(folder, "read_snapshot")
        subprocess.run(["rustc", "-O", "-o", plain, os.path.join(HERE, "read_snapshot.rs")], check=True)
        print("  plain Rust %.3f s" % seconds([plain, names[0]], runs), flush=True)


def run_of_day(words, count):
    """The seconds that passed, those that processors worked, and the peak of memory in bytes, of a run that reads a
    traffic text of so many messages from standard input."""
    began = time.monotonic()
    maker = [sys.executable, os.path.join(HERE, "day.py"), str(count)]
    with subprocess.Popen(maker, stdout=subprocess.PIPE) as text:
        ran = subprocess.run([sys.executable, "-c", RUNNER, *words], stdin=text.stdout, capture_output=True)
        text.stdout.close()
    passed = time.monotonic() - began
    said, _, figures = ran.stderr.decode().rpartition("\n")
    status, worked, peak = json.loads(figures)
    if status or text.returncode or b"\nmessages %d\n" % count not in ran.stdout:
        sys.exit("%s: status %d, %s" % (" ".join(words), status, said.strip() or ran.stdout[:200]))
    return passed, worked, peak


def measure_day(program, counts, folder):
    """Prints what runs over traffic texts of these sizes take, and how that grows from size to size."""
    names = [os.path.join(folder, name) for name in ("snapshot", "settings")]
    for name, data in zip(names, (snapshot(day.snapshot_files()), SETTINGS)):
        with open(name, "wb") as file:
            file.write(data)
    files = [names[0], "/dev/stdin"]
    commands = [(engine, replay(program, files, engine, os.devnull, ["--settings", names[1]])) for engine in ENGINES]
    for title, words in commands + [("inspect", [program, "inspect", "--capture", "/dev/stdin"])]:
        before = None
        for count in counts:
            now = count, *run_of_day(words, count)
            _, passed, worked, peak = now
            line = "%-8s %10d messages: %7.1f s, processors %7.1f s, %.2f us each, peak %.1f MiB" % (
                title, count, passed, worked, worked / count * 1e6, peak / 2**20)
            if before:
                line += "; %.2f times the messages: %.2f, %.2f, and %.2f times the peak" % tuple(
                    part / other for part, other in zip(now, before))
            print(line, flush=True)
            before = now


def main():
    if len(sys.argv) < 2 or len(sys.argv) > 3 and sys.argv[2] != "day":
        sys.exit(__doc__)
    if not os.access(sys.argv[1], os.X_OK):
        sys.exit("%s: no program %s\n\n%s" % (sys.argv[0], sys.argv[1], __doc__))
    program = os.path.abspath(sys.argv[1])
    if sys.argv[2:3] == ["day"]:
        counts = [round(float(word) * 1000) * 1000 for word in sys.argv[3:] or MILLIONS]
        with tempfile.TemporaryDirectory() as folder:
            return measure_day(program, counts, folder)
    runs = int(sys.argv[2]) if len(sys.argv) == 3 else 3
    with tempfile.TemporaryDirectory() as folder:
        read_files(program, runs, folder)
        copy_bodies(program, runs, folder)
        grow(program, runs, folder)


if __name__ == "__main__":
    main()
