#!/usr/bin/env python3
"""Upgrades a capture of 1 GiB, the largest there is, and measures its time beside `cat`, and its peak of memory.

    checks/upgrade_speed.py PROGRAM [--bytes N] [--piece N] [--folder FOLDER]

Prints one line. Exits with 1 where the output isn't the capture with the version 2 in its first line, or where the peak
is more than 1 MiB above that of a small capture: an upgrade holds one record at a time. It needs 2 GiB in the folder
while it runs. Run it on a machine that does nothing else.
"""
import os
import subprocess
import sys
import tempfile
import time

from lib.texts import HEADER, HEADER_TWO, REQUEST, piece, write_counted
from lib.usage import parser_of

LARGEST = 2**30
SMALL = 2**24
LAST_LINE_ROOM = 32
BLOCK = 2**20


def pieces(size, length):
    """Pieces of so many bytes, of which a capture of at most this size has room."""
    body = (REQUEST * (length // len(REQUEST) + 1))[:length]
    room, count = size - len(HEADER) - LAST_LINE_ROOM, 0
    while len(record := piece(count, count % 4096, body)) <= room:
        yield record
        room, count = room - len(record), count + 1


def peak_now(process):
    """The most memory that a running process has had, in bytes; 0 where it has ended."""
    try:
        with open("/proc/%d/status" % process) as status:
            return max([int(line.split()[1]) * 1024 for line in status if line.startswith("VmHWM")], default=0)
    except (FileNotFoundError, ProcessLookupError):
        return 0


def run(words, output=None):
    """The seconds and the peak of memory of a run that must end well."""
    with open(output or os.devnull, "wb") as stdout:
        began = time.monotonic()
        child, peak = subprocess.Popen(words, stdin=subprocess.DEVNULL, stdout=stdout), 0
        while child.poll() is None:
            peak = max(peak, peak_now(child.pid))
            time.sleep(0.001)
    if child.returncode:
        sys.exit("%s: status %d" % (words[0], child.returncode))
    return time.monotonic() - began, peak


def is_upgraded(capture, output):
    """Whether the output is the capture with another version."""
    with open(capture, "rb") as old, open(output, "rb") as new:
        same = old.readline() == HEADER and new.readline() == HEADER_TWO
        while same and (block := old.read(BLOCK)):
            same = new.read(BLOCK) == block
        return same and new.read(1) == b""


def upgrade(program, folder, size, length):
    """The names of a capture and of its upgraded text; the bytes, the seconds and the peak of memory."""
    capture, output = os.path.join(folder, "capture"), os.path.join(folder, "output")
    write_counted(capture, HEADER, pieces(size, length), b"stop")
    seconds, peak = run([program, "upgrade", "--capture", capture, "--output", output])
    return capture, output, os.path.getsize(capture), seconds, peak


def main():
    parser = parser_of(__doc__)
    parser.add_argument("--bytes", type=int, default=LARGEST, help="the size of the capture; %d without it" % LARGEST)
    parser.add_argument("--piece", type=int, default=1024, help="the bytes of each piece, 1 to 65536; 1024 without it")
    parser.add_argument("--folder", help="where the files stand; without it a folder for temporary files")
    options = parser.parse_args()
    with tempfile.TemporaryDirectory(dir=options.folder) as folder:
        *_, small_peak = upgrade(options.program, folder, SMALL, options.piece)
        capture, output, size, seconds, peak = upgrade(options.program, folder, options.bytes, options.piece)
        good = is_upgraded(capture, output)
        copied, _ = run(["cat", capture], output)
    print(
        "%d bytes in pieces of %d: upgraded in %.2f s, %.0f MB/s; cat in %.2f s, %.0f MB/s; peak of memory %.1f MiB,"
        " and %.1f MiB for 16 MiB of capture; %s" % (
            size, options.piece, seconds, size / seconds / 1e6, copied, size / copied / 1e6, peak / 2**20,
            small_peak / 2**20, "the right output" if good else "WRONG output"))
    return int(not good or peak > small_peak + 2**20)


if __name__ == "__main__":
    sys.exit(main())
