#!/usr/bin/env python3
"""Runs the program from standard input to standard output, on pipes, files, closed and full devices, and compares its
status, its line on standard error and what it wrote with a table. Then replays whose replies nobody takes for a while,
with standard error on a terminal, which is to show their progress, and on a pipe.
"""
import os
import pty
import re
import resource
import subprocess
import sys
import tempfile
import threading
import time

from lib.report import Report
from lib.run import SECONDS, contents, limit, options, put, run
from lib.texts import CLOSING, HEADER, HEADER_TRAFFIC, HEADER_TWO, REQUEST, SNAPSHOT, recording_text
from lib.usage import program_of
from program_parts import FIRST_LINE, FIRST_RUN, ONE, PIECE, REPLIES, REPLY

# The memory that a run has where it is to have little, in bytes: less than the file that its snapshot announces.
MEMORY = 16_000_000


# A run whose replies are more than any buffer or pipe holds.
LONG = recording_text([(number, number % 100, REQUEST) for number in range(5000)])

# How the input comes: its bytes from a pipe, from a file, slowly byte by byte; or a directory, or nothing at all.
# How the replies go: into a pipe that is read, a file, a full device, a pipe that nobody reads, nowhere.
# Then the status, the line on standard error, and what was written (None: it can't be seen).
TABLE = [
    # name, input, bytes, output, status, line, replies
    ("first run from a pipe", "pipe", FIRST_RUN, "pipe", 0, b"", REPLIES),
    ("first run from a file", "file", FIRST_RUN, "file", 0, b"", REPLIES),
    ("first run byte by byte", "slow", FIRST_RUN, "pipe", 0, b"", REPLIES),
    ("no records", "pipe", SNAPSHOT + HEADER + b"stop 0\n", "pipe", 0, b"", FIRST_LINE + b"stop 0\n"),
    ("empty input from a pipe", "pipe", b"", "pipe", 4, b"haboob: snapshot: entry 0: Cut\n", b""),
    ("empty input from a file", "file", b"", "file", 4, b"haboob: snapshot: entry 0: Cut\n", b""),
    ("another header", "pipe", b"haboob-snapshot 2\nend 0\n", "pipe", 4, b"haboob: snapshot: entry 0: Header\n", b""),
    ("names out of order", "pipe", b"haboob-snapshot 1\nfile 0 1 0\nb\n\nfile 0 1 0\na\n\nend 2\n", "pipe", 4,
     b"haboob: snapshot: entry 2: Order\n", b""),
    ("a name in a file", "pipe", b"haboob-snapshot 1\nfile 0 1 0\na\n\nfile 0 3 0\na/b\n\nend 2\n", "pipe", 4,
     b"haboob: snapshot: entry 2: Conflict\n", b""),
    ("a bad name", "pipe", b"haboob-snapshot 1\nfile 0 4 0\na//b\n\nend 1\n", "pipe", 4,
     b"haboob: snapshot: entry 1: Name\n", b""),
    ("another count of files", "pipe", b"haboob-snapshot 1\nfile 0 1 0\na\n\nend 2\n", "pipe", 4,
     b"haboob: snapshot: entry 2: Count\n", b""),
    ("a snapshot cut", "pipe", SNAPSHOT[:-1], "pipe", 4, b"haboob: snapshot: entry 2: Cut\n", b""),
    ("a long line", "pipe", b"x" * 65, "pipe", 4, b"haboob: snapshot: entry 0: Header\n", b""),
    ("nothing after the snapshot", "pipe", SNAPSHOT, "pipe", 5, b"haboob: capture: record 0: Cut\n", FIRST_LINE),
    ("another capture", "pipe", SNAPSHOT + b"haboob-capture 3 0\n", "pipe", 5, b"haboob: capture: record 0: Header\n",
     FIRST_LINE),
    ("no last line", "file", SNAPSHOT + HEADER + PIECE, "file", 5, b"haboob: capture: record 2: Cut\n", ONE),
    ("another count of records", "pipe", SNAPSHOT + HEADER + PIECE + b"stop 2\n", "pipe", 5,
     b"haboob: capture: record 2: Count\n", ONE),
    ("a byte after", "pipe", FIRST_RUN + b".", "pipe", 5, b"haboob: capture: record 2: Trailing\n", ONE),
    ("ticks that fall", "pipe", SNAPSHOT + HEADER + PIECE.replace(b"piece 0", b"piece 7") + PIECE, "pipe", 5,
     b"haboob: capture: record 2: Tick\n", ONE),
    ("a piece after an end", "pipe", SNAPSHOT + HEADER + b"end 0 0\n" + PIECE, "pipe", 5,
     b"haboob: capture: record 2: Ended\n", FIRST_LINE),
    ("a connection too high", "pipe", SNAPSHOT + HEADER + b"piece 0 4096 1\nx\n", "pipe", 5,
     b"haboob: capture: record 1: Connection\n", FIRST_LINE),
    ("a tier too high", "pipe", SNAPSHOT + b"haboob-capture 2 0\ntier 0 4\n", "pipe", 5,
     b"haboob: capture: record 1: Tier\n", FIRST_LINE),
    ("a tier after a piece", "pipe", SNAPSHOT + HEADER_TWO + PIECE + b"tier 0 1\n",
     "pipe", 5, b"haboob: capture: record 2: Tier\n", ONE),
    ("a tier in version 1", "pipe", SNAPSHOT + HEADER + b"tier 0 1\n", "pipe", 5, b"haboob: capture: record 1: Kind\n",
     FIRST_LINE),
    ("a piece of no bytes", "pipe", SNAPSHOT + HEADER + b"piece 0 0 0\n\n", "pipe", 5,
     b"haboob: capture: record 1: Length\n", FIRST_LINE),
    ("a directory as input", "directory", b"", "pipe", 6, b"haboob: read: snapshot\n", b""),
    ("no input", "closed", b"", "pipe", 6, b"haboob: read: snapshot\n", b""),
    ("a full device", "pipe", FIRST_RUN, "full", 6, b"haboob: write: replies\n", None),
    ("a full device, and a long run", "file", SNAPSHOT + LONG, "full", 6, b"haboob: write: replies\n", None),
    ("a full device, and a fault of the capture", "pipe", SNAPSHOT, "full", 6, b"haboob: write: replies\n", None),
    ("a full device, and a fault of the snapshot", "pipe", b"", "full", 4, b"haboob: snapshot: entry 0: Cut\n", None),
    ("a closed pipe", "pipe", FIRST_RUN, "dead", 6, b"haboob: write: replies\n", None),
    ("a closed pipe, and a long run", "file", SNAPSHOT + LONG, "dead", 6, b"haboob: write: replies\n", None),
    ("no output", "pipe", FIRST_RUN, "closed", 6, b"haboob: write: replies\n", None),
]

# The reply to a message that closes, and two replies with the last line.
CLOSED = (REPLY % 0).replace(b" 150\n", b" 169\n").replace(b"GMT\r\n\r\n", b"GMT\r\nConnection: close\r\n\r\n")
TWO = ONE + REPLY % 1 + b"stop 2\n"
END = b"end 0 0\n"
BEGUN = b"piece 0 0 5\nGET /\n"

# Traffic texts, each after a snapshot, from a pipe: the text, the fault ("" without one), and the replies.
TRAFFIC_TABLE = [
    ("a traffic text", HEADER_TRAFFIC + PIECE + b"stop 1\n", "", REPLIES),
    ("no records", HEADER_TRAFFIC + b"stop 0\n", "", FIRST_LINE + b"stop 0\n"),
    ("a number again", HEADER_TRAFFIC + PIECE + END + PIECE + b"stop 3\n", "", TWO),
    ("an end twice", HEADER_TRAFFIC + PIECE + END + END + PIECE + b"stop 4\n", "", TWO),
    ("an end with nothing open", HEADER_TRAFFIC + END + b"end 0 65535\n" + PIECE + b"stop 3\n", "", REPLIES),
    ("a block that its end cuts", HEADER_TRAFFIC + BEGUN + END + PIECE + b"stop 3\n", "", REPLIES),
    (
        "a block whose rest comes after an end",
        HEADER_TRAFFIC + BEGUN + END + b"piece 0 0 27\n" + REQUEST[5:] + b"\n" + END + PIECE + b"stop 5\n",
        "",
        FIRST_LINE
        + b"reply 0 0 146\nHTTP/1.1 400 Bad Request\r\nDate: Sun, 06 Nov 1994 08:49:37 GMT\r\n"
        + b"Content-Type: text/plain\r\nContent-Length: 16\r\nConnection: close\r\n\r\n400 Bad Request\n\n"
        + REPLY % 1
        + b"stop 2\n",
    ),
    ("a message that closes, and a further connection",
     HEADER_TRAFFIC + b"piece 0 0 83\n" + CLOSING + REQUEST + b"\n" + PIECE + END + PIECE + b"stop 4\n", "",
     FIRST_LINE + CLOSED + REPLY % 1 + b"stop 2\n"),
    ("the last number", HEADER_TRAFFIC + PIECE.replace(b" 0 0 ", b" 0 65535 ") + b"stop 1\n", "",
     REPLIES.replace(b"reply 0 0 ", b"reply 0 65535 ")),
    ("a piece of number 65,536", HEADER_TRAFFIC + b"piece 0 65536 1\nx\n", "record 1: Connection", FIRST_LINE),
    ("an end of number 65,536", HEADER_TRAFFIC + b"end 0 65536\n", "record 1: Connection", FIRST_LINE),
    ("a tier of number 65,536", HEADER_TRAFFIC + b"tier 65536 4\n", "record 1: Connection", FIRST_LINE),
    ("a tier after a piece", HEADER_TRAFFIC + PIECE + b"tier 0 1\n", "record 2: Tier", ONE),
    ("a tier after a piece of a second life", HEADER_TRAFFIC + PIECE + END + PIECE + b"tier 0 1\n", "record 4: Tier",
     ONE + REPLY % 1),
    ("a tier after a tier", HEADER_TRAFFIC + b"tier 0 1\ntier 0 1\n", "record 2: Tier", FIRST_LINE),
    ("a tier above 3", HEADER_TRAFFIC + END + b"tier 0 4\n", "record 2: Tier", FIRST_LINE),
    ("a tier after an end", HEADER_TRAFFIC + PIECE + END + b"tier 0 1\n" + PIECE + b"stop 4\n", "", TWO),
    ("tiers of two lives, one without a piece",
     HEADER_TRAFFIC + b"tier 0 1\n" + END + b"tier 0 2\n" + PIECE + END + b"tier 0 3\n" + PIECE + b"stop 7\n", "", TWO),
    ("a tick lower than that of an end", HEADER_TRAFFIC + b"end 5 0\n" + PIECE, "record 2: Tick", FIRST_LINE),
    ("an end lower than a piece", HEADER_TRAFFIC + b"piece 5 1 1\nG\n" + END, "record 2: Tick", FIRST_LINE),
    ("a tick above the limit", HEADER_TRAFFIC + b"end 1000000000000001 65536\n", "record 1: Tick", FIRST_LINE),
    ("the greatest tick", HEADER_TRAFFIC + b"end 1000000000000000 0\nstop 1\n", "", FIRST_LINE + b"stop 0\n"),
    ("a piece of no bytes", HEADER_TRAFFIC + b"piece 0 0 0\n\n", "record 1: Length", FIRST_LINE),
    ("a piece of 65,537 bytes", HEADER_TRAFFIC + b"piece 0 0 65537\n", "record 1: Length", FIRST_LINE),
    ("no LF after a piece", HEADER_TRAFFIC + b"piece 0 0 1\nGET", "record 1: Length", FIRST_LINE),
    ("a record of another kind", HEADER_TRAFFIC + PIECE + b"ends 0 0\n", "record 2: Kind", ONE),
    ("an end with a length", HEADER_TRAFFIC + PIECE + b"end 0 0 1\n", "record 2: Number", ONE),
    ("another count of records", HEADER_TRAFFIC + PIECE + END + b"stop 1\n", "record 3: Count", ONE),
    ("a byte after", HEADER_TRAFFIC + PIECE + b"stop 1\n.", "record 2: Trailing", ONE),
    ("a record after", HEADER_TRAFFIC + PIECE + b"stop 1\n" + END, "record 2: Trailing", ONE),
    ("a capture of version 3", b"haboob-capture 3 0\nstop 0\n", "record 0: Header", FIRST_LINE),
    ("a traffic text of version 2", b"haboob-traffic 2 0\nstop 0\n", "record 0: Header", FIRST_LINE),
    ("a traffic text of version 10", b"haboob-traffic 10 0\nstop 0\n", "record 0: Header", FIRST_LINE),
    ("a traffic text without a start", b"haboob-traffic 1\nstop 0\n", "record 0: Header", FIRST_LINE),
    ("a start that is empty", b"haboob-traffic 1 \nstop 0\n", "record 0: Number", FIRST_LINE),
    ("a start with a nought before it", b"haboob-traffic 1 07\nstop 0\n", "record 0: Number", FIRST_LINE),
    ("a second start", b"haboob-traffic 1 7 7\nstop 0\n", "record 0: Number", FIRST_LINE),
    ("the last start", b"haboob-traffic 1 4102444800\nstop 0\n", "", FIRST_LINE + b"stop 0\n"),
    ("a start above the limit", b"haboob-traffic 1 4102444801\nstop 0\n", "record 0: Header", FIRST_LINE),
    ("a first line without its LF", b"haboob-traffic 1 " + b"7" * 47, "record 0: Cut", FIRST_LINE),
    ("a first line of 65 bytes", b"haboob-traffic 1 " + b"7" * 48 + b"\n", "record 0: Header", FIRST_LINE),
]
# The parts of a traffic text, and what is written once each is whole.
PARTS = [
    (HEADER_TRAFFIC, FIRST_LINE),
    (PIECE, ONE),
    (END, ONE),
    (b"tier 0 1\n", ONE),
    (PIECE, ONE + REPLY % 1),
    (b"stop 4\n", TWO),
]


def feed(pipe, data, slowly):
    """Writes the input; the program may end before it has read all of it."""
    try:
        if slowly:
            for byte in data:
                os.write(pipe, bytes([byte]))
                time.sleep(0.0005)
        else:
            while data:
                data = data[os.write(pipe, data) :]
    except BrokenPipeError:
        pass
    os.close(pipe)


def open_input(kind, data, folder):
    """The program's standard input, and the thread that writes it."""
    if kind in ("pipe", "slow"):
        reader, writer = os.pipe()
        os.set_inheritable(writer, False)
        return reader, threading.Thread(target=feed, args=(writer, data, kind == "slow"))
    if kind == "directory":
        return os.open(folder, os.O_RDONLY), None
    if kind == "closed":
        return None, None
    put(folder, {"input": data})
    return os.open(os.path.join(folder, "input"), os.O_RDONLY), None


def open_output(kind, folder):
    """The program's standard output, and what reads it: a file's name, or None."""
    if kind == "full":
        return os.open("/dev/full", os.O_WRONLY), None
    if kind == "dead":
        reader, writer = os.pipe()
        os.close(reader)
        return writer, None
    if kind == "file":
        name = os.path.join(folder, "output")
        return os.open(name, os.O_WRONLY | os.O_CREAT | os.O_TRUNC), name
    return subprocess.PIPE, None


def close_in_child(given, taken):
    """Closes the devices that the program is not to have."""

    def close():
        if given == "closed":
            os.close(0)
        if taken == "closed":
            os.close(1)

    return close


def run_on(program, given, data, taken, folder):
    """The status, the line on standard error and the replies of one run."""
    stdin, feeder = open_input(given, data, folder)
    stdout, name = open_output(taken, folder)
    child = subprocess.Popen([program], stdin=subprocess.DEVNULL if stdin is None else stdin, stdout=stdout,
                             stderr=subprocess.PIPE, preexec_fn=close_in_child(given, taken))
    for device in (stdin, stdout):
        if device is not None and device >= 0:
            os.close(device)
    if feeder:
        feeder.start()
    try:
        replies, line = child.communicate(timeout=SECONDS)
    except subprocess.TimeoutExpired:
        child.kill()
        replies, line = child.communicate()
        line = b"(it hangs) " + line
    if feeder:
        feeder.join()
    return child.returncode, line, contents(name) if name else replies


def cut_anywhere():
    """A traffic text cut after each of its bytes: the part that isn't whole, by its number, and what stands."""
    text = SNAPSHOT
    for number, (part, _) in enumerate(PARTS):
        replies = PARTS[number - 1][1] if number else FIRST_LINE
        for end in range(len(part)):
            yield "a traffic text cut in part %d, byte %d" % (number, end), text + part[:end], number, replies
        text += part


# Nobody takes the replies for so many seconds, which is longer than a run is without a word of its progress.
LEFT_ALONE = 2.5
SHOWN = re.compile(rb"(?:\r\x1b\[Khaboob: \d{1,2}% read, \d+ s left)+\r\x1b\[K")


def left_alone(program, engine, error):
    """The status of a replay whose replies are taken late, and its replies."""
    with tempfile.TemporaryDirectory() as folder:
        put(folder, {"snapshot": SNAPSHOT, "capture": LONG})
        replies = os.path.join(folder, "replies")
        os.mkfifo(replies)
        words = [program, "replay", "--engine", engine, *options("snapshot", "capture", "replies")]
        child = subprocess.Popen(words, cwd=folder, stdin=subprocess.DEVNULL, stdout=subprocess.DEVNULL, stderr=error)
        with open(replies, "rb") as pipe:
            time.sleep(LEFT_ALONE)
            taken = pipe.read()
        return child.wait(timeout=SECONDS), taken


def check_progress(report, program):
    """A run that takes long shows on a terminal how far it is, and nothing elsewhere."""
    for engine in ("plain", "staged"):
        shown, terminal = pty.openpty()
        status, taken = left_alone(program, engine, terminal)
        os.close(terminal)
        printed = os.read(shown, 10_000)
        os.close(shown)
        good = status == 0 and taken.endswith(b"stop 5000\n") and SHOWN.fullmatch(printed)
        report.see("progress on a terminal, " + engine, good, (status, printed))
        with tempfile.TemporaryFile() as error:
            status, taken = left_alone(program, engine, error)
            error.seek(0)
            printed = error.read()
        report.see("no progress in a file, " + engine, (status, printed) == (0, b""), (status, printed))


def main():
    program, report = program_of(__doc__), Report()
    rows = TABLE[:]
    for name, text, fault, replies in TRAFFIC_TABLE:
        line = b"haboob: capture: %s\n" % fault.encode() if fault else b""
        rows.append(("traffic: " + name, "pipe", SNAPSHOT + text, "pipe", 5 if fault else 0, line, replies))
    for name, data, number, replies in cut_anywhere():
        rows.append((name, "pipe", data, "pipe", 5, b"haboob: capture: record %d: Cut\n" % number, replies))
    for name, given, data, taken, status, line, replies in rows:
        with tempfile.TemporaryDirectory() as folder:
            got = run_on(program, given, data, taken, folder)
        report.see_run(name, got[:2] == (status, line) and replies in (None, got[2]), got)
    with open("/dev/full", "wb") as full:
        got = run(program, [], stderr=full)[0]
    report.see("an error that can't be written", got == 4, got)
    # no memory for the file that the snapshot announces
    announced = b"haboob-snapshot 1\nfile 0 1 16777216\na\n"
    got = run(program, [], input=announced, preexec_fn=limit(resource.RLIMIT_AS, MEMORY))
    report.see_run("little memory", got == (7, b"haboob: memory\n", b""), got)
    check_progress(report, program)
    return report.end()


if __name__ == "__main__":
    sys.exit(main())
