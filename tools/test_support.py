"""What the tests of the capture tools share: captures written by hand and read by the rules, and runs of a tool.

Where the program is built, it has to take each capture.
"""
import collections
import contextlib
import io
import os
import re
import subprocess
import sys
import tempfile
import unittest
import unittest.mock

TOOLS = os.path.dirname(os.path.abspath(__file__))
DATA = os.path.join(TOOLS, "data")
SERVED = os.path.join(DATA, "served")
TOP = os.path.dirname(TOOLS)
PROGRAM = os.path.join(TOP, "crates", "haboob", "out", "haboob")
sys.path.insert(0, TOOLS)
from haboob_tools import tool_run

SNAPSHOT = os.path.join(TOP, "examples", "site.snapshot")
START = 784111777
GET = b"GET / HTTP/1.1\r\nHost: a\r\n\r\n"


def capture(*records, start=START, begin=b"haboob-capture 2"):
    """The text of a capture: (tick, connection, bytes), (tick, connection) of an end, ("tier", connection, tier)."""
    parts = [b"%b %d\n" % (begin, start)]
    for tick, connection, *data in records:
        if tick == "tier":
            parts.append(b"tier %d %d\n" % (connection, data[0]))
        elif data:
            parts.append(b"piece %d %d %d\n%b\n" % (tick, connection, len(data[0]), data[0]))
        else:
            parts.append(b"end %d %d\n" % (tick, connection))
    return b"".join(parts) + b"stop %d\n" % len(records)


def traffic(*records, start=START):
    """The traffic text of these records."""
    return capture(*records, start=start, begin=b"haboob-traffic 1")


def read_capture(text):
    """The start and the records of a text, as capture() and traffic() take them; fails where it breaks a rule."""
    first = re.match(rb"(haboob-capture 2|haboob-traffic 1) (0|[1-9]\d*)\n", text)
    records, at, last, ended, begun = [], first.end(), 0, set(), set()
    while not (stop := re.compile(rb"stop (\d+)\n").fullmatch(text, at)):
        tier = re.compile(rb"tier (\d+) ([0-3])\n").match(text, at)
        if tier:
            connection, at = int(tier[1]), tier.end()
            assert connection <= 65535 and connection not in ended | begun
            records.append(("tier", connection, int(tier[2])))
            begun.add(connection)
            continue
        line = re.compile(rb"(?:piece (\d+) (\d+) (\d+)|end (\d+) (\d+))\n").match(text, at)
        tick, connection = (int(line[1] or line[4]), int(line[2] or line[5]))
        assert last <= tick <= 10**15 and connection <= 65535 and connection not in ended
        at, last = line.end(), tick
        if line[3]:
            length = int(line[3])
            assert 1 <= length <= 65536 and text[at + length:at + length + 1] == b"\n"
            records.append((tick, connection, text[at:at + length]))
            begun.add(connection)
            at += length + 1
        else:
            records.append((tick, connection))
            begun.discard(connection)
            if first[1] == b"haboob-capture 2":
                ended.add(connection)
    assert int(stop[1]) == len(records)
    return int(first[2]), records


def texts_of(records):
    """The bytes of each connection of some records."""
    texts = collections.defaultdict(bytes)
    for _, connection, *data in records:
        texts[connection] += b"".join(data)
    return dict(texts)


def texts_of_lives(records):
    """The bytes of each connection of some records, in which a number's later connections come after its ends."""
    open_now, texts = {}, []
    for _, number, *data in records:
        if not data:
            texts.append(open_now.pop(number))
        else:
            open_now[number] = open_now.get(number, b"") + data[0]
    return texts + list(open_now.values())


class ToolTest(unittest.TestCase):
    """Runs a tool in a folder of its own."""

    def setUp(self):
        folder = tempfile.TemporaryDirectory()
        self.addCleanup(folder.cleanup)
        self.folder = folder.name
        self.output = os.path.join(folder.name, "out.capture")
        self.input = os.path.join(folder.name, "input")

    def stored(self, data):
        """The path of an input: of bytes, which are stored, or of a file that is stored below data/ already."""
        if isinstance(data, str):
            return os.path.join(DATA, data)
        with open(self.input, "wb") as file:
            file.write(data)
        return self.input

    def run_tool(self, tool, words, data, status=0):
        """Runs a tool on some bytes, a stored file, or a list of paths; returns the capture, or None, and what it said.

        Where the status isn't 0, the older output has to stand as it was, and nothing beside it.
        """
        with open(self.output, "wb") as file:
            file.write(b"older")
        paths = data if isinstance(data, list) else [self.stored(data)]
        before = sorted(os.listdir(self.folder))
        with unittest.mock.patch("sys.argv", [tool.TOOL, "--output", self.output, *words, *paths]):
            with contextlib.redirect_stderr(io.StringIO()) as errors:
                try:
                    ended = tool_run.run(tool.TOOL, tool.convert)
                except SystemExit as fault:
                    ended = fault.code
        said = errors.getvalue()
        self.assertEqual((ended, sorted(os.listdir(self.folder))), (status, before), said)
        with open(self.output, "rb") as file:
            text = file.read()
        if status:
            self.assertEqual(text, b"older")
            return None, said
        self.check_capture(text)
        return text, said

    def check_capture(self, text):
        """Has the capture read by the rules, and by the program where it is built."""
        read_capture(text)
        if os.path.exists(PROGRAM):
            words = [PROGRAM, "replay", "--engine", "plain", "--snapshot", SNAPSHOT, "--capture", self.output,
                     "--replies", "/dev/null"]
            ran = subprocess.run(words, stdout=subprocess.DEVNULL, stderr=subprocess.PIPE, timeout=600)
            self.assertEqual((ran.returncode, ran.stderr), (0, b""))

    def run_program(self, *words, **options):
        """Status and standard error of a tool as a program, which writes nothing on standard output."""
        ran = subprocess.run([sys.executable, *words], stdout=subprocess.PIPE, stderr=subprocess.PIPE, timeout=60,
                             **options)
        self.assertEqual(ran.stdout, b"")
        return ran.returncode, ran.stderr.decode()


def sent_requests(server):
    """The requests that a client sent to a server when served/ was recorded: time in microseconds, and request line."""
    with open(os.path.join(SERVED, "sent.txt"), encoding="ascii") as file:
        lines = [line.rstrip("\n").split(" ", 2) for line in file]
    return sorted((int(time), request) for name, time, request in lines if name == server)


def requests_in(text):
    """The requests of a capture that holds whole heads: time in microseconds, from its start, and request line.

    The start is the second of the first request, and its ticks count from that request.
    """
    _, records = read_capture(text)
    return [(record[0], record[2].split(b"\r\n")[0].decode()) for record in records if len(record) == 3
            and record[0] != "tier"]
