"""Reads tables of decisions (docs/FORMATS.md, Table of decisions), and takes the figures of a run of `haboob explain`.

Nothing but Python's own library is used: a worker of a cluster is sent this file and response_delays.py alone.
"""
import array
import collections
import hashlib
import heapq
import io
import itertools
import os
import pathlib
import re
import shutil
import subprocess
import tempfile
import tomllib

from .response_delays import Delays

HEADING = "number connection tick tier status decision service credit rate start finish waited method target".split()
POOL = "pool"  # the column between these where the settings have pools
TIERS = 4
LINE_ROOM = 65_536  # characters; no sound row is as long, since a request's head has at most 8,192 bytes
PERCENTS = (50, 90, 99)
REPORT_BEGIN = "haboob-report 1\n"
REPORT_END = "end\n"
REPORTED = ("admitted", "rejected", "p50", "p90", "p99")
REFUSED = 3  # the program's status where the settings are at fault
MISSING = 404  # the status of a request for what the snapshot doesn't have
OF_FILES = (200, 301, 304, MISSING)  # those of requests that looked for a file
LEAST_ASKED = 10  # requests by which a snapshot is judged
LINE_LIMIT = 1_000  # bytes that are read of what the program says
DIGEST = "sha256"

# A row of a table: numbers as such (None where there is none), the others as text.
Row = collections.namedtuple("Row", [*HEADING, POOL], defaults=(None,))
NUMBER = "([0-9]{1,18})"
MAY_BE_ABSENT = "([0-9]{1,18}|)"
VISIBLE = r"([!-+\--~]*)"  # visible ASCII but a comma; other bytes stand as escapes
PARTS = {**dict.fromkeys(HEADING[:5], NUMBER), **dict.fromkeys(HEADING[6:12], MAY_BE_ABSENT), "tier": "([0-3])",
         POOL: "([0-9]|1[0-6]|)", "decision": "(admitted|rejected|bypassed)", "method": VISIBLE, "target": VISIBLE}
NEEDED = {"bypassed": (), "rejected": ("service", "credit", "rate", "waited"), "admitted": tuple(HEADING[6:12])}
SHOWN = 20  # characters of what is wrong


class Fault(Exception):
    """What ends a run: one line for standard error."""


def lines_of(file):
    """The lines of a file of bytes after the heading with their numbers, in bounded room; a fault where one is too long
    or cut."""
    for number in itertools.count(2):
        line = file.readline(LINE_ROOM)
        if not line:
            return
        if len(line) == LINE_ROOM:
            raise Fault("row %d: longer than %d bytes" % (number, LINE_ROOM))
        if not line.endswith(b"\n"):
            raise Fault("row %d: cut, or not as many fields as the heading has" % number)
        yield number, line.decode("ascii", errors="surrogateescape")


class Form:
    """The columns of a table."""

    def __init__(self, *names):
        self.names = names
        self.heading = ",".join(names) + "\n"
        self.pattern = re.compile(",".join(PARTS[name] for name in names) + "\n")
        self.needed = {decision: (*needed, POOL) if needed and POOL in names else needed
                       for decision, needed in NEEDED.items()}

    def fault_of(self, line, number):
        """What is wrong with a line that is no row."""
        fields = line.rstrip("\n").split(",")
        if len(fields) != len(self.names):
            return Fault("row %d: not as many fields as the heading has" % number)
        wrong = next(pair for pair in zip(self.names, fields) if not re.fullmatch(PARTS[pair[0]], pair[1]))
        return Fault("row %d: %s: %s isn't one" % (number, wrong[0], ascii(wrong[1][:SHOWN])))

    def row_of(self, line, number):
        """The row of a line; a fault where it is none."""
        found = self.pattern.fullmatch(line)
        if not found:
            raise self.fault_of(line, number)
        texts = found.groups()
        counts = [int(text) if text else None for text in texts[6:-2]]  # the pool is the last, if it is there
        row = Row(*map(int, texts[:5]), texts[5], *counts[:6], *texts[-2:], *counts[6:])
        absent = next((name for name in self.needed[row.decision] if getattr(row, name) is None), None)
        if absent:
            raise Fault("row %d: %s: isn't there" % (number, absent))
        if row.decision == "admitted" and not row.tick <= row.start <= row.finish:
            raise Fault("row %d: tick, start and finish don't rise" % number)
        return row


FORMS = (Form(*HEADING), Form(*HEADING[:12], POOL, *HEADING[12:]))


def rows_of(file):
    """The rows of a table of decisions in a file of bytes, by its heading; a fault, with the row (the heading is 1),
    where it is damaged."""
    heading = file.readline(LINE_ROOM).decode("ascii", errors="replace")
    form = next((form for form in FORMS if form.heading == heading), None)
    if form is None:
        raise Fault("this is no table of decisions")
    tick = 0
    for number, line in lines_of(file):
        row = form.row_of(line, number)
        if row.tick < tick:
            raise Fault("row %d: the tick is lower than that of the row before" % number)
        tick = row.tick
        yield row


def strange_snapshot(asked, missing):
    """A warning where nine in ten of the requests that looked for a file found none; else None."""
    if asked < LEAST_ASKED or 10 * missing < 9 * asked:
        return None
    return ("WARNING: of %d requests for files %d ask for what the snapshot doesn't have: is it that of another site? "
            "(What is no file wants a route in the settings)" % (asked, missing))


def ranked(samples, percent):
    """The sample at rank ceil(percent * m / 100) of m sorted ones, as in the report; None of none."""
    return samples[-(-percent * len(samples) // 100) - 1] if samples else None


class Queue:
    """What has begun and hasn't ended yet, as the admitted requests that aren't answered."""

    def __init__(self):
        self.ends = []  # a heap

    def admit(self, tick, end):
        """How many there are with one that begins at a tick and ends at another."""
        while self.ends and self.ends[0] <= tick:
            heapq.heappop(self.ends)
        heapq.heappush(self.ends, end)
        return len(self.ends)


class TierTally:
    """What is counted of one tier's requests. Times are in ticks, which are microseconds."""

    def __init__(self):
        self.samples = array.array("q")  # the response times of the admitted requests
        self.rejected = 0
        self.idle = 0  # requests that were turned away while a virtual server was idle

    def figures(self):
        """The figures by their names."""
        samples = sorted(self.samples)
        return {"admitted": len(samples), "rejected": self.rejected, "rejected_while_idle": self.idle,
                **{"p%d" % percent: ranked(samples, percent) for percent in PERCENTS},
                "greatest": samples[-1] if samples else None}


class PoolTally:
    """What is counted of the requests of one pool's servers."""

    def __init__(self):
        self.line = Queue()  # the requests that have come and aren't begun
        self.most_waiting = 0  # of these at the most
        self.longest_wait = 0
        self.busy = 0  # for how long the servers worked, all added up

    def take(self, row):
        """Takes an admitted request; gives how many wait as it comes, itself too."""
        waiting = self.line.admit(row.tick, row.start) if row.start > row.tick else 0
        self.most_waiting = max(self.most_waiting, waiting)
        self.longest_wait = max(self.longest_wait, row.start - row.tick)
        self.busy += row.finish - row.start
        return waiting

    def figures(self):
        """The figures by their names."""
        return {"busy": self.busy, "most_waiting": self.most_waiting, "longest_wait": self.longest_wait}


class Tally:
    """What is counted over the rows of a table, of which each response takes its delay besides."""

    def __init__(self, delays):
        self.delays = delays
        self.tiers = collections.defaultdict(TierTally)
        self.pools = collections.defaultdict(PoolTally)  # by their numbers; none where the table has no such column
        self.queue = Queue()
        self.inside = 0  # the most requests that were admitted and not yet answered
        self.asked = self.missing = 0  # admitted requests that looked for a file, and those of them that found none
        self.busy = 0  # for how long the virtual servers worked, all added up
        self.first = None  # the tick of the first request
        self.last = 0  # when the last service ended

    def take(self, row):
        """Takes a row; one that was bypassed isn't offered, and doesn't count."""
        if row.decision == "bypassed":
            return
        tier = self.tiers[row.tier]
        pool = None if row.pool is None else self.pools[row.pool]
        self.first = row.tick if self.first is None else self.first
        if row.decision == "admitted":
            if pool:
                pool.take(row)
            self.last = max(self.last, row.finish)
            self.busy += row.finish - row.start
            self.asked += row.status in OF_FILES
            self.missing += row.status == MISSING
            complete = row.finish + self.delays.of(row.target)
            tier.samples.append(complete - row.tick)
            self.inside = max(self.inside, self.queue.admit(row.tick, complete))
            return
        tier.rejected += 1
        tier.idle += row.waited == 0

    def figures(self):
        """The figures by their names; `span` is the time from the first request to the end of the last service."""
        greatest = max((max(tier.samples) for tier in self.tiers.values() if tier.samples), default=None)
        return {"rejected_while_idle": sum(tier.idle for tier in self.tiers.values()), "greatest": greatest,
                "most_inside": self.inside, "busy": self.busy, "span": self.last - self.first if self.busy else 0,
                "asked": self.asked, "missing": self.missing,
                "tiers": {str(number): tier.figures() for number, tier in sorted(self.tiers.items())},
                **({"pools": {str(number): pool.figures() for number, pool in sorted(self.pools.items())}}
                   if self.pools else {})}


def report_figures(lines):
    """The figures of a report by their names, None where it has `-`."""
    figures, line = {}, ""
    begins = next(lines, None) == REPORT_BEGIN
    for line in lines:
        name, _, value = line.rstrip("\n").partition(" ")
        if name in REPORTED:
            figures[name] = None if value == "-" else int(value)
    if not begins or line != REPORT_END or len(figures) != len(REPORTED):
        raise Fault("the report isn't whole")
    return figures


def tally_of(table, delays):
    """What is counted over a table in a file of bytes, of which one row is held at a time."""
    tally = Tally(delays)
    for row in rows_of(table):
        tally.take(row)
    return tally


def tally_or_fault(table, delays):
    """What is counted over a table, and None; or None and the fault of a text that ended too early."""
    try:
        return tally_of(table, delays), None
    except Fault as error:
        fault = Fault("no table of haboob explain: %s" % error)
    if table.read(1):
        raise fault
    return None, fault


def said_by(errors):
    """The first line that the program wrote to a file of errors."""
    errors.seek(0)
    return errors.readline(LINE_LIMIT).decode(errors="replace").strip()


def run(program, snapshot, capture, settings):
    """The figures of a run with these files; where the settings are refused, the program's line as the figure `fault`.

    The table comes over a pipe of its own, so that it takes no room on a disk.
    """
    with open(settings, "rb") as file:
        delays = Delays(tomllib.load(file))
    table_end, program_end = os.pipe()
    words = [program, "explain", "--snapshot", snapshot, "--capture", capture, "--settings", settings,
             "--messages", "/dev/fd/%d" % program_end]
    with open(table_end, "rb") as table, tempfile.TemporaryFile() as errors, \
            tempfile.TemporaryFile("w+", encoding="ascii", errors="replace") as report:
        try:
            process = subprocess.Popen(
                words, stdin=subprocess.DEVNULL, stdout=report, stderr=errors, pass_fds=[program_end])
        finally:
            os.close(program_end)
        with process, table:
            tally, fault = tally_or_fault(table, delays)
        said = said_by(errors)
        if process.returncode == REFUSED:
            return {"fault": said}
        if process.returncode:
            raise Fault(said or "%s: ended with status %d" % (program, process.returncode))
        if fault:
            raise fault
        report.seek(0)
        try:
            return {**report_figures(report), **tally.figures()}
        except (Fault, ValueError) as error:
            raise Fault("no report of haboob explain: %s" % error) from None


def default_settings(name):
    """The document of all settings with their defaults, as a program that is found by its name writes it."""
    program = find_program(name)
    ran = subprocess.run([program, "settings"], stdin=subprocess.DEVNULL, capture_output=True)
    if ran.returncode:
        said = said_by(io.BytesIO(ran.stderr))
        raise Fault(said or "%s: ended with status %d" % (program, ran.returncode))
    return ran.stdout.decode("ascii", errors="replace")


def find_program(name):
    """The file of a program that is named by a path or found on the PATH."""
    path = shutil.which(name)
    if path is None:
        raise Fault("%s: no such program; put it on the PATH, or name it with --program" % name)
    return path


def digest_of(path):
    """The digest of a file's bytes."""
    with open(path, "rb") as file:
        return hashlib.file_digest(file, DIGEST).hexdigest()


def digest_of_program(name):
    """The digest of a program that is found by its name."""
    return digest_of(find_program(name))


def run_bytes(name, digest, snapshot, capture, settings):
    """The same on a worker of a cluster: of bytes, and by its own program, which has to have this digest."""
    program = find_program(name)
    if digest_of(program) != digest:
        raise Fault("%s: not the same program on all workers" % name)
    with tempfile.TemporaryDirectory(prefix="haboob-sweep-") as folder:
        paths = [pathlib.Path(folder, name) for name in ("snapshot", "capture", "settings")]
        for path, data in zip(paths, (snapshot, capture, settings)):
            path.write_bytes(data)
        return run(program, *paths)
