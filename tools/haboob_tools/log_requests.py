"""Reads the requests out of the lines of an access log, a block of lines at a time.

A block is read without the others, so that several are read side by side (log_blocks.py).
"""
import collections
import functools
import itertools
import operator
import pickle
import re

from . import capture_writer, log_formats
from .log_formats import ABSENT, DURATIONS, TIMES, WITHOUT

LINE_LIMIT = 65_536  # bytes; a longer line doesn't fit
RUN_LENGTH = 100  # requests that are packed together
SECOND = capture_writer.TICKS_IN_SECOND
# A line stands alone in time where it is so much later or earlier than all lines near it on both sides. A line may be
# earlier than those before it by as long as a request lasts, where the log tells when requests came (Apache's does).
AHEAD = 3_600 * SECOND
BACK = 86_400 * SECOND
APART = 366 * 86_400 * SECOND  # for the first and the last line, which also an idle time parts from the others
NEAR = 4  # lines on each side that are looked at

ESCAPE = re.compile(rb"\\(?:x([0-9A-Fa-f]{2})|u00([0-9A-Fa-f]{2})|(.))", re.DOTALL)
LETTERS = {b"n": b"\n", b"t": b"\t", b"r": b"\r", b"b": b"\b", b"f": b"\f", b"v": b"\v"}
REQUEST = re.compile(rb"([!#$%&'*+\-.^_`|~0-9A-Za-z]+) ([\x21-\x7e]+) HTTP/([0-9](?:\.[0-9])?)")
HOST = re.compile(rb"[A-Za-z0-9\-._~!$&'()*+,;=:\[\]%]+")
CONTROL = re.compile(rb"[\x00-\x08\x0a-\x1f\x7f]")
DIGITS = b"0123456789"
PATHS_LIMIT = 65_536  # of which the quickest answer is kept
PATH_LENGTH = 256  # bytes by which these are told apart
REFUSED = (b"503", b"499")  # statuses of requests that were turned away, or for which nobody waited
METHODS_WITH_BODY = (b"POST", b"PUT", b"PATCH")
REQUEST_VARIABLES = ("request", "request_method", "request_uri", "server_protocol", "http_host", "host")
FIELDS = {
    "http_referer": b"Referer", "http_user_agent": b"User-Agent", "http_if_modified_since": b"If-Modified-Since",
    "http_if_none_match": b"If-None-Match",
}
KEPT_VERSIONS = (b"1.0", b"1.1")
HEAD_ENDS = {b"1.0": b"Connection: keep-alive\r\n\r\n"}  # of other versions the empty line
NO_REQUEST = "lines whose request isn't sound"
NO_FIT = "lines of another format"
JUMPS = "lines whose time stands alone"
TOO_LONG = "lines whose request took more than a day"
OUTSIDE = "requests before --from or after --to"
CONTROLS = "fields with control characters"
BODIES = "requests with a method that has bodies, written without"
LATER_VERSIONS = "requests of later versions, written as HTTP/1.1"
NO_DURATION = "requests without %s, taken as if they took no time"
NO_HOST = "requests without %s, written with that of --host"

# Lines of a log (bytes, LF after each but perhaps the last), the name of its file, the number of its first line, and
# the lines next to it on both sides.
Block = collections.namedtuple("Block", "text name number before after")


class Part:
    """What was read of a block."""

    def __init__(self, lines):
        self.lines = lines  # their number
        self.left_out = collections.Counter()  # by kind
        self.firsts = {}  # the first line of each kind that is left out: file and number
        self.remarks = collections.Counter()
        self.quickest = {}  # durations of answers by path_of
        self.requests = []  # time, duration, tier, head
        self.runs = b""  # the same by rising time, in runs
        self.count = 0  # of the requests

    def leave_out(self, kind, name, number):
        """Counts a line, by the name of its file and its number, that is left out."""
        self.left_out[kind] += 1
        self.firsts.setdefault(kind, (name, number))

    def pack(self):
        """Packs the requests, so that they are quickly sent to another process."""
        self.count = len(self.requests)
        self.runs, self.requests = runs_of(self.requests), []


def packed(ordered):
    """Requests in runs that are pickled each."""
    ordered = iter(ordered)
    while run := list(itertools.islice(ordered, RUN_LENGTH)):
        yield pickle.dumps(run)


def runs_of(requests):
    """Runs of requests by rising time, those of the same time in their order, one after another."""
    return b"".join(packed(sorted(requests, key=operator.itemgetter(0))))


def escaped_byte(found):
    """What an escape stands for."""
    digits = found[1] or found[2]
    return bytes.fromhex(digits.decode()) if digits else LETTERS.get(found[3], found[3])


def path_of(head):
    """The beginning of the path that a head asks for, without its digits: what differs in numbers alone takes about as
    long."""
    return head.split(b" ", 2)[1].partition(b"?")[0].translate(None, DIGITS)[:PATH_LENGTH]


def take_quickest(quickest, path, duration):
    """Takes the duration of an answer into the quickest by their paths, of which there may be PATHS_LIMIT."""
    before = quickest.get(path)
    if before is None and len(quickest) < PATHS_LIMIT or before is not None and duration < before:
        quickest[path] = duration


def unescape(value):
    """A value of a log without the escapes of nginx (\\xHH, or those of JSON) and Apache (\\" and \\n too)."""
    return ESCAPE.sub(escaped_byte, value)


def stands_alone(times, place):
    """Whether the time at a place of a list is far from those near it, and on the same side of all."""
    time, before, after = times[place], times[max(0, place - NEAR):place], times[place + 1:place + 1 + NEAR]
    others = before + after
    if len(others) < 2:
        return False
    return time - max(others) > (AHEAD if after else APART) or min(others) - time > (BACK if before else APART)


def jumps_of(times, begin, end):
    """The places from a begin to an end of a list of times at which one stands alone; a set."""
    steps = map(operator.sub, times[1:], times)
    far = [0, *(place for place, step in enumerate(steps, 1) if step > AHEAD or step < -BACK), len(times) - 1]
    return {place for place in far if begin <= place < end and stands_alone(times, place)}


@functools.lru_cache(maxsize=1024)
def client_of(text):
    """The address of a client by its text in a log; None where it is none."""
    return capture_writer.client_of(text.decode("latin-1"))


def request_of(line):
    """A request's first line as it is written, what its head ends with, and what is remarked of it, by its line in a
    log without escapes; None where it isn't sound."""
    found = REQUEST.fullmatch(line)
    if found is None:
        return None
    method, target, version = found.groups()
    remarks = (BODIES,) if method in METHODS_WITH_BODY else ()
    if version not in KEPT_VERSIONS:
        return b"%b %b HTTP/1.1" % (method, target), b"\r\n", (*remarks, LATER_VERSIONS)
    return line, HEAD_ENDS.get(version, b"\r\n"), remarks


@functools.lru_cache(maxsize=1024)
def host_line(asked, named, given):
    """The field Host: as the client asked, else as the server is named, else as it was given, which is sound."""
    sound = (value for value in (asked, named) if value not in ABSENT and HOST.fullmatch(value))
    return b"Host: " + next(sound, given)


@functools.lru_cache(maxsize=8192)
def field_line(field, value, escaped):
    """A field with its value in a log; nothing where it has none, None where it has control characters."""
    if value in ABSENT:
        return b""
    value = unescape(value) if escaped else value
    if CONTROL.search(value):
        return None
    return b"" if value in ABSENT else b"%b: %b" % (field, value)


class RequestReader:
    """Reads blocks of one log."""

    def __init__(self, form, options):
        """Takes the format of the lines, and of the command line --host, --without, --tier, --from and --to."""
        self.time_name = next(name for name in TIMES if name in form.names)
        self.time = TIMES[self.time_name]
        duration = next((name for name in DURATIONS if name in form.names), None)
        self.duration_name = duration if self.time.answered else None  # of what is taken off the time
        self.took_name = duration if self.time.exact else None  # of what puts arrivals of one time in order
        self.needed = [self.time_name, *next(names for names in log_formats.REQUEST_NAMES if names <= set(form.names))]
        self.hosts = [name for name in ("http_host", "host") if name in form.names]
        self.host = options.host.encode()
        without = {name.lower() for name in options.without}
        self.fields = [(name, field) for name, field in FIELDS.items()
                       if name in form.names and field.lower() not in without]
        self.tiers = options.tier
        self.wants_client = any(rule.about == "client" for rule in options.tier)
        self.begin, self.end = options.begin, options.end
        self.form = form.reading({
            self.time_name, self.duration_name, self.took_name, "status", *REQUEST_VARIABLES,
            *(name for name, _ in self.fields), *(["remote_addr"] if self.wants_client else [])})

    def times_of(self, values):
        """Time and duration of a line, in microseconds; None where it tells no such time."""
        time, duration = self.time.read(values.get(self.time_name, b"")), 0
        if self.duration_name:
            value = values.get(self.duration_name)
            duration = 0 if value in ABSENT else DURATIONS[self.duration_name](value)
        return None if time is None or duration is None else (time, duration)

    def took(self, values):
        """How long a line's request took, in microseconds; 0 where it doesn't tell it."""
        value = values.get(self.took_name)
        return 0 if value in ABSENT else DURATIONS[self.took_name](value) or 0

    def line(self, line):
        """Values, time and duration of a line; None where it doesn't fit the format."""
        values = self.form.values(line) if len(line) <= LINE_LIMIT else None
        times = self.times_of(values) if values else None
        return times and (values, *times)

    def reason(self, line):
        """Why a line that doesn't fit is left out: it lacks a field, or is of another format."""
        values = self.form.values(line) if len(line) <= LINE_LIMIT else None
        name = values and log_formats.lacking(values, self.needed)
        return WITHOUT % self.form.shown[name] if name else NO_FIT

    def times_near(self, lines):
        """The times of some lines that fit."""
        return [read[1] for read in map(self.line, lines) if read]

    def block(self, block):
        """Reads a block of lines: a Part."""
        lines = block.text.split(b"\n")
        if not lines[-1]:
            lines.pop()
        lines = [line.rstrip(b"\r") for line in lines]
        read = [self.line(line) for line in lines]
        before, after = self.times_near(block.before), self.times_near(block.after)
        times = before + [found[1] for found in read if found] + after
        alone = jumps_of(times, len(before), len(times) - len(after))
        part, place = Part(len(lines)), len(before)
        for number, (line, found) in enumerate(zip(lines, read), block.number):
            kind = self.reason(line) if not found else JUMPS if place in alone else self.take(found, part)
            place += found is not None
            if kind:
                part.leave_out(kind, block.name, number)
        part.pack()
        return part

    def take(self, found, part):
        """Takes a line's request; returns the kind by which it is left out, or None."""
        values, time, duration = found
        if duration > BACK:
            return TOO_LONG
        arrival = max(0, time - duration)
        if (arrival if self.time.exact else time) + SECOND <= self.begin or (
                self.end is not None and arrival >= self.end):
            return OUTSIDE
        head = self.head_of(values, part)
        if head is None:
            name = log_formats.lacking(values, self.needed)
            return WITHOUT % self.form.shown[name] if name else NO_REQUEST
        client = client_of(values.get("remote_addr") or b"") if self.wants_client else None
        tier = self.tiers and capture_writer.tier_of(self.tiers, client, capture_writer.target_of(head))
        if self.took_name:
            duration = duration if self.duration_name else self.took(values)
            if values.get("status") not in REFUSED:
                take_quickest(part.quickest, path_of(head), duration)
        part.requests.append((arrival if self.time.exact else time, duration, tier or 0, head))
        return None

    def head_of(self, values, part):
        """The head of a line's request; None where the request isn't sound."""
        line = values.get("request")
        if line is None:
            version = values.get("server_protocol", b"HTTP/1.1")
            line = b"%b %b %b" % (values.get("request_method", b""), values.get("request_uri", b""), version)
        request = request_of(unescape(line) if self.form.escaped and b"\\" in line else line)
        if request is None:
            return None
        first, end, remarks = request
        lines = [first, host_line(values.get("http_host"), values.get("host"), self.host)]
        for name, field in self.fields:
            value = field_line(field, values.get(name), self.form.escaped)
            if value:
                lines.append(value)
            elif value is None:
                part.left_out[CONTROLS] += 1
        lines.append(end)
        head = b"\r\n".join(lines)
        if len(head) > capture_writer.BLOCK_LIMIT:
            return None
        for remark in remarks:
            part.remarks[remark] += 1
        if self.duration_name and values.get(self.duration_name) in ABSENT:
            part.remarks[NO_DURATION % self.form.shown[self.duration_name]] += 1
        if self.hosts and all(values.get(name) in ABSENT for name in self.hosts):
            part.remarks[NO_HOST % self.form.shown[self.hosts[0]]] += 1
        return head
