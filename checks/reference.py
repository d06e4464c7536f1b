#!/usr/bin/env python3
"""Replays a capture or a traffic text as docs/RULES.md and docs/FORMATS.md say, slowly and plainly, to compare the
program with.

    checks/reference.py [--replies FILE | --messages FILE] SNAPSHOT CAPTURE [SETTINGS]

It was written from the rules alone, and works on whole texts, without stages, threads, batches or a cache. Prints the
report, and writes the replies, or the table of decisions, to FILE. At a fault it prints the program's line on standard
error, and exits with the program's status. Settings are read by Python's tomllib, which takes a little less than the
program (TOML 1.0).
"""
import bisect
import calendar
import collections
import datetime
import email.utils
import functools
import heapq
import itertools
import re
import sys
import tomllib
import urllib.parse

from lib.run import contents
from lib.usage import parser_of

# A Content-Length may have more digits than Python reads without being asked to.
sys.set_int_max_str_digits(0)

TEXT_LIMIT = 1_073_741_824
LINE_LIMIT = 64
TIME_LIMIT = 253_402_300_799
START_LIMIT = 4_102_444_800
TICK_LIMIT = 10**15
TIERS = 4
PIECE_LIMIT = 65_536
FILE_LIMIT = 16_777_216
FILES_LIMIT = 65_536
NAME_LIMIT = 1024
CONTROLS_SHOWN = 1000
BLOCK_LIMIT = 8192
FIELDS_LIMIT = 64
BODY_LIMIT = 65_536
SETTINGS_LIMIT = 65_536
ROUTES_LIMIT = 64
POOLS_LIMIT = 16
TICKS_IN_SECOND = 10**6
UNITS_IN_TOKEN = 10**9

# The formats of recordings (docs/FORMATS.md, Capture and Traffic): how the first line begins, what an inspection calls
# the version, the last number of a connection, whether records give tiers, whether a number is free again after its
# end, the most bytes, and the most messages that are answered.
Format = collections.namedtuple("Format", "begin version last tiers again bytes messages")
ONE = Format(b"haboob-capture 1 ", "1", 4095, False, False, TEXT_LIMIT, 1_048_576)
TWO = Format(b"haboob-capture 2 ", "2", 65_535, True, False, TEXT_LIMIT, 1_048_576)
TRAFFIC = Format(b"haboob-traffic 1 ", "traffic", 65_535, True, True, 1_125_899_906_842_624, 536_870_912)
FORMATS = [ONE, TWO, TRAFFIC]

HEADING = "number,connection,tick,tier,status,decision,service,credit,rate,start,finish,waited,%smethod,target"

REASONS = {
    200: b"OK",
    301: b"Moved Permanently",
    304: b"Not Modified",
    400: b"Bad Request",
    404: b"Not Found",
    405: b"Method Not Allowed",
    413: b"Content Too Large",
    501: b"Not Implemented",
    503: b"Service Unavailable",
}

# The kinds of a message that is no request, each with its status.
FAULTS = {"TooLong": 400, "Block": 400, "Host": 400, "Coding": 501, "Length": 400, "BodySize": 413}

MEDIA_TYPES = {
    b"html": b"text/html",
    b"htm": b"text/html",
    b"css": b"text/css",
    b"js": b"text/javascript",
    b"txt": b"text/plain",
    b"json": b"application/json",
    b"svg": b"image/svg+xml",
    b"png": b"image/png",
    b"jpg": b"image/jpeg",
    b"jpeg": b"image/jpeg",
    b"gif": b"image/gif",
}

WORKERS = "workers, 1 to 16 for each stage: how many requests, or chunks of them, it works on at once"
QUEUES = "requests, 1 to 4096 for each stage: how many its queue holds"

# Each key with what is said of it, its default, and its least and greatest value where it is a single integer.
SETTINGS = {
    "floor": [
        ("front_cuts",
         "steps, rising from at least 1, the last 3: how many of the front's are done where each stage ends",
         [1, 2, 3]),
        ("front_workers", WORKERS, [2, 2, 2]),
        ("front_capacities", QUEUES, [64, 64, 64]),
        ("back_cuts",
         "steps, rising from at least 1, the last 2: how many of the back's are done where each stage ends", [1, 2]),
        ("back_workers", WORKERS, [2, 2]),
        ("back_capacities", QUEUES, [64, 64]),
        ("batch", "pieces, 1 to 65536: how many are read at a time", 1024, 1, 65_536),
        ("cache", "bytes, 0 to 1073741824: how much the cache of pages holds", 67_108_864, 0, 1_073_741_824),
    ],
    "costs": [
        ("file", "microseconds, 1 to 1000000: how long the server works on a file", 200, 1, 10**6),
        ("kib", "microseconds, 0 to 1000000: how long it works besides on each 1024 bytes that are given", 10, 0,
         10**6),
        ("error", "microseconds, 1 to 1000000: how long it works on any other answer", 50, 1, 10**6),
        ("servers", "servers, 1 to 1024: how many work side by side, each on one request at a time", 1, 1, 1024),
        ("delay", "microseconds, 0 to 1000000000: how long each response takes beside the server's work", 0, 0, 10**9),
    ],
    "policy": [
        ("window", "response times, 1 to 4096: of how many of the last ones the 90th percentile is taken", 100, 1,
         4096),
        ("every", "admitted requests, 1 to 4096: after how many the controller looks again", 100, 1, 4096),
        ("smoothing", "thousandths, 0 to 999: how much of the former value stays (700 is a weight of 0.7 for the past)",
         700, 0, 999),
        ("rate", "thousandths of a token a second, rate_min to rate_max: how fast tokens come back at first", 10**6, 1,
         10**9),
        ("rate_min", "thousandths of a token a second, 1 to rate_max: the rate never falls below it", 50_000, 1, 10**9),
        ("rate_max", "thousandths of a token a second, rate_min to 1000000000: the rate never rises above it",
         5_000_000, 1, 10**9),
        ("up", "thousandths of a token a second, 0 to 1000000000: by how much the rate rises at once", 2000, 0, 10**9),
        ("down", "hundredths, 101 to 10000: what the rate is divided by where it falls (120 divides it by 1.2)", 120,
         101, 10_000),
        ("target", "microseconds, 1 to 1000000000000: above this response time the rate falls", 100_000, 1, 10**12),
        ("low", "percent of the target, 0 to 100: below this part of it the rate rises", 90, 0, 100),
        ("depth", "tokens, 1 to 1000000: how many the bucket holds; it starts full", 100, 1, 10**6),
    ],
    "page": [
        ("retry_after", "seconds, 0 to 86400: after how long a rejected request may be tried again (Retry-After)", 1, 0,
         86_400),
    ],
}

# Each key of a pool with what is said of it, and its least and greatest value where it is an integer.
POOL = [
    ("name", "what routes name it by, unlike any other; each pool is named by a route"),
    ("servers", "servers, 1 to 1024: how many work side by side on the requests of its routes alone", 1, 1024),
]

# Each key of a route with what is said of it, and its least and greatest value where it is an integer.
ROUTE = [
    ("prefix", "a decoded path from its first slash on: what is at it and below it is on the route"),
    ("cost", "microseconds, 1 to 1000000000: how long the server works on a request, whatever its answer", 1, 10**9),
    ("kib", "microseconds, 0 to 1000000: how long it works besides on each 1024 bytes that are given", 0, 10**6),
    ("delay", "microseconds, 0 to 1000000000: how long each response takes beside the server's work", 0, 10**9),
    ("pool", "the name of a pool: its servers work on these requests, and those of costs on all others"),
]

# The table of each tier's policy; those after the first take what they leave out from it.
POLICY_TABLES = ["policy", "tier1", "tier2", "tier3"]
SETTINGS |= {table: SETTINGS["policy"] for table in POLICY_TABLES[1:]}

TOKEN = rb"[!#$%&'*+\-.^_`|~0-9A-Za-z]+"
REQUEST_LINE = re.compile(rb"(" + TOKEN + rb") ([^\x00-\x20\x7f]+) HTTP/1\.([01])\r?\n")
FIELD_LINE = re.compile(rb"(" + TOKEN + rb"):([^\x00-\x08\x0a-\x1f\x7f]*)\r?\n")
EMPTY_LINES = re.compile(rb"(?:\r?\n)*")
BLOCK_END = re.compile(rb"\n\r?\n")
OTHER_METHODS = (b"POST", b"PUT", b"DELETE", b"CONNECT", b"OPTIONS", b"TRACE")
HOST = re.compile(rb"[A-Za-z0-9\-._~!$&'()*+,;=:\[\]%]*")
DECIMAL = re.compile(rb"0|[1-9][0-9]*")
BAD_ESCAPE = re.compile(rb"%(?![0-9A-Fa-f]{2})")

DAYS = ["Monday", "Tuesday", "Wednesday", "Thursday", "Friday", "Saturday", "Sunday"]
MONTHS = ["Jan", "Feb", "Mar", "Apr", "May", "Jun", "Jul", "Aug", "Sep", "Oct", "Nov", "Dec"]
DATE_PARTS = {
    "short": "(?P<day_name>%s)" % "|".join(name[:3] for name in DAYS),
    "long": "(?P<day_name>%s)" % "|".join(DAYS),
    "month": "(?P<month>%s)" % "|".join(MONTHS),
    "time": r"(?P<hour>\d\d):(?P<minute>\d\d):(?P<second>\d\d)",
}
DATE_FORMATS = [
    re.compile((text % DATE_PARTS).encode())
    for text in (r"%(short)s, (?P<day>\d\d) %(month)s (?P<year>\d{4}) %(time)s GMT",
                 r"%(long)s, (?P<day>\d\d)-%(month)s-(?P<year>\d\d) %(time)s GMT",
                 r"%(short)s %(month)s (?P<day>\d\d| \d) %(time)s (?P<year>\d{4})")
]


class Fault(Exception):
    """What the program says on standard error, and its status (docs/FORMATS.md, Faults of the program)."""

    def __init__(self, status, line):
        super().__init__(line)
        self.status = status
        self.line = b"haboob: %s\n" % line.encode()


class Refused(Exception):
    """The first fault of a text, by its kind (docs/FORMATS.md)."""


File = collections.namedtuple("File", "name time body")
# A record: of an end there is neither body nor tier, of a tier no body. The life tells how many ends its connection's
# number had before.
Piece = collections.namedtuple("Piece", "tick conn life body tier")
# What is read of a recording: the format and the start (None where the first line has a fault), the records before the
# first fault, and that fault or None.
Recording = collections.namedtuple("Recording", "format start records fault")
Bad = collections.namedtuple("Bad", "kind")
Request = collections.namedtuple("Request", "method target minor link modified_since length")
Control = collections.namedtuple("Control", "instant percentile smoothed rate")
# A pool: its name, and how many servers it has.
Pool = collections.namedtuple("Pool", "name servers")
# A route: the text of its prefix and its segments, its numbers by their keys, and the number of its pool.
Route = collections.namedtuple("Route", "text segments cost kib delay pool")


class Text:
    """A snapshot's or a capture's text, read from the front (docs/FORMATS.md, Formats)."""

    def __init__(self, data, limit):
        self.data = data
        self.at = 0
        self.end = min(len(data), limit)
        self.entry = 0

    def need(self, condition):
        """Refuses a text that ends too early (docs/FORMATS.md, Formats)."""
        refuse_unless(condition, "TooLarge" if len(self.data) > self.end else "Cut")

    def line(self, too_long):
        """The bytes before the next LF (docs/FORMATS.md, Formats)."""
        found = self.data.find(b"\n", self.at, min(self.at + LINE_LIMIT + 1, self.end))
        refuse_unless(found >= 0 or self.end - self.at <= LINE_LIMIT, too_long)
        self.need(found >= 0)
        line, self.at = self.data[self.at : found], found + 1
        return line

    def owed(self, count):
        """The bytes that a line tells of, and whether an LF stands after them (docs/FORMATS.md, Formats)."""
        self.need(self.at + count < self.end)
        body, self.at = self.data[self.at : self.at + count], self.at + count + 1
        return body, self.data[self.at - 1 : self.at] == b"\n"

    def finish(self, counts):
        """The faults of a last line (docs/FORMATS.md, Snapshot and Capture)."""
        refuse_unless(counts == [self.entry - 1], "Count")
        refuse_unless(self.at == len(self.data), "Trailing")


def refuse_unless(condition, kind):
    """A rule of a text, and the fault where it is broken (docs/FORMATS.md, Formats)."""
    if not condition:
        raise Refused(kind)


def numbers(line, count):
    """The decimals after a line's first word (docs/FORMATS.md, Formats)."""
    fields = line.split(b" ")[1:]
    refuse_unless(len(fields) == count and all(DECIMAL.fullmatch(field) for field in fields), "Number")
    return [int(field) for field in fields]


def is_utf8(data):
    """Whether bytes are UTF-8 (RFC 3629)."""
    try:
        data.decode("utf-8")
    except UnicodeDecodeError:
        return False
    return True


def is_name(name):
    """Whether a file may have the name (docs/FORMATS.md, Snapshot)."""
    return is_utf8(name) and b"\0" not in name and not {b"", b".", b".."} & set(name.split(b"/"))


def folders_of(name):
    """The folders that a file lies in, without the root (docs/FORMATS.md, Snapshot)."""
    return [name[: slash.start()] for slash in re.finditer(b"/", name)]


def read_file(text, line, files):
    """One file of a snapshot (docs/FORMATS.md, Snapshot)."""
    time, name_length, length = numbers(line, 3)
    refuse_unless(time <= TIME_LIMIT, "Number")
    refuse_unless(length <= FILE_LIMIT and len(files) < FILES_LIMIT, "TooLarge")
    refuse_unless(1 <= name_length <= NAME_LIMIT, "Name")
    name, ended = text.owed(name_length)
    refuse_unless(ended and is_name(name), "Name")
    refuse_unless(next(reversed(files), b"") < name, "Order")
    refuse_unless(not any(folder in files for folder in folders_of(name)), "Conflict")
    body, ended = text.owed(length)
    refuse_unless(ended, "Length")
    files[name] = File(name, time, body)


def read_files(text, files):
    """The files of a snapshot, up to its end or first fault (docs/FORMATS.md, Snapshot)."""
    refuse_unless(text.line("Header") == b"haboob-snapshot 1", "Header")
    while True:
        text.entry += 1
        line = text.line("Kind")
        if line.startswith(b"end "):
            return text.finish(numbers(line, 1))
        refuse_unless(line.startswith(b"file "), "Kind")
        read_file(text, line, files)


def read_snapshot(data):
    """The files of a snapshot by their names (docs/FORMATS.md, Snapshot)."""
    text, files = Text(data, TEXT_LIMIT), {}
    try:
        read_files(text, files)
    except Refused as kind:
        raise Fault(4, "snapshot: entry %d: %s" % (text.entry, kind)) from None
    return files


def read_start(text):
    """The format and the start, from the first line (docs/FORMATS.md, Capture and Traffic)."""
    line = text.line("Header")
    form = next((form for form in FORMATS if line.startswith(form.begin)), None)
    refuse_unless(form is not None, "Header")
    _, start = numbers(line, 2)
    refuse_unless(start <= START_LIMIT, "Header")
    return form, start


class Connections:
    """What the records have said of the connections so far (docs/FORMATS.md, Capture and Traffic)."""

    def __init__(self, form):
        self.format = form
        self.tick = 0
        self.ends = collections.Counter()
        self.tiers = {}

    def check(self, conn):
        """A record of this number may come."""
        refuse_unless(conn <= self.format.last, "Connection")
        refuse_unless(self.format.again or conn not in self.ends, "Ended")

    def end(self, conn):
        """The number's connection is closed: what comes of the number later is of another life."""
        self.ends[conn] += 1
        self.tiers.pop(conn, None)


def read_tier(line, connections):
    """A connection that is given its tier (docs/FORMATS.md, Capture)."""
    conn, tier = numbers(line, 2)
    connections.check(conn)
    refuse_unless(tier < TIERS and conn not in connections.tiers, "Tier")
    connections.tiers[conn] = tier
    return Piece(connections.tick, conn, connections.ends[conn], b"", tier)


def read_record(text, line, connections):
    """A piece, or an end (docs/FORMATS.md, Capture)."""
    tick, conn, *lengths = numbers(line, 3 if line.startswith(b"piece ") else 2)
    refuse_unless(connections.tick <= tick <= TICK_LIMIT, "Tick")
    connections.check(conn)
    connections.tick, life = tick, connections.ends[conn]
    if not lengths:
        connections.end(conn)
        return Piece(tick, conn, life, b"", None)
    refuse_unless(1 <= lengths[0] <= PIECE_LIMIT, "Length")
    body, whole = text.owed(lengths[0])
    refuse_unless(whole, "Length")
    return Piece(tick, conn, life, body, connections.tiers.setdefault(conn, 0))


def read_pieces(text, form, pieces):
    """The records, up to the end or the first fault (docs/FORMATS.md, Capture)."""
    connections = Connections(form)
    while True:
        text.entry += 1
        line = text.line("Kind")
        if line.startswith(b"stop "):
            return text.finish(numbers(line, 1))
        if form.tiers and line.startswith(b"tier "):
            pieces.append(read_tier(line, connections))
            continue
        refuse_unless(line.startswith((b"piece ", b"end ")), "Kind")
        pieces.append(read_record(text, line, connections))


def read_recording(data):
    """A capture, or a traffic text (docs/FORMATS.md, Capture and Traffic). No format's limit is met in the first line,
    which has at most 64 bytes."""
    text, form, start, pieces = Text(data, len(data)), None, None, []
    try:
        form, start = read_start(text)
        text.end = min(len(data), form.bytes)
        read_pieces(text, form, pieces)
    except Refused as kind:
        return Recording(form, start, pieces, Fault(5, "capture: record %d: %s" % (text.entry, kind)))
    return Recording(form, start, pieces, None)


def record_text(record):
    """A record as it stands in version 2 and in a traffic text (docs/FORMATS.md, Capture)."""
    if record.body:
        return b"piece %d %d %d\n%s\n" % (record.tick, record.conn, len(record.body), record.body)
    if record.tier is not None:
        return b"tier %d %d\n" % (record.conn, record.tier)
    return b"end %d %d\n" % (record.tick, record.conn)


def upgrade(capture, to=TWO):
    """Status, line of a fault and output of an upgrade to a format, or to the text's own where that is a later one
    (docs/FORMATS.md, Capture and Traffic)."""
    form, start, records, fault = read_recording(capture)
    if form is None:
        return fault.status, fault.line, b""
    form = max(form, to, key=FORMATS.index)
    output = b"%s%d\n" % (form.begin, start) + b"".join(map(record_text, records))
    if fault:
        return fault.status, fault.line, output
    return 0, b"", output + b"stop %d\n" % len(records)


def rests(records):
    """How many bytes came on each connection and how many after its last message, and whether that closed it. Where it
    did not, the empty lines after the message are none of these bytes (docs/FORMATS.md, Inspection)."""
    texts = collections.defaultdict(bytes)
    for record in records:
        if record.body:
            texts[record.conn, record.life] += record.body
    for text in texts.values():
        end, last = ([(0, None)] + messages_of(text))[-1]
        closed = isinstance(last, Bad) or (last is not None and last.link == b"close")
        begin = end if closed else EMPTY_LINES.match(text, end).end()
        yield len(text), len(text) - begin, closed


def most_open(records):
    """The most connections that were open at once, each from its first piece to its end (docs/FORMATS.md,
    Inspection)."""
    now, most = set(), 0
    for record in records:
        if record.body:
            now.add(record.conn)
        elif record.tier is None:
            now.discard(record.conn)
        most = max(most, len(now))
    return most


def busiest(arrived):
    """The second in which the most messages arrived, the first of equals, and how many (docs/FORMATS.md,
    Inspection)."""
    counts = collections.Counter(piece.tick // TICKS_IN_SECOND for piece, _ in arrived)
    return min(((-count, second) for second, count in counts.items()), default=(0, 0))


def inspection_lines(form, start, records):
    """The lines of an inspection between the first and the last (docs/FORMATS.md, Inspection)."""
    pieces = [record for record in records if record.body]
    tiers = [record for record in records if not record.body and record.tier is not None]
    ticks = [record.tick for record in records if record.body or record.tier is None]
    arrived = arrivals(records)
    messages = [message for _, message in arrived]
    requests = [message for message in messages if isinstance(message, Request)]
    held = list(rests(records))
    after_close = [rest for _, rest, closed in held if closed and rest]
    unfinished = [rest for _, rest, closed in held if rest and not closed]
    count, second = busiest(arrived)
    methods = [request.method if request.method in (b"GET", b"HEAD") else b"other" for request in requests]
    yield "version %s" % form.version
    yield "start %d" % start
    yield "records %d" % len(records)
    yield "pieces %d" % len(pieces)
    yield "ends %d" % (len(records) - len(pieces) - len(tiers))
    yield "tiers %d" % len(tiers)
    yield "first %s" % (ticks[0] if ticks else "-")
    yield "last %s" % (ticks[-1] if ticks else "-")
    yield "connections %d" % len(held)
    if form.again:
        yield "open %d" % most_open(records)
    yield "bytes %d" % sum(size for size, _, _ in held)
    yield "messages %d" % len(messages)
    yield "requests %d" % len(requests)
    yield from ("method %s %d" % (name, methods.count(name.encode())) for name in ("GET", "HEAD", "other"))
    yield from ("protocol HTTP/1.%d %d" % (minor, [r.minor for r in requests].count(minor)) for minor in (0, 1))
    yield from ("fault %s %d" % (kind, messages.count(Bad(kind))) for kind in FAULTS)
    yield "after-close %d %d" % (sum(after_close), len(after_close))
    yield "unfinished %d %d" % (sum(unfinished), len(unfinished))
    yield "busiest %d %d" % (second, -count)


def inspect(capture):
    """Status, line of a fault and text of an inspection (docs/FORMATS.md, Inspection)."""
    form, start, records, fault = read_recording(capture)
    if form is None:
        return fault.status, fault.line, b""
    lines = ["haboob-inspection 1", *inspection_lines(form, start, records), "end"]
    text = "".join(line + "\n" for line in lines).encode()
    return (fault.status, fault.line, text) if fault else (0, b"", text)


def date_seconds(text):
    """The seconds since 1970 of a date in one of three formats, or None (RFC 9110, 5.6.7)."""
    found = next(filter(None, (form.fullmatch(text) for form in DATE_FORMATS)), None)
    if not found:
        return None
    part = {name: value.decode() for name, value in found.groupdict().items()}
    year, day, hour, minute, second = (int(part[name]) for name in ("year", "day", "hour", "minute", "second"))
    if len(part["year"]) == 2:
        year += 2000 if year < 70 else 1900
    try:
        date = datetime.datetime(year, MONTHS.index(part["month"]) + 1, day, hour, minute, second)
    except ValueError:
        return None
    right_day = DAYS[date.weekday()][:3] == part["day_name"][:3]
    return calendar.timegm(date.timetuple()) if right_day and year >= 1970 else None


def read_head(block):
    """Method, target, minor version and fields of a head, or None (RFC 9112, 3 and 5; docs/RULES.md, Framing)."""
    line = REQUEST_LINE.match(block)
    if not line or not is_utf8(line[2]):
        return None
    fields, at = [], line.end()
    while field := FIELD_LINE.match(block, at):
        fields.append((field[1].lower(), field[2].strip(b" \t")))
        at = field.end()
    if block[at:] not in (b"\n", b"\r\n") or len(fields) > FIELDS_LIMIT:
        return None
    return line[1], line[2], int(line[3]), fields


def values(fields, name):
    """The values of all lines of a name (RFC 9110, 5.2)."""
    return [value for field, value in fields if field == name]


def head_fault(minor, fields):
    """The first fault of a head, or None (docs/RULES.md, Framing)."""
    hosts = values(fields, b"host")
    if len(hosts) > 1 or (minor == 1 and not hosts) or not all(HOST.fullmatch(host) for host in hosts):
        return "Host"
    if values(fields, b"transfer-encoding"):
        return "Coding"
    lengths = values(fields, b"content-length")
    if len(lengths) > 1 or not all(length.isdigit() for length in lengths):
        return "Length"
    return "BodySize" if any(int(length) > BODY_LIMIT for length in lengths) else None


def link_of(minor, fields):
    """What the Connection field of the reply says: close, keep-alive or nothing (RFC 9112, 9.3)."""
    options = b",".join(values(fields, b"connection")).split(b",")
    options = [option.strip(b" \t").lower() for option in options]
    if b"close" in options:
        return b"close"
    if minor == 1:
        return None
    return b"keep-alive" if b"keep-alive" in options else b"close"


def modified_since_of(method, fields):
    """The date that If-Modified-Since gives, where it counts (RFC 9110, 13.1.3)."""
    dates = values(fields, b"if-modified-since")
    if method not in (b"GET", b"HEAD") or len(dates) != 1 or values(fields, b"if-none-match"):
        return None
    return date_seconds(dates[0])


def verdict(block):
    """What a block asks for, or its fault (docs/RULES.md, Framing)."""
    head = read_head(block)
    if head is None:
        return Bad("Block")
    method, target, minor, fields = head
    kind = head_fault(minor, fields)
    if kind:
        return Bad(kind)
    length = sum(int(length) for length in values(fields, b"content-length"))
    return Request(method, target, minor, link_of(minor, fields), modified_since_of(method, fields), length)


def messages_of(text):
    """The messages of a connection's text, each with the place of its end (docs/RULES.md, Framing)."""
    at, messages = 0, []
    while True:
        begin = EMPTY_LINES.match(text, at).end()
        found = BLOCK_END.search(text, begin, begin + BLOCK_LIMIT)
        if found:
            message = verdict(text[begin : found.end()])
            at = found.end() + (message.length if isinstance(message, Request) else 0)
        else:
            message = Bad("TooLong")
            at = begin + BLOCK_LIMIT
        if at > len(text):
            return messages
        messages.append((at, message))
        if isinstance(message, Bad) or message.link == b"close":
            return messages


def arrivals(pieces):
    """Piece and message of all messages in the order of their numbers (docs/RULES.md, Arrival)."""
    of_connection = {}
    for record, piece in enumerate(pieces):
        of_connection.setdefault((piece.conn, piece.life), []).append(record)
    found = []
    for records in of_connection.values():
        ends = list(itertools.accumulate(len(pieces[record].body) for record in records))
        for end, message in messages_of(b"".join(pieces[record].body for record in records)):
            found.append((records[bisect.bisect_left(ends, end)], end, message))
    found.sort(key=lambda arrival: arrival[:2])
    return [(pieces[record], message) for record, _, message in found]


def path_of(target):
    """The path of a target, or None where it isn't allowed (docs/RULES.md, Methods and targets)."""
    if b"#" in target:
        return None
    if target[:7].lower() == b"http://":
        authority = re.match(rb"[^/?]*", target[7:])[0]
        if not authority:
            return None
        target = target[7 + len(authority) :]
    elif not target.startswith(b"/"):
        return None
    path = target.partition(b"?")[0] or b"/"
    return None if BAD_ESCAPE.search(path) else path


def walk(segments):
    """The segments that are left of a path, or the status of the first fault (RFC 3986, 5.2.4)."""
    left = []
    for segment in segments:
        if not is_utf8(segment) or b"\0" in segment or b"/" in segment:
            return 404
        if segment == b".." and not left:
            return 400
        if segment == b"..":
            left.pop()
        elif segment not in (b"", b"."):
            left.append(segment)
    return left


def resolve(files, folders, method, target):
    """A status, with the file of a 200 or the location of a 301 (docs/RULES.md, Resolution)."""
    if method not in (b"GET", b"HEAD"):
        return (405 if method in OTHER_METHODS else 501), None
    path = path_of(target)
    if path is None:
        return 400, None
    segments = [urllib.parse.unquote_to_bytes(segment) for segment in path[1:].split(b"/")]
    left = walk(segments)
    if isinstance(left, int):
        return left, None
    name = b"/".join(left)
    if segments[-1] in (b"", b".", b".."):
        name = b"/".join(left + [b"index.html"])
    elif name in folders:
        return 301, b"".join(b"/" + urllib.parse.quote(segment, safe="").encode() for segment in left) + b"/"
    return (200, files[name]) if name in files else (404, None)


def answer_of(files, folders, request):
    """What is answered to a request that is admitted (docs/RULES.md, Resolution; RFC 9110, 13.1.3)."""
    status, what = resolve(files, folders, request.method, request.target)
    if status == 200 and request.modified_since is not None and what.time <= request.modified_since:
        return 304, what
    return status, what


def route_of(routes, target):
    """The first route that a request with this target is on, whatever its method; None where it is on none."""
    path = path_of(target) if routes else None
    left = walk([urllib.parse.unquote_to_bytes(segment) for segment in path[1:].split(b"/")]) if path else None
    if not isinstance(left, list):
        return None
    return next((route for route in routes if left[: len(route.segments)] == route.segments), None)


def charge(settings, request, status, what):
    """The service time of a request in ticks, what its response takes besides, and its pool (docs/RULES.md, Service
    times and admission)."""
    length = len(what.body) if status == 200 and request.method != b"HEAD" else 0
    route = route_of(settings["route"], request.target)
    if route:
        return route.cost + -(-length * route.kib // 1024), route.delay, route.pool
    if status not in (200, 304):
        return settings["costs.error"], settings["costs.delay"], 0
    return settings["costs.file"] + -(-length * settings["costs.kib"] // 1024), settings["costs.delay"], 0


def ranked(samples, percent):
    """The sample at the nearest rank of some percent of the samples (docs/RULES.md, Service times and admission)."""
    return sorted(samples)[-(-percent * len(samples) // 100) - 1]


class Tier:
    """The bucket, the samples and the controls of a tier (docs/RULES.md, Service times and admission)."""

    def __init__(self, settings, table):
        self.policy = {key: settings[table + "." + key] for key, *_ in SETTINGS[table]}
        self.credit = self.full = self.policy["depth"] * UNITS_IN_TOKEN
        self.tick = 0
        self.rejected = 0
        self.responses = []
        self.controls = []

    def accrued(self, begin, end):
        """The units that the ticks from one to another add (docs/RULES.md, Service times and admission)."""
        passed = bisect.bisect_right(self.controls, begin, key=lambda control: control.instant)
        rate = self.controls[passed - 1].rate if passed else self.policy["rate"]
        units = 0
        while passed < len(self.controls) and self.controls[passed].instant < end:
            units += (self.controls[passed].instant - begin) * rate
            begin, rate = self.controls[passed].instant, self.controls[passed].rate
            passed += 1
        return units + (end - begin) * rate

    def credit_at(self, tick):
        """The units that a request finds which comes at a tick."""
        return min(self.full, self.credit + self.accrued(self.tick, tick))

    def rate_at(self, tick):
        """The rate in force at a tick: a control's rate holds from its instant on."""
        passed = [control.rate for control in self.controls if control.instant <= tick]
        return passed[-1] if passed else self.policy["rate"]

    def takes(self, tick):
        """Whether a request that comes at a tick finds a token, which it takes."""
        self.credit = self.credit_at(tick)
        self.tick = tick
        if self.credit < UNITS_IN_TOKEN:
            self.rejected += 1
            return False
        self.credit -= UNITS_IN_TOKEN
        return True

    def serve(self, completion, sample):
        """Takes note of a request that is served: its response stands in the order of the completions, behind those of
        the same tick, and the controls from it on are made again."""
        place = bisect.bisect_right(self.responses, completion, key=lambda response: response[0])
        self.responses.insert(place, (completion, sample))
        every = self.policy["every"]
        del self.controls[place // every :]
        for count in range((place // every + 1) * every, len(self.responses) + 1, every):
            self.controls.append(self.next_control(count))

    def next_control(self, count):
        """The control once so many responses are complete (docs/RULES.md, Service times and admission)."""
        policy = self.policy
        before = self.controls[-1] if self.controls else Control(0, 0, 0, policy["rate"])
        last = self.responses[max(count - policy["window"], 0) : count]
        percentile = ranked([sample for _, sample in last], 90)
        smoothed = (policy["smoothing"] * before.smoothed + (1000 - policy["smoothing"]) * percentile) // 1000
        rate = before.rate
        if smoothed > policy["target"]:
            rate = max(policy["rate_min"], 100 * rate // policy["down"])
        elif 100 * smoothed < policy["low"] * policy["target"]:
            rate = min(policy["rate_max"], rate + policy["up"])
        return Control(last[-1][0], percentile, smoothed, rate)


class PoolFigures:
    """What a pool has done (docs/FORMATS.md, Report)."""

    def __init__(self):
        self.starts = []  # of the admitted requests, in their order, in which they never fall
        self.busy = 0
        self.longest = 0

    def count(self, tick, start, service_time):
        """Count a request that comes at a tick and is begun at `start`: all wait that are begun later."""
        self.starts.append(start)
        self.busy += service_time
        self.longest = max(self.longest, len(self.starts) - bisect.bisect_right(self.starts, tick))


class Admission:
    """Who is turned away, and the servers of each pool (docs/RULES.md, Service times and admission)."""

    def __init__(self, settings):
        self.tiers = [Tier(settings, table) for table in POLICY_TABLES]
        self.tick = 0
        self.finish = 0
        servers = [settings["costs.servers"]] + [pool.servers for pool in settings["pool"]]
        self.free = [[0] * count for count in servers]
        self.figures = [PoolFigures() for _ in servers]
        self.samples = []

    def offer(self, tier, tick, service_time, delay, pool):
        """Whether a request is admitted."""
        self.tick = tick
        if not self.tiers[tier].takes(tick):
            return False
        self.finish = max(tick, self.free_at(pool)) + service_time
        self.figures[pool].count(tick, self.finish - service_time, service_time)
        heapq.heapreplace(self.free[pool], self.finish)
        self.samples.append(self.finish - tick + delay)
        self.tiers[tier].serve(self.finish + delay, self.samples[-1])
        return True

    def free_at(self, pool):
        """The tick at which the first of a pool's servers is free."""
        return self.free[pool][0]

    def shown_controls(self, tier):
        """The controls of a tier up to the last offered tick of any (docs/DECISIONS.md, Controls)."""
        return [control for control in self.tiers[tier].controls if control.instant <= self.tick]


@functools.lru_cache
def date_text(seconds):
    """A date as IMF-fixdate (RFC 9110, 5.6.7)."""
    return email.utils.formatdate(seconds, usegmt=True).encode()


def media_type(name):
    """The media type of a file (docs/FORMATS.md, Replies)."""
    _, dot, extension = name.rpartition(b"/")[2].rpartition(b".")
    return MEDIA_TYPES.get(extension.lower() if dot else b"", b"application/octet-stream")


def reply_text(status, what, head, date, link, retry_after):
    """A reply (docs/FORMATS.md, Replies)."""
    media, body = b"text/plain", b"%d %s\n" % (status, REASONS[status])
    if status == 200:
        media, body = media_type(what.name), what.body
    lines = [b"HTTP/1.1 %d %s" % (status, REASONS[status]), b"Date: " + date_text(date)]
    if status != 304:
        lines += [b"Content-Type: " + media, b"Content-Length: %d" % len(body)]
    if status in (200, 304):
        lines.append(b"Last-Modified: " + date_text(min(what.time, date)))
    if status == 301:
        lines.append(b"Location: " + what)
    if status == 405:
        lines.append(b"Allow: GET, HEAD")
    if status == 503:
        lines.append(b"Retry-After: %d" % retry_after)
    if link:
        lines.append(b"Connection: " + link)
    text = b"\r\n".join(lines) + b"\r\n\r\n"
    return text if head or status == 304 else text + body


def answers(files, settings, start, arrived, admission):
    """Status and reply of each message, in the order of their numbers (docs/RULES.md, Arrival and Replies)."""
    folders = {folder for name in files for folder in folders_of(name)}
    for piece, message in arrived:
        if isinstance(message, Bad):
            status, what, head, link = FAULTS[message.kind], None, False, b"close"
        else:
            status, what = answer_of(files, folders, message)
            head, link = message.method == b"HEAD", message.link
            if not admission.offer(piece.tier, piece.tick, *charge(settings, message, status, what)):
                status = 503
        date = start + piece.tick // TICKS_IN_SECOND
        yield status, reply_text(status, what, head, date, link, settings["page.retry_after"])


def escaped(data):
    """Bytes as a field of the table: visible ASCII but quote, percent sign, comma and semicolon stands as it is, except
    for a first byte by which a spreadsheet tells a formula."""
    return "".join(chr(byte) if 0x21 <= byte <= 0x7E and byte not in b'"%,;' and (place or byte not in b"=+-@")
                   else "%%%02X" % byte for place, byte in enumerate(data))


def rows(files, settings, arrived, admission):
    """Status and row of each message, in the order of their numbers: what it found, and what became of it. A column
    says the pool where there are several."""
    several = bool(settings["pool"])
    folders = {folder for name in files for folder in folders_of(name)}
    for number, (piece, message) in enumerate(arrived):
        if isinstance(message, Bad):
            status, fields = FAULTS[message.kind], ["bypassed"] + [""] * (9 if several else 8)
        else:
            status, what = answer_of(files, folders, message)
            cost, delay, pool = charge(settings, message, status, what)
            tier = admission.tiers[piece.tier]
            found = [cost, tier.credit_at(piece.tick), tier.rate_at(piece.tick)]
            waited = [max(0, admission.free_at(pool) - piece.tick)] + [pool] * several
            if admission.offer(piece.tier, piece.tick, cost, delay, pool):
                fields = ["admitted"] + found + [admission.finish - cost, admission.finish]
            else:
                status, fields = 503, ["rejected"] + found + ["", ""]
            fields += waited + [escaped(message.method), escaped(message.target)]
        yield status, ",".join(map(str, [number, piece.conn, piece.tick, piece.tier, status] + fields))


def report_text(form, arrived, statuses, admission):
    """The report of a run (docs/FORMATS.md, Report): of a traffic text the last controls of each tier are listed."""
    offered = [not isinstance(message, Bad) for _, message in arrived]
    rejected = [number for number, status in enumerate(statuses) if status == 503]
    samples = admission.samples
    lines = ["haboob-report 1", "messages %d" % len(arrived), "bypassed %d" % offered.count(False)]
    lines += ["admitted %d" % len(samples), "rejected %d" % len(rejected)]
    lines += ["status %d %d" % (status, statuses.count(status)) for status in REASONS]
    lines += ["p%d %s" % (percent, ranked(samples, percent) if samples else "-") for percent in (50, 90, 99)]
    for number, tier in enumerate(admission.tiers):
        controls = admission.shown_controls(number)
        if number == 0:
            lines.append("controls %d" % len(controls))
        elif tier.responses or tier.rejected:
            lines.append("tier %d %d %d %d" % (number, len(tier.responses), tier.rejected, len(controls)))
        listed = list(enumerate(controls, 1))[-CONTROLS_SHOWN:] if form.again else enumerate(controls, 1)
        lines += ["control %d %d %d %d %d" % (place, *control) for place, control in listed]
    if len(admission.figures) > 1:
        pools = enumerate(admission.figures)
        lines += ["pool %d %d %d %d" % (number, len(pool.starts), pool.busy, pool.longest) for number, pool in pools]
    lines += ["reject %d" % number for number in rejected]
    return "".join(line + "\n" for line in lines + ["end"]).encode()


def values_in(value, path=()):
    """All values in a document with their paths, which hold no places of lists (docs/DECISIONS.md, Settings)."""
    yield path, value
    if isinstance(value, dict):
        for key, item in value.items():
            yield from values_in(item, path + (key,))
    elif isinstance(value, list):
        for item in value:
            yield from values_in(item, path)


def read_document(data):
    """The tables of a document with known keys alone (docs/FORMATS.md, Settings; TOML 1.0)."""
    refuse_unless(len(data) <= SETTINGS_LIMIT, "Text")
    try:
        document = tomllib.loads(data.decode())
    except ValueError:
        raise Refused("Text") from None
    found = list(values_in(document))
    refuse_unless(all(-(2**63) <= value < 2**63 for _, value in found if type(value) is int), "Text")
    tables = SETTINGS | {"pool": POOL, "route": ROUTE}
    known = {(), *((table,) for table in tables), *((table, key[0]) for table in tables for key in tables[table])}
    refuse_unless(all(path in known for path, _ in found), "Unknown")
    return document


def checked_value(name, value, default, bounds):
    """The value of a key that is of its shape and in its range (docs/FORMATS.md, Settings)."""
    items = value if isinstance(value, list) else [value]
    refuse_unless(type(value) is type(default) and all(type(item) is int for item in items), "Shape " + name)
    refuse_unless(not bounds or bounds[0] <= value <= bounds[1], "Range " + name)
    return value


def is_floor(cuts, workers, capacities, steps):
    """Whether the lists of a floor belong together (docs/FORMATS.md, Settings)."""
    rising = all(before < after for before, after in zip([0] + cuts, cuts))
    within = all(1 <= number <= 16 for number in workers) and all(1 <= number <= 4096 for number in capacities)
    return rising and cuts[-1:] == [steps] and len(cuts) == len(workers) == len(capacities) and within


def read_values(document):
    """The value of each key that a document gives or leaves out (docs/FORMATS.md, Settings)."""
    settings = {}
    for table, keys in SETTINGS.items():
        given = document.get(table, {})
        refuse_unless(isinstance(given, dict), "Shape " + table)
        for key, _, default, *bounds in keys:
            name = table + "." + key
            default = settings["policy." + key] if table in POLICY_TABLES[1:] else default
            settings[name] = checked_value(name, given.get(key, default), default, bounds)
    return settings


def prefix_segments(text):
    """The segments of a prefix, or None where it isn't written as one (docs/FORMATS.md, Settings)."""
    first, *segments = text.encode().split(b"/")
    if segments[-1:] == [b""]:
        segments.pop()
    elif not segments:
        return None
    return None if first or {b"", b".", b".."} & set(segments) else segments


def read_pools(document):
    """The pools of a document, in their order (docs/FORMATS.md, Settings)."""
    tables, pools = document.get("pool", []), []
    refuse_unless(isinstance(tables, list), "Shape pool")
    refuse_unless(len(tables) <= POOLS_LIMIT, "Range pool")
    for table in tables:
        refuse_unless(isinstance(table, dict), "Shape pool")
        name, servers = table.get("name"), table.get("servers")
        refuse_unless(isinstance(name, str), "Shape pool.name")
        refuse_unless(name not in [pool.name for pool in pools], "Range pool.name")
        refuse_unless(type(servers) is int, "Shape pool.servers")
        refuse_unless(POOL[1][2] <= servers <= POOL[1][3], "Range pool.servers")
        pools.append(Pool(name, servers))
    return pools


def read_pool(table, pools):
    """The number of the pool that a route names; 0 of one that names none (docs/FORMATS.md, Settings)."""
    name, names = table.get("pool"), [pool.name for pool in pools]
    if name is None:
        return 0
    refuse_unless(isinstance(name, str), "Shape route.pool")
    refuse_unless(name in names, "Range route.pool")
    return names.index(name) + 1


def read_route(table, delay, pools):
    """The route of a table, whose delay is this where it gives none (docs/FORMATS.md, Settings)."""
    refuse_unless(isinstance(table, dict), "Shape route")
    text = table.get("prefix")
    refuse_unless(isinstance(text, str), "Shape route.prefix")
    segments = prefix_segments(text)
    refuse_unless(segments is not None, "Range route.prefix")
    values = {"kib": 0, "delay": delay} | table
    for key, _, *bounds in ROUTE[1:4]:
        refuse_unless(type(values.get(key)) is int, "Shape route." + key)
        refuse_unless(bounds[0] <= values[key] <= bounds[1], "Range route." + key)
    return Route(text, segments, values["cost"], values["kib"], values["delay"], read_pool(table, pools))


def read_routes(document, delay, pools):
    """The routes of a document, in their order; each pool is named by one (docs/FORMATS.md, Settings)."""
    tables = document.get("route", [])
    refuse_unless(isinstance(tables, list), "Shape route")
    refuse_unless(len(tables) <= ROUTES_LIMIT, "Range route")
    routes = [read_route(table, delay, pools) for table in tables]
    refuse_unless({route.pool for route in routes} >= set(range(1, len(pools) + 1)), "Range pool.name")
    return routes


def read_settings(data):
    """The settings of a document (docs/FORMATS.md, Settings)."""
    try:
        document = read_document(data)
        settings = read_values(document)
        for side, steps in (("front", 3), ("back", 2)):
            lists = [settings["floor.%s_%s" % (side, part)] for part in ("cuts", "workers", "capacities")]
            refuse_unless(is_floor(*lists, steps), "Range floor." + side)
        for table in POLICY_TABLES:
            least, rate, most = (settings[table + "." + key] for key in ("rate_min", "rate", "rate_max"))
            refuse_unless(least <= rate <= most, "Range %s.rate" % table)
        settings["pool"] = read_pools(document)
        settings["route"] = read_routes(document, settings["costs.delay"], settings["pool"])
    except Refused as kind:
        raise Fault(3, "settings: %s" % kind) from None
    return settings


def quoted(text):
    """A text between quotes (TOML 1.0, basic strings)."""
    signs = {'"': '\\"', "\\": "\\\\"} | {chr(code): "\\u%04x" % code for code in [*range(32), 127]}
    return '"%s"' % "".join(signs.get(sign, sign) for sign in text)


def written(keys, values):
    """Lines of keys with these values, each below its comment; the last keys may have none."""
    pairs = zip(keys, values)
    return [line for (key, comment, *_), value in pairs for line in ("# " + comment, "%s = %s" % (key, value))]


def settings_text(data):
    """Status, line of a fault, and the settings of a document written out (docs/FORMATS.md, Settings)."""
    try:
        settings = read_settings(data)
    except Fault as fault:
        return fault.status, fault.line, b""
    lines = ["# Each key with the value that is in force, below its unit, its range and its meaning."]
    for table in SETTINGS:
        lines += ["", "[%s]" % table]
        for key, comment, *_ in SETTINGS[table]:
            lines += ["# " + comment, "%s = %s" % (key, settings[table + "." + key])]
    for pool in settings["pool"]:
        lines += ["", "[[pool]]"] + written(POOL, (quoted(pool.name), pool.servers))
    for route in settings["route"]:
        names = [quoted(settings["pool"][route.pool - 1].name)] if route.pool else []
        lines += ["", "[[route]]"] + written(ROUTE, (quoted(route.text), route.cost, route.kib, route.delay, *names))
    return 0, b"", "".join(line + "\n" for line in lines).encode()


def replies_text(arrived, replies, fault):
    """The replies, with the last line where there is no fault (docs/FORMATS.md, Replies)."""
    parts = [b"haboob-replies 1\n"]
    for number, ((piece, _), reply) in enumerate(zip(arrived, replies)):
        parts.append(b"reply %d %d %d\n%s\n" % (number, piece.conn, len(reply), reply))
    return b"".join(parts) + (b"" if fault else b"stop %d\n" % len(replies))


def tell_replies(files, settings, start, arrived, admission, fault):
    """The statuses of the messages, and the text of their replies."""
    answered = list(answers(files, settings, start, arrived, admission))
    return [status for status, _ in answered], replies_text(arrived, [reply for _, reply in answered], fault)


def tell_rows(files, settings, start, arrived, admission, fault):
    """The statuses of the messages, and the table of decisions."""
    table = list(rows(files, settings, arrived, admission))
    lines = [HEADING % ("pool," if settings["pool"] else "")] + [row for _, row in table]
    return [status for status, _ in table], "".join(line + "\n" for line in lines).encode()


def faster(arrived, speed):
    """The same messages at so many percent of their speed (docs/RULES.md, Arrival)."""
    return [(piece._replace(tick=piece.tick * 100 // speed), message) for piece, message in arrived]


def run(tell, snapshot, capture, settings, speed):
    """Status, line of a fault, what is written (None where the file stays as it was) and report (docs/FORMATS.md)."""
    text = None
    try:
        settings = read_settings(settings)
        files = read_snapshot(snapshot)
        text = b""
        form, start, pieces, fault = read_recording(capture)
        arrived = faster(arrivals(pieces), speed)
        if form and len(arrived) > form.messages:
            arrived, fault = arrived[:form.messages], Fault(5, "capture: message %d: TooMany" % form.messages)
        admission = Admission(settings)
        statuses, text = tell(files, settings, start, arrived, admission, fault)
        if fault:
            raise fault
        return 0, b"", text, report_text(form, arrived, statuses, admission)
    except Fault as fault:
        return fault.status, fault.line, text, b""


def replay(snapshot, capture, settings=b"", speed=100):
    """Status, line of a fault, replies and report, at a speed in percent."""
    return run(tell_replies, snapshot, capture, settings, speed)


def explain(snapshot, capture, settings=b"", speed=100):
    """Status, line of a fault, table of decisions and report, at a speed in percent."""
    return run(tell_rows, snapshot, capture, settings, speed)


def main():
    parser = parser_of(__doc__, runs_program=False)
    written = parser.add_mutually_exclusive_group()
    written.add_argument("--replies", help="the file that the replies are written to")
    written.add_argument("--messages", help="the file that the table of decisions is written to")
    parser.add_argument("--speed", type=int, default=100, metavar="PERCENT")
    parser.add_argument("snapshot")
    parser.add_argument("capture")
    parser.add_argument("settings", nargs="?")
    words = parser.parse_args()
    settings = contents(words.settings) if words.settings is not None else b""
    name, call = (words.replies, replay) if words.messages is None else (words.messages, explain)
    status, line, text, report = call(contents(words.snapshot), contents(words.capture), settings, words.speed)
    if name is not None and text is not None:
        with open(name, "wb") as file:
            file.write(text)
    sys.stdout.buffer.write(report)
    sys.stderr.buffer.write(line)
    return status


if __name__ == "__main__":
    sys.exit(main())
