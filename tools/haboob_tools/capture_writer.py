"""Writes captures and traffic texts (docs/FORMATS.md, Capture and Traffic), and holds what the command lines of the
capture tools share."""
import argparse
import collections
import datetime
import heapq
import ipaddress
import re

from .tool_run import Fault

START_LIMIT = 4_102_444_800  # seconds since 1970
TICK_LIMIT = 10**15  # ticks, which are microseconds
CONNECTIONS_LIMIT = 65_536  # connections, numbered 0 to 65,535
PIECE_LIMIT = 65_536  # bytes
STOP_ROOM = 32  # bytes that are kept free for the last line
BLOCK_LIMIT = 8_192  # bytes of a head
BODY_DIGITS = 5  # digits of the longest body that is read, 65,536 bytes
TICKS_IN_SECOND = 10**6
NEEDED_FIELDS = ("host", "content-length", "transfer-encoding", "connection")

# A format: its word for --format, what it is called, how its first line begins (each has as many characters), whether a
# number is free again after its end, and the most messages and bytes.
Format = collections.namedtuple("Format", "word name begin again messages bytes")
CAPTURE = Format("2", "capture", b"haboob-capture 2 ", False, 1_048_576, 1_073_741_824)
TRAFFIC = Format("traffic", "traffic text", b"haboob-traffic 1 ", True, 536_870_912, 1_125_899_906_842_624)
FORMATS = (CAPTURE, TRAFFIC)

EMPTY_LINES = re.compile(rb"(?:\r?\n)*")
BLOCK_END = re.compile(rb"\n\r?\n")
TARGET = re.compile(rb"(?:\r?\n)*[^ \r\n]+ ([^ \r\n]+)[ \r\n]")
CONTENT_LENGTH = re.compile(rb"^content-length:[ \t]*([0-9]+)[ \t]*\r?$", re.IGNORECASE | re.MULTILINE)


class MessageCounter:
    """Counts the messages of one connection's text (docs/RULES.md, Framing).

    A message is counted when its head ends, and heads aren't read by their grammar. So the count is that of the rules
    as long as each head is sound and its body comes; where one isn't, the server closes the connection and counts no
    more, while this goes on: it never counts too few.
    """

    def __init__(self):
        self.held = b""  # what is there of a head that hasn't ended
        self.body = 0  # bytes of a body that are still to come

    def feed(self, data):
        """Takes the connection's next bytes, and returns how many heads end in them."""
        text, at, ended = self.held + data, 0, 0
        while True:
            skipped = min(self.body, len(text) - at)
            self.body -= skipped
            begin = EMPTY_LINES.match(text, at + skipped).end()
            found = BLOCK_END.search(text, begin, begin + BLOCK_LIMIT)
            if not found and len(text) < begin + BLOCK_LIMIT:
                self.held = text[begin:]
                return ended
            at = found.end() if found else begin + BLOCK_LIMIT
            self.body = body_length(text[begin:at])
            ended += 1


def body_length(block):
    """The bytes of the body after a head: 0 without one sound Content-Length line of at most 65,536 or so."""
    lengths = CONTENT_LENGTH.findall(block)
    digits = lengths[0].lstrip(b"0") if len(lengths) == 1 else b""
    return int(digits) if 0 < len(digits) <= BODY_DIGITS else 0


class CaptureWriter:
    """Writes one capture or traffic text, record by record, so that its rules hold (docs/FORMATS.md, Capture and
    Traffic; docs/RULES.md, Limits).

    Where no format is asked for it writes a capture, which becomes a traffic text at the first record that no capture
    has room for: every capture is one but for its first line, and the numbers of those that have ended are then free.
    Where a record would pass a limit (the greatest tick, the messages, the bytes of the text), it and all records after
    it are left out and counted.
    """

    def __init__(self, file, first, word=None):
        """Takes a file of bytes, the time of tick 0 in microseconds since 1970, and the word of a format, if one is
        asked for; writes the first line. A file whose begin can't be written again, as a pipe, gets a capture then."""
        start = first // TICKS_IN_SECOND
        if start > START_LIMIT:
            raise Fault("the first time, %s, is above %d seconds since 1970" % (time_of_day(first), START_LIMIT))
        self.file = file
        self.first = first
        self.form = next((form for form in FORMATS if form.word == word), CAPTURE)
        self.may_change = word is None and file.seekable()
        self.changed = None  # the limit of a capture for which it became a traffic text
        self.tick = 0  # that of the last record
        self.records = 0
        self.raised = 0  # records whose ticks fell, and were raised to that of the record before
        self.connections = 0
        self.used = 0  # numbers that were given, which are those below
        self.open = set()  # the numbers of the connections that haven't ended
        self.free = []  # a heap of the numbers of those that have
        self.messages = 0
        self.bytes = 0  # of the pieces
        self.counters = {}  # a MessageCounter for each connection that hasn't ended, and sent pieces
        self.full = None  # the limit that was met
        self.cut = None  # the first limit that left something out, and the tick of that
        self.left_out = collections.Counter()
        first_line = b"%b%d\n" % (self.form.begin, start)
        self.size = len(first_line)
        self.file.write(first_line)

    def connect(self, tick, tier=0):
        """The number of a new connection, which gets this tier: the next from 0, in a traffic text the smallest that no
        connection has. None, counted as left out, where there is none. It is wanted for a record at this tick."""
        if self.used == CONNECTIONS_LIMIT:
            self._become_traffic("%d connections" % CONNECTIONS_LIMIT)
        number = self._free_number()
        if number is None:
            at_once = " at once" if self.form.again else ""
            self._leave_out("connections", "%d connections%s" % (CONNECTIONS_LIMIT, at_once), tick)
            return None
        self.open.add(number)
        self.connections += 1
        if tier:
            self._write(None, b"tier %d %d\n" % (number, tier), 0)
        return number

    def _free_number(self):
        """The smallest number that may be given; None where there is none. Those that have ended are below the others.
        """
        if self.form.again and self.free:
            return heapq.heappop(self.free)
        if self.used == CONNECTIONS_LIMIT:
            return None
        self.used += 1
        return self.used - 1

    def piece(self, tick, number, data):
        """Writes what an open connection sends at a tick, in pieces of at most PIECE_LIMIT bytes."""
        self._need_open(number)
        counter = self.counters.setdefault(number, MessageCounter())
        for at in range(0, len(data), PIECE_LIMIT):
            part = data[at:at + PIECE_LIMIT]
            self._write_piece(tick, number, part, counter.feed(part))

    def message(self, tick, number, head):
        """Writes a whole message, a head without a body, of an open connection that sends nothing but such."""
        self._need_open(number)
        self._write_piece(tick, number, head, 1)

    def _need_open(self, number):
        """Refuses a record of a number that no connection has."""
        if number not in self.open:
            raise ValueError("no connection has the number %d" % number)

    def _write_piece(self, tick, number, part, messages):
        """Writes a piece that ends so many messages."""
        raised = tick if tick > self.tick else self.tick
        if self._write(tick, b"piece %d %d %d\n%b\n" % (raised, number, len(part), part), messages):
            self.bytes += len(part)

    def end(self, tick, number):
        """Writes that an open connection ends at a tick; its number is free then."""
        self._need_open(number)
        self._write(tick, b"end %d %d\n" % (max(tick, self.tick), number), 0)
        self.counters.pop(number, None)
        self.open.remove(number)
        heapq.heappush(self.free, number)

    def stop(self):
        """Writes the last line."""
        self.file.write(b"stop %d\n" % self.records)

    def _write(self, tick, text, messages):
        """Writes a record that ends so many messages, and tells whether it was written. A tier has no tick."""
        raised = tick if tick is not None and tick > self.tick else self.tick
        size, messages = self.size + len(text), self.messages + messages
        if self.full or raised > TICK_LIMIT or messages > self.form.messages or size + STOP_ROOM > self.form.bytes:
            self.full = self.full or self._limit(raised, messages, size)
            if self.full:
                self._leave_out("records", self.full, raised)
                return False
        self.raised += tick is not None and raised > tick
        self.tick, self.messages, self.size = raised, messages, size
        self.records += 1
        self.file.write(text)
        return True

    def _limit(self, tick, messages, size):
        """The limit that a record passes after which there were so many messages and bytes; None where it passes none
        of a traffic text, which it made of a capture."""
        if tick > TICK_LIMIT:
            return "tick %d" % TICK_LIMIT
        many = messages > self.form.messages
        limit = "%d messages" % self.form.messages if many else "%d bytes of text" % self.form.bytes
        if not self._become_traffic(limit) or messages > self.form.messages or size + STOP_ROOM > self.form.bytes:
            return limit
        return None

    def _become_traffic(self, limit):
        """Makes a traffic text of a capture that has met a limit, where that may be; tells whether it did."""
        if not self.may_change:
            return False
        self.may_change, self.form, self.changed = False, TRAFFIC, limit
        place = self.file.tell()
        self.file.seek(0)
        self.file.write(self.form.begin)
        self.file.seek(place)
        return True

    def _leave_out(self, what, limit, tick):
        """Counts what a limit leaves out."""
        self.left_out["%s beyond %s" % (what, limit)] += 1
        self.cut = self.cut or (limit, tick)

    def faults(self):
        """What makes the text less than the input, in words that say what to do about it; a list of texts."""
        if self.cut is None:
            return []
        limit, tick = self.cut
        larger = "" if self.form.again or tick > TICK_LIMIT else ", or a traffic text by --format traffic"
        return ["a %s ends at %s: cut at tick %d, %s (%s); take a part of the time by --from and --to%s" % (
            self.form.name, limit, tick, time_of_day(self.first + tick), listed(self.left_out), larger)]


def time_of_day(time):
    """A time in microseconds since 1970 as 2026-11-23T05:50:00.000000Z; as a number after the year 9999."""
    try:
        moment = datetime.datetime(1970, 1, 1) + datetime.timedelta(microseconds=time)
    except OverflowError:
        return "%d microseconds since 1970" % time
    return moment.isoformat(timespec="microseconds") + "Z"


class TierRule:
    """A tier, 0 to 3, and the clients or targets that it is for: a network, a prefix, or a pattern of targets."""

    def __init__(self, about, wanted, tier):
        self.about, self.wanted, self.tier = about, wanted, tier

    def fits(self, value):
        """Whether a connection's client or target, by what the rule is about, is one that it is for."""
        if self.about == "client":
            return value in self.wanted
        return value.startswith(self.wanted) if isinstance(self.wanted, bytes) else self.wanted.search(value)


def tier_rule(text):
    """The rule of a word PATTERN=N of the command line."""
    pattern, _, tier = text.rpartition("=")
    if not pattern or tier not in ("0", "1", "2", "3"):
        raise argparse.ArgumentTypeError("%r is no PATTERN=N with N from 0 to 3" % text)
    try:
        if pattern.startswith("/"):
            return TierRule("target", pattern.encode(), int(tier))
        if pattern.startswith("~"):
            return TierRule("target", re.compile(pattern[1:].encode()), int(tier))
        return TierRule("client", ipaddress.ip_network(pattern, strict=False), int(tier))
    except (ValueError, RecursionError, OverflowError, re.error) as error:
        raise argparse.ArgumentTypeError("%r: %s" % (text, error)) from None


def tier_of(rules, client, target):
    """The tier of the first rule that fits a connection's client or target (None where it isn't known), or 0."""
    known = {"client": client, "target": target}
    return next((rule.tier for rule in rules if known[rule.about] is not None and rule.fits(known[rule.about])), 0)


def client_of(address):
    """The address of a client, from its text or its bytes; None where it is none."""
    try:
        return ipaddress.ip_address(address)
    except ValueError:
        return None


def target_of(data):
    """The target of the request that begins a connection's bytes; None where its request line isn't whole."""
    found = TARGET.match(data)
    return found and found[1]


def moment(text):
    """A time of the command line in microseconds since 1970: seconds since 1970, or ISO 8601 (UTC without a zone)."""
    try:
        if re.fullmatch(r"[0-9]{1,12}", text):
            return int(text) * TICKS_IN_SECOND
        time = datetime.datetime.fromisoformat(text.replace("Z", "+00:00"))
    except ValueError:
        raise argparse.ArgumentTypeError("%r is no time such as 2026-11-23T05:50:00Z" % text) from None
    zone = time.tzinfo or datetime.timezone.utc
    since = time.replace(tzinfo=zone) - datetime.datetime(1970, 1, 1, tzinfo=datetime.timezone.utc)
    return since // datetime.timedelta(microseconds=1)


def count(text):
    """A whole number from 1 of the command line."""
    if not re.fullmatch(r"[1-9][0-9]{0,8}", text):
        raise argparse.ArgumentTypeError("%r is no number from 1" % text)
    return int(text)


def field_name(text):
    """The name of a field of the command line, as bytes."""
    if not re.fullmatch(r"[!#$%&'*+\-.^_`|~0-9A-Za-z]+", text):
        raise argparse.ArgumentTypeError("%r is no name of a field" % text)
    if text.lower() in NEEDED_FIELDS:
        raise argparse.ArgumentTypeError("%r: a request isn't the same message without it" % text)
    return text.encode()


def add_common_options(parser):
    """The options that choose a part of the input, and the format and the name of what is written."""
    parser.add_argument("--format", choices=[form.word for form in FORMATS],
                        help="a capture of version 2, or a traffic text (see below); without it a capture, or a "
                        "traffic text where no capture has room")
    parser.add_argument("--from", dest="begin", type=moment, default=0, metavar="TIME",
                        help="leave out what is before this time: 2026-11-23T05:50:00Z, or seconds since 1970")
    parser.add_argument("--to", dest="end", type=moment, default=None, metavar="TIME",
                        help="leave out what is at this time or after it")
    parser.add_argument("--sample", type=count, default=1, metavar="N",
                        help="take each Nth connection only, to see what is asked: such a capture is no measure of "
                        "admission (see below)")
    parser.add_argument("--tier", type=tier_rule, action="append", default=[], metavar="PATTERN=N",
                        help="the tier, 0 to 3, of connections that fit (see below); may be given several times")
    parser.add_argument("--without", type=field_name, action="append", default=[], metavar="FIELD",
                        help="take this field out of the requests, such as If-None-Match; may be given several times")
    parser.add_argument("--lenient", action="store_true",
                        help="write the capture also where it is less than the input, and exit with 0")
    parser.add_argument("--output", required=True, metavar="FILE", help="the capture or traffic text that is written")


SAMPLE_EXPLAINED = """\
--sample N shows what is asked, by whom and how often, in a capture that is small enough. It is never
for admission: the fewer requests meet one another less often. A fifth of some traffic turned 8% away
where all of it turned 44% away behind the same settings. For admission take a part of the time by
--from and --to.

"""
SAMPLE_NOTE = ("--sample shows what is asked, and nothing of admission: a fifth of the traffic is turned away far less "
               "than all of it; for that take a part of the time by --from and --to")

FORMATS_EXPLAINED = """\
A capture has at most 65,536 connections in all, 1,048,576 messages and 1 GiB. What has more is
written as a traffic text, in which a number is free again after its connection's end: 65,536
connections at once, 536,870,912 messages and 1 PiB. --format says which of the two is written in any
case. An output that can't be written again at its begin, a pipe, gets a capture without it.

"""

TIERS_EXPLAINED = """\
--tier PATTERN=N gives connections the tier N. The first that fits a connection counts; one that
none fits is of tier 0. PATTERN is
  10.0.0.7, 10.1.0.0/16, fd00::/8   the client's address, or a network that it is in
  /api/                             a prefix of the target, as it stands in the request line
  ~[.](css|js)$                     a regular expression (Python's) that is found in the target
"""


def listed(counts):
    """Counts by their names, in words; "nothing" of none."""
    return ", ".join("%d %s" % (number, name) for name, number in counts.items() if number) or "nothing"


def summary(writer, left_out, remarks):
    """One line: what was written, then counts of what was left out and of what is to be known, by their names."""
    parts = ["%d records, %d connections, %d bytes" % (writer.records, writer.connections, writer.bytes)]
    if writer.changed:
        parts.append("a traffic text, since a capture ends at %s" % writer.changed)
    remarks = collections.Counter(remarks, **({"records came late: ticks raised": writer.raised}))
    for title, counts in (("left out", writer.left_out + left_out), ("note", remarks)):
        if any(counts.values()):
            parts.append("%s: %s" % (title, listed(counts)))
    return "; ".join(parts)


def end_at_faults(faults, lenient):
    """Raises Fault for what makes a capture less than its input, so that it isn't written; unless it is let pass."""
    if faults and not lenient:
        raise Fault("; ".join(faults) + "; nothing is written: --lenient writes what there is")
