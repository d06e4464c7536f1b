"""Reads how long a server took for each request: from recorded packets of both directions, or from access logs."""
import array
import collections
import contextlib
import functools
import itertools
import re

from . import capture_writer, input_files, log_formats, log_requests, packet_files, tcp_streams, tool_run
from .packet_files import dpkt
from .response_delays import segments_of
from .tool_run import Fault

h11 = tool_run.library("h11")

TOOL = "calibrate"
NEEDED = ("status", "body_bytes_sent")
PIECE = 1_048_576  # bytes of a log that are read at a time
LINE_ROOM = 65_536  # bytes; a longer line doesn't fit
SECOND = 1_000_000  # microseconds
LONGEST = 2**62  # microseconds; times beyond are none
DIGITS = 15  # of a number of bytes
AT_ONCE = 4_096  # bytes that are given to h11 at a time: what comes after a message is given once more
HEAD_LIMIT = 131_072  # bytes of a head, or of a line among chunks, that are waited for
ANSWER_BEGIN = b"HTTP/1."
FILES = (200, 206)  # statuses of answers that carry a file; 304 costs one, too
NOT_MODIFIED = 304
REFUSED = (503, 499)  # statuses of requests that were turned away, or for which nobody waited
MOST = 1_000_000  # requests that are taken
DEPTH = 3  # segments of a path that are kept, unless a route has more
PATH_ROOM = 120  # bytes of a path that are kept of those
BEYOND = "requests after the first %d; take a busy time by --from and --to" % MOST
OUTSIDE = "requests before --from or after --to"
TURNED_AWAY = "answered 503 or 499"
NO_HTTP = "connections that aren't HTTP, or no longer are (TLS, WebSocket)"
LOST = "connections from a lost, cut or odd piece on"
MIDDLE = "connections whose begin isn't there"
UNANSWERED = "requests without a whole answer"
UNFIT = "lines of another format"

# When a request's last byte came and its answer's last byte went, in microseconds since 1970; the answer; the target;
# how long the server behind it took, where that is told apart; and the tier.
Measured = collections.namedtuple("Measured", "arrival answer method status size target server tier",
                                  defaults=(b"", None, 0))
# What is asked of a reading: ports of packets, the format of a log, rules of tiers, the time that is taken, and the
# segments of a path that are kept.
Wanted = collections.namedtuple("Wanted", "ports log_format tiers begin end depth",
                                defaults=((), "timed", (), 0, None, DEPTH))


@functools.lru_cache(maxsize=4096)
def path_of(target, depth):
    """The first segments of a target's path, as text; None where it has no path."""
    segments = segments_of(target)
    if segments is None:
        return None
    room = itertools.accumulate(1 + len(segment) for segment in segments[:depth])
    count = sum(size <= PATH_ROOM or depth > DEPTH for size in room)
    return "".join("/" + segment.decode() for segment in segments[:count])


class Recorded:
    """What was recorded, in columns of numbers, with counts of what was left out."""

    def __init__(self, wanted):
        self.wanted = wanted
        self.left_out = collections.Counter()
        self.columns = {name: array.array(code) for name, code in (
            ("arrival", "q"), ("answer", "q"), ("server", "q"), ("size", "q"), ("is_file", "b"), ("path", "i"),
            ("tier", "b"))}
        self.paths = {}  # the place of each path
        self.is_exact = True  # whether arrivals are finer than a second
        self.is_begun = False  # whether times begin only when a worker takes a request

    def take(self, one):
        """Takes a request, or leaves it out: one that was measured, or the reason why it wasn't."""
        reason = one if isinstance(one, str) else self.reason_against(one)
        if reason:
            self.left_out[reason] += 1
            return
        path = path_of(one.target, self.wanted.depth)
        size = one.size if one.status in FILES and one.method == "GET" else 0
        server = -1 if one.server is None else max(0, min(one.server, one.answer - one.arrival))
        values = (one.arrival, one.answer, server, size, one.status in (*FILES, NOT_MODIFIED),
                  -1 if path is None else self.paths.setdefault(path, len(self.paths)), one.tier)
        for column, value in zip(self.columns.values(), values):
            column.append(value)

    def reason_against(self, one):
        """Why a request isn't taken; None where it is."""
        if one.status in REFUSED:
            return TURNED_AWAY
        if one.arrival < self.wanted.begin or (self.wanted.end is not None and one.arrival >= self.wanted.end):
            return OUTSIDE
        if not -LONGEST < one.arrival < LONGEST or not 0 <= one.answer - one.arrival < LONGEST:
            return UNFIT
        return BEYOND if len(self.columns["arrival"]) >= MOST else None


class GivenUp(Exception):
    """Why a connection is read no further: LOST or NO_HTTP."""


class Side(tcp_streams.Stream):
    """What one side of a connection sends, in order and as HTTP."""

    def __init__(self, sequence, reader):
        """Takes the first byte's sequence number, and a function that gives what reads a message of these bytes on."""
        super().__init__(sequence)
        self.reader = reader
        self.http = None  # what reads the message that comes

    def events(self, data):
        """What bytes tell: h11's events."""
        for place in range(0, len(data), AT_ONCE):
            rest = data[place:place + AT_ONCE]
            while rest:
                rest = yield from self.read(rest)

    def read(self, data):
        """The events of one message, which empty lines may precede (RFC 9112, 2.2); returns the bytes after it. Without
        bytes it is the connection's end."""
        if self.http is None:
            data = data.lstrip(b"\r\n")
            if not data:
                return b""
            self.http = self.reader(data)
        self.http.receive_data(data)
        while (event := self.http.next_event()) not in (h11.NEED_DATA, h11.PAUSED):
            yield event
            if type(event) is h11.EndOfMessage:
                rest, self.http = self.http.trailing_data[0], None
                return rest
        if event is h11.PAUSED:  # a tunnel
            raise GivenUp(NO_HTTP)
        return b""


class Exchange:
    """The requests of one connection and their answers."""

    def __init__(self, first, client=None, tiers=()):
        self.client, self.server = Side(first, self.request_reader), None
        self.waiting = collections.deque()  # arrival, method and target of requests without an answer
        self.asked = None  # the last of them that came, also where it was answered before its body came
        self.status = self.size = None
        self.address, self.tiers, self.tier = client, tiers, None

    def take(self, time, segment, is_request):
        """Takes a segment; gives what was measured by it."""
        if not is_request and segment.flags & dpkt.tcp.TH_SYN and self.server is None:
            self.server = Side(segment.sequence + 1, self.answer_reader)
        side, other = (self.client, self.server)[::1 if is_request else -1]
        data = side.take(segment) if side else b""
        is_reset = segment.flags & dpkt.tcp.TH_RST
        if not side or side.is_cut() or side.is_full() or (is_reset and side.has_hole()) or (
                other and other.is_lost(segment)):
            raise GivenUp(LOST)
        if is_request:
            self.from_client(time, data)
        else:
            yield from self.from_server(time, data, is_reset or side.place == side.end)

    def request_reader(self, _):
        """What reads a request."""
        return h11.Connection(h11.SERVER, HEAD_LIMIT)

    def from_client(self, time, data):
        """Reads the client's bytes: a request comes with its last one."""
        for event in self.client.events(data):
            if type(event) is h11.Request:
                if self.tier is None:
                    self.tier = capture_writer.tier_of(self.tiers, self.address, event.target)
                self.asked = [time, event.method, event.target]
                self.waiting.append(self.asked)
            elif type(event) is h11.EndOfMessage:
                self.asked[0] = time

    def answer_reader(self, data):
        """What reads the answer to the first request that waits for one."""
        if not self.waiting:
            raise GivenUp(LOST if data.startswith(ANSWER_BEGIN) else NO_HTTP)
        http = h11.Connection(h11.CLIENT, HEAD_LIMIT)
        http.send(h11.Request(method=self.waiting[0][1], target=b"/", headers=[(b"Host", b"")]))
        return http

    def from_server(self, time, data, is_end):
        """Reads the server's bytes, and maybe the connection's end; gives the answers that are whole by them, each with
        its request."""
        for event in itertools.chain(self.server.events(data), self.server_ended() if is_end else ()):
            if type(event) is h11.Response:
                self.status, self.size = event.status_code, 0
            elif type(event) is h11.Data:
                self.size += len(event.data)
            elif type(event) is h11.EndOfMessage:
                arrival, method, target = self.waiting.popleft()
                yield Measured(arrival, time, method.decode("ascii"), self.status, self.size, target, None, self.tier)

    def server_ended(self):
        """What an answer's end tells that is the connection's."""
        if self.server.http:
            with contextlib.suppress(h11.RemoteProtocolError):  # an answer that isn't whole
                yield from self.server.read(b"")
            self.server.http = None


class Connections:
    """The connections to given ports."""

    def __init__(self, ports, left_out, tiers=()):
        self.ports, self.tiers = ports, tiers
        self.open = {}
        self.left_out = left_out

    def take(self, time, segment):
        """Takes a segment at a time; gives what was measured by it."""
        is_request = segment.destination[1] in self.ports
        if not is_request and segment.source[1] not in self.ports:
            return
        key = (segment.source, segment.destination)[::1 if is_request else -1]
        exchange = self.exchange_of(key, segment) if is_request else self.open.get(key)
        if exchange is None:
            return
        try:
            yield from exchange.take(time, segment, is_request)
        except GivenUp as reason:
            self.lose(key, str(reason))
        except h11.RemoteProtocolError:
            self.lose(key, NO_HTTP)

    def exchange_of(self, key, segment):
        """The exchange that a client's segment belongs to, begun where the segment begins one; None where it is read no
        further."""
        exchange, first = self.open.get(key), (segment.sequence + 1) % tcp_streams.SEQUENCES
        if segment.flags & dpkt.tcp.TH_SYN and not (exchange and exchange.client.first == first):
            exchange = self.open[key] = Exchange(first, capture_writer.client_of(key[0][0]), self.tiers)
        self.left_out[MIDDLE] += key not in self.open and bool(segment.data)
        return self.open.setdefault(key, exchange)

    def lose(self, key, reason):
        """Gives a connection up; counts it by a reason."""
        self.left_out[reason] += 1
        self.open[key] = None

    def finish(self):
        """Counts the connections that still wait for lost bytes, and the requests that had no answer."""
        for exchange in filter(None, self.open.values()):
            is_lost = any(side and side.has_hole() for side in (exchange.client, exchange.server))
            self.left_out[LOST] += is_lost
            self.left_out[UNANSWERED] += 0 if is_lost else len(exchange.waiting)


def of_packets(inputs, recorded):
    """Reads inputs of packets, one after another."""
    connections = Connections(frozenset(recorded.wanted.ports), recorded.left_out, recorded.wanted.tiers)
    for one in inputs:
        for packet in packet_files.packets(one, tcp_streams.check_link, recorded.left_out):
            segment = tcp_streams.segment_of(packet, recorded.left_out)
            for measured in connections.take(packet.time, segment) if segment is not None else ():
                recorded.take(measured)
    connections.finish()


def lines_of(one):
    """The lines of an input, without their ends; one that is too long is empty."""
    rest = b""
    while piece := one.read(PIECE):
        *lines, rest = (rest + piece).split(b"\n")
        yield from lines
        rest = rest if len(rest) <= LINE_ROOM else b""
    if rest:
        yield rest


def first_of(names, known):
    """The first of known names that is among those of a format; None where none is."""
    return next((name for name in known if name in names), None)


def reader_of(log_format, first):
    """The format of a log that is named or written out; raises Fault where it tells no duration, status or number of
    bytes, or whole seconds, unless these are when Apache's workers took the requests."""
    if log_format == log_formats.JSON:
        found = log_formats.JsonFormat(first.split(b"\n", 1)[0])
    else:
        found = log_formats.given_format(log_format)
    times = [name for name, time in log_formats.TIMES.items() if time.exact or not time.answered]
    missing = [wanted for wanted, known in (
        ("$msec (Apache: %{usec}t)", times), ("$request_time (Apache: %D)", log_formats.DURATIONS),
        *(("$" + name, [name]) for name in NEEDED)) if not first_of(found.names, known)]
    if missing:
        raise Fault("--log-format: needs %s" % ", ".join(missing), 2)
    return found


def server_time(value):
    """Microseconds of nginx's $upstream_response_time, or $upstream_connect_time, over all servers that were tried;
    None where none was."""
    parts = [log_formats.seconds(part) for part in re.split(rb" ?[,:] ", value) if part not in log_formats.ABSENT]
    return sum(parts) if parts and None not in parts else None


class LogReader:
    """Reads what was measured out of a log's lines."""

    def __init__(self, wanted, first):
        self.format = reader_of(wanted.log_format, first)
        self.tiers = wanted.tiers
        names = self.format.names
        if "remote_addr" not in names and any(rule.about == "client" for rule in self.tiers):
            raise Fault("--tier: an address needs $remote_addr in the log's format", 2)
        self.time = first_of(names, log_formats.TIMES)
        self.duration = first_of(names, log_formats.DURATIONS)
        self.request = next(known for known in log_formats.REQUEST_NAMES if known <= set(names))
        self.is_answer = log_formats.TIMES[self.time].answered
        self.is_exact = log_formats.TIMES[self.time].exact
        self.is_begun = self.duration in log_formats.APACHE_DURATIONS

    def measured(self, line):
        """What a line tells; else why it tells nothing: it lacks a field, or is of another format."""
        values = self.format.values(line.rstrip(b"\r")) or {}
        name = log_formats.lacking(values, (self.time, self.duration, "status"))
        if name or not values.get(self.time):
            return log_formats.WITHOUT % self.format.shown[name] if name else UNFIT
        time = log_formats.TIMES[self.time].read(values[self.time])
        duration = log_formats.DURATIONS[self.duration](values[self.duration])
        if time is None:
            return UNFIT
        if duration is None or not re.fullmatch(rb"[0-9]{3}", values["status"]):
            return log_formats.WITHOUT % self.format.shown[self.duration if duration is None else "status"]
        arrival = time - duration if self.is_answer else time
        sent = values.get("body_bytes_sent", b"")
        size = int(sent) if sent.isdigit() and len(sent) <= DIGITS else 0
        method, target = self.asked(values)
        client = log_requests.client_of(values.get("remote_addr") or b"") if self.tiers else None
        return Measured(arrival, arrival + duration, method.decode("latin-1"), int(values["status"]), size, target,
                        self.server(values), capture_writer.tier_of(self.tiers, client, target))

    def asked(self, values):
        """The method and the target of a line's request; without a sound one nothing stands for either."""
        parts = (values["request"].split(b" ") if "request" in values else
                 [values.get("request_method") or b"", values.get("request_uri") or b""])
        method, target = (parts + [b""])[:2]
        return method, log_requests.unescape(target) if self.format.escaped and b"\\" in target else target

    def server(self, values):
        """How long the server behind it took for a line's answer, without the time to connect; None where the log
        doesn't tell it."""
        took = server_time(values.get("upstream_response_time") or b"")
        connected = server_time(values.get("upstream_connect_time") or b"")
        return took if took is None or connected is None else max(0, took - connected)


def nothing_fits(one, form):
    """What is said where no line of an input fits the format of a log."""
    if one.first.startswith(input_files.RECORDINGS):
        return "this is a capture, which tells no answers; give the packets or the log that it was made of"
    line = one.first.split(b"\n", 1)[0].rstrip(b"\r")
    return "no line fits the format %s (line 1 does in its first %d bytes); --log-format takes another" % (
        form.name, form.fits_to(line))


def first_time(one, reader):
    """The time of an input's first line that fits."""
    lines = map(reader.measured, one.first.split(b"\n"))
    return next((found.answer for found in lines if not isinstance(found, str)), LONGEST)


def of_logs(inputs, recorded):
    """Reads logs, by the times of their first lines."""
    reader = LogReader(recorded.wanted, inputs[0].first)
    recorded.is_exact, recorded.is_begun = reader.is_exact, reader.is_begun
    for one in sorted(inputs, key=lambda one: first_time(one, reader)):
        for line in lines_of(one):
            recorded.take(reader.measured(line))
    taken = recorded.columns
    if not taken["arrival"] and not set(recorded.left_out) - {UNFIT}:
        raise Fault(nothing_fits(inputs[0], reader.format))
    if taken["arrival"] and all((end - begin) % SECOND == 0 for begin, end in zip(taken["arrival"], taken["answer"])):
        raise Fault("the durations are whole seconds; they have to be milliseconds or better")


def of_files(paths, wanted):
    """What was recorded in files, which are told by their first bytes: packets, or logs of one format."""
    recorded = Recorded(wanted)
    with tool_run.progress(TOOL, input_files.size_of(paths), "B") as bar:
        with input_files.opened(paths, bar.update) as inputs:
            try:
                kinds = {one.first.startswith(input_files.PACKETS) for one in inputs}
                if len(kinds) > 1:
                    raise Fault("packets and logs together")
                if True in kinds and not wanted.ports:
                    raise Fault("these are packets: --port says which is the server's", 2)
                (of_packets if True in kinds else of_logs)(inputs, recorded)
            except Fault as fault:
                raise Fault("%s: %s" % (", ".join(paths), fault), fault.status) from None
    return recorded
