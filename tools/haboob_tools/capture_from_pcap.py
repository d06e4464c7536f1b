"""Turns recorded packets (pcap, pcapng) of plain HTTP into a capture or a traffic text that Haboob replays.

Exits with 0; with 1 at a fault, which is one line on standard error and leaves an older output as it was; with 2 where
the words are wrong; with 130 at Ctrl-C.
"""
from . import tool_run  # first, for Ctrl-C while the others are read

import collections
import heapq
import operator
import re

from . import capture_writer, command_line, input_files, output_file, packet_files, request_text, tcp_streams
from .packet_files import dpkt
from .tool_run import Fault

TOOL = "capture_from_pcap"

EXPLANATION = """\
The capture holds the bytes from clients to the given server ports, in the order of their sequence
numbers. Bytes that are out of order wait for those before them, and come with their tick; bytes sent
twice count once, also where the connection has ended. Where bytes are missing for good (the server
has acknowledged them, the connection or the file ends, or 1 MiB waits), the connection ends there.
Ticks are microseconds from the first packet to a server port. A connection gets the next number when
its first bytes come (in a traffic text the smallest that no open one has), and ends at the client's
FIN or at a RST from either side. Only packets to the server are needed.

A replay refuses a request whose body comes in chunks or has more than 65,536 bytes, or whose head has
more than 8,192, and the rest of its connection with it. So such a request is written, and counted,
without its body: with the same method and target, and of a long head with the fields on which an
answer depends; it comes where its body ends. --as-recorded keeps the bytes as they are.

Files may be several, whose packets are taken by their times, and compressed (gzip, bzip2, xz;
Zstandard where Python reads it); - is standard input.

Left out, and counted: connections whose first bytes are those of TLS (record them where TLS is
already taken off, or take a log: docs/WALK.md); those with bytes before --from; of connections whose
begin isn't there what comes before a packet that begins with a request line; fragments of IP packets;
packets of a pcapng that have no time (Simple Packet Blocks). Where nothing is left, it is a fault.

It is a fault, and --lenient writes the capture of what is there, where packets were cut when they
were recorded (each connection ends at its first cut packet: record whole ones, tcpdump -s 0); where
a file is cut or broken (it is taken up to that place); where there is more than what is written has
room for.

""" + capture_writer.FORMATS_EXPLAINED + capture_writer.SAMPLE_EXPLAINED + capture_writer.TIERS_EXPLAINED + """\
A connection's target is that of its first request; where the request line isn't whole in the
connection's first bytes, no pattern of a target fits, and the connection is counted.

examples:
  tcpdump -i eth0 -s 0 -w site.pcap 'tcp dst port 80'
  tools/capture_from_pcap.py --port 80 --output site.capture site.pcap
  tools/capture_from_pcap.py --port 80 --output site.capture site.pcap0 site.pcap1.gz
  tools/capture_from_pcap.py --port 80 --tier 10.1.0.0/16=1 --tier /api/=2 --output site.capture site.pcap
"""

CLOSED_LIMIT = 65_536  # closed connections that are remembered, so that what is sent again doesn't seem new
TLS_BEGIN = b"\x16\x03"
LEFT_OUT = -1  # in the place of a connection's number
BEFORE = "connections begun before --from"
MIDDLE = "connections whose begin isn't in the file, taken from a packet that begins with a request line"
NO_BEGIN = "connections whose begin isn't in the file, and of which no packet begins with a request line"
LOST = "connections ended by lost bytes"
CUT = "connections ended by packets that were cut when they were recorded"
WHOLE_PACKETS = "; record whole packets: tcpdump -s 0"
NO_TARGET = "connections whose first bytes hold no whole request line, for --tier"
REQUEST_LINE = re.compile(rb"[!#$%&'*+\-.^_`|~0-9A-Za-z]+ [^ \r\n]+ HTTP/[0-9]\.[0-9]\r?\n")


class Client(tcp_streams.Stream):
    """What one client sends on one connection."""

    def __init__(self, sequence, middle, editor):
        """Takes the first byte's sequence number, whether the connection's begin isn't there, and what takes something
        out of its requests, if anything does."""
        super().__init__(sequence)
        self.middle = middle
        self.editor = editor
        self.number = None  # in the capture, or LEFT_OUT; None before the first bytes


class Conversion:
    """Turns segments, one after another, into the records of a capture."""

    def __init__(self, options, file):
        """Takes the words of the command line, and the file of bytes that the capture is written to."""
        self.options = options
        self.file = file
        self.ports = frozenset(options.port)
        self.streams = {}  # the open connections by client and server
        self.closed = collections.OrderedDict()  # the last that were closed, the oldest first
        self.seen = 0  # connections with bytes, out of which each Nth is taken
        self.last = None  # the time of the last packet, in microseconds since 1970
        self.writer = None
        self.left_out = collections.Counter()
        self.remarks = collections.Counter()

    def segment(self, time, segment):
        """Takes a segment that was seen at a time in microseconds since 1970."""
        self.last = time
        if segment.destination[1] in self.ports:
            if self.writer is None and time >= self.options.begin:
                self.writer = capture_writer.CaptureWriter(self.file, time, self.options.format)
            self.from_client(time, segment)
        elif segment.source[1] in self.ports:
            self.from_server(time, segment)

    def from_client(self, time, segment):
        """Takes a segment to a server."""
        key = (segment.source, segment.destination)
        stream = self.stream_of(time, key, segment)
        if stream is None:
            return
        data = stream.take(segment)
        if data:
            self.send(time, stream, data, segment.source[0])
        if stream.is_cut():
            self.close(time, key, CUT)
        elif segment.flags & dpkt.tcp.TH_RST or stream.place == stream.end or stream.is_full():
            self.close(time, key)

    def from_server(self, time, segment):
        """Takes a segment to a client: it may reset the connection, or acknowledge bytes that aren't in the file."""
        key = (segment.destination, segment.source)
        stream = self.streams.get(key)
        if stream is not None and (segment.flags & dpkt.tcp.TH_RST or stream.is_lost(segment)):
            self.close(time, key)

    def stream_of(self, time, key, segment):
        """The stream that a client's segment belongs to, opened where the segment begins one; None for no stream.

        What is of the connection that was closed before, or of the begin of the open one, was sent again.
        """
        stream, older = self.streams.get(key), self.closed.get(key)
        first = (segment.sequence + 1) % tcp_streams.SEQUENCES
        if segment.flags & dpkt.tcp.TH_SYN:
            if older is not None and older.first == first:
                return None
            if stream is None or stream.first != first:
                if stream is not None:
                    self.close(time, key)
                self.streams[key] = self.new_stream(first, False)
        elif older is not None and older.holds(segment.sequence) and not (stream and stream.holds(segment.sequence)):
            return None
        elif stream is None and segment.data:
            self.streams[key] = self.new_stream(segment.sequence, True)
        return self.streams.get(key)

    def new_stream(self, sequence, middle):
        """The stream of a connection whose first byte has this sequence number."""
        options, editor = self.options, None
        if options.without or not options.as_recorded:
            editor = request_text.RequestEditor(options.without, not options.as_recorded, self.remarks)
        return Client(sequence, middle, editor)

    def send(self, time, stream, data, client):
        """Writes bytes that are in order; the first ones decide whether the connection is taken, and its tier."""
        if stream.number is None:
            reason = self.reason_against(time, stream, data)
            if reason == NO_BEGIN:
                return
            if reason:
                self.left_out[reason] += 1
            tick = 0 if reason else time - self.writer.first
            number = None if reason else self.writer.connect(tick, self.tier_of(client, data))
            stream.number = LEFT_OUT if number is None else number
            self.remarks[MIDDLE] += stream.middle and number is not None
        if stream.number != LEFT_OUT:
            data = stream.editor.feed(data) if stream.editor else data
            self.writer.piece(time - self.writer.first, stream.number, data)

    def tier_of(self, client, data):
        """The tier of a connection with these first bytes."""
        rules, target = self.options.tier, capture_writer.target_of(data)
        self.remarks[NO_TARGET] += target is None and any(rule.about == "target" for rule in rules)
        return capture_writer.tier_of(rules, capture_writer.client_of(client), target)

    def reason_against(self, time, stream, data):
        """Why a connection with these first bytes is left out, or None; NO_BEGIN where it may begin with later ones."""
        if time < self.options.begin:
            return BEFORE
        if data.startswith(TLS_BEGIN) or data == TLS_BEGIN[:1]:
            return "connections of TLS"
        if stream.middle and not REQUEST_LINE.match(data):
            return NO_BEGIN
        self.seen += 1
        return "connections between the sampled ones" if (self.seen - 1) % self.options.sample else None

    def close(self, time, key, reason=LOST):
        """Ends a connection; counts it by a reason where bytes of it are lost."""
        stream = self.streams.pop(key)
        self.closed.pop(key, None)
        self.closed[key] = stream
        if len(self.closed) > CLOSED_LIMIT:
            self.closed.popitem(last=False)
        self.count_begin(stream)
        self.remarks[reason] += (reason == CUT or stream.has_hole()) and stream.number != LEFT_OUT
        stream.waiting, stream.editor = [], None
        if stream.number not in (None, LEFT_OUT):
            self.writer.end(time - self.writer.first, stream.number)

    def count_begin(self, stream):
        """Counts a connection, no more bytes of which come, where none of its packets began with a request line."""
        self.left_out[NO_BEGIN] += stream.middle and stream.number is None

    def finish(self):
        """Ends the connections that still wait for lost bytes, and writes the last line."""
        if self.writer is None:
            raise Fault(self.nothing("no packet to a given port in the given time"))
        for key in [key for key, stream in self.streams.items() if stream.has_hole()]:
            self.close(self.last, key)
        for stream in self.streams.values():
            self.count_begin(stream)
        if not self.writer.bytes:
            raise Fault(self.nothing("no request is to be taken"))
        self.writer.stop()

    def nothing(self, words):
        """What is said where there is nothing to write."""
        counts = self.left_out + self.remarks
        return "%s: %s%s%s" % (", ".join(self.options.inputs), words,
                               " (%s)" % capture_writer.listed(counts) if counts else "",
                               WHOLE_PACKETS if self.remarks[CUT] else "")

    def faults(self):
        """What makes the capture less than the packets that were sent, in words; a list of texts."""
        cut = ["%d %s%s" % (self.remarks[CUT], CUT, WHOLE_PACKETS)] if self.remarks[CUT] else []
        return cut + self.writer.faults()


def packets_of(one, left_out, faults):
    """The packets of an input up to where it is cut or broken; that is added to the faults."""
    try:
        yield from packet_files.packets(one, tcp_streams.check_link, left_out)
    except Fault as fault:
        kind = input_files.kind_of(one.first)
        known = kind and str(fault).startswith("no pcap")
        faults.append(one.name + (": this is %s" % kind if known else ": %s" % fault))


def convert_all(conversion, inputs):
    """Takes all packets before --to, and ends the capture; returns the faults, in words."""
    faults, end = [], conversion.options.end
    packets = (packets_of(one, conversion.left_out, faults) for one in inputs)
    for packet in heapq.merge(*packets, key=operator.attrgetter("time")):
        if end is not None and packet.time >= end:
            break
        segment = tcp_streams.segment_of(packet, conversion.left_out)
        if segment is not None:
            conversion.segment(packet.time, segment)
    if faults and not (conversion.writer and conversion.writer.bytes):
        raise Fault("; ".join(faults))
    conversion.finish()
    return faults + conversion.faults()


def arguments():
    """The words of the command line."""
    parser = command_line.Parser(description=__doc__, epilog=EXPLANATION)
    parser.add_argument("inputs", nargs="+", metavar="PACKETS", help="the recorded packets; - reads standard input")
    parser.add_argument("--port", type=capture_writer.count, action="append", required=True,
                        help="a port of the server; may be given several times")
    parser.add_argument("--as-recorded", action="store_true",
                        help="keep bodies and long heads that a replay refuses, bytes as they are")
    capture_writer.add_common_options(parser)
    return parser.parse_args()


def convert():
    """Does what the command line says."""
    options = arguments()
    output_file.refuse_same([options.output], input_files.descriptors(options.inputs))
    with output_file.replacing(options.output) as file:
        conversion = Conversion(options, file)
        with tool_run.progress(TOOL, input_files.size_of(options.inputs), "B") as bar:
            with input_files.opened(options.inputs, bar.update) as inputs:
                faults = convert_all(conversion, inputs)
        capture_writer.end_at_faults(faults, options.lenient)
    written = capture_writer.summary(conversion.writer, conversion.left_out, conversion.remarks)
    for line in [written, *faults, *[capture_writer.SAMPLE_NOTE] * (options.sample > 1)]:
        tool_run.say("%s: %s" % (TOOL, line))


def main():
    """Does what the words of the process say; returns the status."""
    return tool_run.run(TOOL, convert)
