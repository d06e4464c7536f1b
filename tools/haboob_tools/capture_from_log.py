"""Turns access logs (of nginx, Apache, HAProxy or Caddy, by formats with names or a given one) into a capture or a
traffic text that Haboob replays.

Exits with 0; with 1 at a fault, which is one line on standard error and leaves an older output as it was; with 2 where
the words are wrong; with 130 at Ctrl-C.
"""
from . import tool_run  # first, for Ctrl-C while the others are read

import collections

from . import capture_writer, command_line, input_files, log_blocks, log_formats, log_requests, output_file
from .tool_run import Fault

TOOL = "capture_from_log"

EXPLANATION = """\
Logs may be several (rotated ones are put in the order of their first lines), compressed (gzip, bzip2,
xz; Zstandard where Python reads it), and - is standard input.

What a log can't tell, and what stands in its place:
  heads         the request line; Host from $http_host or $host (HAProxy's log has it of HTTP/2
                alone), else --host; and, where the log has them, Referer, User-Agent,
                If-Modified-Since and If-None-Match. Without the last two, no request is conditional.
  version       HTTP/2.0 and later are written as HTTP/1.1; an HTTP/1.0 request gets
                Connection: keep-alive, since others follow under its number
  bodies        none: a POST comes without its body and without Content-Length
  connections   each request is one of its own, for --sample too. They get the numbers 0 to 65,535 in
                turn; so in a long log several requests of one tier follow one another under
                one number, as over a connection that is kept alive, in a traffic text too.
  time          nginx and Caddy log when the answer was sent: with $request_time the request came so much
                earlier, and is put there. Apache's %t is when a worker took the request (with end:
                it is the answer's, and %D or %T is taken off): a wait for a free worker is in none
                of them, so of a server whose workers were all busy requests come too late.
                HAProxy's is when the request was whole, taken for UTC. Where the log has durations,
                requests of the same time are put in the order in which they were begun: by how much
                longer each took than the quickest on its path. Without $msec (%{msec}t, %{usec}t)
                the log has whole seconds: the requests of a second are spread evenly over it, in the
                log's order. So bursts within a second are lost, and waits come out too short: p99
                was 5.1 ms in such a replay where the server's was 22 ms.

--log-format takes the name of a format, or one in nginx's notation ($msec "$request" ..) or Apache's
(%h %{msec}t "%r" ..). It needs $request, or $request_method and $request_uri (%r, or %m and %U%q);
and a time. Other variables are read over. The formats with names; without --log-format the one that
fits most of the first lines is taken:
  timed           combined, and then $msec $request_time $host "$http_if_modified_since"
                  "$http_if_none_match": a log that is as good as recorded packets
  vhost_combined  Debian's Apache: host:port, and then combined
  combined_us     Apache's combined, and then %D, which is microseconds
  combined        combined, also with other fields after it (as in the `main` of many distributions)
  common          without Referer and User-Agent
  haproxy         HAProxy's `option httplog` and `option httpslog`, also behind what syslog writes
  caddy           Caddy's access log in JSON, with ts and duration in seconds
  json            a JSON object a line, with nginx's names of variables as keys

Left out, and counted: lines of another format; lines that lack the time or the request; lines whose
time stands alone, far from that of all lines near them, or whose request took more than a day; lines
whose request isn't a method, a target of visible ASCII characters and a version, or whose head is
longer than 8,192 bytes (the answer would be 400, and the connection closed); fields with control
characters. More than a hundredth of the lines in another format, more than a tenth left out in all,
or more than what is written has room for, is a fault; --lenient writes the capture all the same.

""" + capture_writer.FORMATS_EXPLAINED + capture_writer.SAMPLE_EXPLAINED + capture_writer.TIERS_EXPLAINED + """\
The client's address is $remote_addr, which the format then needs.

examples:
  tools/capture_from_log.py --output site.capture --host www.example.org access.log.2.gz access.log.1 access.log
  ssh server cat access.log | tools/capture_from_log.py --output site.capture -
  tools/capture_from_log.py --output site.capture --log-format '$msec "$request" $status' access.log
  tools/capture_from_log.py --tier 10.1.0.0/16=1 --tier '~[.](css|js)$=2' --output site.capture access.log
"""

LINES_LOOKED_AT = 1_000  # of each log, to find its format
TOLD_REQUESTS = 1_000  # after so many progress is told
SHOWN = 80  # bytes of a line that are shown
OTHERS_PART = 100  # one in so many lines may be of another format
LEFT_OUT_PART = 10  # one in so many may be left out in all
FAULTY = (log_requests.NO_FIT, log_requests.JUMPS, log_requests.TOO_LONG, log_requests.NO_REQUEST,
          log_formats.WITHOUT % "")
SAMPLED = "requests between the sampled ones"
WHOLE_SECONDS = (
    "the log has whole seconds, over each of which its requests are spread evenly: bursts within a second are lost, "
    "and waits come out too short (p99 5.1 ms where it was 22); log $msec and $request_time (docs/WALK.md)")


def first_lines(one):
    """The first whole lines of an input, without their ends."""
    lines = one.first.split(b"\n")[:LINES_LOOKED_AT + 1]
    if len(lines) > 1:
        lines.pop()  # what is after the last LF, or may be cut
    return [line.rstrip(b"\r") for line in lines]


def known_formats(lines):
    """The formats with names; JSON with the names of the first line that has enough."""
    formats = [log_formats.given_format(name) for name in log_formats.NAMED]
    for line in lines:
        if line.lstrip().startswith(b"{"):
            try:
                return [*formats, log_formats.JsonFormat(line)]
            except Fault:
                continue
    return formats


def reader_of(options, inputs):
    """What reads the logs' lines: by the format that is given, or else by the one that fits most of the first lines."""
    if options.log_format and options.log_format != log_formats.JSON:
        return log_requests.RequestReader(log_formats.given_format(options.log_format), options)
    lines = [line for one in inputs for line in first_lines(one)]
    formats = known_formats(lines)
    if options.log_format:
        formats = formats[len(log_formats.NAMED):]
    readers = [log_requests.RequestReader(form, options) for form in formats]
    fitting = [sum(reader.line(line) is not None for line in lines) for reader in readers]
    if not any(fitting):
        raise Fault(nothing_fits(inputs[0], formats))
    return readers[fitting.index(max(fitting))]


def nothing_fits(one, formats):
    """What is said where no line of the first input fits: how much of its first line fits each format."""
    line = first_lines(one)[0]
    kind = input_files.kind_of(one.first)
    if kind and not kind.startswith("text"):
        return "%s: this is %s" % (one.name, kind)
    fits = ", ".join("%s (its first %d bytes)" % (form.name, form.fits_to(line)) for form in formats)
    shown = ascii(line[:SHOWN].decode("latin-1")) + ("..." if len(line) > SHOWN else "")
    return "%s: no line fits; tried: %s; line 1 is %s; give the format by --log-format" % (
        one.name, fits or "json, of which no line has the names", shown)


def in_order(inputs, reader):
    """The inputs in the order of the times of their first lines that fit; those without one at the end."""
    def first_time(one):
        return next((found[1] for found in map(reader.line, first_lines(one)) if found), float("inf"))
    return sorted(inputs, key=first_time)


class Totals:
    """What was counted over all blocks of lines."""

    def __init__(self):
        self.lines = 0
        self.left_out = collections.Counter()
        self.firsts = {}  # the first line of each kind that is left out: file and number
        self.remarks = collections.Counter()
        self.quickest = {}  # durations of answers by their paths

    def add(self, part):
        """Takes what was counted over a block."""
        self.lines += part.lines
        self.left_out += part.left_out
        self.remarks += part.remarks
        for path, duration in part.quickest.items():
            log_requests.take_quickest(self.quickest, path, duration)
        self.firsts = {**part.firsts, **self.firsts}

    def counts(self):
        """What was left out, with the numbers of the first lines."""
        return collections.Counter({
            name + (" (the first is line %d of %s)" % self.firsts[name][::-1] if name in self.firsts else ""): number
            for name, number in self.left_out.items()})

    def faults(self):
        """What is too much to be left out, in words; a list of texts."""
        other = self.left_out[log_requests.NO_FIT]
        faulty = sum(number for kind, number in self.left_out.items() if kind.startswith(FAULTY))
        if other * OTHERS_PART <= self.lines and faulty * LEFT_OUT_PART <= self.lines:
            return []
        counts = capture_writer.listed({name: number for name, number in self.counts().items()
                                        if name.startswith(FAULTY)})
        return ["of %d lines %d are left out: %s" % (self.lines, faulty, counts)]


class Conversion:
    """Turns requests, in the order in which they came, into the records of a capture."""

    def __init__(self, options, totals):
        self.options = options
        self.totals = totals
        self.numbers = {tier: collections.deque() for tier in {0, *(rule.tier for rule in options.tier)}}
        self.unused = len(self.numbers)  # tiers that have no number yet
        self.seen = 0  # requests, out of which each Nth is taken
        self.writer = None

    def take(self, file, time, tier, head):
        """Takes a request that came at a time in microseconds since 1970; writes it to a file, or leaves it out."""
        options, left_out = self.options, self.totals.left_out
        if time < options.begin or (options.end is not None and time >= options.end):
            left_out[log_requests.OUTSIDE] += 1
            return
        self.seen += 1
        if (self.seen - 1) % options.sample:
            left_out[SAMPLED] += 1
            return
        if self.writer is None:
            self.writer = capture_writer.CaptureWriter(file, time, options.format)
        tick = time - self.writer.first
        self.writer.message(tick, self.number_for(tick, tier), head)

    def number_for(self, tick, tier):
        """The number of a request of this tier: a new one while others have one left, then its own in turn."""
        own = self.numbers[tier]
        self.unused -= not own
        if self.writer.connections + self.unused < capture_writer.CONNECTIONS_LIMIT:
            own.append(self.writer.connect(tick, tier))
        else:
            own.rotate(-1)
        return own[-1]

    def finish(self, names):
        """Writes the last line."""
        if self.writer is None:
            raise Fault("%s: no request is to be taken (%s)" % (
                ", ".join(names), capture_writer.listed(self.totals.counts())))
        self.writer.stop()


def ordered(store, reader, quickest):
    """The requests that are kept, in the order in which they came; with the quickest answers by their paths."""
    requests = store.requests()
    if reader.time.exact:
        return log_blocks.begun(requests, quickest) if reader.took_name else requests
    requests = log_blocks.spread(requests)
    return log_blocks.by_arrival(requests) if reader.duration_name else requests


def arguments():
    """The words of the command line."""
    parser = command_line.Parser(description=__doc__, epilog=EXPLANATION)
    parser.add_argument("inputs", nargs="+", metavar="LOG", help="a log; - reads standard input")
    parser.add_argument("--log-format", metavar="FORMAT",
                        help="the name of a format, or one in nginx's or Apache's notation (see below)")
    parser.add_argument("--host", default="localhost", help="the Host of requests without one; without it localhost")
    capture_writer.add_common_options(parser)
    options = parser.parse_args()
    if not log_requests.HOST.fullmatch(options.host.encode("utf-8", "surrogateescape")):
        parser.error("--host: %a has a character that no Host may have (names with others are written xn--...)"
                     % options.host)
    return options


def read_logs(options, store, totals):
    """Reads the logs into a store; returns what read them."""
    with tool_run.progress(TOOL, input_files.size_of(options.inputs), "B") as bar:
        with input_files.opened(options.inputs, bar.update) as inputs:
            reader = reader_of(options, inputs)
            if reader.wants_client and "remote_addr" not in reader.form.names:
                raise Fault("--tier: an address needs $remote_addr in the log's format", 2)
            for part in log_blocks.read_all(log_blocks.blocks_of(in_order(inputs, reader)), reader.block):
                totals.add(part)
                store.add(part.runs, part.count)
    if totals.left_out[log_requests.NO_FIT] == totals.lines:
        raise Fault(nothing_fits(inputs[0], [reader.form]))
    return reader


def convert():
    """Does what the command line says."""
    options = arguments()
    output_file.refuse_same([options.output], input_files.descriptors(options.inputs))
    totals = Totals()
    with log_blocks.RequestStore() as store:
        reader = read_logs(options, store, totals)
        conversion = Conversion(options, totals)
        with output_file.replacing(options.output) as file, tool_run.progress(TOOL, store.count, " requests") as bar:
            for number, (time, _, tier, head) in enumerate(ordered(store, reader, totals.quickest), 1):
                conversion.take(file, time, tier, head)
                if number % TOLD_REQUESTS == 0:
                    bar.update(TOLD_REQUESTS)
            conversion.finish(options.inputs)
            faults = totals.faults() + conversion.writer.faults()
            capture_writer.end_at_faults(faults, options.lenient)
    say_summary(conversion, reader, faults)


def say_summary(conversion, reader, faults):
    """Says what was written, and what is to be known of it."""
    written = capture_writer.summary(conversion.writer, conversion.totals.counts(), conversion.totals.remarks)
    lines = ["format %s: %s" % (reader.form.name, written), *faults]
    lines += [WHOLE_SECONDS] * (not reader.time.exact)
    lines += [capture_writer.SAMPLE_NOTE] * (conversion.options.sample > 1)
    for line in lines:
        tool_run.say("%s: %s" % (TOOL, line))


def main():
    """Does what the words of the process say; returns the status."""
    return tool_run.run(TOOL, convert)
