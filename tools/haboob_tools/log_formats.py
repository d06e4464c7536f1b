"""The formats of access logs: those that have names, and those that are given in nginx's or in Apache's notation."""
import collections
import datetime
import functools
import json
import os
import re

from .capture_writer import TICKS_IN_SECOND
from .tool_run import Fault

COMMON = '$remote_addr $remote_identity $remote_user [$time_local] "$request" $status $body_bytes_sent'
COMBINED = COMMON + ' "$http_referer" "$http_user_agent"'
TIMED = COMBINED + ' $msec $request_time $host "$http_if_modified_since" "$http_if_none_match"'
REST = "rest_of_the_line"  # a variable that is nothing, or a space and what follows it
TEXTS = {  # those in nginx's notation
    "timed": TIMED + "${%s}" % REST, "vhost_combined": "$host:$server_port " + COMBINED + "${%s}" % REST,
    "combined_us": COMBINED.replace("$time_local", "$begin_local") + " $duration_us${%s}" % REST,
    "combined": COMBINED + "${%s}" % REST, "common": COMMON,
}
JSON = "json"
ABSENT = (b"", b"-", None)  # the values of a field that a line lacks
WITHOUT = "lines without %s"

# How a time is read, whether it is finer than a second, and whether it is that of the answer (else of the request).
Time = collections.namedtuple("Time", "read exact answered")
MONTHS = (b"Jan", b"Feb", b"Mar", b"Apr", b"May", b"Jun", b"Jul", b"Aug", b"Sep", b"Oct", b"Nov", b"Dec")
LOCAL_TIME = re.compile(rb"(\d\d)/([A-Z][a-z]{2})/(\d{4}):(\d\d):(\d\d):(\d\d) ([+-]\d\d)(\d\d)")
WHOLE_DIGITS, PART_DIGITS = 17, 20  # of a number, before and after its point
REQUEST_NAMES = ({"request"}, {"request_method", "request_uri"})
VALUES = {  # of these variables more is known
    "status": "[0-9]{3}|-", "server_port": "[0-9]+", "host": r'\[[^\] ]*\]|[^ :"]*', "duration_us": "[0-9]+",
    REST: "(?: .*)?",
}
QUOTED = r'[^"\\]*+(?:\\.[^"\\]*+)*+'
VARIABLE = re.compile(r"\$(?:\{(\w+)\}|(\w+)|)", re.ASCII)
DIRECTIVE = re.compile(r"%U%q|%[!0-9,]*[<>]?(?:\{([^}]*)\})?([a-zA-Z%])")
APACHE = {
    "h": "remote_addr", "a": "remote_addr", "l": "remote_identity", "u": "remote_user", "r": "request", "s": "status",
    "v": "host", "V": "host", "p": "server_port", "m": "request_method", "U": "request_uri", "H": "server_protocol",
    "D": "duration_us", "b": "body_bytes_sent", "B": "body_bytes_sent",
}
APACHE_TIMES = {"s": "duration_s", "ms": "duration_ms", "us": "duration_us"}
# HAProxy's configuration manual, 8.2.3 and 8.4: when the first byte of a request came, and in milliseconds how long it
# took to come whole; how long it waited in queues and for a connection, and the server's answer to begin. Each is -1
# where it didn't come to that.
HAPROXY_BEGIN = re.compile(rb"([^ ]+)\.(\d{3})\] [^ ]+ [^ ]+ (-?\d+)")
HAPROXY_ESCAPE = re.compile(rb"#([0-9A-F]{2})")
ABSOLUTE = re.compile(rb"([^ ]+) https?://([^/?# ]+)/?([^ ]*) (HTTP/[0-9.]+)")
CADDY = {  # nginx's names for what Caddy's log has, the first of several places that is there
    "msec": ("ts",), "request_time": ("duration",), "request_method": ("request.method",),
    "request_uri": ("request.uri",), "server_protocol": ("request.proto",), "http_host": ("request.host",),
    "remote_addr": ("request.client_ip", "request.remote_ip"), "status": ("status",), "body_bytes_sent": ("size",),
    "http_referer": ("request.headers.Referer",), "http_user_agent": ("request.headers.User-Agent",),
    "http_if_modified_since": ("request.headers.If-Modified-Since",),
    "http_if_none_match": ("request.headers.If-None-Match",),
}

# A variable of a format: its name, how the format writes it, and the pattern of its values where that is its own.
Variable = collections.namedtuple("Variable", "name shown value", defaults=(None,))


def scaled(value, ticks):
    """A decimal number in units of so many microseconds, as microseconds; None where it is no such number."""
    whole, point, part = value.partition(b".")
    digits = whole + part
    if not digits.isdigit() or not 0 < len(whole) <= WHOLE_DIGITS or bool(point) != (0 < len(part) <= PART_DIGITS):
        return None
    return int(digits) * ticks // 10**len(part)


@functools.lru_cache(maxsize=64)
def local_time(value):
    """Microseconds since 1970 of a time as 23/Nov/2026:06:02:20 +0000; None where it is none."""
    found = LOCAL_TIME.fullmatch(value)
    if not found or found[2] not in MONTHS:
        return None
    day, month, year, hour, minute, second, zone_hours, zone_minutes = found.groups()
    return iso_time(b"%b-%02d-%bT%b:%b:%b%b:%b" % (
        year, MONTHS.index(month) + 1, day, hour, minute, second, zone_hours, zone_minutes))


@functools.lru_cache(maxsize=64)
def iso_time(value):
    """Microseconds since 1970, in whole seconds, of a time as 2026-11-23T06:02:20+00:00; None where it is none."""
    try:
        time = datetime.datetime.fromisoformat(value.decode().replace("Z", "+00:00"))
        seconds = int(time.timestamp()) if time.tzinfo else -1
    except (ValueError, OverflowError):
        return None
    return seconds * TICKS_IN_SECOND if seconds >= 0 else None


def seconds(value):
    """Microseconds of seconds."""
    return scaled(value, TICKS_IN_SECOND)


def milliseconds(value):
    """Microseconds of milliseconds."""
    return scaled(value, 1000)


def microseconds(value):
    """Microseconds of microseconds."""
    return scaled(value, 1)


def haproxy_begin(value):
    """When the request of a line of HAProxy was whole."""
    found = HAPROXY_BEGIN.fullmatch(value)
    time = found and local_time(found[1] + b" +0000")
    return None if time is None else time + 1000 * (int(found[2]) + max(0, int(found[3])))


def haproxy_timers(value):
    """Microseconds of HAProxy's timers Tw/Tc/Tr together; None where the server didn't answer."""
    times = [int(time) for time in value.split(b"/")]
    return 1000 * sum(times) if min(times) >= 0 else None


# The best comes first. nginx and Caddy log when the answer was sent; Apache when a worker took the request, HAProxy
# when it came.
TIMES = {
    "msec": Time(seconds, True, True),
    "end_usec": Time(microseconds, True, True), "end_msec": Time(milliseconds, True, True),
    "begin_usec": Time(microseconds, True, False), "begin_msec": Time(milliseconds, True, False),
    "haproxy_begin": Time(haproxy_begin, True, False),
    "time_iso8601": Time(iso_time, False, True), "time_local": Time(local_time, False, True),
    "end_sec": Time(seconds, False, True),
    "begin_sec": Time(seconds, False, False), "begin_local": Time(local_time, False, False),
}
APACHE_DURATIONS = {"duration_us": microseconds, "duration_ms": milliseconds, "duration_s": seconds}
DURATIONS = {"request_time": seconds, **APACHE_DURATIONS, "haproxy_timers": haproxy_timers}


def nginx_tokens(text):
    """The parts of a format in nginx's notation: texts and variables."""
    tokens, at = [], 0
    for variable in VARIABLE.finditer(text):
        name = variable[1] or variable[2]
        if not name:
            raise Fault("--log-format: no name of a variable after $ at column %d" % (variable.start() + 1), 2)
        tokens += [text[at:variable.start()], Variable(name, "$" + name)]
        at = variable.end()
    return [token for token in (*tokens, text[at:]) if token]


def apache_tokens(text):
    """The parts of a format in Apache's notation, with nginx's names for its directives where it has them."""
    text = text.replace('\\"', '"')
    tokens, at = [], 0
    for directive in DIRECTIVE.finditer(text):
        tokens.append(text[at:directive.start()])
        tokens += apache_directive(directive[0], directive[1], directive[2])
        at = directive.end()
    return [token for token in (*tokens, text[at:]) if token]


def apache_directive(whole, argument, letter):
    """The parts of a format that one of Apache's directives stands for."""
    if letter == "%":
        return ["%"]
    if letter == "t" and argument is None:
        return ["[", Variable("begin_local", whole), "]"]
    if letter == "t":
        moment, _, unit = argument.rpartition(":")
        return [Variable("%s_%s" % (moment or "begin", unit), whole)]
    name = APACHE.get(letter, "unknown")
    if whole == "%U%q":
        name = "request_uri"
    elif letter == "T":
        name = APACHE_TIMES.get(argument or "s", "unknown")
    elif letter == "i":
        name = "http_" + (argument or "").lower().replace("-", "_")
    return [Variable(name, whole)]


def joined(tokens):
    """Tokens, with texts that follow one another as one."""
    result = []
    for token in tokens:
        if result and isinstance(token, str) and isinstance(result[-1], str):
            result[-1] += token
        else:
            result.append(token)
    return result


def haproxy_tokens():
    """The parts of HAProxy's httplog and httpslog, before which may stand what syslog writes, up to a colon."""
    begin = r"[^ \]]+\] [^ ]+ [^ ]+ -?[0-9]+"
    return [Variable("before", "", r'(?:[^"]*?: )??'), Variable("remote_addr", "%ci", "[^ ]+"), ":",
            Variable("port", "%cp", "[0-9]+"), " [", Variable("haproxy_begin", "%tr", begin), "/",
            Variable("haproxy_timers", "%Tw/%Tc/%Tr", "-?[0-9]+(?:/-?[0-9]+){2}"), "/", Variable("all", "%Ta"), " ",
            Variable("status", "%ST", "[0-9]{3}|-1"), " ", Variable("body_bytes_sent", "%B"), " ",
            Variable("marks", "", "[^ ]+(?: [^ ]+){4} (?:[{][^}]*[}] )*"), '"', Variable("request", "%r", '[^"]*'), '"',
            Variable(REST, "", VALUES[REST])]


class LineFormat:
    """A format of lines; a value reaches to the first letter that follows its variable in the format.

    Between quotes a value may hold escapes, a quote among them.
    """

    escaped = True  # whether values may hold escapes

    def __init__(self, name, tokens, read=None):
        """Takes a name, the format's parts, and the variables whose values are read; without these all of READ."""
        self.name = name
        self.read = READ if read is None else read
        self.tokens = joined(tokens)
        variables = [token for token in self.tokens if isinstance(token, Variable)]
        self.names = [variable.name for variable in variables]
        self.shown = {variable.name: variable.shown for variable in variables}
        check_variables(self.names)
        self.parts = [self._part(place) for place in range(len(self.tokens))]
        self.pattern = re.compile("".join(self.parts).encode(), re.DOTALL)
        self.match = self.pattern.fullmatch

    def _part(self, place):
        """The pattern of a token."""
        token, follower = self.tokens[place], self.tokens[place + 1] if place + 1 < len(self.tokens) else ""
        if isinstance(token, str):
            return re.escape(token)
        name, is_beside = token.name, isinstance(follower, Variable)
        if is_beside and not token.value and follower.name != REST:
            raise Fault("--log-format: nothing parts %s from the next variable" % token.shown, 2)
        until = re.escape(" " if is_beside else follower[:1])
        unquoted = "[^%s]*+" % until if until else ".*"
        value = token.value or VALUES.get(name) or (QUOTED if until == '"' else unquoted)
        earlier = [other.name for other in self.tokens[:place] if isinstance(other, Variable)]
        is_read = name in self.read and name not in earlier
        return "(?P<%s>%s)" % (name, value) if is_read else "(?:%s)" % value

    def reading(self, names):
        """The same format, of whose values these alone are read, which is quicker."""
        return type(self)(self.name, self.tokens, names)

    def values(self, line):
        """The values of a line's variables that are read, by name; None where it doesn't fit."""
        found = self.match(line)
        return found and found.groupdict()

    def fits_to(self, line):
        """How many bytes at a line's begin fit the begin of the format."""
        for count in range(len(self.parts), -1, -1):
            found = re.match("".join(self.parts[:count]).encode(), line, re.DOTALL)
            if found:
                break
        following = self.tokens[count] if count < len(self.tokens) else ""
        text = following.encode() if isinstance(following, str) else b""
        return found.end() + len(os.path.commonprefix([text, line[found.end():]]))


class HaproxyFormat(LineFormat):
    """Lines of HAProxy, in which a request of HTTP/2 has its host in its target."""

    escaped = False

    def values(self, line):
        """As above."""
        values = super().values(line)
        if values is None or "request" not in values:
            return values
        request = HAPROXY_ESCAPE.sub(lambda found: bytes.fromhex(found[1].decode()), values["request"])
        found = ABSOLUTE.fullmatch(request)
        if found:
            request, values["http_host"] = b"%b /%b %b" % (found[1], found[3], found[4]), found[2]
        return {**values, "request": request}


class JsonFormat:
    """Lines that are JSON objects, whose keys are nginx's names of variables."""

    escaped = False
    name = JSON

    def __init__(self, line):
        """Takes the names from a line that is such an object; raises Fault where it has too few."""
        self.names = list(self.values(line) or ())
        self.shown = {name: name for name in READ}
        check_variables(self.names)

    def reading(self, _):
        """The same format: of an object all values are read anyway."""
        return self

    def values(self, line):
        """The values of a line's variables that are read, by name; None where it is no object."""
        try:
            found = json.loads(line.decode("utf-8", "surrogateescape"), parse_int=str, parse_float=str)
            return {name: value.encode("utf-8", "surrogateescape") for name, value in self.fields(found)
                    if isinstance(value, str)}
        except (ValueError, AttributeError, RecursionError):
            return None

    def fields(self, found):
        """The fields of an object, by nginx's names."""
        return [(name, value) for name, value in found.items() if name in READ]

    def fits_to(self, line):
        """How many bytes at a line's begin are JSON."""
        try:
            json.loads(line.decode("latin-1"))
        except json.JSONDecodeError as error:
            return error.pos
        except RecursionError:
            return 0
        return len(line)


def field_at(found, path):
    """What stands in an object at a path of keys, of a list the first; None where nothing does."""
    for key in path.split("."):
        found = found.get(key) if isinstance(found, dict) else None
    return found[0] if isinstance(found, list) and found else found


class CaddyFormat(JsonFormat):
    """Lines of Caddy's access log."""

    name = "caddy"

    def __init__(self):
        self.names = list(CADDY)
        self.shown = {name: paths[-1] for name, paths in CADDY.items()}

    def fields(self, found):
        """As above; a line of another log of Caddy's has none."""
        if not found.get("logger", "").startswith("http.log.access"):
            raise ValueError
        return [(name, field_at(found, path)) for name, paths in CADDY.items() for path in reversed(paths)]


# The variables whose values are read; over others one reads.
READ = {*TIMES, *DURATIONS, "request", "request_method", "request_uri", "server_protocol", "http_host", "host",
        "http_referer", "http_user_agent", "http_if_modified_since", "http_if_none_match", "remote_addr", "status",
        "body_bytes_sent", "upstream_response_time", "upstream_connect_time"}


def check_variables(names):
    """Raises Fault where the variables of a format tell no request or no time."""
    if not any(needed <= set(names) for needed in REQUEST_NAMES):
        raise Fault("--log-format: needs $request, or $request_method and $request_uri (Apache: %r, or %m and %U%q)", 2)
    if not set(names) & set(TIMES):
        raise Fault("--log-format: needs one of $msec, $time_iso8601, $time_local (Apache: %t, %{msec}t, %{usec}t, or "
                    "these with end:)", 2)


NAMED = {  # what makes the formats with names, but for JSON; the first of those that fit equally many lines is taken
    **{name: functools.partial(LineFormat, name, nginx_tokens(text)) for name, text in TEXTS.items()},
    "haproxy": functools.partial(HaproxyFormat, "haproxy", haproxy_tokens()), "caddy": CaddyFormat,
}


def given_format(text):
    """The format that --log-format names, which isn't JSON, or writes out."""
    if text in NAMED:
        return NAMED[text]()
    is_apache = "$" not in text and "%" in text
    return LineFormat("as given", apache_tokens(text) if is_apache else nginx_tokens(text))


def lacking(values, needed):
    """The first of the needed variables that a line lacks, where it has another of them; else None."""
    absent = [name for name in needed if values.get(name) in ABSENT]
    return absent[0] if 0 < len(absent) < len(needed) else None
