#!/usr/bin/env python3
"""Reads a replies text with Python's http.client, an HTTP client that isn't ours.

    checks/read_replies.py [--head N[,N..]] [FILE]

Reads FILE, or standard input. The text is taken apart into its records, and then the replies of each connection, laid
one after another as they stand on the wire, are read one by one by http.client. Each has to have the number, the
status line, the fields and the body that it should, and nothing may be left over. With --head the numbers of the
messages that asked by HEAD are given; without it a reply counts as an answer to HEAD where its head is followed by no
byte although it tells of some. Prints how many replies were read. Exits with 1 at the first reply that is not right,
with 2 where the text is no replies text.
"""
import email.utils
import http.client
import io
import sys

from lib.run import contents
from lib.usage import parser_of

REASONS = {
    200: "OK",
    301: "Moved Permanently",
    304: "Not Modified",
    400: "Bad Request",
    404: "Not Found",
    405: "Method Not Allowed",
    413: "Content Too Large",
    501: "Not Implemented",
    503: "Service Unavailable",
}
ORDER = ["Date", "Content-Type", "Content-Length", "Last-Modified", "Location", "Allow", "Retry-After", "Connection"]


class NoRepliesText(Exception):
    """The text is no replies text."""


class BadReply(Exception):
    """A reply is not right."""


class FakeSocket:
    """What http.client asks of a socket, over bytes in memory."""

    def __init__(self, stream):
        self.stream = stream

    def makefile(self, mode):
        return Unclosed(self.stream)


class Unclosed(io.RawIOBase):
    """A view of the stream that http.client may close, and that never reads past what it was asked for."""

    def __init__(self, stream):
        self.stream = stream

    def readable(self):
        return True

    def readinto(self, room):
        return self.stream.readinto(room)

    def readline(self, limit=-1):
        return self.stream.readline(limit)

    def read(self, count=-1):
        return self.stream.read(count)

    def peek(self, count=0):
        return b""


def line_of(text, at):
    """The line at a place, and the place after it."""
    end = text.find(b"\n", at)
    if end < 0:
        raise NoRepliesText("a line has no end at byte %d" % at)
    return text[at:end].decode("ascii"), end + 1


def records_of(text):
    """The records of a replies text: number, connection, bytes."""
    line, at = line_of(text, 0)
    if line != "haboob-replies 1":
        raise NoRepliesText("the first line is %r" % line)
    records = []
    while True:
        line, at = line_of(text, at)
        words = line.split(" ")
        if words[0] == "stop" and len(words) == 2:
            if words[1] != str(len(records)) or at != len(text):
                raise NoRepliesText("the last line is %r, after %d replies" % (line, len(records)))
            return records
        if words[0] != "reply" or len(words) != 4 or words[1] != str(len(records)):
            raise NoRepliesText("reply %d begins with %r" % (len(records), line))
        size = int(words[3])
        reply = text[at : at + size]
        if len(reply) != size or text[at + size : at + size + 1] != b"\n":
            raise NoRepliesText("reply %d does not end after %d bytes" % (len(records), size))
        records.append((len(records), int(words[2]), reply))
        at += size + 1


def asked_by_head(reply):
    """Whether a reply tells of a body and has none."""
    head, end, body = reply.partition(b"\r\n\r\n")
    for line in head.split(b"\r\n"):
        name, _, value = line.partition(b":")
        if name.lower() == b"content-length":
            return not body and int(value) > 0
    return False


def want(condition, number, what):
    if not condition:
        raise BadReply("reply %d: %s" % (number, what))


def seconds(date, number):
    """The second of a date in the one format that a server writes."""
    parsed = email.utils.parsedate_to_datetime(date)
    want(email.utils.format_datetime(parsed, usegmt=True) == date, number, "the date %r" % date)
    return parsed.timestamp()


def check_fields(number, status, fields):
    """The fields that belong to a status, in their order."""
    names = [name for name, _ in fields]
    want(names == [name for name in ORDER if name in names], number, "the fields %r" % names)
    value = dict(fields)
    wanted = {"Date"}
    if status != 304:
        wanted |= {"Content-Type", "Content-Length"}
    if status in (200, 304):
        wanted.add("Last-Modified")
    wanted |= {301: {"Location"}, 405: {"Allow"}, 503: {"Retry-After"}}.get(status, set())
    want(set(names) - {"Connection"} == wanted, number, "the fields %r at %d" % (names, status))
    want(value.get("Connection") in (None, "close", "keep-alive"), number, "Connection")
    want(value.get("Allow") in (None, "GET, HEAD"), number, "Allow")
    want(value.get("Retry-After", "0").isdigit(), number, "Retry-After")
    want(value.get("Location", "/").startswith("/"), number, "Location")
    date = seconds(value["Date"], number)
    if "Last-Modified" in value:
        want(seconds(value["Last-Modified"], number) <= date, number, "Last-Modified later than Date")


def check_reply(number, head, stream):
    """Reads one reply from the front of a connection."""
    response = http.client.HTTPResponse(FakeSocket(stream), method="HEAD" if head else "GET")
    response.begin()
    body = response.read()
    status = response.status
    want(response.version == 11, number, "the version")
    want(REASONS.get(status) == response.reason, number, "the status %d %r" % (status, response.reason))
    check_fields(number, status, response.getheaders())
    if head or status == 304:
        want(body == b"", number, "a body")
        return
    want(len(body) == int(response.getheader("Content-Length")), number, "the length of the body")
    if status != 200:
        want(body == b"%d %s\n" % (status, response.reason.encode()), number, "the body %r" % body)


def main():
    parser = parser_of(__doc__, runs_program=False)
    parser.add_argument("--head", default=None, help="the numbers of the messages that asked by HEAD")
    parser.add_argument("file", metavar="FILE", nargs="?")
    words = parser.parse_args()
    text = sys.stdin.buffer.read() if words.file is None else contents(words.file)
    heads = None if words.head is None else {int(n) for n in words.head.split(",") if n}
    connections = {}
    try:
        records = records_of(text)
        for number, conn, reply in records:
            head = asked_by_head(reply) if heads is None else number in heads
            connections.setdefault(conn, []).append((number, head, reply))
        for replies in connections.values():
            stream = io.BytesIO(b"".join(reply for _, _, reply in replies))
            at = 0
            for number, head, reply in replies:
                check_reply(number, head, stream)
                at += len(reply)
                want(stream.tell() == at, number, "it ends at byte %d and not %d" % (stream.tell(), at))
    except NoRepliesText as fault:
        print("no replies text:", fault, file=sys.stderr)
        return 2
    except (BadReply, http.client.HTTPException, ValueError, TypeError) as fault:
        print("wrong:", fault or type(fault).__name__, file=sys.stderr)
        return 1
    print("%d replies on %d connections were read" % (len(records), len(connections)))
    return 0


if __name__ == "__main__":
    sys.exit(main())
