"""Takes out of the requests of connections what isn't to stand in a capture."""
import re

from . import tool_run
from .capture_writer import BLOCK_LIMIT, CONTENT_LENGTH, body_length

h11 = tool_run.library("h11")

HEAD_END = re.compile(rb"\r?\n\r?\n")
EMPTY_LINES = (b"\n", b"\r\n")
BODY_LIMIT = 65_536  # bytes of a body that the server reads
PASSED = 4_096  # bytes of a head that are passed on before it is known how long it is
HELD = 65_536  # bytes of a head that are held; one that has no end by then isn't looked at
MATTERS = (b"host", b"connection", b"if-modified-since", b"if-none-match")  # fields on which an answer depends
LENGTHS = (b"content-length", b"transfer-encoding")
BODY_ROOM = 131_072  # bytes of a line among chunks that are waited for
DIGITS = re.compile(rb"[0-9]{1,15}")
REDUCED = "requests with a body in chunks or above 65,536 bytes, or a head above 8,192, written without"
BROKEN = "connections ended by a body whose chunks are broken"


def body_reader(field):
    """What reads the body of a request, of which a field tells the length."""
    reader = h11.Connection(h11.SERVER, BODY_ROOM)
    reader.receive_data(b"POST / HTTP/1.1\r\nHost: a\r\n%b\r\n\r\n" % field)
    reader.next_event()
    return reader


class RequestEditor:
    """Takes fields out of the requests of one connection's text. Where it reduces, it makes requests without bodies of
    those that a replay refuses for chunks or for the length of their heads or bodies, so that the connection goes on.

    What comes is passed on at once, but for a line that may be one to be taken out, which is held until its end, and a
    long head. So each head ends in the same piece as without this; that of a reduced request where its body ends.
    """

    def __init__(self, names, reduces, remarks):
        """Takes the names of the fields, and a counter for REDUCED and BROKEN."""
        self.names = [name.lower() for name in names]
        self.looked_for = (*self.names, *LENGTHS) if reduces else tuple(self.names)
        self.of_interest = re.compile(b"\n(?:%b)[ \t]*:" % b"|".join(map(re.escape, self.looked_for)), re.IGNORECASE)
        self.reduces, self.remarks = reduces, remarks
        self.held = b""
        self.is_raw = self.is_over = False  # whether all that comes stays, or nothing of it
        self.body, self.end = None, b""  # what reads a body that is taken out; the end of its head, which waits for it
        self.left = 0  # bytes that are still to come of a body that stays
        self.begin_head()

    def begin_head(self):
        """Gets ready for the next head."""
        self.head = b""  # what has come of it
        self.next_body = None  # the field that tells the length of a body that is to be taken out
        self.is_known = self.is_long = False  # whether its length is known, and beyond the limit
        self.is_within = False  # whether what comes next is within a line
        self.stays = True  # whether the last line does

    def feed(self, data):
        """Takes the connection's next bytes, and returns those that stay."""
        if self.is_plain(data):
            return data
        text, at, kept = self.held + data, 0, []
        self.held = b""
        while at < len(text) and not self.is_over:
            if self.body:
                at = self.skip_body(text, at, kept)
            elif self.left or self.is_raw:
                end = len(text) if self.is_raw else min(len(text), at + self.left)
                kept.append(text[at:end])
                self.left, at = max(0, self.left - (end - at)), end
            elif self.goes_on(text, at):
                end = text.find(b"\n", at) + 1 or len(text)
                kept.append(text[at:end] if self.is_raw else self.take(text[at:end]))
                at = end
            else:
                self.held, at = text[at:], len(text)
        return b"".join(kept)

    def is_plain(self, data):
        """Whether what comes is whole heads after others, of which nothing is to be taken out: so it mostly is."""
        return not (self.held or self.head or self.body or self.left or self.is_raw or self.is_over) and (
            len(data) <= BLOCK_LIMIT and data.endswith(b"\r\n\r\n") and not self.of_interest.search(data))

    def goes_on(self, text, at):
        """Whether enough has come of a head to take its next line, or what there is of it."""
        if self.head or text[at:at + 1] not in (b"\r", b"\n"):
            if self.reduces and not self.is_known and not self.measure(text, at):
                return False
        begin = text[at:].lower() if text.find(b"\n", at) < 0 and not self.is_within else b"\n"
        return begin != b"\r" and not (self.head and any(
            name.startswith(begin[:len(name)]) for name in self.looked_for))

    def measure(self, text, at):
        """Looks how long a head is; tells whether that is known, or so little has come that it needn't be."""
        if not self.is_within and text.startswith(EMPTY_LINES, at):
            return True
        found = HEAD_END.search(text, at, at + HELD)
        length = len(self.head) + (found.end() if found else len(text)) - at
        self.is_known, self.is_long = bool(found), bool(found) and length > BLOCK_LIMIT
        self.is_raw = not found and length > HELD
        return self.is_known or self.is_raw or length <= PASSED

    def take(self, line):
        """Takes a line of a head, or a part of one; returns what stays of it."""
        begins, self.is_within = not self.is_within, not line.endswith(b"\n")
        if begins and line in EMPTY_LINES:
            return self.end_head(line) if self.head else line
        is_cut = not begins and self.is_long and b"\n" in self.head  # a field of a long head, of which a part stays
        self.head += line
        if begins:
            self.stays = self.is_to_stay(line)
        return (b"\r\n" if is_cut else line) if self.stays else b""

    def is_to_stay(self, line):
        """Whether a line of a head, which begins here, stays."""
        name, _, value = line.lower().partition(b":")
        name, value = name.strip(), value.strip()
        if len(self.head) == len(line) or line[:1] in b" \t":
            return self.stays
        if name in self.names or not self.reduces:
            return name not in self.names
        if name == LENGTHS[1] and value.endswith(b"chunked") and not CONTENT_LENGTH.search(self.head):
            self.next_body = b"Transfer-Encoding: chunked"
        elif name == LENGTHS[0] and not self.next_body and DIGITS.fullmatch(value) and int(value) > BODY_LIMIT:
            self.next_body = b"Content-Length: " + value
        if name in LENGTHS:
            return not self.next_body
        return not self.is_long or name in MATTERS

    def end_head(self, line):
        """Takes the end of a head; returns what stays of it now."""
        self.remarks[REDUCED] += self.is_long or self.next_body is not None
        self.body, self.end = self.next_body and body_reader(self.next_body), line
        self.left = 0 if self.body else body_length(self.head + line)
        self.begin_head()
        return b"" if self.body else line

    def skip_body(self, text, at, kept):
        """Reads over a body, as far as it has come; returns the place after it."""
        try:
            self.body.receive_data(text[at:])
            while (event := self.body.next_event()) is not h11.NEED_DATA and type(event) is not h11.EndOfMessage:
                pass
            if event is h11.NEED_DATA:
                return len(text)
        except h11.RemoteProtocolError:
            self.is_over = True
            self.remarks[BROKEN] += 1
        kept.append(self.end)
        rest = len(self.body.trailing_data[0])
        self.body = None
        return len(text) - rest
