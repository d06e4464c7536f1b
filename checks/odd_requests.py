"""The folder that against_nginx.py serves, and what it asks: names, requests and oddities.

Requests are made of parts, in keywords of `request_of`; an oddity is a part, or a few, that isn't as in the plainest
request. Some oddities keep all rules and only look odd; others break one.
"""
import os
import re
import time
import urllib.parse

import compare_replays
import reference

NAMES = [
    "index.html", "about.html", "page.htm", "style.css", "code.js", "data.json", "notes.txt", "drawing.svg",
    "picture.png", "photo.jpg", "photo.jpeg", "moving.gif", "SHOUT.HTML", "mixed.JpEg", "README", "a.b.c",
    "archive.tar.gz", "ends.", "dots...txt", ".hidden", ".html", "with space.txt", "two  spaces.css", "percent%.txt",
    "percent%41.txt", "plus+plus.txt", "and&and.txt", "tilde~.txt", "semi;colon.txt", 'quote".txt',
    "back\\slash.txt", "question?.txt", "hash#.txt", "colon:.txt", "at@.txt", "star*.txt", "equals=.txt", "[1].txt",
    "caret^|`.txt", "line\nfeed.txt", "tab\t.txt", "bell\x07.txt", "delete\x7f.txt", "\u00fcmlaut.html",
    "\u65e5\u672c\u8a9e.txt", "\U0001f42a.png", "e\u0301.txt", "\u202e.txt", "n" * 255, "docs/index.html",
    "docs/deep/er/index.html", "docs/deep/no_index.txt", "docs/style.CSS", "folder with space/index.html",
    "folder with space/\u00fc.css", "dot.folder/x", "plain/only.txt", ".../three.txt", "..a/b.txt", "%2e%2e/c.txt",
    "a&b=c/d+e.js", "odd/index.html/inner.txt", "~user/index.html", "\u00e9/index.html",
]
EMPTY_NAMES = [b"empty", b"empty.html", b"docs/empty.json"]
LARGE_NAMES = [(b"large.bin", 3_000_000), (b"medium.txt", 150_000)]
FUTURE, EARLY = b"future.txt", b"early.txt"
HOLLOW = b"hollow"  # a folder without files

MISSING = [
    b"/missing", b"/missing/", b"/docs/missing.html", b"/about.html/", b"/about.html/x", b"/ABOUT.html",
    b"/about.htm", b"/docs/deep/../x", b"/%ff", b"/%c3%28.txt", b"/index.html/.", b"/README/..x",
    b"/README/index.html", b"/" + b"m" * 300, b"/e%CC%81.tx", b"/percentA.txt",
]
FOLDER_TARGETS = [
    b"/", b"//", b"/.", b"/./", b"/docs/", b"/docs", b"/docs/.", b"/docs/deep/..", b"/docs/deep/../", b"/docs//",
    b"///docs/", b"/docs/deep/er", b"/docs/deep/er/", b"/docs/%2e", b"/docs/deep/%2E%2e", b"/%64ocs",
    b"/folder%20with%20space", b"/folder%20with%20space/", b"/plain", b"/~user", b"/%7Euser/", b"/%7euser",
    b"/\xc3\xa9", b"/%c3%a9", b"/%C3%A9/", b"/..a", b"/...", b"/.../", b"/a&b=c", b"/a%26b%3dc", b"/%252e%252e",
    b"/dot.folder", b"/docs?query", b"/docs/?query", b"/docs?", b"/docs/deep?a=/../b", b"/odd",
]
ODD_TARGETS = [
    b"/hollow", b"/hollow/", b"/odd/", b"/odd/.", b"/plain/", b"/docs/deep/", b"/docs%2Findex.html", b"/docs%2f",
    b"/%2Fabout.html", b"/docs/deep%2f..%2findex.html", b"/docs%5Cindex.html", b"/..%2f", b"/about.html%00",
    b"/about.html%00.txt", b"/%2e%2e", b"/%2e%2e/about.html", b"/docs/../..", b"/docs/../../about.html", b"/.%2e/",
    b"/docs/..%2e/", b"/#", b"/about.html#top", b"/about.html?a#b", b"/about.html?%zz", b"/about.html%",
    b"/about.html%4", b"/%G1", b"/about.html?", b"/about.html??", b"http://a", b"http://a/", b"http://a/about.html",
    b"http://a/about.html?q", b"http://a?q", b"http://b:80/docs", b"HTTP://A/docs/", b"http://user@a/about.html",
    b"http://[::1]:80/about.html", b"http://a:/about.html", b"http://a:99999/", b"http://a..b/",
    b"http:///about.html", b"http://a#x", b"https://a/about.html", b"ftp://a/about.html", b"http:about.html",
    b"http:/about.html", b"a:80", b"*", b"about.html", b"./about.html", b"../about.html", b"?", b"/\xfc", b"/\xff?x",
    b"/about.html?\xff", b"/about.html?\xc3\xa9", b'/quote".txt', b"/back\\slash.txt", b"/caret^|`.txt", b"/{}<>",
    b"/" + b"x/" * 400 + b"../" * 400 + b"about.html", b"/" + b"s" * 4000, b"/about.html?" + b"q" * 8140,
    b"/about.html?" + b"q" * 9000, b"/bell\x07.txt", b"/delete\x7f.txt",
]
ODD_METHODS = (
    b"PATCH", b"PROPFIND", b"COPY", b"get", b"Get", b"GETS", b"G", b"HEADER", b"M-SEARCH", b"A_B", b"A.B", b"!x~",
    b"G@T", b"(", b"", b"\x80\x03",
)
ODD_VERSIONS = [
    b"HTTP/1.0", b"HTTP/1.2", b"HTTP/1.9", b"HTTP/2.0", b"HTTP/0.9", b"HTTP/3", b"HTTP/1", b"HTTP/1.", b"HTTP/1.10",
    b"HTTP/01.1", b"HTTP/1.1 ", b"HTTP/1.1x", b"HTTP/1.1 x", b"http/1.1", b"HTCPCP/1.0", b"", b"\tHTTP/1.1",
]
HOST_LINES = [
    [], [b"Host:"], [b"Host: "], [b"Host: a", b"Host: a"], [b"Host: a", b"host: b"], [b"Host:a"],
    [b"hOST:\t[::1]:80 "], [b"Host: a:80"], [b"Host: a:"], [b"Host: a:b"], [b"Host: a:99999"], [b"Host: a b"],
    [b"Host: a/b"], [b"Host: http://a/"], [b"Host: \xc3\xa9"], [b"Host: user@a"], [b"Host: %zz"], [b"Host: a..b"],
    [b"Host: .a"], [b"Host: a."], [b"Host: a,b"], [b"Host: a_b"], [b"Host: \"a\""], [b"Host: a\\b"], [b"Host: a?b"],
    [b"Host: a#b"], [b"Host: <a>"], [b"Host: [::1"], [b"Host: ::1"], [b"Host: a\x01"], [b"Host : a"], [b" Host: a"],
    [b"Host: a\tb"], [b"Host: " + b"a" * 300], [b"Host: *"], [b"Host: $&'()+!;=~"],
]
CONNECTION_LINES = [
    [b"Connection: close"], [b"Connection: keep-alive"], [b"Connection: Keep-Alive"], [b"Connection: CLOSE"],
    [b"connection: x ,\tclose\t ,"], [b"Connection: x, keep-alive"], [b"Connection: keep-alive", b"Connection: x"],
    [b"Connection: keep-alive", b"Connection: close"], [b"Connection: close", b"Connection: keep-alive"],
    [b"Connection: close, keep-alive"], [b"Connection: keep-alive, close"], [b"Connection: closed"],
    [b"Connection: x-close"], [b"Connection: keep-alives"], [b"Connection:"],
    [b"Connection: upgrade", b"Upgrade: h2c"], [b"Connection: \"close\""], [b"Connection: close;x"],
    [b"Connection: clos e"], [b"Proxy-Connection: close"], [b"Keep-Alive: timeout=1"],
]
# Each with the bytes that follow the head.
LENGTH_LINES = [
    ([b"Content-Length: 0"], b""), ([b"Content-Length: 007"], b"ab\r\ncd\n"), ([b"content-length:\t3 "], b"a b"),
    ([b"Content-Length: +3"], b"abc"), ([b"Content-Length: -3"], b"abc"), ([b"Content-Length:"], b""),
    ([b"Content-Length: 3, 3"], b"abc"), ([b"Content-Length: 3 3"], b"abc"), ([b"Content-Length: 0x3"], b"abc"),
    ([b"Content-Length: 3.0"], b"abc"), ([b"Content-Length: 3", b"Content-Length: 3"], b"abc"),
    ([b"Content-Length: 3", b"Content-Length: 4"], b"abcd"), ([b"Content-Length: 4", b"Content-Length: 3"], b"abc"),
    ([b"Content-Length: 0", b"Content-Length: 0"], b""), ([b"Content-Length: " + b"9" * 30], b"abc"),
    ([b"Content-Length: " + b"0" * 40 + b"3"], b"abc"), ([b"Content-Length: 18446744073709551619"], b"abc"),
    ([b"Content-Length: 65537"], b"x" * 65_537), ([b"Content-Length: 65536"], b"x" * 65_536),
    ([b"Content-Length: 9"], b"abc"), ([b"Content_Length: 3"], b""), ([b"Content-Length : 3"], b"abc"),
    ([b"Content-Length: 3;x"], b"abc"),
]
CHUNKED = b"3\r\nabc\r\n0\r\n\r\n"
CODING_LINES = [
    ([b"Transfer-Encoding: chunked"], CHUNKED), ([b"transfer-encoding: Chunked"], CHUNKED),
    ([b"Transfer-Encoding: chunked"], b"zz\r\n"), ([b"Transfer-Encoding: chunked"], b"0\r\nTrailer: x\r\n\r\n"),
    ([b"Transfer-Encoding: gzip, chunked"], CHUNKED), ([b"Transfer-Encoding: identity"], b""),
    ([b"Transfer-Encoding:"], b""), ([b"Transfer-Encoding: xchunked"], CHUNKED),
    ([b"Transfer-Encoding: chunked", b"Content-Length: 13"], CHUNKED),
    ([b"Content-Length: 3", b"Transfer-Encoding: chunked"], CHUNKED),
    ([b"Transfer-Encoding: chunked", b"Transfer-Encoding: chunked"], CHUNKED),
    ([b"Transfer-Encoding : chunked"], CHUNKED), ([b"Transfer_Encoding: chunked"], b""),
]
ODD_LINES = [
    [b"X:y"], [b"X:  y  "], [b"X:\ty\t"], [b"X:"], [b"X: \xc3\xa9"], [b"X: a\x01b"], [b"X: \x1b[1m"],
    [b"X: a", b" b"], [b"X: a", b"\tb"], [b"X: a", b" "], [b"X"], [b"X Y: a"], [b"X\t: a"], [b":"], [b" "],
    [b"X\x00: a"], [b"X[]: a"], [b"X/Y: a"], [b"X\"Y: a"], [b"X@Y: a"], [b"X_Y.Z!: a"], [b"\xc3\xa9: a"],
    [b"X: a\r"], [b"X: a\rY: b"], [b"X: " + b"y" * 5000], [b"X: " + b"y" * 9000], [b"X: 1"] * 63, [b"X: 1"] * 64,
    [b"X: 1"] * 200, [b"X" * 4000 + b": 1"], [b"X: " + b"z" * 4000] * 3, [b"X: " + b"z" * 2000] * 3,
    [b"Range: bytes=0-3"], [b"Range: bytes=9999999-"], [b"Expect: 100-continue"], [b"Expect: x"],
    [b"Accept-Encoding: gzip"], [b"Accept: text/plain;q=0"], [b"TE: trailers"], [b"Upgrade: h2c"], [b"Cookie: a=b"],
    [b"Authorization: Basic eDp5"], [b"Max-Forwards: 0"], [b"Content-Encoding: gzip"],
    [b"X-HTTP-Method-Override: PUT"], [b"Trailer: x"], [b'If-None-Match: "x"'], [b"If-None-Match: *"],
    [b"If-None-Match:"], [b"If-Match: *"], [b'If-Match: "x"'],
    [b"If-Unmodified-Since: Sun, 06 Nov 1994 08:49:37 GMT"], [b"If-Unmodified-Since: Sun, 06 Nov 2094 08:49:37 GMT"],
    [b"If-Unmodified-Since: x"], [b"If-Range: x", b"Range: bytes=0-3"],
]
LATE = b"If-Modified-Since: Sat, 06 Nov 2094 08:49:37 GMT"
DATE_LINES = [
    [LATE], [LATE, LATE], [LATE, b"If-None-Match: *"], [LATE, b'If-None-Match: "x"'], [LATE.lower()],
    [b"If-Modified-Since:  Sat, 06 Nov 2094 08:49:37 GMT "], [b"If-Modified-Since: Sun, 06 Nov 2094 08:49:37 GMT"],
    [b"If-Modified-Since: Sat, 6 Nov 2094 08:49:37 GMT"], [b"If-Modified-Since: Sat, 06 Nov 2094 08:49:37"],
    [b"If-Modified-Since: Sat, 06 Nov 2094 08:49:37 UTC"], [b"If-Modified-Since: Sat, 06 Nov 2094 08:49:60 GMT"],
    [b"If-Modified-Since: Sat, 06 Nov 2094 24:00:00 GMT"], [b"If-Modified-Since: Sat, 31 Feb 2094 08:49:37 GMT"],
    [b"If-Modified-Since: Saturday, 06-Nov-60 08:49:37 GMT"], [b"If-Modified-Since: Sunday, 06-Nov-94 08:49:37 GMT"],
    [b"If-Modified-Since: Sat Nov  6 08:49:37 2094"], [b"If-Modified-Since: Sat Nov 06 08:49:37 2094"],
    [b"If-Modified-Since: Sat Nov 6 08:49:37 2094"], [b"If-Modified-Since: Sat, 06-Nov-2094 08:49:37 GMT"],
    [b"If-Modified-Since: Sat 06 Nov 2094 08:49:37 GMT"], [b"If-Modified-Since: sat, 06 nov 2094 08:49:37 gmt"],
    [b"If-Modified-Since: Sat, 06 Nov 2094 08:49:37 GMT; length=3"], [b"If-Modified-Since: 3940000000"],
    [b"If-Modified-Since: 2094-11-06T08:49:37Z"], [b"If-Modified-Since:"],
    [b"If-Modified-Since: Fri, 31 Dec 9999 23:59:59 GMT"], [b"If-Modified-Since: Thu, 01 Jan 1970 00:00:00 GMT"],
    [b"If-Modified-Since: Wed, 31 Dec 1969 23:59:59 GMT"],
]
BEFORE = [b"\r\n", b"\n", b"\r\n\r\n\n\n", b"\r", b" ", b"\r\r\n", b"\0", b"\r\n" * 50]
SPACES = [b"  ", b"\t", b" \t ", b"\x0b"]
ENDS = [b"\n", b"\r\r\n", b"\r", b"\n\r", b" \r\n"]
# Bytes that are no request with a head of fields.
RAW = [
    b"GET /about.html\r\n\r\n", b"GET /\n\n", b"GET\r\n\r\n", b"HEAD\r\n\r\n", b"HEAD /about.html\r\n\r\n",
    b"HEAD /about.html HTTP/1.1\r\n\r\n", b"HEAD /about.html HTTP/1.1\r\nHost: a\r\nX\x00: b\r\n\r\n",
    b"\x80\x03\x01\x00\xa5\x01\x00\x00\xa1\x03\x03\n\n", b"PRI * HTTP/2.0\r\n\r\nSM\r\n\r\n", b"GET /" + b"y" * 8300,
    b"GET / HTTP/1.1\r\nHost: a\r\nX: " + b"y" * 8300, b"x" * 20_000, b"\0" * 9000 + b"\n\n",
    b"<policy-file-request/>\0\n\n", b"GET / HTTP/1.1\r\nHost: a\r\n" + b"X: %s\r\n" % (b"y" * 8140) + b"\r\n",
    b"GET / HTTP/1.1\r\nHost: a\r\n" + b"X: %s\r\n" % (b"y" * 8160) + b"\r\n",
    b"GET / HTTP/1.1\r\nHost: a\r\nContent-Length: 9\r\n\r\nabc",
    b"POST / HTTP/1.1\r\nHost: a\r\nContent-Length: 9\r\n\r\nabc", b"GET / HTTP/1.1\r\nHost: a\r\n",
]
METHODS_AND_TARGETS = [
    {"method": b"OPTIONS", "target": b"*"}, {"method": b"CONNECT", "target": b"a:80"},
    {"method": b"POST", "target": b"/.."}, {"method": b"PATCH", "target": b"/%zz"},
    {"method": b"POST", "target": b"/missing"}, {"method": b"POST", "target": b"/docs"},
    {"method": b"HEAD", "host": []}, {"method": b"HEAD", "target": b"/missing"},
    {"method": b"HEAD", "target": b"/docs"},
]
ODDITIES = [
    *({"target": target} for target in compare_replays.ODD_TARGETS + ODD_TARGETS + FOLDER_TARGETS + MISSING),
    *({"method": method} for method in (*reference.OTHER_METHODS, *ODD_METHODS)),
    *({"version": version} for version in ODD_VERSIONS),
    *({"version": b"HTTP/1.0", "lines": lines} for lines in CONNECTION_LINES),
    *({"version": b"HTTP/1.0", "host": lines} for lines in HOST_LINES[:4]),
    *({"host": lines} for lines in HOST_LINES),
    *({"lines": [line]} for line in compare_replays.ODD_LINES),
    *({"lines": lines} for lines in CONNECTION_LINES + ODD_LINES + DATE_LINES),
    *({"lines": lines, "body": body} for lines, body in LENGTH_LINES + CODING_LINES),
    *({"before": text} for text in BEFORE),
    *({"space": space} for space in SPACES),
    *({"end": end} for end in ENDS),
    *({"raw": raw} for raw in RAW),
    *METHODS_AND_TARGETS,
]

TIME_FROM, TIME_TO = 500_000_000, 1_700_000_000
TIMES = {FUTURE: 4_000_000_000, EARLY: -86_400, b"empty": 0}
GOOD_LINES = [
    [b"Accept: */*"], [b"User-Agent: x (y; z)"], [b"X:y"], [b"X:\t y \t"], [b"X-Y:"], [b"X: \xc3\xa9"],
    [b"X_Y.Z!: a"], [b"Range: bytes=0-3"], [b"Expect: 100-continue"], [b"Accept-Encoding: gzip"], [b"TE: trailers"],
    [b"Cookie: a=b"], [b"Connection: x"], [b"Connection: upgrade", b"Upgrade: h2c"], [b"Keep-Alive: timeout=1"],
    [b"X: " + b"y" * 900],
]
BODIES = [
    b"", b"a=b", b"\r\n\r\n", b"GET /smuggled HTTP/1.1\r\nHost: a\r\n\r\n", b"0\r\n\r\n", bytes(range(256)) * 20,
    b"x" * 65_536,
]
PREFIXES = [b"//", b"/./", b"/x/../", b"/docs/deep/../../", b"/x/%2e%2E/", b"/.//", b"http://a/", b"HTTP://b:80//"]
QUERIES = [b"?", b"?a=b&c", b"?/../%zz", b"?a?b", b"?http://a/", b"?%00"]


def imf(seconds):
    """A date as it is written today."""
    return reference.date_text(seconds)


def ctime(seconds):
    """A date as C's asctime writes it."""
    return time.asctime(time.gmtime(seconds)).encode()


def rfc850(seconds):
    """A date with a year of two digits, which only years from 1970 to 2069 can be written with."""
    parts = time.gmtime(seconds)
    day, month = reference.DAYS[parts.tm_wday], reference.MONTHS[parts.tm_mon - 1]
    text = "%s, %02d-%s-%02d" % (day, parts.tm_mday, month, parts.tm_year % 100)
    return (text + time.strftime(" %H:%M:%S GMT", parts)).encode() if parts.tm_year < 2070 else imf(seconds)


DATE_FORMS = (imf, imf, ctime, rfc850)


class Request:
    """What a client sends as one request, and what one sees in it who goes by line ends, spaces and colons alone."""

    def __init__(self, data):
        self.data = data
        text = data.lstrip(b"\r\n")
        found = reference.BLOCK_END.search(text)
        self.has_end = found is not None
        self.block = text[:found.end()] if found else text
        self.body = text[len(self.block):]
        self.line, *lines = [line.removesuffix(b"\r") for line in self.block.split(b"\n")]
        words = self.line.split(b" ") + [b"", b""]
        self.method, self.target = words[:2]
        self.lines = [line for line in lines if line]
        parts = [line.partition(b":") for line in self.lines]
        self.fields = [(name.lower(), value.strip(b" \t")) for name, _, value in parts]

    def values(self, name):
        """The values of all lines of a name."""
        return reference.values(self.fields, name)

    def is_whole(self):
        """Whether head and body are there: what comes after a request that isn't whole belongs to it."""
        lengths = self.values(b"content-length")
        owed = int(lengths[0]) if len(lengths) == 1 and re.fullmatch(rb"[0-9]{1,6}", lengths[0]) else 0
        return self.has_end and len(self.body) >= owed


def request_of(method=b"GET", target=b"/about.html", version=b"HTTP/1.1", host=(b"Host: a",), lines=(), body=b"",
               before=b"", space=b" ", end=b"\r\n", raw=None):
    """The bytes of a request."""
    if raw is not None:
        return raw
    first = method + space + target + b" " + version
    return before + b"".join(line + end for line in (first, *host, *lines, b"")) + body


def write_folder(chance, top):
    """Makes the folder; name, time in seconds and bytes of each file."""
    sizes = {name: 0 for name in EMPTY_NAMES} | dict(LARGE_NAMES)
    files = []
    for name in [name.encode() for name in NAMES] + [FUTURE, EARLY] + list(sizes):
        body = chance.randbytes(sizes.get(name, chance.randrange(1, 3000)))
        seconds = TIMES.get(name, chance.randrange(TIME_FROM, TIME_TO))
        files.append((name, seconds, body))
        path = os.path.join(os.fsencode(top), name)
        os.makedirs(os.path.dirname(path), exist_ok=True)
        with open(path, "wb") as file:
            file.write(body)
        nanoseconds = seconds * 10**9 + chance.choice((0, 1, 10**9 - 1, chance.randrange(10**9)))
        os.utime(path, ns=(nanoseconds, nanoseconds))
    os.mkdir(os.path.join(os.fsencode(top), HOLLOW))
    return files


def target_of(chance, name):
    """A target of a file, written in one of many ways."""
    kind = chance.random()
    if kind < 0.4:
        path = urllib.parse.quote(name).encode()
    elif kind < 0.5:
        path = b"".join(chance.choice((b"%%%02x", b"%%%02X")) % byte if byte != 47 else b"/" for byte in name)
    else:
        path = compare_replays.escaped(chance, name)
    return chance.choice([b"/"] * 15 + PREFIXES) + path + chance.choice([b""] * 15 + QUERIES)


def date_line(chance, seconds):
    """An If-Modified-Since line with a date near a time, in one of the three formats."""
    near = max(0, seconds + chance.choice((-86400, -1, 0, 0, 1, 86400)))
    return b"If-Modified-Since: " + chance.choice(DATE_FORMS)(near)


def ordinary(chance, files):
    """The parts of a request that keeps all rules, and after which the connection goes on."""
    name, seconds, body = chance.choice(files)
    if len(body) > 100_000 and chance.random() < 0.7:
        name, seconds, body = files[0]
    parts = {"method": chance.choice([b"GET"] * 12 + [b"HEAD"] * 4 + [b"POST", b"PUT", b"DELETE", b"OPTIONS"])}
    others = [chance.choice(FOLDER_TARGETS), chance.choice(MISSING)]
    parts["target"] = chance.choice([target_of(chance, name)] * 10 + others)
    lines = [line for some in chance.sample(GOOD_LINES, chance.choice((0, 0, 1, 3))) for line in some]
    if chance.random() < 0.25:
        lines.append(date_line(chance, seconds))
    if chance.random() < 0.15:
        parts["version"] = b"HTTP/1.0"
        lines.append(chance.choice((b"Connection: keep-alive", b"connection: Keep-Alive")))
    if chance.random() < 0.15:
        parts["body"] = chance.choice(BODIES)
        lines.append(b"Content-Length: %d" % len(parts["body"]))
    parts["lines"] = chance.sample(lines, len(lines))
    parts["before"] = chance.choice([b""] * 30 + [b"\r\n", b"\n", b"\r\n\n"])
    parts["end"] = chance.choice([b"\r\n"] * 20 + [b"\n"])
    return parts


CLOSING = request_of(target=b"/", lines=[b"Connection: close"])


def with_oddity(parts, oddity):
    """The parts of a request with an oddity; a body takes the place of another one with its length."""
    lines = [] if "body" in oddity and "body" in parts else list(parts.get("lines", ()))
    return parts | oddity | {"lines": lines + list(oddity.get("lines", ()))}


def connection(chance, files, count, odd):
    """The requests of a connection: ordinary ones, one of these parts, a few more, and one that closes it."""
    requests = [Request(request_of(**ordinary(chance, files))) for _ in range(count)] + [Request(request_of(**odd))]
    if requests[-1].is_whole():
        requests += [Request(request_of(**ordinary(chance, files))) for _ in range(chance.choice((0, 0, 1, 2)))]
        requests.append(Request(CLOSING))
    return requests


def random_oddity(chance, files):
    """The parts of a request with one oddity or two, or none; the others are as in the plainest or an ordinary one."""
    oddities = chance.sample(ODDITIES, chance.choice((0, 1, 1, 2)))
    parts = ordinary(chance, files) if oddities and chance.random() < 0.6 else {}
    for oddity in oddities:
        parts = with_oddity(parts, oddity)
    return parts


def connections(chance, files, count):
    """The requests of all connections, so many or a few more: each oddity alone while there is room, then others."""
    plan, made = [], 0
    alone = chance.sample(ODDITIES, len(ODDITIES))
    while made < count:
        if alone:
            plan.append(connection(chance, files, chance.choice((0, 1, 2, 4)), alone.pop()))
        else:
            plan.append(connection(chance, files, chance.choice((1, 2, 5, 15, 40)), random_oddity(chance, files)))
        made += len(plan[-1])
    return plan
