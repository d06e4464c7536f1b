#!/usr/bin/env python3
"""Writes the example of docs/WALK.md beside itself: a small site as a snapshot, a burst of requests for it as a
capture, and the same burst among readers, without tiers and with.

Change the site or the traffic here to try something else, or write the two files from records of your own: their
formats stand in docs/FORMATS.md.
"""
import os

START = 784111777  # Sun, 06 Nov 1994 08:49:37 GMT, in seconds since 1970
MILLISECOND = 1000  # in ticks, which are microseconds
VISITORS = 12
BURST = 20  # how often each visitor asks within the burst

SITE = {
    "about.html": "<!DOCTYPE html>\n<title>About</title>\n<p>A site of five files.\n",
    "docs/index.html": "<!DOCTYPE html>\n<title>Documents</title>\n<p>Nothing is here yet.\n",
    "index.html": "<!DOCTYPE html>\n<title>Home</title>\n"
    '<link rel="stylesheet" href="/style.css">\n<p><a href="/about.html">About</a>\n',
    "notes.txt": "".join("line %d of the notes\n" % number for number in range(1, 200)),
    "style.css": "body { font-family: sans-serif }\n",
}

DAY_BEFORE = "If-Modified-Since: Sat, 05 Nov 1994 08:49:37 GMT\r\n"


def request(target, method="GET", fields=""):
    """The bytes of one request."""
    return ("%s %s HTTP/1.1\r\nHost: example.org\r\n%s\r\n" % (method, target, fields)).encode()


def snapshot():
    """The text of the snapshot: each file two days older than the capture's start, by rising name."""
    parts = [b"haboob-snapshot 1\n"]
    for name, text in sorted(SITE.items()):
        parts.append(b"file %d %d %d\n%b\n%b\n" % (START - 172800, len(name), len(text), name.encode(), text.encode()))
    return b"".join(parts) + b"end %d\n" % len(SITE)


def quiet_visitor():
    """One visitor who looks around: each request, with the tick at which it comes."""
    return [
        (0, request("/")),
        (40 * MILLISECOND, request("/style.css")),
        (900 * MILLISECOND, request("/docs")),
        (950 * MILLISECOND, request("/docs/")),
        (1500 * MILLISECOND, request("/missing.html")),
        (1800 * MILLISECOND, request("/about.html", fields=DAY_BEFORE)),
        (2100 * MILLISECOND, request("/notes.txt", method="HEAD")),
        (2300 * MILLISECOND, request("/notes.txt", method="POST", fields="Content-Length: 5\r\n") + b"hello"),
        (2500 * MILLISECOND, b"GET / HTTP/1.1\r\n\r\n"),
    ]


def burst():
    """All visitors at once: a request each 150 ticks, faster than the server's 201 ticks for a small file."""
    targets = ["/", "/style.css", "/notes.txt", "/about.html"]
    for number in range(VISITORS * BURST):
        yield 3000 * MILLISECOND + 150 * number, 1 + number % VISITORS, request(
            targets[number // VISITORS % len(targets)]
        )


def readers():
    """Four readers during the burst: a request every 4 milliseconds, each at its own time."""
    for number in range(36):
        yield 3001 * MILLISECOND + MILLISECOND * number, 13 + number % 4, request("/about.html")


def mixed_capture(version):
    """The text of a capture of the burst and the readers; in version 2 the burst's visitors are of tier 1."""
    pieces = sorted([*burst(), *readers()])
    records = [b"tier %d 1\n" % connection for connection in range(1, 1 + VISITORS)] if version == 2 else []
    records += [b"piece %d %d %d\n%b\n" % (tick, connection, len(data), data) for tick, connection, data in pieces]
    return b"haboob-capture %d %d\n" % (version, START) + b"".join(records) + b"stop %d\n" % len(records)


def capture():
    """The text of the capture: the quiet visitor on connection 0, whose last request names no host, then the burst."""
    pieces = [(tick, 0, data) for tick, data in quiet_visitor()] + list(burst())
    records = [b"piece %d %d %d\n%b\n" % (tick, connection, len(data), data) for tick, connection, data in pieces]
    records += [b"end %d %d\n" % (4000 * MILLISECOND, connection) for connection in range(1 + VISITORS)]
    return b"haboob-capture 1 %d\n" % START + b"".join(records) + b"stop %d\n" % len(records)


def main():
    folder = os.path.dirname(os.path.abspath(__file__))
    texts = [("site.snapshot", snapshot()), ("burst.capture", capture())]
    texts += [("mixed.capture", mixed_capture(1)), ("tiers.capture", mixed_capture(2))]
    for name, text in texts:
        with open(os.path.join(folder, name), "wb") as file:
            file.write(text)


if __name__ == "__main__":
    main()
