#!/usr/bin/env python3
"""Compares the program's replays, tables of decisions, inspections, upgrades and settings with those of reference.py:
status, line on standard error and what is written.

    checks/compare_replays.py PROGRAM [COUNT [FIRST]]

Two runs of 100,000 requests come first, then replays at the limits and just past them, then COUNT random ones (40
without it), made from the seeds FIRST (0 without it), FIRST + 1 and so on: the same seed gives the same replay. About
a third of these have a fault. One of LONG_TURN is long: it has small pieces for several batches of a usual size. Then
come HEAVY heavy ones, from the seeds FIRST, FIRST + 1 and so on too: half have batches so large that the staged engine
shares the work among threads. Each is run with both engines, and compared byte for byte. The cuts of the steps into
stages, the workers, the capacities, the batch and the cache are drawn at random for each, but for the first, which has
those of the default settings: nothing that is written may depend on them.

Of each the table of decisions is compared too, with its report, and what its capture holds; and its settings, which are
written out, and once more from the text that was written.

A third of the recordings are traffic texts, in which numbers are used again after their end. Each recording is also
upgraded, without a word, to version 2 and to a traffic text, and each upgraded text once more, which leaves it as it
is. Where an upgraded text differs from the recording, it is replayed with both engines: the replies are those of the
recording, byte for byte, and so is the report, but for the controls that a traffic text's leaves out. For each seed a
recording with a fault is upgraded besides. Exits with 1 where anything differs.
"""
import collections
import datetime
import itertools
import os
import random
import re
import string
import sys
import urllib.parse

from lib.report import Report
from lib.run import options, run_over, without_words
from lib.texts import (OPEN, REQUEST, SNAPSHOT, TIME as START, recording_parts, recording_text, snapshot_parts,
                       snapshot_text)
from lib.usage import parser_of, with_seeds
import reference

SECONDS = 120
ENGINES = [["--engine", "plain"], []]
SPEEDS = (100, 100, 200, 100, 101, 10_000, 100, 333)  # percent, by turns
OLD_REPLIES = b"old replies\n"
PARTS = {
    "replay": ("status", "line", "replies", "report"),
    "explain": ("status", "line", "table", "report"),
    "inspect": ("status", "line", "capture", "inspection"),
    "settings": ("status", "line", "document", "text", "words"),
    "upgrade": ("status", "line", "output", "standard output"),
}
FAULTS = ("", "", "", "", "", "snapshot", "capture", "settings")
# One seed in so many gives a long replay; half of their captures have a fault.
LONG_TURN = 12
LONG_FAULTS = ("", "capture")
HEAVY = 20
HEAVY_FAULTS = ("", "", "", "capture")
# What an upgrade is asked for, and the format that it writes where the recording's own isn't a later one.
UPGRADES = [([], reference.TWO), (["--to", "2"], reference.TWO), (["--to", "traffic"], reference.TRAFFIC)]
# In the place of a piece: the end of the connection.
END = None

ONE, TRAFFIC = reference.ONE, reference.TRAFFIC
FILES = [(b"a.txt", START, b"hi\n")]

# A request takes 201 ticks and comes each 100: the rate moves up and down, and many are turned away.
TIGHT = b"""[policy]
window = 20
every = 10
rate = 3000000
rate_min = 1000000
rate_max = 9000000
up = 100000
down = 115
target = 2000
low = 80
depth = 3
"""

FOLDERS = ["a", "b", "docs", "a b", "\u00e9", "%41", "a!b", "A", "~x", "..."]
LAST_PARTS = [
    "index.html", "index.html", "a.txt", "b.HTM", "c.css", "d.js", "e.json", "f.svg", "g.png", "h.jpg", "i.jPeG",
    "j.gif", "k.", ".txt", "l", "m.tar.gz", "a", "docs", "n\nm.txt", "o?.txt", "p#", "q%2f.css", "\x01", "index.html.",
    "\U0001f42a.html",
]
# What targets of many segments begin with, again and again.
UNITS = [b"/a", b"/.", b"/", b"/%2e", b"/x/..", b"/%C3%A9/%2E.", b"/docs/a%20b"]
# The kinds of a heavy replay's requests, and how often each comes: most leave their connection open.
HEAVY_KINDS = {
    "plain": 500,
    "odd": 1,
    "target": 60,
    "segments": 500,
    "line": 100,
    "fields": 60,
    "body": 100,
    "date": 100,
}
METHODS = (
    [b"GET"] * 30
    + [b"HEAD"] * 8
    + [b"POST", b"PUT", b"DELETE", b"CONNECT", b"OPTIONS", b"TRACE", b"PATCH", b"get", b"GET!", b"G@T", b"-1", b"+1"]
)
VERSIONS = [b"HTTP/1.1"] * 100 + [b"HTTP/1.0"] * 20 + [b"HTTP/1.2", b"HTTP/2.0", b"http/1.1", b"HTTP/1.1 ", b""]
ODD_TARGETS = [
    b"/", b"*", b"//", b"/.", b"/..", b"/../x", b"/a/../../b", b"/a/%2e%2E/b", b"/%zz", b"/%", b"/%4", b"/%c3%28",
    b"/%c3%28/%zz", b"/%00", b"/%00/../..", b"/../%00", b"/a%2fa.txt", b"http://h", b"HTTP://h/a", b"http:///a",
    b"http://?", b"http://h?x/y", b"http://h%zz/a.txt", b"https://h/a", b"http:/a", b"/a#b", b"/a?b#c", b"/a?%zz",
    b"/\xc3\xa9", b"/\xff", b"a", b"=1+1", b"@a;b", b"-1,+1", b"", b"/a b", b"/index.html", b"/%69ndex.html", b"/docs/",
    b"/docs", b"/docs/.", b"/%e2%82", b"/%ed%a0%80", b"/\x7f", b"?", b"/?/..",
]
HOST_LINES = [[b"Host: a"]] * 150 + [
    [],
    [b"Host: a", b"Host: a"],
    [b"hOST:\t[::1]:80 "],
    [b"HOST:"],
    [b"Host: a b"],
    [b"Host: a/b"],
    [b"Host: \xc3\xa9"],
    [b"Host: a@b"],
    [b"Host: %zz"],
]
CONNECTION_LINES = [[]] * 24 + [
    [b"Connection: close"],
    [b"Connection: Keep-Alive"],
    [b"Connection: Keep-Alive"],
    [b"connection: x ,\tCLOSE\t ,"],
    [b"Connection: keep-alive", b"Connection: x"],
    [b"Connection: keep-alive", b"Connection: close"],
    [b"Connection: closed"],
    [b"Connection:"],
]
LENGTH_LINES = [
    [b"Content-Length: 65537"],
    [b"Content-Length: 065536"],
    [b"Content-Length: " + b"9" * 30],
    [b"Content-Length: 1", b"Content-Length: 1"],
    [b"Content-Length: +1"],
    [b"Content-Length:"],
    [b"Content-Length: 1, 1"],
    [b"Content-Length: " + b"0" * 5000 + b"1"],
    [b"Content-Length: 0x1"],
    [b"Content-Length: 1", b"content-length: x"],
    [b"Content-Length: " + b"9" * 5000],
]
ODD_LINES = [
    b"X: \xff\x80\t!", b"X : a", b" folded", b"\tfolded: a", b"X: a\rb", b"X: a\r", b": a", b"X", b"X: \x00",
    b"X: \x7f", b"X:\x0b", b"X(Y: a", b"!#$%&'*+-.^_`|~: ok", b"Range: bytes=0-1", b"Expect: 100-continue",
    b"if-none-match:", b"Transfer-Encoding: chunked", b"transfer-encoding:", b"Content-Type: x", b"\xe9: a", b"X:: a",
    b"If-Modified-Since: x", b"If-Modified-Since: Wednesday, 06-Nov-69 08:49:37 GMT",
    b"If-Modified-Since: Friday, 06-Nov-70 08:49:37 GMT",
]
EMPTY_LINES = [b""] * 20 + [b"\r\n", b"\n", b"\r\n\n", b"\n\n\r\n", b"\r", b" "]
ODD_NUMBERS = [
    b"0", b"00", b"01", b"1", b"-1", b"+1", b"", b"x", b"4095", b"4096", b"65536", b"65537", b"1025", b"16777217",
    b"253402300800", b"4102444801", b"1000000000000000", b"1000000000000001", b"18446744073709551616", b"9" * 40,
    b"9" * 70, b"1 1", b"1 ", b" 1", b"1\r",
]
ODD_VALUES = [
    "true", "1.0", '"1"', "[]", "[1]", "[[1]]", "[true]", "{}", "{x = 1}", "1979-05-27", "-1", "0", "1", "2", "01",
    "1__0", "0x7fffffffffffffff", "9223372036854775807", "9223372036854775808", "-9223372036854775808",
    "-9223372036854775809", "", "[1, 2, 3, 4]", "[0, 1, 3]", "[1, 2, 2]", "[16, 17, 1]", "[4096, 4097]",
    "[1, 9223372036854775807, 1]", "[-1, 1, 3]",
]
ODD_DOCUMENTS = ["x = 1\n", "[tier9]\n", "policy = 1\n", "[[policy]]\ndepth = 1\n", "[policy.depth]\n",
                 "[policy]\ndepth.x = 1\n", "floor = []\n", "[floor\n", "[policy]\ndepth = 1\ndepth = 1\n",
                 '"policy.depth" = 1\n', "[floor]\nfront_cuts = [{x = 1}]\n", "\u00e9 = 1\n",
                 "[costs]\nfile = 1 kib = 2\n", "route = 1\n", "route = []\n", '[route]\nprefix = "/"\ncost = 1\n',
                 "[[route]]\n", '[[route]]\nprefix = "/"\n', "[[route]]\ncost = 1\n",
                 "[[route]]\nprefix = 1\ncost = 1\n", '[[route]]\nprefix = ""\ncost = 1\n',
                 '[[route]]\nprefix = "a"\ncost = 1\n', '[[route]]\nprefix = "//"\ncost = 1\n',
                 '[[route]]\nprefix = "/a//b"\ncost = 1\n', '[[route]]\nprefix = "/a/."\ncost = 1\n',
                 '[[route]]\nprefix = "/../a/"\ncost = 1\n',
                 '[[route]]\nprefix = "/\\"\\\\\\u0001\\u007f\\u0000"\ncost = 1\n',
                 '[[route]]\nprefix = "/"\ncost = 0\n', '[[route]]\nprefix = "/"\ncost = 1_000_000_001\n',
                 '[[route]]\nprefix = "/"\ncost = 1\nkib = -1\n', '[[route]]\nprefix = "/"\ncost = 1\nkib = 1.0\n',
                 '[[route]]\nprefix = "/"\ncost = 1\ndelay = 1_000_000_001\n',
                 '[[route]]\nprefix = "/"\ncost = 1\nrate = 1\n', 'route = [{prefix = "/", cost = 1}, 2]\n',
                 'route = [[{prefix = "/", cost = 1}]]\n', '[[route]]\nprefix = "/"\ncost = 1\n' * 64,
                 "pool = 1\n", "pool = []\n", "[[pool]]\n", "[[pool]]\nname = 1\nservers = 1\n",
                 '[[pool]]\nname = "a"\n', '[[pool]]\nname = "a"\nservers = 0\n', '[[pool]]\nname = "a"\nservers = 1\n',
                 '[[pool]]\nname = "a"\nservers = 1025\n', '[[pool]]\nname = "a"\nservers = 1\n' * 2,
                 '[[pool]]\nname = "a"\nservers = 1\n' * 17, '[[route]]\nprefix = "/"\ncost = 1\npool = "a"\n',
                 '[[route]]\nprefix = "/"\ncost = 1\npool = 1\n',
                 '[[route]]\nprefix = "/"\ncost = 1\n' * 65, '[[route]]\nprefix = "/"\ncost = 0\n' * 65]


def random_files(chance, start):
    """Name, time and bytes of each file of a small snapshot."""
    names = set()
    for _ in range(chance.choice((0, 1, 3, 8, 8, 14, 14))):
        parts = [chance.choice(FOLDERS) for _ in range(chance.choice((0, 0, 1, 1, 2, 3)))]
        names.add("/".join(parts + [chance.choice(LAST_PARTS)]).encode())
    names = sorted(name for name in names if not any(other.startswith(name + b"/") for other in names))
    times = [start + shift for shift in (-3600, -2, -1, 0, 0, 1, 2)] + [0, reference.TIME_LIMIT]
    sizes = (1023, 1024, 1025, 5000)
    bodies = [b"", b"hi\n", b"\r\n\r\n", b"\nend 1\n", b"x" * chance.choice(sizes),
              chance.randbytes(chance.randrange(300))]
    return [(name, max(0, chance.choice(times)), chance.choice(bodies)) for name in names]


def escaped(chance, path):
    """A path as it may stand in a target: what can't stand there is percent-encoded, and now and then another byte."""

    def may_stand(byte):
        return byte == ord("/") or (0x20 < byte < 0x7F and byte not in b"%?#" and chance.random() < 0.95)

    return b"".join(bytes([byte]) if may_stand(byte) else chance.choice((b"%%%02x", b"%%%02X")) % byte for byte in path)


def random_target(chance, names):
    """A target, most often one of a file or a folder."""
    if not names or chance.random() < 0.15:
        return chance.choice(ODD_TARGETS)
    path = chance.choice(names)
    if chance.random() < 0.25:
        path = path.rpartition(b"/")[0]
    before = chance.choice(
        [b"/"] * 20 + [b"//", b"/./", b"/x/../", b"http://h/", b"HTTP://h:80/", b"/x/%2e%2e/", b"/../", b""]
    )
    after = chance.choice(
        [b""] * 20 + [b"?q", b"?a/b?%", b"/", b"/", b"/.", b"/..", b"/x/..", b"#x", b"x", b"%2f", b"%00"]
    )
    if chance.random() < 0.04:
        after += long_end(chance)
    return before + escaped(chance, path) + after


def long_end(chance):
    """What makes a target one of up to 6,000 bytes."""
    unit = chance.choice((b"/a.txt", b"n", b"/./x/..", b"%41", b"?q"))
    return (unit * 6000)[: chance.randint(500, 5900)]


def random_date(chance, seconds):
    """A date in one of the three formats, now and then with another byte."""
    date = datetime.datetime(1970, 1, 1) + datetime.timedelta(seconds=seconds)
    day, month = reference.DAYS[date.weekday()], reference.MONTHS[date.month - 1]
    text = chance.choice(
        (f"{day[:3]}, {date:%d} {month} {date:%Y %H:%M:%S} GMT", f"{day}, {date:%d}-{month}-{date:%y %H:%M:%S} GMT",
         f"{day[:3]} {month} {date.day:2} {date:%H:%M:%S %Y}", f"{day[:3]} {month} {date:%d %H:%M:%S %Y}")
    ).encode()
    return changed(chance, text) if chance.random() < 0.2 else text


def changed(chance, text):
    """A text with one byte changed, left out, doubled or put in, or cut."""
    at = chance.randrange(len(text) + 1)
    byte = chance.choice(
        (text[at : at + 1], bytes([chance.randrange(256)]), chance.choice((b" ", b"\n", b"\r", b"0", b"9", b"1")))
    )
    return chance.choice(
        (text[:at] + byte + text[at + 1 :], text[:at] + byte + text[at:], text[:at] + text[at + 1 :], text[:at])
    )


def long_line(chance):
    """A field line of 1,000 to 7,900 bytes."""
    unit = chance.choice((b"x", b"name=value; ", b"a b\t\xe9"))
    return b"Cookie: " + (unit * 7900)[: chance.randint(992, 7892)]


def paired_line(chance):
    """A field line with line feeds before carriage returns, one in each 36 or 64 bytes. None of them ends a head."""
    unit = b"x" * (chance.choice((36, 64)) - 2) + b"\n\r"
    return b"X: " + b"y" * chance.randrange(64) + unit * chance.randint(1, 7900 // len(unit)) + b"x"


def many_fields(chance, times):
    """Field lines of one name, so many that few others have room."""
    date = b"If-Modified-Since: " + random_date(chance, chance.choice(times))
    name = "".join(chance.choices(string.ascii_letters, k=17)).encode()
    return chance.choice(([date] * 58, [name + b": 1"] * 61))


def random_lines(chance, times):
    """The field lines of a head, in any order; where very many have one name, the host comes before them."""
    if chance.random() < 0.04:
        host = chance.choice(([], [b"Host: a"], [b"Host: a b"]))
        return host + chance.choice((many_fields(chance, times), [b"Transfer-Encoding: chunked"] * 62))
    lines = chance.choice(HOST_LINES) + chance.choice(CONNECTION_LINES)
    if chance.random() < 0.04:
        lines = lines + chance.choice(LENGTH_LINES)
    if chance.random() < 0.3:
        date = b"If-Modified-Since: " + random_date(chance, chance.choice(times))
        lines = lines + chance.choice([[date]] * 8 + [[date, date], [date, b"If-None-Match: *"]])
    if chance.random() < 0.1:
        lines = lines + [chance.choice(ODD_LINES)]
    if chance.random() < 0.05:
        lines = lines + [long_line(chance)]
    if chance.random() < 0.03:
        lines = lines + [paired_line(chance)]
    if chance.random() < 0.02:
        lines = lines + [b"X: 1"] * chance.randint(60, 64)
    return chance.sample(lines, len(lines))


def plain_request(chance, names):
    """A request for a file, with nothing odd in it."""
    target = b"/" + urllib.parse.quote(chance.choice(names or [b"a.txt"])).encode()
    return b"%s %s HTTP/1.1\r\nHost: a\r\n\r\n" % (chance.choice((b"GET", b"GET", b"GET", b"HEAD")), target)


def random_request(chance, names, times):
    """A request, most often a good one."""
    lines, body = random_lines(chance, times), b""
    if chance.random() < 0.15:
        body = bytes(chance.choices(b"ab\r\n", k=chance.choice((0, 1, 3, 20))))
        length = len(body) + chance.choice((0, 0, 0, 0, 1, -1))
        lines.append(b"Content-Length: %s%d" % (chance.choice((b"", b"", b"00")), max(0, length)))
    target, version = random_target(chance, names), chance.choice(VERSIONS)
    lines = [chance.choice(METHODS) + b" " + target + b" " + version] + lines
    if chance.random() < 0.03:
        size = sum(len(line) + 2 for line in lines) + 2
        lines.append(b"X:" + b"x" * (chance.randint(8186, 8190) - size))
    ends = chance.choice([[b"\r\n"]] * 20 + [[b"\n"], [b"\r\n", b"\n"]])
    text = b"".join(line + chance.choice(ends) for line in lines + [b""])
    return (changed(chance, text) if chance.random() < 0.03 else text) + body


def random_text(chance, names, times, count):
    """The text of a connection."""
    parts = []
    for _ in range(count):
        parts.append(chance.choice(EMPTY_LINES))
        kind = chance.random()
        if kind < 0.015:
            parts.append(bytes(chance.choices(b"\r\nGE /:\x00\xff", k=chance.choice((3, 30, 300)))))
        elif kind < 0.035:
            begin = chance.choice((b"", b"GET /", b"GET / HTTP/1.1\r\nHost: a\r\nCookie: "))
            parts.append(begin.ljust(chance.choice((8100, 8191, 8192, 8193, 8197, 20_000)), b"y"))
        else:
            parts.append(random_request(chance, names, times))
    return b"".join(parts)


def random_cut(chance, text):
    """The pieces of a text."""
    count = chance.choice((0, 1, 1, 2, 5, 20, len(text)))
    places = {chance.randrange(len(text)) for _ in range(min(count, len(text), 200))}
    places = sorted(places | {len(text), *range(0, len(text), reference.PIECE_LIMIT)})
    return [text[begin:end] for begin, end in zip(places, places[1:])]


def lives_of(records):
    """The connections: for each the place from which on a record of its number is one of it, and its first record."""
    after, found = collections.defaultdict(int), {}
    for place, record in enumerate(records):
        conn = record[1]
        found.setdefault((conn, after[conn]), place)
        if len(record) == 2:
            after[conn] = place + 1
    return [(conn, begin, first) for (conn, begin), first in found.items()]


def with_tiers(chance, records):
    """The records with a tier for some of the connections, somewhere before their first piece: in a traffic text for
    any life of a number."""
    given = [(chance.randint(begin, first), conn) for conn, begin, first in lives_of(records) if chance.random() < 0.7]
    for place, conn in sorted(given, reverse=True):
        records.insert(place, ("tier", conn, chance.randrange(4)))
    return records


def in_lives(chance, pieces):
    """The pieces of a number with ends among them: where a life ends in the middle of a block, the rest comes as
    another one. Some ends come again, with nothing open."""
    often, parts = chance.choice((0.05, 0.3, 1)), []
    for piece in pieces:
        parts.append(piece)
        while chance.random() < often and parts[-2:] != [END, END]:
            parts.append(END)
    return parts


def lives(chance, names, times):
    """What comes of one number of a traffic text: lives of some requests each, one after another, with ends between
    them; or a hundred lives of a request each."""
    if chance.random() < 0.15:
        return [part for _ in range(100) for part in (plain_request(chance, names), END)]
    parts = [END] if chance.random() < 0.1 else []
    for _ in range(chance.choice((1, 2, 2, 5))):
        pieces = random_cut(chance, random_text(chance, names, times, chance.choice((1, 2, 3, 6))))
        parts += (in_lives(chance, pieces) if chance.random() < 0.3 else pieces) + [END]
    return parts[:-1]


def random_records(chance, names, times, form):
    """The pieces and ends of a recording: tick, connection, and the bytes of a piece; and its tiers, where the format
    has some."""
    busy = chance.random() < 0.3
    waiting = {}
    high = [4096, 65_534, 65_535] if form.last > reference.ONE.last else []
    for conn in chance.sample([0, 1, 2, 3, 7, 100, 4094, 4095] + high, chance.choice((1, 1, 2, 3, 4))):
        if form.again and chance.random() < 0.8:
            waiting[conn] = lives(chance, names, times)
            continue
        texts = random_cut(chance, random_text(chance, names, times, chance.choice((1, 2, 3, 6, 12))))
        plain = [plain_request(chance, names) for _ in range(chance.randrange(150))] if busy else []
        waiting[conn] = plain + texts
    records = mixed(chance, waiting)
    if chance.random() < 0.2:
        records.insert(0, (0, 5))
    return with_tiers(chance, records) if form.tiers else records


def mixed(chance, waiting):
    """The pieces and ends that wait at each number, in an order and at ticks drawn at random, and some last ends."""
    order = [conn for conn, parts in waiting.items() for _ in parts]
    chance.shuffle(order)
    steps = chance.choice(
        ([0, 1], [0, 0, 0, 50, 250], [100, 200, 300], [100, 200, 300], [0, 1000, 5000], [0, 999_999, 10**6, 10**7])
    )
    tick, records = chance.choice((0, 0, 1, 10**6, 10**15 - 1000)), []
    for conn in order:
        tick = min(tick + chance.choice(steps), reference.TICK_LIMIT)
        part = waiting[conn].pop(0)
        records.append((tick, conn) if part is END else (tick, conn, part))
        if not waiting[conn] and part is not END and chance.random() < 0.3:
            records.append((tick, conn))
    return records


def odd_line(chance, line):
    """A line with another number, or another byte."""
    found = list(re.finditer(rb"[0-9]+", line))
    if not found or chance.random() < 0.3:
        return changed(chance, line)
    number = chance.choice(found)
    near = b"%d" % max(0, int(number[0]) + chance.choice((-1, 1)))
    odd = near if chance.random() < 0.25 else chance.choice(ODD_NUMBERS)
    return line[: number.start()] + odd + line[number.end() :]


def join(chance, parts, faulty):
    """The text of all parts, of which every other one is a line; a faulty text is changed at one place."""
    text = b"".join(parts)
    if not faulty:
        return text
    kind = chance.random()
    if kind < 0.2:
        return text[: chance.randrange(len(text))]
    if kind < 0.3:
        return text + chance.choice((b"\n", b"x", b"stop 1\n"))
    if kind < 0.45:
        return changed(chance, text)
    at = chance.randrange(0, len(parts), 2)
    odd = odd_line(chance, parts[at]) if chance.random() < 0.6 else chance.choice((b"", parts[at] * 2, parts[at - 2]))
    return b"".join(parts[:at] + [odd] + parts[at + 1 :])


def odd_files(chance, files):
    """The files with one of them at another place or with another name."""
    place = chance.randrange(len(files))
    name, time, body = files[place]
    names = (b"/" + name, name + b"/", b"a//b", b"../x", b"\xff" + name, name + b"\0", b"x" * 1025, b"", name[:-1],
             name + b"/x/y", b"\n")
    inside, odd = (name + b"/x", time, body), (chance.choice(names), time, body)
    instead = chance.choice(
        (
            [odd],
            [odd, files[place]],
            [files[place], odd],
            [files[place], inside],
            [files[place], files[place]],
            files[:place],
        )
    )
    return files[:place] + instead + files[place + 1 :]


def in_order(files):
    """The files as a snapshot's text takes them: the time comes last."""
    return [(name, body, time) for name, time, body in files]


def drawn_snapshot(chance, files, faulty):
    """The text of a snapshot."""
    if faulty and files and chance.random() < 0.4:
        files, faulty = odd_files(chance, files), False
    return join(chance, snapshot_parts(in_order(files)), faulty)


def drawn_capture(chance, form, start, records, faulty):
    """The text of a recording; in a faulty one a record may stand where it doesn't belong."""
    if faulty and records and chance.random() < 0.4:
        records, faulty = records[:], False
        place = chance.randrange(len(records))
        tick, conn, *_ = chance.choice([record for record in records if record[0] != "tier"])
        odd = [(tick, conn), (tick, conn, REQUEST), ("tier", conn, chance.randrange(6)), ("tier", conn + 1, 3)]
        records.insert(place + 1, chance.choice(odd))
    return join(chance, recording_parts(records, form.begin, start), faulty)


def random_rates(chance):
    """The three rates, in their order."""
    least, rate, most = sorted(chance.choice((1, 1000, 10**6, 3 * 10**6, 5 * 10**6, 10**7, 10**9)) for _ in range(3))
    return {"rate": rate, "rate_min": least, "rate_max": most}


def random_floor(chance):
    """A value for each key of the table `floor`, in its range. The answer doesn't depend on them."""
    floor = {
        "batch": chance.choice((1, 2, 3, 7, 1024, 65_536)),
        "cache": chance.choice((0, 47, 96, 1000, 10**6, 2**30)),
    }
    for side, steps in (("front", 3), ("back", 2)):
        floor[side + "_cuts"] = [cut for cut in range(1, steps) if chance.random() < 0.7] + [steps]
        floor[side + "_workers"] = [chance.choice((1, 2, 3, 16)) for _ in floor[side + "_cuts"]]
        floor[side + "_capacities"] = [chance.choice((1, 2, 64, 4096)) for _ in floor[side + "_cuts"]]
    return floor


def with_floor(chance, settings, least):
    """The settings with a table `floor` drawn at random after them, and this batch or more, where there is room."""
    floor = random_floor(chance)
    floor["batch"] = max(floor["batch"], least)
    text = (settings or b"") + "".join(["[floor]\n"] + ["%s = %s\n" % pair for pair in floor.items()]).encode()
    return text if len(text) <= reference.SETTINGS_LIMIT else settings


def random_tier(chance, policy):
    """What the table of a tier gives: some keys of a policy, all three rates or none."""
    tier = {
        "depth": chance.choice((1, 2, 5, 30)),
        "window": chance.randint(1, 12),
        "every": chance.randint(1, 8),
        "target": chance.choice((1, 300, 20_000)),
    }
    kept = {key: value for key, value in tier.items() if chance.random() < 0.5}
    return kept | (random_rates(chance) if chance.random() < 0.5 else {}) or {"low": policy["low"]}


def random_prefix(chance):
    """The prefix of a route: some segments of paths that are asked for, or only a part of the last one."""
    parts = [chance.choice(FOLDERS) for _ in range(chance.choice((0, 1, 1, 1, 2)))]
    if chance.random() < 0.3:
        parts.append(chance.choice(LAST_PARTS))
    prefix = "/" + "/".join(parts)
    if len(prefix) > 2 and not prefix.endswith(".") and chance.random() < 0.15:
        return prefix[:-1]
    return prefix + chance.choice(("", "/" if parts else ""))


def random_route(chance):
    """The lines of a route, of which some keys are left out, small enough that much happens."""
    keys = {"cost": chance.choice((1, 50, 300, 2000))}
    if chance.random() < 0.6:
        keys["kib"] = chance.choice((0, 1, 1000))
    if chance.random() < 0.6:
        keys["delay"] = chance.choice((0, 7, 1000, 10**9))
    lines = ['prefix = "%s"' % random_prefix(chance)]
    lines += ["%s = %s" % (key, value_text(chance, value)) for key, value in keys.items()]
    return chance.sample(lines, len(lines))


def random_pools(chance, routes):
    """The lines of pools, each of which a route names that gets a line for it; seldom none does."""
    names = chance.sample(("a", "b", "", "\u00e9"), min(chance.choice((0, 0, 1, 2, 3)), len(routes)))
    for place, lines in enumerate(routes):
        if place < len(names) and chance.random() < 0.98:
            lines.append('pool = "%s"' % names[place])
        elif names and chance.random() < 0.5:
            lines.append('pool = "%s"' % chance.choice(names))
    servers = [chance.choice((1, 1, 1, 2, 3, 1024)) for _ in names]
    return [chance.sample(['name = "%s"' % name, "servers = %s" % value_text(chance, count)], 2)
            for name, count in zip(names, servers)]


def random_values(chance):
    """A value for each key, in its range, small enough that much happens."""
    policy = {
        "window": chance.randint(1, 12),
        "every": chance.randint(1, 8),
        "smoothing": chance.choice((0, 500, 700, 999)),
        **random_rates(chance),
        "up": chance.choice((0, 1, 1000, 10**6)),
        "down": chance.choice((101, 120, 200, 10_000)),
        "target": chance.choice((1, 300, 1000, 20_000)),
        "low": chance.choice((0, 50, 90, 100)),
        "depth": chance.choice((1, 2, 5, 30)),
    }
    costs = {key: chance.choice((1, 50, 100, 200, chance.randint(1, 400))) for key in ("file", "error")} | {
        "kib": chance.choice((0, 0, 1, 10, 1000))
    }
    page = {"retry_after": chance.choice((0, 1, 86_400))}
    tiers = {table: random_tier(chance, policy) for table in reference.POLICY_TABLES[1:] if chance.random() < 0.5}
    tables = {"floor": random_floor(chance), "costs": costs, "policy": policy, "page": page}
    for table, values in tables.items():
        add_others(chance, table, values)
    return {**tables, **tiers}


def add_others(chance, table, values):
    """A value near the least one for each key of the table that has none yet."""
    for key, _, default, *bounds in reference.SETTINGS[table]:
        if key not in values:
            values[key] = chance.choice((default, min(bounds[0] + chance.randint(0, 9), bounds[1])))


def bounds_of(table, key):
    """The least and greatest value of a key; nothing where it is a list."""
    return next(bounds for name, _, _, *bounds in reference.SETTINGS[table] if name == key)


def random_settings(chance, faulty):
    """A document of settings; a faulty one may have a value out of its shape or range, or another byte."""
    tables = random_values(chance)
    table = chance.choice(list(tables))
    key = chance.choice(list(tables[table]))
    bounds = bounds_of(table, key)
    if bounds and not key.startswith("rate") and chance.random() < 0.3:
        tables[table][key] = chance.choice(bounds)
    if faulty and chance.random() < 0.7:
        near = [str(bound + shift) for bound in bounds for shift in (-1, 0, 1)]
        tables[table][key] = chance.choice(near or ODD_VALUES) if chance.random() < 0.6 else chance.choice(ODD_VALUES)
    text = document_text(chance, tables)
    if faulty and chance.random() < 0.2:
        text = chance.choice(ODD_DOCUMENTS) + chance.choice(("", text))
    # The program takes a little more than TOML 1.0 in inline tables, so those aren't changed.
    if faulty and "{" not in text and chance.random() < 0.3:
        return changed(chance, text.encode())
    return text.encode()


def document_text(chance, tables):
    """A document of tables, in the ways in which TOML writes them; some keys are left out."""
    front, back = "", ""
    for table in chance.sample(list(tables), len(tables)):
        keys = [key for key in tables[table] if chance.random() < 0.9 or key.startswith(("rate", "front", "back"))]
        lines = ["%s = %s" % (key, value_text(chance, tables[table][key])) for key in keys]
        if chance.random() < 0.7:
            back += "[%s]\n%s\n" % (table, "\n".join(lines))
        elif chance.random() < 0.5:
            front += "".join("%s . %s # x\r\n" % (table, line) for line in lines)
        else:
            front += "%s = { %s }\n" % (table, ", ".join(lines))
    routes = [random_route(chance) for _ in range(chance.choice((0, 0, 0, 1, 2, 3, 8)))]
    for name, items in (("route", routes), ("pool", random_pools(chance, routes))):
        if chance.random() < 0.8:
            back += "".join("[[%s]]\n%s\n" % (name, "\n".join(lines)) for lines in items)
        elif items:
            front += "%s = [%s]\n" % (name, ", ".join("{ %s }" % ", ".join(lines) for lines in items))
    return front + back


def value_text(chance, value):
    """An integer in one of the ways in which TOML writes it; another value as it is."""
    if not isinstance(value, int) or chance.random() < 0.5:
        return str(value)
    return chance.choice(
        ("+%d" % value, format(value, "#x"), format(value, "#o"), format(value, "#b"), format(value, "_"))
    )


def random_replay(seed, faults=FAULTS):
    """Snapshot, capture and settings that a seed gives; one of the faults is in the text that it names."""
    chance = random.Random(seed)
    start = chance.choice((START, START, 0, reference.START_LIMIT, chance.randrange(reference.START_LIMIT)))
    files = random_files(chance, start)
    fault = chance.choice(faults)
    times = [start, start + 1, chance.randrange(reference.START_LIMIT)] + [time for _, time, _ in files]
    form = chance.choice(reference.FORMATS)
    records = random_records(chance, [name for name, _, _ in files], times, form)
    snapshot = drawn_snapshot(chance, files, fault == "snapshot")
    return (snapshot, drawn_capture(chance, form, start, records, fault == "capture"),
            random_settings(chance, fault == "settings"))


def many_segments(chance, name):
    """A target of some thousand bytes, which may lead to the file of this name."""
    unit, size = chance.choice(UNITS), chance.choice((1500, 4000, 7900))
    return unit * (size // len(unit)) + b"/" + urllib.parse.quote(name).encode()


def heavy_request(chance, names, times, most):
    """A request after which the connection most often stays open. A body has at most so many bytes, and looks like
    requests."""
    kind = chance.choices(list(HEAVY_KINDS), HEAVY_KINDS.values())[0]
    if kind == "plain":
        return plain_request(chance, names)
    if kind == "odd":
        return random_request(chance, names, times)
    name, lines, body = chance.choice(names), [b"Host: a"], b""
    target = b"/" + urllib.parse.quote(name).encode()
    if kind == "target":
        target = random_target(chance, names)
    elif kind == "segments":
        target = many_segments(chance, name)
    elif kind == "line":
        lines.append(long_line(chance))
    elif kind == "fields":
        lines += many_fields(chance, times)
    elif kind == "body":
        body = (REQUEST * (most // len(REQUEST) + 1))[: chance.randint(0, most)]
        lines.append(b"Content-Length: %d" % len(body))
    else:
        lines.append(b"If-Modified-Since: " + random_date(chance, chance.choice(times)))
    line = chance.choice((b"GET", b"GET", b"GET", b"HEAD", b"POST")) + b" " + target + b" HTTP/1.1"
    return b"\r\n".join([line] + chance.sample(lines, len(lines)) + [b"", body])


def cut_elsewhere(chance, texts):
    """As many texts, which are the same together, cut at any places."""
    whole = b"".join(texts)
    places = sorted([0, len(whole)] + chance.sample(range(1, len(whole)), len(texts) - 1))
    return [whole[begin:end] for begin, end in zip(places, places[1:])]


def heavy_pieces(chance, names, times, count):
    """The pieces of a connection: so many texts of 1 to 6 requests, often cut elsewhere; a long one makes several."""
    most = chance.choice((100, 3000, 3000, 60_000))
    texts = [
        b"".join(heavy_request(chance, names, times, most) for _ in range(chance.randint(1, 6))) for _ in range(count)
    ]
    texts = cut_elsewhere(chance, texts) if chance.random() < 0.4 else texts
    limit = reference.PIECE_LIMIT
    return [text[at : at + limit] for text in texts for at in range(0, len(text), limit)]


def heavy_settings(chance):
    """A document of settings, with batches that hold some hundred pieces, or all, and often with a bucket for all."""
    tables = random_values(chance)
    tables["floor"]["batch"] = chance.choice((7, 150, 400, 65_536, 65_536, 65_536))
    if chance.random() < 0.6:
        tables["policy"]["depth"] = 10**6
    return document_text(chance, tables).encode()


def heavy_replay(seed, faults=HEAVY_FAULTS):
    """Snapshot, capture and settings of a seed: some thousand requests on 5 to 40 connections, worth threads in large
    batches. One of the faults is in the capture."""
    chance = random.Random("heavy, %d" % seed)
    files = random_files(chance, START)
    names = [name for name, _, _ in files] or [b"a.txt"]
    names = names * (16 // len(names) + 1) + [b"large.js"]
    files = sorted(files + [(b"large.js", START, chance.randbytes(chance.choice((3000, 30_000, 200_000))))])
    times = [START, START + 1] + [time for _, time, _ in files]
    form = chance.choice(reference.FORMATS)
    conns = chance.sample(range(form.last + 1), chance.randint(5, 40))
    weights = [chance.choice((1, 1, 1, 8)) for _ in conns]
    counts = collections.Counter(chance.choices(conns, weights, k=chance.choice((300, 900, 1200, 1200))))
    waiting = {conn: heavy_pieces(chance, names, times, count) for conn, count in counts.items()}
    if form.again:
        waiting = {conn: in_lives(chance, pieces) for conn, pieces in waiting.items()}
    records = mixed(chance, waiting)
    records = with_tiers(chance, records) if form.tiers else records
    capture = drawn_capture(chance, form, START, records, chance.choice(faults) == "capture")
    return snapshot_text(in_order(files)), capture, heavy_settings(chance)


def long_records(chance, names, times, form):
    """600 to 2,500 small pieces on 1 to 200 connections, with their ends and tiers: requests, often cut elsewhere, of
    which few are odd."""
    conns = chance.sample(range(form.last + 1), chance.choice((1, 3, 20, 200)))
    counts = collections.Counter(chance.choices(conns, k=chance.randint(600, 2500)))
    waiting = {}
    for conn, count in counts.items():
        texts = [plain_request(chance, names) for _ in range(count)]
        if chance.random() < 0.3:
            texts[chance.randrange(count)] = random_request(chance, names, times)
        waiting[conn] = cut_elsewhere(chance, texts) if chance.random() < 0.4 else texts
    if form.again:
        waiting = {conn: in_lives(chance, pieces) for conn, pieces in waiting.items()}
    records = mixed(chance, waiting)
    return with_tiers(chance, records) if form.tiers else records


def long_settings(chance):
    """A document of settings with a batch of 512 to 2,048 pieces, and often with room for all pages; or none."""
    if chance.random() < 0.3:
        return b""
    tables = random_values(chance)
    tables["floor"]["batch"] = chance.choice((512, 513, 640, 1024, chance.randint(512, 2048)))
    if chance.random() < 0.8:
        tables["floor"]["cache"] = 2**30
    return document_text(chance, tables).encode()


def long_replay(seed, faults=LONG_FAULTS):
    """Snapshot, capture and settings of a seed: small pieces for several batches, of a usual size."""
    chance = random.Random("long, %d" % seed)
    files = random_files(chance, START)
    names = [name for name, _, _ in files]
    times = [START, START + 1] + [time for _, time, _ in files]
    form = chance.choice(reference.FORMATS)
    records = long_records(chance, names, times, form)
    capture = drawn_capture(chance, form, START, records, chance.choice(faults) == "capture")
    return snapshot_text(in_order(files)), capture, long_settings(chance)


def faulty_capture(seed):
    """The text of a recording with a fault, that a seed gives."""
    chance = random.Random("a fault, %d" % seed)
    form = chance.choice(reference.FORMATS)
    names = [name for name, _, _ in random_files(chance, START)]
    return drawn_capture(chance, form, START, random_records(chance, names, [START], form), True)


def few_connections(count, connections):
    """So many pieces on so many connections, of nearly as many bytes as a piece may have: in each a request with a
    large body, or with a long line and a body."""
    head = b"POST / HTTP/1.1\r\nHost: a\r\nX:%b\r\nContent-Length: %d\r\n\r\n"
    requests = [head % (b"", 65_000) + b"x" * 65_000, head % (b"x" * 8000, 57_000) + b"x" * 57_000]
    return [(number, 7 + number % connections, requests[number // connections % 2]) for number in range(count)]


def controlled(count):
    """So many requests of tier 0, and ten fewer of tier 2, each on a life of its own, and so slowly that each has its
    control before the next."""
    records = []
    for number in range(count):
        records += [(1000 * number, 1, REQUEST), (1000 * number, 1)]
        if number >= 10:
            records += [("tier", 0, 2), (1000 * number + 500, 0, REQUEST), (1000 * number + 500, 0)]
    return records


def limit_replays():
    """Name, files, format, start, records and settings of replays at a limit, and just past it."""
    records = [(0, 0, REQUEST)]
    head = b"POST / HTTP/1.1\r\nHost: a\r\nContent-Length: %d\r\n\r\n"
    costly = b"[costs]\nfile = 1000000\nkib = 1000000\n"
    costly += b"[policy]\nevery = 1\ntarget = 1000000000000\nlow = 100\nup = 1000000000\n"
    each = b"[policy]\nevery = 1\nwindow = 1\ndepth = 1000000\n"
    # More bytes of pages than the staged engine holds at a time, and of pieces than it takes into a batch.
    pages = [(b"%d.txt" % number, START, b"%d" % number * 5_000_000) for number in range(4)]
    asked = b"".join(b"GET /%d.txt HTTP/1.1\r\nHost: a\r\n\r\n" % (number % 4) for number in range(20))
    yield "pages", pages, ONE, START, [(0, 0, asked)], OPEN
    bodies = [(number, number % 7, head % 65_000 + b"x" * 65_000) for number in range(300)]
    yield "batch", FILES, ONE, START, bodies, OPEN
    for past in (0, 1):
        yield "start", FILES, ONE, reference.START_LIMIT + past, records, None
        yield "tick", FILES, ONE, START, [(reference.TICK_LIMIT + past, 0, REQUEST)], None
        for form in reference.FORMATS:
            yield "connection", FILES, form, START, [(0, form.last + past, REQUEST)], None
        for form in (reference.TWO, TRAFFIC):
            yield "tier", FILES, form, START, [("tier", 0, reference.TIERS - 1 + past), (0, 0, REQUEST)], None
        yield "controls", FILES, TRAFFIC, START, controlled(reference.CONTROLS_SHOWN + past), each
        yield "piece", FILES, ONE, START, [(0, 0, REQUEST * 2048 + b"G" * past)], None
        body = [(0, 0, head % (65_536 + past)), (1, 0, b"x" * 65_536), (2, 0, b"x" * past + REQUEST)]
        yield "body", FILES, ONE, START, body, None
        yield "time", [(b"a.txt", reference.TIME_LIMIT + past, b"")], ONE, START, records, None
        yield "name", [(b"a.txt/" + b"x" * (reference.NAME_LIMIT - 6 + past), 0, b"")], ONE, START, records, None
        late = records * 2 + [(10**11, 0, REQUEST)]
        yield "length", [(b"a.txt", 0, bytes(reference.FILE_LIMIT + past))], ONE, START, late, costly
        many = [(b"%05d" % number, 0, b"") for number in range(reference.FILES_LIMIT + past)]
        yield "files", many, ONE, START, records, None
        yield "settings", FILES, ONE, START, records, b"#" * (reference.SETTINGS_LIMIT + past)
    # So many bytes are worth more threads than there are connections; of 300 pieces the first batch has 16 MiB.
    for count, connections in (60, 1), (300, 1), (100, 3):
        yield "few connections", FILES, ONE, START, few_connections(count, connections), OPEN


def run_program(program, words, files, written, seconds=SECONDS):
    """Status, line on standard error, what a file holds after the run, and standard output, of one over these files."""
    status, line, output, after = run_over(program, [*words, *options(*files)], files, seconds=seconds)
    return status, line if words[0] == "settings" else without_words(line), after[written], output


def replay_files(snapshot, capture, settings, written="replies"):
    """The files of a replay, or of a table of decisions."""
    files = {"snapshot": snapshot, "capture": capture, written: OLD_REPLIES}
    return files if settings is None else {**files, "settings": settings}


def run_replay(program, words, snapshot, capture, settings, seconds=SECONDS):
    """Status, line on standard error, replies and report of a replay with these words besides."""
    files = replay_files(snapshot, capture, settings)
    return run_program(program, ["replay", *words], files, "replies", seconds)


def run_explain(program, snapshot, capture, settings, words=()):
    """Status, line on standard error, table of decisions and report, with these words besides."""
    files = replay_files(snapshot, capture, settings, "messages")
    return run_program(program, ["explain", *words], files, "messages")


def run_inspect(program, capture):
    """Status, line on standard error, the capture, which stays as it is, and what it holds."""
    return run_program(program, ["inspect"], {"capture": capture}, "capture")


def run_settings(program, document):
    """Status, the line of a fault, the document, which stays as it is, its settings written out, and `words` where the
    line of words after that of the fault is one of that fault."""
    status, lines, kept, text = run_program(program, ["settings"], {"settings": document}, "settings")
    line, end, words = lines.partition(b"\n")
    return status, line + end, kept, text, b"words" if are_words_of(line, words) else words


def are_words_of(line, words):
    """Whether these are words as docs/FORMATS.md ("Settings") has them of the fault that this line tells."""
    if not line:
        return not words
    kind, _, key = line.removeprefix(b"haboob: settings: ").partition(b" ")
    key = {b"floor.front": b"floor.front_cuts", b"floor.back": b"floor.back_cuts"}.get(key, key)
    begins = {b"Text": b"the settings ", b"Unknown": b""}.get(kind, key + b" is to be ")
    holds = b" is no key of the settings; the nearest is " if kind == b"Unknown" else b""
    return words.startswith(b"haboob: " + begins) and holds in words and words.find(b"\n") == len(words) - 1


def run_upgrade(program, capture, words):
    """Status, line on standard error, output and standard output of an upgrade with these words besides."""
    return run_program(program, ["upgrade", *words], {"capture": capture, "output": OLD_REPLIES}, "output")


def with_last_controls(report):
    """The report of a capture as it is of the same records in a traffic text: of each tier's controls the last."""
    lines = []
    for listed, group in itertools.groupby(report.splitlines(True), lambda line: line.startswith(b"control ")):
        lines += list(group)[-reference.CONTROLS_SHOWN :] if listed else group
    return b"".join(lines)


def difference(parts, wanted, got):
    """The first place where two answers differ, with what stands there, or None."""
    for part, one, other in zip(parts, wanted, got):
        one, other = (text if isinstance(text, bytes) else b"%d" % text for text in (one, other))
        if one != other:
            at = len(os.path.commonprefix((one, other)))
            around = slice(max(0, at - 40), at + 40)
            return "%s, byte %d: wanted %r, got %r" % (part, at, one[around], other[around])
    return None


class Comparison(Report):
    """Runs the program, and counts the runs and those that answer otherwise than they should, which it prints."""

    def __init__(self, program):
        super().__init__()
        self.program, self.replays, self.tables, self.upgrades, self.speed = program, 0, 0, 0, 100

    def words(self):
        """The words for the speed."""
        return [] if self.speed == 100 else ["--speed", str(self.speed)]

    def judge(self, verb, name, wanted, got):
        """Prints where an answer is wrong."""
        found = difference(PARTS[verb], wanted, got)
        if found:
            self.tell_wrong("%s, %s: WRONG: %s" % (name, verb, found))

    def run_replay(self, words, *texts):
        return run_replay(self.program, words, *texts)

    def replay(self, name, wanted, *texts):
        """Replays with both engines."""
        for engine in ENGINES:
            self.replays += 1
            words = engine + self.words()
            self.judge("replay", " ".join([name] + words), wanted, self.run_replay(words, *texts))

    def replay_as_reference(self, name, snapshot, capture, settings):
        """Replays with both engines; what the reference answers."""
        status, line, replies, report = reference.replay(snapshot, capture, settings or b"", self.speed)
        wanted = status, line, OLD_REPLIES if replies is None else replies, report
        self.replay(name, wanted, snapshot, capture, settings)
        return wanted

    def explain(self, name, snapshot, capture, settings):
        """Compares the table of decisions, and what the capture holds."""
        self.tables += 1
        status, line, table, report = reference.explain(snapshot, capture, settings or b"", self.speed)
        wanted = status, line, OLD_REPLIES if table is None else table, report
        self.judge("explain", name, wanted, run_explain(self.program, snapshot, capture, settings, self.words()))
        status, line, text = reference.inspect(capture)
        self.judge("inspect", name, (status, line, capture, text), run_inspect(self.program, capture))

    def settings(self, name, document):
        """Compares the settings that are written out, and those of the text that was written."""
        status, line, text = reference.settings_text(document)
        self.judge("settings", name, (status, line, document, text, b"words"), run_settings(self.program, document))
        if status == 0:
            wanted = 0, b"", text, text, b"words"
            self.judge("settings", name + ", read back", wanted, run_settings(self.program, text))

    def upgrade(self, name, capture, words, to):
        """Upgrades a recording to a format, and the upgraded text once more; what is wanted then stands in the output.
        """
        name = " ".join([name, *words])
        status, line, wanted = reference.upgrade(capture, to)
        got = run_upgrade(self.program, capture, words)
        self.judge("upgrade", name, (status, line, wanted, b""), got)
        self.upgrades += 2
        status, line, _ = reference.upgrade(wanted, to)
        again = run_upgrade(self.program, got[2], words)
        self.judge("upgrade", name + ", upgraded again", (status, line, wanted, b""), again)
        return got[0], got[2]

    def upgrade_all(self, name, capture):
        """Upgrades a recording as it can be asked for; gives the texts that aren't the recording's own, of one that has
        no fault."""
        texts = {self.upgrade(name, capture, *asked) for asked in UPGRADES}
        return sorted(text for ended, text in texts if ended == 0 and text != capture)

    def compare(self, name, snapshot, capture, settings):
        """Replays and upgrades; what the reference answers to the replay."""
        wanted = self.replay_as_reference(name, snapshot, capture, settings)
        report = wanted[3]
        self.explain(name, snapshot, capture, settings)
        self.settings(name, settings or b"")
        for upgraded in self.upgrade_all(name, capture):
            again = with_last_controls(report) if upgraded.startswith(TRAFFIC.begin) else report
            title = "%s, upgraded to %s" % (name, upgraded[:16].decode())
            self.replay(title, (*wanted[:3], again), snapshot, upgraded, settings)
        return wanted

    def end(self, counts="{replays} replays, {tables} tables and inspections, {upgrades} upgrades, {wrong} wrong"):
        return super().end(counts)


def compare_large(comparison, name, settings):
    """Compares a run of 100,000 requests, and prints what happens in it."""
    capture = recording_text([(100 * number, number % 100, REQUEST) for number in range(100_000)])
    _, _, _, report = comparison.compare(name, SNAPSHOT, capture, settings)
    happened = re.findall(r"(?m)^(?:admitted|rejected|controls) \d+", report.decode())
    print("%-30s %s" % (name, ", ".join(happened)), flush=True)


def compare_limits(comparison, chance):
    """Compares replays at and past the limits."""
    count = 0
    for name, files, form, start, records, settings in limit_replays():
        texts = snapshot_text(in_order(files)), recording_text(records, form.begin, start)
        least = 65_536 if name in ("batch", "few connections") else 1
        comparison.compare("limit of " + name, *texts, with_floor(chance, settings, least))
        count += 1
    print("%-30s %d replays" % ("limits", count), flush=True)


def ends_text(ends):
    """How many replays ended with which status."""
    return ", ".join("%d with status %d" % (number, status) for status, number in sorted(ends.items()))


def compare_random(comparison, count, first):
    """Compares random replays, and prints how many of them end with which status."""
    ends = {}
    for seed in range(first, first + count):
        comparison.speed = SPEEDS[seed % len(SPEEDS)]
        drawn = long_replay(seed) if seed % LONG_TURN == 3 else random_replay(seed)
        status, *_ = comparison.compare("seed %d" % seed, *drawn)
        comparison.speed = 100
        ends[status] = ends.get(status, 0) + 1
        comparison.upgrade_all("seed %d, a fault" % seed, faulty_capture(seed))
    print("%-30s %s" % ("seeds %d to %d" % (first, first + count - 1), ends_text(ends)))


def compare_heavy(comparison, count, first):
    """Compares heavy replays, and prints how many of them end with which status."""
    ends = {}
    for seed in range(first, first + count):
        status, *_ = comparison.compare("heavy seed %d" % seed, *heavy_replay(seed))
        ends[status] = ends.get(status, 0) + 1
    print("%-30s %s" % ("heavy seeds %d to %d" % (first, first + count - 1), ends_text(ends)), flush=True)


def main():
    words = with_seeds(parser_of(__doc__), 40).parse_args()
    comparison, chance = Comparison(words.program), random.Random(words.first)
    compare_large(comparison, "hundred thousand requests", None)
    # With a batch of one piece it takes longer.
    compare_large(comparison, "hundred thousand, tight bucket", with_floor(chance, TIGHT, 1000))
    compare_limits(comparison, chance)
    compare_random(comparison, words.count, words.first)
    compare_heavy(comparison, HEAVY, words.first)
    return comparison.end()


if __name__ == "__main__":
    sys.exit(main())
