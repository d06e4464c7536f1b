#!/usr/bin/env python3
"""Runs `haboob slim`, and compares status, line and output with a table; then on recordings drawn at random the replays
and tables before and after, with queries and without; and looks for a secret that was put where no answer depends on
it.
"""
import random
import sys

from lib.report import Report
from lib.run import run_over
from lib.texts import CLOSING, HEADER, HEADER_TRAFFIC, HEADER_TWO, ONE, TRAFFIC, recording_text
from lib.usage import program_of
import compare_replays as drawn
from program_parts import LIVES, OLDEST, PIECE, check_rewrites

SLIM = ["--capture", "capture", "--output", "output"]
TO_TWO = SLIM + ["--format", "2"]
DROP = ["--drop-queries"]
REPLAYS, HEADS = 300, 1_000
# Targets with something in their query, or where it makes them none.
QUERIES = [b"/a.txt?%s", b"/?a=%s&b=c", b"http://h?%s/x", b"http://h/a.txt?x?%s", b"?%s", b"/a.txt?b#%s", b"/#?%s"]
DATE = b"If-Modified-Since: Sun, 06 Nov 1994 08:49:37 GMT\r\n"


def of_blocks(begin, blocks):
    """A text of pieces, each with a block on a connection of its own."""
    return recording_text([(0, conn, block) for conn, block in enumerate(blocks)], begin)


SLIM_ONE = b"GET /a.txt HTTP/1.1\nHost:\n\n"
REQUESTED = HEADER + PIECE + b"end 5 0\nstop 2\n"
SLIMMED = recording_text([(0, 0, SLIM_ONE), (5, 0)], TRAFFIC)
SLIM_LIVES = recording_text([
    ("tier", 9, 1), (5, 9, b"GET /a.txt HTTP/1.1\nHost:\nConnection:close\n\n"), (6, 9), (6, 3), (6, 3),
    (7, 3, SLIM_ONE)], TRAFFIC)
# Each block, and the one that stands for it.
BLOCKS = [
    (CLOSING + b"more", b"GET /a.txt HTTP/1.1\nHost:\nConnection:close\n\n"),
    (b"GET / HTTP/1.0\r\nHost: a\r\n\r\n", b"GET / HTTP/1.0\n\n"),
    (b"GET / HTTP/1.0\r\nConnection: x, Keep-Alive\r\n\r\n", b"GET / HTTP/1.0\nConnection:keep-alive\n\n"),
    (b"HEAD / HTTP/1.1\r\n" + DATE + b"Host: a\r\n\r\n",
     b"HEAD / HTTP/1.1\nHost:\nIf-Modified-Since:Sun Nov 06 08:49:37 1994\n\n"),
    (b"POST / HTTP/1.1\r\n" + DATE + b"Host: a\r\nContent-Length: 2\r\n\r\nhi", b"POST / HTTP/1.1\nHost:\n\n"),
    (b"GET / HTTP/1.1\r\n" + DATE + b"Host: a\r\nIf-None-Match: x\r\n\r\n", b"GET / HTTP/1.1\nHost:\n\n"),
    (b"nonsense\r\n\r\n", b"A\n\n"),
    (b"GET / HTTP/1.1\r\n\r\n", b"A / HTTP/1.1\n\n"),
    (b"GET / HTTP/1.1\r\nHost: a\r\nTransfer-Encoding: chunked\r\n\r\n", b"A / HTTP/1.0\nTransfer-Encoding:\n\n"),
    (b"GET / HTTP/1.1\r\nHost: a\r\nContent-Length: x\r\n\r\n", b"A / HTTP/1.0\nContent-Length:\n\n"),
    (b"GET / HTTP/1.1\r\nHost: a\r\nContent-Length: 70000\r\n\r\n", b"A / HTTP/1.0\nContent-Length:65537\n\n"),
    (b"x" * 9000, b"A" * 8192),
]
# Each target, and what stays of it without its query.
TARGETS = [
    (b"/a.txt", b"/a.txt"),
    (b"/a?s3cr3t", b"/a"),
    (b"/a?b?/c", b"/a"),
    (b"/a?", b"/a"),
    (b"/?/../b", b"/"),
    (b"http://h?x/y", b"http://h"),
    (b"HTTP://h/a?b", b"HTTP://h/a"),
    (b"http://?x", b"http://"),
    (b"*", b"*"),
    (b"?", b"#"),
    (b"?/a", b"#"),
    (b"/a#b", b"#"),
    (b"/a?b#c", b"#"),
    (b"#", b"#"),
]


def asking(targets, method):
    return [method + b" " + target + b" HTTP/1.0\n\n" for target in targets]


def of_targets(place, method=b"GET"):
    return of_blocks(TRAFFIC, asking([pair[place] for pair in TARGETS], method))


CASES = [
    ("a request", REQUESTED, SLIM, 0, b"", SLIMMED),
    ("a request, to traffic", REQUESTED, SLIM + ["--format=traffic"], 0, b"", SLIMMED),
    ("a request, to version 2", REQUESTED, TO_TWO, 0, b"", SLIMMED.replace(HEADER_TRAFFIC, HEADER_TWO)),
    ("a slim text, to version 2", SLIMMED, TO_TWO, 0, b"", SLIMMED),
    ("nothing", recording_text([]), SLIM, 0, b"", recording_text([], TRAFFIC)),
    ("numbers used again", LIVES, SLIM, 0, b"", SLIM_LIVES),
    ("each kind of block", of_blocks(ONE, [block for block, _ in BLOCKS]), SLIM, 0, b"",
     of_blocks(TRAFFIC, [block for _, block in BLOCKS])),
    ("targets", of_targets(0), SLIM, 0, b"", of_targets(0)),
    ("targets without their query", of_targets(0), SLIM + DROP, 0, b"", of_targets(1)),
    ("the same of OPTIONS", of_targets(0, b"OPTIONS"), DROP + SLIM, 0, b"", of_targets(1, b"OPTIONS")),
    ("without a query again", of_targets(1), SLIM + DROP, 0, b"", of_targets(1)),
    ("another format", REQUESTED, SLIM + ["--format", "1"], 2, b"haboob: format\n", OLDEST),
    ("--format without a word", REQUESTED, SLIM + ["--format"], 2, None, OLDEST),
    ("the word of an upgrade", REQUESTED, SLIM + ["--to", "2"], 2, None, OLDEST),
    ("--drop-queries with a word", REQUESTED, SLIM + ["--drop-queries=yes"], 2, None, OLDEST),
    ("no output", REQUESTED, ["--capture", "capture"], 2, None, OLDEST),
    ("no capture", REQUESTED, ["--output", "output"], 2, None, OLDEST),
    ("an option of replay", REQUESTED, SLIM + ["--engine", "plain"], 2, None, OLDEST),
    ("help", REQUESTED, ["--help"], 2, None, OLDEST),
    ("an empty capture", b"", SLIM, 5, b"haboob: capture: record 0: Cut\n", b""),
    ("no last line", HEADER + PIECE, SLIM, 5, b"haboob: capture: record 2: Cut\n", SLIMMED.partition(b"end")[0]),
    ("an end twice", HEADER + b"end 5 0\n" * 2, SLIM, 5, b"haboob: capture: record 2: Ended\n",
     HEADER_TRAFFIC + b"end 5 0\n"),
    ("no such capture", REQUESTED, ["--capture=none", "--output=output"], 6, b"haboob: open: capture\n", OLDEST),
    ("a folder as capture", REQUESTED, ["--capture=folder", "--output=output"], 6, b"haboob: read: capture\n", b""),
    ("a folder as output", REQUESTED, ["--capture=capture", "--output=folder"], 6, b"haboob: open: output\n", OLDEST),
    ("no folder for it", REQUESTED, ["--capture=capture", "--output=none/o"], 6, b"haboob: open: output\n", OLDEST),
    ("a full device", REQUESTED, ["--capture=capture", "--output=/dev/full"], 6, b"haboob: write: output\n", OLDEST),
    ("the capture as output", REQUESTED, ["--capture=capture", "--output=link"], 6, b"haboob: open: output\n", OLDEST),
]


def slim(program, capture, words=()):
    """Status, line on standard error and output of a run with these words besides."""
    words = ["slim", "--capture", "capture", "--output", "output", *words]
    status, line, _, after = run_over(program, words, {"capture": capture, "output": OLDEST}, seconds=drawn.SECONDS)
    return status, line, after["output"]


def all_answers(program, snapshot, capture, settings):
    """What both engines and `explain` answer to a recording."""
    replays = [drawn.run_replay(program, engine, snapshot, capture, settings) for engine in drawn.ENGINES]
    return replays + [drawn.run_explain(program, snapshot, capture, settings)]


def without_query(target):
    if b"#" in target or target.startswith(b"?"):
        return b"#"
    return target.partition(b"?")[0]


def without_queries(answers):
    """The same with the targets of the table, its last cells, without their queries."""
    status, line, table, report = answers[-1]
    rows = [row.rpartition(b",") for row in table.split(b"\n")]
    table = b"\n".join(front + comma + without_query(target) for front, comma, target in rows)
    return answers[:-1] + [(status, line, table, report)]


def as_traffic(answers):
    """The same of a traffic text, whose report lists each tier's last controls."""
    return [(*answer[:3], drawn.with_last_controls(answer[3])) for answer in answers]


def compare_drawn(program, report):
    """Compares recordings drawn at random with their slim texts, and these with their own."""
    compared, seed = 0, 0
    while compared < REPLAYS:
        seed += 1
        snapshot, capture, settings = drawn.random_replay(seed, ("",))
        before = all_answers(program, snapshot, capture, settings)
        if before[0][0]:
            continue
        compared += 1
        words = ["--format", "2"] if seed % 2 else []
        if seed % 3:
            words += DROP
            before = without_queries(before)
        status, line, slimmed = slim(program, capture, words)
        after = all_answers(program, snapshot, slimmed, settings)
        if slimmed.startswith(b"haboob-traffic"):
            before = as_traffic(before)
        again = slim(program, slimmed, words)
        if (status, line) != (0, b"") or before != after or again != (0, b"", slimmed):
            report.see("seed %d" % seed, False, (status, line, before == after, again[:2]))
    report.see("%d recordings, two of three without queries, the last of seed %d" % (compared, seed), True)


def secret_head(chance, secret, drops):
    """The text of a connection with a secret at a place that no answer depends on: in the query too where that goes."""
    close = chance.random() < 0.3
    lines = [b"Host: a", b"Connection: close" if close else b"Accept: */*"]
    place = chance.randrange(11 if drops else 8)
    target = b"/a.txt"
    if place == 0:
        lines.insert(chance.randrange(3), secret + b": a")
    elif place == 1:
        name = chance.choice([b"Cookie", b"Authorization", b"Referer", b"If-None-Match", b"If-Modified-Since", b"X"])
        lines.insert(chance.randrange(3), name + b": " + secret)
    elif place == 2:
        lines.append(b"X: a\r\n " + secret)
    elif place == 3:
        lines[0] = b"Host: " + secret
    elif place == 4:
        lines.append(b"Content-Length: %d" % len(secret))
    elif place == 5:
        lines.append(chance.choice([b"Transfer-Encoding: ", b"Content-Length: "]) + secret)
    elif place >= 8:
        target = chance.choice(QUERIES) % secret
    method = chance.choice([b"GET", b"HEAD", b"POST", b"OPTIONS", b"BREW"]) if drops else b"GET"
    head = method + b" " + target + b" HTTP/1.1\r\n" + b"\r\n".join(lines) + b"\r\n\r\n"
    if place == 4:
        return head + secret
    if place == 6:
        return CLOSING + secret
    if place == 7:
        return head + b"GET / HTTP/1.1\r\nX: " + secret
    return head


def messages_told(program, capture):
    """How many messages an inspection tells."""
    figures = drawn.run_inspect(program, capture)[3]
    return next(line for line in figures.split(b"\n") if line.startswith(b"messages "))


def look_for_secret(program, report, words):
    """Looks for a secret in the slim text of many heads."""
    chance = random.Random(7)
    secret = b"s3cr3t-%08x" % chance.getrandbits(32)
    capture = of_blocks(ONE, [secret_head(chance, secret, words == DROP) for _ in range(HEADS)])
    status, line, slimmed = slim(program, capture, words)
    same = messages_told(program, capture) == messages_told(program, slimmed) != b"messages 0"
    good = (status, line, same) == (0, b"", True) and secret in capture and secret not in slimmed
    name = " ".join(["a secret in %d heads" % HEADS, *words])
    report.see(name, good, (status, line, same))
    report.see(name + ": no part of it", secret[:6] not in slimmed, slimmed[:99])


def main():
    program, report = program_of(__doc__), Report()
    check_rewrites(report, program, "slim", CASES)
    compare_drawn(program, report)
    look_for_secret(program, report, [])
    look_for_secret(program, report, DROP)
    return report.end()


if __name__ == "__main__":
    sys.exit(main())
