#!/usr/bin/env python3
"""Cuts inputs after each of their bytes, and captures into pieces of one byte, and compares what both engines do with
reference.py.

    checks/cut_inputs.py PROGRAM

Captures with pipelined requests, a closing one, two connections, an end and a tier, and a traffic text with four lives
of a number, each cut after each of its bytes: what is reported is the first record that isn't whole, and what stands
are the replies to the messages of those before it.
A snapshot cut after each of its bytes. And texts of requests (dates, bodies, faulty lengths, HTTP/1.0, HEAD, an empty
file) in one piece, and in pieces of one byte at the same tick: the replies are the same. Exits with 1 where anything
differs.
"""
import sys

from lib.texts import CLOSING, REQUEST as GET, ONE, TRAFFIC, TWO, recording_text, snapshot_text
from lib.usage import program_of
from compare_replays import Comparison

SNAPSHOT = snapshot_text([(b"a.txt", b"hi\n"), (b"e", b"")])
DATE = b"If-Modified-Since: Sun, 06 Nov 1994 08:49:%d GMT\r\n\r\n"
POST = b"POST /a.txt HTTP/1.1\r\nHost: a\r\n"
CAPTURES = [
    recording_text([(7, 0, GET + CLOSING + GET)], ONE),
    recording_text([(7, 9, GET), (7, 2, GET)], ONE),
    recording_text([("tier", 9, 1), (7, 9, GET[:20]), (7, 2), (8, 9, GET[20:])], TWO),
    recording_text([("tier", 9, 1), (7, 9, GET + GET[:20]), (7, 9), (7, 9, GET[20:]), (8, 9), (8, 9), ("tier", 9, 2),
                    (8, 9, GET), (8, 9), (9, 9, GET)], TRAFFIC),
]
TEXTS = [
    GET + CLOSING + GET,
    GET[:-2] + DATE % 37 + GET[:-2] + DATE % 36 + GET[:-2] + b'If-None-Match: "x"\r\n' + DATE % 37,
    POST + b"Content-Length: 3\r\n\r\nabc" + GET,
    POST + b"Content-Length: 65537\r\n\r\n" + GET,
    POST + b"Transfer-Encoding: chunked\r\nContent-Length: 1\r\nContent-Length: 1\r\n\r\n",
    POST + b"Content-Length: 1\r\nContent-Length: 1\r\n\r\n",
    b"GET /a.txt HTTP/1.0\r\nConnection: Keep-Alive\r\n\r\nHEAD" + GET[3:] + b"GET /e HTTP/1.0\r\n\r\n" + GET,
    b"\r\n\n" + GET,
]


def replays():
    """A name, a snapshot and a capture of each replay."""
    for number, capture in enumerate(CAPTURES):
        for end in range(len(capture) + 1):
            yield "capture %d cut after %d bytes" % (number, end), SNAPSHOT, capture[:end]
    for end in range(len(SNAPSHOT)):
        yield "snapshot cut after %d bytes" % end, SNAPSHOT[:end], CAPTURES[0]
    for number, text in enumerate(TEXTS):
        yield "text %d in one piece" % number, SNAPSHOT, recording_text([(7, 0, text)])
        pieces = [(7, 0, text[at:at + 1]) for at in range(len(text))]
        yield "text %d in pieces of one byte" % number, SNAPSHOT, recording_text(pieces)


def main():
    comparison = Comparison(program_of(__doc__))
    for name, snapshot, capture in replays():
        comparison.replay_as_reference(name, snapshot, capture, b"")
    return comparison.end("{replays} runs, {wrong} wrong")


if __name__ == "__main__":
    sys.exit(main())
