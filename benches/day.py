#!/usr/bin/env python3
"""Writes a traffic text of very many messages to standard output, fast enough for a program that reads it from a pipe.

usage: day.py COUNT

COUNT is a multiple of 1,000; 86,400,000 messages are a day's. In each second 1,000 come, about a millisecond from one
to the next, of some 200 bytes each, for the files of `snapshot`. 20,000 connections are open at once, each for LIFE
messages; then it ends, and the next one begins under its number: in a day more than four million times.
"""
import fcntl
import os
import stat
import sys

START = 784111777
CONNECTIONS = 20_000  # numbered from 10,000 on
SECOND = 1_000  # messages
GROUPS = CONNECTIONS // SECOND  # a second's messages come from a group of connections, one from each
LIFE = 20  # messages of a connection
PIPE = 2**20  # bytes
# What stands for the seconds of a tick and for the group in a number: both have as many digits in each record.
SECONDS, GROUP = b"######", b"@@"
FIRST_SECOND, FIRST_GROUP = 100_000, 10

NAMES = [b"index.html"] + [b"pages/%02d.html" % number for number in range(40)] + [b"style.css"]
FIELDS = (
    b"Host: www.example.org\r\nUser-Agent: Mozilla/5.0 (X11; Linux x86_64)\r\nAccept: text/html,image/png\r\n"
    b"Cookie: session=0123456789abcde\r\n"
)
OLDER = b"If-Modified-Since: Sun, 06 Nov 1994 08:49:37 GMT\r\n"


def snapshot_files():
    """The files that are asked for: pairs of name and bytes, by rising name."""
    return [(name, b"x" * (500 + 300 * number)) for number, name in enumerate(sorted(NAMES))]


def request(number):
    """The request of a place in a second: most are for a file, one in ten for none, one in five conditional."""
    name = b"absent/%d" % number if number % 10 == 7 else NAMES[number * 617 % len(NAMES)]
    method = b"HEAD" if number % 25 == 3 else b"GET"
    more = OLDER if number % 5 == 2 else b"Accept-Language: en, de;q=0.7, fr;q=0.3\r\n"
    return b"%b /%b HTTP/1.1\r\n%b%b\r\n" % (method, name, FIELDS, more)


def second_of(turn):
    """The records of a second, and how many there are. In a turn, if one is given, the connections end at which it is,
    and others begin under their numbers."""
    parts = []
    for number in range(SECOND):
        tick = b"%b%06d" % (SECONDS, 1_000 * number + number * 617 % 1_000)
        conn, text = b"%b%03d" % (GROUP, number), request(number)
        if turn is not None and number % LIFE == turn:
            parts.append(b"end %b %b\n" % (tick, conn))
        parts.append(b"piece %b %b %d\n%b\n" % (tick, conn, len(text), text))
    return b"".join(parts), len(parts)


def write_day(file, count):
    """Writes the text of so many messages."""
    file.write(b"haboob-traffic 1 %d\n" % START)
    first, turns, records = second_of(None), [second_of(turn) for turn in range(LIFE)], 0
    for second in range(count // SECOND):
        visit, group = divmod(second, GROUPS)
        text, held = turns[visit % LIFE] if visit else first
        text = text.replace(SECONDS, b"%d" % (FIRST_SECOND + second)).replace(GROUP, b"%d" % (FIRST_GROUP + group))
        file.write(text)
        records += held
    file.write(b"stop %d\n" % records)


def widen(output):
    """Gives a pipe more room, where the system allows it, so that writer and reader wait less for one another."""
    if stat.S_ISFIFO(os.fstat(output).st_mode):
        try:
            fcntl.fcntl(output, fcntl.F_SETPIPE_SZ, PIPE)
        except (AttributeError, OSError):
            pass


def main():
    if len(sys.argv) != 2 or not sys.argv[1].isdigit() or int(sys.argv[1]) % SECOND:
        sys.exit(__doc__)
    widen(sys.stdout.fileno())
    try:
        write_day(sys.stdout.buffer, int(sys.argv[1]))
        sys.stdout.flush()
    except BrokenPipeError:
        os._exit(1)


if __name__ == "__main__":
    main()
