#!/usr/bin/env python3
"""Prints a capture of an hour: twenty readers who ask for a page every ten seconds, and every five minutes a burst of
sixty crawlers, who ask for 1,200 pages within 150 milliseconds.
"""
import sys

sys.dont_write_bytecode = True  # the folder stays as it is

from make import MILLISECOND, START, request

SECOND = 1000 * MILLISECOND
MINUTE = 60 * SECOND
READERS = 20
CRAWLERS = 60
ASKED = 1200  # pages in a burst
PAGES = ["/", "/about.html", "/docs/", "/notes.txt"]


def readers():
    """The readers on the connections from 0 on, each half a second after the one before."""
    for number in range(READERS * 360):
        yield 500 * MILLISECOND * number, number % READERS, request(PAGES[number // READERS % len(PAGES)])


def crawlers():
    """The bursts, on the connections after the readers': a request each 125 ticks, while one reader asks."""
    for burst in range(12):
        for number in range(ASKED):
            tick = 150 * SECOND + 450 * MILLISECOND + 5 * MINUTE * burst + 125 * number
            yield tick, READERS + number % CRAWLERS, request(PAGES[number // CRAWLERS % len(PAGES)])


def main():
    pieces = sorted([*readers(), *crawlers()])
    sys.stdout.write("haboob-capture 1 %d\n" % START)
    for tick, connection, data in pieces:
        sys.stdout.write("piece %d %d %d\n%s\n" % (tick, connection, len(data), data.decode()))
    sys.stdout.write("stop %d\n" % len(pieces))


if __name__ == "__main__":
    sys.exit(main())
