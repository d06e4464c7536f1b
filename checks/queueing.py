#!/usr/bin/env python3
"""Compares the waiting times of several servers with the formulas of queueing theory.

    checks/queueing.py PROGRAM

A million requests with exponential service times come to four servers at random (M/M/4), and to two servers at a steady
pace (D/M/2). The program's table of decisions tells how long each waited. Compared are the share of the requests that
waited, and for how long those waited on the average:

  - M/M/c: Erlang's formula for the share, 1 / (c mu - lambda) for the time;
  - D/M/c: the chain of how many are there at each arrival, solved as linear equations, for the share; for the time
    1 / (c mu (1 - sigma)), where sigma = exp(-c mu (1 - sigma) T) (Kendall, 1953).

The statistical error is that of the means of fifty parts of the run. A figure fails where it differs by more than four
times this error, or where the error is more than 4% of it, so that the comparison would say little. Prints a line for
each figure, and exits with 1 where one fails. It needs NumPy and SciPy.
"""
import csv
import math
import pathlib
import sys
import tempfile

import numpy
from scipy import linalg, optimize

from lib.report import Report
from lib.run import options, run
from lib.texts import file_parts, piece, write_counted
from lib.usage import program_of

REQUESTS = 1_000_000
PARTS = 50
SECONDS = 300
FILES = 1024  # service times are drawn from so many, each the mean of an equal part of the exponential distribution
SERVICE = 20_000  # ticks, the mean
LOAD = 0.8  # of the servers' time
SEED = 20
ERRORS, LARGEST_ERROR = 4, 0.04
MOST_WAITING = 300  # in the equations; more are there with a probability below 1e-20
SETTINGS = """\
[costs]
file = 1
kib = 1024
servers = %d

[policy]
rate = 1000000000
rate_min = 1000000000
rate_max = 1000000000
depth = 1000000
"""


def service_times():
    """The service times, in whole ticks, whose distribution is nearly the exponential one."""
    edges = -numpy.log1p(-numpy.arange(FILES) / FILES)
    above = numpy.append((edges + 1) * numpy.exp(-edges), 0.0)
    return numpy.maximum(numpy.round(SERVICE * FILES * (above[:-1] - above[1:])), 1).astype(int)


def write_site(path, times):
    """A snapshot: a file costs one tick, and one for each of its bytes."""
    files = ((b"%04d" % number, bytes(time - 1), 0) for number, time in enumerate(times.tolist()))
    write_counted(path, b"haboob-snapshot 1\n", (b"".join(file_parts(*file)) for file in files), b"end")


def write_capture(path, ticks, files):
    """A capture of requests for these files at these ticks."""
    asked = zip(ticks.tolist(), files.tolist())
    pieces = (piece(tick, 0, b"GET /%04d HTTP/1.1\nHost:\n\n" % number) for tick, number in asked)
    write_counted(path, b"haboob-capture 1 0\n", pieces, b"stop")


def waits_of(program, folder, servers, ticks, files, times):
    """How long each request waited for a server, by the program's table."""
    write_site(folder / "site", times)
    write_capture(folder / "capture", ticks, files)
    (folder / "settings").write_text(SETTINGS % servers)
    words = ["explain", *options("capture", "settings", snapshot="site", messages="table")]
    status, line, _ = run(program, words, folder, SECONDS)
    if status:
        sys.exit("queueing: status %d: %s" % (status, line.decode()))
    with open(folder / "table", newline="", encoding="ascii") as file:
        rows = csv.reader(file)
        place = {name: number for number, name in enumerate(next(rows))}
        tick, start, service = place["tick"], place["start"], place["service"]
        found = numpy.array([(int(row[start]) - int(row[tick]), int(row[service])) for row in rows])
    if len(found) != REQUESTS or (found[:, 1] != times[files]).any():
        sys.exit("queueing: the table has other requests, or other services")
    return found[:, 0]


def random_arrivals(servers):
    """A share and a mean time of waiting by Erlang's formula."""
    offered = servers * LOAD
    blocked = 1.0
    for count in range(1, servers + 1):
        blocked = offered * blocked / (count + offered * blocked)
    return blocked / (1 - LOAD * (1 - blocked)), SERVICE / (servers * (1 - LOAD))


def steady_arrivals(servers):
    """A share and a mean time of waiting of arrivals at a steady pace."""
    gap = 1 / (servers * LOAD)  # in mean services
    sigma = optimize.brentq(lambda s: s - math.exp(-servers * gap * (1 - s)), 0, 1 - 1e-9)
    busy = numpy.minimum(numpy.arange(MOST_WAITING), servers)
    deaths = linalg.expm(gap * (numpy.diag(busy[1:], -1) - numpy.diag(busy)))  # from so many to so many in a gap
    chain = numpy.vstack([deaths[1:], deaths[-1:]])  # the one that comes is there besides
    equations = numpy.vstack([(chain.T - numpy.eye(MOST_WAITING))[:-1], numpy.ones(MOST_WAITING)])
    there = linalg.solve(equations, numpy.append(numpy.zeros(MOST_WAITING - 1), 1.0))
    return there[servers:].sum(), SERVICE / (servers * (1 - sigma))


def see(report, name, found, expected):
    """Compares the mean of what was found in each part with a formula."""
    error = found.std(ddof=1) / math.sqrt(len(found))
    agrees = abs(found.mean() - expected) <= ERRORS * error and error <= LARGEST_ERROR * expected
    numbers = "%12.4f, by the formula %12.4f, error %10.4f" % (found.mean(), expected, error)
    report.see(name, agrees, numbers, numbers)


def compare(report, name, waits, expected):
    """Compares the waits of a run with the share and the mean time by formulas."""
    parts = numpy.array_split(waits, PARTS)
    shares = numpy.array([(part > 0).mean() for part in parts])
    means = numpy.array([part[part > 0].mean() for part in parts])
    see(report, name + ": share that waits", shares, expected[0])
    see(report, name + ": ticks that it waits", means, expected[1])


def main():
    program, report = program_of(__doc__), Report(width=32)
    # four servers, by hand: B = (3.2^4/24) / (1 + 3.2 + 3.2^2/2 + 3.2^3/6 + 3.2^4/24) = .22815, and then
    # B / (1 - .8 (1 - B))
    assert abs(random_arrivals(4)[0] - 0.59644) < 1e-5
    # both formulas for one server at random: the load, and 1 / (mu - lambda)
    assert abs(random_arrivals(1)[0] - LOAD) < 1e-12
    times, drawn = service_times(), numpy.random.default_rng(SEED)
    for name, servers, formulas in (("M/M/4", 4, random_arrivals), ("D/M/2", 2, steady_arrivals)):
        gap = SERVICE / (servers * LOAD)
        gaps = drawn.exponential(gap, REQUESTS) if formulas is random_arrivals else numpy.full(REQUESTS, gap)
        ticks, files = numpy.cumsum(gaps).astype(int), drawn.integers(0, FILES, REQUESTS)
        with tempfile.TemporaryDirectory() as folder:
            waits = waits_of(program, pathlib.Path(folder), servers, ticks, files, times)
        compare(report, name, waits, formulas(servers))
    return report.end("queueing: {wrong} wrong")


if __name__ == "__main__":
    sys.exit(main())
