#!/usr/bin/env python3
"""Prints the access log of a server of known costs: 1,900 microseconds for a file and 40 more for each KiB of it, 600
for an error; one request after another. Two thousand requests come within some fifteen seconds, some in bursts.

The lines are in nginx's combined format, and after it $msec, $request_time, $host and the two validators.
"""
import random

REQUESTS = 2000
START = 784_111_777_000_000  # microseconds since 1970
FILE, KIB, ERROR = 1900, 40, 600  # microseconds
GAP = 10_000  # microseconds from one client to the next, on average
BURST = 40  # requests of the longest
LINE = '127.0.0.1 - - [06/Nov/1994:08:49:%02d +0000] "GET %s HTTP/1.1" %d %d "-" "-" %d.%06d %d.%06d www "-" "-"'


def requests(chance):
    """When each request comes, in microseconds, and how many bytes it gets; None where there is no such file."""
    now = 0
    while True:
        now += round(chance.expovariate(1 / GAP))
        for _ in range(chance.randint(2, BURST) if chance.random() < 0.02 else 1):
            yield now, None if chance.random() < 0.1 else round(chance.lognormvariate(9, 1))


def main():
    ready = 0
    for _, (now, size) in zip(range(REQUESTS), requests(random.Random(1994))):
        ready = max(now, ready) + (ERROR if size is None else FILE + round(KIB * size / 1024))
        status, target, sent = (404, "/gone", 9) if size is None else (200, "/page", size)
        answered, took = divmod(START + ready, 10**6), divmod(ready - now, 10**6)
        print(LINE % (37 + ready // 10**6, target, status, sent, *answered, *took))


if __name__ == "__main__":
    main()
