#!/usr/bin/env python3
"""Replays on the staged engine while all cores are busy, and compares what it writes with the plain engine's.

    checks/under_load.py PROGRAM [COUNT] [--first SEED] [--seconds N] [--busy N]

COUNT replays (1,000 without it) are drawn at random as those of compare_replays.py are, with their cuts, workers,
capacities, batches and caches; a fourth has a fault in its capture. Each tenth seed gives a heavy one besides, whose
work is shared among threads. As many other processes as there are cores (--busy) do nothing but count meanwhile, so
that threads lose their core at any place. A run that takes longer than --seconds (300 without it) counts as hung.
Prints each such run, and each that differs, with its seed, and then how many there were. Exits with 1 where there was
one.
"""
import multiprocessing
import os
import sys

from lib.run import HANGS
from lib.usage import parser_of
import compare_replays

FAULTS = ("", "", "", "capture")
TURNS = 10**6
# One seed in so many gives a heavy replay besides.
HEAVY_EACH = 10


def count_on(parent):
    """Keeps a core busy as long as the script runs."""
    while os.getppid() == parent:
        for _ in range(TURNS):
            pass


def replays(seeds):
    """Name and texts of each replay."""
    for seed in seeds:
        yield "seed %d" % seed, compare_replays.random_replay(seed, FAULTS)
        if seed % HEAVY_EACH == 0:
            yield "heavy seed %d" % seed, compare_replays.heavy_replay(seed, FAULTS)


def is_same(program, name, texts, seconds):
    """Whether the staged engine answers as the plain one; None where it hangs."""
    plain = compare_replays.run_replay(program, ["--engine", "plain"], *texts)
    staged = compare_replays.run_replay(program, ["--engine", "staged"], *texts, seconds)
    if staged[0] == HANGS:
        print("%s: HUNG" % name, flush=True)
        return None
    found = compare_replays.difference(compare_replays.PARTS["replay"], plain, staged)
    if found:
        print("%s: DIFFERS: %s" % (name, found), flush=True)
    return not found


def main():
    parser = parser_of(__doc__)
    parser.add_argument("count", metavar="COUNT", nargs="?", type=int, default=1000, help="1000 without it")
    parser.add_argument("--first", type=int, default=0, metavar="SEED", help="the first seed; 0 without it")
    parser.add_argument("--seconds", type=float, default=300, metavar="N", help="the longest that a run may take")
    parser.add_argument("--busy", type=int, default=os.cpu_count(), metavar="N", help="processes that keep cores busy")
    options = parser.parse_args()
    busy = [multiprocessing.Process(target=count_on, args=(os.getpid(),), daemon=True) for _ in range(options.busy)]
    for process in busy:
        process.start()
    seeds = range(options.first, options.first + options.count)
    results = [is_same(options.program, name, texts, options.seconds) for name, texts in replays(seeds)]
    hung, differing = results.count(None), results.count(False)
    print("%d runs with %d busy processes: %d hung, %d differing" % (len(results), options.busy, hung, differing))
    return int(hung + differing > 0)


if __name__ == "__main__":
    sys.exit(main())
