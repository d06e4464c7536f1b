#!/usr/bin/env python3
"""Refuses each request for memory of the tests that are made for it, one after another.

    checks/refuse_growths.py [CRATE ..]

It takes the tests that `rt ci` has built (crates/*/out/*) and that have `growth` in the names of their functions. For
N = 1, 2, .. the Nth request of such a test is refused, until some runs make fewer: the test has to pass each time, for
it looks at what is answered and what stands then. Of a test with `twice` in its name the next request is refused as
well, in runs of its own. (Above MOST requests only each STRIDEth is refused, after the first MOST.) It needs a C
compiler (CC, or cc) and the C library of GNU; without a compiler it fails. Exits with 1 where a test fails, or where
no test is found.
"""
import concurrent.futures
import glob
import os
import subprocess
import sys
import tempfile

from lib import shim
from lib.run import HANGS, run
from lib.sources import TOP
from lib.usage import parser_of

SECONDS = 60
MISSED = 5
MOST, STRIDE = 2_000, 23


def tests_of(binary):
    """The names of a crate's tests that are made for refused growths."""
    lines = run(binary, ["--list"])[2].decode(errors="replace").split("\n")
    names = [line.removesuffix(": test") for line in lines if line.endswith(": test")]
    return [name for name in names if "growth" in name.rpartition("::")[2]]


def sweep(job):
    """Refuses each request of a test: how many there were, and what went wrong."""
    binary, test, library, times = job
    number, missed, refused, wrong = 1, 0, 0, []
    while missed < MISSED:
        (status, _, text), came = shim.refusing(binary, [test], None, library, number, times, seconds=SECONDS,
                                                stderr=subprocess.STDOUT)
        refused, missed = (refused + 1, 0) if came else (refused, missed + 1)
        if status != 0:
            wrong.append((number, status, text.decode(errors="replace")))
        if status == HANGS:
            break
        number += 1 if number < MOST else STRIDE
    return os.path.basename(binary), test, refused, wrong


def main():
    parser = parser_of(__doc__, runs_program=False)
    parser.add_argument("crate", metavar="CRATE", nargs="*", help="the crates; all without one")
    wanted = parser.parse_args().crate
    with tempfile.TemporaryDirectory() as folder:
        library = shim.built("refuse_memory", folder)
        if library is None:
            print("no C compiler: no growth was refused")
            return 1
        binaries = sorted(glob.glob(os.path.join(TOP, "crates", "*", "out", "*_tests")))
        crates = {binary: binary.split(os.sep)[-3] for binary in binaries if os.access(binary, os.X_OK)}
        jobs = [
            (binary, test, library, times)
            for binary, crate in crates.items()
            if os.path.isfile(binary) and (not wanted or crate in wanted)
            for test in tests_of(binary)
            for times in ((1, 2) if "twice" in test else (1,))
        ]
        failed = total = 0
        with concurrent.futures.ThreadPoolExecutor(os.cpu_count()) as pool:
            for name, test, refused, wrong in pool.map(sweep, jobs):
                print("%s %s: %d refused, %d wrong" % (name, test, refused, len(wrong)))
                total, failed = total + refused, failed + len(wrong)
                for number, status, text in wrong[:3]:
                    print("  at request %d: status %d\n%s" % (number, status, text))
        print("%d sweeps, %d growths refused, %d wrong" % (len(jobs), total, failed))
        return int(failed > 0 or not jobs)


if __name__ == "__main__":
    sys.exit(main())
