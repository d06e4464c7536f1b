#!/usr/bin/env python3
"""Runs the checks of the gate, side by side, and says what came of each.

    checks/run.py [--jobs N] [--sources] [PROGRAM] [CHECK ..]

CHECK is the name of a script without `.py`: of checks/, or of tools/. Without one, --sources runs those that look at
sources and pages alone, PROGRAM those that run the program (an absolute path, or one from here). N run at a time,
those that take longest first; without --jobs as many as there are processors. Each that looks at time runs by itself.
Shows what a check said when it has ended; the last line counts the checks and those that failed. Exits with 1 where
one failed.
"""
import concurrent.futures
import os
import subprocess
import sys
import threading
import time

from lib.sources import TOP
from lib.usage import parser_of

# What looks at sources and pages, and with which words.
SOURCES = {"theorem": [], "promises": [], "architecture": [], "way": [], "refusals": [], "pages": [], "columns": [],
           "counts": [], "mutants": ["--check"], "package_run": []}
# What runs the program, with the words that come after it: first what looks at time.
ALONE = {"program_pipes": [], "program_edges": []}
BESIDE = {"compare_sizes": [], "compare_replays": ["300"], "many_messages": [], "refuse_memory": [], "waiting": None,
          "hostile": ["300"], "refuse_growths": None, "queueing": [], "cut_inputs": [], "devices": [],
          "documents": [], "program_replays": [], "program_snapshots": [], "program_upgrades": [], "program_slim": [],
          "program_settings": [], "program_words": []}
# What runs the tools, or doesn't run the program.
TOOLS = ["test_output_file", "test_capture_writer", "test_capture_from_log", "test_capture_from_pcap",
         "test_timeline", "test_sweep", "test_calibrate", "fuzz_captures"]
# Those that need a package of Debian's, which Debian's Python finds.
DEBIAN = "/usr/bin/python3"


def command(name, program):
    """The words that run a check."""
    if name in TOOLS:
        return [DEBIAN, os.path.join(TOP, "tools", name + ".py")]
    python = DEBIAN if name == "queueing" else sys.executable
    words = {**SOURCES, **ALONE, **BESIDE}[name]
    takes_program = name not in SOURCES and words is not None
    return [python, os.path.join(TOP, "checks", name + ".py"), *([program] if takes_program else []), *(words or [])]


class Runner:
    """Runs checks on a program, and counts them."""

    def __init__(self, program):
        self.program, self.failed, self.count, self.lock = program, [], 0, threading.Lock()

    def run(self, name):
        """Runs a check, and then shows what it said."""
        began = time.monotonic()
        ran = subprocess.run(command(name, self.program), stdin=subprocess.DEVNULL, stdout=subprocess.PIPE,
                             stderr=subprocess.STDOUT, check=False)
        with self.lock:
            print("== %s: status %d after %d s" % (name, ran.returncode, time.monotonic() - began))
            print(ran.stdout.decode(errors="replace"), end="", flush=True)
            self.count += 1
            self.failed += [name] * (ran.returncode != 0)

    def run_all(self, names, jobs):
        """Runs checks, so many at a time; those that look at time first, one after another."""
        for name in names:
            if name in ALONE:
                self.run(name)
        with concurrent.futures.ThreadPoolExecutor(jobs) as pool:
            list(pool.map(self.run, (name for name in names if name not in ALONE)))


def main():
    parser = parser_of(__doc__, runs_program=False)
    parser.add_argument("--jobs", type=int, default=os.cpu_count(), metavar="N")
    parser.add_argument("--sources", action="store_true", help="those that look at sources and pages alone")
    parser.add_argument("words", nargs="*", metavar="[PROGRAM] [CHECK ..]")
    words = parser.parse_args()
    known = [*SOURCES, *ALONE, *BESIDE, *TOOLS]
    program, names = None, words.words
    if names and names[0] not in known:
        program, names = os.path.abspath(names[0]), names[1:]
        if not os.access(program, os.X_OK):
            parser.error("no program %s, and no check of this name" % program)
    for name in names:
        if name not in known:
            parser.error("no check %s: there are %s" % (name, ", ".join(known)))
        if program is None and name not in SOURCES and name not in TOOLS and {**ALONE, **BESIDE}[name] is not None:
            parser.error("%s wants a PROGRAM" % name)
    if not names:
        names = (list(SOURCES) if words.sources else []) + ([*ALONE, *BESIDE, *TOOLS] if program else [])
    if not names:
        parser.error("nothing to run: give --sources, a PROGRAM or a CHECK")
    runner = Runner(program)
    runner.run_all(names, words.jobs)
    print("%d checks, %d failed%s" % (runner.count, len(runner.failed), "".join(": " + ", ".join(runner.failed)
                                                                                 for _ in runner.failed[:1])))
    return int(bool(runner.failed))


if __name__ == "__main__":
    sys.exit(main())
