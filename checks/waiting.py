#!/usr/bin/env python3
"""Checks sleeping and waking on a model of helper threads, for small floors: no hang and no lost wake-up.

    checks/waiting.py [--mirrored]

The model, for SPIN (Debian's `spin`, with `gcc`), is helpers.pml in crates/stage_graph/model/: of threads that move one
floor after another, also before a gate that may hold a chunk; its head lists the words of a floor. Each floor of FLOORS
is explored in all its interleavings: it has no state in which a thread sleeps for good, and at its end all chunks are
done, or it was stopped with every slot empty. Each fault of FAULTS, a bug put into the model, breaks this there, so
that the model can tell. The functions that the model mirrors are known by a hash: where one has changed, the model has
to be looked at first, and then MIRRORED be set to what --mirrored prints. Exits with 1 where something is otherwise. It
takes about half a minute on four cores.
"""
import concurrent.futures
import hashlib
import os
import re
import subprocess
import sys
import tempfile

from lib.report import end
from lib.sources import TOP, read
from lib.usage import parser_of

CRATE = os.path.join(TOP, "crates", "stage_graph")
MODEL = os.path.join(CRATE, "model", "helpers.pml")
SOURCES = ["run.rt", "helpers.rt", "helpers/scheduler.rt", "helpers/sections.rt", "floor/causes.rt", "floor/events.rt",
           "floor/held.rt"]
MIRRORED = "28582b4c4801cd15"
FLOORS = [
    "S=1 W0=2 C0=1 N=3 T=2 FLOORS=2 SPUR=1 REFUSE ERROR",
    "S=2 W0=1 W1=1 C0=1 C1=1 N=3 T=1 FLOORS=2 REFUSE ERROR",
    "S=2 W0=1 W1=1 C0=1 C1=1 N=2 T=4 FLOORS=1",
    "S=2 W0=2 W1=2 C0=2 C1=1 N=4 T=3 FLOORS=1 REFUSE",
    "S=3 W0=1 W1=2 W2=1 C0=1 C1=2 C2=1 N=4 T=2 FLOORS=2 SPUR=1 REFUSE ERROR",
    "S=1 W0=2 C0=2 N=3 T=2 FLOORS=2 SPUR=1 REFUSE HOLDS MEET",
    "S=2 W0=2 W1=1 C0=1 C1=1 N=3 T=3 FLOORS=1 HOLDS MEET LEAVE",
    "S=3 W0=1 W1=1 W2=1 C0=1 C1=1 C2=1 N=3 T=2 FLOORS=2 SPUR=1 REFUSE HOLDS",
]
FAULTS = [
    ("CLOSE_SILENT", "S=2 W0=1 W1=1 C0=1 C1=1 N=3 T=2 FLOORS=2"),
    ("ROOM_SILENT", "S=2 W0=1 W1=1 C0=1 C1=1 N=3 T=2 FLOORS=1"),
    ("OVER_SILENT", "S=2 W0=1 W1=1 C0=1 C1=1 N=3 T=2 FLOORS=1"),
    ("BACK_SILENT", "S=2 W0=2 W1=1 C0=1 C1=1 N=4 T=3 FLOORS=1 REFUSE"),
    ("NO_CLOSE", "S=1 W0=2 C0=1 N=3 T=2 FLOORS=1"),
    ("OVER_EARLY", "S=1 W0=2 C0=1 N=3 T=2 FLOORS=1"),
    ("FIRST_STAGE", "S=2 W0=2 W1=1 C0=2 C1=1 N=4 T=2 FLOORS=1"),
    ("LATE_WAIT", "S=1 W0=2 C0=1 N=3 T=2 FLOORS=1"),
    ("LOST_CROWD", "S=2 W0=2 W1=1 C0=1 C1=1 N=4 T=3 FLOORS=1"),
    ("FREE_SILENT", "S=1 W0=2 C0=2 N=3 T=2 FLOORS=1 HOLDS MEET"),
    ("LOST_CALL", "S=2 W0=2 W1=1 C0=1 C1=1 N=4 T=3 FLOORS=1 HOLDS MEET LEAVE"),
]
SECONDS = 120
FUNCTION = re.compile(r"^( *)(?:pub(?:\([a-z]+\))? )?fn \w+.*?^\1}$", re.MULTILINE | re.DOTALL)
CLAUSE = re.compile(r"^ *(?:requires|ensures)\*? .*?\}$(?=\n *(?:requires|ensures|//|\{))", re.MULTILINE | re.DOTALL)


def mirrored():
    """A hash of the functions that the model mirrors, without comments and contracts."""
    text = ""
    for name in SOURCES:
        for found in FUNCTION.finditer(read(os.path.join(CRATE, "src", name))):
            text += re.sub(r" *//[^\n]*", "", CLAUSE.sub("", found[0]))
    return hashlib.sha256("".join(text.split()).encode()).hexdigest()[:16]


def explore(floor, fault=None):
    """Whether the model of this floor, with this fault, has no hang; None where it wasn't explored to its end."""
    words = ["-D" + word for word in floor.split()] + (["-DM_" + fault] if fault else [])
    with tempfile.TemporaryDirectory() as folder:
        def run(*command):
            return subprocess.run(command, cwd=folder, capture_output=True, text=True, timeout=SECONDS)

        if run("spin", *words, "-a", MODEL).returncode:
            return None
        if run("gcc", "-DSAFETY", "-DCOLLAPSE", "-DNOREDUCE", "-DMEMLIM=2000", "-o", "pan", "pan.c").returncode:
            return None
        printed = run("./pan", "-m2000000", "-w22").stdout
    errors = re.search(r"errors: (\d+)", printed)
    if not errors or (errors[1] == "0" and re.search(r"max search depth too small|out of memory", printed)):
        return None
    return errors[1] == "0"


def main():
    parser = parser_of(__doc__, runs_program=False)
    parser.add_argument("--mirrored", action="store_true", help="print the hash of the functions that are mirrored")
    if parser.parse_args().mirrored:
        print(mirrored())
        return 0
    wrong = []
    if mirrored() != MIRRORED:
        wrong.append("the functions that the model mirrors have changed: look at crates/stage_graph/model/")
    wanted = [(floor, None) for floor in FLOORS] + [(floor, fault) for fault, floor in FAULTS]
    with concurrent.futures.ThreadPoolExecutor(os.cpu_count()) as pool:
        found = list(pool.map(lambda case: explore(*case), wanted))
    for (floor, fault), is_good in zip(wanted, found):
        if is_good != (fault is None):
            said = {True: "no hang", False: "a hang", None: "not explored to its end"}[is_good]
            wrong.append("%s%s: %s" % (floor, " with " + fault if fault else "", said))
    return end(wrong, "%d floors, %d faults" % (len(FLOORS), len(FAULTS)))


if __name__ == "__main__":
    sys.exit(main())
