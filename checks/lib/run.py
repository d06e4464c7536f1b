"""Runs of the program: the files that it finds, its words, its limits, and what it says."""
import json
import os
import re
import resource
import signal
import subprocess
import sys
import tempfile

SECONDS = 20
# The status of a run that doesn't end.
HANGS = -1000
# A fault's line, and the line of words that may follow it (checks/program_words.py compares the words).
FAULT_AND_WORDS = (
    r"(haboob: (?:(?:open|read): \w+|engine|format|speed|settings: .+|(?:capture: record|snapshot: entry) 0: \w+)\n)"
    r"haboob: .+\n"
)
# Starts the program, ends it after so many seconds, and tells its status and the most memory that it had, in bytes. A
# process of its own does so: the peak of a child begins with that of its parent.
RUNNER = """
import json, os, signal, sys
child = os.fork()
if child == 0:
    signal.alarm(int(sys.argv[1]))
    os.execv(sys.argv[2], sys.argv[2:])
_, status, used = os.wait4(child, 0)
sys.stderr.write("\\n" + json.dumps([os.waitstatus_to_exitcode(status), used.ru_maxrss * 1024]))
"""


def put(folder, files):
    """Writes the files of a folder, by their names; a folder of theirs is made."""
    for name, data in files.items():
        path = os.path.join(folder, name)
        os.makedirs(os.path.dirname(path), exist_ok=True)
        with open(path, "wb") as file:
            file.write(data)


def contents(*path):
    """The bytes of a file."""
    with open(os.path.join(*path), "rb") as file:
        return file.read()


def options(*names, **others):
    """The words of options, each with a file of its own name, or with the other that is given."""
    files = {**{name: name for name in names}, **others}
    return [word for name, file in files.items() for word in ("--" + name, file)]


def without_words(text):
    """What was written on standard error, without the line of words that follows a fault's."""
    form = FAULT_AND_WORDS if isinstance(text, str) else FAULT_AND_WORDS.encode()
    return re.sub(form, lambda found: found[1], text)


def run(program, words, folder=None, seconds=SECONDS, **how):
    """Status, standard error and standard output of a run in a folder; the status HANGS where it doesn't end."""
    devices = {} if "input" in how else {"stdin": subprocess.DEVNULL}
    how = {**devices, "stdout": subprocess.PIPE, "stderr": subprocess.PIPE, **how}
    try:
        ran = subprocess.run([program, *words], cwd=folder, timeout=seconds, check=False, **how)
    except subprocess.TimeoutExpired:
        return HANGS, b"it hangs", b""
    return ran.returncode, ran.stderr, ran.stdout


def files_of(folder):
    """What stands in a folder and in those below it, by its names: the bytes of a file, None of anything else."""
    paths = (os.path.join(path, name) for path, folders, names in os.walk(folder) for name in folders + names)
    return {os.path.relpath(path, folder): contents(path) if os.path.isfile(path) else None for path in paths}


def run_over(program, words, files, make=None, **how):
    """Status, standard error and standard output of a run in a new folder, where these files stand, and what else is
    made there; and what stands there then (files_of)."""
    with tempfile.TemporaryDirectory() as folder:
        put(folder, files)
        if make:
            make(folder)
        return (*run(program, words, folder, **how), files_of(folder))


def run_measured(program, words, folder, seconds=SECONDS, **how):
    """Status, standard error and standard output of a run in a folder, and the most memory that it had, in bytes."""
    runner = ["-I", "-S", "-c", RUNNER, str(seconds), program, *words]
    _, text, output = run(sys.executable, runner, folder, seconds + SECONDS, **how)
    error, _, numbers = text.rpartition(b"\n")
    status, peak = json.loads(numbers)
    return (HANGS if status == -signal.SIGALRM else status, error, output), peak


def limit(kind, most):
    """What a child does before it runs, so that it has no more of this (resource.RLIMIT_..)."""
    return lambda: resource.setrlimit(kind, (most, most))
