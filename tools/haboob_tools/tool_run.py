"""How the tools begin and end: libraries, progress and faults on standard error, statuses.

A tool exits with 0; with 1 at a fault, which is one line on standard error; with 2 where the words of its command line
are wrong; with 130 at Ctrl-C, and 143 where it is asked to end.
"""
import os
import sys


def _end_at_interrupt(kind, fault, trace):
    """Ends a tool at Ctrl-C without a word, also while its libraries are still being read."""
    if issubclass(kind, KeyboardInterrupt) or isinstance(fault.__cause__, KeyboardInterrupt):
        os._exit(130)
    sys.__excepthook__(kind, fault, trace)


sys.excepthook = _end_at_interrupt  # before what takes longer to be read

import importlib
import signal
import time

from . import output_file

# The libraries of Debian's that the tools use, and the package that has each.
PACKAGES = {"dpkt": "python3-dpkt", "h11": "python3-h11", "matplotlib": "python3-matplotlib",
            "numpy": "python3-numpy", "scipy": "python3-scipy", "tqdm": "python3-tqdm"}
PROGRESS_STEP = 10.0  # seconds from line to line where standard error is no terminal
WAITING_STEP = 1.0  # seconds after which who waits for others looks whether a line is due
ENDING = (signal.SIGINT, signal.SIGTERM, signal.SIGHUP)  # signals that ask a tool to end
ENDING_TIME = 2.0  # seconds in which a tool that was asked to end has cleaned up
UNCHANGED = (signal.SIG_DFL, signal.default_int_handler)  # what Python does at these


class Fault(Exception):
    """What ends a tool: one line for standard error, and its status."""

    def __init__(self, line, status=1):
        super().__init__(line)
        self.status = status


def running():
    """The name of the tool that runs, whichever module asks for it, also where a link leads to the tool."""
    return os.path.splitext(os.path.basename(os.path.realpath(sys.argv[0])))[0]


def library(name):
    """A library of Debian's, or a module of one; where it is missing, or one that it needs, the tool ends with status 2
    and a line that names the package."""
    try:
        return importlib.import_module(name)
    except ImportError as error:
        missing = [part for part in ((error.name or "").partition(".")[0], name.partition(".")[0]) if part in PACKAGES]
        say("%s: needs %s: apt-get install %s" % (running(), missing[0], PACKAGES[missing[0]]))
        sys.exit(2)


def say(line):
    """Writes a line on standard error, with control characters as escapes; where that can't be, nothing is written."""
    shown = "".join(letter if letter.isprintable() else ascii(letter)[1:-1] for letter in line)
    try:
        print(shown, file=_errors(), flush=True)
    except (OSError, ValueError):
        sys.stderr = open(os.devnull, "w", encoding="utf-8")


def _errors():
    """Standard error; the null device where it is closed."""
    if sys.stderr is None:
        sys.stderr = open(os.devnull, "w", encoding="utf-8")
    return sys.stderr


class ProgressLines:
    """Says how far a tool is by a line every ten seconds, where standard error is no terminal."""

    def __init__(self, tool, meter, total, unit):
        self.tool, self.meter, self.total, self.unit = tool, meter, total, unit
        self.done = 0
        self.begin = self.told = time.monotonic()

    def __enter__(self):
        return self

    def __exit__(self, *fault):
        pass

    def update(self, count=1):
        """Takes that so many more are done."""
        self.done += count
        now = time.monotonic()
        if now - self.told >= PROGRESS_STEP:
            self.told = now
            done = self.meter(self.done, self.total, now - self.begin, ncols=0, unit=self.unit, unit_scale=True)
            say("%s: %s" % (self.tool, done.strip()))


def progress(tool, total, unit):
    """Says how far a tool is, of a total (None where it isn't known), in a `with`: a bar on a terminal, else lines.

    `update(n)` counts on.
    """
    tqdm = library("tqdm")
    if _errors().isatty():
        return tqdm.tqdm(total=total, unit=unit, unit_scale=True)
    return ProgressLines(tool, tqdm.tqdm.format_meter, total, unit)


_asked = -ENDING_TIME  # when the tool was asked to end


def _end(number, _frame):
    """Ends a tool that is asked to end, so that its unfinished outputs go; who asks again at once isn't heard."""
    global _asked
    now = time.monotonic()
    if now - _asked < ENDING_TIME:
        return
    _asked = now
    if number == signal.SIGINT:
        raise KeyboardInterrupt
    sys.exit(128 + number)


def _hold_closed():
    """Opens a folder, which can be neither read nor written so, at each standard descriptor that is closed.

    Else the next file that is opened gets its number, and what is meant for standard error comes into an output.
    """
    number = os.open(os.sep, os.O_RDONLY)
    while number <= 2:
        number = os.open(os.sep, os.O_RDONLY)
    os.close(number)


def run(tool, work):
    """Runs a tool's work; says its fault, if any, in one line, and returns the status."""
    for asked in ENDING:
        if signal.getsignal(asked) in UNCHANGED:  # else it is ignored, as below nohup
            signal.signal(asked, _end)
    try:
        _hold_closed()
        _errors()
        work()
    except Fault as fault:
        say("%s: %s" % (tool, fault))
        return fault.status
    except output_file.SameFile as fault:
        say("%s: %s" % (tool, fault))
        return 2
    except OSError as error:
        name = "input" if error.filename is None else error.filename or '""'
        say("%s: %s: %s" % (tool, name, error.strerror or error))
        return 1
    except MemoryError:
        say("%s: out of memory" % tool)
        return 1
    except KeyboardInterrupt:
        return 130
    return 0
