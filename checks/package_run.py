#!/usr/bin/env python3
"""Whether checks/package.py, which stands beside the gate, has run on the packaging, the tools and the command line as
they are now.

    checks/package_run.py

checks/README.md has a line of the last good run, which `package.py --record` writes: its date and commit, and for each
place the first digits of the name that git gives to what stands there. That name is the same in each commit that
changes nothing there, so the line holds in the commit that brings it in, and after a rebase. Status 1, with a line for
each reason, where something else stands there now, or is in no commit yet. It needs no network. In a copy that is no
clone nothing has such a name: it says so, with status 0.
"""
import datetime
import pathlib
import re
import subprocess
import sys

from lib import sources
from lib.usage import parser_of

TOP = pathlib.Path(sources.TOP)
PAGE = TOP / "checks" / "README.md"
# What a hand-in touches that has to run the check; and the check itself.
PLACES = ("packaging", "tools", "build", "crates/command_line/src", "checks/package.py")
DIGITS = 12
LINE = re.compile(r"^Last run of `package[.]py`: (\S+), commit `([0-9a-f]+)`; (\d+) steps, 0 wrong; on (.*)[.]$",
                  re.MULTILINE)
AGAIN = "commit what is there, run checks/package.py --record, and commit checks/README.md"


class Fault(Exception):
    """Why it isn't known."""


def git(*words):
    """What git prints in this clone."""
    ran = subprocess.run(["git", "-C", TOP, "-c", "safe.directory=%s" % TOP, *words], capture_output=True, text=True)
    if ran.returncode:
        raise Fault("git %s: %s" % (words[0], ran.stderr.partition("\n")[0]))
    return ran.stdout.strip()


def contents(commit="HEAD"):
    """What stands at each place in a commit, by the name that git gives to it."""
    return {place: git("rev-parse", "%s:%s" % (commit, place))[:DIGITS] for place in PLACES}


def uncommitted():
    """The files of these places that are changed in no commit yet."""
    return git("diff", "--name-only", "HEAD", "--", *PLACES).splitlines()


def is_here(commit):
    """Whether the clone has a commit: one that was rebased away, or that is older than a shallow clone, may be gone."""
    try:
        return bool(git("rev-parse", "--verify", commit + "^{commit}"))
    except Fault:
        return False


def line_of(steps, today):
    """The line of a good run that was made today."""
    places = ", ".join("`%s` `%s`" % place for place in contents().items())
    return "Last run of `package.py`: %s, commit `%s`; %d steps, 0 wrong; on %s." % (
        today, git("rev-parse", "HEAD")[:DIGITS], steps, places)


def record(steps):
    """Writes the line of a good run in the place of the last one."""
    text, count = LINE.subn(lambda _: line_of(steps, datetime.date.today()), PAGE.read_text())
    if count != 1:
        raise Fault("checks/README.md has %d lines of a run, and should have one" % count)
    PAGE.write_text(text)


def recorded(text):
    """Date, commit and contents of the run that a page has."""
    lines = LINE.findall(text)
    if len(lines) != 1:
        raise Fault("checks/README.md has %d lines of a run, and should have one" % len(lines))
    (date, commit, _, places), = lines
    try:
        datetime.date.fromisoformat(date)
    except ValueError:
        raise Fault("checks/README.md: %s is no date" % date) from None
    return date, commit, dict(re.findall(r"`(\S+)` `([0-9a-f]+)`", places))


def reasons(commit, then):
    """Why the run on this commit, with these contents, isn't one of what is there now."""
    found = []
    for place, now in contents().items():
        if now != then.get(place):
            found.append("%s is %s, and was %s when it ran; last touched by %s" % (
                place, now, then.get(place), git("log", "-1", "--format=%h of %cs", "--", place)))
    found += ["%s is changed, in no commit yet" % name for name in uncommitted()]
    if is_here(commit) and contents(commit) != then:
        found.append("the line has other contents than its commit %s" % commit)
    return found


def main() -> int:
    parser_of(__doc__, runs_program=False).parse_args()
    if not (TOP / ".git").exists():
        print("no clone: what the last run of checks/package.py saw isn't compared")
        return 0
    try:
        date, commit, then = recorded(PAGE.read_text())
        found = reasons(commit, then)
    except (Fault, OSError) as fault:
        print("package_run: %s" % fault, file=sys.stderr)
        return 1
    for reason in found:
        print("package_run: %s" % reason, file=sys.stderr)
    if found:
        print("package_run: %s" % AGAIN, file=sys.stderr)
        return 1
    print("checks/package.py ran on what is there now: %s, commit %s" % (date, commit))
    return 0


if __name__ == "__main__":
    sys.exit(main())
