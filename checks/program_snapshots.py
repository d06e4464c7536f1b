#!/usr/bin/env python3
"""Runs `haboob snapshot` on folders of many kinds, as a user who may not read everything, and compares status, line and
output with a table. No file of a folder changes.
"""
import contextlib
import os
import socket
import subprocess
import sys
import tempfile

from lib.report import Report
from lib.run import contents, put, run, without_words
from lib.texts import TIME, snapshot_text
from lib.usage import program_of
from program_parts import CAPTURE, GOOD, OLDEST, OPEN_REPLIES, OPEN_REPORT, first_files, is_reported

SECONDS = 60
PIPE, SOCKET, FOLDER = "a pipe", "a socket", "a folder"


class Sparse:
    """A file of n bytes 0."""

    def __init__(self, size):
        self.size = size


class Link:
    """A symbolic link."""

    def __init__(self, target):
        self.target = target


class Twin:
    """A hard link."""

    def __init__(self, target):
        self.target = target


class Closed:
    """A file or a folder (where `data` is None) that may not be read, or is open as far as this mode says."""

    def __init__(self, data, mode=0):
        self.data, self.mode = data, mode


# What is in the folder `tree` (TIME is the time of each file where none is given).
ORDERED = {b"a/b": b"slash", b"a.b": b"dot", b"a0": b"digit", b"a!c": b"", b"a/b.d/c": b"deep"}
IN_ORDER = [(b"a!c", b""), (b"a.b", b"dot"), (b"a/b", b"slash"), (b"a/b.d/c", b"deep"), (b"a0", b"digit")]
ODD = {
    b"with space": b"1",
    b"line\nfeed": b"2",
    "\u00e9\U0001f600".encode(): b"3",
    b".hidden": b"4",
    b"..a": b"5",
    b"back\\slash": b"6",
    b"-": b"7",
}
KINDS = {b"a": b"1", b"b": Link(b"a"), b"c": PIPE, b"d": SOCKET, b"e": Link(b"none"), b"f/g": Link(b".."), b"z": b"2"}
LONGEST_FOLDERS = b"x" * 255 + b"/" + b"y" * 255 + b"/" + b"z" * 255 + b"/"
LONGEST = LONGEST_FOLDERS + b"w" * 127 + b"/" + b"n" * 128
TOO_LONG = LONGEST_FOLDERS + b"w" * 127 + b"/" + b"n" * 129
TREE = ["--folder", "tree", "--output", "output"]
SKIP = TREE + ["--skip"]
DEEP = b"/".join([b"d" * 250] * 17)
MANY = {b"%04d/f" % number: b"" for number in range(1100)}
CHAIN = b"d/" * 500 + b"f"
# Names of folders that begin with one another's, and files before, in and after folders at several depths.
BESIDE = {
    name: name[-3:]
    for name in (b"a/b/c/d/e/1", b"a/b/c/d/2", b"a/b/c/d.e/3", b"a/b/cc/4", b"a/b/c5", b"a/bc/d/6", b"a/b7",
                 b"a0/b/c/8", b"ab/c/d/9", b"ab/c/d0", b"b/c/d/e/f", b"c")
}
CASES = {b"B": b"1", b"a": b"2", b"C/x": b"3", b"b/x": b"4", b"A/x": b"5"}
LINKS = {b"%03d" % number: Link(b"none") for number in range(150)}
HIDDEN = "\u0085\u061c\u200e\u200f\u2028\u2029\u202a\u202e\u2066\u2069\ufeff\x9b\x7f\x1b".encode()


def left_out(*faults, more=0):
    """What is said of what is left out: a line for each of the first hundred, as of its fault, and how many."""
    return b"".join(b"haboob: %s\n" % line for line in faults) + b"haboob: skipped %d\n" % (len(faults) + more)


# What is in the folder, the words after `snapshot`, and then the status, the text on standard error (None: a text of
# the command line), and what stands in the output, which held an older text.
SNAPSHOTS = [
    ("an order that isn't that of the folders", ORDERED, TREE, 0, b"", snapshot_text(IN_ORDER)),
    ("the same, by a path with a slash", ORDERED, ["--folder", "./tree/", "--output", "output"], 0, b"",
     snapshot_text(IN_ORDER)),
    ("the same, by a link", ORDERED, ["--folder", "linked", "--output", "output"], 0, b"", snapshot_text(IN_ORDER)),
    ("the same, nothing to skip", ORDERED, SKIP, 0, b"haboob: skipped 0\n", snapshot_text(IN_ORDER)),
    ("an empty folder", {}, TREE, 0, b"", snapshot_text([])),
    ("empty folders in it", {b"a": FOLDER, b"b/c": FOLDER}, TREE, 0, b"", snapshot_text([])),
    ("an empty file", {b"a": b""}, TREE, 0, b"", snapshot_text([(b"a", b"")])),
    ("odd names", ODD, TREE, 0, b"", snapshot_text(sorted(ODD.items()))),
    ("times", {b"a": (b"1", -1), b"b": (b"2", 0), b"c": (b"3", 4_000_000_000)}, TREE, 0, b"",
     snapshot_text([(b"a", b"1", 0), (b"b", b"2", 0), (b"c", b"3", 4_000_000_000)])),
    ("a link", KINDS, TREE, 4, b"haboob: folder: Link b\n", first_files([(b"a", b"1")])),
    (
        "links, a pipe and a socket, skipped",
        KINDS,
        SKIP,
        0,
        left_out(b"folder: Link b", b"folder: Special c", b"folder: Special d", b"folder: Link e", b"folder: Link f/g"),
        snapshot_text([(b"a", b"1"), (b"z", b"2")]),
    ),
    ("more links than are listed, skipped", LINKS, SKIP, 0,
     left_out(*(b"folder: Link %03d" % number for number in range(100)), more=50), snapshot_text([])),
    ("a pipe", {b"a": b"1", b"c/d": PIPE}, TREE, 4, b"haboob: folder: Special c/d\n", first_files([(b"a", b"1")])),
    ("a socket", {b"c": SOCKET}, TREE, 4, b"haboob: folder: Special c\n", first_files([])),
    ("a link with a line feed in its name", {b"c\nd": Link(b"a")}, TREE, 4, b"haboob: folder: Link c?d\n",
     first_files([])),
    ("a name that is no UTF-8", {b"a": b"1", b"\xff": b"2", b"z": b"3"}, TREE, 4, b"haboob: folder: Name ./\n",
     first_files([])),
    ("one in another folder", {b"a": b"1", b"b/\xff": b"2", b"b/c": b"3"}, TREE, 4, b"haboob: folder: Name b/\n",
     first_files([(b"a", b"1")])),
    ("names that are no UTF-8, skipped", {b"a": b"1", b"\xff": b"2", b"b/\xfe\xff": b"2", b"b/c": b"3"}, SKIP, 0,
     left_out(b"folder: Name ./", b"folder: Name b/"), snapshot_text([(b"a", b"1"), (b"b/c", b"3")])),
    ("a name of 1024 bytes", {LONGEST: b"1"}, TREE, 0, b"", snapshot_text([(LONGEST, b"1")])),
    ("a name of 1025 bytes", {TOO_LONG: b"1"}, TREE, 4, b"haboob: folder: Name %s\n" % TOO_LONG, first_files([])),
    ("a name of 1025 bytes, skipped", {TOO_LONG: b"1", b"a": b"2"}, SKIP, 0, left_out(b"folder: Name %s" % TOO_LONG),
     snapshot_text([(b"a", b"2")])),
    ("folders that are too deep", {b"a": b"2", DEEP: FOLDER}, SKIP, 0,
     left_out(b"folder: Name %s" % (5 * (b"d" * 250 + b"/"))), snapshot_text([(b"a", b"2")])),
    ("the same, reported by the first that is too long", {b"a": b"2", DEEP: FOLDER}, TREE, 4,
     b"haboob: folder: Name %s\n" % (5 * (b"d" * 250 + b"/")), first_files([(b"a", b"2")])),
    ("a file of 16 MiB", {b"a": Sparse(16_777_216)}, TREE, 0, b"", snapshot_text([(b"a", bytes(16_777_216))])),
    ("a file of a byte more", {b"a": b"1", b"b": Sparse(16_777_217), b"c": b"2"}, TREE, 4, b"haboob: folder: Size b\n",
     first_files([(b"a", b"1")])),
    ("a file of a byte more, skipped", {b"a": b"1", b"b": Sparse(16_777_217), b"c": b"2"}, SKIP, 0,
     left_out(b"folder: Size b"), snapshot_text([(b"a", b"1"), (b"c", b"2")])),
    ("a text past its limit", {b"%02d" % n: Sparse(16_777_216) for n in range(64)},
     ["--folder", "tree", "--output", "/dev/null"], 4, b"haboob: folder: Text 63\n", OLDEST),
    ("a file that may not be read", {b"a": b"1", b"b": Closed(b"2"), b"c": b"3"}, TREE, 6, b"haboob: read: folder b\n",
     first_files([(b"a", b"1")])),
    ("a folder that may not be read", {b"a": b"1", b"b/c": Closed(None), b"c": b"3"}, TREE, 6,
     b"haboob: read: folder b/c/\n", first_files([(b"a", b"1")])),
    ("both, skipped", {b"a": b"1", b"b": Closed(b"2"), b"d/e": Closed(None), b"z": b"3"}, SKIP, 0,
     left_out(b"read: folder b", b"read: folder d/e/"), snapshot_text([(b"a", b"1"), (b"z", b"3")])),
    ("a folder that may be listed, and nothing in it looked at, skipped",
     {b"b/c/x": (b"1", 0), b"b/c": Closed(None, 0o444), b"b/d/x": b"2", b"b/e": b"3", b"z": b"4"}, SKIP, 0,
     left_out(b"read: folder b/c/x"), snapshot_text([(b"b/d/x", b"2"), (b"b/e", b"3"), (b"z", b"4")])),
    ("no such folder", {}, ["--folder", "none", "--output", "output"], 6, b"haboob: open: folder\n", OLDEST),
    ("no name of a folder", {}, ["--folder", "", "--output", "output"], 6, b"haboob: open: folder\n", OLDEST),
    ("a file as folder", {}, ["--folder", "output", "--output", "output"], 6, b"haboob: open: folder\n", OLDEST),
    ("a folder that may not be read, and skip", {b"a": Closed(None)},
     ["--folder", "tree/a", "--output", "output", "--skip"], 6, b"haboob: open: folder\n", OLDEST),
    ("a file of the folder as output", {b"a": b"1", b"b": b"2"}, ["--folder", "tree", "--output", "tree/a"], 6,
     b"haboob: open: output\n", OLDEST),
    ("the same by a link", {b"a": b"1", b"b": b"2"}, ["--folder", "tree", "--output", "to_a"], 6,
     b"haboob: open: output\n", OLDEST),
    ("a file of the folder as output, and skip", {b"a": b"1", b"b": b"2"},
     ["--folder", "tree", "--output", "tree/a", "--skip"], 6, b"haboob: open: output\n", OLDEST),
    ("over a thousand folders", MANY, TREE, 0, b"", snapshot_text(sorted(MANY.items()))),
    ("five hundred folders in one another", {CHAIN: b"1"}, TREE, 0, b"", snapshot_text([(CHAIN, b"1")])),
    ("folders beside one another, at several depths", BESIDE, TREE, 0, b"", snapshot_text(sorted(BESIDE.items()))),
    ("a file in a folder .git", {b".git/x": b"1"}, TREE, 0, b"", snapshot_text([(b".git/x", b"1")])),
    ("two names of one file", {b"a": b"1", b"b": Twin(b"tree/a")}, TREE, 0, b"",
     snapshot_text([(b"a", b"1"), (b"b", b"1")])),
    ("capitals before small letters", CASES, TREE, 0, b"", snapshot_text(sorted(CASES.items()))),
    ("times with a fraction", {b"a": (b"1", 1.75), b"b": (b"2", -0.25), b"c": (b"3", 784_111_777.999)}, TREE, 0, b"",
     snapshot_text([(b"a", b"1", 1), (b"b", b"2", 0), (b"c", b"3", 784_111_777)])),
    ("a link with hidden characters in its name", {b"c" + HIDDEN + b"\xc3\xa9d": Link(b"a")}, TREE, 4,
     b"haboob: folder: Link c??????????????\xc3\xa9d\n", first_files([])),
    ("the same by a hard link", {b"a": b"1", b"b": Twin(b"output")}, TREE, 6, b"haboob: open: output\n", OLDEST),
    ("no folder for the output", {}, ["--folder", "tree", "--output", "none/output"], 6, b"haboob: open: output\n",
     OLDEST),
    ("a folder as output", {}, ["--folder", "tree", "--output", "tree"], 6, b"haboob: open: output\n", OLDEST),
    ("a full device as output", {b"a": b"1"}, ["--folder", "tree", "--output", "/dev/full"], 6,
     b"haboob: write: output\n", OLDEST),
    ("no folder named", {}, ["--output", "output"], 2, None, OLDEST),
    ("no output named", {}, ["--folder", "tree"], 2, None, OLDEST),
    ("help", {}, ["--help"], 2, None, OLDEST),
]


def make(path, kind):
    """Makes a file, or what else stands in a folder; its folders are there."""
    if isinstance(kind, Link):
        os.symlink(kind.target, path)
    elif isinstance(kind, Twin):
        os.link(kind.target, path)
    elif kind == FOLDER or isinstance(kind, Closed) and kind.data is None:
        os.makedirs(path, exist_ok=True)
    elif kind == PIPE:
        os.mkfifo(path)
    elif kind == SOCKET:
        socket.socket(socket.AF_UNIX).bind(path)
    else:
        data, when = kind if isinstance(kind, tuple) else (getattr(kind, "data", kind), TIME)
        with open(path, "wb") as file:
            if isinstance(data, Sparse):
                file.truncate(data.size)
            else:
                file.write(data)
        os.chmod(path, 0o666)  # so that nothing but the program keeps the user from writing it
        os.utime(path, (when, when))
    if isinstance(kind, Closed):
        os.chmod(path, kind.mode)


def make_tree(tree):
    """Makes what is in a folder, which is the current one: by steps, since a path may be too long for the system."""
    here = os.open(".", os.O_RDONLY)
    for name, kind in tree.items():
        *folders, last = name.split(b"/")
        for folder in folders:
            if not os.path.isdir(folder):
                os.mkdir(folder)
            os.chdir(folder)
        make(last, kind)
        os.fchdir(here)
    os.close(here)


def without_rights():
    """As a user who may not read everything."""
    if os.geteuid() == 0:
        os.setgid(65534)
        os.setuid(65534)


@contextlib.contextmanager
def folder_with(tree):
    """A folder with an output, a link to the folder `tree` and one to a file in it, and what is in that folder."""
    back, folder = os.getcwd(), tempfile.mkdtemp()
    try:
        os.chdir(folder)
        put(".", {"output": OLDEST})
        os.symlink("tree", "linked")
        os.symlink("tree/a", "to_a")
        os.mkdir("tree")
        os.chdir("tree")
        make_tree({name: kind for name, kind in tree.items() if not isinstance(kind, Twin)})
        os.chdir("..")
        for name, kind in tree.items():
            if isinstance(kind, Twin):
                os.link(kind.target, os.path.join(b"tree", name))
        os.chmod(".", 0o777)
        os.chmod("output", 0o666)
        os.chmod("tree", 0o777)
        os.chdir(back)
        yield folder
    finally:
        os.chdir(back)
        # even one whose paths are too long, or that may not be read
        subprocess.run(["chmod", "-R", "u+rwX", folder], stderr=subprocess.DEVNULL)
        subprocess.run(["rm", "-rf", folder], check=True)


def command(program, words, folder):
    """The status and the text on standard error of a command in a folder, as a user who may not read everything."""
    status, line, output = run(program, words, folder, SECONDS, preexec_fn=without_rights)
    return status, without_words(line) + output


def snapshot(program, tree, words):
    """The status, the text on standard error and the output of one snapshot; the folder's files keep their bytes."""
    with folder_with(tree) as folder:
        got = command(program, ["snapshot", *words], folder)
        for name, kind in tree.items():
            if isinstance(kind, bytes) and contents(folder.encode(), b"tree", name) != kind:
                return (*got, b"the file %s was changed" % name)
        return (*got, contents(folder, "output"))


def output_inside(program, skip):
    """An output in the folder itself is none of its files; a second time it is one, and isn't overwritten."""
    words = ["snapshot", "--folder", "tree", "--output", "tree/new"] + ["--skip"] * skip
    with folder_with({b"a": b"1", b"z": b"2"}) as folder:
        first = command(program, words, folder)
        text = contents(folder, "tree/new")
        second = command(program, words, folder)
        kept = contents(folder, "tree/new")
    want, line = snapshot_text([(b"a", b"1"), (b"z", b"2")]), b"haboob: skipped 0\n" * skip
    return (first, text, second, kept) == ((0, line), want, (6, b"haboob: open: output\n"), want)


def many_files(program):
    """One file more than a snapshot may have is reported, or left out."""
    with folder_with({b"%05d" % number: b"" for number in range(65_537)}) as folder:
        refused = command(program, ["snapshot", *TREE], folder)
        skipped = command(program, ["snapshot", *SKIP], folder)
        text = contents(folder, "output")
    want = snapshot_text([(b"%05d" % number, b"") for number in range(65_536)])
    wanted = (4, b"haboob: folder: Count 65536\n"), (0, left_out(b"folder: Count 65536")), want
    return (refused, skipped, text) == wanted


def round_trip(program):
    """A folder's snapshot serves its file."""
    with folder_with({b"a.txt": b"hi\n"}) as folder:
        put(folder, {"capture": CAPTURE})
        made = command(program, ["snapshot", "--folder", "tree", "--output", "snapshot"], folder)
        played = command(program, ["replay", *GOOD], folder)
        return (made, played, contents(folder, "replies")) == ((0, b""), (0, OPEN_REPORT), OPEN_REPLIES)


def main():
    program, report = program_of(__doc__), Report()
    with tempfile.TemporaryDirectory() as room:
        alone = os.path.join(room, "haboob")  # a copy that every user may run
        put(room, {"haboob": contents(program)})
        for path in (room, alone):
            os.chmod(path, 0o755)
        for name, tree, words, status, line, output in SNAPSHOTS:
            got = snapshot(alone, tree, words)
            good = (got[0], got[2]) == (status, output) and is_reported(got[1], line)
            report.see_run("snapshot: " + name, good, (*got[:2], got[2][:2000]))
        report.see("snapshot: an output in the folder", output_inside(alone, False), False)
        report.see("snapshot: an output in the folder, and skip", output_inside(alone, True), False)
        report.see("snapshot: too many files", many_files(alone), False)
        report.see("snapshot: a replay of it", round_trip(alone), False)
    return report.end()


if __name__ == "__main__":
    sys.exit(main())
