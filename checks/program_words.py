#!/usr/bin/env python3
"""Runs each command of the program with words that are no text, with words that hold characters which act on a
terminal, with formats and speeds that there aren't, and with inputs that aren't there: the first that is absent is
reported, in the order settings, snapshot, capture, and no new output stays behind. Compares the words that follow the
line of a fault: of a file that can't be opened, written or read, and of one that looks like something else.
"""
import bz2
import fcntl
import gzip
import itertools
import lzma
import os
import shutil
import sys
import tempfile
import unicodedata

from lib.report import Report
from lib.run import contents, options, put, run, run_over
from lib.usage import program_of
from program_parts import FILES

NOT_TEXT = b"error: a word is not UTF-8\n\nFor more information, try '--help'.\n"
ODD_WORDS = [
    [b"\xff"],
    [b"replay\xff"],
    [b"inspect", b"--capture", b"\xff"],
    [b"inspect", b"--\xc3"],
    [b"replay", b"--snapshot", b"snapshot", b"--capture", b"capture", b"--replies", b"new\xe9"],
]

# Control and format characters, and those that end a line or a paragraph: by Python's Unicode data, the categories
# Cc, Cf, Zl and Zp. Others stand beside them.
HIDDEN = [c for c in map(chr, range(1, sys.maxunicode + 1)) if unicodedata.category(c) in ("Cc", "Cf", "Zl", "Zp")]
SHOWN = "\u00a0\u061b\u061d\u200a\u2010\u2027\u202f\u2065\u2070\ufefe\u00e9\U0001f600"
# The words of wrong command lines, each with a place for a wrong word.
WRONG_WORDS = [
    ["%s"],
    ["--%s"],
    ["inspect", "%s"],
    ["inspect", "--%s", "capture"],
    ["replay", "--capture", "capture", "%s"],
    ["snapshot", "--skip=%s"],
    ["settings", "--settings", "a", "--settings%s"],
]

# What `haboob upgrade --to` doesn't take, whether the capture is there or not.
WRONG_FORMATS = ["1", "3", "02", "2 ", "Traffic", "traffi", "traffic 1", "haboob-traffic", "", "-1", "2,traffic"]

# What `--speed` of a replay and of a table doesn't take.
WRONG_SPEEDS = ["99", "10001", "0", "0100", "+100", "1e3", "100.0", "200%", "", " 200", "-200", "18446744073709551816"]

# The inputs of each command, in the order in which they are reported, and its output.
COMMANDS = [
    ("replay", ["settings", "snapshot", "capture"], "replies"),
    ("explain", ["settings", "snapshot", "capture"], "messages"),
    ("inspect", ["capture"], None),
    ("upgrade", ["capture"], "output"),
    ("snapshot", ["folder"], "output"),
    ("settings", ["settings"], None),
]


SPEED = b"haboob: --speed is to be 100 to 10000, in percent of the speed of the recording\n"
ABSENT = b"No such file or directory (os error 2)"
COMPRESSED = b"it is compressed: decompress it first"
PACKETS = b"it holds packets: haboob-capture-from-pcap makes a capture of them"
LOG = b"it looks like a log: haboob-capture-from-log makes a capture of one"
# What stands in a file that is none of those that are asked for.
LOOKS = {
    "nothing": (b"", b"the file is empty"),
    "snapshot": (FILES["snapshot"], b"it looks like a snapshot"),
    "capture": (FILES["capture"], b"it looks like a capture"),
    "traffic": (FILES["traffic"], b"it looks like a capture"),
    "replies": (b"haboob-replies 1\nstop 0\n", b"it looks like replies"),
    "log.gz": (gzip.compress(b"a"), COMPRESSED),
    "log.xz": (lzma.compress(b"a"), COMPRESSED),
    "log.bz2": (bz2.compress(b"a"), COMPRESSED),
    "log.zst": (bytes.fromhex("28b52ffd0400090000610f0a7e8e"), COMPRESSED),
    "site.zip": (b"PK\x03\x04\x14\x00", COMPRESSED),
    "us.pcap": (bytes.fromhex("d4c3b2a1020004000000000000000000"), PACKETS),
    "big.pcap": (bytes.fromhex("a1b2c3d4000200040000000000000000"), PACKETS),
    "ns.pcap": (bytes.fromhex("4d3cb2a1020004000000000000000000"), PACKETS),
    "big_ns.pcap": (bytes.fromhex("a1b23c4d000200040000000000000000"), PACKETS),
    "any.pcapng": (bytes.fromhex("0a0d0d0a1c0000004d3c2b1a01000000"), PACKETS),
    "access.log": (b'1.2.3.4 - - [06/Nov/1994:08:49:37 +0000] "GET / HTTP/1.1" 200 5 "-" "-"\n', LOG),
    "h2.log": (b'1.2.3.4 - - [06/Nov/1994:08:49:37 +0000] "GET / HTTP/2.0" 200 5 "-" "-"\n', LOG),
    "caddy.log": (b'{"level":"info","ts":784111777.1}\n', LOG),
    "prose": (b"a text that looks like nothing else\n", None),
}


def words_on(name, what):
    """The line of words on a file."""
    return b"haboob: %s: %s\n" % (name.encode(), what) if what else b""


def check_looks(report, program):
    """What is said of a file that isn't the snapshot or the capture that it was given as."""
    for name, (data, what) in LOOKS.items():
        data += bytes(100) * (not data.endswith(b"\n") and data != b"")  # more than a line may have
        kinds = ["capture"] * (name not in ("capture", "traffic")) + ["snapshot"] * (name != "snapshot")
        for kind, engine in itertools.product(kinds, ("plain", "staged")):
            files = {name: data, "good snapshot": FILES["snapshot"], "good capture": FILES["capture"]}
            given = {"snapshot": "good snapshot", "capture": "good capture", kind: name}
            words = ["replay", "--engine", engine, "--replies", "new", *options(**given)]
            got = run_over(program, words, files)[:2]
            heading = b"capture: record" if kind == "capture" else b"snapshot: entry"
            fault = b"Header" if data else b"Cut"
            wanted = 5 - (kind == "snapshot"), b"haboob: %s 0: %s\n" % (heading, fault) + words_on(name, what)
            report.see_run("%s as a %s, %s" % (name, kind, engine), got == wanted, got)
    for verb in (["inspect"], ["upgrade", "--output", "new"], ["slim", "--output", "new"]):
        for name, wanted in (("snapshot", b"capture: record 0: Header"), ("folder", b"read: capture")):
            got = run_beside(program, [*verb, "--capture", name])[:2]
            what = b"it looks like a snapshot" if name == "snapshot" else b"it is a folder"
            status = 5 if name == "snapshot" else 6
            wanted = status, b"haboob: %s\n" % wanted + words_on(name, what)
            report.see_run("%s of a %s" % (verb[0], name), got == wanted, got)


def check_refused(report, program):
    """What is said of outputs and folders that can't be opened, or aren't taken."""
    inspect, output = ["inspect", "--capture", "capture"], ["upgrade", "--capture", "capture", "--output"]
    for words, role, name, what in (
        ([*output, "folder"], b"output", "folder", b"Is a directory (os error 21)"),
        ([*output, "none/new"], b"output", "none/new", ABSENT),
        ([*output, "capture"], b"output", "capture", b"it is an input, or standard output, too"),
        (["snapshot", "--folder", "none", "--output", "new"], b"folder", "none", ABSENT),
        (["snapshot", "--folder", "capture", "--output", "new"], b"folder", "capture", b"it is no folder"),
    ):
        got = run_beside(program, words)[:2]
        wanted = 6, b"haboob: open: %s\n" % role + words_on(name, what)
        report.see_run("refused: " + " ".join(words), got == wanted, got)
    with tempfile.TemporaryDirectory() as folder:
        path = os.path.join(folder, "capture")
        put(folder, {"capture": FILES["capture"]})
        with open(path, "ab") as out:
            got = run(program, inspect, folder, stdout=out)[:2]
        wanted = 6, b"haboob: open: report\nhaboob: standard output: it is an input too\n"
        report.see_run("refused: a report into the capture", got == wanted, got)
        with open(path, "rb") as held:
            fcntl.flock(held, fcntl.LOCK_EX)
            shutil.copy(path, path + " too")
            got = run(program, ["upgrade", "--capture", "capture too", "--output", "capture"], folder)[:2]
        wanted = 6, b"haboob: open: output\n" + words_on("capture", b"another run is writing it")
        report.see_run("refused: what another run writes", got == wanted, got)


TWICE = b"standard input is another input already"
FOR_REPORT = b"standard output gets the report"
# Runs with `-` for a file: the words, the file that standard input gives, and the file that is written (else it is
# standard output). The same words with the file's name for `-` are to do the same.
DASHES = [
    (["inspect", "--capture", "-"], "capture", None),
    (["upgrade", "--capture", "-", "--output", "new"], "capture", "new"),
    (["upgrade", "--capture", "capture", "--output", "-"], None, None),
    (["slim", "--capture", "-", "--output", "-"], "traffic", None),
    (["snapshot", "--folder", "folder", "--output", "-"], None, None),
    (["settings", "--settings", "-"], "settings", None),
    (["replay", "--snapshot", "-", "--capture", "capture", "--replies", "new"], "snapshot", "new"),
    (["replay", "--snapshot", "snapshot", "--capture", "-", "--replies", "new"], "capture", "new"),
    (["explain", "--snapshot", "snapshot", "--capture", "-", "--messages", "new"], "traffic", "new"),
    (["replay", "--snapshot", "snapshot", "--capture", "capture", "--replies", "new", "--settings", "-"], "settings",
     "new"),
]
# And those that are refused: with the role of the file, and the words.
WRONG_DASHES = [
    (["replay", "--snapshot", "-", "--capture", "-", "--replies", "new"], b"capture", TWICE),
    (["replay", "--snapshot", "-", "--capture", "capture", "--replies", "new", "--settings", "-"], b"snapshot", TWICE),
    (["explain", "--snapshot", "a", "--capture", "-", "--messages", "new", "--settings", "-"], b"capture", TWICE),
    (["replay", "--snapshot", "snapshot", "--capture", "capture", "--replies", "-"], b"replies", FOR_REPORT),
    (["explain", "--snapshot", "snapshot", "--capture", "capture", "--messages", "-"], b"messages", FOR_REPORT),
]


def run_dashes(program, words, given, written):
    """Status, standard error and what was written, of a run from and to pipes; the same of one over files."""
    outputs = []
    for one in (words, without_dashes(words, given)):
        ran = run_over(program, one, FILES, a_folder, input=FILES.get(given, b""))
        name = written or ("made" if "made" in one else None)
        outputs.append((*ran[:2], ran[3].get(name, b"") if name in one else ran[2]))
    return outputs


def without_dashes(words, given):
    """The words of the run over files: the output is the file `made`."""
    named = {"--output": "made"}
    return [named.get(words[at - 1], given) if word == "-" else word for at, word in enumerate(words)]


def check_dashes(report, program):
    """`-` is standard input and standard output."""
    for words, given, written in DASHES:
        got, wanted = run_dashes(program, words, given, written)
        good = got == wanted and got[0] == 0 and got[2] != b""
        report.see_run(" ".join(words[:5]), good, (*got[:2], got, wanted))
    for words, role, what in WRONG_DASHES:
        got = run_beside(program, words)[:2]
        report.see_run(" ".join(words[:7]), got == (6, b"haboob: open: %s\n" % role + words_on("-", what)), got)
    with tempfile.TemporaryDirectory() as folder:
        put(folder, {"kept": b"before\n", "capture": FILES["capture"]})
        upgrade = ["upgrade", "--capture", "capture", "--output", "-"]
        with open(os.path.join(folder, "kept"), "ab") as out:
            got = run(program, upgrade, folder, stdout=out)[:2]
        good = got == (0, b"") and contents(folder, "kept").startswith(b"before\nhaboob-capture 2 ")
        report.see_run("an output that is appended to", good, got)
        with open(os.path.join(folder, "capture"), "ab") as out:
            got = run(program, upgrade, folder, stdout=out)[:2]
        wanted = 6, b"haboob: open: output\nhaboob: standard output: it is an input too\n"
        report.see_run("an output that is the input", got == wanted, got)


def a_folder(folder):
    """Makes a folder with a file."""
    put(folder, {"folder/a": b"a"})
    os.utime(os.path.join(folder, "folder", "a"), (1, 1))


def run_beside(program, words):
    """Status, standard error and standard output of a run beside files and an empty folder, and what is new there."""
    *ran, after = run_over(program, words, FILES, lambda folder: os.mkdir(os.path.join(folder, "folder")))
    return (*ran, set(after) - {*FILES, "folder"})


def tells_shown(program, words, character):
    """Whether a run with a wrong word that holds a hidden character says what it does of the same word with a question
    mark, and holds no such character but line feeds; and what it did."""
    got, like = (
        run_beside(program, [(word % ("a" + part + "b" + SHOWN) if "%s" in word else word).encode() for word in words])
        for part in (character, "?")
    )
    text = got[1].decode()
    is_shown = not any(hidden in text for hidden in HIDDEN if hidden != "\n")
    return got == like and got[0] == 2 and "a?b" + SHOWN in text and is_shown, got


def words_of(verb, inputs, output, absent):
    """The words of a command, of whose inputs some are absent, with a new output."""
    outputs = {output: "new"} if output else {}
    return [verb, *options(*inputs, **{name: "absent" for name in absent}, **outputs)]


def main():
    program, report = program_of(__doc__), Report()
    for words in ODD_WORDS:
        got = run_beside(program, words)
        report.see_run("no text: %r" % words[-1], got == (2, NOT_TEXT, b"", set()), got)
    for number, character in enumerate(HIDDEN):
        words = WRONG_WORDS[number % len(WRONG_WORDS)]
        good, got = tells_shown(program, words, character)
        report.see_run("shown: U+%04X in %s" % (ord(character), " ".join(words)), good, got)
    for word in WRONG_FORMATS:
        for capture in ("capture", "absent"):
            got = run_beside(program, ["upgrade", "--capture", capture, "--output", "new", "--to=" + word])
            wanted = 2, b"haboob: format\nhaboob: the format is to be 2 or traffic\n", b"", set()
            report.see_run("upgrade to %r of %s" % (word, capture), got == wanted, got)
    for (verb, inputs, output), word in itertools.product(COMMANDS[:2], WRONG_SPEEDS):
        got = run_beside(program, words_of(verb, inputs, output, ("capture",)) + ["--speed=" + word])
        report.see_run("%s at %r" % (verb, word), got == (2, b"haboob: speed\n" + SPEED, b"", set()), got)
    for verb, inputs, output in COMMANDS:
        for count in range(1, len(inputs) + 1):
            for absent in itertools.combinations(inputs, count):
                got = run_beside(program, words_of(verb, inputs, output, absent))
                wanted = 6, b"haboob: open: %s\n" % absent[0].encode() + words_on("absent", ABSENT), b"", set()
                report.see_run("%s: without %s" % (verb, ", ".join(absent)), got == wanted, got)
    check_looks(report, program)
    check_refused(report, program)
    check_dashes(report, program)
    return report.end()


if __name__ == "__main__":
    sys.exit(main())
