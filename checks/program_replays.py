#!/usr/bin/env python3
"""Runs `haboob replay`, `explain` and `inspect` over files, and compares status, the line on standard error, the file
that is written and standard output with tables. No file that is read changes.
"""
import os
import subprocess
import sys
import tempfile
import threading

from lib.report import Report
from lib.run import put, run, run_over
from lib.texts import (CLOSING, HEADER_TRAFFIC, HEADER_TWO, ONE, REQUEST, SNAPSHOT, TRAFFIC, piece,
                       recording_text)
from lib.usage import program_of
from program_parts import (FILES, FIRST_LINE, GOOD, HEADING, OLD, OPEN_REPLIES, OPEN_REPORT, REJECTED, REPLY, STATUSES,
                           TIGHT_REPLIES, TIGHT_REPORT, check_runs)

SECONDS = 120  # that a run over a large text may take

# What is reported of one message more than a replay may have.
TOO_MANY = 5, b"haboob: capture: message 1048576: TooMany\n", b""

# The arguments after `replay`, in a folder with those files and a folder. Then the status, the line on standard error
# (None: a longer text), the file of the replies (OLD: as it was) and the report.
RUNS = [
    # name, words, status, line, replies, report
    ("a bucket of one token", GOOD + ["--settings", "settings"], 0, b"", TIGHT_REPLIES, TIGHT_REPORT),
    ("the same, the plain engine", GOOD + ["--settings", "settings", "--engine", "plain"], 0, b"", TIGHT_REPLIES,
     TIGHT_REPORT),
    ("a traffic text", GOOD[:3] + ["traffic"] + GOOD[4:] + ["--settings", "settings"], 0, b"", TIGHT_REPLIES,
     TIGHT_REPORT),
    ("the same, the plain engine", GOOD[:3] + ["traffic"] + GOOD[4:] + ["--settings", "settings", "--engine", "plain"],
     0, b"", TIGHT_REPLIES, TIGHT_REPORT),
    ("default settings", GOOD, 0, b"", OPEN_REPLIES, OPEN_REPORT),
    ("settings without keys", GOOD + ["--settings", "empty"], 0, b"", OPEN_REPLIES, OPEN_REPORT),
    ("no options", [], 2, None, OLD, b""),
    ("no capture", GOOD[:2] + GOOD[4:], 2, None, OLD, b""),
    ("help", ["--help"], 2, None, OLD, b""),
    ("another engine", GOOD + ["--engine", "fast"], 2, b"haboob: engine\n", OLD, b""),
    ("another engine, and no settings", GOOD + ["--engine", "fast", "--settings", "absent"], 2, b"haboob: engine\n",
     OLD, b""),
    ("no settings file", GOOD + ["--settings", "absent"], 6, b"haboob: open: settings\n", OLD, b""),
    ("a folder as settings", GOOD + ["--settings", "folder"], 6, b"haboob: read: settings\n", OLD, b""),
    ("depth 0", GOOD + ["--settings", "depth"], 3, b"haboob: settings: Range policy.depth\n", OLD, b""),
    ("an unknown key", GOOD + ["--settings", "unknown"], 3, b"haboob: settings: Unknown\n", OLD, b""),
    ("settings of 65536 bytes", GOOD + ["--settings", "longest"], 0, b"", TIGHT_REPLIES, TIGHT_REPORT),
    ("settings of 65537 bytes", GOOD + ["--settings", "too_long"], 3, b"haboob: settings: Text\n", OLD, b""),
    ("settings without an end", GOOD + ["--settings", "/dev/zero"], 3, b"haboob: settings: Text\n", OLD, b""),
    ("depth 0, and no snapshot", ["--snapshot", "absent"] + GOOD[2:] + ["--settings", "depth"], 3,
     b"haboob: settings: Range policy.depth\n", OLD, b""),
    ("no snapshot", ["--snapshot", "absent"] + GOOD[2:], 6, b"haboob: open: snapshot\n", OLD, b""),
    ("an empty name", ["--snapshot", ""] + GOOD[2:], 6, b"haboob: open: snapshot\n", OLD, b""),
    ("no capture file", GOOD[:2] + ["--capture", "absent"] + GOOD[4:], 6, b"haboob: open: capture\n", OLD, b""),
    ("replies into no folder", GOOD[:4] + ["--replies", "absent/replies"], 6, b"haboob: open: replies\n", OLD, b""),
    ("a folder as snapshot", ["--snapshot", "folder"] + GOOD[2:], 6, b"haboob: read: snapshot\n", OLD, b""),
    ("a folder as capture", GOOD[:2] + ["--capture", "folder"] + GOOD[4:], 6, b"haboob: read: capture\n", FIRST_LINE,
     b""),
    ("a byte after the snapshot", ["--snapshot", "longer"] + GOOD[2:], 4, b"haboob: snapshot: entry 2: Trailing\n", OLD,
     b""),
    ("an empty capture", GOOD[:2] + ["--capture", "empty"] + GOOD[4:], 5, b"haboob: capture: record 0: Cut\n",
     FIRST_LINE, b""),
    ("no replies before", GOOD[:4] + ["--replies", "new"], 0, b"", OLD, OPEN_REPORT),
    ("the capture as replies", GOOD[:4] + ["--replies", "capture"], 6, b"haboob: open: replies\n", OLD, b""),
    ("the capture by another name", GOOD[:4] + ["--replies", "./folder/../capture"], 6, b"haboob: open: replies\n", OLD,
     b""),
    ("the snapshot by a link as replies", GOOD[:4] + ["--replies", "link"], 6, b"haboob: open: replies\n", OLD, b""),
    ("the settings by a hard link as replies", GOOD[:4] + ["--replies", "same", "--settings", "settings"], 6,
     b"haboob: open: replies\n", OLD, b""),
    ("that file where it isn't the settings", GOOD[:4] + ["--replies", "other"], 0, b"", OLD, OPEN_REPORT),
    ("a device as an input and as replies", ["--snapshot", "/dev/null"] + GOOD[2:4] + ["--replies", "/dev/null"], 4,
     b"haboob: snapshot: entry 0: Cut\n", OLD, b""),
    ("replies into a full device", GOOD[:4] + ["--replies", "/dev/full"], 6, b"haboob: write: replies\n", OLD, b""),
]

# The same of the other commands that read these files: the verb first. A table of decisions goes into the file of the
# replies. With one token a second (1,000 units of 10^-9 token a microsecond) the bucket is empty after the first
# request.
TIGHT_TABLE = (
    HEADING
    + b"0,0,0,0,200,admitted,201,1000000000,1000,0,201,0,GET,/a.txt\n1,0,0,0,503,rejected,201,0,1000,,,201,GET,/a.txt\n"
    b"2,0,999999,0,503,rejected,201,999999000,1000,,,0,GET,/a.txt\n"
    b"3,0,1000000,0,200,admitted,201,1000000000,1000,1000000,1000201,0,GET,/a.txt\n"
)
INSPECTION = (
    b"haboob-inspection 1\nversion 1\nstart 784111777\nrecords 4\npieces 4\nends 0\ntiers 0\nfirst 0\nlast 1000000\n"
    b"connections 1\nbytes 128\nmessages 4\nrequests 4\n"
    b"method GET 4\nmethod HEAD 0\nmethod other 0\nprotocol HTTP/1.0 0\nprotocol HTTP/1.1 4\n"
    b"fault TooLong 0\nfault Block 0\nfault Host 0\nfault Coding 0\nfault Length 0\nfault BodySize 0\n"
    b"after-close 0 0\nunfinished 0 0\nbusiest 0 3\nend\n"
)
# Three connections on one number; and the four of the other text.
TRAFFIC_INSPECTION = (
    INSPECTION.replace(b"version 1\n", b"version traffic\n")
    .replace(b"records 4\n", b"records 6\n")
    .replace(b"ends 0\n", b"ends 2\n")
    .replace(b"connections 1\n", b"connections 3\nopen 1\n")
)
LIVES_INSPECTION = (
    b"haboob-inspection 1\nversion traffic\nstart 784111777\n"
    b"records 8\npieces 4\nends 3\ntiers 1\nfirst 5\nlast 1000007\n"
    b"connections 4\nopen 2\nbytes 98\nmessages 2\nrequests 2\n"
    b"method GET 2\nmethod HEAD 0\nmethod other 0\nprotocol HTTP/1.0 0\nprotocol HTTP/1.1 2\n"
    b"fault TooLong 0\nfault Block 0\nfault Host 0\nfault Coding 0\nfault Length 0\nfault BodySize 0\n"
    b"after-close 5 1\nunfinished 10 2\nbusiest 0 2\nend\n"
)
TABLE_OF = ["--snapshot", "snapshot", "--capture", "capture", "--messages"]
GOOD_TABLE = TABLE_OF + ["replies"]
OTHER_RUNS = [
    ("explain", "a bucket of one token", GOOD_TABLE + ["--settings", "settings"], 0, b"", TIGHT_TABLE, TIGHT_REPORT),
    ("explain", "a traffic text", TABLE_OF[:3] + ["traffic", "--messages", "replies", "--settings", "settings"], 0, b"",
     TIGHT_TABLE, TIGHT_REPORT),
    ("explain", "no file for the table", TABLE_OF[:4], 2, None, OLD, b""),
    ("explain", "an engine", GOOD_TABLE + ["--engine", "plain"], 2, None, OLD, b""),
    ("explain", "depth 0", GOOD_TABLE + ["--settings", "depth"], 3, b"haboob: settings: Range policy.depth\n", OLD,
     b""),
    ("explain", "a snapshot as capture", GOOD_TABLE[:3] + ["snapshot"] + GOOD_TABLE[4:], 5,
     b"haboob: capture: record 0: Header\n", HEADING, b""),
    ("explain", "the table into the capture", TABLE_OF + ["capture"], 6, b"haboob: open: messages\n", OLD, b""),
    ("explain", "the table into the settings", TABLE_OF + ["settings", "--settings", "settings"], 6,
     b"haboob: open: messages\n", OLD, b""),
    ("explain", "the table into a hard link to the settings", TABLE_OF + ["same", "--settings", "settings"], 6,
     b"haboob: open: messages\n", OLD, b""),
    ("explain", "the table into a link to the snapshot", TABLE_OF + ["link"], 6, b"haboob: open: messages\n", OLD, b""),
    ("explain", "the table into a folder", TABLE_OF + ["folder"], 6, b"haboob: open: messages\n", OLD, b""),
    ("explain", "the table into a full device", TABLE_OF + ["/dev/full"], 6, b"haboob: write: messages\n", OLD, b""),
    ("inspect", "a capture", ["--capture", "capture"], 0, b"", OLD, INSPECTION),
    ("inspect", "a traffic text", ["--capture", "traffic"], 0, b"", OLD, TRAFFIC_INSPECTION),
    ("inspect", "a traffic text with all kinds of ends", ["--capture", "lives"], 0, b"", OLD, LIVES_INSPECTION),
    ("inspect", "no capture", [], 2, None, OLD, b""),
    ("inspect", "a file that isn't there", ["--capture", "absent"], 6, b"haboob: open: capture\n", OLD, b""),
    ("inspect", "a folder", ["--capture", "folder"], 6, b"haboob: read: capture\n", OLD, b""),
    ("inspect", "a snapshot", ["--capture", "snapshot"], 5, b"haboob: capture: record 0: Header\n", OLD, b""),
]

# A control at each of 1,002 requests, one a second: a service of 201 and a rate that stays. The last control comes
# after the last offer, and isn't shown.
SECONDLY = b"[policy]\nevery = 1\nwindow = 1\nsmoothing = 0\nup = 0\ntarget = 1000000000000\n"
CONTROLS = [b"control %d %d 201 201 1000000\n" % (number + 1, 1_000_000 * number + 201) for number in range(1001)]


def controls_report(listed):
    """The report with these of the controls."""
    begin = b"haboob-report 1\nmessages 1002\nbypassed 0\nadmitted 1002\nrejected 0\n" + STATUSES % (1002, 0)
    return begin + b"p50 201\np90 201\np99 201\ncontrols 1001\n" + b"".join(listed) + b"end\n"


def report_of_controls(program, engine, begin):
    """Status, line and report of a replay of those requests, each on a connection of its own where that can be."""
    records = []
    for tick in range(0, 1002 * 10**6, 10**6):
        records += [(tick, 0, REQUEST), (tick, 0)] if begin == TRAFFIC else [(tick, 0, REQUEST)]
    files = {"snapshot": SNAPSHOT, "capture": recording_text(records, begin), "settings": SECONDLY}
    return run_over(program, ["replay", *GOOD, "--settings", "settings", "--engine", engine], files)[:3]


# A message that closes and 16,400 pieces after it, of 65,553 bytes each with their lines: 1,075,069,292 bytes in all
# without the last line. A capture ends at byte 1,073,741,824, within the 16,380th of them, which is record 16381.
LONG_BEGIN, LONG_PIECE = piece(0, 0, CLOSING), piece(0, 0, b"x" * 65_536)
LONG_COUNT = 16_400
LONG_TEXTS = [
    # name, first line, status, line, version, whole records, lines after `connections`, bytes
    ("a capture of more than a GiB", HEADER_TWO, 5, b"haboob: capture: record 16381: TooLarge\n",
     b"2", 16_380, b"", 1_073_414_195),
    ("a traffic text of more than a GiB", HEADER_TRAFFIC, 0, b"", b"traffic", 16_401, b"open 1\n", 1_074_790_451),
]


def long_inspection(version, records, more, size):
    """The inspection of one message of 51 bytes and what comes after it, which is all on its connection."""
    return (
        b"haboob-inspection 1\nversion %b\nstart 784111777\nrecords %d\npieces %d\nends 0\ntiers 0\nfirst 0\nlast 0\n"
        b"connections 1\n%bbytes %d\nmessages 1\nrequests 1\n"
        b"method GET 1\nmethod HEAD 0\nmethod other 0\nprotocol HTTP/1.0 0\nprotocol HTTP/1.1 1\n"
        b"fault TooLong 0\nfault Block 0\nfault Host 0\nfault Coding 0\nfault Length 0\nfault BodySize 0\n"
        b"after-close %d 1\nunfinished 0 0\nbusiest 0 1\nend\n"
    ) % (version, records, records, more, size, size - 51)


def inspect_long(program, header):
    """Status, line and inspection of such a text, which comes over a pipe."""
    words = [program, "inspect", "--capture", "/dev/stdin"]
    with subprocess.Popen(words, stdin=subprocess.PIPE, stdout=subprocess.PIPE, stderr=subprocess.PIPE) as child:
        killer = threading.Timer(SECONDS, child.kill)
        killer.start()
        try:
            child.stdin.write(header + LONG_BEGIN)
            for _ in range(LONG_COUNT):
                child.stdin.write(LONG_PIECE)
            child.stdin.write(b"stop %d\n" % (LONG_COUNT + 1))
            child.stdin.close()
        except BrokenPipeError:
            pass
        child.stdin = None
        text, line = child.communicate()
        killer.cancel()
    return child.returncode, line, text


def too_many(program, engine):
    """What is reported of one message more than a capture may have; and whether as many as it may have are answered."""
    capture = recording_text([(0, 0, REQUEST * 2048)] * 512 + [(0, 0, REQUEST)])
    with tempfile.TemporaryDirectory() as folder:
        put(folder, {"snapshot": SNAPSHOT, "capture": capture})
        got = run(program, ["replay", *GOOD, "--engine", engine], folder, SECONDS)
        with open(os.path.join(folder, "replies"), "rb") as file:
            good = file.read(len(FIRST_LINE)) == FIRST_LINE
            for number in range(1_048_576):
                reply = REPLY % number if number < 100 else REJECTED % number
                good = good and file.read(len(reply)) == reply
            good = good and file.read() == b""
    return good, got


def main():
    program, report = program_of(__doc__), Report()
    check_runs(report, program, [("replay", *row) for row in RUNS] + OTHER_RUNS)
    for name, header, status, line, version, records, more, size in LONG_TEXTS:
        got = inspect_long(program, header)
        good = got == (status, line, long_inspection(version, records, more, size))
        report.see_run("inspect: " + name, good, got)
    with open("/dev/full", "wb") as full:
        status, line, _, after = run_over(program, ["replay", *GOOD, "--settings", "settings"], FILES, stdout=full)
    got = status, line, after["replies"]
    good = got == (6, b"haboob: write: report\n", TIGHT_REPLIES)
    report.see_run("replay: a report into a full device", good, got)
    for engine in ("plain", "staged"):
        got = report_of_controls(program, engine, ONE)
        good = got == (0, b"", controls_report(CONTROLS))
        report.see("replay: all controls of a capture, " + engine, good, got)
        got = report_of_controls(program, engine, TRAFFIC)
        good = got == (0, b"", controls_report(CONTROLS[-1000:]))
        report.see("replay: the last controls of a traffic text, " + engine, good, got)
        good, got = too_many(program, engine)
        report.see_run("replay: too many messages, " + engine, good and got == TOO_MANY, got)
    return report.end()


if __name__ == "__main__":
    sys.exit(main())
