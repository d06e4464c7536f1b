"""What the scripts program_*.py share: inputs, the texts that are right for them, and runs over files."""
import os

from lib.run import run_over, without_words
from lib.texts import (CLOSING, HEADER, REQUEST, SNAPSHOT, TRAFFIC, piece, recording_text, snapshot_text)

PIECE = piece(0, 0, REQUEST)
FIRST_RUN = SNAPSHOT + HEADER + PIECE + b"stop 1\n"

REPLY = (
    b"reply %d 0 150\nHTTP/1.1 200 OK\r\nDate: Sun, 06 Nov 1994 08:49:37 GMT\r\nContent-Type: text/plain\r\n"
    b"Content-Length: 3\r\nLast-Modified: Sun, 06 Nov 1994 08:49:37 GMT\r\n\r\nhi\n\n"
)
FIRST_LINE = b"haboob-replies 1\n"
ONE = FIRST_LINE + REPLY % 0
REPLIES = ONE + b"stop 1\n"

HEADING = b"number,connection,tick,tier,status,decision,service,credit,rate,start,finish,waited,method,target\n"

# A run over files, with one token that comes back after a second.
CAPTURE = recording_text([(tick, 0, REQUEST) for tick in (0, 0, 999999, 1000000)])
TIGHT = b"[policy]\ndepth = 1\nrate = 1000\nrate_min = 1000\nrate_max = 1000\n"
REJECTED = (
    b"reply %d 0 159\nHTTP/1.1 503 Service Unavailable\r\n"
    b"Date: Sun, 06 Nov 1994 08:49:37 GMT\r\nContent-Type: text/plain\r\n"
    b"Content-Length: 24\r\nRetry-After: 1\r\n\r\n503 Service Unavailable\n\n"
)
TIGHT_REPLIES = (
    FIRST_LINE
    + REPLY % 0
    + REJECTED % 1
    + REJECTED % 2
    + (REPLY % 3).replace(b"Date: Sun, 06 Nov 1994 08:49:37", b"Date: Sun, 06 Nov 1994 08:49:38")
    + b"stop 4\n"
)
STATUSES = (
    b"status 200 %d\nstatus 301 0\nstatus 304 0\nstatus 400 0\nstatus 404 0\n"
    b"status 405 0\nstatus 413 0\nstatus 501 0\nstatus 503 %d\n"
)
TIGHT_REPORT = (
    b"haboob-report 1\nmessages 4\nbypassed 0\nadmitted 2\nrejected 2\n"
    + STATUSES % (2, 2)
    + b"p50 201\np90 201\np99 201\ncontrols 0\nreject 1\nreject 2\nend\n"
)
# With default settings each request finds a token, and waits for the ones before it.
OPEN_REPLIES = TIGHT_REPLIES.replace(REJECTED % 1, REPLY % 1).replace(REJECTED % 2, REPLY % 2)
OPEN_REPORT = (
    b"haboob-report 1\nmessages 4\nbypassed 0\nadmitted 4\nrejected 0\n"
    + STATUSES % (4, 0)
    + b"p50 201\np90 402\np99 402\ncontrols 0\nend\n"
)

# The same requests as a traffic text: the number's first two connections end, and two more requests come on its third.
TRAFFIC_TEXT = recording_text([(0, 0, REQUEST), (0, 0)] * 2 + [(tick, 0, REQUEST) for tick in (999999, 1000000)],
                              TRAFFIC)
# Four connections on three numbers, at most two at once: 5 bytes come after a message that closes, and twice 5 aren't
# whole.
LIVES = recording_text([
    ("tier", 9, 1), (5, 9, CLOSING + b"GET /"), (5, 3, b"GET /"), (6, 9), (6, 3), (6, 3), (7, 3, REQUEST),
    (1000007, 4, b"GET /")], TRAFFIC)

# The files of a folder in which the program is run.
FILES = {
    "snapshot": SNAPSHOT,
    "capture": CAPTURE,
    "traffic": TRAFFIC_TEXT,
    "lives": LIVES,
    "settings": TIGHT,
    "empty": b"",
    "longer": SNAPSHOT + b".",
    "depth": b"[policy]\ndepth = 0\n",
    "unknown": b"[policy]\ndeep = 1\n",
    "longest": TIGHT + b"#" * (65536 - len(TIGHT)),
    "too_long": TIGHT + b"#" * (65537 - len(TIGHT)),
}
GOOD = ["--snapshot", "snapshot", "--capture", "capture", "--replies", "replies"]
OLD = b"old replies\n"
OLDEST = b"x" * 5000


def is_reported(text, wanted):
    """Whether this is the text wanted on standard error; None wants a longer one, of the command line."""
    return len(text) > 20 if wanted is None else text == wanted


def first_files(files):
    """The text of a snapshot of these files, without its last line."""
    return snapshot_text(files)[: -len(b"end %d\n" % len(files))]


def beside(file, twin):
    """What makes, in a folder with files, a folder, a link to a file, and another name of one."""

    def made(folder):
        os.mkdir(os.path.join(folder, "folder"))
        os.symlink(file, os.path.join(folder, "link"))
        os.link(os.path.join(folder, twin), os.path.join(folder, "same"))

    return made


def check_runs(report, program, runs):
    """Runs over FILES, which keep their bytes: of each the command, the name, the words, and what comes of it: status,
    line (with its words for `settings` alone), replies and standard output."""
    for verb, name, words, status, line, replies, text in runs:
        files = {"replies": OLD, "other": OLD, **FILES}
        ended, error, output, after = run_over(program, [verb, *words], files, beside("snapshot", "settings"))
        error = error if verb == "settings" else without_words(error)
        changed = [one for one, data in FILES.items() if after[one] != data]
        good = (ended, after["replies"], output, changed) == (status, replies, text, []) and is_reported(error, line)
        report.see_run("%s: %s" % (verb, name), good, (ended, error, after["replies"], output, changed))


def check_rewrites(report, program, verb, cases):
    """Runs that write a capture anew, which keeps its bytes: of each the name, the capture, the words, and what comes
    of it: status, line and output."""
    for name, capture, words, status, line, text in cases:
        files = {"output": OLDEST, "capture": capture}
        ended, error, output, after = run_over(program, [verb, *words], files, beside("capture", "capture"))
        error = without_words(error)
        got = ended, error, after["output"], after["capture"], output
        good = (ended, *got[2:]) == (status, text, capture, b"") and is_reported(error, line)
        report.see_run("%s: %s" % (verb, name), good, got)
