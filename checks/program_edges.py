#!/usr/bin/env python3
"""Attacks the program at its edges, the files and folders that others change while it runs, and looks at what stands
after it.

A folder is changed between the listing and the reading of it (the program waits there for the reader of its output, a
pipe), at an opening of a file or a folder and at the first read (with a C compiler, by attack.c), and by a process that
swaps a file or a folder for a link 1,000 times: never a byte of another file comes into the snapshot. Standard output
is an input or another output, or another run writes the output; standard devices are closed; a file is full by its
limit; no further file can be opened; inode numbers are equal. Staged replays of high connection numbers take no longer
than those of low ones, and numbers of connections that have ended keep no memory.

What the machine doesn't allow (a C compiler, file systems of one's own) is not tried, and counted in the last line.
"""
import fcntl
import mmap
import os
import resource
import shlex
import shutil
import signal
import subprocess
import sys
import tempfile
import time

from lib import shim
from lib.report import Report
from lib.run import SECONDS, contents, limit, put, run, run_measured, without_words
from lib.texts import REQUEST, SNAPSHOT, TIME, TRAFFIC, TWO, recording_text, snapshot_text
from lib.usage import program_of
from program_parts import FILES, FIRST_RUN, GOOD, OLD, OPEN_REPLIES, OPEN_REPORT, first_files

SECRET = b"a byte of another file"
# How often a file is swapped at least, and how many snapshots are made meanwhile.
SWAPS, RACES = 1000, 200
# How many bytes a file may have where there is a limit.
LIMIT = 512
PLAIN = {b"a": b"first", b"d/b": b"second", b"z": b"last"}
WHOLE = snapshot_text(sorted(PLAIN.items()))
# The same while the folder is away.
OTHERS = snapshot_text([(b"a", b"first"), (b"z", b"last")])
# Files in folders that lie below one another and beside one another.
BELOW = {**{b"d/e/%02d" % number: b"in e" for number in range(40)}, b"d/f/x": b"in f", b"z": b"last"}


def made(folder, plain=PLAIN):
    """Makes the folder `tree` with files, and beside it the folder `other` with files of the same names."""
    for name, data in plain.items():
        for top, text in ((b"tree", data), (b"other", SECRET)):
            path = os.path.join(os.fsencode(folder), top, name)
            put(b"", {path: text})
            os.utime(path, (TIME, TIME))


def ends(fault):
    """The status and the line of what can't be taken into a snapshot."""
    return (6 if fault.startswith(b"read:") else 4), b"haboob: " + fault + b"\n"


# A command for a shell between the listing and the reading, and then the status and the line; without a line the whole
# snapshot stands in the output.
BETWEEN = [
    ("a file becomes a link to another", "ln -sf ../other/a tree/a", ends(b"folder: Changed a")),
    ("a file becomes a pipe", "rm tree/a; mkfifo tree/a", ends(b"folder: Changed a")),
    ("a file becomes a folder", "rm tree/a; mkdir tree/a", ends(b"folder: Changed a")),
    ("a file becomes another", "mv other/a tree/a", ends(b"folder: Changed a")),
    ("a file becomes a hard link of another", "ln -f other/a tree/a", ends(b"folder: Changed a")),
    ("a file goes away", "rm tree/a", ends(b"read: folder a")),
    ("a folder becomes a link to another", "mv tree/d d; ln -s ../other/d tree/d", ends(b"folder: Changed d/b")),
    ("a folder becomes another", "mv tree/d d; mv other/d tree/d", ends(b"folder: Changed d/b")),
    ("a folder becomes a pipe", "mv tree/d d; mkfifo tree/d", ends(b"folder: Changed d/b")),
    ("a folder goes away", "mv tree/d d", ends(b"read: folder d/b")),
    ("the folder itself becomes a link to another", "mv tree kept; ln -s other tree", (0, b"")),
    ("nothing is changed", "true", (0, b"")),
]


def waits(child):
    """Whether a process comes to wait; the program does so at its output, a pipe that nobody has opened."""
    until = time.monotonic() + SECONDS
    calm = 0
    while calm < 5 and time.monotonic() < until and child.poll() is None:
        with open("/proc/%d/stat" % child.pid, "rb") as file:
            calm = calm + 1 if file.read().rpartition(b")")[2].split()[0] == b"S" else 0
        time.sleep(0.005)
    return calm == 5


def ended(child):
    """Status and line of a run that is to end by itself."""
    try:
        line = child.communicate(timeout=SECONDS)[1]
    except subprocess.TimeoutExpired:
        child.kill()
        child.communicate()
        return None, b"(it hangs)"
    return child.returncode, line


def between(program, folder, command, words=()):
    """Status, line and output of a snapshot, with a command between the listing and the reading."""
    made(folder)
    pipe = os.path.join(folder, "pipe")
    os.mkfifo(pipe)
    words = ["snapshot", "--folder", "tree", "--output", "pipe", *words]
    child = subprocess.Popen([program, *words], cwd=folder, stdin=subprocess.DEVNULL, stderr=subprocess.PIPE)
    if not waits(child):
        return (*ended(child), b"(it doesn't wait)")
    subprocess.run(["sh", "-c", command], cwd=folder, check=True)
    with subprocess.Popen(["cat", pipe], stdout=subprocess.PIPE) as reader:
        got = ended(child)
        return (*got, reader.communicate()[0])


def check_between(report, program):
    for name, command, wanted in BETWEEN:
        with tempfile.TemporaryDirectory() as folder:
            got = between(program, folder, command)
        good = got[:2] == wanted and SECRET not in got[2] and (wanted[0] != 0 or got[2] == WHOLE)
        report.see_run("between: " + name, good, got)
    with tempfile.TemporaryDirectory() as folder:
        got = between(program, folder, "ln -sf ../other/a tree/a; rm tree/z", ["--skip"])
    lines = b"haboob: folder: Changed a\nhaboob: read: folder z\nhaboob: skipped 2\n"
    wanted = 0, lines, snapshot_text([(b"d/b", b"second")])
    report.see_run("between: two are left out", got == wanted, got)


# When a command is run: before which opening of what has a path that ends so, or before the first read of it; and then
# the command, the status and the line.
AT_CALLS = [
    ("a file becomes a link when it is opened", "/a", 1, False, "ln -sf ../other/a tree/a", ends(b"folder: Changed a")),
    ("a file becomes another", "/a", 1, False, "mv other/a tree/a", ends(b"folder: Changed a")),
    ("a file grows when it is read", "/a", 1, True, "printf x >>tree/a", ends(b"folder: Changed a")),
    ("a file shrinks", "/a", 1, True, "printf x >tree/a", ends(b"folder: Changed a")),
    ("a file is written anew", "/a", 1, True, "sleep 0.1; printf other >tree/a", ends(b"folder: Changed a")),
    ("a file is written anew, and gets its old time", "/a", 1, True,
     "sleep 0.1; printf other >tree/a; touch -d @784111777 tree/a", ends(b"folder: Changed a")),
    ("a folder becomes a link when it is listed", "/d/", 1, False, "mv tree/d d; ln -s ../other/d tree/d",
     ends(b"folder: Changed d/")),
    ("a folder becomes a link when a file in it is opened", "/d/", 2, False, "mv tree/d d; ln -s ../other/d tree/d",
     ends(b"folder: Changed d/b")),
]


# The same where the program goes from a folder up to the one above it, and down to the next: the second time is that at
# the reading. Where the openings are counted, one more than there are would end in a fault.
ON_THE_WAY = [
    ("a folder is opened once to be listed and once for all files in it", "/e/", 3, "rm tree/z", (0, b"")),
    ("and so is the one above it", "/d/", 3, "rm tree/z", (0, b"")),
    ("a folder is put beside others while it is read", "/39", 1, "mv tree/d/e other/d/kept", (0, b"")),
    ("a folder is put elsewhere when it is left", "/../", 2, "mv tree/d/e kept", (0, b"")),
    ("the folder above it becomes another", "/../", 2, "mv tree/d kept; mv other/d tree/d", (0, b"")),
    ("the folder above it becomes a link to another", "/../", 2, "mv tree/d kept; ln -s ../other/d tree/d", (0, b"")),
    ("a folder is put elsewhere, and the one above it becomes another", "/../", 2,
     "mv tree/d/e kept; mv tree/d old; mv other/d tree/d", ends(b"folder: Changed d/f/x")),
    ("a folder is put elsewhere, and the one above it goes away", "/../", 2, "mv tree/d/e kept; mv tree/d old",
     ends(b"read: folder d/f/x")),
]


def attacked(program, attacker, folder, name, opening, is_at_read, command):
    """Status, line and output of a snapshot of a folder that is made, with a command at a call."""
    world = shim.world(attacker, NAME=name, OPENING=opening, ATTACK=command, **({"READING": 1} if is_at_read else {}))
    got = run(program, ["snapshot", "--folder", "tree", "--output", "output"], folder, env=world)[:2]
    return (*got, contents(folder, "output"))


def check_at_calls(report, program):
    """Whether there is a compiler for the attacks."""
    with tempfile.TemporaryDirectory() as room:
        attacker = shim.built("attack", room)
        if attacker is None:
            return False
        for name, path, opening, is_at_read, command, wanted in AT_CALLS:
            with tempfile.TemporaryDirectory() as folder:
                made(folder)
                got = attacked(program, attacker, folder, path, opening, is_at_read, command)
            report.see_run("at a call: " + name, got[:2] == wanted and SECRET not in got[2], got)
        whole = snapshot_text(sorted(BELOW.items()))
        for name, path, opening, command, wanted in ON_THE_WAY:
            with tempfile.TemporaryDirectory() as folder:
                made(folder, BELOW)
                got = attacked(program, attacker, folder, path, opening, False, command)
            good = got[:2] == wanted and SECRET not in got[2] and (wanted[0] != 0 or got[2] == whole)
            report.see_run("on the way: " + name, good, got)
    return True


def swap_file(count):
    """Swaps a file for a link to another and back, for ever; count[0] says how often."""
    os.link("tree/a", "kept")
    while True:
        os.symlink("../other/a", "link")
        os.rename("link", "tree/a")
        os.link("kept", "again")
        os.rename("again", "tree/a")
        count[0] = count[0] + 1


def swap_folder(count):
    """Does the same with a folder."""
    while True:
        os.rename("tree/d", "kept")
        os.symlink("../other/d", "tree/d")
        os.unlink("tree/d")
        os.rename("kept", "tree/d")
        count[0] = count[0] + 1


def swapping(folder, swap):
    """Starts a process that swaps. Its number, and its count of swaps."""
    count = memoryview(mmap.mmap(-1, 8)).cast("Q")
    child = os.fork()
    if child == 0:
        try:
            os.chdir(folder)
            swap(count)
        finally:
            os._exit(1)
    return child, count


def is_running(child):
    """Whether a process hasn't come to its end; it is still to be waited for."""
    return os.waitid(os.P_PID, child, os.WEXITED | os.WNOHANG | os.WNOWAIT) is None


def check_races(report, program):
    """Snapshots of a folder in which another process swaps: whatever comes of them, no other file is in them."""
    for name, swap in (("file", swap_file), ("folder", swap_folder)):
        wrong, ends = [], {}
        with tempfile.TemporaryDirectory() as folder:
            made(folder)
            child, count = swapping(folder, swap)
            words = ["snapshot", "--folder", "tree", "--output", "output"]
            while (sum(ends.values()) < RACES or count[0] < SWAPS) and is_running(child):
                got = run(program, words, folder)[:2]
                text = contents(folder, "output")
                ends[got[0]] = ends.get(got[0], 0) + 1
                if got[0] not in (0, 4, 6) or SECRET in text or (got[0] == 0 and text not in (WHOLE, OTHERS)):
                    wrong.append((*got, text))
            os.kill(child, signal.SIGKILL)
            os.waitpid(child, 0)
        good = not wrong and count[0] >= SWAPS and sum(ends.values()) >= RACES
        report.see("a race: a %s is swapped" % name, good, (len(wrong), wrong[:1], ends))


def check_unknown_lengths(report, program):
    """Files that tell of no bytes and have some, and one that tells of more than it may have."""
    with tempfile.TemporaryDirectory() as folder:
        words = ["snapshot", "--output", "output", "--folder", "/proc/sys/kernel/random"]
        got = (*run(program, words, folder)[:2], contents(folder, "output"))
        report.see_run("a length of 0 with bytes", got == (*ends(b"folder: Changed boot_id"), first_files([])), got)
        status, lines, _ = run(program, [*words, "--skip"], folder)
        first, *_, last = lines.splitlines() or [b""]
        got = status, first, last[:16], contents(folder, "output")
        wanted = 0, b"haboob: folder: Changed boot_id", b"haboob: skipped ", snapshot_text([])
        report.see_run("the same, skipped", got == wanted, got)
        made(folder)
        os.truncate(os.path.join(folder, "tree", "a"), 1 << 40)
        got = (*run(program, [*words[:-1], "tree"], folder)[:2], contents(folder, "output"))
        report.see_run("a sparse file of a TiB", got == (*ends(b"folder: Size a"), first_files([])), got)


REPLAY = ["replay", *GOOD, "--settings", "settings"]
EXPLAIN = ["explain", *GOOD[:4], "--messages", "replies", "--settings", "settings"]
CLASHES = [
    # what standard output is, the words, the line; each file keeps its bytes
    ("replies", ["replay", *GOOD], b"haboob: open: replies\n"),
    ("twin of replies", ["replay", *GOOD], b"haboob: open: replies\n"),
    ("snapshot", ["replay", *GOOD], b"haboob: open: report\n"),
    ("capture", ["replay", *GOOD], b"haboob: open: report\n"),
    ("settings", REPLAY, b"haboob: open: report\n"),
    ("snapshot", ["replay", *GOOD[:4], "--replies", "new"], b"haboob: open: report\n"),
    ("replies", EXPLAIN, b"haboob: open: messages\n"),
    ("capture", EXPLAIN, b"haboob: open: report\n"),
    ("settings", EXPLAIN, b"haboob: open: report\n"),
    ("capture", ["inspect", "--capture", "capture"], b"haboob: open: report\n"),
    ("settings", ["settings", "--settings", "settings"], b"haboob: open: report\n"),
    ("first", [], b"haboob: open: replies\n"),
]


def clash(program, folder, name, words):
    """Status and line of a run with this file as standard output, and the files that it changed."""
    files = {**FILES, "replies": OLD, "first": FIRST_RUN}
    put(folder, files)
    os.link(os.path.join(folder, "replies"), os.path.join(folder, "twin of replies"))
    with open(os.path.join(folder, name), "ab") as out, open(os.path.join(folder, "first"), "rb") as given:
        status, line, _ = run(program, words, folder, stdin=given, stdout=out)
    changed = [one for one, data in files.items() if contents(folder, one) != data]
    changed += ["new"] * os.path.exists(os.path.join(folder, "new"))
    return status, without_words(line), changed


def check_clashes(report, program):
    for name, words, line in CLASHES:
        with tempfile.TemporaryDirectory() as folder:
            got = clash(program, folder, name, words)
        report.see_run("%s into %s" % (" ".join(words[:1]), name), got == (6, line, []), got)
    with tempfile.TemporaryDirectory() as folder:
        got = clash(program, folder, "other", ["replay", *GOOD])
        texts = contents(folder, "replies"), contents(folder, "other")
    good = got == (0, b"", ["replies"]) and texts == (OPEN_REPLIES, OPEN_REPORT)
    report.see_run("replay into another file", good, (*got, texts))


LOCKED = [
    (["replay", *GOOD], "replies", b"haboob: open: replies\n"),
    (EXPLAIN, "replies", b"haboob: open: messages\n"),
    (["upgrade", "--capture", "capture", "--output", "output"], "output", b"haboob: open: output\n"),
    (["slim", "--capture", "capture", "--output", "output"], "output", b"haboob: open: output\n"),
    (["snapshot", "--folder", "tree", "--output", "output"], "output", b"haboob: open: output\n"),
]


def has_open(process, path):
    """Whether a process has opened a file."""
    opened = "/proc/%d/fd" % process.pid
    return any(os.path.realpath(os.path.join(opened, number)) == path for number in os.listdir(opened))


def second_run(program, folder):
    """What comes of a replay into the output of one that still reads its capture, a pipe; and of that one."""
    os.mkfifo(os.path.join(folder, "pipe"))
    replies = os.path.join(os.path.realpath(folder), "replies")
    words = ["replay", *GOOD]
    first = subprocess.Popen([program, *words[:4], "pipe", *words[5:]], cwd=folder, stdin=subprocess.DEVNULL,
                             stdout=subprocess.PIPE, stderr=subprocess.PIPE)
    with open(os.path.join(folder, "pipe"), "wb") as pipe:
        while first.poll() is None and not has_open(first, replies):
            time.sleep(0.01)
        time.sleep(0.1)  # it locks its output once it has opened it
        status, error, _ = run(program, words, folder)
        pipe.write(FILES["capture"])
    text, line = first.communicate(timeout=SECONDS)
    return (status, without_words(error)), (first.returncode, line, text, contents(replies))


def check_locked(report, program):
    """An output that another run writes keeps its bytes."""
    for words, name, line in LOCKED:
        with tempfile.TemporaryDirectory() as folder:
            shell(program, folder, "cp output replies")
            with open(os.path.join(folder, name), "rb") as held:
                fcntl.flock(held, fcntl.LOCK_EX)
                status, error, _ = run(program, words, folder)
            got = status, without_words(error), contents(folder, name)
        report.see_run("an output that is locked: " + words[0], got == (6, line, OLD), got)
    with tempfile.TemporaryDirectory() as folder:
        shell(program, folder, "cp output replies")
        got = second_run(program, folder)
    wanted = (6, b"haboob: open: replies\n"), (0, b"", OPEN_REPORT, OPEN_REPLIES)
    report.see_run("two replays into one file", got == wanted, (*got[0], got[1]))


def shell(program, folder, command):
    """The status of a shell's command in a folder with the files of a replay and a tree; `$haboob` is the program."""
    put(folder, {**FILES, "output": OLD})
    made(folder)
    inherited = {"stdin": None, "stdout": None, "stderr": None}
    return run("sh", ["-c", command], folder, env={**os.environ, "haboob": program}, **inherited)[0]


# A command with standard devices closed or full, and then the status and what stands in the file `output`.
DEPTH = b"haboob: settings: Range policy.depth\n"
REPLAY_TO = '"$haboob" replay --snapshot snapshot --capture capture --replies output '
SNAPSHOT_TO = 'ln -s z tree/y; "$haboob" snapshot --folder tree --output output --skip '
DEVICES = [
    ("no standard output", REPLAY_TO + ">&-", 6, OPEN_REPLIES),
    ("no standard device", REPLAY_TO + "<&- >&- 2>&-", 6, OPEN_REPLIES),
    ("no standard input and output", REPLAY_TO + "<&- >&-", 6, OPEN_REPLIES),
    ("no standard error, a fault", REPLAY_TO + "--settings depth 2>&-", 3, OLD),
    ("no standard error, a count", SNAPSHOT_TO + "2>&-", 0, WHOLE),
    ("no standard device, a count", SNAPSHOT_TO + "<&- >&- 2>&-", 0, WHOLE),
    ("a full standard error, a count", SNAPSHOT_TO + "2>/dev/full", 0, WHOLE),
    ("standard error into the output", REPLAY_TO + "--settings depth 2>>output", 3, OLD + DEPTH),
]


def check_devices(report, program):
    for name, command, status, wanted in DEVICES:
        with tempfile.TemporaryDirectory() as folder:
            got = shell(program, folder, "{ " + command + "; } 2>/dev/null" if "2>" not in command else command)
            text = without_words(contents(folder, "output"))
        report.see("devices: " + name, (got, text) == (status, wanted), (got, text))


def check_limit(report, program):
    """A limit of a file's size: its signal ends the program; where that is ignored, a write fails."""
    for name, is_default, wanted in (("the signal", True, (-signal.SIGXFSZ, b"")),
                                     ("ignored", False, (6, b"haboob: write: replies\n"))):
        with tempfile.TemporaryDirectory() as folder:
            shell(program, folder, "true")
            # Python ignores the signal, and a process that it starts does so unless it is asked for the default.
            status, line, _ = run(program, ["replay", *GOOD], folder, restore_signals=is_default,
                                  preexec_fn=limit(resource.RLIMIT_FSIZE, LIMIT))
            got = status, line, contents(folder, "replies")
        report.see_run("a limit of file size: " + name, got == (*wanted, OPEN_REPLIES[:LIMIT]), got)


# From the fewest open files with which a program is loaded to more than the program has at once.
OPEN_FILES = range(4, 16)
NONE_LEFT_OUT = 0, b"haboob: skipped 0\n", WHOLE


def is_cut(got):
    """Whether a run says that a folder or the output couldn't be opened, and wrote no more than a beginning."""
    status, line, text = got
    is_reported = line in (b"haboob: open: folder\n", b"haboob: open: output\n")
    return status == 6 and is_reported and (text == OLD or text != WHOLE and WHOLE.startswith(text))


def check_descriptors(report, program):
    """Where no further file can be opened that is a fault, and none is left out for it."""
    every = []
    for most in OPEN_FILES:
        with tempfile.TemporaryDirectory() as folder:
            shell(program, folder, "true")
            status, error, _ = run(program, ["snapshot", "--folder", "tree", "--output", "output", "--skip"], folder,
                                  preexec_fn=limit(resource.RLIMIT_NOFILE, most))
            every.append((status, without_words(error), contents(folder, "output")))
        report.see_run("%d open files" % most, every[-1] == NONE_LEFT_OUT or is_cut(every[-1]), every[-1])
    reading = [got for got in every if is_cut(got) and got[2] != OLD]
    report.see("open files: a fault at the listing, at a file", is_cut(every[0]) and reading, every)
    report.see("open files: enough", every[-1] == NONE_LEFT_OUT, every[-1])


# Requests one after another, each on a connection of its own.
REQUESTS = 1500
SINGLY = b"[floor]\nbatch = 1\n[policy]\ndepth = 1000000\nrate = 1000000000\nrate_max = 1000000000\n"
TURNS, MOST_TIMES = 3, 4


def capture_from(first):
    """A capture of requests on connections from this number on."""
    return recording_text([(tick, first + tick, REQUEST) for tick in range(REQUESTS)], TWO)


def processor_seconds(program, folder, capture):
    """The status of a staged replay by batches of one piece, and its processor time, which load doesn't change much."""
    before = resource.getrusage(resource.RUSAGE_CHILDREN)
    words = ["replay", "--snapshot", "snapshot", "--capture", capture, "--replies", "/dev/null", "--settings", "singly",
             "--engine", "staged"]
    status = run(program, words, folder, SECONDS * 3)[0]
    after = resource.getrusage(resource.RUSAGE_CHILDREN)
    return status, after.ru_utime + after.ru_stime - before.ru_utime - before.ru_stime


def check_high_numbers(report, program):
    """Queues of connections that sent nothing cost a batch nothing: by turns, with low and with the highest numbers."""
    took = {"low": [], "high": []}
    with tempfile.TemporaryDirectory() as folder:
        put(folder, {"snapshot": SNAPSHOT, "singly": SINGLY, "low": capture_from(0),
                     "high": capture_from(65536 - REQUESTS)})
        for name in ("low", "high") * TURNS:
            if all(status == 0 for runs in took.values() for status, _ in runs):
                took[name].append(processor_seconds(program, folder, name))
    statuses = {status for runs in took.values() for status, _ in runs}
    low, high = (min(seconds for _, seconds in runs) for runs in took.values())
    report.see("high connection numbers, batches of one", statuses == {0} and high <= MOST_TIMES * low, took)


# Connections that come one after another, and how many bytes each number may cost for good.
LIVES, MOST_LEFT = 65_535, 80


def peak_of(program, folder, capture, engine):
    """The status of a replay, and the most memory that it had, in bytes."""
    words = ["replay", "--snapshot", "snapshot", "--capture", capture, "--replies", "/dev/null", "--engine", engine]
    (status, *_), peak = run_measured(program, words, folder, SECONDS * 6)
    return status, peak


def lives_of(step):
    """A traffic text of connections one after another, each with a request, on numbers that rise by this step."""
    numbers = [step * place for place in range(LIVES)]
    return recording_text([record for number in numbers for record in ((0, number, REQUEST), (0, number))], TRAFFIC)


def check_ended_numbers(report, program):
    """A number whose connection has ended costs next to nothing: many numbers, and as often the same one."""
    with tempfile.TemporaryDirectory() as folder:
        put(folder, {"snapshot": SNAPSHOT, "many": lives_of(1), "one": lives_of(0)})
        for engine in ("plain", "staged"):
            got = [peak_of(program, folder, name, engine) for name in ("many", "one")]
            (first, many), (second, one) = got
            good = first == second == 0 and many <= one + MOST_LEFT * LIVES + 2**19
            report.see("numbers of ended connections, " + engine, good, got, "%d and %d bytes" % (many, one))


# Two file systems of the user's own, each with a file of the same inode number.
TWO_DISKS = """
mkdir one two && mount -t tmpfs none one && mount -t tmpfs none two || exit 99
cp capture one/capture && cp output two/replies || exit 99
test "$(stat -c %i one/capture)" = "$(stat -c %i two/replies)" || exit 98
"$haboob" replay --snapshot snapshot --capture one/capture --replies two/replies >report || exit
cat two/replies report >output
"""


def mount_words():
    """The words before a command that mounts file systems of its own: as root, else as the root of a namespace of
    users; none where neither is allowed."""
    as_user = ["unshare", "--user", "--map-root-user", "--mount"]
    ways = [(as_user, "mount -t tmpfs none /mnt")]
    if os.geteuid() == 0:
        ways.insert(0, (["unshare", "--mount"], "true"))
    for words, probe in ways if shutil.which("unshare") else ():
        if subprocess.run([*words, "sh", "-c", probe], stderr=subprocess.DEVNULL, timeout=SECONDS).returncode == 0:
            return words
    return None


def run_mounted(program, folder, words, inside):
    """The status of a shell's command with file systems of its own."""
    return shell(program, folder, "%s sh -c %s" % (shlex.join(words), shlex.quote(inside)))


def check_equal_numbers(report, program, words):
    """Files of equal inode numbers on two file systems are two files."""
    name = "equal inode numbers on two file systems"
    with tempfile.TemporaryDirectory() as folder:
        got = run_mounted(program, folder, words, TWO_DISKS)
        text = contents(folder, "output")
    if got == 98:
        report.leave(name, "the system numbers the files of all file systems of memory together")
        return
    report.see(name, (got, text) == (0, OPEN_REPLIES + OPEN_REPORT), (got, text))


def check_without_proc(report, program, words):
    """Without /proc a folder is refused, and nothing is written."""
    inside = 'mount -t tmpfs none /proc || exit 99; "$haboob" snapshot --folder tree --output output --skip 2>line'
    with tempfile.TemporaryDirectory() as folder:
        got = run_mounted(program, folder, words, inside)
        texts = [contents(path) for path in (os.path.join(folder, name) for name in ("line", "output"))
                 if os.path.exists(path)]
    report.see("without /proc", (got, *texts) == (6, b"haboob: open: folder\n", OLD), (got, texts))


def main():
    program, report = program_of(__doc__), Report()
    check_between(report, program)
    if not check_at_calls(report, program):
        report.leave("attacks at a call", "no C compiler")
    check_races(report, program)
    check_unknown_lengths(report, program)
    check_clashes(report, program)
    check_locked(report, program)
    check_devices(report, program)
    check_limit(report, program)
    check_descriptors(report, program)
    check_high_numbers(report, program)
    check_ended_numbers(report, program)
    words = mount_words()
    for name, check in (("equal inode numbers", check_equal_numbers), ("without /proc", check_without_proc)):
        if words:
            check(report, program, words)
        else:
            report.leave(name, "no file systems can be mounted")
    return report.end()


if __name__ == "__main__":
    sys.exit(main())
