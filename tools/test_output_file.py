#!/usr/bin/python3
"""Tests of output_file.py, tool_run.py and command_line.py, which all tools use: what stands after a fault, a full
disk, Ctrl-C and a kill, and what is said of wrong words and of a library that is missing.

    python3 tools/test_output_file.py
"""
import ast
import os
import pathlib
import resource
import signal
import stat
import subprocess
import sys
import tempfile
import time
import unittest

TOOLS = os.path.dirname(os.path.abspath(__file__))
sys.path.insert(0, TOOLS)
from haboob_tools import output_file

# A tool that writes 100,000 bytes, says so, and waits until its standard input ends; then it goes on as it is told.
TOOL = """
import sys
sys.path.insert(0, %r)
from haboob_tools import output_file, tool_run
def work():
    with output_file.replacing(sys.argv[1]) as file:
        file.write(b"new" * 33333)
        file.flush()
        print("written", flush=True)
        sys.stdin.read()
        if sys.argv[2:] == ["fault"]:
            raise tool_run.Fault("line 7: broken")
sys.exit(tool_run.run("tool", work))
""" % TOOLS

# Tools that are asked to end while they write, and the Nth of them once more before the Nth line that it runs from then
# on, up to one that runs no such line. Of each it says the status, and what is in the folder then.
ASKED_TWICE = """
import itertools, mmap, os, sys
sys.path.insert(0, %r)
from haboob_tools import output_file, tool_run
path, asked, again = sys.argv[1], *map(int, sys.argv[2:])
is_twice = mmap.mmap(-1, 1)
def before_line(frame, event, value):
    global left
    left -= event == "line"
    if left == 0:
        is_twice[0] = 1
        os.kill(os.getpid(), again)
    return before_line
def work():
    with output_file.replacing(path) as file:
        file.write(b"new" * 33333)
        sys.settrace(before_line)
        os.kill(os.getpid(), asked)
        sys.stdin.read()
for left in itertools.count(1):
    is_twice[0] = 0
    child = os.fork()
    if not child:
        sys.exit(tool_run.run("tool", work))
    status = os.waitstatus_to_exitcode(os.waitpid(child, 0)[1])
    print(status, *sorted(os.listdir(os.path.dirname(path))), flush=True)
    if not is_twice[0]:
        break
""" % TOOLS

# A tool that writes to the descriptors of the standard devices while its output is open.
NOISY_TOOL = """
import contextlib, os, sys
sys.path.insert(0, %r)
from haboob_tools import output_file, tool_run
def work():
    with output_file.replacing(sys.argv[1]) as file:
        for number in (0, 1, 2):
            with contextlib.suppress(OSError):
                os.write(number, b"noise")
        file.write(b"new")
sys.exit(tool_run.run("tool", work))
""" % TOOLS

# The tools, each with a module of Python's library that it reads after some others, and one with a module of Debian's.
READ_LATE = [("capture_from_log", "ipaddress"), ("capture_from_pcap", "ipaddress"), ("timeline", "tomllib"),
             ("timeline", "matplotlib.pyplot"), ("sweep", "tomllib"), ("calibrate", "ipaddress")]
# Modules that give Ctrl-C to who reads them, and once more where Python then ends in its own time.
STUB = """
import atexit, os, signal, time
atexit.register(os.kill, os.getpid(), signal.SIGINT)
os.kill(os.getpid(), signal.SIGINT)
time.sleep(9)
"""
STUB_OF_CLASS = """
class Part:
    def __set_name__(self, *_):
        %s
class Whole:
    part = Part()
""" % STUB.strip().replace("\n", "; ")
# The tools with words that are right.
RIGHT_WORDS = {
    "calibrate": ["--output", "a", "b"], "capture_from_log": ["--output", "a", "b"],
    "capture_from_pcap": ["--output", "a", "--port", "80", "b"], "timeline": ["--output", "a", "b"],
    "sweep": ["--output", "a", "--snapshot", "b", "--capture", "c", "--set", "policy.depth=1"],
}
# Libraries by the packages of Debian that have them (packages.debian.org, by file), and those that each tool can't do
# without: matplotlib and scipy need numpy.
PACKAGES = {"distributed": "python3-distributed", "dpkt": "python3-dpkt", "h11": "python3-h11",
            "matplotlib": "python3-matplotlib", "numpy": "python3-numpy", "scipy": "python3-scipy",
            "tqdm": "python3-tqdm"}
NEEDED = {
    "calibrate": {"dpkt", "h11", "matplotlib", "numpy", "scipy", "tqdm"}, "capture_from_log": {"tqdm"},
    "capture_from_pcap": {"dpkt", "h11", "tqdm"}, "timeline": {"matplotlib", "numpy", "tqdm"},
    "sweep": {"matplotlib", "numpy", "scipy", "tqdm"},
}
SEARCHING = ["--output", "a", "--snapshot", "b", "--capture", "c", "--set", "policy.depth=1..9", "--search", "10",
             "--at-most", "p99=1"]
CLUSTER = ["--cluster", "127.0.0.1:1"]
# Runs a tool that can't import a library; its first word is the library's name, and the second the tool.
HIDING = """
import runpy, sys
sys.modules[sys.argv[1]] = None
sys.argv[:2] = []
runpy.run_path(sys.argv[0], run_name="__main__")
"""


class OutputTest(unittest.TestCase):
    """Has a folder with an older output in it."""

    def setUp(self):
        folder = tempfile.TemporaryDirectory()
        self.addCleanup(folder.cleanup)
        self.folder = folder.name
        self.output = self.path("out")
        with open(self.output, "wb") as file:
            file.write(b"old")

    def path(self, name):
        return os.path.join(self.folder, name)

    def text(self, name="out"):
        with open(self.path(name), "rb") as file:
            return file.read()

    def expect(self, text, names=("out",)):
        """Expects the output's bytes, and that the folder holds these names and no more."""
        self.assertEqual((self.text(), sorted(os.listdir(self.folder))), (text, sorted(names)))


class Replacing(OutputTest):
    """output_file.replacing"""

    def test_the_older_stands_until_the_end(self):
        with output_file.replacing(self.output) as file:
            file.write(b"new" * 100000)
            file.flush()
            self.assertEqual(self.text(), b"old")
        self.expect(b"new" * 100000)

    def test_a_fault_leaves_the_older(self):
        with self.assertRaises(KeyError), output_file.replacing(self.output) as file:
            file.write(b"new" * 100000)
            raise KeyError
        self.expect(b"old")

    def test_a_fault_leaves_nothing_new(self):
        with self.assertRaises(KeyError), output_file.replacing(self.path("other")) as file:
            file.write(b"new")
            raise KeyError
        self.expect(b"old")

    def test_two_outputs_with_a_fault(self):
        with self.assertRaises(KeyError), output_file.replacing(self.path("other")) as other:
            with output_file.replacing(self.path("third")):
                other.write(b"new")
                raise KeyError
        self.expect(b"old")

    def test_links_are_followed(self):
        os.mkdir(self.path("f"))
        os.symlink("f/far", self.path("link"))  # to nothing yet
        for text in (b"one", b"two"):
            with output_file.replacing(self.path("link")) as file:
                file.write(text)
            self.assertEqual((self.text("f/far"), os.readlink(self.path("link"))), (text, "f/far"))
        self.assertEqual(os.listdir(self.path("f")), ["far"])

    def test_permissions(self):
        os.chmod(self.output, 0o640)
        before = os.umask(0o027)
        self.addCleanup(os.umask, before)
        for name in ("out", "other"):
            with output_file.replacing(self.path(name)) as file:
                file.write(b"new")
        self.assertEqual(stat.S_IMODE(os.stat(self.output).st_mode), 0o640)
        self.assertEqual(stat.S_IMODE(os.stat(self.path("other")).st_mode), 0o640)

    def test_text(self):
        with output_file.replacing_text(self.output) as file:
            file.write("gr\u00fc\u00dfe\r\n\n")
            self.assertEqual(self.text(), b"old")
        self.expect("gr\u00fc\u00dfe\r\n\n".encode())
        with self.assertRaises(KeyError), output_file.replacing_text(self.output) as file:
            file.write("x" * 100000)
            raise KeyError
        self.expect("gr\u00fc\u00dfe\r\n\n".encode())

    def test_places_that_cannot_be_written(self):
        os.symlink("loop", self.path("loop"))
        for name, reason in [("no/out", "No such file or directory"), ("", "Is a directory"),
                             ("out/x", "Not a directory"), ("loop", "Too many levels of symbolic links"),
                             ("x" * 256, "File name too long")]:
            with self.subTest(name):
                path = self.path(name)
                with self.assertRaises(OSError) as fault, output_file.replacing(path) as file:
                    file.write(b"new")
                self.assertEqual((fault.exception.filename, fault.exception.strerror), (path, reason))
        self.expect(b"old", ["out", "loop"])

    def test_a_full_device(self):
        with self.assertRaises(OSError) as fault, output_file.replacing("/dev/full") as file:
            file.write(b"new")
        self.assertEqual((fault.exception.filename, fault.exception.strerror), ("/dev/full", "No space left on device"))

    def test_a_device_and_a_pipe_are_written_at_once(self):
        os.mkfifo(self.path("pipe"))
        reader = os.open(self.path("pipe"), os.O_RDONLY | os.O_NONBLOCK)
        self.addCleanup(os.close, reader)
        for path in ("/dev/null", self.path("pipe")):
            with output_file.replacing(path) as file:
                file.write(b"new")
        self.assertEqual(os.read(reader, 10), b"new")
        self.expect(b"old", ["out", "pipe"])


class All(OutputTest):
    """output_file.replace_all"""

    def write(self, *names):
        """Writes the same to outputs of these names."""
        output_file.replace_all([(self.path(name), lambda file: file.write("new" * 33333)) for name in names])

    def test_all_take_their_places(self):
        self.write("out", "other")
        self.assertEqual((self.text("out"), self.text("other")), (b"new" * 33333,) * 2)
        self.assertEqual(sorted(os.listdir(self.folder)), ["other", "out"])

    def test_a_later_one_that_cannot_be_made(self):
        for name in ("no/other", "out/other", "x" * 256):
            with self.assertRaises(OSError):
                self.write("out", name)
            self.expect(b"old")

    def test_a_later_one_that_cannot_be_written(self):
        os.symlink("/dev/full", self.path("full"))
        for names in (["out", "full"], ["out", "full", "other"]):
            with self.assertRaises(OSError) as fault:
                self.write(*names)
            self.assertEqual(fault.exception.filename, self.path("full"))
            self.expect(b"old", ["out", "full"])

    def test_a_device_may_come_twice(self):
        os.symlink("/dev/null", self.path("null"))
        self.write("null", "out", "null")
        self.expect(b"new" * 33333, ["out", "null"])


class Same(OutputTest):
    """output_file.refuse_same"""

    def refused(self, outputs, inputs=()):
        try:
            output_file.refuse_same(outputs, inputs)
        except output_file.SameFile:
            return True
        return False

    def test_an_output_that_is_an_input(self):
        os.link(self.output, self.path("hard"))
        os.symlink("out", self.path("soft"))
        os.symlink(".", self.path("folder"))
        for name in ("out", "./out", "hard", "soft", "folder/soft"):
            self.assertTrue(self.refused([self.path(name)], ["/dev/null", self.output]), name)
            self.assertTrue(self.refused([self.output], [self.path(name)]), name)
        with open(self.path("hard"), "rb") as file:
            self.assertTrue(self.refused([self.output], [file]))
            self.assertTrue(self.refused([self.output], [file.fileno()]))
            self.assertTrue(self.refused(["/dev/fd/%d" % file.fileno()], [self.path("soft")]))

    def test_two_outputs_that_are_the_same(self):
        os.symlink("new", self.path("link"))
        self.assertTrue(self.refused([self.path("new"), self.path("./new")]))
        self.assertTrue(self.refused([self.path("new"), self.path("link")]))
        self.assertTrue(self.refused([self.output, self.output]))

    def test_what_differs(self):
        with open(self.path("other"), "wb"):
            pass
        self.assertFalse(self.refused([self.path("new"), self.path("newer"), self.output], [self.path("other")]))
        self.assertFalse(self.refused(["/dev/null", "/dev/null"], ["/dev/null"]))
        self.assertFalse(self.refused([self.output], [self.path("absent")]))


class Ends(OutputTest):
    """What stands, is said and is answered after each end of a tool."""

    def setUp(self):
        """Signals that are ignored, as in the background or below nohup, would be ignored by the tools too."""
        super().setUp()
        for asked, action in ((signal.SIGINT, signal.default_int_handler), (signal.SIGHUP, signal.SIG_DFL)):
            self.addCleanup(signal.signal, asked, signal.signal(asked, action))

    def start(self, *words, **options):
        """A tool that has written a part of its output."""
        words = [sys.executable, "-c", TOOL, self.output, *words]
        tool = subprocess.Popen(words, stdin=subprocess.PIPE, stdout=subprocess.PIPE, stderr=subprocess.PIPE, **options)
        self.addCleanup(tool.communicate)
        self.addCleanup(tool.kill)
        return tool

    def ended(self, tool):
        """Status and standard error of a tool."""
        _, said = tool.communicate(timeout=60)
        return tool.returncode, said.decode()

    def test_without_a_fault(self):
        tool = self.start()
        self.assertEqual((tool.stdout.readline(), self.text()), (b"written\n", b"old"))
        self.assertEqual(self.ended(tool), (0, ""))
        self.expect(b"new" * 33333)

    def test_a_fault(self):
        self.assertEqual(self.ended(self.start("fault")), (1, "tool: line 7: broken\n"))
        self.expect(b"old")

    def test_signals(self):
        for asked, status in [(signal.SIGINT, 130), (signal.SIGTERM, 143), (signal.SIGHUP, 129)]:
            with self.subTest(asked):
                tool = self.start()
                tool.stdout.readline()
                tool.send_signal(asked)
                self.assertEqual(self.ended(tool), (status, ""))
                self.expect(b"old")

    def test_two_signals(self):
        """Who asks a tool to end once more while it ends, before whichever line, changes nothing."""
        for asked, again in [(signal.SIGINT, signal.SIGINT), (signal.SIGTERM, signal.SIGINT)]:
            words = [sys.executable, "-c", ASKED_TWICE, self.output, str(int(asked)), str(int(again))]
            ran = subprocess.run(words, stdin=subprocess.DEVNULL, capture_output=True, timeout=60)
            self.assertEqual((ran.returncode, ran.stderr), (0, b""))
            ends = ran.stdout.decode().splitlines()
            self.assertLessEqual(set(ends), {"%d out" % (128 + asked), "%d out" % (128 + again)})
            self.assertGreater(len(ends), 20)
            self.expect(b"old")

    def test_two_signals_at_any_time(self):
        for place in range(60):
            asked, again = ((signal.SIGINT, signal.SIGINT), (signal.SIGINT, signal.SIGTERM))[place % 2]
            tool = self.start()
            tool.stdout.readline()
            os.kill(tool.pid, asked)
            time.sleep(place * 1e-5)
            os.kill(tool.pid, again)
            status, said = self.ended(tool)
            # The last where the second comes when Python itself is as good as gone; a shell tells it as the others.
            self.assertIn(status, (128 + asked, 128 + again, -again))
            self.assertEqual(said, "")
            self.expect(b"old")

    def test_a_kill(self):
        tool = self.start()
        tool.stdout.readline()
        tool.kill()
        self.assertEqual(self.ended(tool), (-signal.SIGKILL, ""))
        self.assertEqual(self.text(), b"old")

    def test_a_disk_without_room(self):
        tool = self.start(preexec_fn=lambda: resource.setrlimit(resource.RLIMIT_FSIZE, (50000, 50000)))
        self.assertEqual(self.ended(tool), (1, "tool: %s: File too large\n" % self.output))
        self.expect(b"old")

    def test_standard_output_as_a_file(self):
        with open(self.output, "r+b") as file:
            words = [sys.executable, "-c", TOOL, "/dev/stdout"]
            ran = subprocess.run(words, stdin=subprocess.DEVNULL, stdout=file, timeout=60)
        self.assertEqual((ran.returncode, self.text()[8:]), (0, (b"new" * 33333)[8:]))  # "written" stands before it
        self.assertEqual(os.listdir(self.folder), ["out"])

    def test_standard_error_that_is_closed_or_full(self):
        for place in ("2>&-", "2>/dev/full"):
            shell = '"$0" -c "$1" "$2" fault <&- %s' % place
            words = ["sh", "-c", shell.replace("<&-", "</dev/null"), sys.executable, TOOL, self.output]
            ran = subprocess.run(words, stdout=subprocess.PIPE, timeout=60)
            self.assertEqual((ran.returncode, ran.stdout), (1, b"written\n"), place)
            self.expect(b"old")

    def test_standard_devices_that_are_closed(self):
        """Nothing that is meant for one of them comes into the output."""
        for places in ("<&-", ">&-", "2>&-", "<&- >&-", "<&- >&- 2>&-"):
            words = ["sh", "-c", '"$0" -c "$1" "$2" ' + places, sys.executable, NOISY_TOOL, self.output]
            subprocess.run(words, stdin=subprocess.DEVNULL, stdout=subprocess.DEVNULL, stderr=subprocess.DEVNULL,
                           timeout=60, check=True)
            self.expect(b"new")

    def test_an_output_that_is_closed(self):
        words = ["sh", "-c", '"$0" -c "$1" /dev/stdout >&-', sys.executable, NOISY_TOOL]
        ran = subprocess.run(words, stdin=subprocess.DEVNULL, stderr=subprocess.PIPE, timeout=60)
        self.assertEqual((ran.returncode, ran.stderr), (1, b"tool: /dev/stdout: Is a directory\n"))

    def test_no_name(self):
        words = [sys.executable, "-c", TOOL, ""]
        ran = subprocess.run(words, cwd=self.folder, stdin=subprocess.DEVNULL, stderr=subprocess.PIPE, timeout=60)
        self.assertEqual((ran.returncode, ran.stderr), (1, b'tool: "": Is a directory\n'))
        self.expect(b"old")

    def test_ctrl_c_while_libraries_are_read(self):
        """Each tool ends with 130 and without a word where Ctrl-C comes while a module is read, or a class of it made.
        """
        for (tool, module), stub in [*((one, STUB) for one in READ_LATE), (READ_LATE[0], STUB_OF_CLASS)]:
            with self.subTest(tool=tool, module=module), tempfile.TemporaryDirectory() as folder:
                self.put_stub(folder, module, stub)
                ran = subprocess.run([sys.executable, os.path.join(TOOLS, tool + ".py")], capture_output=True,
                                     env={**os.environ, "PYTHONPATH": folder}, timeout=60)
                self.assertEqual((ran.returncode, ran.stdout, ran.stderr), (130, b"", b""))

    @staticmethod
    def put_stub(folder, module, stub):
        """Puts a module into a folder that gives Ctrl-C to who reads it; one around it has nothing."""
        *around, name = module.split(".")
        for part in around:
            folder = os.path.join(folder, part)
            os.mkdir(folder)
            with open(os.path.join(folder, "__init__.py"), "w", encoding="ascii") as file:
                file.write("rcParams = {}\ndef use(name): pass\n")
        with open(os.path.join(folder, name + ".py"), "w", encoding="ascii") as file:
            file.write(stub)

    def test_a_fault_is_one_line(self):
        words = [sys.executable, "-c", TOOL, self.path("a\nb\x1b\u202e/c")]
        ran = subprocess.run(words, stdin=subprocess.DEVNULL, stderr=subprocess.PIPE, timeout=60)
        self.assertEqual(ran.returncode, 1)
        self.assertTrue(ran.stderr.endswith(b"/a\\nb\\x1b\\u202e/c: No such file or directory\n"), ran.stderr)
        self.assertEqual(ran.stderr.count(b"\n"), 1)


class Libraries(OutputTest):
    """What a tool says where one of its libraries is missing."""

    def words(self, tool):
        """Words for a run with inputs that are there, as far as it gets without a program."""
        if tool == "sweep":
            return SEARCHING
        one, port = {"capture_from_log": ("nginx.log", []), "capture_from_pcap": ("loopback.pcap", ["--port", "18098"]),
                     "timeline": (self.output, []), "calibrate": ("nginx.log", [])}[tool]
        return [*port, "--output", self.path("new"), os.path.join(TOOLS, "data", one)]

    def said(self, library, tool, words, place=None):
        """Status and standard error of a tool that can't import a library, and what its folder then holds."""
        words = [sys.executable, "-c", HIDING, library, place or os.path.join(TOOLS, tool + ".py"), *words]
        ran = subprocess.run(words, cwd=self.folder, stdin=subprocess.DEVNULL, capture_output=True, timeout=60,
                             env={**os.environ, "PYTHONPATH": TOOLS})
        return ran.returncode, ran.stderr.decode(), sorted(os.listdir(self.folder))

    def told(self, tool, library):
        return 2, "%s: needs %s: apt-get install %s\n" % (tool, library, PACKAGES[library]), ["out"]

    def test_each_that_is_needed(self):
        """The line has the name of the tool, whichever of its modules needs the library; nothing was written."""
        for tool, needed in NEEDED.items():
            for library in sorted(needed):
                with self.subTest(tool=tool, library=library):
                    self.assertEqual(self.said(library, tool, self.words(tool)), self.told(tool, library))

    def test_each_that_is_not_needed(self):
        """A tool goes as far without one as with all."""
        for tool, needed in NEEDED.items():
            with_all = self.said("no_library", tool, self.words(tool))[:2]
            for library in sorted(PACKAGES.keys() - needed):
                with self.subTest(tool=tool, library=library):
                    self.assertEqual(self.said(library, tool, self.words(tool))[:2], with_all)

    def test_one_that_an_option_needs(self):
        status, said, _ = self.said("distributed", "sweep", [*RIGHT_WORDS["sweep"], *CLUSTER])
        self.assertEqual((status, said), (
            2, "sweep: --cluster needs distributed: apt-get install python3-distributed\n"))

    def test_by_a_link(self):
        """As the package has its commands."""
        link = self.path("haboob-timeline")
        os.symlink(os.path.join(TOOLS, "timeline.py"), link)
        self.assertEqual(self.said("matplotlib", "timeline", self.words("timeline"), link)[:2],
                         self.told("timeline", "matplotlib")[:2])

    def test_that_these_are_all(self):
        """What the tools and their modules import is of Python, of theirs, or among these."""
        imported = set()
        for path in [*pathlib.Path(TOOLS, "haboob_tools").glob("*.py"),
                     *(pathlib.Path(TOOLS, name + ".py") for name in NEEDED)]:
            for node in ast.walk(ast.parse(path.read_text(encoding="utf-8"))):
                imported |= {name.partition(".")[0] for name in imports_of(node)}
        # Python has `compression` from 3.14 on.
        self.assertEqual(imported - sys.stdlib_module_names - {"compression", "haboob_tools"}, PACKAGES.keys())


def imports_of(node):
    """The names that a node of a program imports: by `import`, or by tool_run.library."""
    if isinstance(node, ast.Import):
        return [one.name for one in node.names]
    if isinstance(node, ast.ImportFrom):
        return [] if node.level else [node.module]
    if isinstance(node, ast.Call) and ast.unparse(node.func).rpartition(".")[2] == "library":
        return [one.value for one in node.args if isinstance(one, ast.Constant)]
    return []


class Words(unittest.TestCase):
    """What each tool says of wrong words, and where it is asked for help"""

    def ran(self, tool, words, place=""):
        """Status, standard output and standard error of a tool, with a shell's place for one of these."""
        words = ["sh", "-c", '"$0" "$@" ' + place, sys.executable, os.path.join(TOOLS, tool + ".py"), *words]
        ran = subprocess.run(words, stdin=subprocess.DEVNULL, capture_output=True, timeout=60)
        return ran.returncode, ran.stdout, ran.stderr

    def test_wrong_words(self):
        """Usage, and status 2, also where standard error is closed or full; with control characters as escapes."""
        for tool, words in RIGHT_WORDS.items():
            with self.subTest(tool):
                status, said, errors = self.ran(tool, [*words, "--\x1b[31m\u202e\n=x"])
                self.assertEqual((status, said, errors[:6]), (2, b"", b"usage:"))
                self.assertEqual(errors.splitlines()[-1].partition(b".py: ")[2],
                                 b"error: unrecognized arguments: --\\x1b[31m\\u202e\\n=x")
                for place in ("2>&-", "2>/dev/full"):
                    self.assertEqual(self.ran(tool, ["--wrong"], place), (2, b"", b""))

    def test_help(self):
        for tool in RIGHT_WORDS:
            with self.subTest(tool):
                status, said, errors = self.ran(tool, ["--help"])
                self.assertEqual((status, said[:6], errors), (0, b"usage:", b""))
                for place, reason in ((">/dev/full", b"standard output: No space left on device"),
                                      (">&-", b"standard output is closed")):
                    self.assertEqual(self.ran(tool, ["--help"], place), (1, b"", b"%b: %b\n" % (tool.encode(), reason)))


if __name__ == "__main__":
    unittest.main()
