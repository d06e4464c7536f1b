#!/usr/bin/python3
"""Tests of sweep.py, with a stub in the place of the program.

    /usr/bin/python3 tools/test_sweep.py

Where the program is built, small sweeps are made with it too; where python3-distributed is installed, one by a
scheduler and two workers.
"""
import contextlib
import csv
import importlib.util
import io
import json
import math
import os
import pathlib
import random
import re
import signal
import subprocess
import sys
import tempfile
import time
import tomllib
import unittest
import unittest.mock
import warnings

TOOLS = pathlib.Path(__file__).resolve().parent
TOP = TOOLS.parent
PROGRAM = TOP / "crates" / "haboob" / "out" / "haboob"
EXAMPLES = TOP / "examples"
sys.path.insert(0, str(TOOLS))
import test_timeline as tables_of_timeline
from haboob_tools import (decision_tables, pages, response_delays, server_lines, settings_documents, spreadsheets,
                          sweep, sweep_figures, sweep_page, sweep_search, tool_run)

SECONDS = 60  # that a test waits at most
MUTATIONS = int(os.environ.get("MUTATIONS", 25))  # damaged files that are tried
HEADING = "number,connection,tick,tier,status,decision,service,credit,rate,start,finish,waited,method,target\n"
# All but number 2 are offered. Admitted are number 0, from 1,000 to 1,300; number 1, which comes at 1,100, is begun at
# 1,300 and ends at 1,500, after 400; and number 5, from 5,000 to 5,200. So the server is busy for 300 + 200 + 200 of
# the 4,200 ticks from 1,000 to 5,200. Number 3 is turned away while it is busy, 4 and 6 while it is idle.
ROWS = (
    "0,0,1000,0,200,admitted,300,2000000000,1000,1000,1300,0,GET,/a\n"
    "1,1,1100,0,200,admitted,200,1000000000,1000,1300,1500,200,GET,/b\n"
    "2,2,1150,0,400,bypassed,,,,,,,,\n"
    "3,1,1200,0,503,rejected,200,0,1000,,,300,GET,/b\n"
    "4,1,4000,1,503,rejected,200,0,1000,,,0,GET,/b\n"
    "5,1,5000,0,200,admitted,200,1000000000,1000,5000,5200,0,GET,/b\n"
    "6,1,9000,0,503,rejected,200,0,1000,,,0,GET,/b\n"
)
REPORT = (
    "haboob-report 1\nmessages 7\nbypassed 1\nadmitted {0}\nrejected {1}\nstatus 200 3\np50 300\np90 400\np99 {2}\n"
    "controls 0\nreject 3\nreject 4\nreject 6\nend\n"
)
# What the stub reports for a rate and a depth: admitted, rejected, p99. Nothing beats rows 3, 4 and 6.
ANSWERS = {
    "10 1": (3, 7, 500), "10 2": (4, 6, 500), "10 3": (6, 4, 400),
    "20 1": (8, 2, 900), "20 2": (7, 3, 950), "20 3": (8, 2, 900),
}
# Of tier 0 three are admitted, two are turned away, one of them while the server is idle; of tier 1 one is, while it is
# idle. Most inside: number 1 comes while number 0 is served.
HEADING_OF_TABLE = (
    "policy.rate,policy.depth,admitted,rejected,rejected_while_idle,p50,p90,p99,greatest,busy_share,unbeaten,chosen,"
    "turned_away,most_inside,row,capture,"
    "tier0.admitted,tier0.turned_away,tier0.rejected,tier0.rejected_while_idle,tier0.p50,tier0.p90,tier0.p99,"
    "tier0.greatest,tier1.admitted,tier1.turned_away,tier1.rejected,tier1.rejected_while_idle,tier1.p50,tier1.p90,"
    "tier1.p99,tier1.greatest,fault,settings\n")
TIERS = "3,40.0,2,1,300,400,400,400,0,100.0,1,1,,,,"
TABLE = HEADING_OF_TABLE + """\
10,1,3,7,2,300,400,500,400,0.166667,0,0,70.0000,2,1,capture,TIERS,,
10,2,4,6,2,300,400,500,400,0.166667,0,0,60.0000,2,2,capture,TIERS,,
10,3,6,4,2,300,400,400,400,0.166667,1,0,40.0000,2,3,capture,TIERS,,
20,1,8,2,2,300,400,900,400,0.166667,1,0,20.0000,2,4,capture,TIERS,,
20,2,7,3,2,300,400,950,400,0.166667,0,0,30.0000,2,5,capture,TIERS,,
20,3,8,2,2,300,400,900,400,0.166667,1,0,20.0000,2,6,capture,TIERS,,
""".replace("TIERS", TIERS)
# The keys of the stub.
DEFAULTS = """\
[floor]
front_cuts = [1, 2, 3]

[costs]
kib = 10
servers = 1
delay = 0

[policy]
every = 100
rate = 1000000
rate_min = 50000
rate_max = 5000000
depth = 100

[tier1]
every = 100
rate = 1000000
rate_min = 50000
rate_max = 5000000
depth = 100
"""
GRID = ("--set", "policy.rate=10,20", "--set", "policy.depth=1,2,3")
NO_PROGRAM = "no-such: no such program; put it on the PATH, or name it with --program"
STUB = """\
#!/usr/bin/python3
import json, os, sys, time, tomllib
if sys.argv[1] == "settings":
    sys.stdout.write('''DEFAULTS''')
    sys.exit(0)
words = dict(zip(sys.argv[2::2], sys.argv[3::2]))
folder = os.path.dirname(os.path.realpath(__file__))
with open(words["--settings"], "rb") as file:
    policy = tomllib.load(file)["policy"]
with open(os.path.join(folder, "calls"), "a") as file:
    file.write("%d %d %d %d\\n" % (policy["rate"], policy["depth"], os.getppid(), os.getpid()))
with open(os.path.join(folder, "plan")) as file:
    plan = json.load(file)
with open(words["--snapshot"]) as snapshot, open(words["--capture"]) as capture:
    status, line = plan["inputs"].get(snapshot.read() + capture.read(), (0, ""))
time.sleep(plan["seconds"] if policy["rate"] == 20 else 0)
answer = plan["answers"].get("%d %d" % (policy["rate"], policy["depth"]))
if answer is None:
    status, line = 3, "haboob: settings: Range policy.rate"
if status != 3:
    with open(words["--messages"], "w") as file:
        file.write(plan["table"])
if status == 0:
    sys.stdout.write(plan["report"].format(*answer))
sys.stderr.write(line and line + "\\n")
sys.exit(status)
""".replace("DEFAULTS", DEFAULTS)


class Folder:
    """A folder with the stub as haboob, and a snapshot and a capture."""

    def __init__(self, path):
        self.path = pathlib.Path(path)
        self.path.mkdir(exist_ok=True)
        self.program = self.path / "haboob"
        self.program.write_text(STUB)
        self.program.chmod(0o755)
        self.snapshot, self.capture, self.settings = (self.path / name for name in ("snapshot", "capture", "settings"))
        self.snapshot.write_text("snapshot ")
        self.capture.write_text("capture")
        self.plan()

    def plan(self, **changes):
        """What the stub does."""
        faults = {"snapshot broken": (5, "haboob: capture: record 9: Kind"),
                  "snapshot a log\n": (5, "haboob: capture: record 0: Header")}
        plan = {"table": HEADING + ROWS, "report": REPORT, "answers": ANSWERS, "inputs": faults, "seconds": 0}
        (self.path / "plan").write_text(json.dumps({**plan, **changes}))

    def calls(self):
        """The words of the lines that the stub wrote, sorted: rate, depth, the process that began it, its own."""
        try:
            return sorted(line.split() for line in (self.path / "calls").read_text().splitlines())
        except FileNotFoundError:
            return []

    def words(self, *words, grid=GRID):
        """The words of a sweep into the folder `swept`."""
        return ["--snapshot", str(self.snapshot), "--capture", str(self.capture), "--output", str(self.path / "swept"),
                "--program", str(self.program), *grid, *words]

    def table(self):
        """The table of the sweep, without the names of the settings."""
        text = (self.path / "swept" / "sweep.csv").read_text().replace(str(self.path) + "/", "")
        return re.sub(r"settings/[0-9a-f]{16}[.]toml$", "", text, flags=re.MULTILINE)

    def page(self):
        return (self.path / "swept" / "sweep.html").read_text()


def swept(words):
    """The status and the lines of a sweep."""
    return swept_and_said(words)[:2]


def swept_and_said(words):
    """The status and the lines of a sweep, and what it printed."""
    errors, output = io.StringIO(), io.StringIO()
    with contextlib.redirect_stderr(errors), contextlib.redirect_stdout(output):
        try:
            status = sweep.main(words)
        except SystemExit as end:
            status = end.code
    return status, errors.getvalue(), output.getvalue()


def wait_for(condition):
    """What a condition gives once it holds."""
    end = time.monotonic() + SECONDS
    while not (value := condition()):
        if time.monotonic() > end:
            raise TimeoutError
        time.sleep(0.01)
    return value


class Base(unittest.TestCase):
    """A test with a folder. The page, which takes most of the time, is drawn where the test asks for it."""

    def setUp(self):
        folder = tempfile.TemporaryDirectory()
        self.addCleanup(folder.cleanup)
        self.folder = Folder(folder.name)
        # On a busy machine there would be lines of progress.
        quiet = unittest.mock.patch.object(tool_run, "PROGRESS_STEP", float("inf"))
        quiet.start()
        self.addCleanup(quiet.stop)
        undrawn = unittest.mock.patch.object(sweep_page, "page_of", lambda *_: "")
        undrawn.start()
        self.addCleanup(undrawn.stop)
        self.draw = undrawn.stop

    def check(self, words, status, line):
        """A sweep that ends with a line. (Wrong words are told after the usage.)"""
        ended, errors = swept(words)
        last = errors.splitlines()[-1].replace(str(self.folder.path) + "/", "")
        self.assertEqual((ended, last), (status, line))


def result_of(admitted, rejected, p99, **others):
    """A result of a run, as the tool keeps it."""
    return {"admitted": admitted, "rejected": rejected, "rejected_while_idle": 0, "p50": p99, "p90": p99, "p99": p99,
            "greatest": p99, "most_inside": 1, "busy": 1, "span": 2, "servers": 1, "tiers": {}, "pools": {}, **others}


class Figures(unittest.TestCase):
    def figures(self, rows, report=REPORT.format(3, 3, 400), tables={}):
        tally = decision_tables.tally_of(io.BytesIO((HEADING + rows).encode()), response_delays.Delays(tables))
        return {**decision_tables.report_figures(io.StringIO(report)), **tally.figures()}

    def test_rows(self):
        self.assertEqual(self.figures(ROWS), {
            "admitted": 3, "rejected": 3, "p50": 300, "p90": 400, "p99": 400, "rejected_while_idle": 2, "greatest": 400,
            "most_inside": 2, "busy": 700, "span": 4200, "asked": 3, "missing": 0, "tiers": {
                "0": {"admitted": 3, "rejected": 2, "rejected_while_idle": 1, "p50": 300, "p90": 400, "p99": 400,
                      "greatest": 400},
                "1": {"admitted": 0, "rejected": 1, "rejected_while_idle": 1, "p50": None, "p90": None, "p99": None,
                      "greatest": None}}})

    def test_no_request(self):
        report = REPORT.format(0, 0, "-").replace("300", "-").replace("p90 400", "p90 -")
        self.assertEqual(self.figures("0,0,1150,0,400,bypassed,,,,,,,,\n", report), {
            "admitted": 0, "rejected": 0, "p50": None, "p90": None, "p99": None, "rejected_while_idle": 0,
            "greatest": None, "most_inside": 0, "busy": 0, "span": 0, "asked": 0, "missing": 0, "tiers": {}})

    def test_a_report_with_the_last_controls_alone(self):
        some = "controls 1002\ncontrol 3 1000 200 190 1000\ncontrol 4 2000 200 190 900\ntier 1 3 1 9\n"
        report = REPORT.format(3, 3, 400).replace("controls 0\n", some + "control 7 3000 200 190 10\n")
        self.assertEqual(self.figures(ROWS, report), self.figures(ROWS))

    def test_cut(self):
        for report in ("", "haboob-report 1\n", REPORT[:-4].format(1, 1, 1), "haboob-report 1\nadmitted 1\nend\n"):
            with self.subTest(report), self.assertRaisesRegex(decision_tables.Fault, "the report isn't whole"):
                self.figures(ROWS, report)
        with self.assertRaisesRegex(decision_tables.Fault, "row 2: not as many fields"):
            self.figures("0,0,1000,0,200\n")
        with self.assertRaisesRegex(decision_tables.Fault, "no table"):
            decision_tables.tally_of(io.BytesIO(REPORT.encode()), response_delays.Delays({}))

    def test_delays(self):
        """The example of docs/RULES.md, "Routes", whose samples are 2004, 4004 and 4058; and one that comes at 2,003,
        when the first is served and its response, up to 2,004, isn't complete. It is served from 4,051 to 4,101, and
        its response is complete at 4,108: after 2,105. The server works from 0 to 4,101 all the time."""
        rows = ("0,0,0,0,200,admitted,2001,100000000000,1000000,0,2001,0,GET,/a.txt\n"
                "1,1,0,0,405,admitted,2000,99000000000,1000000,2001,4001,2001,POST,/a.txt\n"
                "2,2,0,1,404,admitted,50,98000000000,1000000,4001,4051,4001,GET,/none\n"
                "3,3,2003,1,404,admitted,50,98000000000,1000000,4051,4101,2048,GET,/none\n")
        route = {"prefix": "/a.txt", "cost": 2000, "kib": 100, "delay": 3}
        figures = self.figures(rows, tables={"costs": {"delay": 7}, "route": [route]})
        self.assertEqual([figures[name] for name in ("greatest", "most_inside", "busy", "span")], [4058, 4, 4101, 4101])
        of_tiers = [[tier[name] for name in ("p50", "p90", "p99", "greatest")] for tier in figures["tiers"].values()]
        self.assertEqual(of_tiers, [[2004, 4004, 4004, 4004], [2105, 4058, 4058, 4058]])


    def test_pools(self):
        """The requests of tests/pools.toml: pool 0 works for 2 * 50, and one of its requests waits for 49."""
        tally = decision_tables.tally_of(io.BytesIO(tables_of_timeline.POOLS.encode()), response_delays.Delays({}))
        figures = tally.figures()
        self.assertEqual(figures["pools"], {
            "0": {"busy": 100, "most_waiting": 1, "longest_wait": 49},
            "1": {"busy": 2000, "most_waiting": 1, "longest_wait": 999},
            "2": {"busy": 20, "most_waiting": 0, "longest_wait": 0}})
        self.assertEqual((figures["busy"], figures["span"]), (2120, 2000))


class Delays(unittest.TestCase):
    """The delay of a request's route, by its target as the table of decisions has it: a percent sign is %25."""

    def test_routes(self):
        routes = (("/api/v2", 1), ("/api/", 2), ("/a b", 3), ("/\u00e9", 4), ("/%", 5), ("/none", None), ("/", 9))
        delays = response_delays.Delays({"costs": {"delay": 7}, "route": [
            {"prefix": prefix, "cost": 1} | ({} if delay is None else {"delay": delay}) for prefix, delay in routes]})
        for delay, targets in (
                (1, ("/api/v2", "/./api//v2/x", "/api/v2?x")),
                (2, ("/api", "/api/", "/api/v2x", "/%2561pi", "/x/../api", "/api?x=/../b", "http://h/api")),
                (3, ("/a%2520b", "/a%20b")), (4, ("/%25c3%25A9/x", "/%C3%A9")), (5, ("/%2525",)),
                (9, ("/", "/apis", "/x%3By", "HTTP://h", "http://h?/api", "/api/..")),
                # A route without a delay of its own; and targets without a path, which are on no route.
                (7, ("/none", "/x%25", "/%25zz/api", "/%25FF", "/%2500", "/api%252Fv2", "/..", "/api/../../api",
                     "/api#", "/api?#", "http:///api", "https://h/api", "*", "", "?/api", "h:443", "%3D/api"))):
            for target in targets:
                with self.subTest(target):
                    self.assertEqual(delays.of(target), delay)

    def test_one_for_all(self):
        """No target is read where all delays are one."""
        with unittest.mock.patch.object(response_delays, "segments_of", None):
            for tables, delay in (({}, 0), ({"costs": {"kib": 1}, "route": [{"prefix": "/a", "cost": 1}]}, 0),
                                  ({"costs": {"delay": 5}, "route": [{"prefix": "/a", "cost": 1, "delay": 5}]}, 5)):
                self.assertEqual(response_delays.Delays(tables).of("/a"), delay)


class Documents(unittest.TestCase):
    def test_document(self):
        base = {"policy": {"rate": 5, "every": 7}, "floor": {"front_cuts": [1, 3]}}
        document = settings_documents.text_of(
            settings_documents.with_values(base, ("policy.rate", "tier1.depth"), (9, 2)))
        self.assertEqual(
            document, "[floor]\nfront_cuts = [1, 3]\n\n[policy]\nevery = 7\nrate = 9\n\n[tier1]\ndepth = 2\n")
        self.assertEqual(base["policy"]["rate"], 5)

    def test_routes(self):
        text = b'[[route]]\nprefix = "/\\"\\u007f"\ncost = 1\n\n[[route]]\nprefix = "/"\ncost = 2\n'
        document = settings_documents.text_of(
            settings_documents.with_values(settings_documents.parsed(text, "a"), ("costs.file",), (9,)))
        self.assertEqual(document, '[costs]\nfile = 9\n\n[[route]]\ncost = 1\nprefix = "/\\"\\u007f"\n\n'
                         '[[route]]\ncost = 2\nprefix = "/"\n')
        for text in ("route = 1", "route = [1]", "[[route]]\ncost = 1.5\n", "pool = 1", "[[pool]]\nservers = [1]\n"):
            with self.subTest(text), self.assertRaises(settings_documents.Fault):
                settings_documents.parsed(text.encode(), "a")

    def test_pools(self):
        """By their names; one that no route names any more isn't there."""
        base = settings_documents.parsed(tables_of_timeline.OF_POOLS.encode(), "a")
        self.assertEqual(settings_documents.servers_of(base), [1, 1, 2])
        changed = settings_documents.with_values(base, ("pool.<fast>.servers", "route./slow/.pool"), (7, "<fast>"))
        self.assertEqual(settings_documents.text_of(changed), '[[pool]]\nname = "<fast>"\nservers = 7\n\n' + "\n".join(
            '[[route]]\ncost = %d\npool = "<fast>"\nprefix = "/%s"\n' % one for one in ((1000, "slow"), (10, "fast"))))
        text = settings_documents.text_of(settings_documents.with_values(base, ("costs.servers",), (3,)))
        self.assertEqual(text.partition("[[route]]")[0], '[costs]\nservers = 3\n\n[[pool]]\nname = "slow"\n'
                         'servers = 1\n\n[[pool]]\nname = "<fast>"\nservers = 2\n\n')

    def test_fixed_rate(self):
        self.assertEqual(settings_documents.text_of(settings_documents.with_values({}, ("policy.fixed_rate",), (9,))),
                         "[policy]\nrate = 9\nrate_max = 9\nrate_min = 9\n")

    def test_unbeaten(self):
        figures = [(1, 50), (2, 40), (2, 41), (3, 40), (4, 39), (4, 39), (0, None)]
        combinations = [sweep_figures.Combination(row, (), "", [result_of(10 - rejected, rejected, p99)])
                        for row, (rejected, p99) in enumerate(figures, 1)]
        combinations.append(sweep_figures.Combination(8, (), "", [{"fault": "refused"}]))
        self.assertEqual([combination.row for combination in sweep_figures.unbeaten_of(combinations)], [1, 2, 5, 6])
        self.assertEqual(sweep_figures.unbeaten_of(combinations[6:]), [])


class Sweep(Base):
    def test_table(self):
        status, errors = swept(self.folder.words("--jobs", "3"))
        self.assertEqual((status, self.folder.table()), (0, TABLE))
        self.assertEqual(errors, "sweep: 6 combinations, 0 of them taken from before\nsweep: 3 unbeaten; see %s\n" % (
            self.folder.path / "swept" / "sweep.html"))
        self.assertEqual([call[:2] for call in self.folder.calls()], [key.split() for key in ANSWERS])

    def test_documents(self):
        self.folder.settings.write_text("[policy]\ndepth = 9  # of no run\nevery = 20\n[costs]\nkib = 3\n")
        swept(self.folder.words("--settings", str(self.folder.settings)))
        with open(self.folder.path / "swept" / "sweep.csv") as file:
            names = [row["settings"] for row in csv.DictReader(file)]
        documents = [tomllib.loads((self.folder.path / "swept" / name).read_text()) for name in names]
        self.assertEqual(documents, [
            {"policy": {"depth": depth, "every": 20, "rate": rate}, "costs": {"kib": 3}}
            for rate in (10, 20) for depth in (1, 2, 3)])

    def test_page(self):
        self.draw()
        swept(self.folder.words())
        page = self.folder.page()
        self.assertEqual(page.count("<svg"), 3)
        self.assertIn("6 combinations, 3 unbeaten, 0 refused", page)
        rows = [re.findall("<td>(.*?)</td>", line) for line in page[:page.index("By tier")].splitlines()
                if line.startswith("<tr><td>")]
        self.assertRegex(rows[0][0], '^<a href="settings/[0-9a-f]{16}[.]toml">4</a>$')
        self.assertEqual([[re.sub("<.*?>", "", cell) for cell in row] for row in rows], [
            ["4", "0.02", "1", "20.00", "0.300", "0.400", "0.900", "0.400", "2", "2", "16.7"],
            ["6", "0.02", "3", "20.00", "0.300", "0.400", "0.900", "0.400", "2", "2", "16.7"],
            ["3", "0.01", "3", "40.00", "0.300", "0.400", "0.400", "0.400", "2", "2", "16.7"]])
        self.assertIn("<th>policy.<wbr>rate, requests a second</th>", page)
        self.assertIn(">4, 6</text>", page)  # a label in the picture
        self.assertNotIn("src=", page)
        self.assertIsNone(re.search('(href|url)="?[(]?https?:', page))

    def test_strange_snapshot(self):
        """Nine in ten of the requests that look for a file find none: a POST (405) looks for none."""
        def row(number, status):
            return "%d,0,%d,0,%d,admitted,10,0,1000,%d,%d,0,GET,/a\n" % (number, number, status, number, number + 10)
        self.draw()
        sound = [404] * 8 + [200, 304]
        strange = [404] * 9 + [301, 405]
        for statuses, words in ((sound, ""), ([404] * 9, ""), (strange, "of 10 requests for files 9 ask")):
            self.folder.plan(table=HEADING + "".join(map(row, range(len(statuses)), statuses)))
            self.folder.capture.write_text("capture %r" % statuses)
            status, errors = swept(self.folder.words())
            self.assertEqual(status, 0)
            for text in (errors, self.folder.page()):
                self.assertEqual("WARNING" in text, bool(words))
                self.assertIn(words, text)

    def test_refused(self):
        self.draw()
        status, errors = swept(self.folder.words(grid=("--set", "policy.depth=3", "--set", "policy.rate=10,99,20")))
        self.assertEqual(status, 0)
        self.assertIn("1 refused (the first: haboob: settings: Range policy.rate)", errors)
        self.assertEqual(self.folder.table().splitlines()[1:], [
            "3,10,6,4,2,300,400,400,400,0.166667,1,0,40.0000,2,1,capture,%s,," % TIERS,
            "3,99,,,,,,,,,0,0,,,2,capture,,,,,,,,,,,,,,,,,haboob: settings: Range policy.rate,",
            "3,20,8,2,2,300,400,900,400,0.166667,1,0,20.0000,2,3,capture,%s,," % TIERS])
        self.assertEqual(self.folder.page().count("<svg"), 2)
        self.assertIn("<td>haboob: settings: Range policy.rate</td>", self.folder.page())

    def test_all_refused(self):
        """Nothing can be shown: the first fault, and older outputs stay; so where something is to be chosen, too."""
        swept(self.folder.words())
        self.draw()
        grid = ("--set", "policy.rate=98,99", "--set", "policy.depth=1")
        ranges = ("--search", "10", "--set", "policy.rate=98..99", "--set", "policy.depth=1..9")
        with warnings.catch_warnings():
            warnings.simplefilter("error")
            for words in (grid, (*grid, "--at-most", "p99=400"), (*ranges, "--at-most", "p99=400")):
                self.check(self.folder.words(grid=words), 1, "sweep: every combination is refused (the first: "
                           "haboob: settings: Range policy.rate)")
        self.assertEqual(self.folder.table(), TABLE)

    def test_servers(self):
        """The servers work for 700 of the 4,200 ticks, together: a sixth of one's time, a twelfth of two's, and so on.
        The settings say how many there are, and a key of the grid in their place."""
        grid, rest = ("--set", "policy.rate=20", "--set", "policy.depth=3"), ",2,300,400,900,400,"
        self.folder.settings.write_text("[costs]\nservers = 3\n")
        for words, shares in (((), ["0.166667"]), (("--settings", str(self.folder.settings)), ["0.055556"]),
                              (("--set", "costs.servers=1,2,4"), ["0.166667", "0.083333", "0.041667"]),
                              (("--settings", str(self.folder.settings), "--set", "costs.servers=1,2,4"),
                               ["0.166667", "0.083333", "0.041667"])):
            status, errors = swept(self.folder.words(*words, grid=grid))
            self.assertEqual(status, 0, errors)
            rows = self.folder.table().splitlines()[1:]
            self.assertEqual([row.partition(rest)[2][:8] for row in rows], shares, words)

    def test_pools(self):
        """The requests of tests/pools.toml, on one server of no pool, one of `slow` and two or four of `<fast>`: within
        2,000 ticks these work for 100, 2,000 and 20. Of several values each has its own document."""
        self.draw()
        self.folder.plan(table=tables_of_timeline.POOLS)
        self.folder.settings.write_text(tables_of_timeline.OF_POOLS)
        grid = ("--set", "policy.rate=20", "--set", "policy.depth=3", "--set", "pool.<fast>.servers=2,4")
        words = self.folder.words("--settings", str(self.folder.settings), grid=grid)
        status, errors = swept(words)
        self.assertEqual(status, 0, errors)
        with open(self.folder.path / "swept" / "sweep.csv") as file:
            rows = list(csv.DictReader(file))
        names = ["%s.%s" % (pool, name) for pool in ("costs", "pool.<fast>", "pool.slow")
                 for name in ("busy_share", "most_waiting", "longest_wait")]
        self.assertEqual(list(rows[0])[-11:], [*names, "fault", "settings"])
        self.assertEqual([[row[name] for name in ("busy_share", *names)] for row in rows], [
            "0.265000 0.050000 1 49 0.005000 0 0 1.000000 1 999".split(),
            "0.176667 0.050000 1 49 0.002500 0 0 1.000000 1 999".split()])
        documents = [tomllib.loads((self.folder.path / "swept" / row["settings"]).read_text()) for row in rows]
        self.assertEqual([[pool["servers"] for pool in document["pool"]] for document in documents], [[1, 2], [1, 4]])
        page = self.folder.page()
        self.assertIn("<th>longest wait, ms</th></tr>\n", page)
        self.assertIn("<td>2</td><td>pool.<wbr>slow</td><td>100.0</td><td>1</td><td>0.999</td></tr>\n", page)
        self.assertIn("sweep: WARNING: row 1 keeps the server of pool.slow busy for 100% of its time: above 90% a",
                      swept([*words, "--at-most", "p99=900"])[1])
        # By the name of the pool; that which no route names then isn't in the settings.
        grid = (*grid[:4], "--set", "route./slow.pool=slow,<fast>")
        status, errors = swept(self.folder.words("--settings", str(self.folder.settings), grid=grid))
        self.assertEqual(status, 0, errors)
        with open(self.folder.path / "swept" / "sweep.csv") as file:
            paths = [self.folder.path / "swept" / row["settings"] for row in csv.DictReader(file)]
        self.assertEqual([[pool["name"] for pool in tomllib.loads(path.read_text())["pool"]] for path in paths],
                         [["slow", "<fast>"], ["<fast>"]])

    def test_delays(self):
        """A delay is in all times that the table tells; the report's are the stub's. With 4,000 the responses to
        numbers 0 and 1 are complete at 5,300 and 5,500: number 5, which comes at 5,000, is the third inside. A route
        has the delay of /b, of numbers 1 and 5."""
        grid = ("--set", "policy.rate=20", "--set", "policy.depth=3", "--set", "costs.delay=0,1000,4000")
        names = ("p99", "greatest", "busy_share", "most_inside", "tier0.p50", "tier0.p99")

        def rows(*words):
            status, errors = swept(self.folder.words(*words, grid=grid))
            self.assertEqual(status, 0, errors)
            with open(self.folder.path / "swept" / "sweep.csv") as file:
                table = list(csv.DictReader(file))
            return [[row[name] for name in names] for row in table], [row["chosen"] for row in table]

        self.assertEqual(rows("--at-most", "tier0.p99=1400")[0], [
            ["900", "400", "0.166667", "2", "300", "400"], ["900", "1400", "0.166667", "2", "1300", "1400"],
            ["900", "4400", "0.166667", "3", "4300", "4400"]])
        self.folder.settings.write_text("[[route]]\nprefix = '/b'\ncost = 1\ndelay = 9\n")
        found, chosen = rows("--settings", str(self.folder.settings), "--at-most", "tier0.p99=1300",
                             "--at-most", "tier0.p50=409", "--at-most", "greatest=1299")
        self.assertEqual([row[1:] for row in found], [  # 300, 409 and 209; 1300, 409, 209; 4300, 409, 209
            ["409", "0.166667", "2", "300", "409"], ["1300", "0.166667", "2", "409", "1300"],
            ["4300", "0.166667", "2", "409", "4300"]])
        self.assertEqual(chosen, ["1", "0", "0"])

    def test_no_request(self):
        self.draw()
        report = REPORT.replace("300", "-").replace("p90 400", "p90 -")
        self.folder.plan(table=HEADING, report=report, answers={"10 1": (0, 0, "-")})
        status, _ = swept(self.folder.words(grid=("--set", "policy.rate=10", "--set", "policy.depth=1")))
        self.assertEqual((status, self.folder.table().splitlines()[1]), (0, "10,1,0,0,0,,,,,,0,0,0.0000,0,1,capture,,"))

    def test_taken_from_before(self):
        def runs(*words, grid=GRID):
            before = len(self.folder.calls())
            self.assertEqual(swept(self.folder.words(*words, grid=grid))[0], 0)
            return len(self.folder.calls()) - before

        self.assertEqual([runs(), runs(), runs(grid=GRID[2:] + GRID[:2])], [6, 0, 0])
        self.assertEqual(runs(grid=(*GRID[:3], "policy.depth=3,4")), 2)
        self.folder.settings.write_text("[costs]\nkib = 3\n")
        self.assertEqual(runs("--settings", str(self.folder.settings)), 6)
        self.folder.settings.write_text("[costs] # the same\nkib = 3\n")
        self.assertEqual(runs("--settings", str(self.folder.settings)), 0)
        for path in (self.folder.capture, self.folder.snapshot, self.folder.program):
            text = path.read_text()
            path.write_text(text + "# changed\n")
            self.assertEqual([runs(), runs()], [6, 0], path)
            path.write_text(text)
            self.assertEqual(runs(), 0, path)

    def test_progress(self):
        """Lines where standard error is no terminal, also while each run takes long."""
        self.folder.plan(seconds=0.5)
        with unittest.mock.patch.multiple(tool_run, PROGRESS_STEP=0.1, WAITING_STEP=0.1):
            _, errors = swept(self.folder.words(grid=("--set", "policy.rate=20", "--set", "policy.depth=1")))
        self.assertGreater(len(re.findall(r"^sweep: 0% .*\[\d\d:\d\d<.*run/s\]$", errors, re.MULTILINE)), 2, errors)

    def test_broken_result(self):
        swept(self.folder.words())
        path = sorted((self.folder.path / "swept" / "results").iterdir())[0]
        path.write_text(path.read_text()[:-3])
        _, errors = swept(self.folder.words())
        self.assertIn("6 combinations, 5 of them taken from before", errors)
        self.assertEqual(self.folder.table(), TABLE)


class Choice(Base):
    """The answers of the stub: row 3 turns 40% away with a p99 of 400, 4 and 6 20% with 900, row 5 30% with 950."""

    def chosen(self, *words, grid=GRID):
        """What a sweep with limits prints, and the rows of its table that are marked as chosen."""
        status, errors, output = swept_and_said(self.folder.words(*words, grid=grid))
        self.assertEqual(status, 0, errors)
        with open(self.folder.path / "swept" / "sweep.csv") as file:
            return output, [row["row"] for row in csv.DictReader(file) if row["chosen"] == "1"]

    def test_at_most(self):
        for words, row in ((("p99=900",), "4"), (("p99=899",), "3"), (("p99=5000", "turned_away=25"), "4"),
                           (("tier0.p99=400",), "4"), (("busy_share=0.5",), "4"), (("most_inside=2", "p99=400"), "3")):
            with self.subTest(words):
                limits = [word for limit in words for word in ("--at-most", limit)]
                self.assertEqual(self.chosen(*limits)[1], [row])

    def test_of_servers(self):
        """The least number of servers that are busy for no more than a tenth of their time."""
        grid = ("--set", "policy.rate=20", "--set", "policy.depth=3", "--set", "costs.servers=1,2,4")
        output, rows = self.chosen("--at-most", "busy_share=0.1", grid=grid)
        self.assertEqual(rows, ["2"])
        self.assertIn("policy.depth 3, costs.servers 2: 20.00% turned away, busy_share 0.083, p99 0.900 ms\n", output)

    def test_heading(self):
        """It tells the figures by which the row was chosen: those of a tier, where these have a limit."""
        for words, line in ((("p99=900",), "20.00% turned away, p99 0.900 ms"),
                            (("tier0.p99=400",), "20.00% turned away, tier0.p99 0.400 ms"),
                            (("tier0.p99=400", "p99=400"), "40.00% turned away, tier0.p99 0.400 ms, p99 0.400 ms"),
                            (("turned_away=25",), "20.00% turned away, p99 0.900 ms"),
                            (("tier1.turned_away=100",), "20.00% turned away, tier1.turned_away 100.00%, p99 0.900 ms"),
                            (("most_inside=2",), "20.00% turned away, most_inside 2, p99 0.900 ms")):
            with self.subTest(words):
                output, _ = self.chosen(*(word for limit in words for word in ("--at-most", limit)))
                self.assertIn(": %s\n" % line, output)

    def test_none_within(self):
        self.check(self.folder.words("--at-most", "p99=399"), 1,
                   "sweep: no combination is within p99=399: the least p99 is 400")
        self.check(self.folder.words("--at-most", "tier1.p99=10"), 1,
                   "sweep: no combination is within tier1.p99=10: nothing was answered")
        self.assertTrue((self.folder.path / "swept" / "sweep.csv").exists())

    def test_printed(self):
        output, _ = self.chosen("--at-most", "p99=400")
        self.assertIn("# row 3: policy.rate, requests a second 0.01, policy.depth 3: 40.00% turned away, "
                      "p99 0.400 ms\n", output)
        self.assertIn("[policy]\ndepth = 3\nrate = 10\n", output)
        self.assertIn("# tier 0: a controller moves the rate from 50 to 5000 requests a second.", output)

    def test_fixed_rate(self):
        """The word that sets three keys alike; the stub knows the answer for a rate of 20 and a depth of 3."""
        output, _ = self.chosen("--at-most", "p99=900", grid=(
            "--set", "policy.fixed_rate=20", "--set", "policy.depth=3"))
        self.assertIn("[policy]\ndepth = 3\nrate = 20\nrate_max = 20\nrate_min = 20\n", output)
        self.assertIn("rate=1r/m;", output)
        self.assertNotIn("a controller moves the rate from 0.02", output)

    def test_rates_a_second(self):
        self.folder.plan(answers={"20000 3": (8, 2, 900)})
        output, _ = self.chosen("--at-most", "p99=900", grid=("--set", "policy.rate=20/s", "--set", "policy.depth=3"))
        self.assertIn("policy.rate, requests a second 20,", output)
        self.check(self.folder.words("--set", "costs.kib=3/s"), 2,
                   "tools/sweep.py: error: argument --set: costs.kib: '3/s': it is no rate")

    def test_marked(self):
        self.draw()
        self.chosen("--at-most", "p99=400")
        page = self.folder.page()
        self.assertEqual(len(re.findall('<tr class="chosen"><td>(?:<a [^>]*>)?3<', page)), 3)  # and that of either tier
        self.assertIn("chosen: row 3", page)
        self.assertIn("p99 at most 0.4 ms", page)

    def test_words(self):
        for text in ("p98=5", "p99", "p99=", "p99=-1", "p99=1e9", "admitted=4", "tier4.p99=1", "tier1.busy_share=1"):
            with self.subTest(text):
                status, errors = swept(self.folder.words("--at-most", text))
                self.assertEqual(status, 2)
                self.assertIn("is no FIGURE=N; FIGURE is one of turned_away, rejected", errors)


class Captures(Base):
    """Several captures, of which the worst figure counts."""

    def setUp(self):
        super().setUp()
        self.weekend = self.folder.path / "weekend"
        self.weekend.write_text("weekend")
        stub = self.folder.program.read_text()
        # On the weekend twice as many are turned away, and all are answered in half the time.
        self.folder.program.write_text(stub.replace(
            "status, line = plan[", "weekend, status_and_line = 'weekend' in words['--capture'], plan[").replace(
            'get(snapshot.read() + capture.read(), (0, ""))',
            'get("", (0, ""))\nstatus, line = status_and_line').replace(
            "if status == 0:",
            "if weekend and answer: answer = (answer[0], 2 * answer[1], answer[2] // 2)\nif status == 0:"))

    def test_worst(self):
        status, errors = swept(self.folder.words("--capture", str(self.weekend), "--at-most", "p99=450"))
        self.assertEqual(status, 0, errors)
        rows = [line.split(",") for line in self.folder.table().splitlines()]
        self.assertEqual(len(rows), 1 + 3 * 6)
        places = [rows[0].index(name) for name in ("admitted", "rejected", "p99", "turned_away", "row", "capture",
                                                   "chosen")]
        third = [[row[place] for place in places] for row in rows if row[places[4]] == "3"]
        # 4 of 10 and 8 of 14 are turned away: 57.1429% is the worst.
        self.assertEqual(third, [["6", "8", "400", "57.1429", "3", "worst", "1"],
                                 ["6", "4", "400", "40.0000", "3", "capture", "1"],
                                 ["6", "8", "200", "57.1429", "3", "weekend", "1"]])

    def test_page(self):
        self.draw()
        swept(self.folder.words("--capture", str(self.weekend)))
        page = self.folder.page()
        cells = ["<td>%s</td>" % cell for cell in ("worst", self.weekend.name, self.folder.capture.name)]
        for cell in ("<th>capture</th>", *cells):
            self.assertIn(cell, page)


class Equal(Base):
    def test_any(self):
        """A key whose values all give the same: it is `any`, and another key, of which only some do, is not."""
        answers = {"10 1": (3, 7, 500), "10 2": (3, 7, 500), "20 1": (8, 2, 900), "20 2": (9, 1, 900)}
        self.folder.plan(answers=answers)
        grid = ("--set", "policy.rate=10,20", "--set", "policy.depth=1,2")
        status, errors = swept(self.folder.words(grid=grid))
        self.assertEqual(status, 0, errors)
        rows = [line.split(",")[:4] for line in self.folder.table().splitlines()[1:]]
        self.assertEqual(rows, [["10", "any", "3", "7"], ["20", "1", "8", "2"], ["20", "2", "9", "1"]])

    def test_all_equal(self):
        self.folder.plan(answers={"%d %d" % (rate, depth): (3, 7, 500) for rate in (10, 20) for depth in (1, 2)})
        self.draw()
        swept(self.folder.words(grid=("--set", "policy.rate=10,20", "--set", "policy.depth=1,2")))
        self.assertEqual([line.split(",")[:3] for line in self.folder.table().splitlines()[1:]], [["any", "any", "3"]])
        self.assertIn("3 give the same as another, and share its row", self.folder.page())


class Search(Base):
    def searched(self, runs, limit=700):
        """The rows of a search in a landscape of our own: a rate of r turns |r - 300| / 10 percent away and has a p99
        of depth; so within p99 <= 700 the best is a rate of 300 with any depth up to 700."""
        def answer(point):
            rate, depth = point
            rejected = min(1000, abs(rate - 300))
            return sweep_figures.Combination(0, point, str(point), [result_of(1000 - rejected, rejected, depth)])

        limits = [sweep.limit("p99=%d" % limit)]
        asked = []

        def run(points):
            asked.append(points)
            return [answer(point) for point in points]

        found = sweep_search.search([(10, 1000), (1, 10_000)], runs, run,
                                    lambda one: sweep_figures.cost(one.figures, limits))
        return found, asked, sweep_figures.chosen_of(sweep_figures.rows_of(found, [(), ()], False), limits)

    def test_bounded(self):
        for runs in (10, 37, 120):
            found, asked, _ = self.searched(runs)
            self.assertLessEqual(len(found), runs)
            self.assertEqual(sum(map(len, asked)), len(found))
            self.assertEqual(len({one.values for one in found}), len(found))

    def test_finds(self):
        _, _, chosen = self.searched(120)
        self.assertLess(abs(chosen.values[0] - 300), 30)
        self.assertLessEqual(chosen.values[1], 700)

    def test_same(self):
        self.assertEqual([one.values for one in self.searched(60)[0]], [one.values for one in self.searched(60)[0]])

    def test_command(self):
        answers = {"%d %d" % (rate, depth): (10, rate, 10 * depth) for rate in range(1, 6) for depth in range(1, 6)}
        self.folder.plan(answers=answers)
        words = self.folder.words("--search", "12", "--at-most", "p99=30", grid=(
            "--set", "policy.rate=1..5", "--set", "policy.depth=1..5"))
        status, errors, output = swept_and_said(words)
        self.assertEqual(status, 0, errors)
        self.assertLessEqual(len(self.folder.calls()), 12)
        first = self.folder.table()
        before = len(self.folder.calls())
        self.assertEqual(swept_and_said(words)[2], output)  # all taken from before
        self.assertEqual((len(self.folder.calls()), self.folder.table()), (before, first))

    def test_words(self):
        for words, line in (
            (("--search", "20"), "argument --set: policy.rate: --search needs a range, LEAST..GREATEST"),
            (("--set", "costs.kib=1..5"), "argument --set: costs.kib: a range needs --search"),
        ):
            self.check(self.folder.words(*words), 2, "tools/sweep.py: error: " + line)
        ranges = ("--set", "policy.rate=1..5")
        self.check(self.folder.words("--search", "20", grid=ranges), 2,
                   "tools/sweep.py: error: argument --search: needs --at-most, which says what is looked for")
        self.check(self.folder.words("--search", "9", "--at-most", "p99=1", grid=ranges), 2,
                   "tools/sweep.py: error: argument --search: from 10 to 100000")
        self.check(self.folder.words("--set", "costs.kib=5..1"), 2,
                   "tools/sweep.py: error: argument --set: costs.kib: the range falls")


class Lines(unittest.TestCase):
    """Lines for servers, worked by hand."""

    def lines(self, rate, depth, **others):
        policy = settings_documents.Policy(rate, others.get("least", rate), others.get("most", rate), depth)
        return "\n".join(server_lines.lines_of({0: policy}))

    def test_nginx(self):
        text = self.lines(500_000, 30)
        self.assertIn("limit_req_zone all zone=tier0:1m rate=500r/s;\n", text)
        self.assertIn("limit_req zone=tier0 burst=29 nodelay;\n", text)
        self.assertNotIn("controller", text)
        self.assertIn("rate=30r/m;\n", self.lines(500, 2))
        self.assertIn("rate=6017r/m;  # the nearest below", self.lines(100_299, 2))  # 6,017.94 a minute
        self.assertIn("limit_req zone=tier0 nodelay;", self.lines(500_000, 1))

    def test_envoy(self):
        self.assertIn("{ max_tokens: 30, tokens_per_fill: 25, fill_interval: 0.050s }\n", self.lines(500_000, 30))
        # 526 a second: 263 in half a second is the first whole number of tokens.
        self.assertIn("{ max_tokens: 1, tokens_per_fill: 263, fill_interval: 0.500s }\n", self.lines(526_000, 1))

    def test_haproxy(self):
        # 30 tokens come back within 60 milliseconds.
        self.assertIn("gpc0_rate(60ms)\n", self.lines(500_000, 30))
        self.assertIn("{ sc_gpc0_rate(0) ge 30 }\n", self.lines(500_000, 30))

    def test_controller(self):
        text = self.lines(1_000_000, 100, least=50_000, most=5_000_000)
        self.assertIn("# tier 0: a controller moves the rate from 50 to 5000 requests a second.", text)

    def test_tiers(self):
        policies = {tier: settings_documents.Policy(1000, 1000, 1000, 2) for tier in (0, 2)}
        text = "\n".join(server_lines.lines_of(policies))
        self.assertIn("limit_req_zone $tier2 zone=tier2:1m rate=1r/s;\n", text)
        self.assertIn("limit_req zone=tier0 burst=1 nodelay;\nlimit_req zone=tier2 burst=1 nodelay;\n", text)

    def test_policy_of_tier(self):
        defaults = {"policy": {"rate": 1, "rate_min": 2, "rate_max": 3, "depth": 4}}
        tables = {"policy": {"rate": 5, "depth": 6}, "tier1": {"depth": 7}}
        self.assertEqual(settings_documents.policy_of(1, tables, defaults), (5, 2, 3, 7))


class Axes(unittest.TestCase):
    def test_times(self):
        """Equal ratios of times are equal distances, with labels that people count in."""
        figure, axes = sweep_page.pyplot.subplots()
        self.addCleanup(sweep_page.pyplot.close, figure)
        sweep_page.set_time_axis(axes, [0.4, 20.0, 200.0])
        places = [axes.transData.transform((0, time))[1] for time in (1, 10, 100)]
        self.assertAlmostEqual(places[1] - places[0], places[2] - places[1])
        least, greatest = axes.get_ylim()
        self.assertTrue(least < 0.4 and greatest > 200)
        labels = [axes.yaxis.get_major_formatter()(mark) for mark in axes.get_yticks() if least <= mark <= greatest]
        self.assertEqual(labels, ["0.5", "1", "2", "5", "10", "20", "50", "100", "200"])


class Labels(unittest.TestCase):
    def test_apart(self):
        """No label covers another, or a mark; of points at one place not all have one."""
        figure, axes = pages.pyplot.subplots(figsize=(6.4, 4.6), dpi=72)
        axes.set_xlim(0, 10)
        axes.set_ylim(0, 10)
        points = {(5 + 0.01 * place, 5 - 0.01 * place): str(100 + place) for place in range(30)}
        points.update({(0.0, 9.0): "200", (9.9, 0.1): "201"})
        sweep_page.add_labels(axes, points, [(list(points), 5), ([], 3)])
        texts = {text.get_text(): text.get_window_extent() for text in axes.texts}
        marks = [axes.transData.transform(point) for point in points]
        self.assertGreaterEqual(len(texts), 6)
        self.assertLess(len(texts), len(points))
        self.assertLessEqual({"200", "201"}, set(texts))
        for name, box in texts.items():
            self.assertFalse(any(box.overlaps(other) for one, other in texts.items() if one != name), name)
            self.assertFalse(any(box.contains(*mark) for mark in marks), name)
            self.assertGreaterEqual(box.x0, axes.bbox.x0, name)
        pages.pyplot.close(figure)


class Cells(unittest.TestCase):
    def test_formulas(self):
        self.assertEqual([spreadsheets.cell(text)
                          for text in ("=1+1", "+a", "-a", "@a", "\ta", "\ra", "a=", "", -1, None)],
                         ["'=1+1", "'+a", "'-a", "'@a", "'\ta", "'\ra", "a=", "", -1, None])
        # The same signs as full-width ones, which spreadsheets in East Asia take for them too.
        for sign in ("\N{FULLWIDTH EQUALS SIGN}", "\N{FULLWIDTH PLUS SIGN}", "\N{FULLWIDTH HYPHEN-MINUS}",
                     "\N{FULLWIDTH COMMERCIAL AT}"):
            self.assertEqual([spreadsheets.cell(sign + "1"), spreadsheets.cell("1" + sign)],
                             ["'%s1" % sign, "1" + sign])


class Damaged(Base):
    def test_results(self):
        """Damaged results are made anew, whatever they hold."""
        swept(self.folder.words())
        paths = sorted((self.folder.path / "swept" / "results").iterdir())
        sound = json.loads(paths[0].read_text())
        texts = [b"", b"{}", b"[" * 100_000, b"\xff\xfe", b"null", b'"a"', b"9" * 5000, json.dumps(
            {**sound, "p99": "many"}).encode(), json.dumps({**sound, "tiers": {"7": {}}}).encode(), json.dumps(
            {**sound, "tiers": {"0": {"p99": []}}}).encode(), *(
                json.dumps({**sound, "pools": pools}).encode() for pools in ([], {"17": {}}, {"1": {"busy": -1}})),
                 json.dumps({**sound, "busy": None}).encode(),
                 *(json.dumps({**sound, name: value}).encode() for name in ("p99", "busy", "span", "admitted")
                   for value in (10**400, -1)), b" " * sweep.RESULT_ROOM + json.dumps(sound).encode()]
        for text in texts:
            with self.subTest(text[:20]):
                paths[0].write_bytes(text)
                status, errors = swept(self.folder.words())
                self.assertEqual(status, 0, errors)
                self.assertIn("6 combinations, 5 of them taken from before", errors)
                self.assertEqual(self.folder.table(), TABLE)

    def test_mutated_results(self):
        """Bytes of a result are changed at random: the sweep ends with its table, or a line."""
        random_ = random.Random(4242)
        grid = ("--set", "policy.rate=10", "--set", "policy.depth=1")
        swept(self.folder.words(grid=grid))
        path, = (self.folder.path / "swept" / "results").iterdir()
        sound = path.read_bytes()
        for _ in range(MUTATIONS):
            data = bytearray(sound)
            for _ in range(random_.randint(1, 4)):
                data[random_.randrange(len(data))] = random_.choice(b'{}[]",:0-9e.\x00\xffa')
            path.write_bytes(data)
            status, errors = swept(self.folder.words(grid=grid))
            self.assertIn(status, (0, 1), (bytes(data), errors))
            self.assertNotIn("Traceback", errors)

    def test_one_that_cannot_be_written(self):
        """Where the page can't be written, the older table stands."""
        swept(self.folder.words())
        folder = self.folder.path / "swept"
        (folder / "sweep.csv").write_text("older")
        (folder / "sweep.html").unlink()
        (folder / "sweep.html").mkdir()
        self.check(self.folder.words(), 1, "sweep: swept/sweep.html: Is a directory")
        self.assertEqual((folder / "sweep.csv").read_text(), "older")
        self.assertEqual(sorted(path.name for path in folder.iterdir()),
                         ["results", "settings", "sweep.csv", "sweep.html"])

    def test_settings(self):
        for text, line in (
            ("a = " + "[" * 5000, "no TOML document"),
            ("[policy]\ndepht = 4\n", "policy.depht: no such key; the nearest is policy.depth"),
            ("# " + "a" * 70_000, "more than 65536 bytes"),
            ("[policy]\nfixed_rate = 4\n", "policy.fixed_rate: no such key"),):
            with self.subTest(line):
                self.folder.settings.write_text(text)
                status, errors = swept(self.folder.words("--settings", str(self.folder.settings)))
                self.assertEqual(status, 1)
                self.assertIn(line, errors)
                self.assertEqual(errors.count("\n"), 1)
        self.folder.settings.write_bytes(b"\xff\xff")
        status, errors = swept(self.folder.words("--settings", str(self.folder.settings)))
        self.assertEqual((status, errors.count("\n")), (1, 1))

    def test_unknown_key(self):
        self.check(self.folder.words("--set", "policy.dept=1"), 1,
                   "sweep: --set: policy.dept: no such key; the nearest is policy.depth")

    def test_many(self):
        values = ",".join(map(str, range(1, 1001)))
        self.check(self.folder.words("--set", "policy.every=" + values, "--set", "policy.window=" + values), 2,
                   "tools/sweep.py: error: argument --set: more than 100000 combinations")

    def test_names(self):
        """Names of files that are no text stand as escapes on the page, in the table and on standard output."""
        self.draw()
        path = os.fsdecode(os.fsencode(self.folder.path) + b"/\xff.capture")
        pathlib.Path(path).write_text("capture")
        status, errors, output = swept_and_said(self.folder.words("--capture", path, "--at-most", "p99=400"))
        self.assertEqual(status, 0, errors)
        self.assertIn("\\udcff.capture", self.folder.page())
        self.assertIn("\\udcff.capture", self.folder.table())

    def test_standard_output(self):
        """What is printed can't be written: a line, and the table stands."""
        for end, line in (("/dev/full", "sweep: standard output: No space left on device\n"),):
            with open(end, "w") as full:
                ran = subprocess.run([sys.executable, str(TOOLS / "sweep.py"),
                                      *self.folder.words("--at-most", "p99=400")],
                                     stdout=full, stderr=subprocess.PIPE, text=True)
            self.assertEqual((ran.returncode, ran.stderr[-len(line):]), (1, line))
            self.assertTrue((self.folder.path / "swept" / "sweep.csv").exists())

    def test_same_file(self):
        """An output that is an input is refused, and the input stays."""
        swept(self.folder.words())
        table = self.folder.path / "swept" / "sweep.csv"
        before = table.read_bytes()
        self.folder.capture = table
        self.check(self.folder.words(), 2, "sweep: swept/sweep.csv: the output is the input; give it another name")
        self.assertEqual(table.read_bytes(), before)

    def test_settings_of_a_former_sweep(self):
        """Settings that a sweep wrote may be those of another; where they were changed by hand, they stay so."""
        swept(self.folder.words())
        path = min((self.folder.path / "swept" / "settings").iterdir())
        status, errors = swept(self.folder.words("--settings", str(path)))
        self.assertEqual(status, 0, errors)
        path.write_text("# taken on Friday\n" + path.read_text())
        before = path.read_bytes()
        self.check(self.folder.words("--settings", str(path)), 2,
                   "sweep: swept/settings/%s: the output is the input; give it another name" % path.name)
        self.assertEqual(path.read_bytes(), before)


class Interrupted(Base):
    def begin(self):
        """A sweep as a process, once half of its results are there, and the others are being worked on, for long."""
        signal.signal(signal.SIGINT, signal.default_int_handler)  # it is ignored where tests run in the background
        self.folder.plan(seconds=2 * SECONDS)
        process = subprocess.Popen([sys.executable, TOOLS / "sweep.py", *self.folder.words("--jobs", "4")],
                                   stderr=subprocess.PIPE, text=True, start_new_session=True)
        self.addCleanup(process.stderr.close)
        self.addCleanup(self.end_stubs)
        results = self.folder.path / "swept" / "results"
        wait_for(lambda: results.is_dir() and len(list(results.glob("*.json"))) == 3 and len(self.folder.calls()) == 6)
        return process

    def said(self, process):
        """What a sweep said besides its progress, which a busy machine has."""
        return [line for line in process.stderr.readlines() if "run]" not in line]

    def wait_for_ends(self):
        """Waits until no process for runs is there, and no stub."""
        processes = {"/proc/" + process for call in self.folder.calls() for process in call[2:]}
        wait_for(lambda: not any(map(os.path.exists, processes)))

    def end_stubs(self):
        """Ends the stubs whose process for runs was killed: the program would end as nobody reads its table."""
        for call in self.folder.calls():
            with contextlib.suppress(ProcessLookupError):
                os.kill(int(call[3]), signal.SIGKILL)

    def go_on(self):
        """Goes on with another copy of the program, which so has calls of its own."""
        another = Folder(self.folder.path / "another")
        status, errors = swept(self.folder.words("--program", str(another.program)))
        self.assertEqual((status, self.folder.table()), (0, TABLE))
        self.assertIn("6 combinations, 3 of them taken from before", errors)
        self.assertEqual([call[:2] for call in another.calls()], [["20", "1"], ["20", "2"], ["20", "3"]])

    def test_killed(self):
        process = self.begin()
        process.kill()
        self.assertEqual(process.wait(SECONDS), -signal.SIGKILL)
        self.wait_for_ends()
        self.assertFalse((self.folder.path / "swept" / "sweep.csv").exists())
        self.go_on()

    def test_interrupted(self):
        process = self.begin()
        os.killpg(process.pid, signal.SIGINT)
        self.assertEqual(process.wait(SECONDS), 130)
        self.assertEqual(self.said(process), ["sweep: interrupted; the same command goes on\n"])
        self.wait_for_ends()
        self.go_on()

    def test_killed_worker(self):
        process = self.begin()
        os.kill(int(self.folder.calls()[-1][2]), signal.SIGKILL)
        self.assertEqual(process.wait(SECONDS), 1)
        self.assertEqual(self.said(process), [
            "sweep: a run was lost (BrokenProcessPool); the same command goes on\n"])
        self.go_on()


class Faults(Base):
    def test_words(self):
        begin = "tools/sweep.py: error: argument --set: "
        for text, line in (
            ("rate=1,2", "'rate=1,2' is no TABLE.KEY=VALUE,VALUE.."),
            ("policy.rate", "'policy.rate' is no TABLE.KEY=VALUE,VALUE.."),
            ("policy.rate=", "policy.rate: no value"),
            ("policy.rate=1,,2", "policy.rate: no value"),
            ("policy.rate=1,two", "policy.rate: 'two' is no integer"),
            ("policy.rate=1,01", "policy.rate: a value comes twice"),
        ):
            with self.subTest(text):
                self.check(self.folder.words("--set", text), 2, begin + line)
        self.check(self.folder.words("--set", "policy.depth=5"), 2, begin + "a key comes twice")
        self.check(self.folder.words("--cluster", "foo://a:1"), 2, begin.replace("--set", "--cluster") +
                   "'foo://a:1' is no address such as tcp://HOST:8786")
        self.check(self.folder.words("--margin", "10"), 2, begin.replace("--set", "--margin") +
                   "needs --at-most, which is to hold all over it")
        for word in ("0", "91", "1.5", "-1"):
            self.check(self.folder.words("--at-most", "p99=1", "--margin", word), 2,
                       begin.replace("--set", "--margin") + "'%s' is no whole number of percent from 1 to 90, "
                       "nor calibrated" % word)
        self.assertEqual(self.folder.calls(), [])

    def test_routes(self):
        self.check(self.folder.words("--set", "route./a.b/.cost=1"), 1,
                   "sweep: --set: route./a.b/.cost: --settings has no route with the prefix /a.b/")
        self.folder.settings.write_text("[[route]]\nprefix = '/a'\ncost = 3\n[[route]]\nprefix = '/b'\ncost = 3\n")
        words = ["--settings", str(self.folder.settings)]
        self.check(self.folder.words(*words, "--set", "route./c.cost=1"), 1,
                   "sweep: --set: route./c.cost: --settings has no route with the prefix /c; it has /a, /b")
        self.check(self.folder.words(*words, "--set", "route./a.prefix=1"), 1,
                   "sweep: --set: route./a.prefix: a route has cost, kib, delay, pool")
        self.assertEqual(self.folder.calls(), [])

    def test_pools(self):
        """A pool that isn't there, by its own key or a route's; and words that aren't for pools."""
        self.check(self.folder.words("--set", "pool.api.servers=1"), 1,
                   "sweep: --set: pool.api.servers: --settings has no pool with the name api")
        self.folder.settings.write_text(tables_of_timeline.OF_POOLS)
        words = ["--settings", str(self.folder.settings)]
        has = "; it has slow, <fast>"
        for text, line in (
                ("pool.api.servers=1,2", "pool.api.servers: --settings has no pool with the name api" + has),
                ("route./slow.pool=slow,api", "route./slow.pool: --settings has no pool with the name api" + has),
                ("route./slow.pool=", "route./slow.pool: --settings has no pool with the name " + has),
                ("route./none.pool=slow", "route./none.pool: --settings has no route with the prefix /none; it has "
                 "/slow, /fast"),
                ("pool.slow.cost=1", "pool.slow.cost: a pool has servers")):
            with self.subTest(text):
                self.check(self.folder.words(*words, "--set", text), 1, "sweep: --set: " + line)
        begin = "tools/sweep.py: error: argument --set: "
        self.check(self.folder.words(*words, "--set", "pool.slow.servers=a"), 2,
                   begin + "pool.slow.servers: 'a' is no integer")
        self.check(self.folder.words(*words, "--search", "10", "--at-most", "p99=1", grid=(
            "--set", "route./slow.pool=a..b")), 2, begin + "route./slow.pool: --search needs a range, LEAST..GREATEST")
        self.assertEqual(self.folder.calls(), [])

    def test_files(self):
        check, words = self.check, self.folder.words
        check(words("--program", "no-such"), 1, "sweep: " + NO_PROGRAM)
        check(words("--capture", str(self.folder.path / "absent")), 1, "sweep: absent: No such file or directory")
        check(words("--snapshot", "/dev/null"), 1, "sweep: /dev/null: no regular file")
        check(words("--settings", str(self.folder.path / "absent")), 1, "sweep: absent: No such file or directory")
        check(words("--output", str(self.folder.capture)), 1, "sweep: capture/settings: Not a directory")
        self.assertEqual(self.folder.calls(), [])

    def test_settings(self):
        for text, line in (
            ("[policy\n", "no TOML document: Expected ']' at the end of a table declaration (at line 1, column 8)"),
            ("rate = 1\n", "rate: no table of settings"),
            ("[policy]\ndepth = 'a'\n", "policy.depth: neither an integer nor a list of integers"),
            ("[policy]\ndepth = true\n", "policy.depth: neither an integer nor a list of integers"),
            ("[floor]\nfront_cuts = [1, 'a']\n", "floor.front_cuts: neither an integer nor a list of integers"),
        ):
            with self.subTest(text):
                self.folder.settings.write_text(text)
                self.check(self.folder.words("--settings", str(self.folder.settings)), 1, "sweep: settings: " + line)

    def test_program(self):
        self.folder.capture.write_text("broken")
        self.check(self.folder.words(), 1, "sweep: haboob: capture: record 9: Kind")
        self.check(self.folder.words("--program", "/bin/echo"), 1,
                   "sweep: haboob settings: no TOML document: Expected '=' after a key in a key/value pair "
                   "(at line 1, column 9)")
        self.folder.plan(table="")
        self.folder.capture.write_text("capture")
        self.check(self.folder.words(), 1, "sweep: no table of haboob explain: this is no table of decisions")
        self.folder.capture.write_text("a log\n")
        self.check(
            self.folder.words(),
            1,
            "sweep: haboob: capture: record 0: Header; capture is text; if it is an access "
            "log, tools/capture_from_log.py reads it")
        self.folder.capture.write_text("broken")
        self.check(self.folder.words("--program", "/bin/false"), 1, "sweep: /bin/false: ended with status 1")
        self.folder.capture.write_text("capture")
        self.folder.plan(report=REPORT[:-4])
        self.check(self.folder.words(), 1, "sweep: no report of haboob explain: the report isn't whole")

    def test_changed_input(self):
        run = sweep.Sweep.run

        def changing(*words):
            self.folder.capture.write_text("another capture")
            run(*words)

        with unittest.mock.patch.object(sweep.Sweep, "run", changing):
            self.check(self.folder.words(), 1, "sweep: capture: changed during the sweep")
        self.assertEqual(list((self.folder.path / "swept" / "results").iterdir()), [])

    def test_libraries(self):
        with unittest.mock.patch.dict(sys.modules, {"distributed": None}):
            self.check(self.folder.words("--cluster", "127.0.0.1:1"), 2,
                       "sweep: --cluster needs distributed: apt-get install python3-distributed")
        code = ("import runpy, sys; del sys.argv[0]; sys.modules['tqdm'] = None; "
                "runpy.run_path(sys.argv[0], run_name='__main__')")
        ran = subprocess.run([sys.executable, "-c", code, str(TOOLS / "sweep.py"), *self.folder.words()],
                             env={"PYTHONPATH": str(TOOLS)}, capture_output=True, text=True)
        self.assertEqual((ran.returncode, ran.stderr), (
            2, "sweep: needs tqdm: apt-get install python3-tqdm\n"))


@unittest.skipUnless(importlib.util.find_spec("distributed"), "python3-distributed isn't installed")
class OnCluster(Base):
    def begin(self, kind, *words):
        """A process of the cluster, in a folder of its own, with the stub on its path and the tools out of reach."""
        folder = tempfile.TemporaryDirectory()
        self.addCleanup(folder.cleanup)
        path = "%s:%s" % (self.folder.path, os.environ["PATH"])
        process = subprocess.Popen(
            [sys.executable, "-m", "distributed.cli." + kind, "--scheduler-file", str(self.folder.path / "scheduler"),
             "--no-dashboard", *words],
            cwd=folder.name, env={**os.environ, "PATH": path}, stdout=subprocess.DEVNULL, stderr=subprocess.DEVNULL)
        self.addCleanup(process.wait)
        self.addCleanup(process.terminate)

    def address(self):
        with contextlib.suppress(FileNotFoundError, ValueError):
            return json.loads((self.folder.path / "scheduler").read_text())["address"]

    def test_cluster(self):
        import distributed
        self.begin("dask_scheduler", "--host", "127.0.0.1", "--port", "0")
        address = wait_for(self.address)
        words = self.folder.words("--cluster", address, "--program", "haboob")
        self.check(words, 1, "sweep: %s: no worker is there" % address)
        for _ in range(2):
            self.begin("dask_worker", "--nthreads", "1", "--no-nanny")
        with distributed.Client(address, set_as_default=False) as client:
            client.wait_for_workers(2, timeout=SECONDS)
        status, errors = swept(words)
        self.assertEqual((status, self.folder.table()), (0, TABLE), errors)
        self.assertEqual([call[:2] for call in self.folder.calls()], [key.split() for key in ANSWERS])
        # The modules of a sweep take the place of those of the sweep before.
        other = self.folder.path / "other.py"
        other.write_text("import os\ndef digest_of_program(_):\n    return os.getpid()\n")
        with unittest.mock.patch.object(decision_tables, "__file__", str(other)):
            self.check(words, 1, "sweep: %s: not the same program on all workers" % address)
        # A sweep on this machine has the same results.
        self.assertIn("6 of them taken from before", swept(self.folder.words())[1])
        # A search runs on it, too.
        self.folder.plan(answers={"%d %d" % (rate, depth): (10, rate, 100) for rate in range(1, 9) for depth in (1, 2)})
        search = self.folder.words(
            "--cluster", address, "--program", "haboob", "--search", "10", "--at-most", "p99=100",
            grid=("--set", "policy.rate=1..8", "--set", "policy.depth=1..2"))
        status, errors, output = swept_and_said(search)
        self.assertEqual(status, 0, errors)
        self.assertIn("[policy]\ndepth = ", output)
        self.folder.plan()
        self.folder.capture.write_text("broken")
        self.check(words, 1, "sweep: haboob: capture: record 9: Kind")
        self.check([*words, "--program", "no-such"], 1, "sweep: " + NO_PROGRAM)

    def test_no_cluster(self):
        import dask
        with dask.config.set({"distributed.comm.timeouts.connect": "0.3s"}):
            status, errors = swept(self.folder.words("--cluster", "127.0.0.1:1"))
        self.assertEqual(status, 1)
        self.assertRegex(errors.splitlines()[-1], "^sweep: 127.0.0.1:1: no scheduler answers")


@unittest.skipUnless(PROGRAM.exists(), "the program isn't built")
class Program(Base):
    def rows(self, *words):
        """The figures of a sweep of examples/burst.capture; docs/WALK.md has them too."""
        self.folder.program, self.folder.snapshot = PROGRAM, EXAMPLES / "site.snapshot"
        self.folder.capture = EXAMPLES / "burst.capture"
        status, errors = swept(self.folder.words(grid=words))
        self.assertEqual(status, 0, errors)
        return [line.split(",") for line in self.folder.table().splitlines()[1:]]

    def test_defaults(self):
        rows = self.rows("--set", "policy.rate=1000000,9000000")
        self.assertEqual(rows[0][:7], "1000000,143,105,45,3258,6470,7086".split(","))
        self.assertEqual(rows[1][-2], "haboob: settings: Range policy.rate")

    def test_tiers(self):
        """The figures of each tier are those of the rows of its own in the program's table."""
        self.folder.program, self.folder.snapshot = PROGRAM, EXAMPLES / "site.snapshot"
        self.folder.capture = EXAMPLES / "tiers.capture"
        settings = EXAMPLES / "tiers.toml"
        status, errors = swept(self.folder.words("--settings", str(settings), grid=("--set", "policy.depth=100")))
        self.assertEqual(status, 0, errors)
        table = self.folder.path / "table"
        subprocess.run([PROGRAM, "explain", "--snapshot", self.folder.snapshot, "--capture", self.folder.capture,
                        "--settings", settings, "--messages", table], check=True, stdout=subprocess.DEVNULL)
        with open(table, newline="") as file:
            rows = list(csv.DictReader(file))
        with open(self.folder.path / "swept" / "sweep.csv", newline="") as file:
            found, = csv.DictReader(file)
        for tier in "01":
            times = sorted(int(row["finish"]) - int(row["tick"]) for row in rows
                           if (row["tier"], row["decision"]) == (tier, "admitted"))
            away = sum((row["tier"], row["decision"]) == (tier, "rejected") for row in rows)
            names = ("admitted", "rejected", "p99", "greatest")
            self.assertEqual([found["tier%s.%s" % (tier, name)] for name in names],
                             [str(len(times)), str(away), str(times[math.ceil(0.99 * len(times)) - 1]), str(times[-1])])
        self.assertEqual((found["tier1.admitted"], found["tier1.rejected"]), ("81", "159"))  # as docs/WALK.md has them

    def test_margin(self):
        """Ten requests that come at once, each a millisecond's work on a route: of so many as are let in the last waits
        for all before it; with costs a tenth lower and higher 9 of them take 8.1 and 9.9 milliseconds. The server is at
        work all along."""
        self.draw()
        self.folder.program, self.folder.snapshot = PROGRAM, EXAMPLES / "site.snapshot"
        pieces = "".join("piece 0 %d 28\nGET /x HTTP/1.1\r\nHost: a\r\n\r\n\n" % place for place in range(10))
        self.folder.capture.write_text("haboob-capture 2 0\n%sstop 10\n" % pieces, newline="")
        self.folder.settings.write_text("[[route]]\nprefix = '/x/'\ncost = 7\n[policy]\nrate = 1\nrate_min = 1\n")
        words = ["--settings", str(self.folder.settings), "--at-most", "p99=10000", "--set", "route./x.cost=1000"]
        grid = ("--set", "policy.depth=8,9,10")
        status, errors, output = swept_and_said(self.folder.words(*words, grid=grid))
        self.assertEqual(status, 0, errors)
        self.assertIn("# row 3: policy.depth 10, route./x.cost 1000: 0.00% turned away, p99 10.000 ms\n", output)
        words += ["--margin", "10"]
        status, errors, output = swept_and_said(self.folder.words(*words, grid=grid))
        self.assertIn("# row 2: policy.depth 9, route./x.cost 1000: 10.00% turned away, p99 9.000 ms (8.100 ms to "
                      "9.900 ms)\n", output)
        self.assertIn("WARNING: row 2 keeps the server busy for 100% of its time at costs 10% higher: above", errors)
        self.assertNotIn("bears", errors)
        self.assertIn("WARNING: row 2 keeps the server busy", self.folder.page())
        self.assertIn("<td>9.000<br><small>8.100\u20139.900</small></td>", self.folder.page())
        with open(self.folder.path / "swept" / "sweep.csv", newline="") as file:
            rows = list(csv.DictReader(file))
        names = ("lower.p99", "p99", "upper.p99", "lower.busy_share")
        self.assertEqual([[row[name] for name in names] for row in rows],
                         [[str(depth * part) for part in (900, 1000, 1100)] + ["1.000000"] for depth in (8, 9, 10)])
        self.check(self.folder.words(*words, grid=("--set", "policy.depth=10")), 1,
                   "sweep: no combination is within p99=10000 at costs 10% lower and higher: the least p99 is 11000")

    def test_rate_beyond_the_server(self):
        """Of one request the server is busy for a millisecond, so it bears 1,000 a second; 910 of a fixed rate are 91%
        of that, and 830 at costs a tenth higher 91.3%."""
        self.folder.program, self.folder.snapshot = PROGRAM, EXAMPLES / "site.snapshot"
        self.folder.capture.write_bytes(b"haboob-capture 2 0\n" + b"".join(
            b"piece %d 0 28\nGET /x HTTP/1.1\r\nHost: a\r\n\r\n\n" % time for time in (0, 10**6)) + b"stop 2\n")
        self.folder.settings.write_text("[[route]]\nprefix = '/'\ncost = 1000\n")
        margin, told = ("--margin", "10"), "%d requests a second, 91%% of what the server bears%s: above"
        for rate, words, told in ((900, (), None), (910, (), told % (910, "")), (810, margin, None),
                                  (830, margin, told % (830, " at costs 10% higher"))):
            status, errors = swept(self.folder.words("--settings", str(self.folder.settings), "--at-most", "p99=9999",
                                                     *words, grid=("--set", "policy.fixed_rate=%d/s" % rate)))
            self.assertEqual((status, "WARNING" in errors), (0, bool(told)), errors)
            self.assertIn(told or "", errors)

    def test_calibrated_margin(self):
        """That of the settings, by the line that tools/calibrate.py writes."""
        options = sweep.arguments(self.folder.words("--at-most", "p99=1", "--margin", "calibrated",
                                                    "--settings", str(self.folder.settings)))
        self.folder.settings.write_text("# margin\n%s[costs]\nfile = 7\n" % settings_documents.margin_line(12))
        self.assertEqual(sweep.margin_of(options), 12)
        self.folder.settings.write_text("[costs]\nfile = 7  %s" % settings_documents.margin_line(12))
        with self.assertRaisesRegex(tool_run.Fault, "^--margin calibrated: no settings that tools/calibrate.py wrote"):
            sweep.margin_of(options)

    def test_costs_of_a_margin(self):
        """Those of the defaults too, in whole microseconds, and none lower than the program takes; a delay is none."""
        defaults = {"costs": {"file": 200, "kib": 10, "error": 50, "servers": 1, "delay": 0}}
        tables = {"costs": {"file": 1, "delay": 70}, "route": [{"prefix": "/a", "cost": 15, "kib": 3, "delay": 9}]}
        found = settings_documents.with_costs(tables, defaults, 90)
        self.assertEqual(found, {"costs": {"file": 1, "kib": 9, "error": 45, "delay": 70},
                                 "route": [{"prefix": "/a", "cost": 14, "kib": 3, "delay": 9}]})
        line = "^costs.file would be 1100000, and the program takes 1 to 1000000$"
        with self.assertRaisesRegex(tool_run.Fault, line):
            settings_documents.with_costs({"costs": {"file": 10**6}}, defaults, 110)

    def test_delays(self):
        """Of one tier the percentiles that are made of the table are those of the report, which has every delay."""
        self.folder.settings.write_text("[costs]\ndelay = 5000\n[[route]]\nprefix = '/notes.txt'\ncost = 300\n"
                                        "delay = 90000\n[[route]]\nprefix = '/docs/'\ncost = 900\ndelay = 0\n")
        self.rows("--settings", str(self.folder.settings), "--set", "policy.depth=10,300")
        results = [json.loads(path.read_text()) for path in (self.folder.path / "swept" / "results").iterdir()]
        self.assertEqual([len(results), *(list(result["tiers"]) for result in results)], [2, ["0"], ["0"]])
        for result in results:
            self.assertGreater(result["p99"], 90_000)
            for name in ("p50", "p90", "p99"):
                self.assertEqual(result["tiers"]["0"][name], result[name])

    def test_several_captures(self):
        """Settings for a burst, tried on the burst among readers too: each capture has its figures, as docs/WALK.md
        has them (105 of 248 and 140 of 276 are turned away), and the worst of each counts."""
        self.folder.program, self.folder.snapshot = PROGRAM, EXAMPLES / "site.snapshot"
        self.folder.capture = EXAMPLES / "burst.capture"
        words = self.folder.words("--capture", str(EXAMPLES / "mixed.capture"), "--at-most", "p99=9076",
                                  grid=("--set", "policy.depth=100",))
        status, errors, output = swept_and_said(words)
        self.assertEqual(status, 0, errors)
        with open(self.folder.path / "swept" / "sweep.csv", newline="") as file:
            rows = [(os.path.basename(row["capture"]), row["admitted"], row["rejected"], row["p99"])
                    for row in csv.DictReader(file)]
        self.assertEqual(rows, [("worst", "136", "140", "9076"), ("burst.capture", "143", "105", "7086"),
                                ("mixed.capture", "136", "140", "9076")])
        self.assertIn("50.72% turned away, p99 9.076 ms", output)
        self.check([word.replace("9076", "9075") for word in words], 1,
                   "sweep: no combination is within p99=9075: the least p99 is 9076")

    def test_no_captures(self):
        """Recorded packets and a log that are given as captures: which tool reads them."""
        self.folder.program, self.folder.snapshot = PROGRAM, EXAMPLES / "site.snapshot"
        for name, tool in (("loopback.pcap", "recorded packets, which tools/capture_from_pcap.py reads"),
                           ("nginx.log", "text; if it is an access log, tools/capture_from_log.py reads it")):
            self.folder.capture = TOOLS / "data" / name
            words = self.folder.words(grid=("--set", "policy.depth=100"))
            self.check(words, 1, "sweep: haboob: capture: record 0: Header; %s is %s" % (self.folder.capture, tool))

    def test_search(self):
        """The best fixed rate and depth that keep p99 within a limit: no point of a grid of the same ranges that does
        turns fewer away."""
        self.folder.program, self.folder.snapshot = PROGRAM, EXAMPLES / "site.snapshot"
        self.folder.capture = EXAMPLES / "burst.capture"

        def least(rates, depths, *words):
            grid = ("--set", "policy.fixed_rate=" + rates, "--set", "policy.depth=" + depths)
            status, errors, output = swept_and_said(self.folder.words("--at-most", "p99=4000", *words, grid=grid))
            self.assertEqual(status, 0, errors)
            return float(re.search("([0-9.]+)% turned away", output)[1])

        found = least("100/s..9000/s", "1..300", "--search", "60")
        self.assertLessEqual(found, least("100/s,300/s,1000/s,3000/s,9000/s", "1,3,10,30,100,300"))

    def test_base(self):
        rows = self.rows("--settings", str(EXAMPLES / "tight.toml"), "--set", "policy.depth=10,300")
        self.assertEqual(rows[0][:3] + rows[0][4:7], "10,161,87,252,1080,1345".split(","))
        self.assertEqual(rows[1][:4], "300,248,0,0".split(","))


if __name__ == "__main__":
    unittest.main()
