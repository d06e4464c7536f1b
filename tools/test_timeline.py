#!/usr/bin/python3
"""Tests of timeline.py on tables that were written by hand.

    /usr/bin/python3 tools/test_timeline.py

MUTATIONS=N in the environment tries N damaged tables.
"""
import argparse
import contextlib
import csv
import io
import os
import pathlib
import random
import re
import resource
import signal
import subprocess
import sys
import tempfile
import time
import unittest
import unittest.mock

TOOLS = pathlib.Path(__file__).resolve().parent
sys.path.insert(0, str(TOOLS))
from haboob_tools import pages, steps, timeline, tool_run

MUTATIONS = int(os.environ.get("MUTATIONS", 300))
HEADING = "number,connection,tick,tier,status,decision,service,credit,rate,start,finish,waited,method,target\n"
# Second 0: two admitted (response times 1,000 and 600,000), one turned away after them, one that breaks a rule.
# Second 1: nothing comes, and the server works until tick 1,100,000. Second 2: one of tier 1 is turned away while the
# server is idle. The rate of tier 0 falls once.
TABLE = HEADING + (
    "0,0,0,0,200,admitted,1000,3000000000,4000,0,1000,0,GET,/a\n"
    "1,1,500000,0,200,admitted,600000,2000000000,4000,500000,1100000,0,GET,/b\n"
    "2,1,600000,0,503,rejected,10,999999999,2000,,,500000,GET,/c\n"
    "3,2,700000,0,400,bypassed,,,,,,,,\n"
    "4,3,2000000,1,503,rejected,10,0,1000,,,0,GET,/<c>\n"
)
SECONDS = (
    "second,offered,admitted,rejected,bypassed,rejected_while_idle,p50,p90,p99,busy_share,most_inside,"
    "rejected_0,rate_0,least_credit_0,raised_0,lowered_0,rejected_1,rate_1,least_credit_1,raised_1,lowered_1\n"
    "0,3,2,1,1,0,1000,600000,600000,0.501,1,1,2000,999999999,0,1,0,,,0,0\n"
    "1,0,0,0,0,0,,,,0.1,0,0,,,0,0,0,,,0,0\n"
    "2,1,0,1,0,1,,,,0.0,0,0,,,0,0,1,1000,0,0,0\n"
)
# The requests of tests/pools.toml: pool 1 has one server, pool 2 two, and one serves what is of no pool.
POOLS = HEADING.replace("waited,", "waited,pool,") + (
    "0,0,0,0,404,admitted,1000,100000000000,1000000,0,1000,0,1,GET,/slow\n"
    "1,0,1,0,404,admitted,1000,99001000000,1000000,1000,2000,999,1,GET,/slow\n"
    "2,0,2,0,404,admitted,50,98002000000,1000000,2,52,0,0,GET,/none\n"
    "3,0,3,0,404,admitted,50,97003000000,1000000,52,102,49,0,GET,/none\n"
    "4,0,4,0,404,admitted,10,96004000000,1000000,4,14,0,2,GET,/fast\n"
    "5,0,5,0,404,admitted,10,95005000000,1000000,5,15,0,2,GET,/fast\n"
    "6,1,6,0,400,bypassed,,,,,,,,,\n"
)
OF_POOLS = """\
[[pool]]
name = "slow"
servers = 1

[[pool]]
name = "<fast>"
servers = 2

[[route]]
prefix = "/slow"
cost = 1000
pool = "slow"

[[route]]
prefix = "/fast"
cost = 10
pool = "<fast>"
"""
CAPTURE = "haboob-capture 2 784111777\nstop 0\n"  # Sun, 06 Nov 1994 08:49:37 GMT


def admitted(number, tick, service, start=None, target="/", tier=0, rate=1000):
    """A row of an admitted request."""
    start = tick if start is None else start
    return "%d,0,%d,%d,200,admitted,%d,1000000000,%d,%d,%d,%d,GET,%s\n" % (
        number, tick, tier, service, rate, start, start + service, start - tick, target)


def rejected(number, tick, target="/", tier=0, rate=1000):
    """A row of a request that was turned away while the server was busy."""
    return "%d,0,%d,%d,503,rejected,10,0,%d,,,5,GET,%s\n" % (number, tick, tier, rate, target)


class Base(unittest.TestCase):
    def setUp(self):
        folder = tempfile.TemporaryDirectory()
        self.addCleanup(folder.cleanup)
        self.folder = pathlib.Path(folder.name)
        self.table, self.page, self.seconds, self.targets, self.capture, self.settings = (
            self.folder / name for name in ("table", "page", "seconds", "targets", "day.capture", "site.toml"))
        self.capture.write_text(CAPTURE)
        # On a busy machine there would be lines of progress.
        quiet = unittest.mock.patch.object(tool_run, "PROGRESS_STEP", float("inf"))
        quiet.start()
        self.addCleanup(quiet.stop)

    def run_on(self, table, *words):
        """The status, standard error, and the files of a run."""
        self.table.write_bytes(table if isinstance(table, bytes) else table.encode())
        error = io.StringIO()
        with contextlib.redirect_stderr(error):
            status = timeline.main(["--output", str(self.page), "--csv", str(self.seconds), str(self.table), *words])
        texts = {path.name: path.read_text() for path in (self.page, self.seconds, self.targets) if path.exists()}
        return status, error.getvalue().replace(str(self.folder) + "/", ""), texts

    def rows(self, table, *words):
        """The rows of the table of steps."""
        status, error, texts = self.run_on(table, *words)
        self.assertEqual((status, error), (0, ""))
        return list(csv.DictReader(io.StringIO(texts["seconds"])))


class Figures(Base):
    def test_seconds(self):
        status, error, texts = self.run_on(TABLE, "--step", "1")
        self.assertEqual((status, error, texts["seconds"]), (0, "", SECONDS))

    def test_steps_by_the_length(self):
        """Two messages so far apart: so many steps of a width that people count in, 300 at most."""
        for apart, width in ((299_000, 1000), (10**6, 10_000), (3_600 * 10**6, 20 * 10**6),
                             (86_400 * 10**6, 600 * 10**6)):
            rows = self.rows(HEADING + admitted(0, 0, 100) + admitted(1, apart, 100))
            self.assertEqual(len(rows), (apart + 99) // width + 1, apart)
            self.assertLessEqual(len(rows), 300)
            self.assertEqual([rows[0]["offered"], rows[-1]["offered"]], ["1", "1"])

    def test_joined_steps(self):
        """Steps that were joined hold what their parts held."""
        texts = [admitted(0, 5, 10), admitted(1, 1_005, 300), rejected(2, 2_005, rate=900), admitted(3, 10**9, 10)]
        rows = self.rows(HEADING + "".join(texts))
        self.assertEqual([rows[0][name]
                          for name in ("offered", "admitted", "rejected", "p50", "p99", "rate_0", "lowered_0")],
                         ["3", "2", "1", "10", "300", "900", "1"])
        self.assertAlmostEqual(float(rows[0]["busy_share"]), 310 / 10**7, 9)

    def test_strange_snapshot(self):
        """Nine in ten of the requests that look for a file find none."""
        found = [admitted(number, number, 10) for number in range(10)]
        missing = [row.replace(",200,", ",404,") for row in found]
        for rows, is_strange in ((missing[:9], False), (missing[:8] + found[8:], False),
                                 (missing[:9] + found[9:], True)):
            status, error, texts = self.run_on(HEADING + "".join(rows))
            for text in (error, texts["page"]):
                self.assertEqual("WARNING: of 10 requests for files 9 ask for what the snapshot" in text, is_strange)
            self.assertEqual(status, 0)

    def test_window(self):
        rows = self.rows(TABLE, "--step", "1", "--from", "0.6", "--to", "2")
        self.assertEqual([row["offered"] for row in rows], ["1", "0"])
        self.assertEqual(rows[0]["busy_share"], "0.4")  # from 0.6 on
        self.assertEqual(rows[0]["lowered_0"], "1")  # against the rate before the window
        status, error, _ = self.run_on(TABLE, "--from", "2", "--to", "2")
        self.assertEqual((status, error), (1, "timeline: --to isn't after --from\n"))

    def test_time_of_day(self):
        """The capture begins at 08:49:37; its third second is 08:49:39."""
        for words in (("--from", "8:49:39"), ("--from", "1994-11-06T08:49:39"), ("--from", "1994-11-06T09:49:39+01:00"),
                      ("--from", "2")):
            for text in (CAPTURE, CAPTURE.replace("capture 2", "traffic 1")):
                self.capture.write_text(text)
                rows = self.rows(TABLE, "--step", "1", "--capture", str(self.capture), *words)
                self.assertEqual([(row["second"], row["offered"]) for row in rows], [("2", "1")], words)
        rows = self.rows(TABLE, "--step", "1", "--from", "0:00:02")  # without the capture since its start
        self.assertEqual([row["second"] for row in rows], ["2"])
        status, error, _ = self.run_on(TABLE, "--from", "1994-11-06T08:49:39")
        self.assertEqual(
            (status, error),
            (1, "timeline: a date for --from or --to needs --capture, which has the start\n"))

    def test_in_line(self):
        """Three come at once, and are served one after another for 100 each; a fourth comes as the second is served."""
        texts = [admitted(number, 0, 100, 100 * number) for number in range(3)] + [admitted(3, 150, 100, 300)]
        self.assertEqual(self.rows(HEADING + "".join(texts))[0]["most_inside"], "3")
        self.assertEqual(self.rows(HEADING + "".join(texts[:2]))[0]["most_inside"], "2")

    def test_servers(self):
        """Two work for 1 and 0.5 of a second: of two servers' time 0.75, of four's 0.375. The settings say how many
        there are, or the table where they don't, or say fewer."""
        table = HEADING + admitted(0, 0, 10**6) + admitted(1, 0, 500_000) + admitted(2, 500_000, 1000, 10**6)
        for text, shares in ((None, ["0.75", "0.0005"]), ("servers = 2", ["0.75", "0.0005"]), ("", ["0.75", "0.0005"]),
                             ("servers = 4", ["0.375", "0.00025"]), ("servers = 1", ["0.75", "0.0005"])):
            self.settings.write_text("[costs]\n%s\n" % text)
            words = () if text is None else ("--settings", str(self.settings))
            rows = self.rows(table, "--step", "1", *words)
            self.assertEqual([row["busy_share"] for row in rows], shares, text)

    def test_pools(self):
        """Of pool 1 the server works all the time, and one request waits for it, up to 999; of pool 0 for 100 of 1,000,
        and one waits for 49; of pool 2 two for 10 each, which is a hundredth of both. All four work for 1,120 of 4,000.
        Without settings the table shows as many at work."""
        names = ["pool_%d_%s" % (pool, name) for pool in range(3)
                 for name in ("busy_share", "most_waiting", "longest_wait")]
        self.settings.write_text(OF_POOLS)
        for words in ((), ("--settings", str(self.settings))):
            rows = self.rows(POOLS, "--step", "1ms", *words)
            self.assertEqual(list(rows[0])[-9:], names)
            self.assertEqual([[row[name] for name in ("busy_share", *names)] for row in rows], [
                "0.28 0.1 1 49 1.0 1 999 0.01 0 0".split(), "0.25 0.0 0 0 1.0 0 0 0.0 0 0".split()])
        self.settings.write_text(OF_POOLS.replace("servers = 2", "servers = 4"))
        self.assertEqual(self.rows(POOLS, "--step", "1ms", "--settings", str(self.settings))[0][names[6]], "0.005")

    def test_several_wait(self):
        """Three come together with one that is served at once, and a fourth when the first of them is begun."""
        rows = [admitted(0, 0, 100), *(admitted(number, 0, 100, 100 * number) for number in (1, 2, 3)),
                admitted(4, 100, 100, 400)]
        table = (HEADING + "".join(rows)).replace("waited,", "waited,pool,").replace(",GET", ",3,GET")
        row = self.rows(table)[0]
        self.assertEqual((row["pool_3_most_waiting"], row["pool_3_longest_wait"]), ("3", "300"))

    def test_delays(self):
        """Three come at once and are served for 100 each; the first two are on a route. By hand: without settings they
        take 100, 200 and 300; with delays of 50 and 1,000 the first 150, the second 250 and the third 1,300, so that it
        is still inside when a fourth comes at 1,250, is served for 10, and takes 60. The server works for 310."""
        texts = [admitted(0, 0, 100), admitted(1, 0, 100, 100, "/a%2520b/x"), admitted(2, 0, 100, 200, "/c"),
                 admitted(3, 1250, 10, target="/a%2520b?y")]
        names, words = ("p50", "p90", "most_inside", "busy_share"), ("--step", "1ms", "--settings", str(self.settings))
        for text, expected in (
                ("", [["200", "300", "3", "0.3"], ["10", "10", "1", "0.01"]]),
                ("[costs]\ndelay = 1000\n[[route]]\nprefix = '/c'\ndelay = 1000\n[[route]]\nprefix = '/'\ndelay = 50\n",
                 [["250", "1300", "3", "0.3"], ["60", "60", "2", "0.01"]]),
                ("[costs]\ndelay = 1000\n[[route]]\nprefix = '/a b/'\ndelay = 50\n",
                 [["1100", "1300", "3", "0.3"], ["60", "60", "2", "0.01"]])):
            self.settings.write_text(text)
            rows = self.rows(HEADING + "".join(texts), *words)
            self.assertEqual([[row[name] for name in names] for row in rows], expected, text)

    def test_no_message(self):
        status, _, texts = self.run_on(HEADING)
        self.assertEqual((status, texts["seconds"].count("\n")), (0, 1))


class Bounded(Base):
    def test_thirty_years(self):
        """Two messages thirty years apart, and one that takes as long: few steps, small files, little time."""
        begin = time.monotonic()
        years = 30 * 365 * 86_400 * 10**6
        texts = [admitted(0, 0, 100), admitted(1, years, 100), admitted(2, years, years, years + 100)]
        rows = self.rows(HEADING + "".join(texts))
        self.assertLessEqual(len(rows), 300)
        self.assertLess(self.page.stat().st_size, 2_000_000)
        self.assertLess(time.monotonic() - begin, 60)

    def test_greatest_numbers(self):
        most = 10**18 - 1
        rows = self.rows(HEADING + admitted(0, 0, 1) + admitted(1, most - 1, 1))
        self.assertLessEqual(len(rows), 300)

    def test_many_targets(self):
        table = HEADING + "".join(rejected(number, number, "/%d" % number) for number in range(40))
        with unittest.mock.patch.object(timeline, "MOST_KEPT", 10):
            _, _, texts = self.run_on(table)
        self.assertIn("<td>30</td><td>30</td><td>100.0</td><td>(all others)</td>", texts["page"])
        with unittest.mock.patch.object(timeline, "TARGETS_ROOM", 22):  # ten of two characters
            _, _, texts = self.run_on(table.replace("/39", "/9"))
        self.assertIn("<td>29</td><td>29</td><td>100.0</td><td>(all others)</td>", texts["page"])

    def test_given_step(self):
        table = HEADING + admitted(0, 0, 100) + admitted(1, 10_001 * 10**6, 100)
        status, error, _ = self.run_on(table, "--step", "1")
        self.assertEqual((status, error), (
            1, "timeline: table: more than 10000 steps of a second; take a longer --step, or --from and --to\n"))

    def test_words(self):
        for text in ("0", "-1", "1y", "", "0ms", "1e3", "9999999999"):
            with self.assertRaises(argparse.ArgumentTypeError):
                steps.width(text)
        self.assertEqual([steps.width(text) for text in ("10", "0.5", "250ms", "5m", "1h", "2d")],
                         [10**7, 500_000, 250_000, 3 * 10**8, 36 * 10**8, 2 * 864 * 10**8])
        for text in ("x", "25:00:99", "1:60", "2026-13-01T00:00:00", ""):
            with self.assertRaises(argparse.ArgumentTypeError):
                steps.moment(text)


class Page(Base):
    def test_page(self):
        _, _, texts = self.run_on(TABLE)
        page = texts["page"]
        self.assertEqual(page.count("<svg"), 8)
        self.assertIn("4 offered, 2 admitted, 2 turned away, 1 bypassed, 1 turned away while a server was idle; "
                      "turned away of tier 0 1, tier 1 1.", page)
        self.assertIn("How busy the server was, percent of the time<", page)
        self.assertIn("<tr><td>1</td><td>1</td><td>100.0</td><td>0</td><td>1</td><td>/&lt;c&gt;</td></tr>", page)
        self.assertNotIn("src=", page)
        self.assertIsNone(re.search('(href|url)="?[(]?https?:', page))
        self.assertIn("Turned away by tier, in ", page)
        self.assertIn("lowered by a control", page)
        self.assertIn('name="viewport"', page)

    def test_one_tier(self):
        _, _, texts = self.run_on(HEADING + admitted(0, 0, 100))
        self.assertNotIn("by tier", texts["page"])
        self.assertEqual(texts["page"].count("<svg"), 7)

    def test_servers(self):
        """Nothing is said of "the server" where there are several."""
        self.settings.write_text("[costs]\nservers = 4\n")
        _, _, texts = self.run_on(TABLE, "--settings", str(self.settings))
        self.assertIn("How busy the servers were, percent of the time of 4<", texts["page"])
        self.assertNotIn("the server ", texts["page"])

    def test_pools(self):
        """A picture of each of their figures, and a table; without pools there is neither."""
        self.settings.write_text(OF_POOLS)
        _, _, texts = self.run_on(POOLS, "--settings", str(self.settings), "--step", "1ms")
        self.assertEqual(texts["page"].count("<svg"), 10)
        for text in ("How busy the servers were, percent of the time of 4<", "How busy each pool&#x27;s servers were",
                     "Most requests of each pool that had come", "Longest wait for a server of each pool"):
            self.assertIn(text.replace("&#x27;", "'"), texts["page"])
        for row in ((0, "costs", 1, "5.0", 1, "0.049"), (1, "pool.slow", 1, "100.0", 1, "0.999"),
                    (2, "pool.&lt;fast&gt;", 2, "0.5", 0, "0.000")):
            self.assertIn("<tr>%s</tr>" % "".join("<td>%s</td>" % cell for cell in row), texts["page"])
        _, _, texts = self.run_on(POOLS)
        self.assertIn("<td>1</td><td>-</td><td>1</td>", texts["page"])
        _, _, texts = self.run_on(TABLE)
        self.assertNotIn("pool", texts["page"])

    def test_titles(self):
        self.settings.write_text("[policy]\ntarget = 250000\n[tier1]\ntarget = 700000\n")
        _, _, texts = self.run_on(TABLE, "--capture", str(self.capture), "--settings", str(self.settings))
        self.assertIn("<title>day.capture with site.toml</title>", texts["page"])
        self.assertIn("time of day (UTC)", texts["page"])
        self.assertIn(">8:49:3", texts["page"])
        self.assertIn("target of tier 0<", texts["page"])
        self.assertIn("target of tier 1<", texts["page"])
        self.settings.write_text("")
        _, _, texts = self.run_on(TABLE, "--settings", str(self.settings))
        self.assertIn(">target<", texts["page"])  # that of the defaults holds for both

    def test_targets(self):
        """The table escapes percent signs, quotes, commas and all but visible ASCII; the page shows what was sent."""
        texts = [rejected(0, 0, "/a%2520b"), rejected(1, 0, "/caf%25C3%25A9?q=%22x%2Cy%22"), rejected(2, 0, "/%C3%A9"),
                 rejected(3, 0, "/%FF%0A"), admitted(4, 0, 10, target="/a%2520b")]
        _, _, texts = self.run_on(HEADING + "".join(texts), "--targets", str(self.targets))
        for cell in ("/a%20b <small>(/a b)</small>",
                     "/caf%C3%A9?q=&quot;x,y&quot; <small>(/café?q=&quot;x,y&quot;)</small>", "/é", "/%FF%0A"):
            self.assertIn("<td>%s</td>" % cell, texts["page"])
        self.assertIn("<tr><td>1</td><td>2</td><td>50.0</td><td>/a%20b", texts["page"])
        rows = list(csv.DictReader(io.StringIO(texts["targets"])))
        self.assertEqual([row["target"] for row in rows], ["/a%20b", "/%FF%0A", '/caf%C3%A9?q="x,y"', "/é"])
        self.assertEqual([rows[0][name]
                          for name in ("turned_away", "asked", "turned_away_percent", "asked_0", "asked_1")],
                         ["1", "2", "50.0000", "2", "0"])

    def test_formulas(self):
        """A target that a spreadsheet would take for a formula has an apostrophe before it; the table escapes it."""
        sent = ["=cmd|' /C calc'!A0", "+1", "-1", "@SUM(A1)", "\uff1d1", "\uff0b1", "\uff0d1", "\uff201"]
        told = ["%3Dcmd|'%20/C%20calc'!A0", "%2B1", "%2D1", "%40SUM(A1)",
                "%EF%BC%9D1", "%EF%BC%8B1", "%EF%BC%8D1", "%EF%BC%A01"]
        texts = [rejected(number, 0, target) for number, target in enumerate(told)]
        _, _, texts = self.run_on(HEADING + "".join(texts), "--targets", str(self.targets))
        cells = [row[0] for row in csv.reader(io.StringIO(texts["targets"]))][1:]
        self.assertEqual(sorted(cells), sorted("'" + target for target in sent))

    def test_separators(self):
        """Where a semicolon parts cells, as for spreadsheets of many countries, no cell within a target is one."""
        _, _, texts = self.run_on(HEADING + rejected(0, 0, "/a%3B=1+1") + rejected(1, 0, "/%22%3B@b"),
                                  "--targets", str(self.targets))
        for separator in ",;":
            rows = list(csv.reader(io.StringIO(texts["targets"]), delimiter=separator))
            self.assertFalse([cell for row in rows for cell in row if cell.startswith(("=", "@"))])
        self.assertEqual(sorted(row["target"] for row in csv.DictReader(io.StringIO(texts["targets"]))),
                         ['/";@b', "/a;=1+1"])

    def test_marks(self):
        nothing, many = float("nan"), pages.FEW + 1
        self.assertEqual(pages.marked([1.0, nothing, 3.0]), [0, 1, 2])
        self.assertEqual(pages.marked([1.0] * many), [])
        alone = [5.0, nothing] + [1.0] * many + [nothing, 2.0, nothing, nothing, 4.0]
        self.assertEqual(pages.marked(alone), [0, many + 3, many + 6])

    def test_same_page(self):
        texts = [self.run_on(TABLE)[2]["page"] for _ in range(2)]
        self.assertEqual(texts[0], texts[1])

    def test_tiers_on_axes_of_their_own(self):
        """Of two tiers rates and credits have an axis each, which ends a little above its own values."""
        rates, drawn = (10**9, 2_000), []
        table = HEADING + "".join(admitted(number, number * 10**6, 10, tier=number % 2, rate=rates[number % 2])
                                  for number in range(8))

        with unittest.mock.patch.object(pages, "svg_of", lambda figure: drawn.append(figure) or "<svg/>"):
            self.run_on(table, "--step", "1")
        tops = [[axes.get_ylim()[1] for axes in figure.axes] for figure in drawn]
        self.assertEqual([len(of) for of in tops], [1, 1, 1, 1, 2, 2, 1, 1])
        self.assertEqual([round(top, 6) for top in tops[4]], [1.05 * 10**6, 2.1])
        self.assertEqual([axes.get_ylabel() for axes in drawn[4].axes], ["tier 0", "tier 1"])
        pages.pyplot.close("all")

    def test_last_step(self):
        """A step is whole where a message comes in its last tenth; else it is hatched, from the step before on."""
        for last, is_part in ((2_899_999, True), (2_900_000, False)):
            drawn = []
            with unittest.mock.patch.object(pages, "svg_of", lambda figure: drawn.append(figure) or "<svg/>"):
                rows = [admitted(number, tick, 10) for number, tick in enumerate((0, 10**6, last))]
                self.run_on(HEADING + "".join(rows), "--step", "1")
            for figure in drawn:
                spans = [patch for patch in figure.axes[0].patches if patch.get_hatch()]
                self.assertEqual([patch.get_xy()[:, 0].min() for patch in spans], [1.0] * is_part)
                texts = [text.get_text() for legend in filter(None, [figure.axes[0].get_legend()])
                         for text in legend.get_texts()]
                self.assertEqual("last step, not whole" in texts, is_part)
            pages.pyplot.close("all")

    def test_labels_below(self):
        """A label that would stick out of the picture ends at its place."""
        figure, (axes,) = pages.axes_of(1)
        axes.set_xlim(0, 100)
        pages.set_labels_below(axes, [0, 50, 99.5], ["18:49:39.25"] * 3)
        self.assertEqual([text.get_horizontalalignment() for text in axes.get_xticklabels()],
                         ["center", "center", "right"])
        pages.pyplot.close(figure)
        for span, is_of_day, begin in ((2.1, True, 784147777), (3_000, True, 784147777), (10**5, True, 784147777),
                                       (10**7, True, 784147777), (0.5, False, 0)):
            places, labels = steps.labels_between(begin, 0, span, is_of_day)
            room = (pages.WIDTH - pages.LEFT - pages.RIGHT) * (places[1] - places[0]) / span
            self.assertLess(max(len(row) for label in labels for row in label.split("\n")) * pages.DIGIT, 1.1 * room)

    def test_times_of_axes(self):
        self.assertEqual(steps.marks_between(0, 10), [0, 2, 4, 6, 8, 10])
        self.assertEqual(steps.marks_between(784111777, 784111777 + 3600),
                         [784112400 + 900 * place for place in range(4)])
        self.assertEqual(steps.time_in_words(784111777, 10, True), "8:49:37")
        self.assertEqual(steps.time_in_words(784111777, 3 * 86_400, True), "8:49\nNov 06")
        self.assertEqual(steps.time_in_words(784111777, 30 * 86_400, True), "Nov 06\n1994")
        self.assertEqual(steps.time_in_words(3_725, 10_000, False), "1:02")
        self.assertEqual(steps.time_in_words(0.25, 1, False), "0:00:00.25")


class Faults(Base):
    def check(self, table, line, *words):
        """A table that is damaged: a line, and no output."""
        status, error, texts = self.run_on(table, *words)
        self.assertEqual((status, error, texts), (1, "timeline: %s\n" % line, {}))

    def test_damaged(self):
        """The heading is row 1."""
        self.check("haboob-report 1\n", "table: this is no table of decisions")
        self.check("", "table: this is no table of decisions")
        self.check(TABLE[:-10], "table: row 6: cut, or not as many fields as the heading has")
        self.check(TABLE.replace("2000000,1,503", "2000000,4,503"), "table: row 6: tier: '4' isn't one")
        self.check(TABLE.replace("3,2,700000,0,400", "3,2,seven,0,400"), "table: row 5: tick: 'seven' isn't one")
        self.check(TABLE.replace("bypassed", "lost"), "table: row 5: decision: 'lost' isn't one")
        self.check(TABLE.replace(",,500000,GET", ",500000,GET"), "table: row 4: not as many fields as the heading has")
        self.check(TABLE.replace("4000,500000,1100000", "4000,500000,"), "table: row 3: finish: isn't there")
        self.check(TABLE.replace("500000,1100000", "500000,400000"), "table: row 3: tick, start and finish don't rise")
        self.check(TABLE.replace("600000,0,503", "400000,0,503"),
                   "table: row 4: the tick is lower than that of the row before")
        self.check(TABLE.replace("3,2,700000", "3,2," + "7" * 19), "table: row 5: tick: '%s' isn't one" % ("7" * 19))
        self.check(TABLE.replace("/a\n", "/" + "a" * 70_000 + "\n"), "table: row 2: longer than 65536 bytes")
        self.check(TABLE.encode().replace(b"GET,/b", b"GET,/\xa7"), "table: row 3: target: '/\\udca7' isn't one")
        self.check(TABLE.replace("GET,/b", "G\x7fT,/b"), "table: row 3: method: 'G\\x7fT' isn't one")
        for old, new, words in ((",999,1,GET", ",999,17,GET", "pool: '17' isn't one"),
                                (",999,1,GET", ",999,,GET", "pool: isn't there"),
                                (",999,1,GET", ",999,GET", "not as many fields as the heading has")):
            self.check(POOLS.replace(old, new), "table: row 3: " + words)
        self.check(POOLS.replace("waited,pool,", "pool,waited,"), "table: this is no table of decisions")
        self.check(TABLE.replace("GET,/b", "GET,\"/b").encode() + b"\xff\x00\n",
                   "table: row 7: not as many fields as the heading has")

    def test_files(self):
        self.check(TABLE, "absent: No such file or directory", "--capture", str(self.folder / "absent"))
        self.check(
            TABLE, "table: this is no capture, but text; if it is an access log, tools/capture_from_log.py reads it",
            "--capture", str(self.table))
        self.capture.write_bytes(b"\xd4\xc3\xb2\xa1\x02")
        self.check(
            TABLE, "day.capture: this is no capture, but recorded packets, which tools/capture_from_pcap.py reads",
            "--capture", str(self.capture))
        self.settings.write_text("[policy]\ntarget = 0\n")
        self.check(TABLE, "site.toml: target: not from 1 to 1000000000000 microseconds",
                   "--settings", str(self.settings))
        for servers in ("0", "1025", "[2]"):
            self.settings.write_text("[costs]\nservers = %s\n" % servers)
            self.check(TABLE, "site.toml: costs.servers: not from 1 to 1024 servers", "--settings", str(self.settings))
        for servers in ("0", "1025", "'2'"):
            self.settings.write_text(OF_POOLS.replace("servers = 2", "servers = " + servers))
            self.check(POOLS, "site.toml: pool.<fast>.servers: not from 1 to 1024 servers",
                       "--settings", str(self.settings))
        for text in ("[costs]\ndelay = -1\n", "[[route]]\nprefix = '/'\ndelay = 1000000001\n",
                     "[[route]]\nprefix = '/'\ndelay = '1'\n"):
            self.settings.write_text(text)
            self.check(TABLE, "site.toml: delay: not from 0 to 1000000000 microseconds",
                       "--settings", str(self.settings))
        for text in ("cost = 1", "prefix = 1", "prefix = 'a'"):
            self.settings.write_text("[[route]]\n%s\n" % text)
            self.check(TABLE, "site.toml: route.prefix: no text that begins with a slash",
                       "--settings", str(self.settings))
        self.settings.write_text("a = " + "[" * 5000)
        status, error, texts = self.run_on(TABLE, "--settings", str(self.settings))
        self.assertEqual((status, error.count("\n"), texts), (1, 1, {}))

    def test_same_file(self):
        """An output that is the table, by whatever name, is refused, and the table stays."""
        self.table.write_text(TABLE)
        link, hard = self.folder / "link", self.folder / "hard"
        link.symlink_to(self.table)
        os.link(self.table, hard)
        for path in (self.table, link, hard):
            for words in (["--output", str(path)], ["--output", str(self.page), "--csv", str(path)]):
                error = io.StringIO()
                with contextlib.redirect_stderr(error):
                    status = timeline.main([*words, str(self.table)])
                self.assertEqual(status, 2)
                self.assertIn("the output is the input; give it another name", error.getvalue())
        self.assertEqual(self.table.read_text(), TABLE)
        with contextlib.redirect_stderr(io.StringIO()):
            status = timeline.main(["--output", str(self.page), "--csv", str(self.page), str(self.table)])
        self.assertEqual((status, self.page.exists()), (2, False))

    def test_older_output(self):
        """After a fault the older outputs are as they were, and no part stays."""
        self.page.write_text("older")
        self.seconds.write_text("older")
        self.assertEqual(self.run_on(TABLE[:-10])[2], {"page": "older", "seconds": "older"})
        self.assertEqual(len(list(self.folder.iterdir())), 4)

    def test_one_that_cannot_be_written(self):
        """Where one of the outputs can't be made or written, all older ones are as they were."""
        absent = str(self.folder / "absent" / "targets")
        for path, reason in ((absent, "No such file or directory"), ("/dev/full", "No space left on device")):
            self.page.write_text("older")
            self.seconds.write_text("older")
            status, error, texts = self.run_on(TABLE, "--targets", path)
            path = path.replace(str(self.folder) + "/", "")
            self.assertEqual((status, error, texts), (
                1, "timeline: %s: %s\n" % (path, reason), {"page": "older", "seconds": "older"}))
            self.assertEqual(len(list(self.folder.iterdir())), 4)

    def test_full_disk(self):
        """A file may have no more than 1,000 bytes: the page can't be written, and the older one stays."""
        self.table.write_text(TABLE)
        self.page.write_text("older")

        def limit():
            signal.signal(signal.SIGXFSZ, signal.SIG_IGN)
            resource.setrlimit(resource.RLIMIT_FSIZE, (1000, 1000))

        ran = subprocess.run([sys.executable, TOOLS / "timeline.py", "--output", self.page, self.table],
                             preexec_fn=limit, capture_output=True, text=True,
                             env={**os.environ, "PYTHONDONTWRITEBYTECODE": "1"})
        self.assertEqual((ran.returncode, self.page.read_text()), (1, "older"))
        self.assertIn("timeline: %s: File too large" % self.page, ran.stderr)

    def test_interrupted(self):
        """Ctrl-C while the table comes over a pipe: status 130, no traceback, and the older page stays."""
        self.page.write_text("older")
        signal.signal(signal.SIGINT, signal.default_int_handler)  # it is ignored where tests run in the background
        os.mkfifo(self.table)
        process = subprocess.Popen([sys.executable, TOOLS / "timeline.py", "--output", self.page, self.table],
                                   stderr=subprocess.PIPE)
        with open(self.table, "wb") as pipe:  # which waits until the tool reads
            pipe.write((HEADING + admitted(0, 0, 1)).encode())
            pipe.flush()
            process.send_signal(signal.SIGINT)
            _, errors = process.communicate(timeout=60)
        self.assertEqual((process.returncode, self.page.read_text()), (130, "older"))
        self.assertNotIn(b"Traceback", errors)

    def test_progress(self):
        """Lines where standard error is no terminal."""
        table = HEADING + "".join(admitted(number, number, 1, target="/" + "a" * 4_000) for number in range(600))
        with unittest.mock.patch("haboob_tools.tool_run.PROGRESS_STEP", 0.0):
            status, error, _ = self.run_on(table)
        self.assertEqual(status, 0)
        self.assertRegex(error, r"^timeline: \d+% .*/2[.]\d+M \[\d\d:\d\d<.*B/s\]\n")

    def test_closed_errors(self):
        """With standard error closed the statuses are the same."""
        for words, status in (([], 2), (["--output", self.page, self.folder / "absent"], 1)):
            ran = subprocess.run([sys.executable, TOOLS / "timeline.py", *words], preexec_fn=lambda: os.close(2),
                                 stdout=subprocess.DEVNULL)
            self.assertEqual(ran.returncode, status)

    def test_mutated_tables(self):
        """Bytes of a table are changed, left out or doubled at random: a page, or one line; never anything else."""
        random_ = random.Random(1729)
        sound = (TABLE + "".join(admitted(number, 3 * 10**6 + number, 10, target="/%2C")
                 for number in range(5, 9))).encode()
        statuses = {0: 0, 1: 0}
        with unittest.mock.patch.object(timeline, "page_of", lambda *_: "page"):
            for _ in range(MUTATIONS):
                data = bytearray(sound)
                for _ in range(random_.randint(1, 3)):
                    place = random_.randrange(len(HEADING) - 2, len(data))
                    data[place:place + random_.choice((0, 1, 1, 9))] = random_.choice(
                        (b"", b"9", b",", b"\n", b"-", b"\x00", b"\xff", b'"', b"=", b"99999999999999999", b"e", b"\r"))
                status, error, _ = self.run_on(bytes(data))
                self.assertIn(status, (0, 1), bytes(data))
                self.assertEqual(error.count("\n"), status, bytes(data))
                statuses[status] += 1
        self.assertGreater(min(statuses.values()), 0)


if __name__ == "__main__":
    unittest.main()
