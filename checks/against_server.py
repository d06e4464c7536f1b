#!/usr/bin/env python3
"""Goes the whole round with real servers: records them, fits costs to that, and replays other recordings of them.

    checks/against_server.py PROGRAM [--seconds N] [--seed N] [--round NAME] [--keep FOLDER]

Servers of Debian's packages stand before backends whose costs are known: so much for a file, for each KiB of it, for an
error, and for each of the two paths of a slow API. The load is open-loop: requests are sent at their times whatever
becomes of the others, in bursts too, each on a connection of its own. The clients are the script's own, since wrk, hey,
ab and siege aren't open-loop: each of their connections waits for an answer before it sends the next request. Each
round is recorded twice, --seconds each (25 without it), with requests by different seeds; tcpdump records the packets,
the server its log. Then:

  - tools/calibrate.py fits settings to the first recording. It has to find the number of servers, the routes of the
    API, and costs within 10% of those of the backend; and its check has to hold.
  - The second recording, which no fit has seen, is replayed under these settings. Of each route and of all requests,
    p50, p90 and p99 have to be within 10% of what was measured, the greatest time within 15%; and the number of
    requests that nginx's limit rejects within 2%, in all and by the sum of the differences in each second.

What was measured is read from the packets by checks/lib/packets.py, not by the tools, but where the log is named for it
below. The rounds, each by packets and by logs:

  nginx     with the lines that tools/sweep.py prints for its limit, before one process, before four, and before four
            that also answer the API.
  nginx with files
            serves the files itself, and passes the API to four processes. Only its log, with $upstream_response_time
            and $upstream_connect_time, tells who answered. So the fit is by the log alone, and has to have a pool
            `upstream` of four servers, and the API's routes in it. Packets and log are replayed under it, and compared
            with $request_time: nginx takes some 0.1 ms for a file, and once in some thousand requests the kernel of a
            busy machine lets it begin by milliseconds later, which packets show and nginx's log doesn't.
  Apache    prefork with four workers, each a server, before more processes than these. Its log's %D and %t begin when
            a worker takes the request. So the replay of the log is compared with %D, without waits for a worker, and
            the replay of the packets with the whole time.
  HAProxy   four servers of one process, each with `maxconn 1`; its log is that of `option httplog`, with Tw/Tc/Tr.
  lighttpd  before three processes, with %{begin:usec}t and %D in its log.

A server may add 600 microseconds to a cost of its backend, and a time that is off by no more isn't off. Prints what was
measured and what was found, and then how many comparisons failed. Exits with 1 where one did. It needs root, the
servers, tcpdump and the libraries of the tools, and takes about nine minutes.
"""
import asyncio
import collections
import csv
import os
import pathlib
import random
import shutil
import signal
import subprocess
import sys
import tempfile
import time
import tomllib

from lib import packets, site_servers
from lib.report import Report
from lib.servers import HOST, running
from lib.site_servers import API, APACHE, HAPROXY, LIGHTTPD, LONGEST, NGINX, NGINX_WITH_FILES, SIZES
from lib.sources import TOP
from lib.usage import parser_of

TOOLS = pathlib.Path(TOP, "tools")
sys.path.insert(0, str(TOOLS))
from haboob_tools import response_delays, server_lines, settings_documents

PYTHON = "/usr/bin/python3"
NEEDED = ("nginx", "apache2", "haproxy", "lighttpd", "tcpdump", PYTHON)
COST_PART, TIME_PART, GREATEST_PART, AWAY_PART = 0.10, 0.10, 0.15, 0.02  # of a figure, by which it may be off
LEAST_ASKED = 100  # admitted requests of a route whose percentiles are compared
SLACK = 600  # microseconds that a server adds to a cost of the backend; a time that is off by no more isn't off
KIB_SLACK = 2  # microseconds that it adds to that of a KiB
TURNED_AWAY = 503
UPSTREAM = "upstream"  # the pool of the servers behind nginx
MEMORY = "/dev/shm"  # where recordings are written, so that no server waits for a disk to take a line of its log
OPEN = "rate = 1000000000\nrate_max = 1000000000\ndepth = 1000000\n"  # a policy that admits all

# A round: its name, the kind of server, how many requests are worked on at once, the requests a second and the size of
# a burst, nginx's limit as a rate and a depth, and by how much of the requests each is asked for: the three sizes of
# files, nothing that is there, and the two parts of the API.
Round = collections.namedtuple("Round", "name kind servers pace burst limit asked")
FILES_ALONE, MIXED = (50, 35, 5, 10, 0, 0), (25, 20, 5, 5, 27, 18)
ROUNDS = (Round("nginx one", NGINX, 1, 35, 35, (60, 20), FILES_ALONE),
          Round("nginx four", NGINX, 4, 140, 130, (240, 60), FILES_ALONE),
          Round("nginx API", NGINX, 4, 80, 70, (140, 50), MIXED),
          Round("nginx with files", NGINX_WITH_FILES, 4, 120, 90, None, MIXED),
          Round("Apache", APACHE, 4, 80, 70, None, MIXED),
          Round("HAProxy", HAPROXY, 4, 80, 70, None, MIXED),
          Round("lighttpd", LIGHTTPD, 3, 60, 50, None, MIXED))

# A recording: its folder, the server's port, and the plan's times and targets of the requests by their numbers.
Recording = collections.namedtuple("Recording", "folder port times targets")


def limit_lines(limit):
    """The lines of a limit as tools/sweep.py prints them: those of http { }, and those of server { }."""
    if not limit:
        return "", ""
    rate, depth = limit
    lines = server_lines.nginx({0: settings_documents.Policy(1000 * rate, 1000 * rate, 1000 * rate, depth)})
    is_zone = [line.startswith("limit_req_zone") for line in lines]
    return tuple("\n".join(line for line, holds in zip(lines, is_zone) if holds == of) for of in (True, False))


def plan(a_round, seconds, seed):
    """When each request is sent, and for what: on average `pace` a second, and each two seconds a burst within 50
    milliseconds."""
    random_ = random.Random("%s %s" % (a_round.name, seed))
    times = []
    now = 0.0
    while now < seconds:
        now += random_.expovariate(a_round.pace)
        times.append(now)
    for second in range(1, int(seconds), 2):
        times += [second + 0.05 * random_.random() for _ in range(a_round.burst)]
    names = random_.choices((*SIZES, "none", *API), a_round.asked, k=len(times))
    return sorted(times), ["/%s?n=%d" % (name, number) for number, name in enumerate(names)]


async def ask(port, begin, when, target, failures):
    """Sends one request at its time, and reads its answer."""
    await asyncio.sleep(max(0, begin + when - time.monotonic()))
    try:
        reader, writer = await asyncio.open_connection(HOST, port)
        writer.write(b"GET %s HTTP/1.1\r\nHost: site\r\nConnection: close\r\n\r\n" % target.encode())
        await asyncio.wait_for(reader.read(-1), LONGEST)
        writer.close()
    except (OSError, asyncio.TimeoutError) as error:
        failures.append(error)


async def ask_all(port, requests):
    """Sends all requests, each at its time whatever becomes of the others; returns how many failed."""
    begin, failures = time.monotonic() + 0.5, []
    await asyncio.gather(*(ask(port, begin, when, target, failures) for when, target in requests))
    return len(failures)


def record(folder, a_round, seconds, seed):
    """Records a round, with the requests of a seed, in a new folder."""
    times, targets = plan(a_round, seconds, seed)
    folder.mkdir()
    site_servers.begin_site(folder)
    of_server = a_round.kind, a_round.servers, *limit_lines(a_round.limit)
    with site_servers.hurried(), site_servers.site(folder, *of_server) as port:
        words = ["tcpdump", "-i", "lo", "-s", "0", "-B", "65536", "-U", "-w", folder / "site.pcap",
                 "tcp port %d" % port]
        with running(words, signal.SIGINT, stderr=subprocess.DEVNULL):
            site_servers.wait_until(lambda: (folder / "site.pcap").exists(), "tcpdump")
            time.sleep(1)
            failed = asyncio.run(ask_all(port, list(zip(times, targets))))
            time.sleep(1)
    print("%s: %d requests in %d seconds, %d failed" % (a_round.name, len(times), seconds, failed), flush=True)
    if failed:
        sys.exit("requests failed: the round says nothing")
    return Recording(folder, port, times, targets)


def run(*words):
    """What a command prints; ends the script where it fails."""
    ran = subprocess.run(list(map(str, words)), capture_output=True, text=True)
    if ran.returncode:
        sys.exit("%s: status %d: %s" % (" ".join(map(str, words)), ran.returncode, ran.stderr.strip()))
    return ran.stdout


class Comparisons(Report):
    """Compares figures, and counts those that differ too much."""

    def near(self, what, found, real, most):
        """Compares a figure with the one that it should be, from which it may be off by so much."""
        numbers = "%10.0f for %10.0f  %+6.1f%%" % (found, real, 100 * (found - real) / max(abs(real), 1))
        self.see("  " + what, abs(found - real) <= most, "%s   FAILED (more than %.0f off)" % (numbers, most), numbers)

    def true(self, what, holds):
        """Notes whether something holds."""
        self.see("  " + what, holds, "NO   FAILED", "yes")


def decisions_of_table(path, settings):
    """The statuses and response times of requests by their numbers, by a table of decisions."""
    statuses, times, delays = {}, {}, response_delays.Delays(settings)
    with open(path, newline="") as file:
        for row in csv.DictReader(file):
            number = int(row["target"].partition("?n=")[2])
            statuses[number] = int(row["status"])
            if row["decision"] == "admitted":
                times[number] = int(row["finish"]) - int(row["tick"]) + delays.of(row["target"])
    return statuses, times


def percentile(times, percent):
    """The time at rank ceil(percent * m / 100) of m."""
    return sorted(times)[-(-percent * len(times) // 100) - 1]


def source_of(recording, kind, name):
    """The file of a recording by the name of its kind, and the words that tell tools how it is read."""
    if name == "pcap":
        return recording.folder / "site.pcap", ["--port", recording.port]
    return recording.folder / site_servers.LOG, ["--log-format", kind.log_format]


def calibrated(recording, a_round, name, comparisons):
    """Calibrates by a recording, and compares what was found; the settings."""
    settings, page = (recording.folder / (name + end) for end in (".toml", ".html"))
    source, words = source_of(recording, a_round.kind, name)
    text = run(PYTHON, TOOLS / "calibrate.py", *words, "--anyway", "--output", settings, "--page", page, source)
    print("".join("  | %s\n" % line for line in text.splitlines()), end="")
    tables = tomllib.loads(settings.read_text())
    compare_servers(comparisons, "fit by " + name, a_round, tables)
    comparisons.true("fit by %s: the check holds" % name, "the check fails" not in text)
    compare_costs(comparisons, "fit by " + name, a_round, tables)
    return settings.read_text()


def compare_servers(comparisons, name, a_round, tables):
    """Compares the servers that were found, and the routes; where the server has the files, the pool of the others."""
    routes = tables.get("route", [])
    comparisons.true("%s: the routes are those of the API" % name, {route["prefix"][1:] for route in routes} == {
        one for one, share in zip(API, a_round.asked[-len(API):]) if share})
    pools = {pool["name"]: pool["servers"] for pool in tables.get("pool", [])}
    of_routes = {route.get("pool") for route in routes}
    if a_round.kind.has_files:
        comparisons.true("%s: %d servers in a pool" % (name, a_round.servers), pools == {UPSTREAM: a_round.servers})
        comparisons.true("%s: the routes are of the pool" % name, of_routes == {UPSTREAM})
    else:
        comparisons.true("%s: %d servers" % (name, a_round.servers),
                         not pools and tables["costs"].get("servers", 1) == a_round.servers)


def compare_costs(comparisons, name, a_round, tables):
    """Compares the costs that were found with those of the backend; the server itself takes no time for a file."""
    costs, has_files = tables["costs"], a_round.kind.has_files
    delay = costs.get("delay", 0)
    for part, real in (("file", site_servers.FILE), ("kib", site_servers.KIB), ("error", site_servers.ERROR)):
        real = 0 if has_files else 1e6 * real
        comparisons.near("%s: costs.%s" % (name, part), costs.get(part, 0) + (part != "kib") * delay, real,
                         COST_PART * real + (KIB_SLACK if part == "kib" else SLACK))
    for route in tables.get("route", []):
        prefix = route["prefix"][1:]
        real = 1e6 * API.get(prefix, 0)
        comparisons.near("%s: the route %s" % (name, prefix), route["cost"] + route.get("delay", delay), real,
                         COST_PART * real + SLACK)


def replayed(program, recording, a_round, name, costs):
    """The statuses and response times of a recording's requests in a replay with the costs that were found."""
    folder = recording.folder
    settings, capture, table = (folder / ("replay_%s.%s" % (name, end)) for end in ("toml", "capture", "csv"))
    source, words = source_of(recording, a_round.kind, name)
    tool = "capture_from_%s.py" % name
    run(PYTHON, TOOLS / tool, *words, "--output", capture, source)
    policy = OPEN
    if a_round.limit:
        policy = "rate = {0}\nrate_min = {0}\nrate_max = {0}\ndepth = {1}\n".format(
            1000 * a_round.limit[0], a_round.limit[1])
    settings.write_text("%s\n[policy]\n%s" % (costs, policy))
    run(program, "snapshot", "--folder", folder / "site", "--output", folder / "site.snapshot")
    run(program, "explain", "--snapshot", folder / "site.snapshot", "--capture", capture, "--settings", settings,
        "--messages", table)
    return decisions_of_table(table, tomllib.loads(costs))


def compare_decisions(comparisons, name, real, found, times):
    """Compares who was turned away: each second of the plan, and in all."""
    seconds = collections.defaultdict(lambda: [0, 0])
    for number, answer in real.items():
        seconds[int(times[number])][0] += answer.status == TURNED_AWAY
        seconds[int(times[number])][1] += found.get(number) == TURNED_AWAY
    away_real, away = map(sum, zip(*seconds.values()))
    apart = sum(abs(first - second) for first, second in seconds.values())
    comparisons.near("%s: turned away" % name, away, away_real, AWAY_PART * away_real)
    comparisons.near("%s: turned away, second by second" % name, away_real + apart, away_real, AWAY_PART * away_real)


def compare_times(comparisons, name, real, found, targets):
    """Compares response times: of files and what isn't there, of each part of the API, and of all."""
    parts = {of: {number for number, target in enumerate(targets) if target.startswith("/%s?" % of)} for of in API}
    every = set(range(len(targets)))
    rest = every.difference(*parts.values())
    for of, numbers in {**parts, "the rest": rest if rest < every else (), "all": every}.items():
        measured, others = ([times[number] for number in numbers if number in times] for times in (real, found))
        if len(measured) < LEAST_ASKED:
            continue
        for percent in (50, 90, 99, 100):
            real_time, part = percentile(measured, percent), TIME_PART if percent < 100 else GREATEST_PART
            comparisons.near("%s: %s of %s" % (name, "p%d" % percent if percent < 100 else "greatest", of),
                             percentile(others, percent), real_time, max(part * real_time, SLACK))


def are_sound(a_round, recording, real):
    """Whether each request was answered with the status of its target, or turned away where there is a limit."""
    others = {TURNED_AWAY} if a_round.limit else set()
    names = [target[1:].partition("?")[0] for target in recording.targets]
    return set(real) == set(range(len(names))) and all(
        real[number].status in {site_servers.cost_of(name)[0], *others} for number, name in enumerate(names))


def compare_round(program, a_round, recordings, comparisons):
    """Fits settings to the first recording of a round, replays the second one under them, and compares."""
    first, second = recordings
    fits = {name: calibrated(first, a_round, name, comparisons)
            for name in (("log",) if a_round.kind.has_files else ("pcap", "log"))}
    real = packets.answers(second.folder / "site.pcap", second.port)
    comparisons.true("recorded: each of %d requests has its status" % len(second.times),
                     are_sound(a_round, second, real))
    for name in ("pcap", "log"):
        statuses, times = replayed(program, second, a_round, name, fits.get(name, fits["log"]))
        shown = "replay by " + name
        measured = whole = {number: answer.took for number, answer in real.items() if answer.status != TURNED_AWAY}
        if a_round.kind.times and name in a_round.kind.times.sources:
            measured = site_servers.logged_times(second.folder, a_round.kind.times)
        comparisons.true("%s: all requests are there" % shown,
                         set(real) == set(statuses) and set(whole) == set(measured))
        if a_round.limit:
            compare_decisions(comparisons, shown, real, statuses, second.times)
        compare_times(comparisons, shown, measured, times, second.targets)


def main():
    parser = parser_of(__doc__)
    parser.add_argument("--seconds", type=int, default=25, metavar="N",
                        help="how long each recording is; in fewer than 20 a route has too few requests")
    parser.add_argument("--seed", type=int, default=1, metavar="N", help="what chooses the requests; 1 without it")
    names = [a_round.name for a_round in ROUNDS]
    parser.add_argument("--round", choices=names, metavar="NAME", help="one round alone: %s" % ", ".join(names))
    parser.add_argument("--keep", metavar="FOLDER", help="keep what was recorded in this new folder")
    options = parser.parse_args()
    missing = [name for name in NEEDED if not shutil.which(name)] + [MEMORY] * (not os.path.isdir(MEMORY))
    if missing or os.geteuid():
        sys.exit("needs %s" % (", ".join(missing) or "root, as tcpdump does"))
    signal.signal(signal.SIGTERM, lambda *_: sys.exit("ended by SIGTERM"))  # so that all that it started ends, too
    comparisons = Comparisons(width=54)
    for a_round in ROUNDS:
        if options.round not in (None, a_round.name):
            continue
        with tempfile.TemporaryDirectory(dir=MEMORY) as temporary:
            folder = pathlib.Path(temporary)
            recordings = [record(folder / name, a_round, options.seconds, "%d, %s" % (options.seed, name))
                          for name in ("first", "second")]
            if options.keep:
                shutil.copytree(folder, pathlib.Path(options.keep, a_round.name.replace(" ", "_")))
            compare_round(options.program, a_round, recordings, comparisons)
    return comparisons.end("{runs} comparisons, {wrong} failed")


if __name__ == "__main__":
    sys.exit(main())
