#!/usr/bin/python3
"""Tests of calibrate.py on servers that are simulated here, event by event, in another way than the tool's.

    /usr/bin/python3 tools/test_calibrate.py

MUTATIONS=N in the environment tries N damaged inputs.
"""
import collections
import contextlib
import csv
import datetime
import gzip
import heapq
import io
import json
import os
import pathlib
import random
import re
import socket
import subprocess
import sys
import tempfile
import tomllib
import unittest
import unittest.mock

TOOLS = pathlib.Path(__file__).resolve().parent
sys.path.insert(0, str(TOOLS))
import dpkt
import h11
import numpy

from haboob_tools import (calibrate, cost_fit, input_files, measured_times, request_text, response_delays, route_search,
                          settings_documents, tool_run)

MUTATIONS = int(os.environ.get("MUTATIONS", 60))
DATA = TOOLS / "data"
START = 1_700_000_000  # seconds since 1970
SECOND = 1_000_000
COUNT = 2_400
PIECE = 30_000  # bytes of a packet
SEGMENT = 1_448  # bytes of a packet as Ethernet mostly has it
MIB = 1_048_576
GET_A = b"GET /a HTTP/1.1\r\nHost: a\r\n\r\n"
PROGRAM = TOOLS.parent / "crates" / "haboob" / "out" / "haboob"
FORMATS = TOOLS.parent / "docs" / "FORMATS.md"

# An answer: when its request came, when the server was done with it, and when it was there.
Answer = collections.namedtuple("Answer", "arrival done end method status size target")
# A kind of requests: of so many of all, what they ask for, what comes of them, and what that takes: microseconds,
# those of each KiB, and those beside the server; and the typical size.
Kind = collections.namedtuple("Kind", "weight prefix method status cost kib delay size")
MIXED = (Kind(70, "/static/", "GET", 200, 1_500, 20, 0, 8_000),
         Kind(20, "/api/item/", "GET", 200, 12_000, 0, 3_000, 900),
         Kind(10, "/api/search/", "GET", 200, 45_000, 30, 8_000, 40_000), Kind(2, "/gone/", "GET", 404, 400, 0, 0, 0))


def served(seed, servers, kinds, gap, count, burst=30, spread=0.0, apart=0):
    """Answers of a server whose costs are known: clients come one by one, a `gap` apart on average, and now and then in
    bursts, so much `apart`; a queue, and servers that take its first when they are free. With a spread each takes so
    much more or less time (the deviation of its logarithm)."""
    random_ = random.Random(seed)
    now, coming = 0.0, []
    while len(coming) < count:
        now += random_.expovariate(1 / gap)
        for _ in range(random_.randint(5, burst) if random_.random() < 0.02 else 1):
            kind = random_.choices(kinds, [one.weight for one in kinds])[0]
            now += apart
            coming.append((now, kind, int(kind.size * random_.lognormvariate(0, 1.1)), random_.randrange(900)))
    def work_on(place):
        _, kind, size, _ = coming[place]
        return (kind.cost + kind.kib * size / 1024) * (random_.lognormvariate(0, spread) if spread else 1)

    answers = []
    for place, done in worked([arrival for arrival, *_ in coming], servers, work_on):
        arrival, kind, size, number = coming[place]
        answers.append(Answer(arrival, done, done + kind.delay, kind.method, kind.status, size,
                              kind.prefix + str(number)))
    return answers


def worked(arrivals, servers, work_on):
    """When servers are done with each of what arrives, in the order in which they begin: its place, and the time. A
    queue, and servers that take its first when they are free, and work so long on a place."""
    queue, free, events = collections.deque(), servers, []
    for place, arrival in enumerate(arrivals):
        heapq.heappush(events, (arrival, 1, place))
    while events:
        time, is_arrival, place = heapq.heappop(events)
        if is_arrival:
            queue.append(place)
        else:
            free += 1
        while free and queue:
            free -= 1
            place = queue.popleft()
            done = time + work_on(place)
            heapq.heappush(events, (done, 0, place))
            yield place, done


def replayed(tables, answers):
    """The times that settings give the requests of answers, each on the servers of its route's pool."""
    pools = {None: tables["costs"].get("servers", 1), **{pool["name"]: pool["servers"] for pool in tables["pool"]}}
    asked, times = sorted(answers, key=lambda one: one.arrival), {}
    routes = [next((route for route in tables["route"] if (one.target + "/").startswith(route["prefix"] + "/")), {})
              for one in asked]

    def work_on(place):
        costs = routes[place] or tables["costs"]
        cost = costs["cost"] if routes[place] else costs["file" if asked[place].status == 200 else "error"]
        return cost + costs.get("kib", 0) * asked[place].size / 1024

    for pool, servers in pools.items():
        places = [place for place, route in enumerate(routes) if route.get("pool") == pool]
        for number, done in worked([asked[place].arrival for place in places], servers,
                                   lambda number: work_on(places[number])):
            place = places[number]
            delay = routes[place].get("delay", tables["costs"].get("delay", 0))
            times.setdefault(asked[place].target, []).append(done + delay - asked[place].arrival)
    return times


def simulated(seed, servers, costs, delay, gap, count=COUNT, burst=40):
    """The same of a server with costs for a file, for each KiB of it and for any other answer, on one path."""
    kinds = [Kind(weight, "/", method, status, cost, kib, delay, size) for weight, method, status, cost, kib, size in (
        (85, "GET", 200, costs[0], costs[1], 8_103), (3, "HEAD", 200, costs[0], 0, 0),
        (4, "GET", 304, costs[0], 0, 0), (8, "GET", 404, costs[2], 0, 0))]
    return [one._replace(target="/a") for one in served(seed, servers, kinds, gap, count, burst)]


def seconds(ticks):
    """Microseconds as seconds with six digits, as text."""
    return "%d.%06d" % divmod(round(ticks), SECOND)


def log_of(answers):
    """The log of answers, in the order in which they were sent."""
    lines = ['127.0.0.1 - - [14/Nov/2023:22:13:20 +0000] "%s %s HTTP/1.1" %d %d "-" "-" %s %s www "-" "-"\n' % (
        one.method, one.target, one.status, one.size, seconds(START * SECOND + round(one.end)),
        seconds(round(one.end) - round(one.arrival))) for one in sorted(answers, key=lambda one: one.end)]
    return "".join(lines).encode()


def measured_of(answers):
    """How long answers took, by their targets."""
    times = {}
    for one in answers:
        times.setdefault(one.target, []).append(one.end - one.arrival)
    return times


def log_of_servers_behind(answers, prefix="/api/"):
    """The log of nginx, in milliseconds, that asks servers behind it for a prefix, and tells how long those took."""
    lines = []
    for one in sorted(answers, key=lambda one: one.end):
        end, done, arrival = (START * 1000 + int(time / 1000) for time in (one.end, one.done, one.arrival))
        behind = ["0.001, %.3f" % ((done - arrival) / 1000), "0.001, 0.000"] if prefix in one.target else ["-", "-"]
        lines.append('10.0.0.1 "%s %s HTTP/1.1" %d %d %.3f %.3f "%s" "%s"\n' % (
            one.method, one.target, one.status, one.size, end / 1000, (end - arrival) / 1000, *behind))
    return "".join(lines).encode()


BEHIND = ('$remote_addr "$request" $status $body_bytes_sent $msec $request_time "$upstream_response_time" '
          '"$upstream_connect_time"')


def packet(time, from_client, port, sequence, flags, data=b"", acknowledged=0):
    """A packet of a connection between a client's port and port 80, with its time in microseconds."""
    ports = {"sport": port, "dport": 80} if from_client else {"sport": 80, "dport": port}
    tcp = dpkt.tcp.TCP(seq=sequence, ack=acknowledged, flags=flags, data=data, **ports)
    hosts = [socket.inet_aton("10.0.0.1"), socket.inet_aton("10.0.0.2")][::1 if from_client else -1]
    ip = dpkt.ip.IP(src=hosts[0], dst=hosts[1], p=dpkt.ip.IP_PROTO_TCP, data=tcp)
    ip.len = len(ip)
    return (START * SECOND + round(time), bytes(dpkt.ethernet.Ethernet(type=dpkt.ethernet.ETH_TYPE_IP, data=ip)))


def packets_of(answers):
    """The packets of answers, a connection for each: the request and the answer come in two packets each."""
    packets = []
    for place, one in enumerate(answers):
        port, request = 10_000 + place, b"%s %s HTTP/1.1\r\nHost: a\r\n\r\n" % (
            one.method.encode(), one.target.encode())
        answer = b"HTTP/1.1 %d X\r\nContent-Length: %d\r\n\r\n%s" % (one.status, one.size, b"x" * one.size)
        packets += [packet(one.arrival - 200, True, port, 6, dpkt.tcp.TH_SYN),
                    packet(one.arrival - 150, False, port, 2**32 - 1, dpkt.tcp.TH_SYN | dpkt.tcp.TH_ACK),
                    packet(one.arrival - 100, True, port, 7, dpkt.tcp.TH_ACK, request[:9]),
                    packet(one.arrival, True, port, 16, dpkt.tcp.TH_ACK, request[9:]),
                    packet((one.arrival + one.end) / 2, False, port, 0, dpkt.tcp.TH_ACK, answer[:30])]
        last = range(30, len(answer), PIECE)
        packets += [packet(one.end - len(last) + number, False, port, place, dpkt.tcp.TH_ACK,
                           answer[place:place + PIECE]) for number, place in enumerate(last, 1)]
    return sorted(packets)


def pcap_of(packets):
    """A file of packets."""
    file = io.BytesIO()
    writer = dpkt.pcap.Writer(file)
    for time, data in packets:
        writer.writepkt_time(data, time / SECOND)
    return file.getvalue()


def values_of(text):
    """The values of a document of settings, of its costs and its routes, by their keys."""
    tables = tomllib.loads(text)
    parts = [("costs", tables.get("costs", {})), *(("route", route) for route in tables.get("route", []))]
    return {"%s.%s" % (table, key): value for table, entries in parts for key, value in entries.items()}


class Counted:
    """What h11 does with bytes: takes them, and searches them for a head's end. It fails where it is more than so many.
    """

    def __init__(self, most):
        self.left = most
        self.pattern, self.take = h11._receivebuffer.blank_line_regex, h11.Connection.receive_data

    def patches(self):
        counted = self
        return (unittest.mock.patch.object(h11._receivebuffer, "blank_line_regex", self),
                unittest.mock.patch.object(h11.Connection, "receive_data", lambda *words: counted.receive(*words)))

    def search(self, text, place=0):
        found = self.pattern.search(text, place)
        self.count((found.end() if found else len(text)) - place)
        return found

    def receive(self, connection, data):
        self.count(len(data))
        self.take(connection, data)

    def count(self, looked_at):
        self.left -= looked_at
        if self.left < 0:
            raise AssertionError("bytes are looked at again and again")


class Base(unittest.TestCase):
    def setUp(self):
        folder = tempfile.TemporaryDirectory()
        self.addCleanup(folder.cleanup)
        self.folder = pathlib.Path(folder.name)
        # On a busy machine there would be lines of progress.
        quiet = unittest.mock.patch.object(tool_run, "PROGRESS_STEP", float("inf"))
        quiet.start()
        self.addCleanup(quiet.stop)
        self.input, self.output, self.page = (self.folder / name for name in ("input", "costs.toml", "page.html"))

    def run_on(self, data, *words):
        """The status of a run, what it printed, and standard error."""
        self.input.write_bytes(data)
        output, errors = io.StringIO(), io.StringIO()
        with contextlib.redirect_stdout(output), contextlib.redirect_stderr(errors):
            try:
                status = calibrate.main(["--output", str(self.output), *words, str(self.input)])
            except SystemExit as end:
                status = end.code
        return status, output.getvalue(), errors.getvalue().replace(str(self.folder) + "/", "")

    def calibrated(self, data, *words):
        """What a run prints, and the costs that it writes."""
        status, output, errors = self.run_on(data, *words)
        self.assertEqual((status, errors), (0, ""))
        values = values_of(self.output.read_text())
        if PROGRAM.exists():
            ran = subprocess.run([PROGRAM, "settings", "--settings", self.output], capture_output=True, timeout=60)
            self.assertEqual((ran.returncode, ran.stderr), (0, b""))
            known = tomllib.loads(ran.stdout.decode())
            written = tomllib.loads(self.output.read_text())
            for one, other in zip([written.get("costs", {}), *written.get("route", [])],
                                  [known["costs"], *known.get("route", [])], strict=True):
                self.assertLessEqual(one.items(), other.items())
        return output, {key.partition(".")[2]: value for key, value in values.items()}

    def check_near(self, found, real, percent):
        for one, other in zip(found, real):
            self.assertLessEqual(abs(one - other), percent / 100 * other, (found, real))

    def missed(self, output, of="all"):
        """By how many percent the replayed percentiles of the second half are off, by the row of the check."""
        line = next(line for line in output.splitlines() if re.match("  %s +[0-9]+ +[0-9.]+/" % re.escape(of), line))
        return [int(number) for number in re.findall(r"([+-]\d+)%", line)]


class Fits(Base):
    """The costs, servers and delay that the simulated server has are found."""

    def test_one_server(self):
        output, costs = self.calibrated(log_of(simulated(1, 1, (3000, 40, 800), 0, 8_000)), "--page", str(self.page))
        self.assertIn("best: 1 server (", output)
        self.assertEqual(list(costs), ["file", "kib", "error"])
        self.check_near(costs.values(), (3000, 40, 800), 1)
        self.assertLessEqual(max(map(abs, self.missed(output))), 2)
        self.assertNotIn("WARNING", output)
        page = self.page.read_text()
        self.assertEqual((page.count("<svg"), page.count("<table>")), (3, 2))
        self.assertNotIn("src=", page)
        for text in ("measured", "replayed", "best: 1 server",
                     "Response times by percentile", "90th percentile over time", "by size"):
            self.assertIn(text, page)

    def test_four_servers(self):
        output, costs = self.calibrated(log_of(simulated(2, 4, (8000, 60, 900), 0, 4_000)), "--page", str(self.page))
        self.assertEqual(costs["servers"], 4)
        self.assertNotIn("delay", costs)
        self.check_near([costs[key] for key in ("file", "kib", "error")], (8000, 60, 900), 2)
        self.assertLessEqual(max(map(abs, self.missed(output))), 2)
        self.assertIn("best: 4 servers", self.page.read_text())

    def test_three_servers(self):
        """Between the numbers that are tried first."""
        _, costs = self.calibrated(log_of(simulated(13, 3, (8000, 60, 900), 0, 5_000)))
        self.check_near([costs[key] for key in ("servers", "file", "kib", "error")], (3, 8000, 60, 900), 2)

    def test_delay(self):
        output, costs = self.calibrated(log_of(simulated(3, 1, (900, 30, 300), 5_000, 2_500)))
        self.assertIn("best: 1 server (", output)
        self.check_near([costs[key] for key in ("delay", "file", "kib", "error")], (5_000, 900, 30, 300), 5)

    def test_packets(self):
        answers = simulated(4, 1, (3000, 40, 800), 0, 8_000, 600)
        output, costs = self.calibrated(pcap_of(packets_of(answers)), "--port", "80")
        self.assertIn("600 requests in ", output.replace(str(len(answers)), "600"))
        self.check_near(costs.values(), (3000, 40, 800), 5)

    def test_formats(self):
        """Apache's notation, with microseconds and the time at which the request came; a compressed log; JSON lines."""
        answers = simulated(1, 1, (3000, 40, 800), 0, 8_000, 400)
        apache = "".join('%d "%s / HTTP/1.1" %d %d %d\n' % (
            START * SECOND + round(one.arrival), one.method, one.status, one.size, round(one.end) - round(one.arrival))
            for one in answers).encode()
        lines = "".join(
            json.dumps(
                {"msec": seconds(START * SECOND + round(one.end)),
                 "request_time": seconds(round(one.end) - round(one.arrival)),
                 "request": "%s / HTTP/1.1" % one.method, "status": one.status, "body_bytes_sent": one.size}) + "\n"
            for one in answers).encode()
        for data, *words in ((apache, "--log-format", '%{begin:usec}t "%r" %>s %B %D'),
                             (gzip.compress(log_of(answers)),), (lines, "--log-format", "json")):
            self.check_near(self.calibrated(data, *words)[1].values(), (3000, 40, 800), 3)

    def test_haproxy(self):
        """Milliseconds, in which the whole request came 7 after its first byte; what never reached the server."""
        answers = simulated(1, 2, (30_000, 400, 8_000), 0, 40_000)
        lines = []
        for place, one in enumerate(answers):
            began = datetime.datetime.fromtimestamp(START + one.arrival / SECOND - 0.007, datetime.timezone.utc)
            took = round((one.end - one.arrival) / 1000)
            line = '127.0.0.1:9 [%s] in out/s 7/%d/%d/%d/%d %d %d - - ---- 1/1/1/1/0 0/0 "%s / HTTP/1.1"\n' % (
                began.strftime("%d/%b/%Y:%H:%M:%S.%f")[:-3], took // 3, took // 3, took - 2 * (took // 3), took + 907,
                one.status, one.size, one.method)
            lines += [line] + [re.sub(" 7/[^ ]* ", " 7/-1/-1/-1/7 ", line)] * (place % 50 == 0)
        output, costs = self.calibrated("".join(lines).encode(), "--log-format", "haproxy")
        self.check_near([costs[key] for key in ("file", "kib", "servers")], (30_000, 400, 2), 5)
        self.assertIn("left out: %d lines without %%Tw/%%Tc/%%Tr" % len(answers[::50]), output)

    def test_caddy(self):
        lines = [json.dumps({"ts": float(seconds(START * SECOND + round(one.end))), "logger": "http.log.access",
                             "request": {"method": one.method, "uri": "/", "headers": {}}, "size": one.size,
                             "duration": float(seconds(one.end - one.arrival)), "status": one.status}) + "\n"
                 for one in simulated(1, 1, (3000, 40, 800), 0, 8_000, 400)]
        lines[-1] = lines[-1].replace('"duration"', '"took"')
        output, costs = self.calibrated("".join(lines).encode(), "--log-format", "caddy")
        self.check_near(costs.values(), (3000, 40, 800), 3)
        self.assertIn("%d requests in" % (len(lines) - 1), output)
        self.assertIn("left out: 1 lines without duration", output)

    def test_apache_in_whole_seconds(self):
        """Combined with %D: what a worker took for a request, which holds no wait for the worker; so of a server that
        is busy all along the costs are found, and not how many there are."""
        costs, lines = (3000, 40, 800), []
        for one in simulated(1, 4, costs, 0, 1_000):
            service = costs[2] if one.status == 404 else costs[0] + costs[1] * one.size / 1024
            begun = datetime.datetime.fromtimestamp(START + (one.end - service) / SECOND, datetime.timezone.utc)
            lines.append('127.0.0.1 - - [%s +0000] "%s / HTTP/1.1" %d %d "-" "-" %d\n' % (
                begun.strftime("%d/%b/%Y:%H:%M:%S"), one.method, one.status, one.size, service))
        output, found = self.calibrated(
            "".join(lines).encode(), "--log-format", "combined_us", "--page", str(self.page))
        self.assertEqual(found, {"file": 3000, "kib": 40, "error": 800})
        self.assertIn("best: nobody waits (", output)
        self.assertIn("NOTE: if the server is Apache, its times begin when a worker takes a request", output)
        self.assertIn("WARNING: the log has whole seconds", output)
        self.assertIn("best: nobody waits", self.page.read_text())

    def test_turned_away(self):
        """Answers 503 and 499, which cost the server next to nothing, don't count."""
        answers = simulated(5, 1, (3000, 40, 800), 0, 8_000)
        away = [Answer(one.arrival, one.arrival + 30, one.arrival + 30, "GET", status, 20, "/a")
                for one in answers[::3] for status in (503, 499)]
        output, costs = self.calibrated(log_of(answers + away))
        self.assertIn("left out: %d answered 503 or 499" % len(away), output)
        self.check_near(costs.values(), (3000, 40, 800), 3)

    def test_deterministic(self):
        data = log_of(simulated(1, 1, (3000, 40, 800), 0, 8_000, 400))
        self.assertEqual(self.calibrated(data)[0], self.calibrated(data)[0])


class Routes(Base):
    """Files beside a slow API: the prefixes are found, and what the simulated server takes for each."""

    def routes(self):
        """The routes that were written, without their prefixes, by these."""
        routes = tomllib.loads(self.output.read_text())["route"]
        return {route.pop("prefix"): route for route in routes}

    def check_mixed(self, percent):
        """Compares what was written with MIXED on four servers."""
        costs = tomllib.loads(self.output.read_text())["costs"]
        self.assertEqual(costs["servers"], 4)
        self.check_near([costs["file"], costs["kib"]], (1_500, 20), percent)
        routes = self.routes()
        self.assertEqual(list(routes), ["/api/item", "/api/search"])
        self.check_near([routes["/api/item"][key] for key in ("cost", "delay")], (12_000, 3_000), percent)
        self.check_near([routes["/api/search"][key] for key in ("cost", "kib", "delay")], (45_000, 30, 8_000), percent)

    def test_found(self):
        output, _ = self.calibrated(log_of(served(1, 4, MIXED, 4_000, 6_000)), "--page", str(self.page))
        self.check_mixed(2)
        self.assertRegex(output, r"[0-9]+ requests on /gone, fewer than 200 each, are of the rest\n")
        for name in ("the rest", "/api/item", "/api/search", "all"):
            self.assertLessEqual(max(map(abs, self.missed(output, name))), 2)
            self.assertIn("<td>%s</td>" % name, self.page.read_text())
        text = self.output.read_text()
        self.assertRegex(text, r"\n# margin [1-3] percent of all costs\n")
        self.assertRegex(text, r"\nprefix = \"/api/search\"\ncost = [0-9]+  # \+-[0-9.]+%\nkib = ")

    def test_milliseconds(self):
        """A log of steps of a millisecond tells as much of all but the shortest."""
        rounded = [one._replace(end=one.end // 1000 * 1000, arrival=one.arrival // 1000 * 1000)
                   for one in served(2, 4, MIXED, 4_000, 6_000)]
        self.calibrated(log_of(rounded))
        self.check_mixed(10)

    def test_margins(self):
        """Of work that varies by a sixth the prediction holds, and the margins are wider."""
        output, _ = self.calibrated(log_of(served(3, 4, MIXED, 4_500, 9_000, spread=0.16)))
        self.assertIn("best: 4 servers (", output)
        for name in ("the rest", "/api/item", "/api/search"):
            self.assertLessEqual(max(map(abs, self.missed(output, name)[:3])), 20)
        margins = [float(found) for found in re.findall(r"\+-([0-9.]+)%", self.output.read_text())]
        self.assertGreater(max(margins), 3)

    def test_named(self):
        """Routes of the command line, also of more segments than are found; those with too few requests are told."""
        answers = [one._replace(target=one.target.replace("/api/item", "/v/1/api//item/./%69d"))
                   for one in served(1, 4, MIXED, 4_000, 6_000)]
        routes = ["--route=" + prefix for prefix in ("/v/1/api/item/id", "/api/", "/gone")]
        output, _ = self.calibrated(log_of(answers), *routes)
        self.assertEqual(list(self.routes()), ["/v/1/api/item/id", "/api"])
        self.assertEqual(self.routes()["/v/1/api/item/id"]["cost"] // 1_000, 12)
        self.assertRegex(output, "/gone: 1[0-9]+ requests, fewer than 200: they are of the rest\n")

    def test_one_for_several(self):
        """A prefix stands for those below it that are alike; before it stands one that isn't."""
        kinds = [*MIXED[:1], *(Kind(8, "/api/%s/" % name, "POST", 200, cost, 0, 0, 100) for name, cost in (
            ("a", 20_000), ("b", 20_500), ("c", 19_800), ("d", 70_000)))]
        self.calibrated(log_of(served(4, 6, kinds, 4_000, 6_000)))
        self.assertEqual(list(self.routes()), ["/api/d", "/api"])
        self.check_near([route["cost"] for route in self.routes().values()], (70_000, 20_100), 3)

    def test_tiers(self):
        log = log_of(served(1, 4, MIXED, 4_000, 3_000))
        output, _ = self.calibrated(log, "--tier", "/api/=2", "--tier", "127.0.0.1=1")
        self.assertEqual([line.split()[1] for line in output.splitlines() if line.startswith("  tier ")], ["1", "2"])
        packets = pcap_of(packets_of(served(1, 4, MIXED, 4_000, 1_500)))
        output, _ = self.calibrated(packets, "--port", "80", "--tier", "/api/=2", "--route", "/api", "--anyway")
        self.assertEqual([line.split()[1] for line in output.splitlines() if line.startswith("  tier ")], ["0", "2"])

    def test_several_logs(self):
        """In any order they are as one."""
        text = log_of(served(1, 4, MIXED, 4_000, 3_000))
        output, _ = self.calibrated(text)
        whole, place = self.output.read_text(), text.index(b"\n", len(text) // 2) + 1
        first = self.folder / "first.gz"
        first.write_bytes(gzip.compress(text[:place]))
        self.assertEqual(self.run_on(text[place:], str(first))[:2], (0, output))
        self.assertEqual(self.output.read_text(), whole)
        packets = pcap_of(packets_of(served(1, 4, MIXED, 4_000, 10)))
        status, _, errors = self.run_on(packets, str(first))
        self.assertEqual((status, errors), (1, "calibrate: first.gz, input: packets and logs together\n"))

    def test_servers_behind(self):
        """nginx answers files itself, while requests to the API wait for the four servers behind it: their costs are
        found, and what nginx adds, for a pool of their own. Where the log doesn't tell them apart, the check says what
        one set of servers for all makes of the files."""
        files = served(5, 64, [Kind(1, "/static/", "GET", 200, 100, 3, 0, 8_000)], 4_500, 3_000, burst=6)
        api = served(6, 4, [one._replace(kib=0, delay=2_000) for one in MIXED[1:3]], 9_000, 1_600)
        log = log_of_servers_behind(files + api)
        output, _ = self.calibrated(log, "--log-format", BEHIND, "--page", str(self.page))
        tables = tomllib.loads(self.output.read_text())
        self.assertEqual(tables["pool"], [{"name": "upstream", "servers": 4}])
        self.check_routes(tables, output)
        self.assertEqual([route["pool"] for route in tables["route"]], ["upstream"] * 2)
        self.assertLessEqual(max(map(abs, self.missed(output, "the rest"))), 10)
        self.assertRegex(output, r"\nupstream: best: 4 servers \(.*\n(.*\n)+upstream: somebody was inside for 9[0-9]%")
        self.assertNotIn("NOTE", output)
        self.assertRegex(self.output.read_text(), r"\n# margin [1-9] percent of all costs\n")
        self.assertIn("<td>upstream</td>", self.page.read_text())
        output, _ = self.calibrated(log, "--log-format", BEHIND, "--route", "/static", "--anyway")
        routes = tomllib.loads(self.output.read_text())["route"]
        self.assertEqual([(route["prefix"], route.get("pool")) for route in routes],
                         [("/static", None), ("/", "upstream")])
        self.assertIn("an upstream served the most of what is on no route: the settings have a route for all paths\n",
                      output)
        form, data = BEHIND.partition(' "$up')[0], re.sub(rb' "[^"/]+" "[^"/]+"\n', b"\n", log)
        status, _, errors = self.run_on(data, "--log-format", form)
        self.assertRegex(errors, "the check fails, and nothing is written: the rest p[0-9]+ .*; take a time in which ")
        output, _ = self.calibrated(data, "--log-format", form, "--anyway")
        tables = tomllib.loads(self.output.read_text())
        self.assertEqual((status, tables["costs"]["servers"], "pool" in tables), (1, 4, False))
        self.assertRegex(output, "NOTE: 6[0-9]% of the answers needed none of the servers that the others ")
        self.check_routes(tables, output)

    def check_routes(self, tables, output):
        """The routes of test_servers_behind."""
        took = [route["cost"] + route.get("delay", tables["costs"].get("delay", 0)) for route in self.routes().values()]
        self.check_near(took, (14_000, 47_000), 3)
        for name in ("/api/item", "/api/search"):
            self.assertLessEqual(max(map(abs, self.missed(output, name))), 10)

    def test_full_backend(self):
        """Two processes of nginx send files, and are busy for half of the time, while all servers behind it are: what
        is written, replayed here, takes as long as was measured. Where some answers of the API come from nginx's cache,
        and some files from a server behind it, they count for no fit."""
        files = served(15, 2, [Kind(1, "/static/", "GET", 200, 4_000, 100, 0, 20_000)], 6_500, 3_000, burst=12)
        api = served(16, 4, [one._replace(kib=0, delay=2_000) for one in MIXED[1:3]], 8_000, 2_000)
        self.assertGreater(numpy.percentile([one.end - one.arrival for one in api], 50), 60_000)
        self.calibrated(log_of_servers_behind(files + api), "--log-format", BEHIND)
        tables = self.check_pools()
        times = replayed(tables, files + api)
        for prefix, percents in (("/static/", (90, 99)), ("/api/item/", (50, 90, 99)), ("/api/search/", (50, 90, 99))):
            found, real = ([time for target, of in each.items() if target.startswith(prefix) for time in of]
                           for each in (times, measured_of(files + api)))
            self.assertEqual(len(found), len(real))
            self.check_near(numpy.percentile(found, percents), numpy.percentile(real, percents), 10)
        hits = [one._replace(end=one.arrival + 300, done=one.arrival + 300) for one in api[::25]]
        log = log_of_servers_behind(files[40:] + api) + log_of_servers_behind(files[:40] + hits, "/static/")
        output, _ = self.calibrated(log, "--log-format", BEHIND, "--route", "/api/search", "--route", "/api/item",
                                    "--anyway")
        self.check_pools()
        self.assertIn("NOTE: on the routes of the pool the proxy itself answered %d requests, and on others an "
                      "upstream 40: in a replay their paths decide\n" % len(hits), output)

    def check_pools(self):
        """The tables that were written, with the servers of test_full_backend."""
        tables = tomllib.loads(self.output.read_text())
        self.assertEqual((tables["costs"]["servers"], tables["pool"]), (2, [{"name": "upstream", "servers": 4}]))
        self.assertEqual([(route["prefix"], route["pool"]) for route in tables["route"]],
                         [("/api/item", "upstream"), ("/api/search", "upstream")])
        return tables

    def test_one_kind(self):
        """Where servers behind nginx, or HAProxy, answer all, or too few, there is no pool."""
        api = served(6, 4, [one._replace(kib=0, delay=2_000) for one in MIXED[1:3]], 12_000, 900)
        few = served(5, 64, [Kind(1, "/static/", "GET", 200, 100, 3, 0, 8_000)], 40_000, 250, burst=5)
        for answers in (api, api + few):
            self.calibrated(log_of_servers_behind(answers), "--log-format", BEHIND, "--anyway")
            self.assertNotIn("pool", tomllib.loads(self.output.read_text()))

    def test_part_of_the_time(self):
        """--from and --to, and what is past the most that is taken."""
        answers = simulated(1, 1, (3000, 40, 800), 0, 8_000, 1_200)
        begin, end = (START + int(answers[place].arrival / SECOND) for place in (100, 900))
        output, _ = self.calibrated(log_of(answers), "--from", str(begin), "--to", str(end))
        came = [begin <= START + one.arrival / SECOND < end for one in answers]
        self.assertRegex(output, r"^%d requests in .*left out: %d requests before --from or after --to" % (
            sum(came), len(came) - sum(came)))
        with unittest.mock.patch.object(measured_times, "MOST", 700):
            self.assertRegex(self.calibrated(log_of(answers))[0], "^700 requests in .*left out: 5[0-9]+ requests after")

    def test_absent_fields(self):
        """How many lines lack which field."""
        lines = log_of(simulated(1, 1, (3000, 40, 800), 0, 8_000, 600)).splitlines(True)
        for place, (old, new) in enumerate([(rb'" [0-9]{3} ', b'" - ')] * 3 + [(rb" [0-9.]+ www", b" - www")] * 2):
            lines[place] = re.sub(old, new, lines[place])
        output, _ = self.calibrated(b"".join(lines))
        self.assertIn("left out: 3 lines without $status, 2 lines without $request_time\n", output)

    def test_without_kib(self):
        """With it the answers of the API cost in the middle what they do with the kib of their sizes."""
        log = log_of(served(1, 4, [one._replace(kib=80) for one in MIXED], 5_000, 4_000))
        self.assertIn("NOTE: /api/search: kib is ", self.calibrated(log)[0])
        self.calibrated(log, "--without-kib", "--anyway")
        self.assertEqual(set(self.routes()["/api/search"]), {"cost", "delay"})
        self.assertGreater(self.routes()["/api/search"]["cost"], 45_000)

    def test_replayed(self):
        """The program itself, with what was written, answers as the server did, by each route."""
        if not PROGRAM.exists():
            self.skipTest("the program isn't built")
        answers = served(7, 4, [one._replace(kib=0) for one in MIXED], 4_000, 3_000, apart=30)
        self.calibrated(log_of(answers))
        capture, table, snapshot = (self.folder / name for name in ("capture", "table.csv", "snapshot"))
        subprocess.run([sys.executable, TOOLS / "capture_from_log.py", "--output", capture, self.input], check=True,
                       capture_output=True)
        targets = sorted({one.target[1:] for one in answers if one.status == 200})
        snapshot.write_text("haboob-snapshot 1\n%send %d\n" % (
            "".join("file 0 %d 1\n%s\na\n" % (len(name), name) for name in targets), len(targets)), newline="")
        settings = self.output.read_text() + "[policy]\nrate = 1000000000\nrate_max = 1000000000\ndepth = 1000000\n"
        self.output.write_text(settings)
        subprocess.run([PROGRAM, "explain", "--snapshot", snapshot, "--capture", capture, "--settings", self.output,
                        "--messages", table], check=True, capture_output=True, timeout=60)
        delays = response_delays.Delays(tomllib.loads(settings))
        with open(table, newline="") as file:
            rows = [(row["target"], int(row["finish"]) - int(row["tick"]) + delays.of(row["target"]))
                    for row in csv.DictReader(file)]
        for prefix in ("/static/", "/api/item/", "/api/search/"):
            measured = [one.end - one.arrival for one in answers if one.target.startswith(prefix)]
            replayed = [time for target, time in rows if target.startswith(prefix)]
            self.assertEqual(len(measured), len(replayed))
            self.check_near(numpy.percentile(replayed, (50, 90, 99)), numpy.percentile(measured, (50, 90, 99)), 5)


class Prefixes(unittest.TestCase):
    """Prefixes of paths, by hand."""

    def test_places(self):
        names = ["/a/b/c", "/a/b", "/a/bb", "/a", "/c", ""]
        self.assertEqual(route_search.places_on(["/a/b", "/a"], names).tolist(), [1, 1, 2, 2, 0, 0])
        self.assertEqual(route_search.places_on([""], names).tolist(), [1] * 6)
        self.assertEqual(route_search.named(["/a/", "/a/b", "/", "/a"]), ["/a/b", "/a", ""])

    def test_enough(self):
        """A prefix counts its requests beside those of longer ones that have enough."""
        names = ["/a/b/c", "/a/b/d", "/a/b", "/a", "/e/f", "/e/g", "/h"]
        counts = numpy.array([250, 150, 49, 1, 100, 100, 199])
        self.assertEqual(sorted(route_search.with_enough(names, counts)), ["/a", "/a/b/c", "/e"])

    def beside(self, *kinds):
        """The routes that are found where each kind is so many requests of a path, that take a time, and which an
        upstream serves or not; they come a second apart."""
        names = [name for name, *_ in kinds]
        of = [(place, took, behind) for place, (_, count, took, behind) in enumerate(kinds) for _ in range(count)]
        random.Random(1).shuffle(of)
        path, took, behind = (numpy.array(values) for values in zip(*of))
        is_file, none = numpy.ones(len(of), bool), numpy.zeros(len(of))
        zero = none.astype(int)
        requests = cost_fit.requests_of(1e6 * numpy.arange(len(of)), took.astype(float), none, zero, ~behind, zero,
                                        is_file, none)
        return route_search.found_beside(requests, is_file, path, names, behind)

    def test_beside(self):
        """Each prefix that an upstream serves the most of is on a route; what the proxy serves below it has its own."""
        own, api = ("/s", 900, 100, False), ("/api/a", 300, 5_000, True)
        for kinds, routes in (
                ((own, api), ["/api/a"]),
                ((own, ("/api/a", 300, 100, True)), ["/api/a"]),  # though they take as long
                ((own, api, ("/api/b", 300, 5_000, True)), ["/api"]),
                ((own, api, ("/api/b", 300, 90_000, True)), ["/api/a", "/api/b"]),
                ((own, api, ("/api/b", 300, 5_000, True), ("/api/s", 300, 100, False)), ["/api/s", "/api"]),
                ((own, ("/s/a", 300, 5_000, True)), ["/s/a"]),
                ((own, ("/api/a", 150, 5_000, False), ("/api/a", 250, 5_000, True)), ["/api/a"]),
                ((own, ("/few", 199, 5_000, True)), []),
                # The upstream serves what is on no other prefix.
                ((own, *(("/page%d" % place, 20, 5_000, True) for place in range(20))), ["/s", ""]),
                ((own, ("/slow", 300, 80_000, False), api), ["/api/a", "/slow"])):
            with self.subTest(kinds):
                self.assertEqual(self.beside(*kinds), routes)

    def test_path(self):
        for target, depth, path in ((b"/a/b/c/d?e", 3, "/a/b/c"), (b"/a//./%62/../c", 3, "/a/c"), (b"/", 3, ""),
                                    (b"http://h/a", 3, "/a"), (b"/a/%zz", 3, None), (b"*", 3, None), (b"", 3, None),
                                    (b"/" + b"x" * 119 + b"/y", 3, "/" + "x" * 119), (b"/a/b/c/d", 5, "/a/b/c/d")):
            self.assertEqual(measured_times.path_of(target, depth), path)

    def test_server_time(self):
        """Of nginx's variables, over all servers that were tried."""
        for text, time in ((b"0.005", 5_000), (b"0.005, 0.040", 45_000), (b"0.001 : 0.002, -", 3_000), (b"-", None),
                           (b"-, -", None), (b"", None), (b"x", None)):
            self.assertEqual(measured_times.server_time(text), time)


class Limits(Base):
    """What is written is what the program takes."""

    def test_ranges(self):
        """As docs/FORMATS.md has them."""
        rows = re.findall(r"^\| ([a-z.]+) \|[^|]*\| ([0-9,]+) to ([0-9,]+) \|", FORMATS.read_text(), re.MULTILINE)
        ranges = {(key if "." in key else "route." + key): tuple(int(end.replace(",", "")) for end in ends)
                  for key, *ends in rows}
        for key, ends in settings_documents.RANGES.items():
            self.assertEqual(ends, ranges[key], key)

    def test_longer_than_a_second(self):
        """A server that works for two seconds on each answer, and for a hundredth on each KiB of a file."""
        simulation = simulated(11, 1, (2_000_000, 10_000, 2_000_000), 0, 5_000_000, 600)
        output, costs = self.calibrated(log_of(simulation), "--page", str(self.page))
        self.assertEqual(list(costs), ["prefix", "cost", "kib"])
        self.assertEqual(costs["prefix"], "/")
        self.check_near([costs["cost"], costs["kib"]], [2_000_000, 10_000], 5)
        self.assertLessEqual(max(map(abs, self.missed(output))), 5)
        self.assertIn("the settings have a route for all paths, with one cost for any answer\n", output)
        self.assertIn("<td>%d " % costs["cost"], self.page.read_text())

    def test_longer_than_a_second_and_servers(self):
        """What isn't of the route stands beside it."""
        simulation = simulated(12, 4, (3_000_000, 0, 3_000_000), 700_000, 1_300_000, 600)
        output, costs = self.calibrated(log_of([one._replace(method="HEAD") for one in simulation]))
        self.assertEqual(list(costs), ["servers", "delay", "prefix", "cost"])
        self.assertEqual(costs["servers"], 4)
        self.check_near([costs["cost"], costs["delay"]], [3_000_000, 700_000], 10)

    def test_beyond_all_ranges(self):
        """Durations that are too long by 10,000,000,000 seconds, and a server that works for 2,000 seconds."""
        sound = [one._replace(method="HEAD", status=200) for one in simulated(1, 1, (3000, 0, 3000), 0, 8_000, 400)]
        late = [one._replace(end=one.end + 10**16) for one in sound]
        slow = [one._replace(arrival=10**6 * one.arrival, end=10**6 * one.end) for one in sound]
        for answers, key, greatest in ((late, "(?:costs.delay|route.cost)", 10**9), (slow, "route.cost", 10**9)):
            status, output, errors = self.run_on(log_of(answers), "--page", str(self.page))
            self.assertEqual((status, output), (1, ""))
            self.assertRegex(errors, r"^calibrate: input: %s would be [0-9]+, and the program takes [01] to %d; "
                             r"look for wrong times in it\n$" % (key, greatest))
            self.assertEqual(os.listdir(self.folder), ["input"])


class Warnings(Base):
    def test_overloaded(self):
        """Twice as many come as the server can answer."""
        output, _ = self.calibrated(log_of(simulated(6, 1, (3000, 40, 800), 0, 1_600, 900)))
        self.assertRegex(output, "WARNING: overloaded all along.* With costs 8% higher p99 is [0-9.]+ times as long")

    def test_nobody_met(self):
        """Clients come far apart: no capacity can be told, and of answers of one size no cost of a KiB."""
        answers = [Answer(10**6 * place, 0, 10**6 * place + 3000, "GET", 200, 100, "/a") for place in range(400)]
        output, costs = self.calibrated(log_of(answers))
        self.assertRegex(output, "WARNING: only [0-9.]+% of the requests found another inside")
        self.assertIn("the rest: all answers have one size, so kib can't be told from file: it is left at 0\n", output)
        self.assertEqual(costs, {"file": 3000, "kib": 0})

    def slower(self):
        """The log of a server that is five times as slow in the last third."""
        slow = simulated(8, 1, (15_000, 200, 4_000), 0, 40_000, 800)
        fast = simulated(9, 1, (3000, 40, 800), 0, 8_000, 1_600)
        last = max(one.end for one in fast)
        return log_of(fast + [one._replace(arrival=one.arrival + last, end=one.end + last) for one in slow])

    def test_check_fails(self):
        """What was found is printed, what to do is said, and an older output stays as it was."""
        self.output.write_text("older")
        status, output, errors = self.run_on(self.slower(), "--page", str(self.page))
        self.assertEqual((status, self.output.read_text(), self.page.exists()), (1, "older", False))
        self.assertLess(self.missed(output)[0], -25)
        self.assertRegex(errors, r"^calibrate: the check fails, and nothing is written: all p50 -\d+%.*; all of the "
                         r"second half was slower than the first: .*; --anyway writes it all the same\n$")

    def test_anyway(self):
        output, costs = self.calibrated(self.slower(), "--anyway")
        self.assertEqual(list(costs)[:3], ["file", "kib", "error"])
        for text in (output, self.output.read_text()):
            self.assertIn("WARNING: the check fails: all p50 -", text)

    def test_absent_parts(self):
        """What nothing of the recording needs keeps its default: it isn't written."""
        answers = [one._replace(status=200, method="HEAD") for one in simulated(10, 1, (3000, 0, 3000), 0, 8_000, 500)]
        _, costs = self.calibrated(log_of(answers))
        self.assertEqual(list(costs), ["file"])
        self.assertIn("# costs.kib: nothing in the recording needs it\n", self.output.read_text())


class Simulation(unittest.TestCase):
    def test_finishes(self):
        """By hand: three at once and one later; two servers are faster."""
        arrivals, services = numpy.array([0.0, 0.0, 0.0, 100.0]), numpy.array([10.0, 20.0, 30.0, 5.0])
        for servers, begins, waited_for in (
                (1, [0, 10, 30, 100], [-1, 0, 1, -1]), (2, [0, 0, 10, 100], [-1, -1, 0, -1]),
                (cost_fit.ENOUGH, [0, 0, 0, 100], [-1, -1, -1, -1])):
            found = cost_fit.begins_of(arrivals, services, servers)
            self.assertEqual([one.tolist() for one in found], [begins, waited_for])
        work = numpy.array([[1.0, 0.0], [2.0, 0.0], [0.0, 3.0], [0.0, 1.0]])
        sums = cost_fit.along(numpy.array([-1, 0, 1, -1]), work)
        self.assertEqual(sums.tolist(), [[1, 0], [3, 0], [3, 3], [0, 1]])

    def test_inside(self):
        """By hand: the second comes while the first is there, the third as it goes."""
        requests = cost_fit.Requests(numpy.array([0.0, 5.0, 10.0]), numpy.array([10.0, 10.0, 10.0]), *7 * [None])
        self.assertEqual(cost_fit.found_inside(requests).tolist(), [0, 1, 1])

    def test_work(self):
        """A file of 2 KiB, another answer, and a file of 1 KiB and another answer on the second of two routes."""
        requests = cost_fit.requests_of(*5 * [None], numpy.array([0, 0, 2, 2]), numpy.array([True, False, True, False]),
                                        numpy.array([2.0, 0.0, 1.0, 0.0]))
        self.assertEqual(cost_fit.work_of(requests, numpy.arange(7)).tolist(), [
            [1, 2, 0, 0, 0, 0, 0], [0, 0, 1, 0, 0, 0, 0], [0, 0, 0, 0, 0, 1, 1], [0, 0, 0, 0, 0, 1, 0]])


class Readers(unittest.TestCase):
    """Times out of packets that were made by hand."""

    def measured(self, *packets):
        with tempfile.TemporaryDirectory() as folder:
            path = os.path.join(folder, "packets")
            pathlib.Path(path).write_bytes(pcap_of(packets))
            return self.read(path, 80)

    def read(self, path, port):
        """What was measured, and counts of what was left out."""
        taken, recorded = [], measured_times.Recorded(measured_times.Wanted((port,)))
        with unittest.mock.patch.object(recorded, "take", taken.append), input_files.opened([path], int) as inputs:
            measured_times.of_packets(inputs, recorded)
        return taken, recorded.left_out

    def opened(self):
        return (packet(0, True, 9, 0, dpkt.tcp.TH_SYN), packet(1, False, 9, 0, dpkt.tcp.TH_SYN | dpkt.tcp.TH_ACK))

    def data(self, time, from_client, sequence, data, flags=dpkt.tcp.TH_ACK, acknowledged=0):
        return packet(time, from_client, 9, sequence, flags, data, acknowledged)

    def times(self, measured):
        begin = START * SECOND
        return [(one.arrival - begin, one.answer - begin, one.method, one.status, one.size) for one in measured]

    def test_pipelined(self):
        """Two requests at once, the second with a body that comes later; both answers in one packet."""
        head = b"GET /a HTTP/1.1\r\nHost: a\r\n\r\nPOST /b HTTP/1.1\r\nHost: a\r\nContent-Length: 3\r\n\r\n"
        answers = b"HTTP/1.1 200 OK\r\nContent-Length: 2\r\n\r\nhi" + b"HTTP/1.1 204 No\r\n\r\n"
        measured, left_out = self.measured(*self.opened(), self.data(10, True, 1, head),
                                           self.data(20, True, 1 + len(head), b"abc"), self.data(50, False, 1, answers))
        self.assertEqual(self.times(measured), [(10, 50, "GET", 200, 2), (20, 50, "POST", 204, 0)])
        self.assertEqual(+left_out, {})

    def test_chunks(self):
        """An interim answer, and chunks that are cut anywhere: the last byte counts."""
        answer = (b"HTTP/1.1 100 Continue\r\n\r\nHTTP/1.1 200 OK\r\nTransfer-Encoding: chunked\r\n\r\n"
                  b"3\r\nabc\r\nA;x=y\r\n0123456789\r\n0\r\n\r\n")
        for cut in range(1, len(answer)):
            measured, _ = self.measured(
                *self.opened(),
                self.data(10, True, 1, b"GET / HTTP/1.1\r\nHost: a\r\n\r\n"),
                self.data(40, False, 1, answer[:cut]),
                self.data(60, False, 1 + cut, answer[cut:]))
            self.assertEqual(self.times(measured), [(10, 60, "GET", 200, 13)], cut)

    def test_trailer(self):
        """The bytes come one by one: chunks with a trailer, whose last byte counts, and then an answer without a body.
        """
        answers = (b"HTTP/1.1 200 OK\r\nTransfer-Encoding: chunked\r\n\r\n3\r\nabc\r\n0\r\nA: b\r\nC: d\r\n\r\n"
                   b"HTTP/1.1 404 No\r\nContent-Length: 0\r\n\r\n")
        request = b"GET / HTTP/1.1\r\nHost: a\r\n\r\n"
        measured, left_out = self.measured(
            *self.opened(), self.data(10, True, 1, 2 * request),
            *(self.data(100 + place, False, 1 + place, answers[place:place + 1]) for place in range(len(answers))))
        first, last = answers.index(b"HTTP/1.1 404") - 1, len(answers) - 1
        self.assertEqual(self.times(measured), [(10, 100 + first, "GET", 200, 3), (10, 100 + last, "GET", 404, 0)])
        self.assertEqual(+left_out, {})

    def test_chunks_of_a_request(self):
        """The bytes of a POST with a body of chunks come one by one, from 100 on, and then those of a GET: each request
        comes with its last byte, the POST with the end of its trailer. A length beside chunks doesn't count."""
        post = (b"POST /a HTTP/1.1\r\nHost: a\r\nContent-Length: 2\r\nTransfer-Encoding: chunked\r\n\r\n"
                b"3\r\nabc\r\nA;x=y\r\nGET / HTTP\r\n0\r\nA: b\r\n\r\n")
        requests = post + b"GET /b HTTP/1.1\r\nHost: a\r\n\r\n"
        answers = b"HTTP/1.1 100 Continue\r\n\r\nHTTP/1.1 204 No\r\n\r\nHTTP/1.1 404 No\r\nContent-Length: 2\r\n\r\nno"
        measured, left_out = self.measured(
            *self.opened(),
            *(self.data(100 + place, True, 1 + place, requests[place:place + 1]) for place in range(len(requests))),
            self.data(900, False, 1, answers))
        self.assertEqual(self.times(measured), [(99 + len(post), 900, "POST", 204, 0),
                                                (99 + len(requests), 900, "GET", 404, 2)])
        self.assertEqual(+left_out, {})

    def exchanged(self, client, server, size=SEGMENT):
        """What was measured, and counts of what was left out, where a client sends bytes and a server others, in
        segments of a size; fails where more than five times as many are looked at."""
        packets = [self.data(10 if from_client else 20, from_client, 1 + place, data[place:place + size])
                   for from_client, data in ((True, client), (False, server)) for place in range(0, len(data), size)]
        with contextlib.ExitStack() as patches:
            for patch in Counted(5 * (len(client) + len(server))).patches():
                patches.enter_context(patch)
            measured, left_out = self.measured(*self.opened(), *packets)
        return self.times(measured), +left_out

    def test_no_http(self):
        """What is no HTTP, or none from a place on, is given up, however much comes."""
        get, ok, more = b"GET / HTTP/1.1\r\nHost: a\r\n\r\n", b"HTTP/1.1 200 OK\r\n", bytes(range(14, 256)) * 2_000
        most = more * (8 * MIB // len(more) + 1)
        chunks = ok + b"Transfer-Encoding: chunked\r\n\r\n"
        chunked = b"POST / HTTP/1.1\r\nHost: a\r\nTransfer-Encoding: chunked\r\n\r\n"
        hello = b"\x16\x03\x01\x02\x00\x01\x00\x01\xfc\x03\x03"
        switched = b"HTTP/1.1 101 Switching Protocols\r\nUpgrade: websocket\r\nConnection: Upgrade\r\n\r\n"
        for name, client, server in (
                ("a server's bytes", get, most), ("a head without an end", get, ok + b"A: " + more),
                ("a line of a chunk without an end", get, chunks + b"5;" + more), ("no chunk", get, chunks + b"x\r\n"),
                ("a line of a trailer without an end", get, chunks + b"0\r\nA: " + more),
                ("no chunk of a request", chunked + b"x\r\n", b""), ("a client's bytes", more, b""),
                ("a coding beside chunks", chunked.replace(b": c", b": gzip, c") + b"0\r\n\r\n", ok),
                ("a tunnel", b"CONNECT a:1 HTTP/1.1\r\nHost: a:1\r\n\r\n", ok + b"\r\n" + more),
                ("a server that begins", b"", b"220 mail\r\n"),
                ("WebSocket", get, switched + most),
                ("WebSocket with an empty line", get, switched + b"\x82\x04\r\n\r\n"),
                ("a TLS hello", hello + more[:300], b""), ("a TLS hello, and an answer", hello, hello + more),
                ("an answer to a TLS hello with an empty line", hello + b"\n\n", hello + more)):
            with self.subTest(name):
                self.assertEqual(self.exchanged(client, server), ([], {measured_times.NO_HTTP: 1}))
        both = self.exchanged(2 * get, ok + b"Content-Length: 2\r\n\r\nhi" + switched + more)
        self.assertEqual(both, ([(10, 20, "GET", 200, 2)], {measured_times.NO_HTTP: 1}))

    def test_work_grows_with_the_bytes(self):
        """A head that comes byte by byte, and a body in chunks of one byte, are looked at once; so are requests and
        answers of which many come in one segment."""
        get, ok = b"GET / HTTP/1.1\r\nHost: a\r\n\r\n", b"HTTP/1.1 200 OK\r\n"
        answer = ok + b"A: %b\r\nContent-Length: 0\r\n\r\n" % (5000 * b"x")
        self.assertEqual(self.exchanged(get, answer, 1), ([(10, 20, "GET", 200, 0)], {}))
        chunks = ok + b"Transfer-Encoding: chunked\r\n\r\n" + 20_000 * b"1\r\nx\r\n" + b"0\r\n\r\n"
        self.assertEqual(self.exchanged(get, chunks, 60_000), ([(10, 20, "GET", 200, 20_000)], {}))
        long = get[:-2] + b"A: %b\r\n\r\n" % (900 * b"x")
        answers = 100 * (ok + b"Content-Length: 900\r\n\r\n" + 900 * b"x")
        self.assertEqual(self.exchanged(100 * long, answers, 60_000), (100 * [(10, 20, "GET", 200, 900)], {}))

    def test_until_end(self):
        """An answer without a length ends with the connection."""
        measured, _ = self.measured(
            *self.opened(), self.data(10, True, 1, b"GET / HTTP/1.0\r\n\r\n"),
            self.data(40, False, 1, b"HTTP/1.0 200 OK\r\n\r\nhello"), self.data(70, False, 25, b"", dpkt.tcp.TH_FIN))
        self.assertEqual(self.times(measured), [(10, 70, "GET", 200, 5)])

    def test_until_end_in_other_ways(self):
        """The end comes with the last bytes, before bytes that were late, or as a reset; an answer with a length that
        isn't whole then is none."""
        head, ok = b"HTTP/1.1 200 OK\r\n\r\n", [(10, 70, "GET", 200, 5)]
        long = head.replace(b"K\r\n", b"K\r\nContent-Length: 9\r\n")
        fin, rst = dpkt.tcp.TH_FIN | dpkt.tcp.TH_ACK, dpkt.tcp.TH_RST
        place = 1 + len(head)
        for name, times, *packets in (
                ("with the last bytes", ok, (40, 1, head + b"he"), (70, place + 2, b"llo", fin)),
                ("before late bytes", ok, (40, 1, head), (50, place + 2, b"llo", fin), (70, place, b"he")),
                ("a reset", ok, (40, 1, head + b"hello"), (70, place + 5, b"", rst), (80, place + 5, b"", rst)),
                ("not whole", [], (40, 1, long + b"hello"), (70, 1 + len(long) + 5, b"", fin))):
            with self.subTest(name):
                measured, left_out = self.measured(*self.opened(), self.data(10, True, 1, GET_A), *(
                    self.data(time, False, *packet) for time, *packet in packets))
                self.assertEqual(self.times(measured), times)
                self.assertEqual(+left_out, {} if times else {measured_times.UNANSWERED: 1})

    def test_sent_twice(self):
        """A segment that is sent twice counts once; one that is missing ends the connection."""
        request, answer = b"GET / HTTP/1.1\r\nHost: a\r\n\r\n", b"HTTP/1.1 404 No\r\nContent-Length: 0\r\n\r\n"
        twice = [self.data(10, True, 1, request), self.data(15, True, 1, request), self.data(30, False, 1, answer),
                 self.data(35, False, 1, answer)]
        self.assertEqual(self.times(self.measured(*self.opened(), *twice)[0]), [(10, 30, "GET", 404, 0)])
        measured, left_out = self.measured(*self.opened(), twice[0], self.data(30, False, 5, answer))
        self.assertEqual((measured, left_out[measured_times.LOST]), ([], 1))

    def test_out_of_order(self):
        """What comes before its time waits for what is before it: a request and an answer come with their last hole."""
        request, answer = GET_A, b"HTTP/1.1 200 OK\r\nContent-Length: 6\r\n\r\nabcdef"
        last = len(answer) - 3
        measured, left_out = self.measured(
            *self.opened(), self.data(10, True, 6, request[5:]), self.data(14, True, 1, request[:5]),
            self.data(30, False, 1 + last, answer[last:]), self.data(40, False, 1, answer[:9]),
            self.data(55, False, 10, answer[9:last]))
        self.assertEqual((self.times(measured), +left_out), ([(14, 55, "GET", 200, 6)], {}))

    def test_sent_again(self):
        """Segments that are sent again: one whole, one that holds what came and what is missing, one within another;
        and of the next exchange both sides' first ones, late."""
        answer = b"HTTP/1.1 200 OK\r\nContent-Length: 6\r\n\r\nabcdef"
        end = 1 + len(answer)
        measured, left_out = self.measured(
            *self.opened(), self.data(10, True, 1, GET_A), self.data(20, True, 1, GET_A),
            self.data(30, False, 1, answer[:9]), self.data(35, False, 21, answer[20:]),
            self.data(40, False, 4, answer[3:30]), self.data(45, False, 5, answer[4:8]),
            self.data(50, True, 1 + len(GET_A), GET_A), self.data(55, True, 1, GET_A),
            self.data(60, False, 1, answer), self.data(70, False, end, answer))
        self.assertEqual((self.times(measured), +left_out), ([(10, 40, "GET", 200, 6), (50, 70, "GET", 200, 6)], {}))

    def test_lost(self):
        """Bytes that are missing for good: the other side acknowledges them, the file or the connection ends, or more
        than 1 MiB waits for them. The exchange before counts."""
        answer = b"HTTP/1.1 200 OK\r\nContent-Length: 6\r\n\r\nabcdef"
        end, late = 1 + len(answer), 1 + len(GET_A)
        begin = (*self.opened(), self.data(10, True, 1, GET_A), self.data(20, False, 1, answer),
                 self.data(30, True, late, GET_A), self.data(40, False, end + 9, answer[9:]))
        filled = self.data(60, False, end, answer[:9])
        both = [(10, 20, "GET", 200, 6), (30, 60, "GET", 200, 6)]
        for name, packets, times in (
                ("none", [self.data(50, True, late, b"", acknowledged=end), filled], both),
                ("acknowledged", [self.data(50, True, late, b"", acknowledged=2 * end - 1), filled], both[:1]),
                ("the file's end", [], both[:1]),
                ("a reset", [self.data(50, False, end, b"", dpkt.tcp.TH_RST), filled], both[:1]),
                ("1 MiB", [self.data(50, False, end + 9 + place, PIECE * b"x") for place in range(0, MIB, PIECE)]
                 + [filled], both[:1])):
            with self.subTest(name):
                measured, left_out = self.measured(*begin, *packets)
                self.assertEqual(self.times(measured), times)
                self.assertEqual(+left_out, {} if times == both else {measured_times.LOST: 1})

    def test_folded(self):
        """Fields of an answer and of its trailer that go on in a second line (RFC 9112, 5.2)."""
        answer = (b"HTTP/1.1 200 OK\r\nA: b\r\n c\r\nTransfer-Encoding:\r\n\tchunked\r\n\r\n"
                  b"5\r\nhello\r\n0\r\nB: c\r\n  d\r\n")
        self.check_answers([b"GET"], [(40, answer), (60, b"\r\n")], [(60, "GET", 200, 5)])

    def test_without_a_body(self):
        """The fields of an answer to HEAD, and of a 304, tell a body that isn't there; a 204 has none."""
        self.check_answers(
            [b"HEAD", b"HEAD", b"GET", b"GET", b"GET"],
            [(30, b"HTTP/1.1 200 OK\r\nContent-Length: 9\r\n\r\n"),
             (40, b"HTTP/1.1 200 OK\r\nTransfer-Encoding: chunked\r\n\r\n"),
             (50, b"HTTP/1.1 304 Not Modified\r\nContent-Length: 9\r\n\r\n"), (60, b"HTTP/1.1 204 No Content\r\n\r\n"),
             (70, b"HTTP/1.1 200 OK\r\nContent-Length: 1\r\n\r\na")],
            [(30, "HEAD", 200, 0), (40, "HEAD", 200, 0), (50, "GET", 304, 0), (60, "GET", 204, 0), (70, "GET", 200, 1)])

    def check_answers(self, methods, answers, expected):
        """Requests at 10, all at once, and the parts of their answers with their times; nothing is left out."""
        requests = b"".join(method + b" / HTTP/1.1\r\nHost: a\r\n\r\n" for method in methods)
        packets, place = [self.data(10, True, 1, requests)], 1
        for time, part in answers:
            packets.append(self.data(time, False, place, part))
            place += len(part)
        measured, left_out = self.measured(*self.opened(), *packets)
        self.assertEqual((self.times(measured), +left_out), ([(10, *one) for one in expected], {}))

    def test_continue(self):
        """A body that is sent when the server asks for it: the request comes with its last byte, and 100 and 103 are no
        answers."""
        head = b"POST / HTTP/1.1\r\nHost: a\r\nExpect: 100-continue\r\nContent-Length: 4\r\n\r\n"
        asks = b"HTTP/1.1 100 Continue\r\n\r\n"
        answer = b"HTTP/1.1 103 Early Hints\r\nLink: </a>\r\n\r\nHTTP/1.1 201 Created\r\nContent-Length: 2\r\n\r\nok"
        measured, left_out = self.measured(
            *self.opened(), self.data(10, True, 1, head), self.data(15, False, 1, asks),
            self.data(20, True, 1 + len(head), b"ab"), self.data(25, True, 3 + len(head), b"cd"),
            self.data(40, False, 1 + len(asks), answer))
        self.assertEqual((self.times(measured), +left_out), ([(25, 40, "POST", 201, 2)], {}))

    def test_answered_before_its_body(self):
        """Then the request came with its head."""
        head = b"POST / HTTP/1.1\r\nHost: a\r\nContent-Length: 9\r\n\r\n"
        measured, _ = self.measured(
            *self.opened(), self.data(10, True, 1, head), self.data(20, True, 1 + len(head), b"ab"),
            self.data(30, False, 1, b"HTTP/1.1 413 Too Large\r\nContent-Length: 0\r\n\r\n"),
            self.data(40, True, 3 + len(head), b"cdefghi"))
        self.assertEqual(self.times(measured), [(10, 30, "POST", 413, 0)])

    def test_connection_kept_by_http_1_0(self):
        """Requests of HTTP/1.0, one after another on one connection, the second after an empty line."""
        get, ok = b"GET / HTTP/1.0\r\nConnection: keep-alive\r\n\r\n", b"HTTP/1.0 200 OK\r\nContent-Length: 2\r\n\r\nok"
        measured, left_out = self.measured(
            *self.opened(), self.data(10, True, 1, get), self.data(20, False, 1, ok),
            self.data(25, True, 1 + len(get), b"\r\n"), self.data(30, True, 3 + len(get), get),
            self.data(40, False, 1 + len(ok), ok))
        self.assertEqual((self.times(measured), +left_out), ([(10, 20, "GET", 200, 2), (30, 40, "GET", 200, 2)], {}))

    def test_unasked(self):
        """An answer that nobody asked for, as where a server gives up a connection on which nothing comes."""
        answer = b"HTTP/1.1 408 Request Timeout\r\nContent-Length: 0\r\n\r\n"
        measured, left_out = self.measured(*self.opened(), self.data(10, False, 1, answer))
        self.assertEqual((measured, +left_out), ([], {measured_times.LOST: 1}))

    def test_closed(self):
        """The packets that close a connection are no hole."""
        request, answer = b"GET / HTTP/1.1\r\nHost: a\r\n\r\n", b"HTTP/1.1 404 No\r\nContent-Length: 0\r\n\r\n"
        closing = dpkt.tcp.TH_FIN | dpkt.tcp.TH_ACK
        measured, left_out = self.measured(
            *self.opened(), self.data(10, True, 1, request), self.data(30, False, 1, answer),
            self.data(40, False, 1 + len(answer), b"", closing), self.data(50, True, 1 + len(request), b"", closing),
            self.data(60, False, 2 + len(answer), b""), self.data(70, True, 2 + len(request), b""))
        self.assertEqual(self.times(measured), [(10, 30, "GET", 404, 0)])
        self.assertEqual(+left_out, {})

    def test_recorded(self):
        """Packets of both directions that tcpdump recorded: 72 requests on twelve connections, a body of several
        packets, a request letter by letter, and three at once; the first times as tcpdump prints them."""
        measured, left_out = self.read(str(DATA / "loopback.pcap"), 18098)
        self.assertEqual((len(measured), +left_out), (72 + 1 + 1 + 3, {}))
        self.assertEqual([(one.arrival, one.answer) for one in measured[:3]], [
            (1795413683734921, 1795413683735012), (1795413683740184, 1795413683740284),
            (1795413683745346, 1795413683745449)])
        self.assertEqual(collections.Counter(one.method for one in measured), {"GET": 76, "POST": 1})

    def test_middle(self):
        measured, left_out = self.measured(self.data(10, True, 1, b"GET / HTTP/1.1\r\nHost: a\r\n\r\n"))
        self.assertEqual((measured, left_out[measured_times.MIDDLE]), ([], 1))


class Faults(Base):
    def check(self, data, status, line, *words):
        """A run that ends with a line on standard error, and writes nothing."""
        ended, output, errors = self.run_on(data, *words)
        self.assertEqual((ended, output, errors.splitlines()[-1]), (status, "", "calibrate: " + line))
        self.assertFalse(self.output.exists())

    def test_inputs(self):
        few = "answered requests are too few to fit costs to: at least 300"
        log = log_of(simulated(1, 1, (3000, 40, 800), 0, 8_000, 20, burst=5)[:20])
        self.check(log, 1, "input: 20 " + few)
        self.check(log[:-9] + b"\n", 1, "input: 19 %s; left out: 1 lines of another format" % few)
        none = "input: no line fits the format timed (line 1 does in its first %d bytes); --log-format takes another"
        self.check(b"a\n" * 400, 1, none % 1)
        self.check(log.replace(b".", b"_"), 1, none % log.index(b"\n"))
        self.check((DATA / "served" / "apache_combined.log").read_bytes(), 1, none % 130)  # all of it
        capture = (TOOLS.parent / "examples" / "burst.capture").read_bytes()
        for recording in (capture, capture.replace(b"haboob-capture 1", b"haboob-traffic 1")):
            self.check(recording, 1, "input: this is a capture, which tells no answers; give the packets or the log "
                       "that it was made of")
        self.check(b"", 1, "input: empty")
        packets = pcap_of(packets_of(simulated(4, 1, (3000, 40, 800), 0, 8_000, 20)))
        self.check(packets, 2, "input: these are packets: --port says which is the server's")
        self.check(packets[:-5], 1, "input: cut at byte %d" % (len(packets) - 5), "--port", "80")
        hello = pcap_of([packet(0, True, 9, 0, dpkt.tcp.TH_SYN), packet(1, True, 9, 1, 0, b"\x16\x03\x01")])
        self.check(hello, 1, "input: 0 %s; left out: 1 connections that aren't HTTP, or no longer are (TLS, WebSocket)"
                   % few, "--port", "80")
        self.check(log, 2, "input: --log-format: needs $request_time (Apache: %D)", "--log-format",
                   '"$request" $status $body_bytes_sent $msec')
        self.check(log, 2, "input: --log-format: needs $msec (Apache: %{usec}t), $body_bytes_sent",
                   "--log-format", "$time_local|$request|$status|$request_time")
        self.check(
            log, 2,
            "input: --log-format: needs $request, or $request_method and $request_uri (Apache: %r, or %m "
            "and %U%q)", "--log-format", "$1msec")
        whole = re.sub(rb"[0-9][.][0-9]{6} www", b"0.000 www", log)
        self.check(whole, 1, "input: the durations are whole seconds; they have to be milliseconds or better")

    def test_same_file(self):
        self.input.write_bytes(b"log")
        with contextlib.redirect_stderr(io.StringIO()) as errors:
            status = calibrate.main(["--output", str(self.input), str(self.input)])
        self.assertEqual((status, self.input.read_bytes()), (2, b"log"))
        self.assertIn("the output is the input; give it another name", errors.getvalue())

    def test_words(self):
        for words in (["--port", "0"], ["--port", "65536"], ["--port", "x"], ["--route", "api"], ["--route", "/a//b"],
                      ["--route", "/a/.."], ["--route", "/\udcff"], ["--tier", "/a=4"], 65 * ["--route", "/a"]):
            self.assertEqual(self.run_on(b"", *words)[0], 2)
        log = log_of(simulated(1, 1, (3000, 40, 800), 0, 8_000, 20, burst=5)[:20])
        self.check(log, 2, "input: --tier: an address needs $remote_addr in the log's format", "--tier", "10.0.0.1=1",
                   "--log-format", BEHIND.partition(" ")[2])

    def test_progress(self):
        """Lines where standard error is no terminal, of what is read and of what is fitted."""
        with unittest.mock.patch.object(tool_run, "PROGRESS_STEP", 0.0):
            _, _, errors = self.run_on(log_of(simulated(1, 1, (3000, 40, 800), 0, 8_000, 400)))
        self.assertRegex(errors, r"calibrate: 100% .*\[\d\d:\d\d<.*B/s\]\n")
        self.assertRegex(errors, r"calibrate: [1-9][0-9]?% .*\[\d\d:\d\d<.*fit.*\]\n")

    def test_mutated(self):
        """Bytes of logs and packets are changed at random: one line, and never a traceback."""
        random_ = random.Random(99)
        answers = simulated(4, 1, (3000, 40, 800), 0, 8_000, 30, burst=5)[:30]
        for sound in (log_of(answers), pcap_of(packets_of(answers))):
            for _ in range(MUTATIONS):
                data = bytearray(sound)
                for _ in range(random_.randint(1, 5)):
                    place = random_.randrange(4, len(data))
                    data[place:place + random_.choice((0, 1, 1, 7))] = random_.choice(
                        (b"", b"\xff", b"\x00", b"9", b'"', b"\n", b"\r\n\r\n", b"999999999999"))
                status, output, errors = self.run_on(bytes(data), "--port", "80")
                self.assertEqual((status, output, errors.count("\n")), (1, "", 1), bytes(data))


if __name__ == "__main__":
    unittest.main()
