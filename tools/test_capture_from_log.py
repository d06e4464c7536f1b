#!/usr/bin/python3
"""Tests of capture_from_log.py, on logs that nginx and Apache wrote (data/record_served.py), and on made-up lines.

    python3 tools/test_capture_from_log.py

The captures that are expected are written by hand, or come from who sent the requests; data/nginx.log, which nginx 1.22
wrote, is taken apart in a simpler way.
"""
import bz2
import calendar
import collections
import contextlib
import gzip
import lzma
import os
import random
import re
import signal
import struct
import subprocess
import time
import tracemalloc
import unittest
import unittest.mock
import zlib

import test_support
from test_support import DATA, GET, SERVED, START, TOOLS, capture, read_capture, requests_in, sent_requests, traffic

from haboob_tools import capture_from_log, capture_writer, input_files, log_blocks, log_requests

SMALL = capture_writer.CAPTURE._replace(messages=3)


class Logs(test_support.ToolTest):
    """capture_from_log.py"""

    LINE = b'10.0.0.1 - - [06/Nov/1994:%b +0000] "%b" 200 12 "-" "-"\n'
    SOUND = LINE % (b"08:49:37", b"GET / HTTP/1.1")

    def convert(self, data, *words, status=0):
        return self.run_tool(capture_from_log, words, data, status)

    def lines_at(self, seconds, start=START):
        """Lines of the combined format with GET / at seconds from the start, in this order."""
        times = (time.strftime("%d/%b/%Y:%H:%M:%S", time.gmtime(start + second)) for second in seconds)
        return b"".join(b'10.0.0.1 - - [%b +0000] "GET / HTTP/1.1" 200 12 "-" "-"\n' % it.encode() for it in times)

    def test_seconds_are_spread(self):
        times = [b"08:49:37"] * 3 + [b"08:49:39"] + [b"09:49:40"] * 2
        text, said = self.convert(b"".join(self.LINE % (time, b"GET / HTTP/1.1") for time in times), "--host", "a")
        ticks = [0, 333333, 666666, 2000000, 3603000000, 3603500000]
        self.assertEqual(text, capture(*((tick, number, GET) for number, tick in enumerate(ticks))))
        first, second = said.splitlines()
        self.assertEqual(first, "capture_from_log: format combined: 6 records, 6 connections, 162 bytes")
        self.assertRegex(second, "whole seconds.*bursts within a second are lost.*p99 5.1 ms where it was 22")

    def test_fields_and_zones(self):
        line = (b'::1 - joe [06/Nov/1994:10:19:37 +0130] "GET /x?y HTTP/1.1" 200 12 "http://b/\\"q\\""'
                b' "a \\\\ b\\x41\\t"\n'
                b'::1 - joe [06/Nov/1994:06:49:37 -0200] "GET /x HTTP/1.0" 200 12 "-" "a\\x0d\\x0aX: y"\n')
        text, said = self.convert(line)
        self.assertEqual(text, capture(
            (0, 0, b'GET /x?y HTTP/1.1\r\nHost: localhost\r\nReferer: http://b/"q"\r\nUser-Agent: a \\ bA\t\r\n\r\n'),
            (500000, 1, b"GET /x HTTP/1.0\r\nHost: localhost\r\nConnection: keep-alive\r\n\r\n")))
        self.assertIn("1 fields with control characters", said)

    def test_a_time_that_falls(self):
        text, said = self.convert(self.lines_at([0, 1, 0, 2]), "--host", "a")
        self.assertEqual(text, capture((0, 0, GET), (500000, 1, GET), (1000000, 2, GET), (2000000, 3, GET)))
        self.assertNotIn("left out", said)

    def test_requests_that_are_not_sound(self):
        requests = [b"GET / HTTP/1.1", b"-", b"GET /", b"GET /a b HTTP/1.1", b"\\x16\\x03\\x01", b"GET /\\xC3 HTTP/1.1",
                    b"GET /" + b"x" * 8192 + b" HTTP/1.1", b"GET / HTTP/2.0", b"POST / HTTP/1.1"]
        lines = b"".join(self.LINE % (b"08:49:37", request) for request in requests)
        text, said = self.convert(lines, "--host", "a", "--lenient")
        post = GET.replace(b"GET", b"POST")
        self.assertEqual(text, capture((0, 0, GET), (333333, 1, GET), (666666, 2, post)))
        self.assertIn("1 lines without $request (the first is line 2 of %s)" % self.input, said)
        self.assertIn("5 lines whose request isn't sound (the first is line 3 of %s)" % self.input, said)
        self.assertIn("1 requests with a method that has bodies", said)
        self.assertIn("1 requests of later versions", said)

    def test_lines_that_do_not_fit(self):
        lines = [self.SOUND, b"\n", b"x" * 200000 + b"\n", self.LINE % (b"08:61:37", b"GET / HTTP/1.1"),
                 self.SOUND[:-9] + b"\n", self.LINE.replace(b"Nov", b"Nev") % (b"08:49:37", b"GET / HTTP/1.1"),
                 (self.LINE % (b"08:49:38", b"GET / HTTP/1.1"))[:-1]]
        text, said = self.convert(b"".join(lines), "--host", "a", "--lenient")
        self.assertEqual(text, capture((0, 0, GET), (1000000, 1, GET)))
        self.assertIn("left out: 5 lines of another format (the first is line 2 of %s)" % self.input, said)

    def test_given_formats(self):
        for form, line in [
                ('$msec "$request" ${status}x $host', b'784111777.250 "GET / HTTP/1.1" 200x a'),
                ("[$time_iso8601] $request_method $request_uri $http_host", b"[1994-11-06T09:49:37+01:00] GET / a"),
                ("%{sec}t %m %U%q %{Host}i", b"784111777 GET / a"),
                ("%{msec}t\t%T %% %{Host}i %r", b"784111777250\t3 % a GET / HTTP/1.1"),
                ('%v %l %u %t \\"%r\\" %>s %b', b'a - - [06/Nov/1994:08:49:37 +0000] "GET / HTTP/1.1" 200 -'),
                ('{"t":"$time_local","r":"$request","h":"$http_host"}',
                 b'{"t":"06/Nov/1994:08:49:37 +0000","r":"GET / HTTP\\/1.1","h":"a"}')]:
            with self.subTest(form):
                self.assertEqual(self.convert(line, "--log-format", form)[0], capture((0, 0, GET)))

    def test_a_line_that_is_too_long(self):
        line = b'784111777.250 "GET / HTTP/1.1" '
        words = ["--log-format", '$msec "$request" $status', "--host", "a", "--lenient"]
        for length in (65536, 9_000_000):
            text, said = self.convert(line + b"200" + b"x" * length + b"\n" + line + b"200\n", *words)
            self.assertEqual(text, capture((0, 0, GET)))
            self.assertIn("1 lines of another format (the first is line 1 of", said)

    def test_exact_times(self):
        lines = b"784111777.250 GET / HTTP/1.1\n784111777.250 GET / HTTP/1.1\n784111779.001 GET / HTTP/1.1\n"
        text, said = self.convert(lines, "--log-format", "$msec $request", "--host", "a")
        self.assertEqual(text, capture((0, 0, GET), (0, 1, GET), (1751000, 2, GET)))
        self.assertNotIn("whole seconds", said)

    def test_durations_are_taken_off(self):
        # Each line: when its answer was logged, for how long it took, and so when it came, in milliseconds.
        lines = [(10_000, 3_000, 7_000), (10_001, 9_500, 501), (10_001, 1, 10_000), (12_000, 2_000, 10_000),
                 (15_000, 14_999, 1), (15_000, 0, 15_000)]
        arrivals = sorted((arrival, number) for number, (_, _, arrival) in enumerate(lines))
        heads = [GET.replace(b"/ ", b"/%d " % number) for number in range(len(lines))]
        expected = capture(*((1000 * (arrival - 1), place, heads[number])
                             for place, (arrival, number) in enumerate(arrivals)))
        for form, logged, took in [("$msec $request_time", lambda at: "%.3f" % (START + at / 1000), lambda d: d / 1000),
                                   ("%{end:msec}t %{ms}T", lambda at: START * 1000 + at, lambda d: d),
                                   ("%{end:usec}t %D", lambda at: (START * 1000 + at) * 1000, lambda d: 1000 * d)]:
            text, _ = self.convert("".join("%s %s GET /%d HTTP/1.1\n" % (logged(at), took(d), number)
                                           for number, (at, d, _) in enumerate(lines)).encode(),
                                   "--log-format", form + (" $request" if "$" in form else " %r"), "--host", "a")
            self.assertEqual(text, expected, form)

    def test_durations_above_a_day(self):
        line = b"%d.000 %d.000 GET / HTTP/1.1\n"
        lines = [line % (START + 100_000 + number, 0) for number in range(20)]
        lines[7:7] = [line % (START + 100_007, 86_400), line % (START + 100_007, 86_401)]
        text, said = self.convert(b"".join(lines), "--log-format", "$msec $request_time $request", "--host", "a")
        ticks = [0, *((86_393 + number) * 10**6 for number in range(20))]
        records = [(tick, number, GET) for number, tick in enumerate(ticks)]
        self.assertEqual(text, capture(*records, start=START + 13_607))
        self.assertIn("1 lines whose request took more than a day (the first is line 9 of", said)

    def test_durations_of_whole_seconds(self):
        # Four answers in second 9 at 9.0, 9.25, 9.5 and 9.75, one of which took so long that it came before the others.
        lines = b"".join(b"[06/Nov/1994:08:49:46 +0000] %b GET / HTTP/1.1\n" % it
                         for it in (b"0.500", b"0.250", b"5.500", b"0.000"))
        text, said = self.convert(lines, "--log-format", "[$time_local] $request_time $request", "--host", "a")
        ticks = [0, 4_500_000, 5_000_000, 5_750_000]
        self.assertEqual(text, capture(*((tick, number, GET) for number, tick in enumerate(ticks)), start=START + 4))
        self.assertIn("whole seconds", said)

    def test_arrivals_are_put_in_order(self):
        """Those of the same microsecond stay in the order of the log."""
        drawn = random.Random(1)
        requests = [(time, drawn.choice((0, 1, 2, drawn.randrange(400))), 0, b"%d" % time) for time in range(300)]
        arrivals = [max(0, time - duration) for time, duration, _, _ in requests]
        expected = [(arrivals[place], 0, 0, b"%d" % place) for place in sorted(range(300), key=lambda it: arrivals[it])]
        for held in (1, 7, 299, 300, 1000):
            with unittest.mock.patch.object(log_blocks, "HELD_REQUESTS", held):
                self.assertEqual(list(log_blocks.by_arrival(iter(requests))), expected)

    def test_arrivals_of_a_millisecond(self):
        """Those of the same millisecond are in the order in which they were begun, not in that of their answers. What
        was turned away tells nothing of its path; what waited for nothing stays in the order of the log."""
        answers = [(0, 60, 200, b"/slow/1"), (100, 10, 200, b"/quick?a"), (200, 0, 503, b"/slow/2"),
                   (300, 0, 503, b"/quick"), (300, 15, 200, b"/quick?b"), (300, 60, 200, b"/slow/34"),
                   (300, 64, 200, b"/slow/5"), (400, 10, 200, b"/quick"), (400, 20, 200, b"/other"),
                   (400, 30, 200, b"/one/more")]
        lines = b"".join(b"%.3f %.3f %d GET %b HTTP/1.1\n" % (
            START + (came + took) / 1000, took / 1000, status, target) for came, took, status, target in answers)
        text, _ = self.convert(lines, "--log-format", "$msec $request_time $status $request", "--host", "a")
        order = (0, 1, 2, 3, 5, 6, 4, 7, 8, 9)
        self.assertEqual(text, capture(*(
            (1000 * answers[place][0], number, GET.replace(b"/ ", answers[place][3] + b" "))
            for number, place in enumerate(order))))

    def test_haproxys_timers_tell_the_order(self):
        # Two at a time are answered: the slow one of 0.300 came first, and was answered last.
        lines = b"".join(b'127.0.0.1:%d [06/Nov/1994:08:49:37.%03d] site site/a %b/%d %d 9 - - ---- 1/1/0/0/0 0/0 '
                         b'"GET %b HTTP/1.1"\n' % (port, came, timers, total, status, target)
                         for port, came, timers, total, status, target in (
                             (1, 0, b"0/0/0/60", 60, 200, b"/slow"), (2, 100, b"0/0/0/10", 10, 200, b"/quick"),
                             (3, 200, b"0/-1/-1/-1", 0, 503, b"/slow"), (4, 300, b"0/5/0/10", 15, 200, b"/quick"),
                             (5, 300, b"0/0/0/60", 60, 200, b"/slow")))
        text, _ = self.convert(lines, "--log-format", "haproxy", "--host", "a")
        self.assertEqual(text, capture(*((1000 * came, number, GET.replace(b"/ ", target + b" ")) for number, (
            came, target) in enumerate(((0, b"/slow"), (100, b"/quick"), (200, b"/slow"), (300, b"/slow"),
                                        (300, b"/quick"))))))

    def test_memory_of_a_long_duration(self):
        """One request that takes nearly a day doesn't keep the others of the day in memory."""
        day = ((second * 10**6, 80_000 * 10**6 * (second == 79_999), 0, b"%0200d" % second) for second in range(80_000))
        with unittest.mock.patch.multiple(log_blocks, HELD_REQUESTS=8000, HELD_BYTES=10**6):
            tracemalloc.start()
            self.addCleanup(tracemalloc.stop)
            self.assertEqual(sum(1 for _ in log_blocks.by_arrival(day)), 80_000)
        self.assertLess(tracemalloc.get_traced_memory()[1], 80_000 * 200 // 2)

    def test_memory_of_many_blocks(self):
        """Of 200 blocks, each with 100 requests over the same hundred seconds, no more are held than may be, and those
        of a second stay in the order of the log."""
        blocks = [[(second * 10**6, 0, 0, b"%0300d" % (100 * block + second)) for second in range(100)]
                  for block in range(200)]
        runs = [log_requests.runs_of(block) for block in blocks]
        expected = [int(block[second][3]) for second in range(100) for block in blocks]
        del blocks
        with unittest.mock.patch.multiple(log_blocks, HELD_REQUESTS=1000, HELD_BYTES=10**5):
            with log_blocks.RequestStore() as store:
                tracemalloc.start()
                self.addCleanup(tracemalloc.stop)
                for run in runs:
                    store.add(run, 100)
                self.assertTrue(all(
                    int(head) == number for (*_, head), number in zip(store.requests(), expected, strict=True)))
        self.assertLess(tracemalloc.get_traced_memory()[1], 1000 * 1000)  # of 20,000 requests of more than 300 bytes

    def test_a_begin_is_no_answer(self):
        # Apache's times are those of the requests: nothing is taken off.
        lines = b"784111777000 250 GET / HTTP/1.1\n784111778000 9000 GET / HTTP/1.1\n"
        text, _ = self.convert(lines, "--log-format", "%{msec}t %{ms}T %r", "--host", "a")
        self.assertEqual(text, capture((0, 0, GET), (1000000, 1, GET)))

    def test_conditional_requests(self):
        line = b'784111777.250 "GET / HTTP/1.1" "Sat, 05 Nov 1994 08:49:37 GMT" "\\x22x\\x22"\n'
        words = ["--log-format", '$msec "$request" "$http_if_modified_since" "$http_if_none_match"', "--host", "a"]
        head = GET[:-2] + b'If-Modified-Since: Sat, 05 Nov 1994 08:49:37 GMT\r\nIf-None-Match: "x"\r\n\r\n'
        self.assertEqual(self.convert(line, *words)[0], capture((0, 0, head)))
        without = GET[:-2] + b"If-Modified-Since: Sat, 05 Nov 1994 08:49:37 GMT\r\n\r\n"
        self.assertEqual(self.convert(line, *words, "--without", "IF-none-match")[0], capture((0, 0, without)))
        self.assertEqual(self.convert(line, *words, "--without", "If-None-Match", "--without", "If-Modified-Since")[0],
                         capture((0, 0, GET)))

    def test_formats_that_are_refused(self):
        for form in ("$request", "$msec $request_method", "$msec$request", "$time_local", "$msec $ $request", "%r",
                     "%t %m", "%{%F}t %r", "x", "$msec ${request"):
            _, said = self.convert(b"x\n", "--log-format", form, status=2)
            self.assertRegex(said, "^capture_from_log: --log-format: .*\n$")

    def test_variables_with_odd_names(self):
        line = b'1 784111777.250 "GET / HTTP/1.1" 2\n'
        text, _ = self.convert(line, "--log-format", '$1msec $msec "$request" $1msec', "--host", "a")
        self.assertEqual(text, capture((0, 0, GET)))

    def test_logs_that_are_none(self):
        for data, words, said in [(b"", [], "input: empty"),
                                  (self.LINE % (b"08:49:37", b"-"), ["--lenient"], "input: no request is .*line"),
                                  (self.SOUND, ["--to", "1994-11-06"], "input: no request is to be taken"),
                                  (capture((0, 0, GET)), [], "input: this is a capture already"),
                                  (b"\xd4\xc3\xb2\xa1" + bytes(20), [], "input: this is recorded packets, which "
                                   "tools/capture_from_pcap.py reads")]:
            _, line = self.convert(data, *words, status=1)
            self.assertRegex(line, "^capture_from_log: .*/" + said)
            self.assertEqual(line.count("\n"), 1)

    def test_where_nothing_fits(self):
        begin = b"10.0.0.1 - - [06/Nov/1994:08:49:37 +0000] "
        _, said = self.convert(begin + b"GET / HTTP/1.1 200 9\nx\n", status=1)
        for name in ("timed", "combined", "common"):
            self.assertIn("%s (its first %d bytes)" % (name, len(begin)), said)
        self.assertIn("vhost_combined (its first 8 bytes)", said)
        self.assertIn("line 1 is '10.0.0.1 - - [06/Nov/1994", said)
        _, said = self.convert(b"784111777.250 x y z\n", "--log-format", '$msec "$request"', status=1)
        self.assertIn("as given (its first 14 bytes)", said)
        _, said = self.convert(b'{"a":\n{"b":1}\n', "--log-format", "json", status=1)
        self.assertIn("json", said)

    def test_half_a_log_in_another_format(self):
        lines = [self.SOUND] * 50 + [b"784111777.250 GET / HTTP/1.1\n"] * 50
        _, said = self.convert(b"".join(lines), status=1)
        self.assertIn("of 100 lines 50 are left out: 50 lines of another format (the first is line 51 of", said)
        self.assertEqual(said.count("\n"), 1)
        text, said = self.convert(b"".join(lines), "--lenient")
        self.assertEqual(len(requests_in(text)), 50)
        self.assertIn("50 lines of another format", said)

    def test_how_much_may_be_left_out(self):
        bad, none = b"bad\n", self.LINE % (b"08:49:37", b"-")
        for lines, status in [([bad] + [self.SOUND] * 99, 0), ([bad] * 2 + [self.SOUND] * 99, 1),
                              ([none] * 10 + [self.SOUND] * 90, 0), ([none] * 11 + [self.SOUND] * 89, 1),
                              ([bad] + [none] * 9 + [self.SOUND] * 90, 0),
                              ([bad] + [none] * 10 + [self.SOUND] * 89, 1)]:
            self.convert(b"".join(lines), status=status)

    def test_a_lone_jump_ahead(self):
        far = calendar.timegm((2090, 1, 1, 0, 0, 0)) - START
        for jump in (far, 3700, 400 * 86400):
            for place in (0, 1, 2, 10, 19):
                seconds = list(range(20))
                seconds[place] = place + jump
                kept = [second for second in range(20) if second != place]
                if place == 19 and jump == 3700:
                    kept.append(place + jump)  # after an idle hour
                text, said = self.convert(self.lines_at(seconds), "--host", "a")
                first = kept[0]
                self.assertEqual(text, capture(*(((second - first) * 10**6, number, GET)
                                                 for number, second in enumerate(kept)), start=START + first))
                if len(kept) == 19:
                    self.assertIn("1 lines whose time stands alone (the first is line %d of" % (place + 1), said)

    def test_a_lone_jump_back(self):
        for place in (1, 2, 10, 19):
            seconds = list(range(20))
            seconds[place] = -100 * 86400
            text, said = self.convert(self.lines_at(seconds), "--host", "a")
            self.assertEqual([time for time, _ in requests_in(text)],
                             [1000000 * second for second in range(20) if second != place])
            self.assertIn("1 lines whose time stands alone (the first is line %d of" % (place + 1), said)

    def test_times_that_are_no_jumps(self):
        day = 86400
        for seconds in ([0, 3 * day, 6 * day, 9 * day], [0, 1, 2, 2 * day, 2 * day + 1], [0, 1, 2, 90000, 90001, 90002],
                        [5000, 5001, 0, 5002, 5003, 5004, 5005], [day, day + 1, 0, 1], [0, 40 * day]):
            text, said = self.convert(self.lines_at(seconds), "--host", "a")
            self.assertEqual([time for time, _ in requests_in(text)],
                             [1000000 * (second - min(seconds)) for second in sorted(seconds)])
            self.assertNotIn("left out", said)

    def test_too_many_jumps(self):
        seconds = list(range(20))
        for place in (3, 9, 15):
            seconds[place] += 10**9
        _, said = self.convert(self.lines_at(seconds), status=1)
        self.assertIn("of 20 lines 3 are left out: 3 lines whose time stands alone (the first is line 4 of", said)

    def test_sample_and_times(self):
        words = ["--host", "a", "--sample", "3", "--from", "1994-11-06T09:49:38+01:00", "--to", "784111786"]
        text, said = self.convert(self.lines_at(range(10)), *words)
        self.assertEqual(text, capture((0, 0, GET), (3000000, 1, GET), (6000000, 2, GET), start=START + 1))
        self.assertIn("2 requests before --from or after --to", said)
        self.assertIn("5 requests between the sampled ones", said)
        self.assertIn("nothing of admission: a fifth of the traffic", said)

    def test_what_does_not_fit_a_capture(self):
        lines = self.lines_at([0, 1, 2, 3, 4])
        with unittest.mock.patch.object(capture_writer, "FORMATS", (SMALL, capture_writer.TRAFFIC)):
            words = ["--host", "a", "--format", "2"]
            _, said = self.convert(lines, *words, status=1)
            text, lenient = self.convert(lines, *words, "--lenient")
        self.assertEqual(said, "capture_from_log: a capture ends at 3 messages: cut at tick 3000000, "
                         "1994-11-06T08:49:40.000000Z (2 records beyond 3 messages); take a part of the time by --from "
                         "and --to, or a traffic text by --format traffic; nothing is written: --lenient writes what "
                         "there is\n")
        self.assertEqual(text, capture((0, 0, GET), (1000000, 1, GET), (2000000, 2, GET)))
        self.assertIn("cut at tick 3000000", lenient)

    def test_more_requests_than_a_capture_has(self):
        lines = self.lines_at([0, 1, 2, 3, 4])
        records = [(number * 1000000, number, GET) for number in range(5)]
        with unittest.mock.patch.object(capture_writer, "CAPTURE", SMALL):
            text, said = self.convert(lines, "--host", "a")
            few, of_few = self.convert(self.lines_at([0, 1, 2]), "--host", "a")
        self.assertEqual(text, traffic(*records))
        self.assertIn("5 records, 5 connections, %d bytes; a traffic text, since a capture ends at 3 messages\n"
                      % (5 * len(GET)), said)
        self.assertEqual(few, capture(*records[:3]))
        self.assertNotIn("traffic", of_few)
        self.assertEqual(self.convert(lines, "--host", "a", "--format", "traffic")[0], traffic(*records))

    def test_a_first_time_that_is_too_late(self):
        line = b"4102444801.000 GET / HTTP/1.1\n"
        _, said = self.convert(line, "--log-format", "$msec $request", status=1)
        self.assertIn("the first time, 2100-01-01T00:00:01.000000Z, is above", said)

    def test_numbers_in_turn(self):
        text, _ = self.convert(self.LINE % (b"08:49:37", b"GET / HTTP/1.1") * 80000, "--host", "a")
        self.assertEqual(text, capture(*((number * 25 // 2, number % 65536, GET) for number in range(80000))))

    def test_tiers(self):
        lines = [b"%b %b 784111777.250 GET %b HTTP/1.1\n" % it for it in [
            (b"10.1.2.3", b"a", b"/"), (b"fd00::9", b"a", b"/"), (b"unix:", b"a", b"/api/"),
            (b"10.1.2.3", b"a", b"/api/")]]
        words = ["--log-format", "$remote_addr $host $msec $request", "--tier", "fd00::/8=3", "--tier", "/api/=1",
                 "--tier", "10.1.2.0/24=2"]
        text, _ = self.convert(b"".join(lines), *words)
        api = GET.replace(b"/ ", b"/api/ ")
        self.assertEqual(text, capture(("tier", 0, 2), (0, 0, GET), ("tier", 1, 3), (0, 1, GET), ("tier", 2, 1),
                                       (0, 2, api), ("tier", 3, 1), (0, 3, api)))

    def test_numbers_of_each_tier_in_turn(self):
        targets = [b"/", b"/", b"/", b"/", b"/", b"/a", b"/", b"/a", b"/b", b"/b", b"/"]
        lines = b"".join(b"784111777.250 GET %b HTTP/1.1\n" % target for target in targets)
        words = ["--log-format", "$msec $request", "--host", "a", "--tier", "/a=1", "--tier", "/b=3"]
        with unittest.mock.patch.object(capture_writer, "CONNECTIONS_LIMIT", 5):
            text, said = self.convert(lines, *words)
        numbers, records = [0, 1, 2, 0, 1, 3, 2, 3, 4, 4, 0], []
        for target, number in zip(targets, numbers):
            tier = {b"/": 0, b"/a": 1, b"/b": 3}[target]
            records += [("tier", number, tier)] * bool(tier and ("tier", number, tier) not in records)
            records.append((0, number, GET.replace(b"/ ", target + b" ")))
        self.assertEqual(text, capture(*records))
        self.assertEqual(said, "capture_from_log: format as given: 13 records, 5 connections, 301 bytes\n")

    def test_tiers_that_are_refused(self):
        line = b"784111777.250 GET / HTTP/1.1\n"
        _, said = self.convert(line, "--log-format", "$msec $request", "--tier", "10.0.0.1=1", status=2)
        self.assertEqual(said, "capture_from_log: --tier: an address needs $remote_addr in the log's format\n")
        for word in ("10.0.0.1=4", "=1", "/a", "10.0.0.256=1", "~(=1", "a=1", "/a=-1"):
            _, said = self.convert(b"x\n", "--tier", word, status=2)
            self.assertIn("argument --tier: '%s'" % word, said)

    def test_recorded_log(self):
        text, said = self.convert("nginx.log", "--host", "example.org", "--lenient")
        with open(os.path.join(DATA, "nginx.log")) as file:
            lines = [line.split('"') for line in file]  # nginx writes a quote within a value as an escape
        sound = [line for line in lines if re.fullmatch("[!-\\[\\]-~]+ [!-\\[\\]-~]{1,5000} HTTP/1.[01]", line[1])]
        seconds = [calendar.timegm(time.strptime(line[0].split("[")[1], "%d/%b/%Y:%H:%M:%S +0000] ")) for line in sound]
        records, place = [], collections.Counter()
        for number, (line, second) in enumerate(zip(sound, seconds)):
            fields = [line[1], "Host: example.org"]
            fields += ["Referer: " + line[3]] * (line[3] != "-") + ["User-Agent: " + line[5]] * (line[5] != "-")
            fields += ["Connection: keep-alive"] * line[1].endswith("1.0")
            head = "\r\n".join(fields + ["", ""]).replace("\\x22", '"').replace("\\x5C", "\\").replace("\\xE9", "\xe9")
            tick = (second - seconds[0]) * 10**6 + place[second] * 10**6 // seconds.count(second)
            records.append((tick, number, head.encode("latin-1")))
            place[second] += 1
        self.assertEqual(len(lines), 100)
        self.assertEqual(text, capture(*records, start=seconds[0]))
        self.assertIn("left out: %d lines whose request isn't sound" % (100 - len(sound)), said)


class OtherServers(test_support.ToolTest):
    """capture_from_log.py on lines of HAProxy's manual (8.2.3 and 8.2.4, version 2.6), of Caddy's (log directive), and
    with fields that are lacking"""

    HAPROXY = (b'Feb  6 12:14:14 localhost haproxy[14389]: 10.0.1.2:33317 [06/Feb/2009:12:14:14.655] http-in '
               b'static/srv1 10/0/30/69/109 200 2750 - - ---- 1/1/1/1/0 0/0 {1wt.eu} {} "GET /index.html HTTP/1.1"')
    HTTPS = HAPROXY + b" 0/0/0/0/0 1wt.eu/TLSv1.3/TLS_AES_256_GCM_SHA384"
    BEGIN = 1233922454  # of the 6th of February 2009, 12:14:14
    CADDY = (b'{"level":"info","ts":1646861401.5241024,"logger":"http.log.access","msg":"handled request","request":'
             b'{"remote_ip":"127.0.0.1","remote_port":"41342","client_ip":"127.0.0.1","proto":"HTTP/2.0",'
             b'"method":"GET","host":"localhost","uri":"/","headers":{"User-Agent":["curl/7.82.0"],"Accept":["*/*"]}},'
             b'"bytes_read":0,"user_id":"","duration":0.000929675,"size":10900,"status":200,'
             b'"resp_headers":{"Server":["Caddy"]}}')

    def convert(self, lines, *words, status=0):
        return self.run_tool(capture_from_log, words, b"".join(line + b"\n" for line in lines), status)

    def test_haproxy(self):
        plain = self.HAPROXY.partition(b": ")[2].replace(b"{1wt.eu} {} ", b"").replace(b"10/0/30/69/", b"10/-1/-1/-1/")
        six = plain.replace(b"10.0.1.2", b"fd00::9").replace(b" 200 ", b" -1 ").replace(b":14.655", b":15.000")
        later = self.HTTPS.replace(b"12:14:14.655", b"12:14:14.700").replace(
            b"GET /index.html HTTP/1.1", b"GET https://1wt.eu:8443/a#22b?c HTTP/2.0")
        head = b"GET %b HTTP/1.1\r\nHost: %b\r\n\r\n"
        text, said = self.convert([self.HAPROXY, self.HTTPS, plain, six, later], "--host", "a", "--tier", "fd00::/8=1")
        self.assertEqual(text, capture(  # the first byte came at .655, the whole request 10 milliseconds later
            (0, 0, head % (b"/index.html", b"a")), (0, 1, head % (b"/index.html", b"a")),
            (0, 2, head % (b"/index.html", b"a")), (45_000, 3, head % (b'/a"b?c', b"1wt.eu:8443")),
            ("tier", 4, 1), (345_000, 4, head % (b"/index.html", b"a")), start=self.BEGIN))
        self.assertRegex(said, "^capture_from_log: format haproxy: 6 records, 5 connections, [0-9]+ bytes; note: "
                         "1 requests of later versions, written as HTTP/1.1\n$")

    def test_caddy(self):
        conditional = self.CADDY.replace(b'"Accept":["*/*"]', b'"If-None-Match":["\\"x\\""],"Referer":["http://b/"]')
        conditional = conditional.replace(b"1646861401.5241024", b"1646861402").replace(
            b"0.000929675", b"1.0000000299999998")
        error = self.CADDY.replace(b"http.log.access", b"http.log.error")
        text, said = self.convert([conditional, self.CADDY, error], "--lenient")
        # 1646861402 - 1.0000000299999998 and 1646861401.5241024 - 0.000929675, in whole microseconds of each time
        self.assertEqual(text, capture(
            (0, 0, b'GET / HTTP/1.1\r\nHost: localhost\r\nReferer: http://b/\r\nUser-Agent: curl/7.82.0\r\n'
             b'If-None-Match: "x"\r\n\r\n'),
            (523_173, 1, b"GET / HTTP/1.1\r\nHost: localhost\r\nUser-Agent: curl/7.82.0\r\n\r\n"),
            start=1646861401))
        self.assertIn("format caddy: 2 records", said)
        self.assertIn("1 lines of another format (the first is line 3 of", said)

    def test_fields_that_are_lacking(self):
        fields = (b'"ts":1646861401.5241024,', b'"uri":"/",', b'"method":"GET",', b'"host":"localhost",',
                  b'"duration":0.000929675,')
        lines = [self.CADDY.replace(field, b"") for field in fields] + [self.CADDY] * 35
        text, said = self.convert(lines)
        self.assertEqual(len(requests_in(text)), 37)
        for words in ("1 lines without ts (the first is line 1 of",
                      "1 lines without request.uri (the first is line 2 of",
                      "1 lines without request.method (the first is line 3 of",
                      "1 requests without request.host, written with that of --host",
                      "1 requests without duration, taken as if they took no time"):
            self.assertIn(words, said)
        _, said = self.convert(lines[:5] * 2, status=1)
        self.assertIn("of 10 lines 6 are left out: 2 lines without ts (the first is line 1 of", said)
        for form, name in (('$msec $request_time "$request"', "$request_time"), ('%{end:sec}t %{ms}T "%r"', "%{ms}T")):
            _, said = self.convert([b'784111777 %b "GET / HTTP/1.1"' % took for took in (b"-", b"1")],
                                   "--log-format", form)
            self.assertIn("note: 1 requests without %s, taken as if they took no time" % name, said)

    def test_combined_with_microseconds(self):
        """The microseconds of %D are those that Apache wrote for the same requests."""
        with open(os.path.join(SERVED, "apache_times.log"), "rb") as file:
            took = {line.split(b'"')[1]: line.split(b" ")[4] for line in file}
        with open(os.path.join(SERVED, "apache_combined.log"), "rb") as file:
            lines = [line.rstrip(b"\n") for line in file]
        expected, _ = self.convert(lines)
        text, said = self.convert([line + b" " + took[line.split(b'"')[1]] for line in lines])
        self.assertIn("format combined_us: 60 records", said)
        self.assertEqual(text, expected)


class Served(test_support.ToolTest):
    """capture_from_log.py on the logs of served/, against what the client sent"""

    TOLERANCE = 40_000  # microseconds from a client's call until a server has the request, or logs its answer

    def convert(self, data, *words):
        return self.run_tool(capture_from_log, words, data)

    def expect_times(self, text, server, tolerance):
        """Expects the requests that were sent to a server, each at its time, so many microseconds more or less."""
        sent, found = sent_requests(server), requests_in(text)
        self.assertEqual(sorted(line for _, line in found), sorted(line for _, line in sent))
        came = {line: time for time, line in found}
        distances = [came[line] - (time - sent[0][0]) for time, line in sent]
        self.assertLessEqual(max(distances) - min(distances), tolerance, distances)

    def test_logs_with_durations(self):
        for name, form, server in [("nginx_timed", "timed", "nginx"), ("nginx_json", "json", "nginx"),
                                   ("caddy", "caddy", "caddy"), ("haproxy", "haproxy", "haproxy")]:
            text, said = self.convert("served/%s.log" % name)
            self.expect_times(text, server, self.TOLERANCE)
            self.assertIn("format %s: 60 records, 60 connections" % form, said)
            self.assertEqual(said.count("\n"), 1)

    def test_apache_times(self):
        rest = ' \\"%r\\" %>s'
        for times in ("%{usec}t %x %x %x %x %x", "%x %{end:usec}t %x %D %x %x", "%x %x %{end:msec}t %x %x %{ms}T"):
            text, said = self.convert("served/apache_times.log", "--log-format", "%h " + times + rest)
            self.expect_times(text, "apache", self.TOLERANCE)
            self.assertNotIn("whole seconds", said)

    def test_formats_are_found(self):
        for name, form, server in [("nginx_main", "combined", "nginx"), ("nginx_combined", "combined", "nginx"),
                                   ("apache_common", "common", "apache"), ("apache_combined", "combined", "apache"),
                                   ("apache_vhost_combined", "vhost_combined", "apache")]:
            text, said = self.convert("served/%s.log" % name)
            self.assertIn("format %s: 60 records" % form, said)
            self.assertIn("whole seconds", said)
            self.assertEqual(sorted(line for _, line in requests_in(text)),
                             sorted(line for _, line in sent_requests(server)))
            agent = b'\r\nReferer: http://www.example.org/\r\nUser-Agent: client/1 "quoted"'
            agent = b"" if form == "common" else agent
            host = b"www.example.org" if form == "vhost_combined" else b"localhost"
            self.assertEqual(text.count(b"HTTP/1.1\r\nHost: " + host + agent + b"\r\n\r\n"), 60, name)
            again, _ = self.convert("served/%s.log" % name, "--log-format", form)
            self.assertEqual(again, text)

    def test_apache_logs_when_requests_came(self):
        text, _ = self.convert("served/apache_combined.log")
        start, _ = read_capture(text)
        came = {line: start + tick // 10**6 for tick, line in requests_in(text)}
        late = [came[line] - time // 10**6 for time, line in sent_requests("apache")]
        self.assertLessEqual(set(late), {0, 1})
        self.assertGreater(late.count(0), 55)

    def test_whole_seconds_with_durations(self):
        form = '$remote_addr - $u [$time_local] "$request" $s $b "$r" "$a" $m $request_time $host "$i" "$n"'
        text, _ = self.convert("served/nginx_timed.log", "--log-format", form)
        self.expect_times(text, "nginx", 1_200_000)
        text, _ = self.convert("served/nginx_combined.log")  # the times of the answers, up to 1.5 s after the requests
        with self.assertRaises(AssertionError):
            self.expect_times(text, "nginx", 1_200_000)

    def rotated(self):
        """The timed log in three files: the oldest first, in different compressions."""
        with open(os.path.join(SERVED, "nginx_timed.log"), "rb") as file:
            lines = file.readlines()
        paths = []
        for name, opened, part in [("log.3.gz", gzip.open, lines[:20]), ("log.2.xz", lzma.open, lines[20:21]),
                                   ("log.1.bz2", bz2.open, lines[21:40]), ("log", open, lines[40:])]:
            paths.append(os.path.join(self.folder, name))
            with opened(paths[-1], "wb") as file:
                file.write(b"".join(part))
        return paths

    def test_rotated_files_in_any_order(self):
        expected, said = self.convert("served/nginx_timed.log")
        one, two, three, four = self.rotated()
        for paths in ([one, two, three, four], [four, three, two, one], [three, one, four, two]):
            self.assertEqual(self.convert(paths), (expected, said))

    def test_rotated_files_of_whole_seconds(self):
        with open(os.path.join(SERVED, "apache_combined.log"), "rb") as file:
            lines = file.readlines()
        paths = [os.path.join(self.folder, name) for name in ("new", "old")]
        for path, part in zip(paths, (lines[30:], lines[:30])):
            with open(path, "wb") as file:
                file.writelines(part)
        self.assertEqual(self.convert(paths), self.convert("served/apache_combined.log"))

    def test_standard_input(self):
        expected, _ = self.convert("served/nginx_timed.log")
        one, two, three, four = self.rotated()
        for path, others in ((four, [one, two, three]), (one, [four, three, two])):
            with open(path, "rb") as file:
                words = [os.path.join(TOOLS, "capture_from_log.py"), "--output", self.output, *others, "-"]
                status, said = self.run_program(*words, stdin=file)
            self.assertEqual((status, said.count("\n")), (0, 1))
            with open(self.output, "rb") as file:
                self.assertEqual(file.read(), expected)

    def test_compressed_files_that_are_damaged(self):
        with open(os.path.join(SERVED, "nginx_timed.log"), "rb") as file:
            text = file.read() * 20
        for packed in (gzip.compress(text), bz2.compress(text), lzma.compress(text)):
            for damaged in (packed[:-9], packed[:len(packed) // 2], packed[:40] + b"\xff" * 400 + packed[440:]):
                _, said = self.run_tool(capture_from_log, [], damaged, 1)
                self.assertRegex(said, "^capture_from_log: .*input: .*\n$")
        _, said = self.run_tool(capture_from_log, [], b"\x28\xb5\x2f\xfd" + bytes(20), 1)
        self.assertIn("zstd -dc", said)

    @staticmethod
    def with_dictionary(packed, code):
        """An xz file of one stream with another size of its dictionary: 2^(code / 2 + 12) bytes, for an even code (The
        .xz File Format, 3.1 and 5.3.1)."""
        header = bytearray(packed[12:24])
        assert header[:4] == b"\x02\x00\x21\x01", header
        header[4] = code
        header[8:] = struct.pack("<I", zlib.crc32(header[:8]))
        return packed[:12] + bytes(header) + packed[24:]

    def test_memory_of_xz(self):
        with open(os.path.join(SERVED, "nginx_timed.log"), "rb") as file:
            text = file.read()
        one, two = (lzma.compress(part) for part in (text[:5000], text[5000:]))
        self.assertEqual(self.convert(self.with_dictionary(one, 28) + two), self.convert(text))  # 64 MiB, as xz -9
        for packed in (self.with_dictionary(one, 36), one + self.with_dictionary(two, 36)):  # 1 GiB
            _, said = self.run_tool(capture_from_log, [], packed, 1)
            self.assertEqual(said, "capture_from_log: %s: takes more than 128 MiB of memory to be read; give `-` as "
                             "the input, and pipe from xz -dc\n" % self.input)

    def test_streams_of_xz(self):
        """Padding is zeros (The .xz File Format, 2.2); what is no stream is read over, as Python does."""
        with open(os.path.join(SERVED, "nginx_timed.log"), "rb") as file:
            text = file.read()
        expected = self.convert(text)
        one, two = (lzma.compress(part) for part in (text[:5000], text[5000:]))
        for packed in (one + two, one + bytes(8) + two + bytes(20_000), one + two + b"rest"):
            self.assertEqual(self.convert(packed), expected)

    def test_memory_of_what_expands(self):
        """It is read in pieces, however much it becomes."""
        size = 16 << 20
        for compress in (gzip.compress, bz2.compress, lzma.compress):
            path = self.stored(compress(bytes(size)))
            with input_files.opened([path], lambda count: None) as (one,):
                tracemalloc.start()
                self.assertEqual(sum(len(data) for data in iter(lambda: one.read(65_536), b"")), size)
                self.assertLess(tracemalloc.get_traced_memory()[1], 1 << 20)
                tracemalloc.stop()

    def test_blocks_side_by_side(self):
        names = ("nginx_timed", "nginx_combined", "nginx_json")
        expected = [self.convert("served/%s.log" % name) for name in names]
        for size in (300, 1000, 5000):
            with unittest.mock.patch.object(log_blocks, "BLOCK_BYTES", size):
                found = [self.convert("served/%s.log" % name) for name in names]
            self.assertEqual(found, expected)

    def test_jumps_at_the_ends_of_blocks(self):
        with open(os.path.join(SERVED, "nginx_timed.log"), "rb") as file:
            lines = file.readlines()
        for place in (0, 7, 29, 59):
            jumped = lines[:]
            jumped[place] = re.sub(rb" 1795(\d+\.)", rb" 3795\1", jumped[place])
            self.assertNotEqual(jumped, lines)
            for size in (1500, 2000, 10**6):
                with unittest.mock.patch.object(log_blocks, "BLOCK_BYTES", size):
                    text, said = self.convert(b"".join(jumped))
                self.assertEqual(len(requests_in(text)), 59)
                self.assertIn("1 lines whose time stands alone (the first is line %d of" % (place + 1), said)


class Faults(test_support.ToolTest):
    """What is said and what stands where words, files or the end of a run are odd"""

    TOOL = os.path.join(TOOLS, "capture_from_log.py")

    def test_an_output_that_is_the_input(self):
        with open(self.output, "wb") as file:
            file.write(b"text")
        os.link(self.output, self.input)
        os.symlink("input", self.input + ".link")
        for path in (self.output, self.input, self.input + ".link"):
            said = self.run_program(self.TOOL, "--output", self.output, os.devnull, path)
            self.assertEqual(said, (2, "capture_from_log: %s: the output is the input; give it another name\n"
                                    % self.output))
        with open(self.input, "rb") as file:
            self.assertEqual(self.run_program(self.TOOL, "--output", self.output, "-", stdin=file)[0], 2)
        with open(self.output, "rb") as file:
            self.assertEqual(file.read(), b"text")

    def test_files_that_cannot_be_opened(self):
        said = self.run_program(self.TOOL, "--output", self.output, self.input)
        self.assertEqual(said, (1, "capture_from_log: %s: No such file or directory\n" % self.input))
        stored, output = os.path.join(DATA, "nginx.log"), os.path.join(self.input, "capture")
        said = self.run_program(self.TOOL, "--lenient", "--output", output, stored)
        self.assertEqual(said, (1, "capture_from_log: %s: No such file or directory\n" % output))
        self.assertEqual(self.run_program(self.TOOL, "--output", self.output, self.folder)[0], 1)

    def test_a_library_that_is_missing(self):
        said = self.run_program("-S", self.TOOL, "--output", self.output, os.path.join(DATA, "nginx.log"))
        self.assertEqual(said, (2, "capture_from_log: needs tqdm: apt-get install python3-tqdm\n"))

    def test_words_that_are_wrong(self):
        stored = os.path.join(DATA, "nginx.log")
        for words, said in [(["--host", "m\u00fcller.de"], "--host: 'm\\xfcller.de' has a character"),
                            (["--host", b"\xff".decode("utf-8", "surrogateescape")], "--host: "),
                            (["--host", "a b"], "--host: 'a b' has a character"), (["--without", "Host"], "--without"),
                            (["--without", "a b"], "--without: 'a b' is no name of a field"),
                            (["--from", "x"], "--from"),
                            (["--sample", "0"], "--sample"), (["--tier", "~(((=1"], "--tier"),
                            (["--wrong"], "--wrong")]:
            status, line = self.run_program(self.TOOL, "--output", self.output, *words, stored)
            self.assertEqual(status, 2, line)
            self.assertTrue(line.startswith("usage: "), line)
            self.assertIn(said, line)
            self.assertNotIn("Traceback", line)

    def test_odd_lines(self):
        line = b'{"msec":784111777.250,"request":"GET / HTTP/1.1","http_host":"a"}\n'
        odd = [b"[" * 5000 + b"\n", b'{"msec":[],"request":{}}\n', b"[1]\n", b"null\n", b'{"msec":"\\ud800"}\n',
               b'{"msec":NaN,"request":"x"}\n', b"\0\xff\n", b'{"msec":1' + b"0" * 5000 + b',"request":"x"}\n']
        text, said = self.run_tool(capture_from_log, ["--lenient"], line + b"".join(odd))
        self.assertEqual(text, capture((0, 0, GET)))
        self.assertIn("%d lines of another format" % (len(odd) - 1), said)
        self.assertIn("1 lines without msec (the first is line 7 of", said)  # NaN is no number of JSON

    def test_closed_standard_error(self):
        words = ["sh", "-c", '"$0" "$@" 2>&-', self.TOOL, "--lenient", "--output", self.output,
                 os.path.join(DATA, "nginx.log")]
        ran = subprocess.run(words, stdout=subprocess.PIPE, timeout=60)
        self.assertEqual((ran.returncode, ran.stdout), (0, b""))
        with open(self.output, "rb") as file:
            self.assertEqual(len(requests_in(file.read())), 88)

    def test_progress_without_a_terminal(self):
        with open(os.path.join(SERVED, "nginx_timed.log"), "rb") as file:
            text = file.read()
        for step, lines in ((0.0, True), (10.0, False)):
            with unittest.mock.patch("haboob_tools.tool_run.PROGRESS_STEP", step):
                _, said = self.run_tool(capture_from_log, [], text)
            found = re.findall(r"^capture_from_log: .*\[\d\d:\d\d<.*$", said, re.MULTILINE)
            self.assertEqual(bool(found), lines, said)

    def start(self, text):
        """A run, in a session of its own, that has read a text from a pipe that stays open; an older output stands."""
        signal.signal(signal.SIGINT, signal.default_int_handler)  # it is ignored where tests run in the background
        with open(self.output, "wb") as file:
            file.write(b"older")
        words = [self.TOOL, "--output", self.output, "--log-format", "$msec $request", "-"]
        run = subprocess.Popen(words, stdin=subprocess.PIPE, stderr=subprocess.PIPE, start_new_session=True)
        self.addCleanup(run.communicate)
        self.addCleanup(self.kill_session, run)
        run.stdin.write(text)
        run.stdin.flush()
        return run  # `communicate`, at the end, closes the pipe

    @staticmethod
    def kill_session(run):
        """Kills all processes of a run, if any is left."""
        with contextlib.suppress(ProcessLookupError):
            os.killpg(run.pid, signal.SIGKILL)

    def expect_end(self, run):
        """Expects that no process of a run is left, and that the older output stands."""
        deadline = time.monotonic() + 120
        with self.assertRaises(ProcessLookupError):
            while time.monotonic() < deadline:
                os.killpg(run.pid, 0)
                time.sleep(0.05)
        with open(self.output, "rb") as file:
            self.assertEqual(file.read(), b"older")
        self.assertEqual(os.listdir(self.folder), ["out.capture"])

    def test_ctrl_c_and_kills(self):
        lines = b"784111777.250 GET /%b HTTP/1.1\n" % (b"x" * 4000) * 5000  # 20 MB, which several processes read
        for asked, status in [(signal.SIGINT, 130), (signal.SIGTERM, 143), (signal.SIGKILL, -9)]:
            run = self.start(lines)
            time.sleep(1)  # until it waits for more
            if asked == signal.SIGINT:
                os.killpg(run.pid, asked)  # as a terminal does
            else:
                run.send_signal(asked)
            self.assertEqual(run.wait(timeout=60), status)
            self.expect_end(run)
            self.assertEqual(run.stderr.read(), b"")


if __name__ == "__main__":
    unittest.main()
