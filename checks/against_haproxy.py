#!/usr/bin/env python3
"""Puts the lines that tools/haboob_tools/server_lines.py prints for HAProxy before a real HAProxy, and counts what it
lets in.

    checks/against_haproxy.py

`haproxy -c` takes the lines of one policy and of four tiers. Then, with one policy of a fixed rate: of a burst of three
times the depth the depth is let in, and of one more once the window has passed; and of a lasting load of three times
the rate no more than a bucket would let in, and no less than half of the rate; and of a burst of each tier, by a
condition on each of its lines, the depth of its own. It needs haproxy, and takes half a minute. Prints each comparison,
and exits with 1 where one failed.
"""
import collections
import http.client
import pathlib
import shutil
import subprocess
import sys
import tempfile
import time

from lib.report import Report
from lib.servers import HOST, answers_at, free_port, is_soon, running
from lib.sources import TOP
from lib.usage import parser_of

sys.path.insert(0, str(pathlib.Path(TOP, "tools")))
from haboob_tools import server_lines

SECONDS = 10  # that a start, an answer or an end may take
RATE, DEPTH = 10, 20  # requests a second, requests at once: a window of two seconds
LOAD_SECONDS = 10
CONFIGURATION = """\
global
    maxconn 100
defaults
    mode http
    timeout connect 5s
    timeout client 60s
    timeout server 5s
{backends}
frontend all
    bind {host}:{port}
{rules}
    http-request return status 200
"""

Policy = collections.namedtuple("Policy", "rate rate_min rate_max depth")


def policy_of(rate, depth):
    """A policy of a fixed rate, in requests a second."""
    return Policy(rate * 1000, rate * 1000, rate * 1000, depth)


SINGLE = {0: policy_of(RATE, DEPTH)}
TIERS = {tier: policy_of(tier + 1, 10 * (tier + 1)) for tier in range(4)}  # a window of ten seconds each


def with_condition(rule, tier):
    """A printed rule for the requests of a tier: those below its number."""
    return "%s %s{ path_beg /%d }" % (rule, "" if " if " in rule else "if ", tier)


def rules_of(policies):
    """The printed rules of the frontend; with several tiers each with a condition."""
    rules = [line for line in server_lines.haproxy(policies) if line.lstrip().startswith("http-request")]
    if len(policies) == 1:
        return rules
    each = len(rules) // len(policies)
    return [with_condition(rule, tier) for place, tier in enumerate(policies)
            for rule in rules[place * each:(place + 1) * each]]


def configuration(policies, port):
    """A configuration with the printed lines, those of the frontend in one that answers by itself."""
    backends = [line for line in server_lines.haproxy(policies)
                if not line.startswith("#") and not line.lstrip().startswith("http-request")]
    return CONFIGURATION.format(host=HOST, port=port, backends="\n".join(backends), rules="\n".join(rules_of(policies)))


def is_taken(text, folder):
    """Whether HAProxy takes a configuration, and what it says."""
    path = pathlib.Path(folder, "checked.cfg")
    path.write_text(text)
    ran = subprocess.run(["haproxy", "-c", "-f", path], capture_output=True, text=True, timeout=SECONDS)
    return ran.returncode == 0, (ran.stdout + ran.stderr).strip()


def let_in(connection, count, pause=0.0, target="/"):
    """How many of so many requests are let in, with a pause before each."""
    statuses = collections.Counter()
    for _ in range(count):
        time.sleep(pause)
        connection.request("GET", target)
        answer = connection.getresponse()
        answer.read()
        statuses[answer.status] += 1
        if answer.will_close:
            connection.close()
    if set(statuses) - {200, 503}:
        sys.exit("against_haproxy: strange answers: %s" % dict(statuses))
    return statuses[200]


def counts(port):
    """What is let in of two bursts and of a lasting load, and how many seconds the load took."""
    connection = http.client.HTTPConnection(HOST, port, timeout=SECONDS)
    bursts = []
    for _ in range(2):
        bursts.append(let_in(connection, 3 * DEPTH))
        time.sleep(2.5 * DEPTH / RATE)
    begin = time.monotonic()
    lasting = let_in(connection, 3 * RATE * LOAD_SECONDS, 1 / (3 * RATE))
    return bursts, lasting, time.monotonic() - begin


def counts_by_tier(port):
    """What is let in of a burst of each tier."""
    connection = http.client.HTTPConnection(HOST, port, timeout=SECONDS)
    return [let_in(connection, 60, target="/%d" % tier) for tier in TIERS]


def before_haproxy(policies, folder, measure):
    """What is measured before a HAProxy with the lines of these policies."""
    port = free_port()
    path = pathlib.Path(folder, "run.cfg")
    path.write_text(configuration(policies, port))
    with running(["haproxy", "-db", "-f", path], stderr=subprocess.DEVNULL) as child:
        if not is_soon(lambda: answers_at(port), SECONDS, child):
            sys.exit("against_haproxy: haproxy doesn't start")
        return measure(port)


def main():
    parser_of(__doc__, runs_program=False).parse_args()
    if shutil.which("haproxy") is None:
        sys.exit("against_haproxy: haproxy isn't there")
    report = Report(width=60)
    with tempfile.TemporaryDirectory() as folder:
        for name, policies in (("one policy", SINGLE), ("four tiers", TIERS)):
            good, said = is_taken(configuration(policies, free_port()), folder)
            report.see("haproxy -c takes the lines of %s" % name, good, said, "yes")
        bursts, lasting, seconds = before_haproxy(SINGLE, folder, counts)
        by_tier = before_haproxy(TIERS, folder, counts_by_tier)
    for number, count in enumerate(bursts, 1):
        report.see("burst %d of %d, let in (the depth)" % (number, 3 * DEPTH), count == DEPTH, count, count)
    least, most = RATE * seconds / 2, RATE * seconds + DEPTH
    report.see("lasting load, let in (%.0f to %.0f)" % (least, most), least <= lasting <= most, lasting, lasting)
    for (tier, policy), count in zip(TIERS.items(), by_tier):
        report.see("burst of 60 of tier %d, let in (its depth)" % tier, count == policy.depth, count, count)
    return report.end("{wrong} failed")


if __name__ == "__main__":
    sys.exit(main())
