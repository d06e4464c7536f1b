"""Replays captures under many settings, and shows which of them turn few requests away and answer soon.

Exits with 0; with 1 at a fault, which is one line on standard error, and where no combination is within --at-most; with
2 where the words are wrong; with 130 at Ctrl-C.
"""
from . import tool_run  # first, for Ctrl-C while the others are read

import argparse
import collections
import concurrent.futures
import contextlib
import hashlib
import itertools
import json
import logging
import math
import multiprocessing
import os
import pathlib
import re
import signal
import stat
import tempfile
import textwrap
import threading
import zipfile

from . import (command_line, decision_tables, input_files, output_file, response_delays, server_lines,
               settings_documents, spreadsheets, standard_output, sweep_figures, sweep_page)
from .sweep_figures import Combination
from .tool_run import Fault

TOOL = "sweep"

EXPLANATION = """\
Each combination of the values is a run of `haboob explain` for each capture, with the settings of
--settings and the values in their place. A key is any one of the settings that is a single integer:
policy.depth, tier1.rate, costs.kib; of a route of --settings route./api.cost, its kib or delay; of a
pool of --settings pool.api.servers. route./api.pool takes names of these pools; one that no route names
any more is left out. Rates are in thousandths a second, or with /s in requests a second:
policy.rate=1000000 is policy.rate=1000/s. policy.fixed_rate is no key of the program: it sets rate,
rate_min and rate_max alike, as servers do that have no controller. (The program refuses a rate outside
rate_min and rate_max.) FOLDER gets

  sweep.html      the combinations by requests turned away and p99, what each key changes, and the
                  combinations that no other beats
  sweep.csv       a row for each combination, the last key's values changing first: the values;
                  admitted, rejected, rejected_while_idle; p50, p90, p99, greatest (microseconds);
                  busy_share (0 to 1); unbeaten and chosen (1 or 0); turned_away (percent);
                  most_inside; row; capture; the figures of each tier, where there are several; of
                  each pool, where the settings have some (costs: the servers of no pool),
                  busy_share of its own servers, most_waiting (the most requests that had come and
                  weren't begun) and longest_wait; with --margin those at its ends (lower.p99,
                  upper.p99 ..); fault: what the program says where it refuses the settings, and
                  there are no figures then; the file of the settings
  settings/       the settings of each combination, to be taken as they are, and those at the ends of
                  a margin
  results/        the figures of each run. After an interruption the same command goes on; and any
                  sweep into this folder takes a result again where snapshot, capture, program and
                  settings are the same.

%s

Where all values of a key give the same figures, they are one row, with `any` in the key's place. Of
several captures the worst figure counts; sweep.csv has a row `worst` and then one for each.

--at-most FIGURE=N chooses, of the combinations within it (several times: within all), the one that
turns fewest away, and prints its settings and lines for nginx, HAProxy and Envoy on standard output.
FIGURE is %s;
tier1.p99 is that of tier 1. N is in microseconds for times, in percent for turned_away.

--margin PERCENT chooses a combination that is within --at-most also where all costs, those of routes
too, are so many percent lower, and higher: three runs in the place of one. The page shows each figure
at both ends. --margin calibrated takes the percent that tools/calibrate.py wrote into --settings.
Above 90 percent of what the server bears a warning says so.

--search N tries N combinations in the place of all: --set then gives ranges, and an optimiser (SciPy's
differential evolution) looks for the one to choose.

Each run holds the snapshot in memory. A table of decisions is read while it is written, and takes no
room on the disk.

--cluster ADDRESS runs the combinations on a Dask cluster whose scheduler has this address. Snapshot
and captures are sent to each worker once; there each run writes them to a temporary folder, which is
then removed. A worker needs Python 3.11 and the program, the same on all of them, on its PATH or as
--program says. --jobs doesn't count: as many run at once as the workers have threads, and a worker
with one thread is best (dask-worker --nthreads 1).

examples:
  tools/sweep.py --snapshot site.snapshot --capture day.capture --output day.sweep \\
    --set policy.rate=500/s,1000/s,2000/s --set policy.depth=10,100,1000 --at-most p99=50000
  tools/sweep.py --snapshot site.snapshot --capture friday.capture --capture sunday.capture --output both.sweep \\
    --set policy.fixed_rate=100/s..2000/s --set policy.depth=1..1000 --search 60 --at-most tier0.p99=50000
""" % ("\n".join(textwrap.fill(meaning, 100, initial_indent="  %-16s" % name, subsequent_indent=18 * " ")
                 for name, meaning in sweep_figures.DEFINITIONS),
       textwrap.fill(", ".join(sweep_figures.LIMITED), 88).replace("\n", "\n  "))

KIND = "haboob-sweep 3"  # to be raised where the figures of a result get another meaning
DIGITS = 16  # hexadecimal ones of a file's name
RESULT_ROOM = 65_536  # bytes that are read of a result; a sound one has some hundreds
SETTING = re.compile(r"((?:route[.]/|pool[.])[^=]*[.][a-z]+|[A-Za-z0-9_-]+[.][A-Za-z0-9_-]+)=(.*)")
RANGE = re.compile(r"([^.,]+)[.][.]([^.,]+)")
ADDRESS = re.compile(r"(?:(?:tcp|tls)://)?[^/]+:[0-9]+")
INTEGER = re.compile(r"(-?[0-9]{1,15})(/s)?")
LIMIT = re.compile(r"(?:(tier[0-3])[.])?([a-z0-9_]+)=([0-9]{1,15}(?:[.][0-9]{1,6})?)")
LEAST_SEARCH, MOST_COMBINATIONS = 10, 100_000  # runs
GREATEST_MARGIN = 90  # percent
CALIBRATED = "calibrated"
# What a worker's package does when it is sent again: it forgets the modules of the sweep before.
FORGETTING = """\
import sys
for name in [name for name in sys.modules if name.startswith(__name__ + ".")]:
    del sys.modules[name]
"""
NO_CAPTURE = "haboob: capture: record 0: Header"  # what the program says of a file that is no capture

# A key of --set, its values in their order, and whether they are the ends of a range.
Setting = collections.namedtuple("Setting", "key values is_range")
# A figure of --at-most, by its name; the tier it is of, or None; and what it may be at most.
Limit = collections.namedtuple("Limit", "name tier figure most")


def value_of(key, word):
    """The value of a word of the command line for a key."""
    if settings_documents.is_name(key):
        return word
    found = INTEGER.fullmatch(word)
    if not found:
        raise argparse.ArgumentTypeError("%s: %s" % (key, "%r is no integer" % word if word else "no value"))
    if found[2] and not settings_documents.is_rate(key):
        raise argparse.ArgumentTypeError("%s: %r: it is no rate" % (key, word))
    return int(found[1]) * (1000 if found[2] else 1)


def setting(text):
    """The key and the values of a word TABLE.KEY=VALUE,VALUE or TABLE.KEY=LEAST..GREATEST of the command line."""
    found = SETTING.fullmatch(text)
    if not found:
        raise argparse.ArgumentTypeError("%r is no TABLE.KEY=VALUE,VALUE.." % text)
    ends = None if settings_documents.is_name(found[1]) else RANGE.fullmatch(found[2])
    values = [value_of(found[1], word) for word in (ends.groups() if ends else found[2].split(","))]
    if len(set(values)) < len(values):
        raise argparse.ArgumentTypeError("%s: a value comes twice" % found[1])
    if ends and values[0] > values[1]:
        raise argparse.ArgumentTypeError("%s: the range falls" % found[1])
    return Setting(found[1], values, bool(ends))


def limit(text):
    """The figure and what it may be at most, of a word FIGURE=N of the command line."""
    found = LIMIT.fullmatch(text)
    if not found or found[2] not in sweep_figures.LIMITED or (found[1] and found[2] not in sweep_figures.OF_TIER):
        raise argparse.ArgumentTypeError("%r is no FIGURE=N; FIGURE is one of %s; of a tier, as tier1.p99, %s" % (
            text, ", ".join(sweep_figures.LIMITED), ", ".join(sweep_figures.OF_TIER)))
    return Limit(text.partition("=")[0], found[1] and found[1][-1], found[2], float(found[3]))


def address(text):
    """The address of a scheduler on the command line."""
    if not ADDRESS.fullmatch(text):
        raise argparse.ArgumentTypeError("%r is no address such as tcp://HOST:8786" % text)
    return text


def margin(text):
    """So many percent of the command line, or the word for those that the settings tell."""
    if text == CALIBRATED:
        return text
    if not re.fullmatch(r"[1-9][0-9]?", text) or int(text) > GREATEST_MARGIN:
        raise argparse.ArgumentTypeError("%r is no whole number of percent from 1 to %d, nor %s" % (
            text, GREATEST_MARGIN, CALIBRATED))
    return int(text)


def count(text):
    """A whole number from 1 of the command line."""
    if not re.fullmatch(r"[1-9][0-9]{0,8}", text):
        raise argparse.ArgumentTypeError("%r is no number from 1" % text)
    return int(text)


def arguments(words):
    """The words of the command line."""
    parser = command_line.Parser(prog="tools/sweep.py", description=__doc__, epilog=EXPLANATION)
    parser.add_argument("--snapshot", required=True, metavar="FILE", help="the files of the site")
    parser.add_argument("--capture", required=True, action="append", dest="captures", metavar="FILE",
                        help="the recorded requests; several times: the worst figure over all counts")
    parser.add_argument("--settings", metavar="FILE", help="the settings that hold for all; without it the defaults")
    parser.add_argument("--set", required=True, type=setting, action="append", dest="grid",
                        metavar="TABLE.KEY=VALUE,VALUE..", help="a key and its values; may be given several times")
    parser.add_argument("--at-most", type=limit, action="append", default=[], dest="limits", metavar="FIGURE=N",
                        help="choose the combination that turns fewest away within it; may be given several times")
    parser.add_argument("--margin", type=margin, metavar="PERCENT", help="choose what is within --at-most also where "
                        "all costs are so many percent lower, and higher; calibrated: as many as --settings tells")
    parser.add_argument("--search", type=count, metavar="N", help="try N combinations, chosen by an optimiser, of "
                        "the ranges that --set gives as TABLE.KEY=LEAST..GREATEST")
    parser.add_argument("--output", required=True, metavar="FOLDER", help="where the results go; is made if need be")
    parser.add_argument("--program", default="haboob", help="the program; without it haboob, found on the PATH")
    parser.add_argument("--jobs", type=count, default=len(os.sched_getaffinity(0)), metavar="N",
                        help="how many runs at once; without it as many as there are cores")
    parser.add_argument("--cluster", type=address, metavar="ADDRESS",
                        help="run on a Dask cluster (needs python3-distributed)")
    options = parser.parse_args(words)
    check_together(parser, options)
    return options


def check_together(parser, options):
    """Refuses words that don't go together."""
    keys = [one.key for one in options.grid]
    if len(set(keys)) < len(keys):
        parser.error("argument --set: a key comes twice")
    other = next((one.key for one in options.grid if one.is_range != bool(options.search)), None)
    if other:
        parser.error("argument --set: %s: %s" % (
            other, "--search needs a range, LEAST..GREATEST" if options.search else "a range needs --search"))
    if math.prod(len(one.values) for one in options.grid) > MOST_COMBINATIONS:
        parser.error("argument --set: more than %d combinations" % MOST_COMBINATIONS)
    if options.margin and not options.limits:
        parser.error("argument --margin: needs --at-most, which is to hold all over it")
    if options.search and not options.limits:
        parser.error("argument --search: needs --at-most, which says what is looked for")
    if options.search and not LEAST_SEARCH <= options.search <= MOST_COMBINATIONS:
        parser.error("argument --search: from %d to %d" % (LEAST_SEARCH, MOST_COMBINATIONS))


def name_of(*texts):
    """A name for a file that only these texts have."""
    return hashlib.sha256("\n".join(texts).encode()).hexdigest()[:2 * DIGITS]


def write_whole(path, text, inputs=()):
    """Writes a file in the place of an older one, which is none of the inputs; one that holds the same is left
    alone."""
    if path.is_file() and path.read_bytes() == text.encode():
        return
    output_file.refuse_same([path], inputs)
    with output_file.replacing_text(path) as file:
        file.write(text)


def inputs_of(options):
    """The paths of all inputs."""
    return [options.snapshot, *options.captures, *([options.settings] if options.settings else [])]


class Inputs:
    """The files that all runs have in common, and which may not change meanwhile."""

    def __init__(self, paths):
        self.stamps = {path: self.stamp(path) for path in paths}
        self.digests = [decision_tables.digest_of(path) for path in paths]

    @staticmethod
    def stamp(path):
        """What differs once a file was changed."""
        status = os.stat(path)
        if not stat.S_ISREG(status.st_mode):
            raise Fault("%s: no regular file" % path)
        return status.st_ino, status.st_size, status.st_mtime_ns

    def check(self):
        """Refuses a file that was changed."""
        for path, stamp in self.stamps.items():
            if self.stamp(path) != stamp:
                raise Fault("%s: changed during the sweep" % path)


class Results:
    """The results of runs in a folder, each under a name made of all that it follows from."""

    def __init__(self, folder, runner):
        self.folder = folder
        self.snapshot, *self.captures = runner.inputs.digests
        self.program = runner.program_digest

    def path(self, document, capture):
        """The file of the result of a document's text on the capture at a place of the command line."""
        digests = (self.snapshot, self.captures[capture], self.program)
        return self.folder / (name_of(KIND, *digests, document) + ".json")

    def read(self, document, capture):
        """The result; None where there is none, or a damaged one."""
        try:
            with open(self.path(document, capture), "rb") as file:
                result = json.loads(file.read(RESULT_ROOM).decode())
        except (FileNotFoundError, ValueError, RecursionError):
            return None
        return result if sweep_figures.is_result(result) else None

    def write(self, document, capture, result):
        write_whole(self.path(document, capture), json.dumps(result) + "\n")


def begin_worker():
    """Makes a process for runs a group with the program that it runs: an interruption isn't theirs, and both end with
    the process that began them."""
    os.setpgid(0, 0)
    for asked in (signal.SIGTERM, signal.SIGHUP):
        signal.signal(asked, signal.SIG_DFL)
    parent = multiprocessing.parent_process()

    def end_with_parent():
        parent.join()
        os.killpg(0, signal.SIGKILL)

    threading.Thread(target=end_with_parent, daemon=True).start()


def end_worker(process):
    """Ends a process for runs, and the program that it runs."""
    try:
        os.killpg(process.pid, signal.SIGKILL)
    except ProcessLookupError:  # it has just begun
        process.kill()


class Machine:
    """Runs on this machine."""

    failures = (concurrent.futures.BrokenExecutor,)

    def __init__(self, options):
        self.options = options
        self.program = decision_tables.find_program(options.program)
        self.inputs = Inputs((options.snapshot, *options.captures))
        self.of_program = Inputs((self.program,))
        self.program_digest = self.of_program.digests[0]

    def check(self):
        """Refuses an input, or a program, that was changed."""
        self.inputs.check()
        self.of_program.check()

    def default_settings(self):
        """The document of all keys."""
        return decision_tables.default_settings(self.program)

    @contextlib.contextmanager
    def beginner(self):
        """A function that begins a run: of the file of settings, the text in it, and the capture by its place."""
        with concurrent.futures.ProcessPoolExecutor(self.options.jobs, initializer=begin_worker) as pool:
            try:
                yield lambda path, document, capture: pool.submit(
                    decision_tables.run, self.program, self.options.snapshot, self.options.captures[capture], path)
            except BaseException:
                # Else the pool waits for the runs that it began, and for as many that stand in its queue.
                collections.deque(map(end_worker, multiprocessing.active_children()), maxlen=0)
                raise


def send_modules(client):
    """Sends a cluster's workers the modules that they need, as a package of those alone."""
    package = __name__.partition(".")[0]
    with tempfile.TemporaryDirectory() as folder:
        path = os.path.join(folder, package + ".zip")
        with zipfile.ZipFile(path, "w") as file:
            file.writestr(package + "/__init__.py", FORGETTING)
            for module in (response_delays, decision_tables):
                text = pathlib.Path(module.__file__).read_bytes()
                file.writestr(module.__name__.replace(".", "/") + ".py", text)
        client.upload_file(path)


class Cluster:
    """Runs on the workers of a Dask cluster, as long as its client is open."""

    def __init__(self, options, distributed, client):
        self.failures = (distributed.scheduler.KilledWorker, concurrent.futures.CancelledError)
        self.options = options
        self.client = client
        self.inputs = Inputs((options.snapshot, *options.captures))
        send_modules(client)
        digests = set(client.run(decision_tables.digest_of_program, options.program).values())
        if len(digests) != 1:
            raise Fault("%s: %s" % (options.cluster, "not the same program on all workers" if digests
                                    else "no worker is there"))
        self.program_digest = digests.pop()

    def check(self):
        """Refuses an input that was changed."""
        self.inputs.check()

    def default_settings(self):
        """The document of all keys."""
        return self.client.submit(decision_tables.default_settings, self.options.program, pure=False).result()

    @contextlib.contextmanager
    def beginner(self):
        """As above; the bytes of the inputs are sent before the first run."""
        paths = (self.options.snapshot, *self.options.captures)
        snapshot, *captures = self.client.scatter([pathlib.Path(path).read_bytes() for path in paths], broadcast=True)
        self.inputs.check()
        executor = self.client.get_executor(pure=False)
        yield lambda path, document, capture: executor.submit(
            decision_tables.run_bytes, self.options.program, self.program_digest, snapshot, captures[capture],
            document.encode())


@contextlib.contextmanager
def runner_of(options):
    """Where the runs are made."""
    if not options.cluster:
        yield Machine(options)
        return
    try:
        import distributed
    except ImportError:
        raise Fault("--cluster needs distributed: apt-get install python3-distributed", 2) from None
    logging.disable()  # its faults come as exceptions, too
    try:
        client = distributed.Client(options.cluster, set_as_default=False)
    except OSError as error:
        raise Fault("%s: no scheduler answers: %s" % (options.cluster, error)) from None
    with client:
        yield Cluster(options, distributed, client)


def as_they_end(futures, bar):
    """Futures as they end; while none does, the bar is told so, and says how far it is."""
    running = set(futures)
    while running:
        ended, running = concurrent.futures.wait(
            running, tool_run.WAITING_STEP, return_when=concurrent.futures.FIRST_COMPLETED)
        bar.update(0)
        yield from ended


class Sweep:
    """Runs combinations, and keeps their results in a folder."""

    def __init__(self, options, runner, base, defaults):
        self.options = options
        self.runner = runner
        self.base, self.defaults = base, defaults  # tables
        self.keys = [one.key for one in options.grid]
        self.folder = pathlib.Path(options.output)
        self.results = Results(self.folder / "results", runner)
        self.begin = None  # the function that begins a run; None before the first
        self.taken = 0  # combinations whose results were all there before

    def documents(self, point):
        """The texts of the settings for values: as they are, and with costs at both ends of a margin."""
        tables = settings_documents.with_values(self.base, self.keys, point)
        margin = self.options.margin
        ends = [settings_documents.with_costs(tables, self.defaults, percent)
                for percent in ((100 - margin, 100 + margin) if margin else ())]
        return [settings_documents.text_of(one) for one in (tables, *ends)]

    def path(self, text):
        """The file of the text of settings."""
        return self.folder / "settings" / (name_of(text)[:DIGITS] + ".toml")

    def combinations(self, points, resources):
        """The combinations of these values, each once it was run for each capture."""
        documents = [self.documents(point) for point in points]
        texts = list(dict.fromkeys(itertools.chain.from_iterable(documents)))
        for text in texts:
            write_whole(self.path(text), text, inputs_of(self.options))
        places = range(len(self.options.captures))
        runs = [(self.path(text), text, place) for text in texts for place in places]
        missing = [run for run in runs if self.results.read(*run[1:]) is None]
        lacking = {text for _, text, _ in missing}
        self.taken += sum(lacking.isdisjoint(of) for of in documents)
        if missing:
            self.begin = self.begin or resources.enter_context(self.runner.beginner())
            self.run(missing)
        return [self.combination(point, of) for point, of in zip(points, documents)]

    def combination(self, point, documents):
        """The combination of values whose documents were run."""
        tables = settings_documents.with_values(self.base, self.keys, point)
        results, *ends = [[sweep_figures.of_servers(self.results.read(text, place), tables)
                           for place in range(len(self.options.captures))] for text in documents]
        path = self.path(documents[0]).relative_to(self.folder)
        return Combination(0, tuple(point), str(path), results, ends)

    def run(self, runs):
        """Runs settings, each given by file, text and capture, and keeps each result once it is there."""
        futures = {self.begin(str(path), text, place): (text, place) for path, text, place in runs}
        try:
            with tool_run.progress(TOOL, len(futures), "run") as bar:
                for future in as_they_end(futures, bar):
                    result = future.result()
                    self.runner.check()
                    self.results.write(*futures[future], result)
                    bar.update()
        except self.runner.failures as error:
            raise Fault("a run was lost (%s); the same command goes on" % type(error).__name__) from None
        finally:
            collections.deque(map(concurrent.futures.Future.cancel, futures), maxlen=0)


def tried(options, sweep, resources):
    """All combinations: of the grid, or those that a search looked at."""
    if options.search:
        from . import sweep_search
        return sweep_search.search([one.values for one in options.grid], options.search,
                                   lambda points: sweep.combinations(points, resources),
                                   lambda combination: sweep_figures.cost_of(combination, options.limits))
    return sweep.combinations(list(itertools.product(*(one.values for one in options.grid))), resources)


def check_listed(one, base):
    """Refuses a key of a route or a pool that the settings don't have, and a value that names no pool of theirs."""
    table, which, name = settings_documents.listed_key(one.key)
    is_route = table == settings_documents.ROUTE
    keys = (*settings_documents.OF_ROUTE, settings_documents.POOL) if is_route else settings_documents.OF_POOL
    if name not in keys:
        raise Fault("--set: %s: a %s has %s" % (one.key, table, ", ".join(keys)))
    if is_route and not settings_documents.routes_of(base, which):
        raise no_such(one.key, base, settings_documents.ROUTE, "prefix", which)
    for pool in one.values if settings_documents.is_name(one.key) else [] if is_route else [which]:
        if not settings_documents.pools_of(base, pool):
            raise no_such(one.key, base, settings_documents.POOL, "name", pool)


def no_such(key, base, table, told_by, word):
    """The fault of a key about a route or a pool that the settings don't have, which names those that they have."""
    known = [str(one.get(told_by)) for one in base.get(table, [])]
    return Fault("--set: %s: --settings has no %s with the %s %s%s" % (
        key, table, told_by, word, "; it has %s" % ", ".join(known) if known else ""))


def checked_base(options, runner):
    """The tables of --settings and those of the defaults; refuses keys that the program doesn't have."""
    defaults = settings_documents.parsed(runner.default_settings().encode(), "haboob settings")
    known = settings_documents.keys_of(defaults)
    base = settings_documents.read(options.settings)
    for one in options.grid:
        if settings_documents.listed_key(one.key):
            check_listed(one, base)
        else:
            settings_documents.refuse_unknown(one.key, known, "--set: ")
    tables = {table: entries for table, entries in base.items() if table not in settings_documents.LISTS}
    for key in ("%s.%s" % (table, name) for table, entries in tables.items() for name in entries):
        settings_documents.refuse_unknown(key, known[:-len(settings_documents.TIERS)], "%s: " % options.settings)
    return base, defaults


def policies_of(options, chosen, defaults):
    """The policies in force of the chosen combination, by their tiers."""
    tables = settings_documents.read(pathlib.Path(options.output, chosen.settings))
    tiers = [int(tier) for tier in chosen.figures["tiers"]] or [0]
    return {tier: settings_documents.policy_of(tier, tables, defaults) for tier in tiers}


def rate_of(policies):
    """How many requests a second policies let in as long as the load lasts; None where a controller moves that."""
    if not all(policy.rate_min == policy.rate_max for policy in policies.values()):
        return None
    return sum(policy.rate for policy in policies.values()) / 1000


def write_outputs(options, combinations, defaults):
    """Writes table and page of all combinations, and says the warnings; returns the rows, those that no other beats,
    and the chosen one (None where there is none)."""
    rows = sweep_figures.rows_of(combinations, [one.values for one in options.grid], not options.search)
    unbeaten = sweep_figures.unbeaten_of(rows)
    chosen = sweep_figures.chosen_of(rows, options.limits)
    folder = pathlib.Path(options.output)
    keys = [one.key for one in options.grid]
    table = sweep_figures.table_of(keys, options.captures, rows, unbeaten, chosen)
    rate = rate_of(policies_of(options, chosen, defaults)) if chosen else None
    warnings = [*warnings_of(options, combinations), *sweep_figures.warnings_of(chosen, rate, options.margin)]
    for line in warnings:
        tool_run.say("%s: %s" % (TOOL, line))
    page = sweep_page.page_of(options, combinations, rows, unbeaten, chosen, warnings)
    output_file.replace_all([(folder / "sweep.csv", lambda file: spreadsheets.write(file, *table)),
                             (folder / "sweep.html", lambda file: file.write(page))])
    return rows, unbeaten, chosen


def print_chosen(options, chosen, defaults):
    """Prints the chosen settings, and lines for servers."""
    path = pathlib.Path(options.output, chosen.settings)
    values = ", ".join("%s %s" % (settings_documents.titled(one.key), settings_documents.shown(one.key, value))
                       for one, value in zip(options.grid, chosen.values))
    lines = [
        "# row %d: %s: %s" % (chosen.row, values, sweep_figures.choice_in_words(chosen, options.limits)),
        "# the settings, which stand in %s:" % path, path.read_text(encoding="utf-8"),
        *server_lines.lines_of(policies_of(options, chosen, defaults))]
    standard_output.write("\n".join(lines) + "\n")


def warnings_of(options, combinations):
    """What is strange about the snapshot for each capture, a line each."""
    results = next(one.results for one in combinations if "fault" not in one.figures)
    told = [(capture, decision_tables.strange_snapshot(result["asked"], result["missing"]))
            for capture, result in zip(options.captures, results)]
    return ["%s: %s" % one for one in told if one[1]]


def margin_of(options):
    """The margin in percent, which the settings tell where the word for that is given; None without one."""
    if options.margin != CALIBRATED:
        return options.margin
    found = settings_documents.margin_of(options.settings) if options.settings else None
    if found is None:
        raise Fault("--margin %s: no settings that tools/calibrate.py wrote are given by --settings" % CALIBRATED, 2)
    return found


def sweep(options):
    """Does what the command line says."""
    options.margin = margin_of(options)
    for name in ("tqdm", "scipy.optimize", "scipy.stats") if options.search else ("tqdm",):
        tool_run.library(name)  # before anything is made
    folder = pathlib.Path(options.output)
    with runner_of(options) as runner, contextlib.ExitStack() as resources:
        base, defaults = checked_base(options, runner)
        for name in ("settings", "results"):
            (folder / name).mkdir(parents=True, exist_ok=True)
        output_file.refuse_same([folder / "sweep.csv", folder / "sweep.html"], inputs_of(options))
        sweep_of = Sweep(options, runner, base, defaults)
        combinations = tried(options, sweep_of, resources)
    tool_run.say("%s: %d combinations, %d of them taken from before" % (TOOL, len(combinations), sweep_of.taken))
    if all("fault" in one.figures for one in combinations):
        raise Fault("every combination is refused (the first: %s)" % combinations[0].figures["fault"])
    rows, unbeaten, chosen = write_outputs(options, combinations, defaults)
    faults = [row.figures["fault"] for row in rows if "fault" in row.figures]
    refused = ", %d refused (the first: %s)" % (len(faults), faults[0]) if faults else ""
    tool_run.say("%s: %d unbeaten%s; see %s" % (TOOL, len(unbeaten), refused, folder / "sweep.html"))
    if chosen:
        print_chosen(options, chosen, defaults)
    elif options.limits:
        raise Fault("no combination is within %s%s%s" % (
            " and ".join("%s=%g" % (one.name, one.most) for one in options.limits),
            " at costs %d%% lower and higher" % options.margin if options.margin else "",
            sweep_figures.nearest_in_words(rows, options.limits)))


def kinds_in_words(paths):
    """What files are that were given as captures and are none, and which tool reads them."""
    words = ""
    for path in paths:
        with open(path, "rb") as file:
            first = file.read(input_files.FIRST_BYTES)
        kind = None if first.startswith(input_files.RECORDINGS) else input_files.kind_of(first)
        words += "; %s is %s" % (path, kind) if kind else ""
    return words


def work(options):
    """The same, with the faults of runs as the tool's own."""
    try:
        sweep(options)
    except decision_tables.Fault as fault:
        is_other = str(fault) == NO_CAPTURE
        raise Fault(str(fault) + (kinds_in_words(options.captures) if is_other else "")) from None


def main(words=None):
    """Does what the words of the command line say, or those of the process; returns the status."""
    status = tool_run.run(TOOL, lambda: work(arguments(words)))
    if status == 130:
        tool_run.say("%s: interrupted; the same command goes on" % TOOL)
    return status
