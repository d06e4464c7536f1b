"""Makes one HTML page of pictures over time from a table of decisions, as `haboob explain` writes it.

Exits with 0; with 1 at a fault, which is one line on standard error and leaves older outputs as they were; with 2 where
the words are wrong; with 130 at Ctrl-C.
"""
from . import tool_run  # first, for Ctrl-C while the others are read

import array
import collections
import html
import math
import os
import re
import urllib.parse

from . import (command_line, counting, decision_tables, input_files, output_file, pages, response_delays,
               settings_documents, spreadsheets, steps)
from .decision_tables import PERCENTS, TIERS
from .pages import ticker
from .steps import TICKS_IN_SECOND
from .tool_run import Fault

TOOL = "timeline"

EXPLANATION = """\
The page needs no network, and reads without colour. It shows for each step of the capture (by the
ticks at which messages came):

  requests          offered, admitted, rejected; messages that break a rule of HTTP (bypassed);
                    where there are several tiers, whose requests were turned away
  response times    of the admitted requests: median, 90th and 99th percentile, in milliseconds; with
                    --settings the target of each tier as a line. The table has no delays: they count
                    where --settings tells them (those of routes by the targets, which the table has
                    whole), and without it they don't
  in line           the most requests that were admitted and not yet answered: the figure to choose a
                    depth by
  rate and credit   the last rate in force, with a mark where a control changed it, and the least
                    credit that a request found, of each tier
  the servers       what part of their time they worked, and how many requests were turned away while
                    one of them was idle. They are as many as --settings says (without it one), or as
                    the table shows at work at once where these are more
  each pool         where the table tells pools: what part of their time its servers worked, the most
                    of its requests that had come and weren't begun, and how long the longest waited

and then the targets that were most turned away. They stand as they were sent; where that has escapes,
what they say stands beside it. A step is the least of 1, 2, 10, 20, 100 milliseconds and so on, up to
days and more, of which no more than 300 reach over all messages; or what --step says.

--csv writes the same figures as a table, and --targets how often each target was asked for. In tables
for spreadsheets a text that begins as a formula does (= + - @, full-width ones too) has an apostrophe
before it.

Times are those from the capture's start; with --capture, which is read up to its first line, they are
times of day (UTC). --from and --to take 90, 1:30 (as above, from the start or of the day), or
2026-11-26T09:30:00 with --capture. Messages from --from to before --to are shown.

example:
  haboob explain --snapshot site.snapshot --capture day.capture --settings site.toml --messages day.csv
  tools/timeline.py --capture day.capture --settings site.toml --output day.html --csv day.steps.csv day.csv
"""

UNITS_IN_TOKEN = 10**9
MOST_STEPS = 300
MOST_GIVEN_STEPS = 10_000  # where --step is given
MOST_TARGETS = 20
MOST_KEPT = 200_000  # targets that are counted; those beyond are counted as one
TARGETS_ROOM = 64_000_000  # characters that these have together
OTHERS = "(all others)"
DEFAULT_TARGET = 100_000  # microseconds: policy.target where the settings have none
MOST_SERVERS = 1_024
POOLS = 17  # the servers of costs, and those of at most 16 pools
LONGEST_SHOWN = 120  # characters of a target
FIRST_LINE = re.compile(rb"haboob-(?:capture|traffic) [0-9]+ ([0-9]{1,10})\n")
ESCAPE = re.compile("%([0-9A-Fa-f]{2})")
STROKES = ((0, (1, 1)), (0, (5, 1, 1, 1)), (0, (8, 2)), (0, (3, 3)))  # of the targets of up to four tiers
NAMES = ("offered", "admitted", "rejected", "bypassed")
PICTURES_OF_POOLS = (  # title, column, and what its values are divided by
    ("How busy each pool's servers were, percent of their time", "busy_share", 0.01),
    ("Most requests of each pool that had come and weren't begun", "most_waiting", 1),
    ("Longest wait for a server of each pool, milliseconds", "longest_wait", 1000),
)


class PoolStep:
    """What a step has of one pool: for how long its servers worked, how many requests waited at the most, and how long
    the longest."""

    def __init__(self):
        self.busy = self.waiting = self.wait = 0

    def join(self, later):
        """Takes what a later step has."""
        self.busy += later.busy
        self.waiting, self.wait = max(self.waiting, later.waiting), max(self.wait, later.wait)


class Step:
    """What a step has: counts of messages, response times in ticks, what requests of each tier found, and what each
    pool has."""

    def __init__(self):
        self.counts = collections.Counter()
        self.samples = array.array("q")
        self.rejected = [0] * TIERS
        self.rates = [None] * TIERS
        self.credits = [None] * TIERS
        self.rose = [0] * TIERS  # how often a control had raised the rate
        self.fell = [0] * TIERS
        self.inside = 0
        self.pools = collections.defaultdict(PoolStep)

    def join(self, later):
        """Takes what a later step has."""
        self.counts += later.counts
        self.samples += later.samples
        for tier in range(TIERS):
            self.rejected[tier] += later.rejected[tier]
            self.rose[tier] += later.rose[tier]
            self.fell[tier] += later.fell[tier]
            self.rates[tier] = self.rates[tier] if later.rates[tier] is None else later.rates[tier]
            credits = [of.credits[tier] for of in (self, later) if of.credits[tier] is not None]
            self.credits[tier] = min(credits, default=None)
        self.inside = max(self.inside, later.inside)
        for pool, of in later.pools.items():
            self.pools[pool].join(of)


class Gathering:
    """Takes the rows of a table, and keeps what each step and each target has."""

    def __init__(self, window, width, servers, delays):
        self.window = window  # the first tick, and the one after the last
        self.delays = delays
        # Of each pool; or as many as were at work at once, where these are more.
        self.servers = collections.defaultdict(lambda: 1, enumerate(servers))
        self.steps = steps.Steps(Step, MOST_GIVEN_STEPS if width else MOST_STEPS, width)
        self.queue = decision_tables.Queue()
        self.at_work = collections.defaultdict(decision_tables.Queue)  # the services that began and haven't ended
        self.pools = collections.defaultdict(decision_tables.PoolTally)  # where the table tells them
        self.rates = [None] * TIERS  # the last of each tier
        self.until = 0  # the last tick that a message came at
        self.asked = self.missing = 0  # admitted requests that looked for a file, and those of them that found none
        self.room = TARGETS_ROOM
        self.targets = collections.defaultdict(lambda: [0] * (2 * TIERS))  # asked, and turned away, of each tier

    def take(self, row):
        """Takes a row."""
        self.until = min(row.tick, self.window[1])
        pool = row.pool or 0
        if row.decision == "admitted":
            complete = row.finish + self.delays.of(row.target)
            inside = self.queue.admit(row.tick, complete)
            waiting = 0 if row.pool is None else self.pools[pool].take(row)
            self.servers[pool] = max(self.servers[pool], self.at_work[pool].admit(row.start, row.finish))
            self.note_service(pool, row.start, row.finish)
        if not self.window[0] <= row.tick < self.window[1]:
            self.rates[row.tier] = self.rates[row.tier] if row.rate is None else row.rate
            return
        step = self.steps.at(row.tick)
        if row.decision == "bypassed":
            step.counts["bypassed"] += 1
            return
        self.offer(step, row)
        if row.decision == "admitted":
            step.samples.append(complete - row.tick)
            step.inside = max(step.inside, inside)
            of_pool = step.pools[pool]
            of_pool.waiting, of_pool.wait = max(of_pool.waiting, waiting), max(of_pool.wait, row.start - row.tick)
            self.asked += row.status in decision_tables.OF_FILES
            self.missing += row.status == decision_tables.MISSING

    def offer(self, step, row):
        """Takes a request into its step."""
        tier = row.tier
        step.counts["offered"] += 1
        step.counts[row.decision] += 1
        step.rejected[tier] += row.decision == "rejected"
        step.counts["idle"] += row.decision == "rejected" and row.waited == 0
        if self.rates[tier] is not None and row.rate != self.rates[tier]:
            (step.rose if row.rate > self.rates[tier] else step.fell)[tier] += 1
        self.rates[tier] = step.rates[tier] = row.rate
        step.credits[tier] = row.credit if step.credits[tier] is None else min(row.credit, step.credits[tier])
        counts = self.targets[self.kept(row.target)]
        counts[tier] += 1
        counts[TIERS + tier] += row.decision == "rejected"

    def kept(self, target):
        """The target under which a request is counted: its own, where there is still room for it."""
        if target in self.targets:
            return target
        if len(self.targets) >= MOST_KEPT or len(target) > self.room:
            return OTHERS
        self.room -= len(target)
        return target

    def note_service(self, pool, start, finish):
        """Adds the time of a service by a pool to the steps that it lies in."""
        start, finish = max(start, self.window[0]), min(finish, self.window[1])
        if start >= finish:
            return
        self.steps.at(start)
        self.steps.at(finish - 1)  # so that the width of a step doesn't change below
        while start < finish:
            until = min(finish, (start // self.steps.width + 1) * self.steps.width)
            self.steps.at(start).pools[pool].busy += until - start
            start = until


def last_whole(gathered):
    """The second up to which the steps are whole: messages come to the last tenth of each at least."""
    number, rest = divmod(gathered.until, gathered.steps.width)
    return (number + (rest >= gathered.steps.width * 9 // 10)) * gathered.steps.width / TICKS_IN_SECOND


def columns_of(gathered):
    """The figures of each step from the first to the last: names, and a list of values for each."""
    width = gathered.steps.width
    all_of = [gathered.steps.get(number) for number in gathered.steps.numbers()]
    columns = {"second": [number * width / TICKS_IN_SECOND for number in gathered.steps.numbers()]}
    if width % TICKS_IN_SECOND == 0:
        columns["second"] = [number * width // TICKS_IN_SECOND for number in gathered.steps.numbers()]
    for name in NAMES:
        columns[name] = [step.counts[name] for step in all_of]
    columns["rejected_while_idle"] = [step.counts["idle"] for step in all_of]
    samples = [sorted(step.samples) for step in all_of]
    for percent in PERCENTS:
        columns["p%d" % percent] = [decision_tables.ranked(of, percent) for of in samples]
    servers = sum(gathered.servers.values())
    busy = [sum(of.busy for of in step.pools.values()) for step in all_of]
    columns["busy_share"] = [round(time / (width * servers), 9) for time in busy]
    columns["most_inside"] = [step.inside for step in all_of]
    for tier in tiers_of(all_of):
        columns["rejected_%d" % tier] = [step.rejected[tier] for step in all_of]
        columns["rate_%d" % tier] = [step.rates[tier] for step in all_of]
        columns["least_credit_%d" % tier] = [step.credits[tier] for step in all_of]
        columns["raised_%d" % tier] = [step.rose[tier] for step in all_of]
        columns["lowered_%d" % tier] = [step.fell[tier] for step in all_of]
    for pool in sorted({pool for step in all_of for pool in step.pools}) if gathered.pools else ():
        of_pool, room = [step.pools[pool] for step in all_of], width * gathered.servers[pool]
        columns["pool_%d_busy_share" % pool] = [round(of.busy / room, 9) for of in of_pool]
        columns["pool_%d_most_waiting" % pool] = [of.waiting for of in of_pool]
        columns["pool_%d_longest_wait" % pool] = [of.wait for of in of_pool]
    return columns


def tiers_of(all_of):
    """The tiers of which a request was offered."""
    return [tier for tier in range(TIERS) if any(step.rates[tier] is not None for step in all_of)]


def tiers_in(columns):
    """The same, of columns."""
    return [tier for tier in range(TIERS) if "rate_%d" % tier in columns]


def pools_in(columns):
    """The pools of which columns tell."""
    return [pool for pool in range(POOLS) if "pool_%d_busy_share" % pool in columns]


def scaled(values, divisor):
    """Values for a picture: None stays away."""
    return [float("nan") if value is None else value / divisor for value in values]


class Pictures:
    """Draws pictures over the same steps, so that a time stands below itself."""

    def __init__(self, columns, start, width, targets, servers, whole):
        self.columns = columns
        self.places = columns["second"]
        self.start = start  # seconds since 1970; None where it isn't known
        self.width = width / TICKS_IN_SECOND
        self.targets = targets  # ticks by tier; none where the settings aren't known
        self.servers = servers
        self.whole = whole  # the second up to which the steps are
        self.tiers = tiers_in(columns)
        self.first, self.last = min(self.places, default=0), max(self.places, default=0) + self.width
        self.times = steps.labels_between(self.start or 0, self.first, self.last, self.start is not None)

    def picture(self, title, lines, top=None, draw=None, more=0):
        """A picture of lines over the steps, as HTML. `draw` adds so many more entries of the legend to its axes."""
        count = len(lines) + more + self.has_part()
        figure, (axes,) = pages.axes_of(count, 1, self.rows_below())
        self.draw_over_time(axes, lines, top)
        if draw:
            draw(axes)
        self.set_times(axes)
        pages.add_legend([axes], count)
        return "<h2>%s</h2>\n%s" % (title, pages.svg_of(figure))

    def panels(self, title, lines, draw=None, more=0):
        """A picture in which each line has axes of its own, as HTML: their values may be of different sizes. `draw`
        adds entries to the axes of a place."""
        if len(lines) < 2:
            return self.picture(title, lines, None, more and (lambda axes: draw(axes, 0)), more)
        figure, all_axes = pages.axes_of(more + self.has_part(), len(lines), self.rows_below())
        for place, (axes, (label, values)) in enumerate(zip(all_axes, lines)):
            self.draw_over_time(axes, [(None, values)])
            axes.set_ylabel(label)
            axes.yaxis.set_label_position("right")
            axes.yaxis.set_major_locator(ticker.MaxNLocator(3))
            axes.tick_params(labelbottom=False)
            if draw:
                draw(axes, place)
        self.set_times(all_axes[-1])
        all_axes[-1].tick_params(labelbottom=True)
        pages.add_legend(all_axes, more + self.has_part())
        return "<h2>%s</h2>\n%s" % (title, pages.svg_of(figure))

    def draw_over_time(self, axes, lines, top=None):
        """Draws lines over the steps, up to a top; the steps that aren't whole are hatched."""
        pages.draw_lines(axes, self.places, lines)
        if self.has_part():
            axes.axvspan(max(self.first, self.whole - self.width), self.last, facecolor="none", edgecolor="0.75",
                         hatch="//", linewidth=0, zorder=0, label="last step, not whole")
        values = [value for _, of in lines for value in of if not math.isnan(value)]
        axes.set_ylim(0, top or 1.05 * max(values, default=0) or 1)
        axes.set_xlim(self.first - 0.02 * (self.last - self.first), self.last)
        axes.set_xticks(self.times[0])

    def has_part(self):
        """Whether a step isn't whole."""
        return bool(self.places) and self.whole < self.last

    def rows_below(self):
        """How many rows a time below the axis has."""
        return 1 + max((label.count("\n") for label in self.times[1]), default=0)

    def set_times(self, axes):
        """Writes times below the axis, at whole minutes, hours or days where it is long."""
        pages.set_labels_below(axes, *self.times)
        axes.set_xlabel("time of day (UTC)" if self.start is not None else "time from the capture's start")

    def of_tiers(self, name, divisor=1):
        """The lines of a column of each tier."""
        return [("tier %d" % tier, scaled(self.columns["%s_%d" % (name, tier)], divisor)) for tier in self.tiers]

    def aims(self):
        """The tiers of each target, in milliseconds, as text."""
        by_time = collections.defaultdict(list)
        for tier in self.tiers if self.targets else ():
            by_time[self.targets[tier] / 1000].append(str(tier))
        return by_time

    def draw_aims(self, axes):
        """Draws a line at each target."""
        aims = self.aims()
        for (time, tiers), stroke in zip(aims.items(), STROKES):
            label = "target" if len(aims) == 1 else "target of tier " + ", ".join(tiers)
            axes.axhline(time, color="0.3", linewidth=2, linestyle=stroke, label=label)

    def control_points(self, tiers):
        """The places and rates at which controls raised a rate of some tiers, and at which they lowered one; no empty
        kind."""
        points = {name: [(place, rate / 1000) for tier in tiers for place, rate, count in zip(
            self.places, self.columns["rate_%d" % tier], self.columns["%s_%d" % (name, tier)]) if count]
            for name in ("raised", "lowered")}
        return {name: of for name, of in points.items() if of}

    def draw_controls(self, axes, place):
        """Draws a mark where controls changed the rate of the tier at a place."""
        for name, points in self.control_points([self.tiers[place]]).items():
            axes.plot(*zip(*points), "^" if name == "raised" else "v", color="black", clip_on=False,
                      markersize=6 if len(points) <= pages.FEW else 3, linestyle="none", label="%s by a control" % name)

    def all(self):
        """The pictures, from the top."""
        columns = self.columns
        unit = "in %s" % steps.width_in_words(round(self.width * TICKS_IN_SECOND))
        yield self.picture("Requests, " + unit, [(name, columns[name]) for name in NAMES])
        if len(self.tiers) > 1:
            yield self.picture("Turned away by tier, " + unit, self.of_tiers("rejected"))
        titles = ("median", "90th percentile", "99th percentile")
        times = [(title, scaled(columns["p%d" % percent], 1000)) for title, percent in zip(titles, PERCENTS)]
        slowest = max((value for _, of in times for value in of if not math.isnan(value)), default=0)
        top = 1.1 * max([slowest] + [aim for aim in self.aims() if aim <= 4 * slowest])
        yield self.picture("Response times of admitted requests, milliseconds", times, top, self.draw_aims,
                           len(self.aims()))
        yield self.picture("In line: most requests that were admitted and not yet answered", [
            ("in line", columns["most_inside"])])
        yield self.panels("Rate in force, tokens a second", self.of_tiers("rate", 1000), self.draw_controls,
                          len(self.control_points(self.tiers)))
        yield self.panels("Least credit found, tokens", self.of_tiers("least_credit", UNITS_IN_TOKEN))
        busy = ("How busy the server was, percent of the time" if self.servers == 1 else
                "How busy the servers were, percent of the time of %d" % self.servers)
        yield self.picture(busy, [("busy", scaled(columns["busy_share"], 0.01))])
        yield self.picture("Turned away while a server was idle, " + unit,
                           [("rejected while idle", columns["rejected_while_idle"])])
        for title, name, divisor in PICTURES_OF_POOLS if pools_in(columns) else ():
            yield self.panels(title, [("pool %d" % pool, scaled(columns["pool_%d_%s" % (pool, name)], divisor))
                                      for pool in pools_in(columns)])


def sent(target):
    """A target as it was sent: in the table bytes outside visible ASCII, quotes, commas and percent signs are escapes.

    What it can't show stays an escape.
    """
    data = urllib.parse.unquote_to_bytes(target)
    text = data.decode("utf-8", errors="surrogateescape")
    return "".join(letter if letter.isprintable() else "".join(
        "%%%02X" % byte for byte in letter.encode("utf-8", errors="surrogateescape")) for letter in text)


def read_out(target):
    """What a target says where its escapes are read, too; None where that is the same or can't be shown."""
    text = urllib.parse.unquote(target, errors="surrogateescape")
    return text if text != target and text.isprintable() else None


def shortened(text):
    """A text for the page, cut where it is long, as HTML."""
    return html.escape(text if len(text) <= LONGEST_SHOWN else text[:LONGEST_SHOWN] + "..")


def rows_of_targets(targets):
    """The targets most turned away first: the target, how often it was turned away and asked for, and by tier."""
    rows = [(sent(target) if target != OTHERS else target, sum(counts[TIERS:]), sum(counts[:TIERS]), counts)
            for target, counts in targets.items()]
    return sorted(rows, key=lambda row: (-row[1], -row[2], row[0]))


def table_of_targets(targets, tiers):
    """The targets most turned away, as HTML."""
    cells = []
    for target, away, asked, counts in rows_of_targets(targets)[:MOST_TARGETS]:
        if not away:
            break
        meant = read_out(target)
        shown = shortened(target) + (" <small>(%s)</small>" % shortened(meant) if meant else "")
        by_tier = [counts[TIERS + tier] for tier in tiers] if len(tiers) > 1 else []
        cells.append([away, asked, "%.1f" % (100 * away / asked), *by_tier, shown])
    of_tiers = ["of tier %d" % tier for tier in tiers] if len(tiers) > 1 else []
    heading = ["turned away", "asked", "%", *of_tiers, "target"]
    return "<h2>Targets most turned away</h2>\n" + pages.table(heading, cells)


def write_targets(file, targets):
    """Writes how often each target was asked for and turned away, of all tiers and of each, as CSV."""
    heading = ["target", "turned_away", "asked", "turned_away_percent",
               *("turned_away_%d" % tier for tier in range(TIERS)), *("asked_%d" % tier for tier in range(TIERS))]
    spreadsheets.write(file, heading, (
        [target, away, asked, "%.4f" % (100 * away / asked), *counts[TIERS:], *counts[:TIERS]]
        for target, away, asked, counts in rows_of_targets(targets)))


def table_of_pools(columns, servers, names):
    """What each pool has over all steps, as HTML; nothing where the table tells no pools. Its name is that of the
    settings, where these are known."""
    cells = []
    for pool in pools_in(columns):
        shares, waiting, waits = (columns["pool_%d_%s" % (pool, name)] for _, name, _ in PICTURES_OF_POOLS)
        name = shortened(names[pool]) if pool < len(names) else "-"
        cells.append([pool, name, servers[pool], "%.1f" % (100 * sum(shares) / len(shares)), max(waiting),
                      "%.3f" % (max(waits) / 1000)])
    heading = ["pool", "in the settings", "servers", "busy, %", "most waiting", "longest wait, ms"]
    return "<h2>Pools</h2>\n" + pages.table(heading, cells) if cells else ""


def page_of(options, gathered, columns, start, aims, pools):
    """The page; `pools` are the names of these, as far as the settings are known."""
    names = {name: name.replace("rejected", "turned away") for name in NAMES}
    names["rejected_while_idle"] = "turned away while a server was idle"
    counts = ", ".join("%d %s" % (sum(columns[name]), words) for name, words in names.items())
    tiers = tiers_in(columns)
    of_tiers = "; turned away of " + ", ".join(
        "tier %d %d" % (tier, sum(columns["rejected_%d" % tier])) for tier in tiers) if len(tiers) > 1 else ""
    width = gathered.steps.width
    inputs = "Table %s; %s; %s" % (
        options.table, "capture %s" % options.capture if options.capture else "times are from the capture's start",
        "settings %s" % options.settings if options.settings else "settings unknown (--settings)")
    body = "<p>%s. A step is %s.</p>\n<p>%s%s.</p>\n" % (
        html.escape(inputs), steps.width_in_words(width), counts, of_tiers)
    warning = decision_tables.strange_snapshot(gathered.asked, gathered.missing)
    body += "<p>%s.</p>\n" % html.escape(warning) if warning else ""
    pictures = Pictures(columns, start, width, aims, sum(gathered.servers.values()), last_whole(gathered))
    return pages.html_page(title_of(options), body + "\n".join(pictures.all()) + "\n" + table_of_pools(
        columns, gathered.servers, pools) + table_of_targets(gathered.targets, tiers))


def title_of(options):
    """The page's title: what was replayed, with which settings."""
    name = os.path.basename(options.capture or options.table)
    return name + (" with " + os.path.basename(options.settings) if options.settings else "")


def start_of(path):
    """The start of a capture in seconds since 1970."""
    with open(path, "rb") as file:
        first = file.read(input_files.FIRST_BYTES)
    found = FIRST_LINE.match(first)
    if not found:
        kind = None if first.startswith(input_files.RECORDINGS) else input_files.kind_of(first)
        raise Fault("%s: this is no capture%s" % (path, ", but %s" % kind if kind else ""))
    return int(found[1])


def aims_of(path, tables):
    """The targets of the four tiers by the tables of a document of settings, in ticks."""
    of_all = tables.get("policy", {}).get("target", DEFAULT_TARGET)
    aims = [of_all, *(tables.get(name, {}).get("target", of_all) for name in settings_documents.TIERS[1:])]
    if any(type(aim) is not int or not 0 < aim <= 10**12 for aim in aims):
        raise Fault("%s: target: not from 1 to 1000000000000 microseconds" % path)
    return aims


def servers_of(path, tables):
    """How many servers each pool has by the tables of a document of settings, those of no pool first."""
    servers = settings_documents.servers_of(tables)
    for name, count in zip(settings_documents.names_of_pools(tables), servers):
        if type(count) is not int or not 0 < count <= MOST_SERVERS:
            raise Fault("%s: %s.servers: not from 1 to %d servers" % (path, name, MOST_SERVERS))
    return servers


def delays_of(path, tables):
    """What responses take beside the servers' work by the tables of a document of settings."""
    least, greatest = settings_documents.RANGES["costs.delay"]
    routes = tables.get(settings_documents.ROUTE, [])
    for table in (tables.get("costs", {}), *routes):
        delay = table.get("delay", least)
        if type(delay) is not int or not least <= delay <= greatest:
            raise Fault("%s: delay: not from %d to %d microseconds" % (path, least, greatest))
    if not all(str(route.get("prefix")).startswith("/") for route in routes):
        raise Fault("%s: route.prefix: no text that begins with a slash" % path)
    return response_delays.Delays(tables)


def arguments(words):
    """The words of the command line."""
    parser = command_line.Parser(prog="tools/timeline.py", description=__doc__, epilog=EXPLANATION)
    parser.add_argument("table", help="the table of decisions")
    parser.add_argument("--output", required=True, metavar="PAGE", help="where the page goes")
    parser.add_argument("--csv", metavar="FILE", help="where the figures of each step go")
    parser.add_argument("--targets", metavar="FILE", help="where the counts of each target go")
    parser.add_argument("--capture", metavar="FILE", help="the capture, for its name and times of day")
    parser.add_argument("--settings", metavar="FILE", help="the settings, for their name, targets, servers and delays")
    parser.add_argument("--step", type=steps.width, metavar="TIME", help="how long a step is: 10, 0.5, 250ms, 5m, 1h")
    parser.add_argument("--from", dest="begin", type=steps.moment, metavar="TIME", help="leave out what is before")
    parser.add_argument("--to", dest="end", type=steps.moment, metavar="TIME",
                        help="leave out what is at this time or after it")
    return parser.parse_args(words)


def window_of(options, start):
    """The first tick that is shown, and the one after the last."""
    begin = 0 if options.begin is None else steps.tick_of(options.begin, start)
    end = math.inf if options.end is None else steps.tick_of(options.end, start)
    if begin >= end:
        raise Fault("--to isn't after --from")
    return begin, end


def gather(options, gathered):
    """Has the rows of the table taken; its faults have the file's name."""
    with open(options.table, "rb") as table:
        size = os.fstat(table.fileno()).st_size or None
        with tool_run.progress(TOOL, size, "B") as bar:
            try:
                for row in decision_tables.rows_of(counting.Counting(table, bar)):
                    gathered.take(row)
            except (decision_tables.Fault, steps.TooMany) as fault:
                raise Fault("%s: %s" % (options.table, fault)) from None


def work(options):
    """Does what the command line says."""
    outputs = [path for path in (options.output, options.csv, options.targets) if path]
    inputs = [path for path in (options.table, options.capture, options.settings) if path]
    output_file.refuse_same(outputs, inputs)
    start = start_of(options.capture) if options.capture else None
    tables = settings_documents.read(options.settings)
    aims = aims_of(options.settings, tables) if options.settings else None
    gathered = Gathering(window_of(options, start), options.step, servers_of(options.settings, tables),
                         delays_of(options.settings, tables))
    gather(options, gathered)
    warning = decision_tables.strange_snapshot(gathered.asked, gathered.missing)
    if warning:
        tool_run.say("%s: %s" % (TOOL, warning))
    columns = columns_of(gathered)
    pools = settings_documents.names_of_pools(tables) if options.settings else []
    page = page_of(options, gathered, columns, start, aims, pools)
    written = [(options.output, lambda file: file.write(page)),
               (options.csv, lambda file: spreadsheets.write(file, columns, zip(*columns.values()))),
               (options.targets, lambda file: write_targets(file, gathered.targets))]
    output_file.replace_all([(path, write) for path, write in written if path])


def main(words=None):
    """Does what the words of the command line say, or those of the process; returns the status."""
    return tool_run.run(TOOL, lambda: work(arguments(words)))
