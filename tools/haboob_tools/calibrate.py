"""Fits the costs of settings, by routes too, to what a server was measured to take: from recorded packets, or access
logs.

Exits with 0; with 1 at a fault, or where the check fails, which is one line on standard error and leaves older outputs
as they were; with 2 where the words are wrong; with 130 at Ctrl-C.
"""
from . import tool_run  # first, for Ctrl-C while the others are read

import argparse
import collections
import math
import re
import textwrap

from . import capture_writer, command_line, output_file, settings_documents, standard_output
from .response_delays import segments_of_prefix
from .tool_run import Fault

TOOL = "calibrate"
LEAST_REQUESTS = 300  # of a fit
numpy = tool_run.library("numpy")
from . import calibrate_page, cost_fit, forecast_check, input_files, log_formats, measured_times, route_search

EXPLANATION = """\
The input is either of

  packets of both directions (pcap, pcapng) to the ports of --port: tcpdump -i any -w FILE tcp port 80
  logs in the format `timed`, or in another that --log-format names or writes out, as for
    tools/capture_from_log.py (haproxy, caddy, combined_us ..); it has to tell the time and the
    duration, both in milliseconds or better, status and bytes. `timed` is
    %s

Several (rotated logs, in any order) are read as one; each may be compressed, or - for standard input.
At most 1,000,000 requests are taken; --from and --to choose the time, which should be a busy one.

A request's time is from its last byte to its answer's last byte. Where nginx's log has
$upstream_response_time, that, less $upstream_connect_time, is how long the server behind it took, and
what is left of $request_time is the delay. Of HAProxy's log it is Tw + Tc + Tr, from the whole request
to the answer's head. Apache's %%D begins when a worker takes the request: a wait for a free worker
isn't in it. Where Apache's time (%%t) has whole seconds, durations are taken for work without waits,
and nothing tells how many servers there are. Answers 503 and 499 are left out: these were turned away,
or nobody waited for them. So are lines that lack one of these fields, and connections that aren't
HTTP, or no longer are (TLS, WebSocket).

Routes are the prefixes of --route, or those that are found: of up to three segments, with at least %d
requests each, whose times no costs predict that hold for the others too. Requests on other prefixes
are the rest, which has the [costs]; it begins with the quickest prefix, and takes those that are like
it. A prefix with fewer requests is told, and is of the rest. --without-kib gives routes one cost for
any answer. That is right where the snapshot doesn't have the answers as files: a replay counts a KiB
of a file alone.

SETTINGS gets a document with the costs, routes, servers (1 to 384) and delays that fit best. Behind
each figure stands its margin. PAGE shows how well they predict what was measured.

How: costs are first estimated by the requests that found the fewest inside. Then for each number of
servers, with and without delays, requests are served first come, first served in a simulation, and
the costs are those with the least mean difference between the roots of predicted and measured times
(the method of Levenberg and Marquardt). The simplest of those that fit about as well is taken: no
delay before one for all and one for each route, and then the fewest servers. Of two keys that nothing
tells apart the simpler one is written: no kib where all answers have one size, or where its margin is
as great as it; no delay where hardly a request waited for one on the route.

Requests that nginx answers itself ($upstream_response_time is -) don't wait for the servers behind it.
Where it answered %d so, and the servers behind it as many, what these served is on routes with a pool
of their own, `upstream`: servers, costs and delays are fitted to the requests of each by themselves. A
replay goes by the paths, and so does the check: what was answered in the other way on a path counts
there, but for no fit. Without a pool, requests that needed none of the servers (also where the rest
takes no longer while many are inside) don't wait in the fit; in a replay, and in the check, all wait
for the same servers. (HAProxy's log tells no times of what it answers itself.)

The margin of a figure, in percent, is the spread of the fits without each of ten pieces of the time in
turn (the jackknife, 95 percent). The line `margin` is for tools/sweep.py --margin calibrated: the
margin of all work, or by how much all costs of the first half would have to be higher or lower for the
second, whichever is greater; of two pools the greater one, but for work that is shorter than the steps
of the log's times.

The check: the same is fitted on the first half, and has to predict the second: p50, p90 and p99 of the
rest and of each route, and with --tier of each tier, all with at least %d requests there. Where one is
off by more than %d%%, nothing is written, unless --anyway is given. What is within the steps of the
log's times isn't off.

""" % ("\n    ".join(textwrap.wrap(log_formats.TIMED.replace("$remote_identity", "-"), 86)),
       route_search.LEAST_REQUESTS, LEAST_REQUESTS, forecast_check.LEAST_JUDGED,
       forecast_check.POOR) + capture_writer.TIERS_EXPLAINED + """
examples:
  tools/calibrate.py --port 80 --output costs.toml --page costs.html site.pcap
  tools/calibrate.py --output costs.toml --page costs.html access.log.1 access.log
  tools/calibrate.py --route /api/search --route /api --tier /api/=1 --output costs.toml access.log
  tools/calibrate.py --output costs.toml --log-format '$remote_addr "$request" $status $body_bytes_sent \\
    $msec $request_time $upstream_response_time $upstream_connect_time' access.log
"""

FULL = 0.9  # of the time busy: overloaded all along
MOST_MARGIN = 90  # percent
MOST_TOLD = 3  # prefixes that are named
KIB_PART = 0.05  # of the work of a route
QUIET = 0.25  # the part of a pool's requests by which its costs are estimated at first
MET = 0.05  # of the requests found somebody inside: less is hardly any
DEARER = 1.08  # costs so many times higher show how much rests on them
ONE_SIZE = 0.01  # the deviation of sizes, as a part of their mean, up to which they are one
TICKS_IN_MILLISECOND = 1000
REST = "the rest"
UPSTREAM = "upstream"  # the name of the pool of the servers behind a proxy
POOLS = ("the proxy itself", UPSTREAM)
CHECK = "the check: fitted on the first half, replayed on the second"
METHOD = "+-: the spread of the fits without each of ten pieces of the time (the jackknife, 95 percent)"

BEGUN = ("NOTE: if the server is Apache, its times begin when a worker takes a request: how long it waited for a free "
         "worker is in none of them")
WHOLE_SECONDS = ("WARNING: the log has whole seconds: the durations are taken for work, without any wait, and how many "
                 "requests the server works on at once can't be told; take a time with little load, and set "
                 "costs.servers yourself, or log %{usec}t")

# What was recorded: the requests, all of one group so far, the place of the path of each among the names (-1: none),
# and whether its answer is as a file's; and in what steps times are told, in microseconds.
Load = collections.namedtuple("Load", "requests path names is_file grain")
# A fit, what the answers of each group take beside the server, the margins of costs and of delays, that of all work in
# percent, the groups whose delays can't be told from their costs, and those whose costs of a KiB can't be told from 0.
Found = collections.namedtuple("Found", "fit beside costs_margin delays_margin margin unclear needless")
# What is fitted by itself: a name (None of all), the requests by which, and what is found by them, which has their
# groups.
Part = collections.namedtuple("Part", "name requests found")
# What comes of all: the prefixes of routes and their names (the rest first), the pool of each group, the requests by
# these, those groups whose answers have one size, the part of each pool, what is found of all, the rows of the check,
# and what is told of the routes, a line each.
Result = collections.namedtuple("Result", "prefixes names pools requests one_size parts found rows told")


def port(text):
    """A port of the command line."""
    if not re.fullmatch(r"[1-9][0-9]{0,4}", text) or int(text) > 65_535:
        raise argparse.ArgumentTypeError("%r is no port from 1 to 65535" % text)
    return int(text)


def prefix(text):
    """A prefix of paths of the command line."""
    is_text = standard_output.printable(text) == text  # else it has bytes that are no UTF-8
    segments = text.removesuffix("/")[1:].split("/") if text != "/" else []
    if not is_text or not text.startswith("/") or {"", ".", ".."} & set(segments):
        raise argparse.ArgumentTypeError("%r is no prefix of paths such as /api" % text)
    return text


def arguments(words):
    """The words of the command line."""
    parser = command_line.Parser(prog="tools/calibrate.py", description=__doc__, epilog=EXPLANATION)
    parser.add_argument("inputs", nargs="+", metavar="input", help="recorded packets of both directions, or logs with "
                        "durations")
    parser.add_argument("--port", type=port, action="append", default=[],
                        help="a port of the server, for packets; several times too")
    parser.add_argument("--log-format", default="timed", metavar="FORMAT", help="the format of a log's lines")
    parser.add_argument("--route", type=prefix, action="append", metavar="PREFIX",
                        help="a route, in the place of those that are found; several times too")
    parser.add_argument("--without-kib", action="store_true", help="routes without a cost for each KiB")
    parser.add_argument("--tier", type=capture_writer.tier_rule, action="append", default=[], metavar="PATTERN=N",
                        help="the tier, 0 to 3, of requests that fit, for the check; several times too")
    parser.add_argument("--from", dest="begin", type=capture_writer.moment, default=0, metavar="TIME",
                        help="leave out what is before this time: 2026-11-23T05:50:00Z, or seconds since 1970")
    parser.add_argument("--to", dest="end", type=capture_writer.moment, metavar="TIME",
                        help="leave out what is at this time or after it")
    parser.add_argument("--anyway", action="store_true", help="write the settings also where the check fails")
    parser.add_argument("--output", required=True, metavar="SETTINGS", help="where the settings go")
    parser.add_argument("--page", metavar="PAGE", help="where the page goes")
    options = parser.parse_args(words)
    if len(options.route or ()) > route_search.MOST_ROUTES:
        parser.error("argument --route: at most %d" % route_search.MOST_ROUTES)
    return options


def load_of(recorded):
    """What was recorded, by rising arrival, in microseconds from the first."""
    columns = {name: numpy.array(values, numpy.int64) for name, values in recorded.columns.items()}
    count = len(columns["arrival"])
    if count < LEAST_REQUESTS:
        raise Fault("%d answered requests are too few to fit costs to: at least %d" % (count, LEAST_REQUESTS))
    order = numpy.lexsort((columns["answer"], columns["arrival"]))
    columns = {name: values[order] for name, values in columns.items()}
    whole = columns["answer"] - columns["arrival"]
    times = numpy.where(columns["server"] < 0, whole, columns["server"])
    grain = 1 if (times % TICKS_IN_MILLISECOND).any() else TICKS_IN_MILLISECOND
    is_file = columns["is_file"] > 0
    requests = cost_fit.requests_of(
        (columns["arrival"] - columns["arrival"][0]).astype(float), times.astype(float), (whole - times).astype(float),
        columns["tier"], (columns["server"] < 0) & (columns["server"] >= 0).any(), numpy.zeros(count, int), is_file,
        columns["size"] / cost_fit.BYTES_IN_KIB)
    return Load(requests, columns["path"], list(recorded.paths), is_file, grain)


def routes_of(load, words, behind=None):
    """The prefixes of the routes, those with the most segments first; and what is told of them, a line each. Where it
    is told which requests an upstream served, what it served the most of is apart."""
    told = []
    if words:
        prefixes = route_search.named(words)
        counts = numpy.bincount(groups_of(load, prefixes), minlength=len(prefixes) + 1)[1:]
        least = route_search.LEAST_REQUESTS
        told = ["%s: %d requests, fewer than %d: they are of the rest" % (shown(one), count, least)
                for one, count in zip(prefixes, counts) if count < least]
        prefixes = [one for one, count in zip(prefixes, counts) if count >= least]
    else:
        of = (load.requests, load.is_file, load.path, load.names)
        prefixes = route_search.found(*of) if behind is None else route_search.found_beside(*of, behind)
        count, few = route_search.too_few(load.path, load.names, prefixes)
        if prefixes and few:
            told.append("%d requests on %s%s, fewer than %d each, are of the rest" % (
                count, ", ".join(map(shown, few[:MOST_TOLD])),
                " and %d other prefixes" % (len(few) - MOST_TOLD) if len(few) > MOST_TOLD else "",
                route_search.LEAST_REQUESTS))
    return prefixes, told


def pools_of(load, prefixes):
    """The pool of each group, 1 where an upstream served the most of its requests; the rest has none."""
    group, behind = groups_of(load, prefixes), ~load.requests.direct
    counts = [numpy.bincount(group[kind], minlength=len(prefixes) + 1) for kind in (~behind, behind)]
    pools = (counts[1] > counts[0]).astype(int)
    if pools[0] and len(prefixes) < route_search.MOST_ROUTES and route_search.ROOT not in prefixes:
        return pools_of(load, [*prefixes, route_search.ROOT])
    pools[0] = 0
    return prefixes, pools


def strangers_of(load, group, pools):
    """Which requests aren't of the pool that their paths tell: the proxy itself answered what an upstream does there,
    or the other way round."""
    return load.requests.direct == (pools[group] > 0)


def pooled_routes(load, words, is_exact):
    """The prefixes of the routes, the pool of each group, and what is told of them, a line each. There are pools where
    enough requests tell of each that an upstream served them, or the proxy itself."""
    if is_exact and load.requests.direct.any():
        named, told = routes_of(load, words, ~load.requests.direct)
        prefixes, pools = pools_of(load, named)
        told += ["an upstream served the most of what is on no route: the settings have a route for all paths"] * (
            len(prefixes) > len(named))
        group = groups_of(load, prefixes)
        sound = pools[group][~strangers_of(load, group, pools)]
        if numpy.bincount(sound, minlength=len(POOLS)).min() >= LEAST_REQUESTS:
            return prefixes, pools, told
    prefixes, told = routes_of(load, words)
    return prefixes, numpy.zeros(len(prefixes) + 1, int), told


def shown(one):
    """A prefix as text without control characters; the root as /."""
    return settings_documents.value_text(one or "/")[1:-1]


def groups_of(load, prefixes):
    """The group of each request: the place of its route from 1, or 0."""
    return numpy.append(route_search.places_on(prefixes, load.names), 0)[load.path]


def grouped(load, prefixes, without_kib):
    """The requests with their groups, and the groups whose answers all have one size, which tell no cost of a KiB."""
    requests, group = load.requests, groups_of(load, prefixes)
    kib, one_size = requests.kib.copy(), []
    if without_kib:
        kib[group > 0] = 0
    for place in range(len(prefixes) + 1):
        here = (group == place) & (load.is_file | (place > 0))
        if kib[here].any() and kib[here].std() <= ONE_SIZE * kib[here].mean():
            one_size.append(place)
            kib[group == place] = 0
    return cost_fit.requests_of(*requests[:5], group, load.is_file, kib), one_size


def beside_of(requests, groups):
    """What an answer of each group takes beside the server, in the middle."""
    return numpy.array([numpy.median(requests.beside[requests.group == group]) if (requests.group == group).any()
                        else 0.0 for group in range(groups)])


def margins_beside(requests, groups):
    """By how much these may be wrong: the spread of ten pieces of the time."""
    found = [beside_of(cost_fit.chosen(requests, part), groups)
             for part in numpy.array_split(numpy.arange(len(requests.group)), cost_fit.PIECES)]
    return cost_fit.SPREAD * numpy.std(found, axis=0) / math.sqrt(cost_fit.PIECES - 1)


def first_fit(requests, half, alone, grain, is_exact, is_apart, note):
    """The fit that is chosen by the first half of requests and first estimates of costs, with which delays it has; and
    the requests, in which the rest may need none of the servers, unless it is known that all do. Of arrivals in whole
    seconds the times alone are fitted."""
    if not is_exact:
        none = numpy.zeros(cost_fit.groups_of(alone))
        return requests, cost_fit.Fit(alone, none, cost_fit.ENOUGH, 0.0), cost_fit.NONE
    sample = cost_fit.sampled(cost_fit.chosen(requests, slice(half)), cost_fit.MOST_IN_CHOICE)
    best = cost_fit.chosen_fit(sample, grain, alone, note)
    is_known = is_apart or requests.direct.any()
    if best[0].error > cost_fit.WRONG and not is_known and cost_fit.rest_seems_direct(sample, grain):
        apart = cost_fit.chosen_fit(sample._replace(direct=sample.group == 0), grain, alone, note)
        if apart[0].error < cost_fit.APART * best[0].error:
            return requests._replace(direct=requests.group == 0), *apart
    return requests, *best


def fits_of(requests, groups, grain, is_exact, others=None):
    """The requests of so many groups, those that came at the same time as they were begun; what is found by all; and
    what the fit of the first half predicts of the second, nan of the first. `others` don't count for a fit, but in a
    replay they wait with them; they are among these requests then."""
    half, most = len(requests.arrivals) // 2, cost_fit.MOST_IN_FIT[groups > cost_fit.MANY]
    with tool_run.progress(TOOL, cost_fit.MODELS + cost_fit.PIECES, "fit") as bar:
        is_apart = others is not None
        alone = cost_fit.costs_alone(cost_fit.chosen(requests, slice(half)), groups, QUIET if is_apart else 1)
        requests, early, delays = first_fit(requests, half, alone, grain, is_exact, is_apart, bar.update)
        requests = cost_fit.in_turn(requests, early)
        first, second = (cost_fit.chosen(requests, part) for part in (slice(half), slice(half, None)))
        early = cost_fit.refined(cost_fit.sampled(first, most), grain, early, delays)
        every, late = requests, numpy.arange(len(requests.arrivals)) >= half
        if is_apart:
            every, order = cost_fit.merged(requests, others)
            late = numpy.append(late, others.arrivals >= requests.arrivals[half])[order]
        ahead = cost_fit.predicted(every, early) + beside_of(first, groups)[every.group]
        scale = cost_fit.best_scale(cost_fit.sampled(second, most), grain, early)
        sample = cost_fit.sampled(requests, most)
        later = numpy.where(early.costs > 0, early.costs, cost_fit.costs_alone(requests, groups))
        fit = cost_fit.whole(sample, grain, early._replace(costs=later), delays)
        unclear = cost_fit.unclear_delays(sample, fit) if delays == cost_fit.EACH and groups > 1 else []
        of_costs, of_delays, of_work = cost_fit.margins(sample, grain, fit, delays, unclear, bar.update)
        needless = cost_fit.needless_kib(sample, fit, of_costs)
        if needless:
            every = cost_fit.without_kib(every, needless)
            fit = cost_fit.whole(cost_fit.without_kib(sample, needless), grain, fit, delays)
    fit = cost_fit.without_delays(fit, unclear)
    margin = min(MOST_MARGIN, max(1, math.ceil(100 * max(of_work, abs(scale - 1)))))
    of_delays = numpy.hypot(of_delays, margins_beside(requests, groups))
    found = Found(fit, beside_of(requests, groups), of_costs, of_delays, margin, unclear, needless)
    return every, found, numpy.where(late, ahead, numpy.nan)


def placed(found, groups, count):
    """What is found of a pool at the places that its groups have among so many, by their places in it; 0 elsewhere."""
    places = {one: other for place, group in groups.items() for one, other in zip(
        cost_fit.places_of(place).values(), cost_fit.places_of(group).values())}

    def spread(values, of, size):
        result = numpy.zeros(size)
        result[list(of.values())] = values[list(of)]
        return result

    size = cost_fit.OF_REST + cost_fit.OF_ROUTE * (count - 1)
    costs, of_costs = (spread(values, places, size) for values in (found.fit.costs, found.costs_margin))
    delays, beside, of_delays = (
        spread(values, groups, count) for values in (found.fit.delays, found.beside, found.delays_margin))
    unclear, needless = (
        [groups[place] for place in of if place in groups] for of in (found.unclear, found.needless))
    return Found(found.fit._replace(costs=costs, delays=delays), beside, of_costs, of_delays, found.margin, unclear,
                 needless)


def added(one, other):
    """What is found of two pools as one; its servers are those of the first."""
    def both(first, second, names):
        return {name: getattr(first, name) + getattr(second, name) for name in names}

    fit = one.fit._replace(**both(one.fit, other.fit, ("costs", "delays")))
    return one._replace(fit=fit, **both(one, other, ("beside", "costs_margin", "delays_margin", "unclear", "needless")))


def part_of(requests, name, groups, count, grain):
    """The part of a pool with some groups among so many, by its requests; also all these, and what is predicted of
    them. Those that are direct aren't of the pool."""
    here = cost_fit.regrouped(requests, numpy.searchsorted(groups, requests.group))
    own, others = (cost_fit.chosen(here, of) for of in (~here.direct, here.direct))
    every, found, ahead = fits_of(own, len(groups), grain, True, others)
    own = cost_fit.chosen(every, ~every.direct)
    own, every = (cost_fit.regrouped(of, groups[of.group]) for of in (own, every))
    places = {place: group for place, group in enumerate(groups.tolist()) if (own.group == group).any()}
    return Part(name, own, placed(found, places, count)), every, ahead


def fits_of_pools(requests, pools, grain):
    """The same of each pool by its own requests: all of them, the part of each, what is found of all, and what is
    predicted of the second halves."""
    fits = []
    for pool, name in enumerate(POOLS):
        groups = numpy.union1d([0], numpy.flatnonzero(pools == pool))
        here = cost_fit.chosen(requests, pools[requests.group] == pool)
        fits.append(part_of(here, name, groups, len(pools), grain))
    parts, several, ahead = zip(*fits)
    requests, order = cost_fit.merged(*several)
    works = [cost_fit.services_of(part.requests, part.found.fit.costs).mean() for part in parts]
    longest = min(grain, max(works))  # of what is shorter than the steps of times no margin can be told
    margin = max(part.found.margin for part, work in zip(parts, works) if work >= longest)
    found = added(*(part.found for part in parts))._replace(margin=margin)
    return requests, parts, found, numpy.concatenate(ahead)[order]


def busy_share(requests):
    """The share of the time from the first arrival to the last answer in which somebody was inside."""
    ends = numpy.maximum.accumulate(requests.arrivals + requests.times)
    idle = numpy.maximum(requests.arrivals[1:] - ends[:-1], 0).sum()
    return 1 - idle / max(ends[-1] - requests.arrivals[0], 1)


def dearer(requests, fit):
    """How many times greater p99 is by costs that are a little higher."""
    before, after = (numpy.percentile(cost_fit.predicted(requests, one), 99) for one in (
        fit, fit._replace(costs=DEARER * fit.costs)))
    return after / max(before, 1)


def remarks_on_load(requests, fit):
    """What is to be known about the load that a fit was made on, a line each."""
    met = (cost_fit.found_inside(requests) > 0).mean()
    share, load = busy_share(requests), cost_fit.share_of_work(requests, fit)
    lines = ["somebody was inside for %.0f%% of the time; by the best fit its servers worked for %.0f%%" % (
        100 * share, 100 * load)]
    if load >= FULL:
        lines.append("WARNING: overloaded all along: the recorded arrivals keep the pace of the server that was "
                     "recorded. With costs %d%% higher p99 is %.1f times as long: record a time with less load too" % (
                         round(100 * DEARER - 100), dearer(requests, fit)))
    if met < MET:
        lines.append("WARNING: only %.1f%% of the requests found another inside: how many the server can answer is a "
                     "guess, and nobody can tell it from this recording; record a busier time" % (100 * met))
    return lines


def used_in(result):
    """The places of the costs that some of the requests need by which these are fitted."""
    return numpy.unique(numpy.concatenate([cost_fit.used_by(part.requests) for part in result.parts]))


def tables_of(result):
    """The keys of the settings, each with its value and its margin (None of a count), for the rest and then for each
    route: what nothing needs, or is as the defaults have it, is left out. Raises Fault where the program takes no such
    value."""
    found, requests, tables = result.found, result.requests, []
    fit, used = found.fit, used_in(result)
    delays = numpy.round(fit.delays + found.beside)
    has = numpy.bincount(requests.group, minlength=len(delays))
    default = 0 if has[0] else int(has.argmax())
    for group in range(len(result.names)):
        entries = [(key, fit.costs[place], found.costs_margin[place])
                   for key, place in cost_fit.places_of(group).items()
                   if place in used and (fit.costs[place] or not group)]
        entries += [("kib", 0, None)] * (group == 0 and has_no_kib(result))  # else the default would hold
        entries += [("servers", fit.servers, None)] * (group == 0 and fit.servers > 1)
        if delays[default] if group == 0 else delays[group] != delays[default]:
            entries.append(("delay", delays[group or default], found.delays_margin[group or default]))
        for key, value, _ in entries:
            settings_documents.refuse_outside("%s.%s" % ("route" if group else "costs", key), value)
        tables.append(entries)
    return tables


def has_no_kib(result):
    """Whether the rest has files, of which no cost of a KiB is told."""
    return 0 in result.one_size or 0 in result.found.needless


def percent(value, margin):
    """A margin in percent of its figure, in words; none of a count."""
    return "+-%.1f%%" % (100 * margin / value) if value and margin is not None else ""


def document_of(result, tables, lines):
    """The settings as a document, each figure with its margin."""
    comments = "".join("# %s\n" % line for line in (*lines, METHOD))
    parts = [comments + settings_documents.margin_line(result.found.margin)]
    for group, entries in enumerate(tables):
        heading = "[costs]\n"
        if group:
            heading = "[[route]]\nprefix = %s\n" % settings_documents.value_text(result.prefixes[group - 1] or "/")
        figures = [("%s = %d  # %s" % (key, value, percent(value, margin))).removesuffix("  # ") + "\n"
                   for key, value, margin in entries]
        figures += ['pool = "%s"\n' % UPSTREAM] * bool(result.pools[group])
        parts += [heading + "".join(figures)] if group or figures else []
        if group == 0 and result.pools.any():
            parts.append('[[pool]]\nname = "%s"\nservers = %d\n' % (UPSTREAM, result.parts[1].found.fit.servers))
    return "\n".join(parts)


def figures_of(result, tables):
    """The table of the figures that are written."""
    counts, rows = numpy.bincount(result.requests.group, minlength=len(result.names)), []
    for name, count, entries in zip(result.names, counts, tables):
        cells = {key: ("%d %s" % (value, percent(value, margin))).strip() for key, value, margin in entries}
        delay = cells.get("delay", "as the rest" if rows and rows[0][-1] else "")
        rows.append([name, str(count), cells.get("file", cells.get("cost", "")), cells.get("kib", ""),
                     cells.get("error", ""), delay])
    heading = ["microseconds", "requests", "file or cost", "kib", "error", "delay"]
    if result.pools.any():
        heading, rows = [*heading, "pool"], [[*row, UPSTREAM * int(pool)] for row, pool in zip(rows, result.pools)]
    return [heading, *rows]


def told_of_keys(result):
    """What is to be known of the keys, a line each."""
    requests, found, names = result.requests, result.found, result.names
    used = used_in(result)
    lines = ["costs.%s: nothing in the recording needs it" % key
             for key, place in cost_fit.places_of(0).items()
             if place not in used and not (key == "kib" and has_no_kib(result))]
    lines += ["%s: all answers have one size, so kib can't be told from %s: it is left at 0" % (
        names[group], "cost" if group else "file") for group in result.one_size]
    lines += ["%s: kib can't be told from 0, and is left at it" % names[group] for group in found.needless]
    lines += ["%s: hardly a request waited for another there, so its delay can't be told from its cost: it is in the "
              "cost" % names[group] for group in found.unclear]
    work = cost_fit.services_of(requests, found.fit.costs)
    for group in range(1, len(names)):
        here = requests.group == group
        part = (found.fit.costs[requests.second] * requests.kib)[here].sum() / max(work[here].sum(), 1)
        if part >= KIB_PART:
            lines.append("NOTE: %s: kib is %.0f%% of its work; a replay counts it only where the snapshot has the "
                         "answer as a file: else give --without-kib" % (names[group], 100 * part))
    return lines


def result_of(options, load, is_exact):
    """What comes of what was recorded. The rest is a route where a server works longer on an answer than costs can
    tell."""
    prefixes, pools, told = pooled_routes(load, options.route, is_exact)
    for _ in range(2):
        requests, one_size = grouped(load, prefixes, options.without_kib)
        if pools.any():
            requests = requests._replace(direct=strangers_of(load, requests.group, pools))
            requests, parts, found, ahead = fits_of_pools(requests, pools, load.grain)
        else:
            requests, found, ahead = fits_of(requests, len(prefixes) + 1, load.grain, is_exact)
            parts = (Part(None, requests, found),)
        longest = max(found.fit.costs[cost_fit.fixed_places(0)])
        if longest <= settings_documents.RANGES["costs.file"][1]:
            break
        prefixes = [*prefixes, route_search.ROOT][-route_search.MOST_ROUTES:]
        pools = numpy.append(0, numpy.append(pools[1:], 0)[-route_search.MOST_ROUTES:])
        told.append("a server works longer on an answer than costs.file and costs.error can tell: the settings have a "
                    "route for all paths, with one cost for any answer")
    names = [REST, *map(shown, prefixes)]
    rows = list(forecast_check.rows_of(requests, load.grain, ahead, names))
    return Result(prefixes, names, pools, requests, one_size, parts, found, rows, told)


def told_by(part, line):
    """A line about a part, which begins with its name if it has one."""
    return "%s: %s" % (part.name, line) if part.name else line


def replayed(result):
    """The times that a replay has of all requests, by what is found of all."""
    requests, found = result.requests, result.found
    times = found.beside[requests.group]
    for pool, part in enumerate(result.parts):
        here = result.pools[requests.group] == pool
        fit = found.fit._replace(servers=part.found.fit.servers)
        times[here] += cost_fit.predicted(cost_fit.chosen(requests, here), fit)
    return times


def remarks(result, recorded):
    """What is to be known about a fit, a line each."""
    requests, off = result.requests, [abs(off) for *_, off in forecast_check.judged(result.rows)]
    lines = [BEGUN] if recorded.is_begun else []
    for part in result.parts:
        of_part = remarks_on_load(part.requests, part.found.fit) if recorded.is_exact else [WHOLE_SECONDS]
        lines += [told_by(part, line) for line in of_part]
    if result.pools.any():
        here = result.pools[requests.group] > 0
        counts = [(requests.direct & of).sum() for of in (here, ~here)]
        lines += ["NOTE: on the routes of the pool the proxy itself answered %d requests, and on others an upstream "
                  "%d: in a replay their paths decide" % tuple(counts)] * any(counts)
    elif requests.direct.any():
        lines.append("NOTE: %.0f%% of the answers needed none of the servers that the others waited for, and in a "
                     "replay all wait for the same" % (100 * requests.direct.mean()))
    if forecast_check.GOOD < max(off) <= forecast_check.POOR:
        lines.append("NOTE: the check misses by more than %d%%" % forecast_check.GOOD)
    return lines


def recorded_in(options):
    """What was recorded in the inputs, and counts of what was left out, in words."""
    depth = max([measured_times.DEPTH, *(len(segments_of_prefix(word)) for word in options.route or ())])
    recorded = measured_times.of_files(options.inputs, measured_times.Wanted(
        options.port, options.log_format, options.tier, options.begin, options.end, depth))
    counts = ["%d %s" % (count, name) for name, count in recorded.left_out.items() if count]
    return recorded, "; left out: " + ", ".join(counts) if counts else ""


def write_outputs(options, result, tables, begin, end, shown_tables):
    """Writes the settings, and the page."""
    figures, check = map(forecast_check.aligned, shown_tables)
    document = document_of(result, tables, [*begin, *figures, CHECK, *check, *end])
    outputs = [(options.output, lambda file: file.write(document)),
               (options.page, lambda file: file.write(calibrate_page.page_of(
                   options.inputs, result.requests, replayed(result), [*begin, *end], shown_tables)))]
    output_file.replace_all([(path, write) for path, write in outputs if path])


def work(options):
    """Does what the command line says."""
    output_file.refuse_same([path for path in (options.output, options.page) if path],
                            input_files.descriptors(options.inputs))
    recorded, left_out = recorded_in(options)
    source = ", ".join(options.inputs)
    try:
        load = load_of(recorded)
    except Fault as fault:
        raise Fault("%s: %s%s" % (source, fault, left_out)) from None
    result = result_of(options, load, recorded.is_exact)
    try:
        tables = tables_of(result)
    except Fault as fault:
        raise Fault("%s: %s; look for wrong times in it" % (source, fault)) from None
    requests = result.requests
    begin = ["%d requests in %.1f seconds%s" % (len(requests.arrivals), requests.arrivals[-1] / 1e6, left_out),
             *result.told, *(told_by(part, "best: %s (mean difference of roots %.2f)" % (
                 servers_in_words(part.found.fit.servers), part.found.fit.error)) for part in result.parts)]
    end = [*told_of_keys(result), *remarks(result, recorded)]
    failure = ", ".join(forecast_check.failures_of(result.rows))
    if failure:
        failure += "; " + forecast_check.advice_of(result.rows, requests.direct.any() and not result.pools.any())
        end.append("WARNING: the check fails: " + failure)
    shown_tables = figures_of(result, tables), forecast_check.table_of(result.rows)
    figures, check = map(forecast_check.aligned, shown_tables)
    standard_output.write("\n".join([*begin, *figures, CHECK, *check, *end]) + "\n")
    if failure and not options.anyway:
        raise Fault("the check fails, and nothing is written: %s; --anyway writes it all the same" % failure)
    write_outputs(options, result, tables, begin, end, shown_tables)


def servers_in_words(count):
    """A number of servers in words."""
    return "%d server%s" % (count, "s" * (count > 1)) if count else "nobody waits"


def main(words=None):
    """Does what the words of the command line say, or those of the process; returns the status."""
    return tool_run.run(TOOL, lambda: work(arguments(words)))
