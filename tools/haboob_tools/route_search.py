"""Finds routes: prefixes of paths whose requests take a server unlike as long as those of the others.

A path is the text of its first segments, decoded, each after a slash; the empty one is the root.
"""
import collections

from . import cost_fit, tool_run
from .response_delays import segments_of_prefix

numpy = tool_run.library("numpy")

LEAST_REQUESTS = 200  # of a route
MOST_ROUTES = 64  # as settings may have (docs/FORMATS.md)
MOST_PREFIXES = 256  # with as many requests, that are looked at: those with the most
LEAST_SAMPLED, MOST_SAMPLED = 50, 400  # requests of a prefix that are looked at; between these a quarter of them
MOST_JOINED = 4_000  # requests of several prefixes together
FIRSTS = 8  # of the prefixes below one, to which the others may be alike: those with the most requests
ALIKE = 0.15  # of the middle time: where the same costs miss by no more than that, prefixes are alike
ROOT = ""

# Work and times of those requests of a prefix that found the fewest inside, and how many it has.
Sample = collections.namedtuple("Sample", "work times count")


def parent_of(prefix):
    """The prefix with one segment less."""
    return prefix.rpartition("/")[0]


def below(prefix):
    """The prefixes of a prefix, itself first and the root last."""
    while prefix != ROOT:
        yield prefix
        prefix = parent_of(prefix)
    yield ROOT


def places_on(prefixes, names):
    """For each path the place of the longest of some prefixes that it is on, from 1; 0 of those on none."""
    known = {prefix: place for place, prefix in enumerate(prefixes, 1)}
    return numpy.array([next((known[one] for one in below(name) if one in known), 0) for name in names], int)


def narrow_first(prefixes):
    """Prefixes in the order in which settings have them."""
    return sorted(prefixes, key=lambda prefix: (-prefix.count("/"), prefix))


def named(words):
    """The prefixes of the words of the command line, without a slash at their ends."""
    return narrow_first({"".join("/" + segment.decode() for segment in segments_of_prefix(word)) for word in words})


def with_enough(names, counts):
    """The prefixes that have enough requests beside those of longer ones that have."""
    own = collections.Counter()
    for name, count in zip(names, counts.tolist()):
        own[name] += count
    for depth in range(max((name.count("/") for name in own), default=0), 0, -1):
        for name in [name for name in own if name.count("/") == depth and own[name] < LEAST_REQUESTS]:
            own[parent_of(name)] += own.pop(name)
    return [name for name, _ in own.most_common(MOST_PREFIXES) if name != ROOT]


def too_few(path, names, prefixes):
    """How many requests on no route are on first segments that have too few, and these segments, the most used first.
    """
    counts = collections.Counter()
    on = numpy.append(places_on(prefixes, names), 0)[path]
    for name, count in zip(names, numpy.bincount(path[(on == 0) & (path >= 0)], minlength=len(names)).tolist()):
        counts["/" + name[1:].partition("/")[0]] += count
    few = [(name, count) for name, count in counts.most_common() if 0 < count < LEAST_REQUESTS]
    return sum(count for _, count in few), [name for name, _ in few]


def fit_of(sample, is_route):
    """The costs of a sample by themselves: as a route, or as files and other answers."""
    work = sample.work
    if is_route:
        work = numpy.column_stack((work[:, cost_fit.FILE] + work[:, cost_fit.ERROR], work[:, cost_fit.KIB]))
    return work, cost_fit.least_absolute(work, sample.times)


def joined(samples):
    """Several samples as one; of many requests some."""
    work, times = (numpy.concatenate(parts) for parts in zip(*(one[:2] for one in samples)))
    some = slice(None, None, -(-len(times) // MOST_JOINED))
    return Sample(work[some], times[some], sum(one.count for one in samples))


def missed_by(sample, work, costs):
    """How much costs miss of a sample, as a part of its middle time."""
    return numpy.abs(work @ costs - sample.times).mean() / max(numpy.median(sample.times), 1)


def are_alike(one, other, is_route=True):
    """Whether the same costs hold for two samples about as well as their own."""
    _, costs = fit_of(joined([one, other]), is_route)
    for sample in (one, other):
        work, own = fit_of(sample, is_route)
        if missed_by(sample, work, costs) > missed_by(sample, work, own) + ALIKE:
            return False
    return True


def apart_from_rest(samples):
    """Those prefixes that the rest can't have: it begins with the quickest, and takes those that are like it."""
    quickest, *others = sorted(samples, key=lambda prefix: numpy.median(samples[prefix].times))
    rest, apart = samples[quickest], {}
    for prefix in others:
        if are_alike(rest, samples[prefix], False):
            rest = joined([rest, samples[prefix]])
        else:
            apart[prefix] = samples[prefix]
    return apart


def with_shorter(apart, samples):
    """The same with one prefix in the place of several below it that are alike; those that aren't stay before it."""
    for depth in range(max(prefix.count("/") for prefix in apart), 1, -1):
        parents = {parent_of(prefix) for prefix in apart if prefix.count("/") == depth}
        for parent in sorted(parents):
            inside = [prefix for prefix in apart if parent in (prefix, parent_of(prefix))]
            firsts = [parent] if parent in apart else sorted(inside, key=lambda prefix: -apart[prefix].count)[:FIRSTS]
            alike = max(([prefix for prefix in inside if prefix == first or are_alike(apart[first], apart[prefix])]
                         for first in firsts), key=len)
            if len(alike) > 1 and (parent in alike or parent not in samples):
                apart[parent] = joined([apart.pop(prefix) for prefix in alike])
    return apart


def samples_of(requests, is_file, on, prefixes):
    """The samples of prefixes, each of the requests on it: `on` has the places of their prefixes from 1."""
    inside = cost_fit.found_inside(requests)
    work = numpy.column_stack((is_file, requests.kib, ~is_file)).astype(float)
    samples = {}
    for place, prefix in enumerate(prefixes, 1):
        places = numpy.flatnonzero(on == place)
        some = cost_fit.quietest(inside, places, max(LEAST_SAMPLED, min(MOST_SAMPLED, len(places) // 4)))
        samples[prefix] = Sample(work[some], requests.times[some], len(places))
    return samples


def dearest(kept):
    """As many prefixes as there may be routes, those with the most work, the narrow ones first."""
    return narrow_first(sorted(kept, key=lambda prefix: -kept[prefix].count * numpy.median(kept[prefix].times))[
        :MOST_ROUTES])


def found(requests, is_file, path, names):
    """The prefixes of the routes that are found, the narrow ones first. `path` is the place of each request's path
    among the names, -1 where it has none."""
    prefixes = with_enough(names, numpy.bincount(path[path >= 0], minlength=len(names)))
    if not prefixes:
        return []
    samples = samples_of(requests, is_file, numpy.append(places_on(prefixes, names), 0)[path], prefixes)
    apart = apart_from_rest(samples)
    if not apart:
        return []
    routes = with_shorter(apart, samples)
    kept = dict(routes)
    for prefix, sample in samples.items():  # those of the rest that a shorter route would take stay apart from it
        over = next((one for one in below(prefix) if one in routes), prefix)
        if over != prefix and not are_alike(routes[over], sample):
            kept[prefix] = sample
    return dearest(kept)


def found_beside(requests, is_file, path, names, behind):
    """The same where an upstream served some of the requests, those `behind`, and the proxy itself the others: a prefix
    on which it served the most is a route, or below one."""
    prefixes = [*with_enough(names, numpy.bincount(path[path >= 0], minlength=len(names))), ROOT]
    on = numpy.append(places_on(prefixes, names), 0)[path]
    own, of_upstream = (numpy.bincount(on[kind], minlength=len(prefixes) + 1)[1:] for kind in (~behind, behind))
    is_behind = dict(zip(prefixes, (of_upstream > own).tolist()))
    if of_upstream[-1] < LEAST_REQUESTS or not is_behind[ROOT]:
        del is_behind[ROOT]  # what is on no other prefix is of the rest
    samples = {}
    for kind in (False, True):
        here = behind == kind
        these = samples_of(cost_fit.chosen(requests, here), is_file[here], on[here], prefixes)
        samples |= {prefix: these[prefix] for prefix in is_behind if is_behind[prefix] == kind}
    routes = {}
    for kind in (True, False):
        apart = {prefix: sample for prefix, sample in samples.items() if is_behind[prefix] == kind}
        apart = apart_from_rest(apart) if apart and not kind else apart
        joined_ones = with_shorter(dict(apart), samples | routes) if apart else {}
        routes |= joined_ones
        is_behind |= dict.fromkeys(joined_ones, kind)
    for prefix in sorted(samples, key=lambda prefix: prefix.count("/")):
        over = next((one for one in below(prefix) if one in routes), prefix)
        if over != prefix and (is_behind[over] != is_behind[prefix] or not are_alike(routes[over], samples[prefix])):
            routes[prefix] = samples[prefix]
    return dearest(routes)
