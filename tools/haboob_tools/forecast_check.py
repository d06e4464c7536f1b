"""The check of a fit: what it predicts of the second half of the requests, beside what was measured."""
import collections

from . import tool_run

numpy = tool_run.library("numpy")

PERCENTS = (50, 90, 99, 100)
NAMES = ("p50", "p90", "p99", "greatest")
JUDGED = 3  # of them: the greatest is shown alone
LEAST_JUDGED = 100  # requests of the second half by which a route or a tier is judged
GOOD, POOR = 10, 25  # percent by which a predicted percentile may be off
TICKS_IN_MILLISECOND = 1000

# A row of the check: what it is of, how many requests, percentiles as measured and as predicted, by how many percent
# these are off, and whether it is judged.
Row = collections.namedtuple("Row", "name count real predicted off is_judged")


def percentiles(times):
    """The percentiles of times by nearest rank, as in a report."""
    return numpy.percentile(times, PERCENTS, method="inverted_cdf")


def off_by(real, predicted, grain):
    """By how many percent predicted times are off; what is within the steps in which times are told isn't."""
    beyond = numpy.maximum(numpy.abs(predicted - real) - (grain if grain > 1 else 0), 0)
    return 100 * numpy.sign(predicted - real) * beyond / numpy.maximum(real, grain)


def rows_of(requests, grain, ahead, names):
    """The rows of the check: of the rest, of each route, of each tier where there are several, and of all. What is
    predicted of the first half is nan."""
    late = ~numpy.isnan(ahead)
    real, ahead = (requests.times + requests.beside)[late], ahead[late]
    group, tier = requests.group[late], requests.tier[late]
    parts = [(name, group == place) for place, name in enumerate(names)] if len(names) > 1 else []
    parts += [("tier %d" % one, tier == one) for one in numpy.unique(tier) if tier.any()]
    for name, here in [*parts, ("all", numpy.ones(len(ahead), bool))]:
        if here.any():
            measured, predicted = percentiles(real[here]), percentiles(ahead[here])
            count = int(here.sum())
            yield Row(name, count, measured, predicted, off_by(measured, predicted, grain),
                      count >= LEAST_JUDGED or not parts)


def in_milliseconds(time):
    """A time as text with four digits."""
    time /= TICKS_IN_MILLISECOND
    return "%.0f" % time if time >= 1_000 else "%.4g" % time


def table_of(rows):
    """The table of the check."""
    cells = [[row.name, str(row.count), *(
        "%s/%s %+d%%" % (in_milliseconds(real), in_milliseconds(predicted), round(off))
        for real, predicted, off in zip(row.real, row.predicted, row.off))] for row in rows]
    return [["measured/replayed ms", "requests", *NAMES], *cells]


def aligned(table):
    """A table as lines of text, the first column to the left and the others to the right."""
    widths = [max(map(len, column)) for column in zip(*table)]
    return ["  " + "  ".join(cell.rjust(width) if place else cell.ljust(width)
                             for place, (cell, width) in enumerate(zip(row, widths))).rstrip() for row in table]


def judged(rows):
    """What is judged of the check: the name of the row and of the percentile, and by how many percent it is off."""
    return [(row.name, name, off) for row in rows if row.is_judged for name, off in zip(NAMES[:JUDGED], row.off)]


def failures_of(rows):
    """What of the check fails, in words; a list of texts."""
    return ["%s %s %+d%%" % (of, name, round(off)) for of, name, off in judged(rows) if abs(off) > POOR]


def advice_of(rows, is_apart):
    """What to do where the check fails; `is_apart` says whether some requests needed none of the servers."""
    name, _, _ = max(judged(rows), key=lambda one: abs(one[2]))
    beyond = [(of, off) for of, _, off in judged(rows) if abs(off) > GOOD]
    are_all = {of for of, _ in beyond} == {row.name for row in rows if row.is_judged}
    if are_all and len({off > 0 for _, off in beyond}) == 1:
        return ("all of the second half was %s than the first: take a time in which the server stayed the same, by "
                "--from and --to, without other work on its machine" % ("slower" if beyond[0][1] < 0 else "quicker"))
    if is_apart:
        return "take a time in which hardly anybody waits, or judge those that waited alone"
    return ("requests of %s take times that one cost doesn't tell: name narrower prefixes by --route, or take a longer "
            "time" % name)
