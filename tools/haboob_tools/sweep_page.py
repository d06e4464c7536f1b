"""The page of a sweep (tools/sweep.py): pictures and tables of its combinations."""
import collections
import html
import os
import statistics

from . import pages, settings_documents, tool_run
from .pages import pyplot, ticker
from .sweep_figures import (ANY, DEFINITIONS, TICKS_IN_MILLISECOND, TIMES, comparable, parts_of, pools_in,
                            several_tiers)

Bbox = tool_run.library("matplotlib.transforms").Bbox

MOST_LABELS = 3  # rows that are named beside one mark
BEATEN, UNBEATEN, CHOSEN = 3, 5, 10  # points from the middle of a mark to its sides
PLACES = (  # of a label beside its mark: how far it is, in points, and which of its sides is there
    ((7, 4), "left", "bottom"), ((7, -4), "left", "top"), ((-7, 4), "right", "bottom"), ((-7, -4), "right", "top"),
    ((0, 11), "center", "bottom"), ((0, -11), "center", "top"), ((22, 4), "left", "bottom"), ((22, -4), "left", "top"),
)
MOST_FAULTS = 10  # that the page lists
WIDE = 24  # characters of values beside one another under a picture
POOLS_NOTE = ("costs: the servers of what no pool serves. Busy is of its own servers; most waiting, the most requests "
              "that had come and weren't begun.")
FACTOR = 1.7  # by which an axis of times goes beyond the least and the greatest at least


def in_milliseconds(ticks):
    """A time for the page."""
    return "-" if ticks is None else "%.3f" % (ticks / TICKS_IN_MILLISECOND)


def point_of(combination):
    """A combination's place in the picture."""
    return point(combination.figures)


def point(figures):
    """The place of figures in the picture."""
    return figures["turned_away"], figures["p99"] / TICKS_IN_MILLISECOND


def labels_of(combinations):
    """The points of combinations, each with the rows that lie on it as one label."""
    points = collections.defaultdict(list)
    for combination in combinations:
        points[point_of(combination)].append(str(combination.row))
    return {point: ", ".join(rows[:MOST_LABELS]) + (", .." if len(rows) > MOST_LABELS else "")
            for point, rows in points.items()}


def coordinates(points):
    """The points' places along the axes."""
    return [[point[axis] for point in points] for axis in (0, 1)]


def set_time_axis(axes, times):
    """Makes the upright axis one of times in milliseconds, by equal ratios, so that it has labels whatever they are."""
    least, greatest = (of((time for time in times if time > 0), default=1) for of in (min, max))
    axes.set_yscale("log")
    axes.set_ylim(least / FACTOR, greatest * FACTOR)
    axes.yaxis.set_major_locator(ticker.LogLocator(10, subs=(1, 2, 5), numticks=12))
    axes.yaxis.set_major_formatter(ticker.FuncFormatter(lambda value, _: "%g" % value))
    axes.yaxis.set_minor_formatter(ticker.NullFormatter())


def add_labels(axes, labels, marks):
    """Writes the label of each point beside it, at the first place within the axes where it covers no other and none of
    the marks (points and how far each reaches); nowhere where there is none."""
    taken = [Bbox.from_bounds(x - room, y - room, 2 * room, 2 * room)
             for points, room in marks if points for x, y in axes.transData.transform(points)]
    for point, label in labels.items():
        for offset, across, up in PLACES:
            text = axes.annotate(label, point, textcoords="offset points", xytext=offset, ha=across, va=up)
            box = text.get_window_extent()
            is_within = box.x0 >= axes.bbox.x0 and box.y0 >= axes.bbox.y0 and box.y1 <= axes.bbox.y1
            if is_within and not any(map(box.overlaps, taken)):
                taken.append(box)
                break
            text.remove()


def draw_bands(axes, rows):
    """Draws lines from each row's place at the lower end of a margin to that at the upper one; returns their places."""
    bands = [coordinates([point(lower), point_of(row), point(upper)]) for row in rows
             for lower, upper in ([row.at_ends] if row.ends else ()) if lower["p99"] and upper["p99"]]
    for place, band in enumerate(bands):
        axes.plot(*band, color="0.5", linewidth=2, label=None if place else "at costs of the margin")
    return bands


def trade_picture(rows, unbeaten, chosen, limits):
    """The picture of all rows by requests turned away and p99. The unbeaten have a shape and labels, the chosen one
    another shape, and a limit on p99 is a line."""
    figure, axes = pyplot.subplots(figsize=(pages.WIDTH, 4.6), dpi=72)  # so that a dot is a point
    beaten = labels_of(row for row in comparable(rows) if row not in unbeaten)
    labels, best = labels_of(unbeaten), [point_of(chosen)] if chosen else []
    axes.scatter(*coordinates(beaten), marker="o", s=30, facecolors="none", edgecolors="0.4", clip_on=False,
                 label="beaten by another")
    axes.step(*coordinates(labels), where="post", color="0.6", linewidth=1, linestyle=":")
    bands = draw_bands(axes, unbeaten)
    axes.scatter(*coordinates(labels), marker="D", s=45, color="black", clip_on=False, zorder=3,
                 label="unbeaten (its row)")
    if chosen:
        axes.scatter(*coordinates(best), marker="*", s=420, facecolors="none", edgecolors="black", linewidths=1.5,
                     clip_on=False, zorder=4, label="chosen: row %d" % chosen.row)
        labels.setdefault(best[0], str(chosen.row))
    lines = [one.most / TICKS_IN_MILLISECOND for one in limits if one.name == "p99" and one.most > 0]
    for line in lines:
        axes.axhline(line, color="black", linestyle="--", linewidth=1, label="p99 at most %g ms" % line)
    axes.set_xlabel("turned away, percent")
    axes.set_ylabel("p99, milliseconds")
    axes.margins(0.1)
    axes.set_xlim(left=max(0, axes.get_xlim()[0]))  # so that points near one another stand apart
    set_time_axis(axes, [*(place[1] for place in (*beaten, *labels)), *lines, *(
        time for _, times in bands for time in times)])
    add_labels(axes, labels, [(list(beaten), BEATEN), (list(labels), UNBEATEN), (best, CHOSEN)])
    pages.add_legend([axes], 2)
    return pages.svg_of(figure, bbox_inches="tight")


def draw_effect(axes, labels, samples, unit):
    """Draws the median of the samples of each value, and a stroke from the least to the greatest."""
    places = range(len(labels))
    axes.vlines(places, [min(of, default=0) for of in samples], [max(of, default=0) for of in samples], color="0.6")
    axes.plot(places, [statistics.median(of) if of else float("nan") for of in samples], "o-", color="black")
    axes.set_xticks(places, labels, rotation=30 if len("".join(labels)) > WIDE else 0)
    axes.set_ylabel(unit)


def effect_picture(key, place, combinations):
    """What a key, the one at this place of the values, changes: over its rising values, and all other keys' values."""
    values = sorted({combination.values[place] for combination in combinations})
    points = [[point_of(combination) for combination in comparable(combinations) if combination.values[place] == value]
              for value in values]
    figure, (upper, lower) = pyplot.subplots(2, 1, figsize=(pages.WIDTH, 4.8), layout="constrained")
    labels = [settings_documents.shown(key, value).replace("$", r"\$") for value in values]
    shares, times = ([[point[axis] for point in of] for of in points] for axis in (0, 1))
    draw_effect(upper, labels, shares, "turned away, %")
    upper.set_ylim(bottom=0)
    draw_effect(lower, labels, times, "p99, ms")
    set_time_axis(lower, [time for of in times for time in of])
    figure.suptitle(settings_documents.titled(key).replace("$", r"\$"))
    return pages.svg_of(figure)


def effects(options, combinations):
    """What each key of a grid that has several values changes, as HTML."""
    if options.search:
        return []
    pictures = [effect_picture(one.key, place, combinations) for place, one in enumerate(options.grid)
                if len(one.values) > 1]
    return ["<h2>What each key changes</h2>\n<p>The median over all values of the other keys, and a stroke from the "
            "least to the greatest.</p>\n", *pictures]


def headings_of(options):
    """The keys as headings of a table."""
    return [pages.breakable(settings_documents.titled(one.key)) for one in options.grid]


def values_of(options, row):
    """The values of a row for people."""
    return [value if value == ANY else html.escape(settings_documents.shown(one.key, value))
            for one, value in zip(options.grid, row.values)]


def cell_of(name, all_figures):
    """The cell of a figure, and below it what it is at both ends of a margin."""
    figure, *at_ends = ["-" if figures[name] is None else in_milliseconds(figures[name]) if name in TIMES else
                        "%.2f" % figures[name] if name == "turned_away" else "%.1f" % (100 * figures[name])
                        for figures in all_figures]
    return figure + ("<br><small>%s\u2013%s</small>" % tuple(at_ends) if at_ends else "")


def cells_of(options, row, capture, all_figures):
    """The cells of a row for the figures of a capture, or the worst of several, and those at the ends of a margin."""
    link = '<a href="%s">%d</a>' % (row.settings, row.row)
    figures = all_figures[0]
    return [link, *values_of(options, row), *capture,
            *(cell_of(name, all_figures) for name in ("turned_away", *TIMES)), figures["rejected_while_idle"],
            figures["most_inside"], cell_of("busy_share", all_figures)]


def table_of_rows(options, rows, chosen):
    """The table of rows; of several captures each has its own figures below the worst."""
    several, names = len(options.captures) > 1, [os.path.basename(capture) for capture in options.captures]
    names = names if len(set(names)) == len(names) else options.captures
    cells, marks = [], []
    for row in rows:
        parts = parts_of(row, names)
        marks += [len(cells) + place for place in range(len(parts)) if chosen and row.row == chosen.row]
        cells += [cells_of(options, row, [pages.breakable(capture)] if several else [], all_figures)
                  for capture, all_figures in parts]
    heading = ["row", *headings_of(options), *(["capture"] if several else []),
               "turned away, %", *("%s, ms" % name for name in TIMES), "while idle", "most inside", "busy, %"]
    note = " Below a figure stands what it is at costs %d percent lower, and higher." % (options.margin or 0)
    return pages.table(heading, cells, marks) + "<p>The number of a row leads to its settings.%s</p>\n" % (
        note * bool(options.margin))


def table_of_tiers(options, rows, chosen):
    """The table of the figures of each tier, where there are several; the worst of all captures."""
    tiers = several_tiers(rows)
    if not tiers:
        return ""
    cells, marks = [], []
    for row in rows:
        of_tiers = [(tier, row.figures["tiers"][tier]) for tier in tiers if tier in row.figures["tiers"]]
        marks += [len(cells) + place for place in range(len(of_tiers)) if chosen and row.row == chosen.row]
        cells += [[row.row, tier, figures["admitted"], "%.2f" % figures["turned_away"],
                   *(in_milliseconds(figures[name]) for name in TIMES), figures["rejected_while_idle"]]
                  for tier, figures in of_tiers]
    heading = ["row", "tier", "admitted", "turned away, %", *("%s, ms" % name for name in TIMES), "while idle"]
    return "<h2>By tier</h2>\n" + pages.table(heading, cells, marks)


def table_of_pools(rows, chosen):
    """The table of the figures of each pool, where the settings have some; the worst of all captures."""
    pools = pools_in(rows)
    if not pools:
        return ""
    of_pools = [(row, pool, row.figures["pools"][pool]) for row in rows for pool in pools
                if pool in row.figures["pools"]]
    marks = [place for place, (row, *_) in enumerate(of_pools) if chosen and row.row == chosen.row]
    cells = [[row.row, pages.breakable(pool), "-" if figures["busy_share"] is None else
              "%.1f" % (100 * figures["busy_share"]), figures["most_waiting"], in_milliseconds(figures["longest_wait"])]
             for row, pool, figures in of_pools]
    heading = ["row", "pool", "busy, %", "most waiting", "longest wait, ms"]
    return "<h2>By pool</h2>\n%s<p>%s</p>\n" % (pages.table(heading, cells, marks), POOLS_NOTE)


def refused_rows(options, rows):
    """What the program refused, as HTML."""
    refused = [row for row in rows if "fault" in row.figures]
    if not refused:
        return ""
    more = "<p>The first %d; sweep.csv has all.</p>\n" % MOST_FAULTS if len(refused) > MOST_FAULTS else ""
    heading = ["row", *headings_of(options), "fault"]
    cells = [[row.row, *values_of(options, row), html.escape(row.figures["fault"])] for row in refused[:MOST_FAULTS]]
    return "<h2>Refused by the program</h2>\n" + more + pages.table(heading, cells)


def summary(options, combinations, rows, unbeaten, chosen):
    """What was tried, in words."""
    inputs = ", ".join((options.snapshot, *options.captures, options.settings or "the default settings"))
    words = "%s: %d combinations, %d unbeaten, %d refused by the program" % (
        inputs, len(combinations), len(unbeaten), sum("fault" in row.figures for row in rows))
    joined = len(combinations) - len(rows)
    words += "; %d give the same as another, and share its row" % joined if joined else ""
    limits = " and ".join("%s=%g" % (one.name, one.most) for one in options.limits)
    if limits:
        limits += ", also at costs %d percent lower and higher" % options.margin if options.margin else ""
        words += ". Within %s: %s" % (
            limits, "row %d turns fewest away" % chosen.row if chosen else "no combination")
    return "<p>%s.</p>\n" % html.escape(words)


def page_of(options, combinations, rows, unbeaten, chosen, warnings):
    """The page: of all combinations, of the rows that they make, of those that none beats, and of the chosen one; with
    warnings, a line each."""
    shown = unbeaten if chosen is None or chosen in unbeaten else [chosen, *unbeaten]
    parts = [
        summary(options, combinations, rows, unbeaten, chosen),
        *("<p>%s.</p>\n" % html.escape(line) for line in warnings),
        "<h2>Requests turned away, and how long the slowest of the others wait</h2>\n",
        trade_picture(rows, unbeaten, chosen, options.limits),
        "<h2>Combinations that no other beats</h2>\n", table_of_rows(options, shown, chosen),
        "<dl>%s</dl>\n" % "".join("<dt>%s</dt><dd>%s</dd>\n" % pair for pair in DEFINITIONS),
        table_of_tiers(options, shown, chosen), table_of_pools(shown, chosen), *effects(options, combinations),
        refused_rows(options, rows),
    ]
    return pages.html_page("Settings for " + ", ".join(options.captures), "".join(parts))
