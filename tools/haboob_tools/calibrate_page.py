"""Makes the page of calibrate.py."""
import html

from . import pages, tool_run

numpy = tool_run.library("numpy")

PIECES = 40  # pieces of the time, or of the sizes, in a picture
TICKS_IN_MILLISECOND = 1000


def ninetieth_of(keys, times, edges):
    """The 90th percentile of times in each piece between edges of their keys; nan of none."""
    places = numpy.searchsorted(edges, keys, side="right")
    return [float(numpy.percentile(times[places == place], 90, method="inverted_cdf")) / TICKS_IN_MILLISECOND
            if (places == place).any() else float("nan") for place in range(1, len(edges))]


def picture(title, label, places, lines, is_log=False):
    """A picture of lines of times in milliseconds, as HTML."""
    figure, (axes,) = pages.axes_of(len(lines))
    pages.draw_lines(axes, places, lines)
    axes.set_xlabel(label)
    axes.set_xscale("log" if is_log else "linear")
    axes.set_ylim(bottom=0)
    pages.add_legend([axes], len(lines))
    return "<h2>%s, milliseconds</h2>\n%s" % (title, pages.svg_of(figure))


def pictures_of(requests, predicted):
    """Measured and predicted times: by percentile, over time, by size."""
    times, percents = {"measured": requests.times + requests.beside, "replayed": predicted}, numpy.arange(1, 100)
    yield picture("Response times by percentile", "percent of the requests that took no longer", percents, [
        (name, numpy.percentile(some, percents, method="inverted_cdf") / TICKS_IN_MILLISECOND)
        for name, some in times.items()])
    seconds = requests.arrivals / 1e6
    edges = numpy.linspace(0, seconds[-1] + 1e-6, PIECES + 1)
    yield picture("90th percentile over time", "seconds from the first request", edges[:-1],
                  [(name, ninetieth_of(seconds, some, edges)) for name, some in times.items()])
    sizes = requests.kib[requests.kib > 0]
    if sizes.size:
        edges = numpy.unique(numpy.percentile(sizes, numpy.linspace(0, 100, 13)))
        edges = numpy.append(edges, edges[-1] * 1.01 + 1e-9)
        yield picture("90th percentile by size", "KiB of the answer", edges[:-1], [
            (name, ninetieth_of(sizes, some[requests.kib > 0], edges)) for name, some in times.items()], True)


def page_of(inputs, requests, predicted, lines, tables):
    """The page of some inputs: lines of text, the table of figures and that of the check, and pictures of requests as
    they were measured and as they are replayed."""
    body = "".join("<p>%s.</p>\n" % html.escape(line.strip()) for line in lines)
    shown_tables = [pages.table(map(html.escape, heading), [list(map(html.escape, row)) for row in rows])
                    for heading, *rows in tables]
    note = "<p>Fitted on the first half, and replayed on the second.</p>"
    parts = [body, shown_tables[0], note, shown_tables[1], *pictures_of(requests, predicted)]
    return pages.html_page("Costs by %s" % ", ".join(inputs), "\n".join(parts))
