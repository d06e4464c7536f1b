"""Makes pages of HTML with pictures as SVG, which open without network and read without colour."""
import html
import io
import math
import re

from . import standard_output, tool_run

matplotlib = tool_run.library("matplotlib")
matplotlib.use("svg")
matplotlib.rcParams["svg.hashsalt"] = "haboob"  # so that ids within a page are the same each time
matplotlib.rcParams["svg.fonttype"] = "none"  # text stays text, in a font of the reader's
pyplot = tool_run.library("matplotlib.pyplot")
ticker = tool_run.library("matplotlib.ticker")

STYLES = ("-", "--", ":", "-.")
MARKERS = ("o", "s", "^", "x")
COLOURS = ("black", "#0050a0", "#a04000", "#606060")  # dark ones; lines differ by stroke and mark, too
WIDTH = 6.4  # inches; a page shows a picture as wide as it is, a phone at some 60 percent of that
HEIGHT = 2.1  # inches of the axes of a picture over time
PANEL, BETWEEN = 1.1, 0.12  # inches of each of several axes above one another, and between two
LEFT, RIGHT, BELOW, LEGEND_ROW = 0.8, 0.3, 0.6, 0.27  # inches beside, below and above them
LABEL_ROW, DIGIT = 0.22, 0.115  # inches of a further row of labels below, and of a digit's width
FONT = 13  # points, so that a label is legible on a phone
LEGEND_COLUMNS = 2
FEW = 60  # points so few have a mark each
STYLE = """\
body { font-family: sans-serif; max-width: 1160px; margin: auto; padding: 0 0.5em }
h1, h2, p, dl, pre, svg { max-width: 46em }
svg { width: 100%; height: auto; display: block }
h2 { font-size: 115%; margin-bottom: 0.2em }
table { border-collapse: collapse; display: block; overflow-x: auto; font-size: 85% }
th { text-align: left; font-weight: normal; border-bottom: 1px solid }
th, td { padding-right: 0.6em }
td:last-child { overflow-wrap: anywhere; min-width: 5em }
tr.chosen td { font-weight: bold; border-top: 2px solid; border-bottom: 2px solid }
pre { overflow-x: auto; border-left: 3px solid; padding-left: 0.6em }
"""
matplotlib.rcParams["font.size"] = FONT


def html_page(title, body):
    """A page with a title, which isn't escaped yet, and a body of HTML."""
    return standard_output.printable((
        "<!DOCTYPE html>\n<html lang=\"en\">\n<head><meta charset=\"utf-8\"><title>%s</title>\n"
        "<meta name=\"viewport\" content=\"width=device-width, initial-scale=1\">\n"
        "<style>\n%s</style>\n</head>\n<body>\n<h1>%s</h1>\n%s\n</body>\n</html>\n"
    ) % (html.escape(title), STYLE, html.escape(title), body))


def table(heading, rows, chosen=()):
    """A table, of cells of HTML; the rows at the places `chosen` stand out."""
    lines = ["<tr>%s</tr>\n" % "".join("<th>%s</th>" % cell for cell in heading)]
    for place, row in enumerate(rows):
        begin = '<tr class="chosen">' if place in chosen else "<tr>"
        lines.append("%s%s</tr>\n" % (begin, "".join("<td>%s</td>" % cell for cell in row)))
    return "<table>\n%s</table>\n" % "".join(lines)


def breakable(name):
    """A name as HTML that may be broken after its points and underscores, so that a table stays narrow."""
    return re.sub("([._/])", r"\1<wbr>", html.escape(name))


def svg_of(figure, **options):
    """A figure, which is then closed, as SVG for a page; the same text for the same figure."""
    text = io.StringIO()
    figure.savefig(text, format="svg", metadata={"Date": None}, **options)
    pyplot.close(figure)
    return text.getvalue()[text.getvalue().index("<svg"):]


def marked(values):
    """The places that have a mark: all of few, of many those that no line shows since there is nothing beside them."""
    if len(values) <= FEW:
        return list(range(len(values)))
    absent = [True, *map(math.isnan, values), True]
    return [place for place in range(len(values)) if absent[place:place + 3] == [True, False, True]]


def draw_lines(axes, places, lines):
    """Draws lines over places, each a label and its values (nan: none). They differ by strokes and marks."""
    size, width = (6, 1.5) if len(places) <= FEW else (3, 1.1)
    for (label, values), style, marker, colour in zip(lines, STYLES, MARKERS, COLOURS):
        axes.plot(places, values, style, label=label, marker=marker, markevery=marked(values), markersize=size,
                  linewidth=width, color=colour, clip_on=False)


def axes_of(entries, panels=1, rows_below=1):
    """A figure and its axes, so many above one another, with room above them for a legend of so many entries, and below
    for labels of so many rows; all have the same width."""
    rows = -(-entries // LEGEND_COLUMNS) if entries > 1 or panels > 1 else 0
    each, below = HEIGHT if panels == 1 else PANEL, BELOW + LABEL_ROW * (rows_below - 1)
    height = each * panels + BETWEEN * (panels - 1) + below + 0.15 + LEGEND_ROW * rows
    figure = pyplot.figure(figsize=(WIDTH, height))
    return figure, [figure.add_axes((
        LEFT / WIDTH, (below + (each + BETWEEN) * place) / height, (WIDTH - LEFT - RIGHT) / WIDTH, each / height))
        for place in reversed(range(panels))]


def set_labels_below(axes, places, labels):
    """Writes labels at places below an axis; one that would stick out ends at its place."""
    axes.set_xticks(places, labels)
    least, greatest = axes.get_xlim()
    for place, label, text in zip(places, labels, axes.get_xticklabels()):
        half = DIGIT * max(map(len, label.split("\n"))) / 2
        if (greatest - place) / (greatest - least) * (WIDTH - LEFT - RIGHT) + RIGHT < half:
            text.set_horizontalalignment("right")


def add_legend(all_axes, count):
    """A legend of so many entries above the first of several axes, where there are several or these are."""
    handles = {}
    for axes in all_axes:
        for handle, label in zip(*axes.get_legend_handles_labels()):
            handles.setdefault(label, handle)
    if count > 1 or (handles and len(all_axes) > 1):
        all_axes[0].legend(handles.values(), handles.keys(), loc="lower left", bbox_to_anchor=(0, 1),
                           ncol=LEGEND_COLUMNS, frameon=False, fontsize=FONT - 1, borderaxespad=0.2, columnspacing=1.2,
                           handlelength=2.4)
