#!/usr/bin/env python3
"""Runs `haboob settings`, and compares status, line and text with a table, and the text with that of reference.py; and
settings that were written out are read back the same. The table of docs/FORMATS.md has the keys of that text in their
order, each with its default and its range.
"""
import re
import sys
import tomllib

from lib.report import Report
from lib.run import run, run_over
from lib.sources import read
from lib.usage import program_of
import reference
from program_parts import OLD, check_runs

# Settings that are written out, by reference.py: the default ones, and those of a bucket of one token.
DEFAULTS = reference.settings_text(b"")[2]
TIGHT_SETTINGS = reference.settings_text(b"[policy]\ndepth = 1\nrate = 1000\nrate_min = 1000\nrate_max = 1000\n")[2]


def limits(table, end):
    """The integers of a table at one end of their ranges."""
    return "".join("%s = %d\n" % (key, bounds[end]) for key, _, _, *bounds in reference.SETTINGS[table] if bounds)


# Documents whose settings are read back: each key at its limits, and partial tables of tiers.
LEAST, MOST = 0, 1
READ_BACK = ["[%s]\n%s" % (table, limits(table, end)) for table in reference.SETTINGS for end in (LEAST, MOST)] + [
    "",
    "[policy]\n%s[tier2]\nwindow = 7\n" % limits("policy", LEAST),
    "[policy]\n%s[tier1]\ndepth = 2\n[tier3]\nrate_min = 1\nrate = 5\n" % limits("policy", MOST),
    "[floor]\nfront_cuts = [3]\nfront_workers = [1]\nfront_capacities = [1]\n"
    "back_cuts = [2]\nback_workers = [16]\nback_capacities = [4096]\n",
    "[floor]\nfront_cuts = [2, 3]\nfront_workers = [16, 1]\nfront_capacities = [4096, 1]\nbatch = 1\ncache = 0\n",
    '[costs]\ndelay = 7\n[[route]]\nprefix = "/api/"\ncost = 1\n'
    '[[route]]\nprefix = "/"\ncost = 1000000000\nkib = 1000000\ndelay = 1000000000\n',
    'route = [{prefix = "/a \\"b\\"\\\\\\u0001\\u007f/\u00e9", cost = 1}]\n',
    '[[route]]\nprefix = "/a"\ncost = 1\n' * 64,
    "".join("[[pool]]\nname = '%d'\nservers = %d\n" % (n, 64 * n) for n in range(1, 17))
    + "".join("[[route]]\nprefix = '/%d'\ncost = 1\npool = '%d'\n" % (n, n) for n in range(1, 17)),
]

# A row of the page's table: the key, its default, its range.
ROW = re.compile(r"^\| (\w+\.\w+)[^|]* \| ([^|]+) \| ([^|]+) \|", re.MULTILINE)
RANGE = re.compile(r"^([\d,]+) to ([\d,]+)$")

# What is said in words after a fault's line.
DEPTH_WORDS = "policy.depth is to be an integer: tokens, 1 to 1000000: how many the bucket holds; it starts full"
UNKNOWN_WORDS = "%s is no key of the settings; the nearest is %s"
DEEP_WORDS = UNKNOWN_WORDS % ("policy.deep", "policy.depth")
NO_TOML = "the settings are no TOML document"
TOO_LONG = "the settings have more than 65536 bytes"
RATE_WORDS = (
    "policy.rate is to be an integer: thousandths of a token a second, rate_min to rate_max: how fast tokens come "
    "back at first; 1000 is one request a second, and rate_min and rate_max count where they are left out too"
)
SECOND = "; 1000 is one request a second"
RATE_MAX_WORDS = (
    "tier1.rate_max is to be an integer: thousandths of a token a second, rate_min to 1000000000: the rate never rises "
    "above it" + SECOND
)
BACK_WORDS = (
    "floor.back_cuts is to be a list of integers: steps, rising from at least 1, the last 2: how many of the back's "
    "are done where each stage ends; floor.back_workers is to be a list of integers: workers, 1 to 16 for each stage: "
    "how many requests, or chunks of them, it works on at once; floor.back_capacities is to be a list of integers: "
    "requests, 1 to 4096 for each stage: how many its queue holds; and the three of one length"
)
POOL_WORDS = "pool is to be a list of tables: at most 16 of them, each below a line [[pool]]"
NAME_WORDS = (
    "pool.name is to be a text: what routes name it by, unlike any other; each pool is named by a route"
)
ROUTE_WORDS = "route is to be a list of tables: at most 64 of them, each below a line [[route]]"
PREFIX_WORDS = (
    "route.prefix is to be a text: a decoded path from its first slash on: what is at it and below it is on the route"
)
COST_WORDS = (
    "route.cost is to be an integer: microseconds, 1 to 1000000000: how long the server works on a request, whatever "
    "its answer"
)


def ends(fault, words):
    """The two lines of a fault: the line, and what is wrong in words."""
    return ("haboob: settings: %s\nhaboob: %s\n" % (fault, words)).encode()


# Documents with a fault, each with its two lines.
FAULTS = [
    ("[policy]\nrate = 1000\n", ends("Range policy.rate", RATE_WORDS)),
    ("[tier1]\nrate_max = 1000000001\n", ends("Range tier1.rate_max", RATE_MAX_WORDS)),
    ("[floor]\nback_workers = [2]\n", ends("Range floor.back", BACK_WORDS)),
    ("costs = 1\n", ends("Shape costs", "costs is to be a table")),
    ("[[pool]]\nname = 'a'\nservers = 1\n" * 17, ends("Range pool", POOL_WORDS)),
    ("[[pool]]\nname = 'a'\nservers = 1\n" * 2, ends("Range pool.name", NAME_WORDS)),
    ("[[pool]]\nname = 'a'\nservers = 1\n", ends("Range pool.name", NAME_WORDS)),
    ("route = 1\n", ends("Shape route", ROUTE_WORDS)),
    ('[[route]]\nprefix = "/a"\ncost = 1\n' * 65, ends("Range route", ROUTE_WORDS)),
    ('[[route]]\nprefix = "a"\ncost = 1\n', ends("Range route.prefix", PREFIX_WORDS)),
    ('[[route]]\nprefix = "/a"\nkib = 1\n', ends("Shape route.cost", COST_WORDS)),
    ("rate = 1\n", ends("Unknown", UNKNOWN_WORDS % ("rate", "policy.rate"))),
    ("[tier2]\nrat = 1\n", ends("Unknown", UNKNOWN_WORDS % ("tier2.rat", "tier2.rate"))),
    ("[Policy]\nrate = 1\n", ends("Unknown", UNKNOWN_WORDS % ("Policy", "policy"))),
    # a name that would act on a terminal
    ('[page]\n"retry\\u001b[2Jafter" = 1\n',
     ends("Unknown", UNKNOWN_WORDS % ("page.retry?[2Jafter", "page.retry_after"))),
    ("[policy\n", ends("Text", NO_TOML)),
]

ABSENT_WORDS = b"haboob: absent: No such file or directory (os error 2)\n"
FOLDER_WORDS = b"haboob: folder: Is a directory (os error 21)\n"
# The words after `settings`, and then as in program_replays.py.
RUNS = [
    ("the default ones", [], 0, b"", OLD, DEFAULTS),
    ("a document without keys", ["--settings", "empty"], 0, b"", OLD, DEFAULTS),
    ("a bucket of one token", ["--settings", "settings"], 0, b"", OLD, TIGHT_SETTINGS),
    ("a document of 65536 bytes", ["--settings", "longest"], 0, b"", OLD, TIGHT_SETTINGS),
    ("a document of 65537 bytes", ["--settings", "too_long"], 3, ends("Text", TOO_LONG), OLD, b""),
    ("depth 0", ["--settings", "depth"], 3, ends("Range policy.depth", DEPTH_WORDS), OLD, b""),
    ("an unknown key", ["--settings", "unknown"], 3, ends("Unknown", DEEP_WORDS), OLD, b""),
    ("a capture", ["--settings", "capture"], 3, ends("Text", NO_TOML), OLD, b""),
    ("a file that isn't there", ["--settings", "absent"], 6, b"haboob: open: settings\n" + ABSENT_WORDS, OLD, b""),
    ("a folder", ["--settings", "folder"], 6, b"haboob: read: settings\n" + FOLDER_WORDS, OLD, b""),
    ("a document without an end", ["--settings", "/dev/zero"], 3, ends("Text", TOO_LONG), OLD, b""),
    ("a word more", ["settings"], 2, None, OLD, b""),
    ("help", ["--help"], 2, None, OLD, b""),
]


def page_rows():
    """The keys of the page's table, each with its default as the document has it, and its range where that is given by
    two numbers."""
    section = read("docs/FORMATS.md").split("\n## Settings\n")[1].split("\n## ")[0]
    for key, default, values in ROW.findall(section):
        found = RANGE.match(values)
        yield key, default, found and tuple(int(number.replace(",", "")) for number in found.groups())


def is_page_right(rows):
    """Whether these are the keys of a document without tables of tiers, with their defaults and ranges."""
    wanted = [
        ("%s.%s" % (table, key), str(default), tuple(bounds))
        for table, keys in reference.SETTINGS.items()
        if not table.startswith("tier")
        for key, _, default, *bounds in keys
    ]
    return [row[:2] for row in rows] == [row[:2] for row in wanted] and all(
        row[2] in (None, bounds) for row, (_, _, bounds) in zip(rows, wanted)
    )


def run_settings(program, document):
    """Status, standard error and standard output of a run over a document."""
    return run_over(program, ["settings", "--settings", "document"], {"document": document})[:3]


def written_out(program, document):
    """The settings of a document, written out: None where that fails."""
    status, line, text = run_settings(program, document)
    return text if (status, line) == (0, b"") else None


def is_read_back(program, document):
    """Whether settings that are written out have the values of their document, those of `policy` or the default ones,
    and are written out the same once more."""
    text = written_out(program, document.encode())
    if text is None or written_out(program, text) != text:
        return False
    given, defaults, got = (tomllib.loads(data) for data in (document, DEFAULTS.decode(), text.decode()))
    for table, values in defaults.items():
        otherwise = got["policy"] if table.startswith("tier") else values
        if got[table] != {**otherwise, **given.get(table, {})}:
            return False
    routes = [{"kib": 0, "delay": got["costs"]["delay"], **route} for route in given.get("route", [])]
    pools = got.pop("pool", []) == given.get("pool", [])
    return pools and got.pop("route", []) == routes and list(got) == list(defaults)


def main():
    program, report = program_of(__doc__), Report()
    check_runs(report, program, [("settings", *row) for row in RUNS])
    with open("/dev/full", "wb") as full:
        got = run(program, ["settings"], stdout=full)[:2]
    report.see_run("settings: a full device", got == (6, b"haboob: write: report\n"), got)
    for document, lines in FAULTS:
        got = run_settings(program, document.encode())
        report.see_run("settings: %r" % document, got == (3, lines, b""), got)
    rows = list(page_rows())
    report.see("settings: the table of docs/FORMATS.md", is_page_right(rows), rows)
    for number, document in enumerate(READ_BACK):
        report.see("settings: read back, %d" % number, is_read_back(program, document), document)
    return report.end()


if __name__ == "__main__":
    sys.exit(main())
