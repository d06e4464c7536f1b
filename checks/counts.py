#!/usr/bin/env python3
"""Counts what a reader and an editor of this repository have to take in.

    checks/counts.py [KIND]

Without KIND: the lines of sources, definitions, proofs and scripts; the words of each page; how many functions have
more than six clauses or seven arguments; the longest chain of crates; the stops on the way of a request
(checks/way.py); and how many files name what is there of each kind of CHANGES. With a KIND of them, lists these files,
each with how often it names it: who adds one more has to look at them. With `functions`, lists those functions. Exits
with 1 where a kind is named nowhere.
"""
import os
import re
import sys

from lib import cited
from lib.sources import TOP, read
from lib.usage import end_unread, parser_of
import way

# One of each kind that is there and that little else names: what it is, and how it is named.
CHANGES = {
    "media-type": ("SVG", r"\bSvg\b|\.svg\b|image/svg"),
    "reply-field": ("Allow", r"\bAllow\b|allow_field"),
    "status": ("501", r"\bNotImplemented\b|\b501\b"),
    "settings-key": ("retry_after", r"\bretry_after\b|\bRetryAfter\b"),
    "policy-key": ("rate_max", r"\brate_max\b|\bRateMax\b"),
    "step": ("the steps of a floor", r"\b(?:FRONT|BACK)_STEPS\b|\b(?:front|back)_steps\b|\bfloor_step\b|\bback_step\b"),
    "version": ("the traffic format", r"\bTraffic\b|haboob-traffic"),
    "report-line": ("p90", r"\bp90\b|\bP90\b"),
    "tier": ("the fourth of four tiers",
             r"\btier3\b|\bTier3\b|\[policy; 4\]|\[Policy; 4\]|\[Tally; 4\]|\bTIERS\b|tier < 4|\[0-3\]"),
    "input-fault": ("Conflict of a snapshot", r"\bConflict\b"),
}
PLACES = ("crates", "tests", "checks", "tools", "docs")
KINDS_OF_FILES = (".rt", ".antt", ".toml", ".py", ".md")
# Pages that a script writes, and tables whose texts follow the sources.
PASSED_OVER = re.compile(r"/out/|^docs/CLAIM\.md$|^checks/mutants/|^checks/counts\.py$|/must-fail/")
MOST_CLAUSES, MOST_ARGUMENTS = 6, 7
FUNCTION = re.compile(r"^( *)(?:pub(?:\([^)]*\))? )?fn (\w+)", re.MULTILINE)
ARGUMENT = re.compile(r"(?:^|[(,])\s*(?:mut )?\w+\s*:(?!:)")
CLAUSE = re.compile(r"^\s*(?:requires|ensures)\b", re.MULTILINE)


def files():
    """The files of PLACES and the pages at the top, by their paths."""
    for place in PLACES:
        for folder, _, names in os.walk(os.path.join(TOP, place)):
            for name in names:
                path = os.path.relpath(os.path.join(folder, name), TOP)
                if name.endswith(KINDS_OF_FILES) and not PASSED_OVER.search(path):
                    yield path
    yield from (name for name in os.listdir(TOP) if name.endswith(".md"))


def named(pattern, texts):
    """How often each text names something."""
    found = {path: len(re.findall(pattern, text)) for path, text in texts.items()}
    return {path: count for path, count in sorted(found.items()) if count}


def between(text, start, pair):
    """Where the bracket that opens there is closed."""
    depth = 0
    for place in range(start, len(text)):
        depth += (text[place] == pair[0]) - (text[place] == pair[1] and text[place - 1] not in "-=")
        if not depth:
            return place
    return len(text)


def functions(text):
    """The functions of a source: name, arguments beside `self`, clauses."""
    for found in FUNCTION.finditer(text):
        place = found.end()
        if text[place] == "<":
            place = between(text, place, "<>") + 1
        closed = between(text, place, "()")
        body = re.compile(r"^%s\{|;$" % found[1], re.MULTILINE).search(text, closed)
        contract = text[closed:body.start() if body else len(text)].split("\n{", 1)[0]
        yield found[2], len(ARGUMENT.findall(text[place:closed])), len(CLAUSE.findall(contract))


def words(text):
    """How many words a page has: what stands between spaces with a letter or a digit, so no bar of a table."""
    return sum(any(map(str.isalnum, word)) for word in text.split())


def large(texts):
    """The functions with more clauses or arguments than there should be."""
    for path, text in texts.items():
        for name, arguments, clauses in functions(text) if path.endswith(".rt") else ():
            if clauses > MOST_CLAUSES or arguments > MOST_ARGUMENTS:
                yield "%s: %s has %d arguments and %d clauses" % (path, name, arguments, clauses)


def chain():
    """The longest chain of crates of which each stands on the one before, without those that hold tests."""
    _, own = cited.crates()
    longest = {}

    def of(name):
        if name not in longest:
            longest[name] = max((of(low) for low in own[name]), key=len, default=[]) + [name]
        return longest[name]

    return max((of(name) for name in own if not name.endswith("_tests")), key=len)


def main():
    end_unread()
    parser = parser_of(__doc__, runs_program=False)
    parser.add_argument("kind", nargs="?", choices=[*CHANGES, "functions"], metavar="KIND", help=", ".join(CHANGES))
    kind = parser.parse_args().kind
    texts = {path: read(path) for path in sorted(set(files()))}
    if kind == "functions":
        print("\n".join(large(texts)))
        return 0
    if kind:
        found = named(CHANGES[kind][1], texts)
        print("\n".join("%4d %s" % (count, path) for path, count in found.items()))
        return int(not found)
    for what, pattern in (("sources", r"\.rt$"), ("definitions", r"/specs/.*\.antt$"),
                          ("proofs", r"/proofs/.*\.antt$"), ("scripts", r"\.py$")):
        print("%6d lines of %s" % (sum(text.count("\n") for path, text in texts.items()
                                       if re.search(pattern, path)), what))
    pages = {path: words(text) for path, text in texts.items() if path.endswith(".md")}
    print("%6d words of pages: %s" % (sum(pages.values()), ", ".join(
        "%s %d" % it for it in sorted(pages.items(), key=lambda it: -it[1]) if it[1] > 300)))
    print("%6d functions with more than %d clauses or %d arguments" % (
        len(list(large(texts))), MOST_CLAUSES, MOST_ARGUMENTS))
    print("%6d crates in the longest chain: %s" % (len(chain()), " ".join(chain())))
    print("%6s %s" % ("", way.figures(way.stops(read("docs/ARCHITECTURE.md")))))
    wrong = 0
    for kind, (what, pattern) in CHANGES.items():
        found = named(pattern, texts)
        wrong += not found
        print("%6d files name %s (%s)" % (len(found), what, kind))
    return int(bool(wrong))


if __name__ == "__main__":
    sys.exit(main())
