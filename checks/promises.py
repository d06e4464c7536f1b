#!/usr/bin/env python3
"""Ties the promises of docs/PROMISES.md to the wrong bodies that must be refused.

    checks/promises.py            checks that each wrong body names a promise, that those of must-fail/ fit their
                                  sources, that each clause that a row names is one of its functions', and that each
                                  test, script and case of a script is there that a row or a line "By tests alone" names
    checks/promises.py --print    prints each promise with its wrong bodies

A mutant of checks/mutants/ names its promises by `promise`, an edit of must-fail/ by a line `promise: KEY`, or
`promise: CRATE/KEY` where that is another crate's. A script stands in backticks, and so do its cases: as
"`a.py` (`CASE`)", "`one` and `two` in checks/a.py" or "`a.py: case`"; a case is a name of the script, or the text with
which a row of it begins. Exits with 1 where something is amiss, with a line for each. checks/test_promises.py tries
that it can fail.
"""
import glob
import os
import re
import sys
import tomllib

from lib.report import end
from lib.sources import TOP, read
from lib.usage import end_unread, parser_of
from mutants import load, tables

PAGE = os.path.join(TOP, "docs", "PROMISES.md")
ROW = re.compile(r"^\| `(?P<key>\w+)` \| (?P<promise>.*) \| (?P<clause>.*) \| (?P<tests>.*) \|$")
PROMISE = re.compile(r"^promise: (\S.*)$", re.MULTILINE)
TEST = re.compile(r"^(?:\w+: )?((?:\w+::)*\w+)(?:::)?$")
REMARK = re.compile(r" \([^()`]*\)")
SPAN = re.compile(r"`([^`]+)`")
SCRIPT = re.compile(r"(?:checks/)?([\w*]+\.py)")
SPANS = r"(?P<cases>(?:`[^`]+`(?:, | and )?)+)"
# Cases of a script: behind it, before it, and with it.
CASES = [re.compile(r"`(?P<script>[\w/]+\.py)` \(%s\)" % SPANS),
         re.compile(SPANS + r"[\w ]* in `?(?P<script>checks/\w+\.py)`?"),
         re.compile(r"`(?P<script>[\w/]+\.py): (?P<cases>[^`]+)`")]
ALONE = "By tests alone"
CONTRACT = re.compile(r"^\s*(?:pub(?:\(\w+\))? )?(?:const |unsafe )*fn (\w+)|^\s*(?:ensures|requires)\*? (\w+) ",
                      re.MULTILINE)
BRACKETS = re.compile(r" \([^()]*\)")
FUNCTION = re.compile(r"^\s*(?:pub )?fn (\w+)|^\s*(?:pub )?mod (\w+);", re.MULTILINE)


def promises(page):
    """The rows of the page, by crate and key."""
    rows, crate = {}, None
    for line in page.split("\n"):
        crate = line[3:] if re.fullmatch(r"## \w+", line) else crate
        row = ROW.match(line)
        if row:
            rows[crate, row["key"]] = row
    return rows


def edits():
    """The edits of must-fail/, each with its crate."""
    for path in sorted(glob.glob(os.path.join(TOP, "crates", "*", "must-fail", "*.edit"))):
        yield path, path.split(os.sep)[-3]


def wrong_bodies():
    """Each wrong body: its crate, its name and the promises that it names."""
    for path, crate in edits():
        yield crate, os.path.basename(path)[: -len(".edit")], PROMISE.findall(read(path))
    for crate in tables():
        for mutant in load(crate)["mutant"]:
            yield crate, mutant["name"], [word for word in mutant["promise"].split(", ") if word]


def named():
    """The names of the functions and modules of all tests and of the rows of tests/, of a function or a row also that
    with its module or table."""
    names = set()
    for path in glob.glob(os.path.join(TOP, "crates", "*", "src", "**", "*.rt"), recursive=True):
        if "tests" in path:
            module = os.path.basename(path)[: -len(".rt")]
            found = [name for pair in FUNCTION.findall(read(path)) for name in pair if name]
            names.update(found, ("%s::%s" % (module, name) for name in found))
    for path in glob.glob(os.path.join(TOP, "tests", "*.toml")):
        table, rows = os.path.basename(path)[: -len(".toml")], tomllib.loads(read(path)).get("row", [])
        names.update([table], *(["%s::%s" % (table, row["name"]), row["name"]] for row in rows))
    return names


def clauses():
    """The names of the clauses of each function of the crates, whatever its type."""
    found, name = {}, None
    for path in glob.glob(os.path.join(TOP, "crates", "*", "src", "**", "*.rt"), recursive=True):
        for function, clause in CONTRACT.findall(read(path)):
            name = function or name
            found.setdefault(name, set()).update([clause] if clause else [])
    return found


def absent_clauses(text, known):
    """The clauses that a text names, as "`one`, `two`: `clause`", and that none of these functions has."""
    for part in BRACKETS.sub("", text).split(";"):
        named, _, names = part.partition(": ")
        functions = [name.split("::")[-1] for name in SPAN.findall(named)]
        if functions and names.startswith("`"):
            here = set().union(*(known.get(name, ()) for name in functions))
            yield from ("no clause %s of %s" % (name, named.strip()) for name in re.findall(r"`(\w+)`", names)
                        if name not in here)


def fits(path, crate):
    """Whether each `old:` text of an edit stands just once in its file, as the pairs before it left that."""
    texts, place, old = {}, "", ""
    for line in read(path).split("\n"):
        word, _, rest = line.partition(": ")
        if word == "file":
            place = os.path.join(TOP, "crates", crate, rest.strip())
            texts.setdefault(place, read(place) if os.path.exists(place) else "")
        elif word == "old":
            old = rest
            if texts.get(place, "").count(old) != 1:
                return False
        elif word == "new":
            texts[place] = texts[place].replace(old, rest, 1)
    return True


def scripts_of(name):
    """The scripts of a name, which may have a star."""
    return glob.glob(os.path.join(TOP, "checks", SCRIPT.fullmatch(name)[1])) if SCRIPT.fullmatch(name) else []


def has_case(name, case):
    """Whether a script has a case: a name that it defines, or a row that begins with this text."""
    text, form = "\n".join(map(read, scripts_of(name))), r"(?m)^(?:def |class )?%s\b|(?:\byield |\()([\"'])%s\1"
    return bool(re.search(form % (re.escape(case), re.escape(case)), text))


def absent_scripts(text, tests, is_named):
    """What a text names in backticks and isn't there: scripts, cases of scripts, and tests, where `is_named` says so of
    a name that stands at a place."""
    for form in CASES:
        for found in form.finditer(text):
            cases = SPAN.findall(found["cases"]) or [found["cases"]]
            yield from ("no case %s in %s" % (case, found["script"]) for case in cases
                        if scripts_of(found["script"]) and not has_case(found["script"], case))
        text = form.sub(r"`\g<script>`", text)
    for found in SPAN.finditer(text):
        name = found[1]
        if SCRIPT.fullmatch(name):
            yield from [] if scripts_of(name) else ["no script %s" % name]
        elif name not in tests and is_named(text, found):
            yield "no test %s" % name


def is_test_of_line(text, found):
    """Whether a name in a line "By tests alone" is one of a test: others have neither brackets around them nor a form
    of their own."""
    before = text[:found.start()]
    return before.count("(") > before.count(")") or bool(re.search("_|::", found[1]))


def absent(page):
    """The clauses, tests, scripts and cases of scripts that the page names and that aren't there."""
    tests, known = named(), clauses()
    for place, row in promises(page).items():
        yield from ("%s/%s: %s" % (*place, what) for what in absent_clauses(row["clause"], known))
        cited = REMARK.sub("", row["tests"])
        for test in filter(None, map(str.strip, re.split("[,;]", cited))):
            found = TEST.match(test)
            if found and found[1] not in tests:
                yield "%s/%s: no test %s" % (*place, test)
        yield from ("%s/%s: %s" % (*place, what) for what in absent_scripts(cited, tests, lambda *_: True))
    for number, line in enumerate(page.split("\n"), 1):
        if line.startswith(ALONE):
            yield from ("line %d: %s" % (number, what) for what in absent_scripts(line, tests, is_test_of_line))


def amiss(page, rows, refused, unnamed):
    yield from ("%s: doesn't fit" % os.path.relpath(path, TOP) for path, crate in edits() if not fits(path, crate))
    yield from ("%s: names no promise" % name for name in unnamed)
    for place, names in refused.items():
        if place not in rows:
            yield from ("%s: no promise %s/%s" % (name, *place) for name in names)
    yield from absent(page)


def main():
    end_unread()
    parser = parser_of(__doc__, runs_program=False)
    parser.add_argument("--print", action="store_true", dest="shown", help="print each promise with its wrong bodies")
    options = parser.parse_args()
    page = read(PAGE)
    rows, refused, unnamed = promises(page), {}, []
    for crate, name, found in wrong_bodies():
        unnamed += [] if found else ["%s/%s" % (crate, name)]
        for word in found:
            place = tuple(word.split("/")) if "/" in word else (crate, word)
            refused.setdefault(place, []).append(name)
    if options.shown:
        for place, row in rows.items():
            print("%s/%s: %s\n    %s" % (*place, row["promise"], ", ".join(refused.get(place, [])) or "(none)"))
        return 0
    wrong = list(amiss(page, rows, refused, unnamed))
    bare = sum(1 for place in rows if place not in refused)
    return end(wrong, "%d promises (%d with no wrong body)" % (len(rows), bare))


if __name__ == "__main__":
    sys.exit(main())
