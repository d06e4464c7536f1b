#!/usr/bin/env python3
"""Holds the pages to the sources: no page is empty, and each name in backticks that looks like one of ours is there.

    checks/pages.py

Looked at are names with `::`, with an underscore or with a capital inside (`serve_next`, `Cutter::feed`, `CutRecord`),
and files (with a slash, or an ending of a source; NAME and CRATE stand for any). Those of other projects stand in
OTHERS. Exits with 1 where a page is empty, names what no source has, or OTHERS has what no page names.
"""
import os
import re
import subprocess
import sys

from lib.report import end
from lib.sources import TOP, read
from lib.usage import parser_of

SPAN = re.compile(r"`([^`\n]+)`")
NAME = re.compile(r"(?:\w+(?:::|\.))*\w+(?:\(\))?")
FILE = re.compile(r"[\w.*/-]+\.(?:rt|antt|py|md|toml|txt|edit|sh|c)|"
                  r"(?:crates|checks|docs|tests|tools|bench|benches|examples|packaging)/[\w./*-]*")
INSIDE = re.compile(r"_|[a-z0-9][A-Z]")
# Names of the standard library, of crates of the toolchain, of other programs, and words that stand for many.
OTHERS = set("""
    BufWriter DELAYED_DRY_RUN O_NOFOLLOW OpenOptionsExt REJECTED_DRY_RUN
    costs.toml custom_flags response_headers_to_add server_name
""".split())
# What was there once and is named as gone stands in these pages.
PAST = {"CHANGELOG.md"}


def listed(*patterns):
    """The files of the repository, those that git doesn't know yet too."""
    said = subprocess.run(["git", "ls-files", "--cached", "--others", "--exclude-standard", *patterns], cwd=TOP,
                          capture_output=True, text=True, check=True)
    return [name for name in said.stdout.splitlines() if os.path.exists(os.path.join(TOP, name))]


def is_file(name, files, folder):
    """Whether a file or a folder of that name is there, seen from the page, from the top or from a crate's folder."""
    name = re.sub(r"\b(?:NAME|CRATE)\b", "*", name)
    form = re.compile(r"(?:.*/)?" + re.escape(name.strip("/")).replace(r"\*", "[^/]*") + r"(?:/.*)?$")
    return any(form.fullmatch(file) for file in files) or os.path.exists(os.path.join(TOP, folder, name))


def main():
    parser_of(__doc__, runs_program=False).parse_args()
    files = listed()
    pages = [name for name in files if name.endswith(".md")]
    words = set()
    for name in files:
        if not name.endswith((".md", ".capture", ".snapshot", "pages.py")):
            words.update(re.findall(r"\w+", read(name, errors="replace")))
    wrong, used = [], set()
    for page in pages:
        # (the keys of docs/PROMISES.md are names of its own)
        text = re.sub(r"(?m)^\| `\w+` \|", "|", read(page))
        if not text.strip():
            wrong.append("%s: an empty page" % page)
        for span in SPAN.findall(re.sub(r"(?m)^(?:    .*|```[\s\S]*?^```)$", "", text)) if page not in PAST else []:
            if FILE.fullmatch(span):
                known = is_file(span, files, os.path.dirname(page))
            elif NAME.fullmatch(span) and (INSIDE.search(span) or "::" in span):
                known = all(word in words for word in re.findall(r"\w+", span))
            else:
                continue
            if not known and span in OTHERS:
                used.add(span)
            elif not known:
                wrong.append("%s: no source has `%s`" % (page, span))
    wrong += ["OTHERS: no page needs %s" % name for name in sorted(OTHERS - used)]
    return end(sorted(set(wrong)), "%d pages" % len(pages))


if __name__ == "__main__":
    sys.exit(main())
