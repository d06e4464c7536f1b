"""Whether checks/columns.py can fail: a line is put into a source, or long lines are taken out of a crate that may have
them."""
import pathlib
import sys

import pytest

sys.path.insert(0, str(pathlib.Path(__file__).resolve().parent))
import columns

TEXTS = columns.sources()
SOURCE, BENCH = "runs/src/lib.rt", "traffic_bench/src/main.rt"
# What is put before a source's first line, and what is said of it: nothing of a line that is just as long as it may be.
ADDED = [
    ("//" + "a" * 118 + "\n", []),
    ("//" + "a" * 119 + "\n", [SOURCE + ":1: 121 columns"]),
    ("\n//" + "é" * 118 + "\n//" + "≡" * 120 + "\n", [SOURCE + ":3: 122 columns"]),
    ("    ghost says = { " + "λ x. " * 30 + "};\n", [SOURCE + ":1: 171 columns"]),
]


def test_as_it_stands():
    assert BENCH in TEXTS and not list(columns.amiss(TEXTS))


@pytest.mark.parametrize("added, said", ADDED)
def test_a_line_more(added, said):
    assert list(columns.amiss({**TEXTS, SOURCE: added + TEXTS[SOURCE]})) == said


def test_a_longer_line_where_it_may_be():
    assert not list(columns.amiss({**TEXTS, BENCH: "a" * 130 + "\n" + TEXTS[BENCH]}))


def test_an_exception_that_nothing_needs():
    short = {path: text for path, text in TEXTS.items() if not path.startswith("traffic_bench/")}
    assert list(columns.amiss(short)) == ["LONGER: traffic_bench has no longer line"]
