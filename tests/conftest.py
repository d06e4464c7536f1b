"""Makes each row of tests/*.toml a test of pytest; `--program` names the program."""
import os
import shutil
import sys

import pytest

HERE = os.path.dirname(os.path.abspath(__file__))
TOP = os.path.dirname(HERE)
sys.path[:0] = [HERE, os.path.join(TOP, "checks")]
from rows import Row, read_table

BUILT = os.path.join(TOP, "crates", "haboob", "out", "haboob")


def pytest_addoption(parser):
    parser.addoption("--program", default=BUILT, help="the program haboob")


def pytest_configure(config):
    found = shutil.which(config.getoption("--program"))
    if not found:
        raise pytest.UsageError("there is no program %s" % config.getoption("--program"))
    config.option.program = os.path.abspath(found)


def pytest_collect_file(parent, file_path):
    if file_path.suffix == ".toml" and file_path.name != "texts.toml":
        return Table.from_parent(parent, path=file_path)
    return None


class Table(pytest.File):
    """A table of rows."""

    def collect(self):
        for row in read_table(self.path):
            for name, words in row.runs():
                yield Run.from_parent(self, name=name, row=row, words=words)


class Run(pytest.Item):
    """One run of the program, as a row says."""

    def __init__(self, *, row, words, **named):
        super().__init__(**named)
        self.row, self.words = row, words

    def runtest(self):
        wrong = self.row.try_on(self.config.getoption("--program"), self.words)
        if wrong:
            raise Row.Wrong("\n".join(wrong))

    def repr_failure(self, excinfo):
        return str(excinfo.value) if excinfo.errisinstance(Row.Wrong) else super().repr_failure(excinfo)

    def reportinfo(self):
        return self.path, None, self.name
