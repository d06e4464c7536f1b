"""Whether checks/run.py can fail: a check that fails, and names and programs that aren't there."""
import pathlib
import subprocess
import sys

import pytest

RUN = pathlib.Path(__file__).resolve().parent / "run.py"


def run(*words):
    """The status of a run, and the last line that it printed."""
    ran = subprocess.run([sys.executable, RUN, *words], capture_output=True, text=True, check=False)
    return ran.returncode, (ran.stdout or ran.stderr).splitlines()[-1]


def test_a_check_that_fails():
    assert run("/bin/false", "documents", "way") == (1, "2 checks, 1 failed: documents")


def test_checks_that_pass():
    assert run("way", "architecture") == (0, "2 checks, 0 failed")


@pytest.mark.parametrize("words, said", [
    ((), "nothing to run"), (("no_such_check",), "no check of this name"), (("way", "no_such_check"), "no check"),
    (("devices",), "devices wants a PROGRAM"),
])
def test_words_that_name_nothing(words, said):
    status, line = run(*words)
    assert status == 2 and said in line
