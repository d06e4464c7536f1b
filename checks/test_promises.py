"""Whether checks/promises.py can fail: names of clauses, tests, scripts and cases that aren't there are put into the
page."""
import pathlib
import sys

import pytest

sys.path.insert(0, str(pathlib.Path(__file__).resolve().parent))
import promises

PAGE = promises.read(promises.PAGE)
CASE = "`checks/program_settings.py` (`READ_BACK`)"
# A text of the page, what stands in its place, and what is said of that.
WRONG = [
    ("`next_record`: `again`", "`next_record`: `agains`", "no clause agains of `next_record`"),
    ("`ok` (`Explains`), `fault`, `reads`", "`ok` (`Explains`), `stops`, `reads`",
     "no clause stops of `explain_replay`"),
    ("device_texts::decimals", "device_texts::decimal", "no test device_texts::decimal"),
    ("slim_devices::", "slim_device::", "no test slim_device::"),
    ("poor_devices::answer_to_a_reader_that_tells_nothing (its", "poor_devices::answer_to_nobody (its",
     "no test poor_devices::answer_to_nobody"),
    (CASE, "`checks/program_settings.py` (`READ_BAK`)", "no case READ_BAK in checks/program_settings.py"),
    (CASE, "`checks/program_settings.py` (`READ_BACK`, `READ`)", "no case READ in checks/program_settings.py"),
    (CASE, "`checks/program_settings.py: READ`", "no case READ in checks/program_settings.py"),
    (CASE, "`checks/program_setting.py`", "no script checks/program_setting.py"),
    (CASE, "`READ_BACK`", "no test READ_BACK"),
    ("`pages` and `batch` in", "`page` and `batch` in", "no case page in checks/compare_replays.py"),
    ("`pages` and `batch` in", "`pages` and `batches` in", "no case batches in checks/compare_replays.py"),
    ("`few connections` and the heavy seeds in", "`some connections` and the heavy seeds in",
     "no case some connections in checks/compare_replays.py"),
    ("`few connections` and the heavy seeds in checks/compare_replays.py",
     "`few connections` and the heavy seeds in checks/compare_replay.py",
     "no script checks/compare_replay.py"),
    ("`program_edges.py`", "`program_edge.py`", "no script program_edge.py"),
    # By tests alone:
    ("`snapshot_growths::each_growth_refused`", "`snapshot_growths::growth_refused`",
     "no test snapshot_growths::growth_refused"),
    ("by `checks/refuse_growths.py`", "by `checks/refuse_growth.py`", "no script checks/refuse_growth.py"),
    ("(`stopped_floor`)", "(`stopped`)", "no test stopped"),
    ("By tests alone: that two workers", "By tests alone: `two_workers` that two workers", "no test two_workers"),
    ("(`checks/program_*.py`)", "(`checks/programs_*.py`)", "no script checks/programs_*.py"),
    ("(`checks/compare_sizes.py`)", "(`checks/compare_sizes.py`, its `FASTEST`)", "no test FASTEST"),
]


def test_as_it_stands():
    assert not list(promises.absent(PAGE))


@pytest.mark.parametrize("old, new, said", WRONG, ids=[row[2] for row in WRONG])
def test_wrong(old, new, said):
    assert PAGE.count(old) == 1
    found = list(promises.absent(PAGE.replace(old, new)))
    assert len(found) == 1 and found[0].endswith(": " + said)


def test_right():
    """A case in one piece."""
    assert not list(promises.absent(PAGE.replace(CASE, "`checks/program_settings.py: READ_BACK`")))
