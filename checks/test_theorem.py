"""Whether checks/theorem.py can fail: sources and pages are copied into a folder, something is planted there, and its
output is looked at. What the headline doesn't cite may change."""
import pathlib
import re
import shutil
import subprocess
import sys

import pytest

TOP = pathlib.Path(__file__).resolve().parent.parent
CLAIM, THEOREM = "docs/CLAIM.md", "docs/THEOREM.md"
REFERENCE, CHOICES, DEVICES, STAGED = (
    "crates/reference/specs/Reference.antt", "crates/reference/specs/Choices.antt",
    "crates/devices/specs/Devices.antt", "crates/replay/src/staged.rt")
SETTINGS, INPUT, MESSAGES = (
    "crates/reference/src/settings.rt", "crates/devices/src/device.rt", "crates/http_requests/src/messages.rt")
PROOFS = "crates/replay/proofs/Lib.antt"
ANSWERED = "    ensures ok { IfOk result\n        (Answers F.files settings.now.served"
SNAPSHOT, COSTS = "crates/paths/src/snapshot.rt", "crates/cost_model/specs/Reference.antt"
# What is said, with N for each number.
STALE = "docs/CLAIM.md: line N is not what the sources say; write it by checks/theorem.py --page"
ROW = "crates/%s: N lines, and docs/THEOREM.md says N"
TOTAL = "docs/THEOREM.md doesn't say: N lines for `ok` and its premises, N for all clauses of the call"
VIEW = "        speed = s.speed;\n      };\n    } };\n\n    ghost invariant"
BYTES = "bytes = ahead_unless i.source.over (prepend_known i.window i.source.bytes);"
TICK = """\
-- the tick that a message from there counts with: traffic that comes faster has its ticks divided so, rounded down
abbrev pub tick_in : Terms → Origin → ℕ
tick_in terms origin = origin.tick * 100 / terms.speed

"""
LAST = """\
abbrev pub handled : List File → Terms → List Arrival → List Handled
handled files terms arrivals = handled_after files terms [] arrivals
"""
UNLESS = "-- what is ahead of an input: none once it is over\nabbrev pub ahead_unless : Bool"
RATE = "    pub rate: u64,\n}\n\n/// What became of an offered"
MODEL, STRUCT = "impl Model for Settings {", "/// What an operator may set. Contracts"
# What is planted: its name; the file, a text that stands there once, and what stands in its place, for each change; and
# what is said of it.
WRONG = [
    ("a view that gives another speed", [(SETTINGS, VIEW, VIEW.replace("s.speed", "100"))], [STALE]),
    ("a view that knows no bytes", [(INPUT, BYTES, "bytes = None;")],
     ["crates/devices/specs/Devices.antt: not reached: ahead_unless", ROW % "devices", TOTAL, STALE]),
    ("a view of a view's field", [("crates/devices/src/window.rt", "take (w.end - w.start) (drop", "take 0 (drop")],
     [STALE]),
    ("a value of another type", [(SNAPSHOT, "ghost Value = { List File };", "ghost Value = { ℕ };")], [STALE]),
    ("a view that comes by a field of a field", [("crates/page_cache/src/page.rt", "{ λ p. p.file }", "{ λ p. 0 }")],
     [STALE]),
    ("a trait's member", [(SNAPSHOT, "ghost files: { List File };", "ghost files: { List ℕ };")], [STALE]),
    ("another type of a field", [("crates/admission/src/control.rt", RATE, RATE.replace("u64", "u32"))], [STALE]),
    ("a premise", [(STAGED, "    requires snapshot",
                    "    requires { settings.now.served.speed ≡ 100 }\n    requires snapshot")],
     [ROW % "replay", TOTAL, STALE]),
    ("a comment", [(REFERENCE, "-- what requests come to\n", "-- what requests cost\n")], [STALE]),
    ("a comment of a part", [(REFERENCE, "-- What an operator sets: how","-- What is set: how")], [STALE]),
    ("a text in quotes with a comment's sign", [(REFERENCE, 'codes "stop " ++', 'codes "--" ++ rows_text ++'),
                                                (REFERENCE, "{reply_text, ", "{reply_text, rows_text, ")],
     ["crates/responses/specs/Reference.antt: no definition rows_text", STALE]),
    # Definitions that stand elsewhere, and names that begin as others.
    ("a definition in another file", [
        (REFERENCE, TICK, ""), (CHOICES, "-- how many steps a", TICK + "-- how many steps a"),
        (REFERENCE, "{Layout}\n", "{Layout}\nuse Rattle.reference.specs.Choices.{tick_in}\n"),
        (CHOICES, "Reference.{Choice, Terms}", "Reference.{Choice, Terms}\nuse Rattle.arrivals.specs.declared.incoming.Origin.{Origin}")],
     ["crates/reference/specs/Choices.antt: reached outside a Reference.antt: tick_in", STALE]),
    ("a definition in another file of its kind", [
        (REFERENCE, TICK, ""), (COSTS, "-- How long a virtual", TICK + "-- How long a virtual"),
        (REFERENCE, "{Tariff, Charge, charge}", "{Tariff, Charge, charge, tick_in}")],
     [ROW % "reference", ROW % "cost_model", STALE]),
    ("a definition among proofs", [
        (REFERENCE, TICK, ""), (PROOFS, "pub mod CountMore\n", TICK + "pub mod CountMore\n"),
        (REFERENCE, "{Layout}\n", "{Layout}\nuse Rattle.replay.proofs.Lib.{tick_in}\n")],
     [PROOFS + ": reached outside a Reference.antt: tick_in", ROW % "replay", ROW % "reference", STALE]),
    ("a definition that is gone", [(REFERENCE, TICK, "")], [ROW % "reference", TOTAL, STALE]),
    ("an import of what isn't there", [(STAGED, "Reference.{Answers}", "Reference.{Answered as Answers}")],
     ["crates/reference/specs/Reference.antt: no definition Answered", ...]),
    ("a longer name that nothing cites", [(REFERENCE, LAST, LAST + "\n" + LAST.replace("handled ", "handled_all "))],
     ["crates/reference/specs/Reference.antt: not reached: handled_all"]),
    ("a shorter name that nothing cites", [(REFERENCE, LAST, LAST + "\n" + LAST.replace("handled ", "handle "))],
     ["crates/reference/specs/Reference.antt: not reached: handle"]),
    ("a longer name in its place", [(DEVICES, UNLESS, UNLESS.replace("unless ", "unless_over ") + "\n\n" + UNLESS),
                                    (INPUT, BYTES, BYTES.replace("unless", "unless_over")),
                                    (INPUT, "{Device, ahead_unless}", "{Device, ahead_unless_over}")],
     ["crates/devices/specs/Devices.antt: reached outside a Reference.antt: ahead_unless_over",
      "crates/devices/specs/Devices.antt: not reached: ahead_unless", ROW % "devices", TOTAL, STALE]),
    ("another name for a definition", [
        (REFERENCE, "Decided, served, samples}", "Decided, samples as served, served as samples}")], [STALE]),
    ("another name for a word from outside", [(REFERENCE, "bytes_eq, nat_le,", "bytes_eq, nat_lt as nat_le,")],
     [STALE]),
    # What can't be followed.
    ("a type of no file", [("crates/reference/src/summary.rt", "pub version: Version,", "pub version: Versions,")],
     ["crates/reference/src/summary.rt: no type Versions", STALE]),
    ("a model without a view", [(SETTINGS, "    ghost view = {", "    ghost sight = {")],
     ["crates/reference/src/settings.rt: no view of Settings", ...]),
    ("no clause", [(STAGED, ANSWERED, ANSWERED.replace("ok", "fine"))],
     ["crates/replay/src/staged.rt: no clause ok of pub fn staged_replay<"]),
    # The pages.
    ("another text of the page", [(CLAIM, "handled files terms arrivals =", "handled terms files arrivals =")], [STALE]),
    ("another count of a row", [(THEOREM, "| `crates/arrivals` | ", "| `crates/arrivals` | 1")], [ROW % "arrivals"]),
    ("no row", [(THEOREM, "| `crates/arrivals` | ", "| arrivals | ")], ["crates/arrivals: not in docs/THEOREM.md"]),
    ("a row of another crate", [(THEOREM, "| `crates/arrivals` |", "| `crates/slim` | 1 | | |\n| `crates/arrivals` |")],
     ["crates/slim: in docs/THEOREM.md, and not reached"]),
    ("another total", [(THEOREM, " for all clauses of the call", " for all its clauses")], [TOTAL]),
]
# What the clause doesn't cite.
RIGHT = [
    ("a longer name of what is listed", [(DEVICES, UNLESS, "abbrev pub ahead_unless_over : ℕ\n\n" + UNLESS)]),
    ("a shorter one", [(DEVICES, UNLESS, "abbrev pub ahead : ℕ\nahead = 1\n\n" + UNLESS)]),
    ("a longer name of a type", [
        (SETTINGS, MODEL, "impl Model for SettingsRow {\n    ghost view = { λ s. 1 };\n}\n\n" + MODEL),
        (SETTINGS, STRUCT, "pub struct SettingsRow {\n    one: u8,\n}\n\n" + STRUCT)]),
    ("an invariant", [("crates/devices/src/window.rt", "(w.end ≤ 64)", "(w.end ≤ 63)")]),
    ("a field that no view reads", [(SNAPSHOT, "use crate::name_index::NameIndex;\n", "")]),
    ("a derive", [(MESSAGES, "#[derive(Debug, PartialEq, Eq, Drop)]\npub enum Meaning", "pub enum Meaning")]),
    ("an import on several lines", [(REFERENCE, "Layouts.{Layout}", "Layouts.{\n  Layout,\n}")]),
    ("another clause", [(STAGED, "reply_texts F.files settings.now.served", "reply_texts  F.files settings.now.served")]),
    ("a body", [(STAGED, "let connections = Connections::new(alloc);", "let connections = None;")]),
]


@pytest.fixture(scope="module")
def copy(tmp_path_factory):
    """The sources and the pages in a folder."""
    folder = tmp_path_factory.mktemp("theorem")
    for kind in ("specs", "src"):
        for path in TOP.glob("crates/*/" + kind):
            shutil.copytree(path, folder / path.relative_to(TOP))
    for name in ("crates.txt", CLAIM, THEOREM, PROOFS, "checks/theorem.py"):
        (folder / name).parent.mkdir(parents=True, exist_ok=True)
        shutil.copy(TOP / name, folder / name)
    return folder


def said(folder, changes, *words):
    """What the script says, line by line, of a copy with these changes."""
    texts = {folder / name: (folder / name).read_text() for name, _, _ in changes}
    try:
        for name, old, new in changes:
            text = (folder / name).read_text()
            assert text.count(old) == 1, (name, old)
            (folder / name).write_text(text.replace(old, new))
        ran = subprocess.run([sys.executable, folder / "checks" / "theorem.py", *words], capture_output=True, text=True,
                             check=False, timeout=60)
    finally:
        for path, text in texts.items():
            path.write_text(text)
    lines = (ran.stdout + ran.stderr).splitlines()
    assert ran.returncode == (not lines[-1].endswith(" 0 wrong"))
    return lines


def test_as_it_stands(copy):
    assert len(said(copy, [])) == 1


@pytest.mark.parametrize("changes, expected", [row[1:] for row in WRONG], ids=[row[0] for row in WRONG])
def test_wrong(copy, changes, expected):
    lines = [re.sub(r"\d[\d,]*", "N", line) for line in said(copy, changes)]
    assert lines[-1] == "N files, N wrong"
    assert (lines[:len(expected) - 1] + [...] if expected[-1] is ... else lines[:-1]) == expected


@pytest.mark.parametrize("changes", [row[1] for row in RIGHT], ids=[row[0] for row in RIGHT])
def test_right(copy, changes):
    assert len(said(copy, changes)) == 1


def test_page(copy):
    """--page writes the page, and nothing else is wrong then."""
    text = (copy / CLAIM).read_text()
    try:
        assert len(said(copy, [(CLAIM, "# The claim, whole", "# Gone")], "--page")) == 1
    finally:
        (copy / CLAIM).write_text(text)
