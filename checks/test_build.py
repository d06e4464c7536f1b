"""Whether ./build tells a proved program from another, and packaging/build.py says "proved" of no other: on a
repository of three small crates, with a program in the place of `rt` that proves what doesn't hold the word `wrong`."""
import importlib.util
import os
import pathlib
import shutil
import subprocess
import sys

import pytest

TOP = pathlib.Path(__file__).resolve().parent.parent
RT = """\
#!/usr/bin/python3
import pathlib, sys
if sys.argv[1] == "version":
    print("a stand-in")
    sys.exit()
here = pathlib.Path.cwd()
with open(pathlib.Path(__file__).with_name("runs"), "a") as file:
    file.write(here.name + "\\n")
text = (here / "src" / ("main.rt" if sys.argv[1] == "run" else "lib.rt")).read_text()
if "wrong" in text:
    sys.exit("can't be proved")
(here / "out" / "rlib").mkdir(parents=True, exist_ok=True)
(here / "out" / "rlib" / "text").write_text(text)
if sys.argv[1] == "run":
    (here / "out" / here.name).write_text(text)
    sys.exit(2)  # the status of the program, which wants words
"""
FILES = {
    "crates.txt": "low:\nhaboob: low\nother: low\n", "HANDLES": "Handles allowed: none.\n",
    "crates/low/src/lib.rt": "low", "crates/low/specs/Low.antt": "specs", "crates/low/proofs/Low.antt": "proofs",
    "crates/haboob/src/main.rt": "main", "crates/other/src/lib.rt": "other", ".gitignore": "out/\n",
}
PROVED = "by a stand-in, which builds a program only where each of its functions is proved"
GIVEN = "of which sources it was built isn't known, nor whether\nthese were proved"


class Copy:
    """The repository in a folder, and the program that is built in it."""

    def __init__(self, folder):
        self.top, self.tools = folder / "top", folder / "bin"
        self.tools.mkdir()
        self.put(self.tools / "rt", RT).chmod(0o755)
        for name, text in FILES.items():
            self.put(self.top / name, text)
        shutil.copy(TOP / "build", self.top)
        self.put(self.top / "packaging" / "build.py", (TOP / "packaging" / "build.py").read_text())
        for words in ("init --quiet", "add .", "-c user.name=a -c user.email=a@b commit --quiet --message=a"):
            subprocess.run(["git", *words.split()], cwd=self.top, check=True)
        self.program = self.top / "crates" / "haboob" / "out" / "haboob"
        assert self.build() == (0, "")

    @staticmethod
    def put(path, text):
        path.parent.mkdir(parents=True, exist_ok=True)
        path.write_text(text)
        return path

    def build(self):
        """Status and standard error of ./build."""
        env = {**os.environ, "PATH": "%s:%s" % (self.tools, os.environ["PATH"])}
        ran = subprocess.run([sys.executable, self.top / "build"], env=env, capture_output=True, text=True, check=False,
                             timeout=60)
        return ran.returncode, ran.stderr

    def runs(self):
        """The crates that were proved, in their order."""
        return (self.tools / "runs").read_text().split()

    def proof(self, program=None):
        """What a package would say of the program, which is newer than all sources."""
        os.utime(self.program, (2**31, 2**31))
        spec = importlib.util.spec_from_file_location("packaging_build", self.top / "packaging" / "build.py")
        module = importlib.util.module_from_spec(spec)
        spec.loader.exec_module(module)
        return module.proof(program or self.program)


@pytest.fixture
def copy(tmp_path):
    return Copy(tmp_path)


def test_a_proved_program(copy):
    assert PROVED in copy.proof()
    another = copy.top.parent / "another"
    shutil.copy(copy.program, another)
    assert PROVED in copy.proof(another)


def test_one_that_nothing_proved(copy):
    copy.program.write_text("another")
    assert GIVEN in copy.proof()


def test_one_without_a_record(copy):
    """As `rt ci` builds it."""
    copy.program.with_name("haboob.proved").unlink()
    assert GIVEN in copy.proof()


@pytest.mark.parametrize("text", ["", "\n", "program", "program a\nsources b\n", "\0\n"])
def test_a_record_that_is_none(copy, text):
    copy.program.with_name("haboob.proved").write_text(text)
    assert GIVEN in copy.proof()


@pytest.mark.parametrize("name", ["crates/low/src/lib.rt", "crates/low/specs/Low.antt", "crates/low/proofs/Low.antt",
                                  "crates/haboob/src/main.rt", "crates/low/src/new.rt", "HANDLES"])
def test_other_sources(copy, name):
    copy.put(copy.top / name, "changed")
    assert GIVEN in copy.proof()


def test_other_rows(copy):
    rows = copy.top / "crates.txt"
    rows.write_text(rows.read_text().replace("other: low\n", "other: low thiserror\n"))
    copy.put(copy.top / "crates" / "other" / "src" / "lib.rt", "changed")
    assert PROVED in copy.proof()  # nothing of it stands below the program
    rows.write_text(rows.read_text().replace("haboob: low\n", "haboob: low thiserror\n"))
    assert GIVEN in copy.proof()


@pytest.mark.parametrize("name", ["crates/low/src/lib.rt", "crates/haboob/src/main.rt"])
def test_a_proof_that_fails(copy, name):
    """The older program stays, and isn't described as one of the sources that are here."""
    copy.put(copy.top / name, "wrong")
    status, said = copy.build()
    assert status == 1 and "can't be proved" in said
    assert copy.program.read_text() == "main" and GIVEN in copy.proof()
    copy.put(copy.top / name, "right")
    assert copy.build() == (0, "") and PROVED in copy.proof()


def test_nothing_changed(copy):
    """A program that was proved isn't linked again, and another one in its place is."""
    assert copy.runs() == ["low", "haboob"] and copy.build() == (0, "")
    assert copy.runs()[2:] == ["low"]
    copy.program.write_text("another")
    assert copy.build() == (0, "") and copy.program.read_text() == "main" and PROVED in copy.proof()
