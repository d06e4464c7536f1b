#!/usr/bin/python3
"""Makes the Debian package of the program, its tools, their man pages and the documents.

usage: packaging/build.py [--program PROGRAM] FOLDER

FOLDER gets haboob_VERSION_ARCHITECTURE.deb. Two builds of one commit are the same bytes: each time in the package is
that of the commit (or SOURCE_DATE_EPOCH where that is set). The package says that the program was proved where ./build
linked it behind the proof of the sources that are here. It needs git, dpkg-dev, help2man and what the tools import.
Status 1 where something isn't there, with a line that says what.
"""
import argparse
import gzip
import importlib.machinery
import importlib.util
import os
import pathlib
import re
import subprocess
import sys
import tempfile
import textwrap
import time

# The folder stays as it is.
sys.dont_write_bytecode = True

TOP = pathlib.Path(__file__).resolve().parent.parent
TOOL = "build"
# The place of the version, which the program tells too.
PROGRAM = TOP / "crates" / "haboob" / "out" / "haboob"
SOURCES = ("src", "specs", "proofs")
VERSION_FILE = TOP / "crates" / "command_line" / "src" / "commands.rt"
MAINTAINER = "Fulkhem maintainers <maintainers@users.noreply.fulkhem.example>"
DOC = pathlib.PurePosixPath("usr/share/doc/haboob")
DOCUMENTS = ("WALK.md", "POLICY.md", "DEPLOY.md", "FORMATS.md", "RULES.md", "hour.svg")
# The tools that are commands; the package of their modules goes with them.
TOOLS = ("capture_from_pcap", "capture_from_log", "timeline", "sweep", "calibrate")
MODULES = "haboob_tools"
# What each of them imports; and what only one option needs.
DEPENDS = "python3 (>= 3.11), python3-dpkt, python3-h11, python3-matplotlib, python3-numpy, python3-scipy, python3-tqdm"
RECOMMENDS = "python3-distributed"

CONTROL = """\
Package: haboob
Version: %(version)s
Architecture: %(architecture)s
Maintainer: %(maintainer)s
Installed-Size: %(size)d
Depends: %(depends)s
Recommends: %(recommends)s
Section: web
Priority: optional
Description: replay recorded web traffic, and try admission settings on it
 Haboob replays recorded web traffic against a snapshot of a file tree: it
 writes every connection's HTTP/1.1 replies and a report of the load, and turns
 load away by settings for each of four tiers of traffic. Every figure is a
 function of the capture; that neither threads nor caches change an answer is
 proved.
 .
 The tools make captures of recorded packets and of access logs, draw pictures
 over time, and compare settings.
"""

PROVED = """\
The program was built of the sources of the commit %(commit)s%(changes)s
by %(toolchain)s, which builds a program only where each of its functions is proved.
To prove it again: check out that commit, and run `rt ci`.
"""
GIVEN = """\
The program was given to the making of this package as a file: of which sources it was built isn't known, nor whether
these were proved. All else is of the commit %(commit)s%(changes)s.
"""


class Missing(Exception):
    """What a package can't be made without."""


def output_of(*words, **how):
    """What a command prints, without the line feed at its end."""
    try:
        ran = subprocess.run(words, stdout=subprocess.PIPE, text=True, check=True, **how)
    except FileNotFoundError:
        raise Missing("needs %s on the path" % words[0]) from None
    except subprocess.CalledProcessError:
        raise Missing("%s doesn't succeed" % " ".join(map(str, words))) from None
    return ran.stdout.strip()


def version():
    """The version that stands in the sources, which the change log has to begin with."""
    number = re.search(r'const VERSION: &str = "([0-9.]+)";', VERSION_FILE.read_text()).group(1)
    if not re.search(r"^## " + re.escape(number) + " ", (TOP / "CHANGELOG.md").read_text(), re.MULTILINE):
        raise Missing("CHANGELOG.md has no entry for version %s" % number)
    return number


def command_of(tool):
    """The command that a tool is in the package."""
    return "haboob-" + tool.replace("_", "-")


def as_installed(text):
    """A text that names tools and documents by their place in the repository, with the names that they have here."""
    text = re.sub(r"tools/(%s)\.py" % "|".join(TOOLS), lambda found: command_of(found.group(1)), text)
    return re.sub(r"\bdocs/(%s)" % "|".join(map(re.escape, DOCUMENTS)), r"/%s/\1" % DOC, text)


def page_as_installed(text):
    """The same of a page, in which a link to what isn't in the package is plain text."""
    def kept(link):
        return link.group(0) if link.group(2).partition("#")[0] in ("", *DOCUMENTS) else link.group(1)

    return re.sub(r"\[([^][]+)\]\(([^()]*)\)", kept, as_installed(text))


def put(path, data, mode=0o644):
    """Writes a file of the package, with its folders."""
    path.parent.mkdir(parents=True, exist_ok=True)
    path.write_bytes(data if isinstance(data, bytes) else data.encode())
    path.chmod(mode)


def put_packed(path, text):
    """Writes a file that the package holds compressed, without a time in it."""
    put(path.with_name(path.name + ".gz"), gzip.compress(text.encode(), mtime=0))


def put_tools(tree):
    """The tools as commands, and their modules beside them, in a folder where only they look for modules."""
    share = tree / "usr" / "share" / "haboob"
    for module in sorted((TOP / "tools" / MODULES).glob("*.py")):
        put(share / MODULES / module.name, as_installed(module.read_text()))
    for tool in TOOLS:
        put(share / (tool + ".py"), (TOP / "tools" / (tool + ".py")).read_bytes(), 0o755)
        link = tree / "usr" / "bin" / command_of(tool)
        link.parent.mkdir(parents=True, exist_ok=True)
        link.symlink_to("../share/haboob/%s.py" % tool)


def changes_entry(number, seconds):
    """The change log in Debian's form: what the entry of CHANGELOG.md says, in one line each."""
    text = (TOP / "CHANGELOG.md").read_text()
    entry = re.search(r"^## %s .*?\n(.*?)(?=^## |\Z)" % re.escape(number), text, re.MULTILINE | re.DOTALL).group(1)
    told = [line[2:] for line in entry.split("\n") if line.startswith("- ")]
    lines = "\n".join(textwrap.fill(it, 78, initial_indent="  * ", subsequent_indent="    ") for it in told)
    when = time.strftime("%a, %d %b %Y %H:%M:%S +0000", time.gmtime(seconds))
    return "haboob (%s) unstable; urgency=medium\n\n%s\n\n -- %s  %s\n" % (number, lines, MAINTAINER, when)


def proving():
    """The program ./build, whose records tell what was proved, as a module."""
    loader = importlib.machinery.SourceFileLoader("proving", str(TOP / "build"))
    module = importlib.util.module_from_spec(importlib.util.spec_from_loader(loader.name, loader))
    loader.exec_module(module)
    return module


def proof(program):
    """By what the program was proved: the commit and the toolchain, where ./build tells so of this very file."""
    changed = output_of("git", "status", "--porcelain", "--untracked-files=no", cwd=TOP)
    told = {
        "commit": output_of("git", "rev-parse", "HEAD", cwd=TOP),
        "changes": " with changes that are in no commit" if changed else "",
    }
    toolchain = proving().proved_by(program, PROGRAM.name)
    if toolchain:
        return PROVED % {**told, "toolchain": toolchain}
    if program == PROGRAM:
        refuse_older(program)
    return GIVEN % told


def refuse_older(program):
    """Refuses the repository's own program where a source is newer, so that it wasn't built of that."""
    sources = [it for place in SOURCES for it in (TOP / "crates").glob("*/%s/**/*" % place) if it.is_file()]
    newest = max(sources, key=lambda source: source.stat().st_mtime)
    if newest.stat().st_mtime > program.stat().st_mtime:
        raise Missing("%s is older than %s: remove it, and build it again" % (program, newest.relative_to(TOP)))


def put_documents(tree, number, seconds):
    """The pages for operators, the examples and the change log."""
    doc = tree / DOC
    for name in DOCUMENTS:
        data = (TOP / "docs" / name).read_bytes()
        put(doc / name, page_as_installed(data.decode()) if name.endswith(".md") else data)
    for name in output_of("git", "ls-files", "examples", cwd=TOP).split("\n"):
        data = (TOP / name).read_bytes()
        mode = 0o755 if os.access(TOP / name, os.X_OK) else 0o644
        put(doc / name, as_installed(data.decode()) if name.endswith(".py") else data, mode)
    put(doc / "CHANGELOG.md", page_as_installed((TOP / "CHANGELOG.md").read_text()))
    put(doc / "copyright", (TOP / "packaging" / "copyright").read_bytes())
    put_packed(doc / "changelog", changes_entry(number, seconds))


def help_of(*words, **how):
    """The help of a command. The program tells it on standard error, with another status than 0."""
    return output_of("sh", "-c", '"$@" --help 2>&1 || true', "sh", *map(str, words), **how)


def subcommands(program):
    """The commands that the program's help lists, but for that which shows help."""
    listed = re.findall(r"^  ([a-z]+) {2,}\S", help_of(program).partition("\nCommands:\n")[2], re.MULTILINE)
    return [word for word in listed if word != "help"]


def for_manual(text):
    """A help in the words of help2man: its usage with a capital, and each example on one line after a prompt."""
    def prompted(found):
        joined = re.sub(r" *\\\n +", " ", found.group(1))
        return "Examples:\n\n" + re.sub(r"^ +", "  $ ", joined, flags=re.MULTILINE)

    examples = re.compile(r"^examples?:\n((?: +\S.*\n?)+)", re.MULTILINE | re.IGNORECASE)
    return examples.sub(prompted, re.sub(r"\Ausage:", "Usage:", text))


def page_of(name, words, told, number, seconds, room):
    """A man page from the help of a command, in which each usage and each option has a line."""
    env = dict(os.environ, SOURCE_DATE_EPOCH=str(seconds), TZ="UTC", LC_ALL="C.UTF-8", COLUMNS="1000",
               PYTHONDONTWRITEBYTECODE="1")
    shown = room / name
    put(shown, "#!/bin/sh\ncat <<'END'\n%s\nEND\n" % for_manual(help_of(*words, env=env)), 0o755)
    how = ["--no-info", "--version-string=" + number, "--name=" + told, "--source=Haboob " + number]
    return output_of("help2man", *how, str(shown), env=env) + "\n"


def put_pages(tree, number, seconds):
    """The man page of each command and subcommand."""
    program = tree / "usr" / "bin" / "haboob"
    pages = {"haboob": ([program], "replay recorded web traffic against a snapshot of files")}
    for word in subcommands(program):
        pages["haboob-" + word] = ([program, word], help_of(program, word).split("\n")[0])
    for tool in TOOLS:
        path = tree / "usr" / "share" / "haboob" / MODULES / (tool + ".py")
        told = re.search(r'^"""(.*?)(?:\n\n|""")', path.read_text(), re.MULTILINE | re.DOTALL).group(1)
        pages[command_of(tool)] = ([tree / "usr" / "bin" / command_of(tool)], " ".join(told.split()))
    with tempfile.TemporaryDirectory() as room:
        for name, (words, told) in pages.items():
            told = told[0].lower() + told[1:].rstrip(".")
            text = page_of(name, words, told, number, seconds, pathlib.Path(room))
            put_packed(tree / "usr" / "share" / "man" / "man1" / (name + ".1"), text)


def libraries_of(program):
    """What the program needs of the system, as Debian's packages."""
    with tempfile.TemporaryDirectory() as room:
        put(pathlib.Path(room) / "debian" / "control", "Source: haboob\n\nPackage: haboob\nArchitecture: any\n")
        said = output_of("dpkg-shlibdeps", "-O", "-e" + str(program), cwd=room, stderr=subprocess.DEVNULL)
    return said.partition("shlibs:Depends=")[2]


def put_control(tree, number):
    """What Debian's package manager is to know."""
    files = sorted(path for path in tree.rglob("*") if path.is_file() and not path.is_symlink())
    control = tree / "DEBIAN"
    put(control / "control", CONTROL % {
        "version": number,
        "architecture": output_of("dpkg", "--print-architecture"),
        "maintainer": MAINTAINER,
        "size": sum(-(-path.stat().st_size // 1024) for path in files),
        "depends": libraries_of(tree / "usr" / "bin" / "haboob") + ", " + DEPENDS,
        "recommends": RECOMMENDS,
    })
    sums = [output_of("md5sum", str(path.relative_to(tree)), cwd=tree) for path in files]
    put(control / "md5sums", "\n".join(sums) + "\n")
    for name in ("postinst", "prerm"):
        put(control / name, (TOP / "packaging" / name).read_bytes(), 0o755)


def put_program(tree, program, number):
    """The program as it was built, byte for byte."""
    if not program.is_file():
        raise Missing("needs the program at %s: ./build" % program)
    put(tree / "usr" / "bin" / "haboob", program.read_bytes(), 0o755)
    try:
        told = subprocess.run([program, "--version"], capture_output=True, text=True)
    except OSError:
        raise Missing("%s is no program for this machine" % program) from None
    if (told.stdout + told.stderr).strip() != "haboob " + number:
        raise Missing("%s is no program of version %s" % (program, number))


def build(program, folder):
    """Makes the package, and answers its path."""
    number = version()
    seconds = int(os.environ.get("SOURCE_DATE_EPOCH") or output_of("git", "log", "-1", "--format=%ct", cwd=TOP))
    with tempfile.TemporaryDirectory() as room:
        tree = pathlib.Path(room) / "tree"
        put_program(tree, program, number)
        put_tools(tree)
        put_documents(tree, number, seconds)
        put(tree / DOC / "PROOF", proof(program))
        put_pages(tree, number, seconds)
        completions = tree / "usr" / "share" / "bash-completion" / "completions"
        put(completions / "haboob", (TOP / "packaging" / "completion.bash").read_bytes())
        for tool in TOOLS:
            (completions / command_of(tool)).symlink_to("haboob")
        overrides = tree / "usr" / "share" / "lintian" / "overrides" / "haboob"
        put(overrides, (TOP / "packaging" / "lintian-overrides").read_bytes())
        put_control(tree, number)
        for path in [tree, *tree.rglob("*")]:
            if path.is_dir():
                path.chmod(0o755)
            os.utime(path, (seconds, seconds), follow_symlinks=False)
        name = "haboob_%s_%s.deb" % (number, output_of("dpkg", "--print-architecture"))
        env = dict(os.environ, SOURCE_DATE_EPOCH=str(seconds))
        output_of("dpkg-deb", "--root-owner-group", "-Zxz", "--build", str(tree), str(folder / name), env=env)
    return folder / name


def main() -> int:
    parser = argparse.ArgumentParser(description=__doc__, formatter_class=argparse.RawDescriptionHelpFormatter)
    parser.add_argument("--program", type=pathlib.Path, default=PROGRAM,
                        help="the program that goes into it; without this the one of the repository")
    parser.add_argument("folder", type=pathlib.Path, help="where the package goes")
    words = parser.parse_args()
    try:
        words.folder.mkdir(parents=True, exist_ok=True)
        print(build(words.program.resolve(), words.folder.resolve()))
    except (Missing, OSError) as fault:
        print("%s: %s" % (TOOL, fault), file=sys.stderr)
        return 1
    except KeyboardInterrupt:
        return 130
    return 0


if __name__ == "__main__":
    sys.exit(main())
