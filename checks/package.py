#!/usr/bin/python3
"""Makes the Debian package, installs it in a fresh system, and works there as a user without root and repository.

usage: checks/package.py [--record | --program PROGRAM]

Two builds have to be the same bytes, and lintian may find no error. The fresh system is a folder that debootstrap
fills from Debian's mirror; there the package is installed by apt, and a user goes through its pages: each command that
stands there prints what is shown. Man pages and completion have each command and each option that help has. A tool
without its library says which package has it; what is removed leaves nothing. It needs root, unshare, debootstrap,
lintian and what packaging/build.py needs; some minutes and 2 GB, which are given back. With --record a good run is
written into checks/README.md, which package_run.py reads in the gate.
"""
import filecmp
import gzip
import os
import pathlib
import re
import shutil
import subprocess
import sys
import tempfile
import time

from lib import sources
from lib.report import Report
from lib.usage import parser_of
import package_run
from documents import commands_of, is_shown

TOP = pathlib.Path(sources.TOP)
MIRROR, SUITE = "http://deb.debian.org/debian", "bookworm"
PAGES = ("WALK.md", "POLICY.md", "FORMATS.md")
DOC = "usr/share/doc/haboob"
USER = "walker"
SECONDS = 600
INSTALL_SECONDS = 30
# What changes in a system also where nothing is left: what users have, and what the package manager notes.
OTHERS = tuple("/%s/" % name for name in "home root tmp var/cache var/log var/lib/apt var/lib/dpkg".split())
# Where the package and another one stand in the fresh system, from its top.
PACKAGE, OTHER = "./var/cache/haboob.deb", "./var/cache/other.deb"
# Root in the fresh system, with its own processes and devices; these are gone with the command.
INSIDE = """
mount -t proc proc "$0/proc" && mount --rbind /dev "$0/dev" || exit
exec chroot "$0" "$@"
"""


class Failed(Exception):
    """A step that doesn't succeed."""


def ran(words, **how):
    """Status and all that a command prints."""
    done = subprocess.run(words, stdin=subprocess.DEVNULL, stdout=subprocess.PIPE, stderr=subprocess.STDOUT,
                          timeout=SECONDS, **how)
    return done.returncode, done.stdout.decode(errors="replace")


def must(words, **how):
    """What a command prints that has to succeed."""
    status, text = ran(words, **how)
    if status:
        raise Failed("%s: %s" % (" ".join(map(str, words[:6])), text[-2000:]))
    return text


class System:
    """A fresh Debian system in a folder."""

    def __init__(self, root):
        self.root = root
        must(["debootstrap", "--variant=minbase", SUITE, str(root), MIRROR])
        self.must("useradd", "--create-home", "--shell", "/bin/bash", USER)

    def words(self, *words):
        own = ["unshare", "--mount", "--propagation", "private", "--pid", "--fork", "--kill-child"]
        own += ["sh", "-c", INSIDE, str(self.root)]
        clean = ["env", "-i", "PATH=/usr/sbin:/usr/bin:/sbin:/bin", "DEBIAN_FRONTEND=noninteractive", "LANG=C.UTF-8"]
        return own + clean + list(words)

    def must(self, *words):
        return must(self.words(*words))

    def ran(self, *words):
        return ran(self.words(*words))

    def files(self):
        """All that stands in the system, but for what changes all the time."""
        return {path for path in self.must("find", "/", "-xdev").split("\n") if not path.startswith(OTHERS)}

    def help_of(self, command):
        """The help of a command, wherever it is printed."""
        return self.by_user(command + " --help")[1]

    def by_user(self, command):
        """Status and output of a shell's command of the user, in his folder."""
        line = "cd && exec bash -o pipefail -c %s" % quoted(command)
        return ran(self.words("su", USER, "-c", line))


def quoted(text):
    return "'" + text.replace("'", "'\\''") + "'"


def built(report, program, room):
    """The package, which is made twice, and looked at by lintian."""
    packages = []
    for name, hours, mask in (("one", "UTC-9", 0o022), ("two", "UTC+9", 0o077)):
        env = dict(os.environ, PYTHONHASHSEED=str(len(packages)), COLUMNS=str(70 + 50 * len(packages)), TZ=hours)
        must([TOP / "packaging" / "build.py", *program, room / name], env=env, umask=mask)
        packages += (room / name).iterdir()
    report.see("two builds are the same bytes", filecmp.cmp(*packages, shallow=False))
    status, text = ran(["lintian", packages[0]])
    report.see("lintian finds no error", status == 0 and "E: " not in text, (status, text))
    return packages[0]


def refuse(report, system, package):
    """What the package manager says without what the package needs, and on another machine."""
    shutil.copy(package, system.root / PACKAGE)
    status, text = system.ran("dpkg", "--install", PACKAGE)
    report.see("an absent dependency is told", status != 0 and "depends on python3-dpkt" in text, text)
    system.must("dpkg", "--purge", "haboob")
    tree = (system.root / OTHER).with_suffix("")
    must(["dpkg-deb", "--raw-extract", package, tree])
    control = tree / "DEBIAN" / "control"
    control.write_text(re.sub("^Architecture: .*", "Architecture: s390x", control.read_text(), flags=re.MULTILINE))
    must(["dpkg-deb", "--build", tree, tree.with_suffix(".deb")])
    status, text = system.ran("dpkg", "--install", OTHER)
    told = "package architecture (s390x) does not match system" in text
    report.see("another architecture is told", status != 0 and told, text)


def install(report, system, package):
    """Installs the package, after what it depends on; answers what stood in the system before."""
    system.must("apt-get", "update")
    report.see("apt finds all that it depends on",
               system.ran("apt-get", "install", "--simulate", PACKAGE)[0] == 0)
    depends = must(["dpkg-deb", "--field", package, "Depends"]).strip()
    system.must("apt-get", "satisfy", "--yes", "--no-install-recommends", depends + ", bash-completion")
    before = system.files()
    begin = time.monotonic()
    system.must("apt-get", "install", "--yes", "--no-install-recommends", PACKAGE)
    seconds = time.monotonic() - begin
    report.see("it is installed in seconds", seconds < INSTALL_SECONDS, seconds, "%.1f seconds" % seconds)
    return before


def look_at_versions(report, system):
    """The version is that of the change log; the commit and the toolchain are told."""
    number = re.search("^## ([0-9.]+) ", (TOP / "CHANGELOG.md").read_text(), re.MULTILINE).group(1)
    told = system.by_user("haboob --version")[1].strip()
    report.see("the program tells the version", told == "haboob " + number, told)
    told = system.must("dpkg-query", "--show", "--showformat", "${Version}", "haboob")
    report.see("the package has the version", told == number, told)
    proof = (system.root / DOC / "PROOF").read_text()
    commit = must(["git", "-C", TOP, "rev-parse", "HEAD"]).strip()
    report.see("the package tells the commit", "the commit " + commit in proof, proof)
    toolchain = must(["rt", "version"]).split("\n")[0]
    given = "given to the making of this package as a file" in proof
    report.see("the package tells the toolchain", given or "by " + toolchain in proof, proof,
               "not known of a given program" if given else toolchain)


def walk(report, system):
    """Goes through the pages as a user."""
    system.must("su", USER, "-c", "cp -r /%s/examples ~" % DOC)
    for page in PAGES:
        commands = commands_of((system.root / DOC / page).read_text())
        report.see(page + ": has commands", commands)
        for command, shown in commands:
            output = system.by_user(command)[1]
            report.see("%s: %s" % (page, command.split("\n")[0][:50]), is_shown(output, shown), output)


def look_at_depends(report, system):
    """The package depends on, or recommends, each library of Debian that its tools name, and no others."""
    modules = (system.root / "usr" / "share" / "haboob").rglob("*.py")
    named = set(re.findall(r"\bpython3-[a-z0-9.]+\b", "\n".join(module.read_text() for module in modules)))
    told = system.must("dpkg-query", "--show", "--showformat", "${Depends}, ${Recommends}", "haboob")
    asked = set(re.findall(r"\bpython3-[a-z0-9.]+\b", told))
    report.see("it depends on what its tools need", named == asked, (named, asked))


def look_at_pages(report, system):
    """The pages for operators are there, each link leads to what is there, and tools are named by their commands."""
    operators = re.search(r"^For operators: (.*?)[.] For ", (TOP / "README.md").read_text(), re.MULTILINE).group(1)
    absent = [page for page in re.findall(r"\((?:docs/)?([A-Z]+[.]md)\)", operators)
              if not (system.root / DOC / page).exists()]
    report.see("the pages for operators", not absent, absent)
    for path in sorted((system.root / DOC).glob("*.md")):
        text = path.read_text()
        links = [link.partition("#")[0] for link in re.findall(r"\]\(([^()\s]+)\)", text) if "://" not in link]
        absent = [link for link in links if link and not (path.parent / link).exists()]
        report.see(path.name + ": links", not absent, absent)
        strange = re.findall(r"\btools/\w+|\bdocs/\w+[.]\w+", text)
        report.see(path.name + ": names of tools and pages", not strange, strange)


def options_of(text):
    """The options that a help lists."""
    return set(re.findall(r"^ +(?:-\w, )?(--[a-z][a-z-]*)", text, re.MULTILINE))


def commands_in(text):
    """The commands that the help of the program lists."""
    return re.findall(r"^  ([a-z]+) +[A-Z]", text.partition("\nCommands:\n")[2], re.MULTILINE)


def look_at_manual(report, system, page, text):
    """A man page has each option of a help."""
    path = system.root / "usr" / "share" / "man" / "man1" / (page + ".1.gz")
    shown = gzip.decompress(path.read_bytes()).decode().replace("\\-", "-") if path.exists() else ""
    absent = [option for option in sorted(options_of(text)) if not re.search(re.escape(option) + r"(?![a-z-])", shown)]
    report.see(page + ": man page", shown and not absent, absent or "no page")


def look_at_commands(report, system):
    """Each command has help and a man page, and so has each command of the program."""
    installed = system.must("dpkg", "--listfiles", "haboob").split("\n")
    for command in [os.path.basename(path) for path in installed if path.startswith("/usr/bin/")]:
        status, text = system.by_user(command + " --help")
        told = status == (2 if command == "haboob" else 0) and "usage: %s " % command in text.lower()
        strange = re.findall(r"tools/|docs/|[a-z_]+[.]py\b", text)
        report.see(command + ": help", told and not strange, text)
        look_at_manual(report, system, command, text)
    words = [word for word in commands_in(system.help_of("haboob")) if word != "help"]
    report.see("the program has commands", words)
    for word in words:
        look_at_manual(report, system, "haboob-" + word, system.help_of("haboob " + word))


# With what the shell completes the last of some words.
COMPLETE = """
. /usr/share/bash-completion/bash_completion
_completion_loader %(command)s
COMP_LINE=%(line)s
COMP_POINT=${#COMP_LINE}
COMP_WORDS=(%(words)s)
COMP_CWORD=$((${#COMP_WORDS[@]} - 1))
$(complete -p %(command)s | sed -E 's/.*-F ([^ ]+) .*/\\1/')
printf '%%s\n' "${COMPREPLY[@]}"
"""


def completed(system, *words):
    """With what the shell completes the last of these words."""
    told = {"command": words[0], "line": quoted(" ".join(words)), "words": " ".join(map(quoted, words))}
    return set(system.by_user(COMPLETE % told)[1].split())


def complete(report, system):
    """The shell completes each command and each option that help lists, and no others."""
    words = commands_in(system.help_of("haboob"))
    got = completed(system, "haboob", "")
    report.see("completion of haboob", got == {*words, "--help", "--version"}, got)
    got = completed(system, "haboob", "replay", "--engine", "st")
    report.see("completion of haboob replay --engine st", got == {"staged"}, got)
    got = completed(system, "haboob", "replay", "--settings", "examples/tig")
    report.see("completion of a file", got == {"examples/tight.toml"}, got)
    for word in words:
        wanted = options_of(system.help_of("haboob " + word)) if word != "help" else set(words)
        got = completed(system, "haboob", word, "" if word == "help" else "--")
        report.see("completion of haboob " + word, got == wanted, (got, wanted))
    for path in sorted((system.root / "usr" / "bin").glob("haboob-*")):
        wanted = options_of(system.help_of(path.name))
        got = completed(system, path.name, "--")
        report.see("completion of " + path.name, got == wanted, (got, wanted))


# A library's package, and a command that can't do without it.
SWEEP = "haboob-sweep --snapshot a --capture b --set policy.depth=1 --output c"
LACKING = [
    ("python3-distributed", SWEEP + " --cluster tcp://127.0.0.1:9"),
    ("python3-tqdm", SWEEP),
    ("python3-h11", "haboob-capture-from-pcap --port 80 --output a b"),
    ("python3-dpkt", "haboob-capture-from-pcap --port 80 --output a b"),
    ("python3-scipy", "haboob-calibrate --output a b"),
    ("python3-matplotlib", "haboob-timeline --output a b"),
]


def lack(report, system):
    """Takes one library after another away: the tool says which package has it."""
    for library, command in LACKING:
        system.must("dpkg", "--remove", "--force-depends", library)
        status, text = system.by_user(command)
        tool = command.partition(" ")[0].removeprefix("haboob-").replace("-", "_")
        told = re.fullmatch(tool + r": (--cluster )?needs \w+: apt-get install " + library, text.strip())
        report.see("without %s" % library, status == 2 and told, (status, text))


def remove(report, system, before):
    """Removes the package: nothing stays that wasn't there before."""
    files = [path for path in system.must("dpkg", "--listfiles", "haboob").split("\n") if "haboob" in path]
    system.must("haboob-capture-from-log", "--help")
    system.must("dpkg", "--remove", "haboob")
    left = [path for path in files if os.path.lexists(str(system.root) + path)]
    report.see("nothing stays of the package", not left, left)
    left = sorted(system.files() - before)
    report.see("nothing stays that wasn't there before", not left, left)
    named = system.must("find", "/usr", "/etc", "/var/lib", "/opt", "-xdev", "-name", "*haboob*").split()
    report.see("nothing of its name stays", not named, named)


def work(report, program, room):
    """All steps, in a folder that is given back."""
    package = built(report, program, room)
    system = System(room / "system")
    refuse(report, system, package)
    before = install(report, system, package)
    look_at_versions(report, system)
    look_at_depends(report, system)
    walk(report, system)
    look_at_pages(report, system)
    look_at_commands(report, system)
    complete(report, system)
    lack(report, system)
    remove(report, system, before)


def main() -> int:
    parser = parser_of(__doc__, runs_program=False)
    either = parser.add_mutually_exclusive_group()
    either.add_argument("--program", help="the program that goes into the package; without this the repository's")
    either.add_argument("--record", action="store_true", help="write a good run into checks/README.md")
    options = parser.parse_args()
    if options.record and package_run.uncommitted():
        parser.error("--record: changed, in no commit yet: " + " ".join(package_run.uncommitted()))
    report = Report()
    with tempfile.TemporaryDirectory() as folder:
        room = pathlib.Path(folder)
        room.chmod(0o755)
        try:
            work(report, ["--program", os.path.abspath(options.program)] if options.program else [], room)
        except (Failed, OSError, subprocess.TimeoutExpired) as fault:
            report.see("the check comes to its end", False, fault)
    if options.record and not report.wrong:
        package_run.record(report.runs)
    return report.end()


if __name__ == "__main__":
    sys.exit(main())
