#!/usr/bin/env python3
"""Runs the commands that README.md and pages of docs/ show, and compares what they print with what stands below them.

    checks/documents.py PROGRAM

A command stands in an indented block after `$ `, on one or more lines; the lines up to the next command are its
output. A line `..` in it stands for any lines. The commands of a document run one after another in one folder, which
has the folders `examples` and `tools` and the program as `haboob`. It needs the libraries of the tools.
"""
import os
import re
import subprocess
import sys
import tempfile

from lib.sources import TOP, read
from lib.usage import program_of

DOCUMENTS = ["README.md"] + [os.path.join("docs", name) for name in ("WALK.md", "FORMATS.md", "POLICY.md")]
INDENT = "    "
PROMPT = INDENT + "$ "
SECONDS = 300
LIBRARIES = ["/usr/bin/python3", "-c", "import dpkt, h11, matplotlib, scipy, tqdm"]


def commands_of(text):
    """The commands of a document, each with its output."""
    commands = []
    within = False
    for line in text.split("\n"):
        if line.startswith(PROMPT):
            commands.append((line[len(PROMPT) :], []))
            within = True
        elif within and line.startswith(INDENT):
            command, output = commands[-1]
            if command.endswith("\\"):
                commands[-1] = (command + "\n" + line, output)
            else:
                output.append(line[len(INDENT) :])
        elif line:
            within = False
        elif within:
            commands[-1][1].append("")
    return [(command, "\n".join(output).strip("\n")) for command, output in commands]


def is_shown(output, shown):
    """Whether an output is the one that is shown."""
    pattern = "\n".join(".*" if line == ".." else re.escape(line) for line in shown.split("\n"))
    return re.fullmatch(pattern, output.replace("\r", "").strip("\n"), re.DOTALL) is not None


def run(command, folder):
    """What a command prints."""
    words = dict(os.environ, PATH=folder + os.pathsep + os.environ["PATH"])
    ran = subprocess.run(["bash", "-o", "pipefail", "-c", command], cwd=folder, env=words, timeout=SECONDS,
                         stdin=subprocess.DEVNULL, stdout=subprocess.PIPE, stderr=subprocess.STDOUT)
    return ran.stdout.decode()


def has_libraries():
    """Whether the tools can run."""
    try:
        return subprocess.run(LIBRARIES, stderr=subprocess.DEVNULL).returncode == 0
    except FileNotFoundError:
        return False


def check(program, document):
    """How many commands of a document were run, and how many print something else than it shows."""
    commands, wrong = commands_of(read(document)), 0
    with tempfile.TemporaryDirectory() as folder:
        for name in ("examples", "tools"):
            os.symlink(os.path.join(TOP, name), os.path.join(folder, name))
        os.symlink(program, os.path.join(folder, "haboob"))
        for command, shown in commands:
            output = run(command, folder)
            if not is_shown(output, shown):
                wrong += 1
                print("%s: WRONG: %s\n%s" % (document, command, output))
    return len(commands), wrong


def main():
    program = program_of(__doc__)
    if not has_libraries():
        sys.exit("needs the libraries of the tools: dpkt, h11, matplotlib, scipy, tqdm")
    all_wrong = 0
    for document in DOCUMENTS:
        count, wrong = check(program, document)
        print("%s: %d commands, %d wrong" % (document, count, wrong))
        all_wrong += wrong + (count == 0)
    return int(all_wrong != 0)


if __name__ == "__main__":
    sys.exit(main())
