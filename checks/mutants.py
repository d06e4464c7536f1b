#!/usr/bin/env python3
"""Tries the wrong bodies of checks/mutants/CRATE.toml, each of which the checker must refuse, and keeps a record of it.

    checks/mutants.py [--jobs N] [CRATE ..]   tries those of these crates (of all where none is named) and writes the
                                              tables' records; it proves these crates and those below them first
    checks/mutants.py --check                 compares each record with the sources, in seconds, as the gate does

Each function is checked against the contracts of those that it calls, so wrong bodies of different functions don't
disturb each other: a pass puts as many as stand in different functions into one copy of the crate, checks it once, past
open goals, over what the crate's own check kept, and judges each by the goals of its function. What changes something
else than a function's body gets a pass of its own, and so does what wasn't refused in a pass. The verdicts:

  values           values are known at which a goal is false
  goal             a goal can't be proved: what a function ensures, what a call requires, an invariant, a loop, an index
  answer           the written proof of such a goal doesn't fit it any more
  limit            the checker came to a limit of its own at such a goal
  name             by name alone: a proof names what the mutant took away, which says little of a contract; the mutant
                   is to be changed so that it keeps the name
  not refused      the crate is still proved
  doesn't compile  the compiler, or the reader of contracts, refuses the text

What was tried of a mutant is of the functions that it changes, with their proofs, and of all that these cite, one
through another: contracts, types, definitions and lemmas, in the crate and below it; of a mutant that changes something
else, of all functions and types of the crate. What a text cites is told by names, so it is rather too much than too
little. Comments don't count. While that is what is there, what was refused isn't tried again. Exits with 1 where a
mutant has one of the last three verdicts, or wasn't tried as it stands.
"""
import argparse
import collections
import concurrent.futures
import glob
import json
import os
import re
import shutil
import subprocess
import sys
import tempfile
import threading
import tomllib

from lib.cited import below, checksum, code_of, crates, files_of, functions, Unit

TOP = os.path.dirname(os.path.dirname(os.path.abspath(__file__)))
TABLES = os.path.join(TOP, "checks", "mutants")
MOST = 12  # in a pass, so that all processors have one, and little is lost where it is cut off
REFUSED = ("values", "goal", "answer", "limit")
UNKNOWN, ALIVE, BROKEN = "no verdict", "not refused", "doesn't compile"
OPEN = re.compile(r"^note: (?:\./)?(src/\S+?):(\d+):\d+: it is not proved that (.*)")
FALSE = "allow values at which this goal is false"
ERROR = re.compile(r"^(?:\./)?(proofs/\S+?\.antt):\d+:\d+: error: (?:`([^`]+)`: )?(.*)")
FRONT = re.compile(r"^(?:\./)?((?:src|specs)/\S+?):(\d+):\d+: error")
STATE = re.compile(r"^fn (\S+): (.*)")
GONE = re.compile(r"has no field|is not in scope|has no `|was not admitted|is no name")
LIMIT = re.compile(r"antt ran out of (stack|the (steps|memory))|(outgrew the memory limit|stopped at the step limit)")


def changes_of(mutant):
    """The changes that a mutant makes, in order: each with its file, the old text and the new one."""
    return [(it["file"], it["old"], it["new"]) for it in [mutant, *mutant.get("also", [])]]


def applied(texts, mutant):
    """The crate's files with a mutant's changes made; None where an old text doesn't stand once."""
    texts = dict(texts)
    for path, old, new in changes_of(mutant):
        if texts.get(path, "").count(old) != 1:
            return None
        texts[path] = texts[path].replace(old, new)
    return texts


def own_sum(mutant, sites):
    """The checksum of a mutant, of the functions that it changes and of all that these and its new text cite, one
    through another; of one that changes something else, of all that its crate cites."""
    code, where = code_of(sites.crate), sites.of(mutant)
    todo = [*code.common, *(Unit(code, path, new, True) for path, _, new in changes_of(mutant))]
    todo += [it for it in code.functions
             if where is None or any(it.path == path and first in it.lines for path, first, *_ in where)]
    todo += [it[3] for it in code.items] + [it[2] for it in code.heads] if where is None else []
    found = set(todo)
    while todo:
        new = set(todo.pop().cited) - found
        found |= new
        todo += new
    return checksum([json.dumps(changes_of(mutant)), *sorted(it.sum for it in found)])[:8]


def is_of(mutant, sites):
    """Whether what was tried of a mutant is of what is there."""
    return applied(sites.texts, mutant) is not None and mutant.get("tried") == own_sum(mutant, sites)


# The tables.


def quoted(text):
    """A string as TOML writes it, without escapes where it can be."""
    return "'%s'" % text if "'" not in text and text.isprintable() else json.dumps(text, ensure_ascii=False)


def written(table, crate):
    """A table as it stands in its file."""
    parts = ["# Wrong bodies of `%s` that the checker must refuse, by the promise that each breaks.\n"
             "# What checks/mutants.py found stands under `record` and in each `verdict`.\n" % crate]
    record = table.get("record")
    if record:
        parts.append("[record]\n" + "".join("%s = %s\n" % (key, quoted(value) if isinstance(value, str) else value)
                                            for key, value in record.items()))
    for mutant in table["mutant"]:
        lines = ["[[mutant]]"]
        for key in ("name", "promise", "file", "old", "new"):
            lines.append("%s = %s" % (key, quoted(mutant[key])))
        if mutant.get("also"):
            rows = ["    { file = %s, old = %s, new = %s }," % tuple(map(quoted, change))
                    for change in changes_of(mutant)[1:]]
            lines += ["also = [", *rows, "]"]
        for key in ("verdict", "tried"):
            if key in mutant:
                lines.append("%s = %s" % (key, quoted(mutant[key])))
        parts.append("\n".join(lines) + "\n")
    return "\n".join(parts)


def load(crate):
    with open(os.path.join(TABLES, crate + ".toml"), "rb") as file:
        return tomllib.load(file)


def tables():
    return sorted(os.path.basename(path)[: -len(".toml")] for path in glob.glob(os.path.join(TABLES, "*.toml")))


# The passes.


class Sites:
    """Where a crate's functions stand, and the checker's names for them."""

    def __init__(self, crate, texts, names):
        self.crate, self.names = crate, names
        self.texts = texts
        self.bodies = {path: functions(text) for path, text in texts.items() if path.endswith(".rt")}

    def names_of(self, path, name, kind):
        """The checker's names of a function and of the closures in it."""
        module = path[len("src/") : -len(".rt")].replace("/", "::")
        front = self.crate + "::" + ("" if module in ("lib", "main") else module + "::")
        words = re.sub(r"<[^<>]*>", "", re.sub(r"<[^<>]*>", "", re.sub(r"<[^<>]*>", "", kind))).split()
        types = [words[-1] + words[0], words[-1]] if "for" in words else words[-1:] if words else [""]
        types = [it.split("::")[-1] for it in types]
        own = [front + (it + "::" if it else "") for it in types]
        found = [it for it in self.names for top in own
                 if it == top + name or it.startswith("%sfn::%s::" % (top, name))]
        # (an `impl` may stand in another module than its type, by whose module its functions are named; one that is of
        # some types alone has them in its name)
        return (found
                or [it for it in self.names if any(it.endswith("::%s::%s" % (top, name)) for top in types if top)]
                or [it for it in self.names if it.startswith(tuple(front + top + "+" for top in types if top))
                    and it.endswith("::" + name)])

    def of(self, mutant):
        """The functions whose bodies a mutant changes, as (file, first line, last line, names); None where it changes
        something else."""
        found, texts = [], dict(self.texts)
        for path, old, new in changes_of(mutant):
            at = texts[path].index(old)
            first = texts[path].count("\n", 0, at) + 1
            last = first + old.count("\n")
            body = [it for it in self.bodies.get(path, []) if it[3] <= first and last <= it[4]]
            if not body:
                return None
            name, kind, begin, _, end = body[-1]
            site = (path, begin, end, tuple(self.names_of(path, name, kind)))
            found += [site] if site not in found else []
            texts[path] = texts[path].replace(old, new)
        return found


def grouped(mutants, sites):
    """Passes: up to MOST mutants in each, which stand in different functions; those that stand elsewhere alone."""
    passes, alone = [], []
    for mutant in mutants:
        where = sites.of(mutant)
        if where is None:
            alone.append([mutant])
            continue
        keys = {it[:3] for it in where}
        for taken, members in passes:
            if not taken & keys and len(members) < MOST:
                taken |= keys
                members.append(mutant)
                break
        else:
            passes.append((keys, [mutant]))
    return [members for _, members in passes] + alone


class Checker:
    """Checks copies of a crate over what its own check kept, and counts the processor seconds."""

    def __init__(self, crate):
        self.crate, self.seconds = crate, 0.0
        self.rows, stands = crates()
        self.low = below(stands, crate)
        self.folder = os.path.join(TOP, "crates", crate)
        self.texts = files_of(self.folder)

    def room(self, texts):
        """A copy of what a check of the crate needs, with these texts in place of its own."""
        room = tempfile.mkdtemp(prefix="mutants-")
        for name in [*self.low, self.crate]:
            here, there = os.path.join(TOP, "crates", name), os.path.join(room, "crates", name)
            shutil.copytree(here, there, ignore=shutil.ignore_patterns("out", "must-fail"))
            kept = os.path.join(here, "out")
            for part in ["rlib"] + ["incremental"] * (name == self.crate):
                if os.path.isdir(os.path.join(kept, part)):
                    shutil.copytree(os.path.join(kept, part), os.path.join(there, "out", part), copy_function=linked)
        shutil.copy(os.path.join(TOP, "HANDLES"), room)
        with open(os.path.join(room, "crates.txt"), "w", encoding="utf-8") as file:
            file.writelines(self.rows[name] + "\n" for name in [*self.low, self.crate])
        for path, text in texts.items():
            if text != self.texts.get(path):
                with open(os.path.join(room, "crates", self.crate, path), "w", encoding="utf-8") as file:
                    file.write(text)
        return room

    def check(self, texts, keep=False):
        """What the checker says of the crate with these texts: its exit status and its lines. What it checked is kept
        for the passes that follow, if asked for."""
        room = self.room(texts)
        try:
            with tempfile.TemporaryFile() as said:
                ran = subprocess.Popen(["rt", "check", "--jobs", "1", "--allow-holes"], stdin=subprocess.DEVNULL,
                                       stdout=said, stderr=subprocess.STDOUT,
                                       cwd=os.path.join(room, "crates", self.crate))
                _, status, used = os.wait4(ran.pid, 0)
                ran.returncode = os.waitstatus_to_exitcode(status)
                self.seconds += used.ru_utime + used.ru_stime
                said.seek(0)
                if keep:
                    self.keep(room)
                return ran.returncode, said.read().decode(errors="replace").split("\n")
        finally:
            shutil.rmtree(room, ignore_errors=True)

    def keep(self, room):
        """Keeps what a check in a copy kept."""
        here = os.path.join(self.folder, "out", "incremental")
        kept = os.path.join(room, "crates", self.crate, "out", "incremental")
        if os.path.isdir(kept):
            shutil.rmtree(here, ignore_errors=True)
            shutil.move(kept, here)


def linked(one, other):
    """Copies a file that was kept; one that a check replaces, and never changes, by a link."""
    if one.endswith(".oantt") or "/rlib/" in one:
        os.link(one, other)
    else:
        shutil.copy2(one, other)


class Said:
    """What the checker said of a copy."""

    def __init__(self, lines):
        self.states, self.open, self.errors, self.front = {}, [], [], []
        for line in lines:
            line = line.removeprefix("so far: ")
            for form, found in ((OPEN, self.open), (ERROR, self.errors), (FRONT, self.front)):
                at = form.match(line)
                if at:
                    found.append(at)
            state = STATE.match(line)
            if state:
                self.states[state[1]] = state[2]

    def is_whole(self):
        """Whether the checker came as far as the functions."""
        return bool(self.states)

    def verdict_of(self, state):
        """What the state of a function says."""
        if state.startswith(("no holes", "proved")):
            return ALIVE
        if LIMIT.search(state):
            return "limit"
        if "did not prove" in state:
            return "goal"
        found = [self.of_proof(name) for name in re.findall(r"`Rattle\.\w+\.proofs\.([^`]*)`", state)]
        return next((it for it in ("values", "answer", "limit", "name") if it in found), UNKNOWN)

    def of_proof(self, name):
        """What was said of a proof that the checker refuses."""
        *path, goal = name.split(".")
        errors = [it for it in self.errors if it[2] == goal and it[1] == "proofs/%s.antt" % "/".join(path)]
        if any(LIMIT.search(it[3]) for it in errors):
            return "limit"
        if any("and the goal fails, at" in it[3] for it in errors):
            return "values"
        return UNKNOWN if not errors else "name" if all(GONE.search(it[3]) for it in errors) else "answer"

    def verdict(self, where):
        """The verdict on a mutant of these functions; on one that stands elsewhere, of all functions (None)."""
        inside = [it for it in self.open if where is None or
                  any(it[1] == path and first <= int(it[2]) <= last for path, first, last, _ in where)]
        if inside:
            return "values" if any(FALSE in it[3] for it in inside) else "goal"
        states = [state for name, state in self.states.items()
                  if where is None or any(name in names for *_, names in where)]
        found = [self.verdict_of(state) for state in states]
        order = ("values", "goal", "answer", "limit", "name", UNKNOWN, ALIVE)
        return next((it for it in order if it in found), UNKNOWN)


class Trial:
    """Tries those of a crate's mutants that weren't tried as they stand, or weren't refused."""

    def __init__(self, crate, pool):
        self.crate, self.pool, self.checker = crate, pool, Checker(crate)
        self.table, self.passes, self.writing = load(crate), 0, threading.Lock()
        self.sites = Sites(crate, self.checker.texts, [])
        stale = [it for it in self.table["mutant"] if not is_of(it, self.sites)]
        for mutant in stale:
            mutant.pop("verdict", None)
        # (passes and seconds are counted from when all were tried)
        kept = self.table.get("record") if len(stale) < len(self.table["mutant"]) else None
        self.before = kept or {"passes": 0, "seconds": 0}

    def one_pass(self, mutants):
        """Tries these mutants at once; those that don't compile are taken out until the rest does."""
        while mutants:
            texts, kept = self.checker.texts, []
            for mutant in mutants:
                after = applied(texts, mutant)
                if after is not None:
                    texts = after
                    kept.append(mutant)
            status, lines = self.checker.check(texts)
            self.passes += 1
            said = Said(lines)
            broken = kept if len(kept) == 1 else self.broken(kept, said)
            if said.is_whole():
                self.note({it["name"]: said.verdict(self.sites.of(it)) for it in kept})
                return
            if not said.front or not broken:
                print("%s: status %s: %s" % (self.crate, status, "\n".join(lines[-12:])), flush=True)
                return
            self.note({it["name"]: BROKEN for it in broken})
            mutants = [it for it in kept if it not in broken]

    def broken(self, mutants, said):
        """The mutants in whose lines the compiler stopped, or that stand in no function."""
        places = [(self.sites.of(it), it) for it in mutants]
        return [mutant for mutant, where in ((it, where) for where, it in places)
                if where is None or any(at[1] == path and first <= int(at[2]) <= last
                                        for at in said.front for path, first, last, _ in where)]

    def tried(self, mutant):
        """Whether it is known that a mutant is refused."""
        return mutant.get("verdict") in REFUSED and is_of(mutant, self.sites)

    def run(self):
        """Tries the mutants."""
        mutants = [it for it in self.table["mutant"] if not self.tried(it)]
        if not mutants:
            return
        status, lines = self.checker.check(self.checker.texts, keep=True)
        said = Said(lines)
        if status or not said.is_whole() or set(map(said.verdict_of, said.states.values())) != {ALIVE}:
            raise SystemExit("%s isn't proved as it stands:\n%s" % (self.crate, "\n".join(lines[-20:])))
        self.sites = Sites(self.crate, self.checker.texts, list(said.states))
        fitting = [it for it in mutants if applied(self.checker.texts, it) is not None]
        list(self.pool.map(self.one_pass, grouped(fitting, self.sites)))
        again = [it for it in fitting if not self.tried(it) and it.get("verdict") != BROKEN]
        list(self.pool.map(lambda it: self.one_pass([it]), again))
        count = collections.Counter(it.get("verdict", UNKNOWN) for it in self.table["mutant"])
        print("%s: %d passes, %d processor seconds: %s" % (
            self.crate, self.passes, self.checker.seconds,
            ", ".join("%d %s" % it[::-1] for it in count.most_common())), flush=True)

    def note(self, verdicts):
        """Writes what came of some mutants into the table, so that nothing is lost where a later pass is cut off."""
        with self.writing:
            for mutant in self.table["mutant"]:
                if mutant["name"] in verdicts:
                    mutant.update(verdict=verdicts[mutant["name"]], tried=own_sum(mutant, self.sites))
            self.table["record"] = {"passes": self.before["passes"] + self.passes,
                                    "seconds": self.before["seconds"] + round(self.checker.seconds)}
            with open(os.path.join(TABLES, self.crate + ".toml"), "w", encoding="utf-8") as file:
                file.write(written(self.table, self.crate))


def amiss(crate):
    """What is wrong with a crate's table, beside the sources."""
    table, texts = load(crate), files_of(os.path.join(TOP, "crates", crate))
    sites = Sites(crate, texts, [])
    names = collections.Counter(it["name"] for it in table["mutant"])
    yield from ("%s/%s: the name stands twice" % (crate, name) for name, count in names.items() if count > 1)
    for mutant in table["mutant"]:
        label = "%s/%s" % (crate, mutant["name"])
        if applied(texts, mutant) is None:
            yield "%s: an old text doesn't stand once" % label
        elif not is_of(mutant, sites) or "verdict" not in mutant:
            yield "%s: not tried as it stands" % label
        elif mutant["verdict"] not in REFUSED:
            yield "%s: %s" % (label, mutant["verdict"])


def check():
    """Prints what is wrong with the tables; the status to end with."""
    wrong, count = [], 0
    for crate in tables():
        wrong += amiss(crate)
        count += len(load(crate)["mutant"])
    print("\n".join(wrong + ["%d mutants of %d crates, %d wrong" % (count, len(tables()), len(wrong))]))
    return int(bool(wrong))


def is_built(crate):
    """Whether a crate's library, and what its check keeps, are there and not older than its sources."""
    folder = os.path.join(TOP, "crates", crate)
    kept = [os.path.join(folder, "out", name) for name in ("rlib/stamp", "incremental")]
    sources = [os.path.join(folder, path) for path in files_of(folder)]
    return all(map(os.path.exists, kept)) and max(map(os.path.getmtime, sources)) <= os.path.getmtime(kept[0])


def main():
    parser = argparse.ArgumentParser(description=__doc__, formatter_class=argparse.RawDescriptionHelpFormatter)
    parser.add_argument("--check", action="store_true", help="compare the records with the sources")
    parser.add_argument("--jobs", type=int, default=os.cpu_count(), metavar="N", help="how many checks at a time")
    parser.add_argument("crates", nargs="*", metavar="CRATE")
    words = parser.parse_args()
    for crate in words.crates:
        if crate not in tables():
            parser.error("no table of mutants for a crate %s" % crate)
    if words.check:
        return check()
    chosen = words.crates or tables()
    if not all(map(is_built, {low for crate in chosen for low in [crate, *below(crates()[1], crate)]})):
        subprocess.run([os.path.join(TOP, "build"), "--jobs", str(words.jobs), *chosen], check=True)
    with concurrent.futures.ThreadPoolExecutor(words.jobs) as pool:
        for crate in chosen:
            Trial(crate, pool).run()
    return int(any(line for crate in chosen for line in amiss(crate)))


if __name__ == "__main__":
    sys.exit(main())
