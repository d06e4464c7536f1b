"""What the functions of crates are checked by: the parts of the sources that they cite, one through another.

A text cites what its names can mean, so it is rather too much than too little. Comments don't count.
"""
import collections
import functools
import glob
import hashlib
import os
import re
import types

from lib.sources import TOP, read

PARTS = ("src", "specs", "proofs")
HEAD = re.compile(r"^( *)(?:pub(?:\(\w+\))? )?(?:const |unsafe )*fn (\w+)")
PRIVATE = re.compile(r"^(?:const |unsafe )*fn | *pub\(\w+\) (?:const |unsafe )*fn ")  # of a module, or of its crate
START = re.compile(r"(?:pub(?:\([\w ]+\))? )?(?:unsafe |const (?=fn|unsafe))*(fn|struct|enum|union|trait|impl|const"
                   r"|static|type|mod|use|ghost use|macro_rules!|extern|\w+!)(?!\w)(?:<.*>)? ?(\w*)|#!?\[")
USE = re.compile(r"^ *(?:pub(?:\([\w ]+\))? )?(ghost )?use ([^;]*);", re.M)
PATH = re.compile(r"\bRattle\.(\w+)\.(specs|proofs)\.([^\s{}();,]+)")
TACTIC = re.compile(r"#!?\[tactic[^\]]*")
NAMED = re.compile(r"(\w+)::(specs|proofs)::([^\s{}();,]+)")  # by the attribute of a tactic
WORD = re.compile(r"\w+")
TYPE = re.compile(r"\b[A-Z]\w*")
PLAIN = re.compile(r"(?<!(?<!\.)\.)\b\w+")  # what isn't a field or a method
CALL = re.compile(r"(\w*)::(?=(\w+))|\.(?=(\w+)(?:\(|::<))")
BEHIND = re.compile(r"\b[a-z]\w*::(\w+)")  # what follows the name of a module or of a crate
OTHER = re.compile(r"\b(?:type|as) (\w+)")  # names that stand for types
KNOWN = ("Vec", "Box", "String")  # types of Rust, which need no `use`
IMPL = re.compile(r"^(?:impl(?:<.*?>)?|>) ([^(]*?)(?: where .*)?(?: \{)?$")


def crates():
    """The rows of crates.txt: each crate's own row, and the own crates that it stands on."""
    rows = {row.split(":")[0].split()[0]: row for row in read(os.path.join(TOP, "crates.txt")).splitlines()
            if ":" in row and not row.startswith("#")}
    return rows, {name: [low for low in row.split(":")[1].split() if low in rows] for name, row in rows.items()}


def below(stands, name):
    """The own crates that a crate stands on, those far below too."""
    found, todo = set(), list(stands[name])
    while todo:
        low = todo.pop()
        if low not in found:
            found.add(low)
            todo += stands[low]
    return sorted(found)


def files_of(folder, parts=PARTS):
    """The files of a crate, by their paths in it."""
    found = {}
    for part in parts:
        for path in sorted(glob.glob(os.path.join(folder, part, "**", "*.*"), recursive=True)):
            if path.endswith((".rt", ".antt")):
                found[os.path.relpath(path, folder)] = read(path)
    return found


def functions(text):
    """The functions of a source as rt fmt lays it out: name, type (with its trait) or "", and the numbers of the first
    line, of the line that begins the body (the one after the last where there is none) and of the last one, from 1."""
    lines, kind, found = text.split("\n"), "", []
    for number, line in enumerate(lines, 1):
        impl, head = IMPL.match(line), HEAD.match(line)
        if impl:
            kind = impl[1]
        elif line == "}":
            kind = ""
        if head:
            found.append((head[2], kind, number, *extent(lines, number, head[1])))
    return found


def extent(lines, first, indent):
    """The line that begins the body of a function, and its last line."""
    depth = 0
    for number in range(first, len(lines) + 1):
        line = lines[number - 1]
        depth += line.count("{") - line.count("}")
        is_head = number == first or line.startswith((indent + ")", indent + ">"))
        if line == indent + "{" or is_head and line.endswith("{"):
            return number, next((at for at in range(number, len(lines) + 1) if lines[at - 1] == indent + "}"), number)
        if line == indent + "{}" or is_head and depth == 0 and line.endswith("}"):
            return number, number
        if depth == 0 and line.endswith(";"):
            return number + 1, number
    return first, first


def without_comments(path, text):
    """A text without comments and empty lines."""
    mark = "//" if path.endswith(".rt") else "--"
    return "\n".join(line for line in text.split("\n") if line.strip() and not line.lstrip().startswith(mark))


def checksum(parts):
    return hashlib.sha256("".join(parts).encode()).hexdigest()


def is_of_function(path):
    """Whether a file has the proofs of a function, which its folder is named after, and no lemmas."""
    return os.path.basename(path) in ("Answers.antt", "Invariants.antt")


class Unit:
    """A part of the sources that others cite: a file of definitions or lemmas, an item, the head of an `impl` or of a
    trait with its ghost items, the contract of a function, or a whole function with its proofs."""

    name, owner, by_trait = "", None, ""  # of a function

    def __init__(self, code, path, text, is_whole=False, more=()):
        self.code, self.path, self.is_whole = code, path, is_whole
        self.text, self.more = without_comments(path, text), list(more)  # (`more` is cited by no word of the text)
        self.module = [it for it in path[len("src/") : -len(".rt")].split("/") if it not in ("lib", "main")]

    @functools.cached_property
    def words(self):
        return set(WORD.findall(self.text))

    @functools.cached_property
    def imported(self):
        """What a source's text has by `use`; of a whole function, also all traits that its file has by it."""
        seen = self.code.seen
        return sorted({path for name, path in self.code.imports.get(self.path, ()) if name == "*"
                       or any(it in (self.words if WORD.fullmatch(it) else self.text) for it in name.split("◌") if it)
                       or self.is_whole and name[0].isupper() and not path.startswith("ghost ")
                       and (name in seen.traits or name not in seen.items)})

    @functools.cached_property
    def sum(self):
        return checksum([self.code.crate, self.path, self.text, *self.imported])

    @functools.cached_property
    def cited(self):
        """The units that this one cites."""
        seen, found = self.code.seen, list(self.more)
        paths = PATH.findall("\n".join([self.text, *self.imported]))
        for crate, part, path in paths + NAMED.findall("\n".join(TACTIC.findall(self.text))):
            found += self.code.at(crate, part, re.split(r"\.|::", path.rstrip(".:")))
        if self.path.endswith(".rt"):
            uses = " ".join(it for it in self.imported if not it.startswith("ghost "))
            for word in self.words.union(WORD.findall(uses)):
                found += self.reached(word, seen.items.get(word, []) + seen.heads.get(word, []))
            found += [it.contract for it in self.called(self.text + " " + uses)] if self.is_whole else []
        return found

    def reached(self, word, units):
        """Which units of this name the text can mean: its own crate's; those of another where its file has the name by
        `use`, or the name follows a path."""
        is_named = not self.named.isdisjoint((word, "*"))
        return [it for it in units if is_named or it.code is self.code]

    @functools.cached_property
    def named(self):
        names, paths = zip(("", ""), *self.code.imports.get(self.path, ()))
        return {*names, *WORD.findall(" ".join(paths)), *BEHIND.findall(self.text)}

    def called(self, text):
        """The functions that a text may call, by their names alone where no type stands before the name. One of a trait
        keeps what the trait says of that name."""
        kinds, seen = collections.defaultdict(set), self.code.seen
        for kind, name, method in CALL.findall(text) + [("", self.name, "")] * bool(self.by_trait):
            kind = self.owner if kind == "Self" else kind
            kinds[name or method].add(kind if kind in seen.types or kind in KNOWN else "")
        plain = set(PLAIN.findall(text))
        for name in plain.union(kinds):
            free = self.reached(name, [it for it in seen.functions.get(name, ()) if it.owner is None])
            yield from (free if name in plain else ())
            yield from (it for it in seen.functions.get(name, ()) if it.owner is not None
                        and name in kinds and (it.by_trait or {"", it.owner} & kinds[name]))


class Function(Unit):
    """A whole function: of a type or a trait (`owner`), of one without a name (""), or of none."""

    def __init__(self, code, path, lines, place, owner, by_trait, block):
        start, (name, _, first, begin, last) = place
        super().__init__(code, path, "\n".join(lines[start - 1 : last]), True, block)
        self.contract = Unit(code, path, "\n".join(lines[start - 1 : min(begin, last)]), False, block)
        self.name, self.owner, self.by_trait, self.lines = name, owner, by_trait, range(first, last + 1)
        self.is_public = not PRIVATE.match(lines[first - 1])

    def has(self, folder):
        """Whether a folder is one of this function's proofs, or of those of a closure in it."""
        return "#[cycle(%s)]" % folder[-1][1:] in self.text or self.name in WORD.findall(folder[-1]) and (
            folder[: len(self.module)] == self.module if self.owner is None
            else any(word.startswith(self.owner) for it in folder for word in WORD.findall(it)))


class Code:
    """The units of a crate, and what can be seen of those below it."""

    def __init__(self, crate):
        self.crate, (self.rows, stands) = crate, crates()
        self.low, self.texts = below(stands, crate), files_of(os.path.join(TOP, "crates", crate))
        self.common = [Unit(self, "crates.txt", self.rows[crate])]  # what all functions of the crate are checked by
        self.others = {it for path, text in self.texts.items() if path.endswith(".rt") for it in OTHER.findall(text)}
        self.items, self.heads, self.functions, self.imports = [], [], [], collections.defaultdict(list)
        self.lemmas = {path: Unit(self, path, text) for path, text in self.texts.items()
                       if path.endswith(".antt") and not is_of_function(path)}
        for path, text in self.texts.items():
            if path.endswith(".rt"):
                lines, found = text.split("\n"), functions(text)
                for first, last in items(lines):
                    self.add(path, lines, first, last, [it for it in found if first <= it[2] <= last])
        for path in filter(is_of_function, self.texts):
            for it in self.proved_at(path.split("/")[1:-1]):
                it.more.append(Unit(self, path, self.texts[path]))

    def add(self, path, lines, first, last, found):
        """Adds the item in these lines, with the functions in it."""
        head = next(at for at in range(first, last + 1)
                    if START.match(lines[at - 1]) and not lines[at - 1].startswith("#["))
        kind, name = START.match(lines[head - 1]).groups()
        rest, places, after = lines[first - 1 : last], [], first
        for it in found:
            start = it[2]
            while start > after and lines[start - 2].lstrip().startswith(("#[", "//")):
                start -= 1
            if it[2] >= after:  # (what stands within a function is a part of it)
                places.append((start, it))
                after = it[4] + 1
                rest[start - first : after - first] = [""] * (after - start)
        rest = USE.sub(lambda use: self.take_in(path, use), "\n".join(rest))
        owner, trait = header(rest) if kind == "impl" else (name, name) if kind == "trait" else (None, "")
        unit = Unit(self, path, rest, kind == "macro_rules!")
        if unit.text and kind in ("use", "ghost use", "extern") or kind == "mod" and "{" in unit.text or (
                kind and kind.endswith("!") and not unit.is_whole):
            raise SystemExit("%s/%s:%d: an item that isn't understood" % (self.crate, path, head))
        mine = [Function(self, path, lines, it, owner, trait, [unit] * (owner is not None)) for it in places]
        self.functions += mine
        if kind == "impl":
            self.heads.append((owner, trait, unit, [it.contract for it in mine]))
        elif kind in (None, "mod"):
            attributes = [it for it in rest.split("\n") if it.startswith("#") and it != "#[cfg(test)]"]
            self.common += [Unit(self, path, it) for it in attributes]
        elif unit.text:
            self.items.append((kind, name, lines[head - 1].startswith(("pub ", "macro")), unit))

    def take_in(self, path, use):
        """Takes in a `use` of a source; another name that it gives others is as an item of that name."""
        for name, what in imports_of(use):
            self.imports[path].append((name, what))
            if use[0].lstrip().startswith("pub") and " as " in what:
                self.items.append(("use", name, True, Unit(self, path, what, True)))
        return ""

    @functools.cached_property
    def seen(self):
        """What the crate sees, by name: items, heads by the types that they are of, and functions."""
        codes = [self, *map(code_of, self.low)]
        found = types.SimpleNamespace(traits=set(), types=set(), **{
            it: collections.defaultdict(list) for it in ("items", "heads", "functions")})
        for code in codes:
            for kind, name, _, unit in (it for it in code.items if it[2] or code is self):
                found.items[name].append(unit)
                {"trait": found.traits, "struct": found.types, "enum": found.types}.get(kind, set()).add(name)
            for it in code.functions:
                found.functions[it.name] += [it] * (it.is_public or code is self)
        for code in codes:
            public = {it[1]: it[2] for it in code.items}
            for owner, trait, unit, contracts in code.heads:
                for word in [owner] if owner in public else TYPE.findall(unit.text.partition("{")[0]):
                    if code is self or public.get(word, True):
                        found.heads[word] += [unit] + (contracts if trait and trait not in found.traits else [])
        found.types.difference_update(*(it.others for it in codes))
        return found

    def at(self, crate, part, path):
        """The units that a path names; none where it is of a crate that isn't in the repository."""
        if crate not in self.rows and crate != "crate":
            return []
        code = self if crate in ("crate", self.crate) else code_of(crate)
        ends = [at for at, it in enumerate(path) if it in ("Goals", "Given")]
        files = ["%s/%s.antt" % (part, "/".join(path[:end])) for end in range(len(path), 0, -1)]
        found = [code.lemmas[it] for it in files if it in code.lemmas][:1]
        if path[0] in ("declared", "contracts"):  # what is made from a type, a constant, a trait or a function
            found = [unit for kind, name, _, unit in code.items if name in path or "TheConstants" in path
                     and kind in ("const", "static") and unit.module == path[1 : path.index("TheConstants")]]
            found += [it.contract for it in code.functions if it.name in path and path[0] == "contracts"]
        elif ends and not found:
            found = code.proved_at(path[: ends[0]])
        if not found:
            raise SystemExit("%s: `%s.%s.%s` names nothing that is known" % (self.crate, crate, part, ".".join(path)))
        return found

    def proved_at(self, folder):
        """The functions whose proofs may be in a folder."""
        found = [it for it in self.functions if it.has(folder)]
        if not found:
            raise SystemExit("%s: %s has the proofs of no function" % (self.crate, "/".join(folder)))
        return found


code_of = functools.cache(Code)


def items(lines):
    """The first and the last line of each item at the left edge of a source, with its attributes."""
    found, before = [], ";"
    for number, line in enumerate(lines, 1):
        if line.strip() and not line.lstrip().startswith("//"):
            if START.match(line) and before.endswith((";", "}", "]")) and not before.startswith("#["):
                found.append([number, number])
            found[-1][1], before = number, "#[" if line == ")]" else line
    return found


def imports_of(use):
    """What a `use` imports: each name, and the path to it."""
    path, count = " ".join(use[2].split()), 1
    while count:
        path, count = re.subn(r"([^\s{,]*)\{([^{}]*)\}", lambda at: ", ".join(
            at[1] + it.strip() for it in at[2].split(",") if it.strip()), path)
    paths = [it.strip().removesuffix("::self") for it in path.split(",")]
    return [(re.split(r"\.|::| ", it)[-1], (use[1] or "") + it) for it in paths]


def header(text):
    """The type of an `impl`, or "" where it is no single name, and its trait."""
    text, count = re.sub(r"(?m)^ *(#|//).*$", "", text).replace("->", ""), 1
    while count:
        text, count = re.subn(r"<[^<>]*>", "", text)
    trait, kind = re.match(r"impl (?:(.*?) for )?(.*?)(?: where .*?)? ?\{", " ".join(text.split())).groups()
    kind = re.fullmatch(r"(?:& ?(?:'\w+ )?(?:mut )?)?(?:\w+::)*(\w+)", kind.strip())
    return kind[1] if kind else "", WORD.findall(trait)[-1] if trait else ""
