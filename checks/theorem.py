#!/usr/bin/env python3
"""Walks through all that the headline stands on, from the sources, and holds two pages to it.

    checks/theorem.py [--list | --page]

It begins at the clause `ok` of `staged_replay` and the call's premises (`requires`), and follows each name to the file
of specs/ that defines it, or to the file of src/ that declares the type. Where a contract sees a type as another value
(`impl Model`), its `Value` and its `view` are followed, and the types of the fields that the view reads; so are the
members of a trait that types stand for (`F.files`). It checks that each definition in a specs/Reference.antt is reached
so, and none elsewhere but ELSEWHERE; that docs/THEOREM.md has the lines of each crate in a row
`| `crates/NAME` | lines | .. |` and both totals; and that docs/CLAIM.md is what --page writes: all that is reached.
Exits with 1 where one of these doesn't hold. --list prints what it found, and the words from outside the repository.
"""
import argparse
import os
import re
import sys

TOP = os.path.dirname(os.path.dirname(os.path.abspath(__file__)))
CLAUSE_FILE, CLAUSE_FUNCTION = "crates/replay/src/staged.rt", "pub fn staged_replay<"
THEOREM, CLAIM = os.path.join("docs", "THEOREM.md"), os.path.join("docs", "CLAIM.md")
# What is reached outside a Reference.antt: how a contract sees a device, that it can fail, and the plan of a floor, which
# the settings' view has beside what is served.
ELSEWHERE = {
    "crates/devices/specs/Devices.antt": {"Device", "ahead_unless", "CanFail"},
    "crates/stage_graph/specs/Layouts.antt": {"Layout"},
}
# The crates in the order of the page, each with what it says; the clause's own comes first.
CRATES = [
    ("replay", "the clause"), ("reference", "what is answered"), ("captures", "the text of a capture"),
    ("arrivals", "the messages that arrive"), ("http_requests", "the messages of a text"),
    ("paths", "what a request asks for"), ("cost_model", "what a request costs"), ("admission", "who is turned away"),
    ("token_bucket", "what a rate gives"), ("responses", "the text of a reply"), ("page_cache", "the media types"),
    ("devices", "readers and writers"), ("stage_graph", "the plan of a floor"),
]
PRELUDE = {"Option", "Result", "Vec", "Box", "String", "Send", "Sync"}
QUIET = re.compile(r'"(?:[^"\\]|\\.)*"|--.*|^\s*//.*', re.MULTILINE)
TOKEN = re.compile(r"[^\s(){}\[\],;λ]+")
HEAD = re.compile(r"(?=(?:abbrev|unfoldable|pub|opaque|record|data) |(?!use |--)\S+ : )"
                  r"(?:(?:abbrev|unfoldable|pub|opaque|record|data) )*(\S+)")
IMPORT = re.compile(
    r"^(?:ghost |pub )?use (?:Rattle\.)?(?P<crate>\w+)\.(?:specs\.)?(?P<path>[\w.]+?)"
    r"(?:\.\{(?P<names>[^}]*)\})?(?: as (?P<alias>\w+))?;?$"
)
TYPE = re.compile(r"^(?:pub(?:\([^)]*\))? )?(?P<kind>struct|enum|trait) (?P<name>\w+)(?P<bounds>[^{;(]*)", re.MULTILINE)
MODEL = re.compile(r"^impl(?P<bounds>[^{;]*?)\b(?:std::marker::)?Model for (?P<name>\w+)", re.MULTILINE)
USE = re.compile(r"^(?:pub(?:\([^)]*\))? )?use ([^;]+);", re.MULTILINE)
MEMBER = re.compile(r"^    ghost (\w+)(?: =|:)", re.MULTILINE)
ROW = re.compile(r"^\| `crates/(\w+)` \| (\d+) \|", re.MULTILINE)
OPEN, CLOSE = "(<[{", ")>]}"


class Absent(Exception):
    """Something that is named stands nowhere."""


def read(path):
    try:
        with open(os.path.join(TOP, path), encoding="utf-8") as file:
            return file.read()
    except FileNotFoundError:
        raise Absent("%s: no such file" % path) from None


def source(path):
    """The text of a source, with each import in one line."""
    return re.sub(r"\buse Rattle\.[^{}\n]*\{[^}]*\}", lambda found: " ".join(found[0].split()), read(path))


def is_crate(name):
    return os.path.isdir(os.path.join(TOP, "crates", name))


def tokens(text):
    """The words of a text, each with what stands behind its dots: no comments, no texts in quotes, no `x.` after λ."""
    return [token.split(".") for token in TOKEN.findall(QUIET.sub(" ", text)) if not token.endswith(".")]


def parts(text):
    """What stands between the commas of a text that are in no brackets."""
    depth, found = 0, [""]
    for sign in text.replace("->", "→"):
        depth += (sign in OPEN) - (sign in CLOSE)
        if sign == "," and not depth:
            found.append("")
        else:
            found[-1] += sign
    return [part.strip() for part in found if part.strip()]


def enclosed(text, at):
    """What stands between the bracket there and the one that closes it, and what follows."""
    text, depth = text.replace("->", "→ "), 0
    for end in range(at, len(text)):
        depth += (text[end] in OPEN) - (text[end] in CLOSE)
        if not depth:
            return text[at + 1:end], text[end + 1:]
    raise Absent("a bracket that is not closed: %s" % text[at:at + 40])


def bounds_of(text):
    """The bounds of type parameters, as `<F: Tree + Send, T>` has them."""
    if "<" not in text:
        return {}
    pairs = [part.partition(":")[::2] for part in parts(enclosed(text, text.index("<"))[0])]
    return {name.strip(): [bound.strip() for bound in bounds.split("+")] for name, bounds in pairs}


def types_of(text):
    """The names of types in a text, with the paths before them."""
    return [name for name in re.findall(r"(?:\w+::)*\w+", text) if name.rpartition("::")[2][0].isupper()]


class Names:
    """Where the words of a text come from: by imports, or by type parameters (`bounds`) and values (`values`, with
    their types), which a file of code knows."""

    def __init__(self, path, lines, code=None, bounds=None, values=None):
        self.path, self.code, self.bounds, self.values = path, code, bounds or {}, values or {}
        self.imported, self.aliases, self.defined, self.signs = {}, {}, {}, {}
        strange = [line for line in lines if re.match(r"(?:ghost |pub )?use Rattle\.", line) and not IMPORT.match(line)]
        if strange:
            raise Absent("%s: an import that isn't understood: %s" % (path, strange[0]))
        for found in filter(None, map(IMPORT.match, lines)):
            module = found["crate"], found["path"]
            if not found["names"]:
                self.aliases[found["alias"] or found["path"].rpartition(".")[2]] = module
            for item in filter(None, map(str.strip, (found["names"] or "").split(","))):
                old, _, new = item.partition(" as ")
                self.imported[new or old] = module, old
        self.name_signs(self.imported)

    def name_signs(self, names):
        """The signs of an operator stand for its name: `≤` for `◌≤◌`, and `do` for that which it is short for."""
        self.signs.update((sign, name) for name in names if "◌" in name for sign in name.split("◌") if sign)
        self.signs.update(("do", name) for name in names if name == "◌>>=◌")


class Spec(Names):
    """A file of specs/: the lines of each definition with the comment before it, and of the comment above its part."""

    def __init__(self, path):
        text = source(path)
        super().__init__(path, text.split("\n"))
        self.part_of, part, at = {}, None, 1
        # (an indented line goes on with what came before, as in `mutual`)
        for paragraph in re.split(r"\n\n(?! )", text):
            block = [line for line in paragraph.split("\n") if line and not line.startswith("use ")]
            heads = self.heads(block)
            for name in heads:
                self.defined[name], self.part_of[name] = (at, block), part
            if block and not heads and "\nuse " not in "\n" + paragraph:
                part = at, block
            at += paragraph.count("\n") + 2
        self.name_signs(self.defined)

    @staticmethod
    def heads(block):
        """The names that a block defines: those of `mutual` definitions and of constructors are indented."""
        is_deep = any(re.match(r"(?:\w+ )*(mutual|data)\b", line) for line in block)
        found = [HEAD.match(line.strip() if is_deep else line) for line in block if not line.strip().startswith("--")]
        return [head[1] for head in found if head and head[1] != "mutual"]


class Code:
    """A file of src/: its imports, and where its types, its traits and the models of its types begin."""

    def __init__(self, path):
        self.path, self.crate = path, path.split("/")[1]
        self.text = source(path)
        self.lines = self.text.split("\n")
        self.modules = re.findall(r"(?m)^(?:pub(?:\([^)]*\))? )?mod (\w+);", self.text)
        self.folder = [part for part in path[:-3].split("/")[3:] if part != "lib"]
        self.imported = {}
        for tree in USE.findall(self.text):
            self.imported.update(self.leaves(" ".join(tree.split())))
        self.types = {found["name"]: found for found in TYPE.finditer(self.text)}
        self.models = {found["name"]: found for found in MODEL.finditer(self.text)}

    @classmethod
    def leaves(cls, tree, before=()):
        """The names that a tree of imports gives, each with its path."""
        if tree.endswith("}"):
            head, _, rest = tree.partition("{")
            for part in parts(rest[:-1]):
                yield from cls.leaves(part, before + tuple(filter(None, head.strip().split("::"))))
        else:
            path, _, new = tree.partition(" as ")
            path = before + tuple(path.split("::"))
            path = path[:-1] if path[-1] == "self" else path
            yield new or path[-1], path

    def item(self, found):
        """The place of an item's first line, the comment before it, and its lines, without derives."""
        at = self.text.count("\n", 0, found.start())
        first, last = at, at
        while re.match(r"(///|#\[)", self.lines[first - 1]):
            first -= 1
        while not self.lines[at].endswith((";", "}")) and self.lines[last] not in ("}", ");"):
            last += 1
        comment = [line for line in self.lines[first:at] if line.startswith("///")]
        return first + 1, comment, [line for line in self.lines[at:last + 1] if not re.match(r"\s*(#\[|$)", line)]

    def opening(self, found):
        """The lines of an item up to the one that opens its body."""
        lines = self.item(found)[2]
        return lines[:1 + next(at for at, line in enumerate(lines) if line.endswith("{"))]

    def imports(self, found):
        """The imports that the members of a trait or an `impl` see."""
        return [line.strip() for line in self.item(found)[2] if line.startswith("    ghost use ")]

    def members(self, found):
        """The ghost members of a trait or an `impl`, each with the comment before it."""
        members, before, current = {}, [], None
        for line in self.item(found)[2][len(self.opening(found)):-1]:
            start = MEMBER.match(line)
            if start:
                members[start[1]] = current = before + [line]
                before = []
            elif line.startswith("    //"):
                before, current = before + [line], None
            elif current and re.match(r"     |    }", line):
                current.append(line)
            else:
                before, current = [], None
        return members


def fields_of(lines):
    """The types of a struct's fields by their names, or those in an enum's variants."""
    text = re.sub(r"(?m)//.*", "", "\n".join(lines))
    start = re.search(r"\b(struct|enum) \w+", text)
    rest = text[start.end():].lstrip()
    rest = enclosed(rest, 0)[1].lstrip() if rest.startswith("<") else rest
    opening = re.search(r"[{(;]", rest)
    inside = parts(enclosed(rest, opening.start())[0]) if opening and opening[0] != ";" else []
    if start[1] == "enum":
        inside = [part for variant in inside for part in parts(re.sub(r"^\w+\s*[({]?|[)}]$", "", variant))]
    fields = {}
    for place, part in enumerate(inside):
        name, colon, kind = re.sub(r"^pub(\([^)]*\))? ", "", part).partition(": ")
        fields.setdefault(name if colon else str(place), []).append(kind if colon else name)
    return {name: " ".join(kinds) for name, kinds in fields.items()}


class Call:
    """The call whose clause is followed: its head, and its clauses with the comments before them."""

    def __init__(self):
        self.code = Code(CLAUSE_FILE)
        lines = self.code.lines
        first = next(i for i, line in enumerate(lines) if line.startswith(CLAUSE_FUNCTION))
        self.at, self.head, self.clauses, before = first + 1, [], [], []
        for line in lines[first:lines.index("{", first)]:
            start = re.match(r"    (requires|ensures)\*? ?(\w*) ?\{", line)
            if start:
                self.clauses.append((start[1], start[2], before + [line]))
            elif re.match(r"    //", line):
                before = before + [line]
                continue
            else:
                (self.clauses[-1][2] if self.clauses else self.head).append(line)
            before = []
        if not any(name == "ok" for _, name, _ in self.clauses):
            raise Absent("%s: no clause ok of %s" % (CLAUSE_FILE, CLAUSE_FUNCTION))

    def kept(self, whole):
        """The clauses that are followed: the premises and `ok`, or all."""
        return [clause for clause in self.clauses if whole or clause[0] == "requires" or clause[1] == "ok"]

    def names(self, text):
        """What the words of a clause mean."""
        generics, rest = enclosed("\n".join(self.head), len(CLAUSE_FUNCTION) - 1)
        params, answer = enclosed(rest, 0)
        values = {name.strip(): kind for name, _, kind in (part.partition(":") for part in parts(params))}
        answer = answer.replace("→", " ").strip()
        types = parts(enclosed(answer, answer.index("<"))[0]) if answer.startswith("Result<") else [answer]
        read_of = {"IfOk": types[:1], "IfErr": types[-1:]}.get("".join(re.findall(r"\bIf\w+(?= result)", text)), types)
        values["result"] = " ".join(read_of)
        return Names(CLAUSE_FILE, self.code.lines, self.code, bounds_of("<%s>" % generics), values)


class Walk:
    """All that the clauses of the call cite, directly or not: of each file the lines by their places, with what they
    define; and what is cited from outside the repository, and where."""

    def __init__(self, whole=False):
        self.specs, self.codes, self.files, self.parts, self.used = {}, {}, {}, {}, {}
        self.outside, self.absent, self.todo = {}, [], []
        self.call = Call()
        clauses = self.call.kept(whole)
        head = [line for line in self.call.head + [line for clause in clauses for line in clause[2]] if line.strip()]
        self.files[CLAUSE_FILE] = {"staged_replay": (self.call.at, head)}
        for clause in reversed(clauses):
            text = "\n".join(clause[2])
            self.attempt(self.cite, self.call.names(text), text)
            if clause[1] == "ok":
                self.first = [(path, name) for path in self.files for name in self.files[path] if path in self.specs]
        while self.todo:
            self.attempt(self.cite, *self.todo.pop(0))

    def attempt(self, action, *given):
        try:
            action(*given)
        except Absent as lack:
            self.absent.append(str(lack))

    def cite(self, names, text):
        """Follows the words of a text."""
        for first, *behind in tokens(text):
            first = names.signs.get(first, first)
            field = ".".join([first] + behind[:1])
            if first in names.bounds and behind:
                self.attempt(self.member, names, names.bounds[first], behind[0])
            elif field in names.values or first in names.values:
                kind = names.values[field if field in names.values else first]
                self.attempt(self.follow, names.code, kind, names.bounds)
            elif first in names.defined:
                self.definition(names, first)
            elif first in names.imported:
                self.attempt(self.meet, names, first, *names.imported[first])
            elif first in names.aliases:
                self.attempt(self.meet, names, first, names.aliases[first], behind[0] if behind else "")

    def meet(self, names, word, module, name):
        """Follows a name of a module."""
        path, kind = place_of(*module)
        self.used.setdefault(names.path, {})[word] = module, path, kind, name, word in names.aliases
        if not path:
            self.outside.setdefault(module, set()).add(name)
        elif kind:
            self.type(path, kind)
            if name == "invariant":
                self.view(self.code(path), kind, {}, ("Value", "view", name))
        else:
            spec = self.specs[path] if path in self.specs else self.specs.setdefault(path, Spec(path))
            if name in spec.imported and name not in spec.defined:
                self.meet(spec, name, *spec.imported[name])
            else:
                self.definition(spec, name)

    def definition(self, spec, name):
        if name not in spec.defined:
            raise Absent("%s: no definition %s" % (spec.path, name))
        if name not in self.files.setdefault(spec.path, {}):
            self.files[spec.path][name] = spec.defined[name]
            if spec.part_of[name]:
                self.parts.setdefault(spec.path, {}).update([spec.part_of[name]])
            self.todo.append((spec, "\n".join(spec.defined[name][1])))

    def code(self, path):
        if path not in self.codes:
            self.codes[path] = Code(path)
        return self.codes[path]

    def find(self, code, name):
        """The file that declares a type or a trait, and its name there; no file where it is another repository's."""
        first, *rest = name.split("::")
        if first in code.types and not rest:
            return code.path, first
        if first in PRELUDE and first not in code.imported and not rest:
            return None, first
        if first not in code.imported and not rest:
            raise Absent("%s: no type %s" % (code.path, name))
        crate, *path = list(code.imported.get(first, (first,))) + rest
        if crate in code.modules:
            crate, path = code.crate, code.folder + [crate] + path
        elif crate == "crate":
            crate = code.crate
        elif re.search(r"\b%s\b" % crate, "std " + read("crates.txt")) and not is_crate(crate):
            return None, "::".join([crate] + path)
        module = "crates/%s/src/%s.rt" % (crate, "/".join(path[:-1]) or "lib")
        return self.find(self.code(module), path[-1])

    def follow(self, code, text, bounds):
        """Follows the types that a text of code names."""
        for name in types_of(text):
            if name.split("::")[0] not in bounds:
                path, kind = self.find(code, name)
                if path:
                    self.used.setdefault(code.path, {})[name.rpartition("::")[2]] = None, path, kind, kind, False
                    self.type(path, kind)

    def type(self, path, name):
        """Follows a type: by what contracts see of it, or by its fields."""
        code = self.code(path)
        if name in self.files.get(path, {}):
            return
        if name not in code.types:
            raise Absent("%s: no type %s" % (path, name))
        at, comment, lines = code.item(code.types[name])
        self.files.setdefault(path, {})[name] = at, comment + lines
        fields = fields_of(lines)
        if name in code.models:
            self.view(code, name, fields)
        else:
            bounds = bounds_of(code.types[name]["bounds"])
            for kind in fields.values():
                self.attempt(self.follow, code, kind, bounds)

    def view(self, code, name, fields, kept=("Value", "view")):
        """Follows what contracts see of a type: its `Value`, its `view`, and the fields that this reads."""
        found = code.models[name]
        members = code.members(found)
        for member in kept:
            if member not in members:
                raise Absent("%s: no %s of %s" % (code.path, member, name))
        lines = [line for member in kept for line in members[member]]
        text = re.sub(r"\bghost \w+", " ", "\n".join(lines))
        values = {"self": " ".join(fields.values())}
        for taken in re.findall(r"\{ λ (\w+)\.", text):
            values[taken] = values["self"]
            values.update(("%s.%s" % (taken, field), kind) for field, kind in fields.items())
        if len(values) == 1:
            text += " self"
        block = code.item(found)[0], code.opening(found) + lines + ["}"]
        if self.files[code.path].get("view of " + name) == block:
            return
        self.files[code.path]["view of " + name] = block
        self.todo.append((Names(code.path, code.imports(found), code, bounds_of(found["bounds"]), values), text))

    def member(self, names, bounds, member):
        """Follows a member of the traits that a type parameter is bound by."""
        for bound in bounds:
            path, name = self.find(names.code, bound.partition("<")[0])
            if not path:
                continue
            code = self.code(path)
            found = code.types[name]
            lines = code.members(found).get(member)
            if lines:
                at, comment, _ = code.item(found)
                self.files.setdefault(path, {})[name] = at, comment + code.opening(found) + lines + ["}"]
                self.todo.append((Names(path, code.imports(found), code), "\n".join(lines)))
                return
        self.outside.setdefault(("std", "traits"), set()).add("%s.%s" % (" + ".join(bounds), member))

    def lines(self, path):
        """The lines of a file that are reached, by their places: those of definitions, and of the parts they are in."""
        return sorted({**self.parts.get(path, {}), **dict(self.files[path].values())}.items())

    def count(self, path):
        return sum(len(lines) for _, lines in self.lines(path))

    def total(self):
        return sum(map(self.count, self.files))


def place_of(crate, module):
    """The file that a module of specs/ stands in, or the one that declares a type of the code, and this type; neither
    outside the repository."""
    if not is_crate(crate):
        return None, None
    names = module.split(".")
    if names[0] == "declared":
        for end in range(len(names), 1, -1):
            path = "crates/%s/src/%s.rt" % (crate, "/".join(names[1:end]))
            if end < len(names) and os.path.isfile(os.path.join(TOP, path)):
                return path, names[end]
    return "crates/%s/%s.antt" % (crate, "/".join(["specs"] * (names[0] != "proofs") + names)), ""


def strays(walk):
    """What breaks the sentence: a definition reached outside a Reference.antt, or one in it that isn't reached."""
    for path in walk.specs:
        known = walk.files[path] if path.endswith("/Reference.antt") else ELSEWHERE.get(path, set())
        names = [name for name in walk.files[path] if name not in known]
        if names:
            yield "%s: reached outside a Reference.antt: %s" % (path, ", ".join(names))
    for path in sorted(set(ELSEWHERE) | set(references())):
        wanted = ELSEWHERE.get(path) or Spec(path).defined
        unread = [name for name in wanted if name not in walk.files.get(path, {})]
        if unread:
            yield "%s: not reached: %s" % (path, ", ".join(sorted(unread)))


def references():
    for crate in sorted(os.listdir(os.path.join(TOP, "crates"))):
        path = "crates/%s/specs/Reference.antt" % crate
        if os.path.isfile(os.path.join(TOP, path)):
            yield path


def by_crate(walk):
    """The files of each crate, its types before its definitions, in the order of the page; the clause's first."""
    crates = {}
    for path in sorted(walk.files, key=lambda path: path in walk.specs):
        crates.setdefault(path.split("/")[1], []).append(path)
    order = list(dict(CRATES))
    return {crate: crates[crate] for crate in sorted(crates, key=lambda crate: (order + [crate]).index(crate))}


def differences(walk, total):
    """Where the rows and the totals of the page differ from what was found."""
    page = read(THEOREM)
    stated = {crate: int(lines) for crate, lines in ROW.findall(page)}
    found = {crate: sum(map(walk.count, files)) for crate, files in by_crate(walk).items()}
    for crate in found:
        if crate not in stated:
            yield "crates/%s: not in %s" % (crate, THEOREM)
        elif stated[crate] != found[crate]:
            yield "crates/%s: %d lines, and %s says %d" % (crate, found[crate], THEOREM, stated[crate])
    for crate in stated:
        if crate not in found:
            yield "crates/%s: in %s, and not reached" % (crate, THEOREM)
    totals = "{:,} lines for `ok` and its premises, {:,} for all clauses of the call".format(walk.total(), total)
    if totals not in page:
        yield "%s doesn't say: %s" % (THEOREM, totals)


def owners(walk):
    """The places where each name is defined, declared, or a variant, as far as one of them is in the repository."""
    places = {}
    for path, names in walk.files.items():
        for name in names:
            places.setdefault(name, set()).add((path, name))
    for words in walk.used.values():
        for module, path, kind, name, _ in words.values():
            places.setdefault(name, set()).add((path, kind or name) if path else module)
    return {name: places for name, places in places.items() if any("/" in path for path, _ in places)}


def notes(walk, at, text):
    """What words of a text mean that mean something else in other files, or that have another name where they come
    from."""
    cited, places = {first for first, *_ in tokens(text.replace("<", " ").replace(">", " "))}, owners(walk)
    for word, (module, path, kind, name, is_module) in walk.used.get(at, {}).items():
        if word not in cited or path == at or not (is_module or word != name or len(places.get(name, ())) > 1):
            continue
        if kind and kind != name:
            meant = "the variant %s of %s in %s" % ("X" if is_module else name, kind, path)
        else:
            meant = "%s of %s" % (name if word != name else "that", path or " ".join(module))
        yield "here %s is %s" % (word + ".X" if is_module else word, meant)


HEAD_OF_PAGE = """\
# The claim, whole

This is all that the clause `ok` of `staged_replay` cites, directly or not, with the call's premises: {lines} lines, \
comments included, of {files} files. `checks/theorem.py --page` writes this page from the sources, and the gate fails \
where it differs from them. [THEOREM.md](THEOREM.md) explains it.

**Order.** The clause comes first, then one crate after another, from the answer down to the readers and writers, so \
that you know what a name is for before you meet its definition; within a file a definition follows what it uses, as \
it does there, so that parts and their comments stay whole.

**Values.** A clause sees a value of Rust as a number, a list or a record. Where a type has an `impl Model`, it sees \
what `view` makes of the fields, a `Value`: so `settings.now` is a `Choice`. `.old` and `.new` are the views before \
and after the call. `F.files` is the list of files that the type `F` stands for. What Rust calls `Slip<F>` and \
`ResponseKind<F>`, the definitions call `Slip X` and `ResponseKind X`.

**Names.** A name means the definition in its own file where there is one. A comment that begins with `here` says what \
a name means that means something else in another file, or has another name there.

**Left out.** Imports, derives, and the invariants of types (which say what values a type has) where nothing here \
cites them. The last section lists what comes from outside the repository.
"""


def page(walk):
    """The text of the page with all that is reached."""
    text = [HEAD_OF_PAGE.format(lines="{:,}".format(walk.total()), files=len(walk.files))]
    text += ["## The clause, and the definitions that it cites\n", fenced(walk, CLAUSE_FILE, walk.lines(CLAUSE_FILE))]
    first = {path: [walk.files[path][name] for file, name in walk.first if file == path] for path, _ in walk.first}
    text += [fenced(walk, path, blocks) for path, blocks in first.items()]
    first[CLAUSE_FILE] = walk.lines(CLAUSE_FILE)
    for crate, paths in by_crate(walk).items():
        rest = {path: [block for block in walk.lines(path) if block not in first.get(path, ())] for path in paths}
        rest = [fenced(walk, path, blocks) for path, blocks in rest.items() if blocks]
        text += ["## `%s`: %s\n" % (crate, dict(CRATES).get(crate, "what else is cited")), *rest] if rest else []
    text.append("## From outside the repository\n")
    words = ["%s %s: %s" % (*module, " ".join(sorted(names))) for module, names in sorted(walk.outside.items())]
    return "\n".join(text + ["```text", *words, "```", ""])


def fenced(walk, path, blocks):
    """These blocks of a file's lines, as one block of the page."""
    language, sign = ("text", "--") if path in walk.specs else ("rust", "//")
    texts = ["\n".join(lines) for _, lines in blocks]
    head = ["%s %s" % (sign, line) for line in [path, *notes(walk, path, "\n".join(texts))]]
    return "```%s\n%s\n```\n" % (language, "\n\n".join(["\n".join(head)] + texts))


def stale(walk):
    """Whether the page is another than --page would write."""
    current, wanted = read(CLAIM).split("\n"), page(walk).split("\n")
    if current != wanted:
        shorter = min(len(current), len(wanted))
        at = next((at for at, pair in enumerate(zip(current, wanted)) if pair[0] != pair[1]), shorter)
        yield "%s: line %d is not what the sources say; write it by checks/theorem.py --page" % (CLAIM, at + 1)


def print_found(walk):
    for crate, paths in by_crate(walk).items():
        for path in paths:
            print("%4d %s: %s" % (walk.count(path), path, ", ".join(walk.files[path])))
    print("%d lines in %d files" % (walk.total(), len(walk.files)))
    for (crate, module), names in sorted(walk.outside.items()):
        print("outside: %s %s: %s" % (crate, module, ", ".join(sorted(names))))


def checked(walk):
    """What is wrong."""
    whole = Walk(whole=True)
    wrong = walk.absent + [lack for lack in whole.absent if lack not in walk.absent]
    for found in strays(walk), differences(walk, whole.total()), stale(walk):
        try:
            wrong += found
        except Absent as lack:
            wrong.append(str(lack))
    return wrong


def main():
    parser = argparse.ArgumentParser(description=__doc__, formatter_class=argparse.RawDescriptionHelpFormatter)
    parser.add_argument("--list", action="store_true", help="print the files, their lines and the names in them")
    parser.add_argument("--page", action="store_true", help="write " + CLAIM)
    options = parser.parse_args()
    try:
        walk = Walk()
    except Absent as lack:
        print("%s\n0 files, 1 wrong" % lack)
        return 1
    if options.list:
        print_found(walk)
        return 0
    if options.page:
        with open(os.path.join(TOP, CLAIM), "w", encoding="utf-8") as file:
            file.write(page(walk))
    wrong = checked(walk)
    print("\n".join(wrong + ["%d files, %d wrong" % (len(walk.files), len(wrong))]))
    return int(bool(wrong))


if __name__ == "__main__":
    sys.exit(main())
