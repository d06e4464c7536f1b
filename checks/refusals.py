#!/usr/bin/env python3
"""Looks at each place of the sources where "out of memory" is answered: it has to come from a refusal of the allocator.

    checks/refusals.py

No contract can forbid a body to answer out of memory at will, so it is looked at by syntax. Each mention of a name of
such an answer (NAMES) makes one, but in a type, in a pattern and beside `==`, where one is read. One may be made

- in a `From` of the allocator's own error;
- where a call was refused whose only error is that: in an arm `Err(_)`, the `else` of a `let`, an `if let`, a
  `map_err`. The call's signature says so, or a clause of its contract, or CALLS of the library's;
- where one is passed on: in an arm without a guard whose pattern has one in each alternative; in an arm or an `if`
  whose whole condition is that a fault is one.

Each other place stands in REASONS, by its file, its function and its line, with a reason for each mention. Refused
besides are another name for such an answer, `fmt::Error` (of which a text's `format!` makes one), and a request whose
size is a constant above MOST. Exits with 1 where something is refused, or where a list names what isn't there.
checks/test_refusals.py plants what has to be refused.
"""
import bisect
import collections
import functools
import glob
import os
import re
import sys

from lib import rattle_syntax
from lib.report import end
from lib.sources import TOP, read
from lib.usage import parser_of

# The allocator's own errors; and the names of an answer "out of memory": these, variants and a constant.
OWN_ERRORS = {"AllocError", "AllocFailed", "Memory"}
NAMES = OWN_ERRORS | {"NoMemory", "MEMORY", "OutOfMemory"}
CONDITION = re.compile(
    r"(\w+(?: \. \w+)*) \. (?:kind(?: \( \))? == (?:\w+ :: )+(?:%s)|is_memory \( \))" % "|".join(sorted(NAMES)))
CONTRACT = re.compile(r"IfErr result \( λ (\w+) [.] \1 ≡ \w+ [.] Memory \)")
FORMAT_ERROR = ["fmt", "::", "Error"]
IMPORTED = re.compile(r"\bfmt :: (?:Error\b|\{[^{}]*\bError\b)")
MOST = 1 << 20  # bytes, or items
SIZED = {"with_capacity", "reserve", "reserve_exact", "resize", "vec"}
# The library's calls whose only error is that of the allocator, each with its type.
CALLS = {
    ("BufReader", "with_capacity"): "its contract: the kind of its error is `OutOfMemory`",
    ("LruCache", "put"): "Result<_, AllocFailed<_>>",
    ("Vec", "with_capacity"): "Result<_, AllocError>",
    ("macro", "format"): "a text's: Result<_, AllocError>",
    ("macro", "vec"): "Result<_, AllocError>",
}
STICKY = "a cutter that was refused memory answers so from then on"
REASONS = {
    ("faults/src/fault.rt", "reported", "Fault::Settings(_) | Fault::Memory => Reported::Memory,"):
        "an arm above takes all faults of the settings but this one",
    ("http_requests/src/cutting.rt", "cut", "CutterState::Failed => Err(AllocError),"): STICKY,
    ("http_requests/src/cutting.rt", "feed", "return Err(AllocError);"): STICKY,
    ("paths/src/name_index.rt", "make_slots", "None => Err(AllocError),"):
        "more slots than a number counts; the index stays empty, and no call answers so",
    ("replay/src/parts.rt", "of_unrun", "ReplayFault::Memory"):
        "a floor has no run where memory or threads were refused; a step stops it where it was refused memory",
    ("runs/src/running.rt", "reported", "Err(Fault::Memory)"):
        "a buffer whose device didn't fail refuses bytes where there is no memory for them alone",
    ("runs/src/snapshotting.rt", "unwritten", "_ => Fault::Memory,"):
        "the writer has no other fault left, by its contract",
    ("settings/src/config.rt", "default_settings", "Err(_) => Err(AllocError),"):
        "the defaults break no rule, so no other fault is left",
    ("settings/src/config_fault.rt", "MEMORY", "kind: ConfigFaultKind::Memory,"): "the name of this answer",
    ("stage_graph/src/floor.rt", "open", "return Err(Memory);"):
        "a sum of events that no 64 bits hold can't be reserved",
    ("stage_graph/src/helpers/passage.rt", "run", "return Err(Unrun::Memory);"):
        "a sum of items that no 64 bits hold: no memory holds so many",
    ("stage_graph/src/helpers/passage.rt", "taken_out", "return Err(Unrun::Memory);"): [
        "the place of a chunk that has no note: no floor ends with more items than were laid on it",
        "a chunk that isn't the noted one, or of which a step was refused memory: neither is among a floor's done "
        "items",
        "fewer chunks than were noted: no floor ends as a run without all its items"],
    ("stage_graph/src/helpers/sections.rt", "end", "return Err(Unrun::Memory);"): [
        "no floor in the scheduler: one thread lays one and takes it back",
        "another floor than was laid: the same",
        "a worker that may not leave: the calling thread takes a floor back that has ended"],
    ("stage_graph/src/notes.rt", "note", "return Err(AllocError);"): [
        "more values than are noted in any time",
        "a register that is longer than its one holder knows: it alone adds to it"],
}


class Sources:
    """Sources by their files, and what is to be known of the functions, the fields and the constants of all."""

    def __init__(self, texts):
        self.parsed = {path: parsed(path, text) for path, text in texts.items()}
        self.functions, self.constants, self.fields = collections.defaultdict(list), collections.defaultdict(list), {}
        self.called = set()  # of CALLS
        self.names = set()  # of all functions
        for source in self.parsed.values():
            self.fields.update(source.fields)
            for item in source.items:
                if item.kind == "fn":
                    self.functions[item.owner, item.name].append((source, item))
                    self.names.add(item.name)
                elif item.kind == "const":
                    self.constants[item.name].append((source, item))

    def fails_by_memory_alone(self, source, owner, name):
        """Whether the only error of a call, of a function of a type or of none, is the allocator's own."""
        found = self.functions[owner, name]
        here = [(other, item) for other, item in found if crate_of(other.path) == crate_of(source.path)]
        if not found and (owner, name) in CALLS:
            self.called.add((owner, name))
            return True
        return bool(found) and all(is_own(*one) for one in here or found)

    def value(self, source, low, high, local=()):
        """The value of an expression of constants alone; None of another one."""
        words = []
        for word in source.words[low:high]:
            known = dict(local).get(word)
            if known is None and re.fullmatch("[A-Z][A-Z0-9_]*", word) and word != "MAX":
                values = {self.value(other, item.low + 1, item.high) for other, item in self.constants[word]}
                known = max((value for value in values if value is not None), default=None)
            words.append(word if known is None else str(known))
        return rattle_syntax.computed(words)


def crate_of(path):
    return path.split("/")[0]


@functools.lru_cache(maxsize=1000)
def parsed(path, text):
    """A source, once for each text."""
    return rattle_syntax.Source(path, text)


def is_own(source, item):
    """Whether a function's only error is the allocator's own: by its signature, or by a clause of its contract."""
    words = source.words[item.result[0]:item.result[1]]
    last = source.split(*source.arguments(*item.result), ",")[-1:] if words[:1] == ["Result"] else []
    if last and source.head(*last[0]) in OWN_ERRORS:
        return True
    place = bisect.bisect_left(source.clauses, (item.start, ""))
    return any(CONTRACT.search(text) for at, text in source.clauses[place:] if at <= item.low)


class Body:
    """A function's body, or the value of a constant."""

    def __init__(self, sources, source, item):
        self.sources, self.source, self.item = sources, source, item
        self.words = source.words

    def text(self, low, high):
        return " ".join(self.words[low:high])

    def path(self, at):
        """From where to where the path of a name goes."""
        low, high = at, at + 1
        while self.words[low - 1] == "::" and rattle_syntax.is_name(self.words[low - 2]):
            low -= 2
        while self.words[high] == "::" and rattle_syntax.is_name(self.words[high + 1]):
            high += 2
        return low, high

    def around(self, at):
        """The brackets around a place within the body, each with the place of what it is in there, from the inmost."""
        while at > self.item.low:
            yield self.source.opener[at], at
            at = self.source.opener[at]

    def is_read(self, at):
        """Whether a mention makes nothing: in a type, in a pattern, beside `==`, or as the conversion of the
        allocator's own error."""
        low, high = self.path(at)
        if self.text(at + 1, high) == ":: from":
            return self.words[at] in OWN_ERRORS
        beside = {self.words[low - 1], self.words[high]}
        is_type = self.source.is_in_type(low) or self.words[low - 1] == "->"
        return is_type or bool(beside & {"==", "!="}) or any(self.is_in_pattern(*place) for place in self.around(at))

    def is_refused(self, at):
        """Whether an answer is made only where the allocator refused."""
        return self.item.converted in OWN_ERRORS or any(self.is_given(*place) for place in self.around(at))

    def is_in_pattern(self, outer, at):
        """Whether a place, in the brackets that open there, is in a pattern."""
        arm = self.arm_at(outer, at)
        if arm:
            return at < arm.guard and not self.source.split(arm.low, arm.guard, ",")[1:]
        if self.text(outer - 2, outer) == "matches !":
            parts = self.source.split(outer + 1, self.source.pair[outer], ",")
            return len(parts) > 1 and parts[1][0] <= at < parts[1][1] and "if" not in self.words[parts[1][0]:at]
        before = self.source.back(at, outer, {";", "{", "}", "=>", "=", "let"})
        return before is not None and self.words[before] == "let"

    def is_given(self, outer, at):
        """Whether what stands in these brackets is done only where the allocator refused."""
        arm = self.arm_at(outer, at)
        if arm:
            return self.is_arm_of_refusal(arm)
        if self.words[outer] == "{" and self.words[outer - 1] == "else":
            return self.is_else_of_refusal(outer)
        if self.words[outer] == "{" and self.source.leader(outer)[0] == "if":
            return self.is_condition_of_refusal(*self.source.leader(outer)[1:])
        is_closure = self.text(outer - 2, outer + 2) in (". map_err ( |", ". map_err ( ||")
        return is_closure and self.is_refusable(self.source.chain(outer - 2), outer - 2)

    def arm_at(self, outer, at):
        """The arm of a match whose braces open there that a place is in."""
        if self.words[outer] != "{" or self.source.leader(outer)[0] != "match":
            return None
        return next((arm for arm in self.source.arms(outer) if arm.low <= at < arm.high), None)

    def is_arm_of_refusal(self, arm):
        """Whether an arm is taken only where the allocator refused."""
        if arm.guard == arm.arrow:
            is_error = self.is_error(arm.low, arm.guard) and self.is_refusable(*arm.of)
            return is_error or self.has_one(arm.low, arm.guard)
        whose = self.whose_condition(arm.guard + 1, arm.arrow)
        return bool(whose) and self.text(arm.low, arm.guard) == "Err ( %s )" % whose

    def is_else_of_refusal(self, outer):
        """Whether an `else` is that of a `let` whose calls were refused."""
        begin = self.source.back(outer - 1, self.source.opener[outer], {";", "}", "let"})
        equals = begin and self.words[begin] == "let" and self.source.ahead(begin, outer, "=")
        if not equals:
            return False
        pairs = [((begin + 1, equals), (equals + 1, outer - 1))]
        if self.words[begin + 1] == self.words[equals + 1] == "(":
            inner = [self.source.split(low + 1, self.source.pair[low], ",") for low in (begin + 1, equals + 1)]
            pairs = list(zip(*inner)) if len(inner[0]) == len(inner[1]) else [((0, 0), (0, 0))]
        return all(self.text(*left).startswith("Ok (") and self.source.pair[left[0] + 1] == left[1] - 1
                   and self.is_refusable(*right) for left, right in pairs)

    def is_condition_of_refusal(self, low, high):
        """Whether the condition of an `if` holds only where the allocator refused."""
        equals = self.source.ahead(low, high, "=")
        if self.words[low] == "let" and equals:
            is_error = self.is_error(low + 1, equals) and self.is_refusable(equals + 1, high)
            return is_error or (self.has_one(low + 1, equals) and "&&" not in self.words[equals:high])
        return bool(self.whose_condition(low, high))

    def whose_condition(self, low, high):
        """What is a fault by a condition that says no more than that it is such an answer; None of another one."""
        found = CONDITION.fullmatch(self.text(low, high))
        return found[1] if found and "is_memory" not in self.sources.names else None

    def is_error(self, low, high):
        """Whether a pattern is that of any error."""
        return bool(re.fullmatch(r"Err \( (?:\w+|[.][.]) \)", self.text(low, high)))

    def has_one(self, low, high):
        """Whether a pattern has an answer "out of memory", with its type's name, in each of its alternatives."""
        return all(self.alternative_has_one(*part) for part in self.source.split(low, high, "|"))

    def alternative_has_one(self, low, high):
        at = low
        while at < high:
            if self.words[at] in NAMES and self.words[at - 1] == "::":
                return True
            if at in self.source.pair:
                inner = self.source.split(at + 1, self.source.pair[at], ",")
                if any(self.has_one(*part) for part in inner):
                    return True
                at = self.source.pair[at]
            at += 1
        return False

    def is_refusable(self, low, high):
        """Whether an expression is a call whose only error is the allocator's own."""
        if low is None or self.source.chain(high) != low or self.words[high - 1] not in (")", "]"):
            return False
        outer = self.source.opener[high - 1]
        at = outer - 1
        if self.words[at] == "!":
            is_call = at == low + 1 and self.words[outer + 1] == "in"
            return is_call and self.sources.fails_by_memory_alone(self.source, "macro", self.words[low])
        if not rattle_syntax.is_name(self.words[at]):
            return False
        if self.words[at - 1] == "." and at - 1 > low:
            owner = self.type_of(low, at - 1)
            return owner is not None and self.sources.fails_by_memory_alone(self.source, owner, self.words[at])
        if at == low and self.words[at] in {**self.item.types, **self.source.lets(self.item.low, self.item.high)}:
            return False  # a function that the body was given, or made
        owner = self.words[at - 2] if at > low else ""
        owner = self.item.owner if owner == "Self" else owner if owner[:1].isupper() else None
        return self.sources.fails_by_memory_alone(self.source, owner, self.words[at])

    def type_of(self, low, high):
        """The type of a receiver that is a name, or a field of one; None where it isn't known."""
        names = self.text(low, high).split(" . ")
        known = {"self": self.item.owner, **self.item.types, **self.source.lets(self.item.low, self.item.high)}
        owner = known.get(names[0])
        for name in names[1:]:
            owner = self.sources.fields.get((owner, name))
        return owner

    def constants(self):
        """What names have in the body that are given the value of a constant."""
        return {name: value for name, low, high in self.source.values(self.item.low, self.item.high)
                if (value := self.sources.value(self.source, low, high)) is not None}

    def sizes(self):
        """The places of requests, and the size of each that is a constant."""
        local = self.constants()
        for at in range(self.item.low, self.item.high):
            if self.words[at] not in SIZED:
                continue
            outer = self.source.ahead(at, self.item.high, "(", "[")
            if outer is None or self.text(at + 1, outer) not in ("", "!"):
                continue
            parts = self.source.split(outer + 1, self.source.pair[outer], ";" if self.words[at] == "vec" else ",")
            parts = {"resize": parts[:1], "vec": parts[-1:]}.get(self.words[at], parts)
            values = [self.sources.value(self.source, low, high, tuple(local.items())) for low, high in parts]
            yield from ((at, value) for value in values if value is not None)


def is_answer(words, at):
    """Whether a word is the name of such an answer."""
    return words[at] in NAMES or words[at - 2:at + 1] == FORMAT_ERROR


def renamed(source):
    """The places where a source gives another name to such an answer, or makes one without naming it."""
    for item in source.items:
        words = source.words[item.low:item.high]
        if item.kind == "use" and IMPORTED.search(" ".join(words)):
            yield item, item.low
        for at, word in enumerate(words):
            is_renamed = item.kind == "use" and words[at + 1:at + 2] == ["as"]
            is_same = item.kind == "type" and at + 1 == len(words)
            marks = source.marks(item.low + at) if item.kind == "enum" else ()
            if word in NAMES and (is_renamed or is_same or {"from", "default"} & set(marks)):
                yield item, item.low + at


def answers(sources):
    """Where such an answer is made: source, item, place, and whether it is as it may be."""
    for source in sources.parsed.values():
        yield from ((source, item, at, False) for item, at in renamed(source))
        for item in source.items:
            if item.kind in ("fn", "const", "macro"):
                body = Body(sources, source, item)
                named = [at for at in range(item.low, item.high) if is_answer(source.words, at)]
                made = [at for at in named if not body.is_read(at)]
                yield from ((source, item, at, item.kind != "macro" and body.is_refused(at)) for at in made)
                yield from ((source, item, at, False) for at, value in body.sizes() if value > MOST)


def listed():
    """How many mentions are listed, by their places."""
    return collections.Counter({place: 1 if isinstance(why, str) else len(why) for place, why in REASONS.items()})


def judged(texts):
    """The places that are refused, as lines, of sources by their files; and how many there are, and are listed."""
    sources, left, wrong, count = Sources(texts), listed(), [], 0
    for source, item, at, is_well in answers(sources):
        count += 1
        place = (source.path, item.name, source.line(at))
        if not is_well and left[place]:
            left[place] -= 1
        elif not is_well:
            wrong.append("%s: %s: %s" % place)
    wrong += ["%s: %s: %s: listed, and not there" % place for place in left.elements()]
    wrong += ["%s::%s: listed, and not called" % call for call in CALLS if call not in sources.called]
    return wrong, count, listed().total() - left.total()


def read_all():
    """The sources of the crates that hold no tests, by their files below crates/."""
    texts = {}
    for path in sorted(glob.glob(os.path.join(TOP, "crates", "*", "src", "**", "*.rt"), recursive=True)):
        name = os.path.relpath(path, os.path.join(TOP, "crates"))
        if not crate_of(name).endswith("_tests") and crate_of(name) != "test_support":
            texts[name] = read(path)
    return texts


def main():
    parser_of(__doc__, runs_program=False).parse_args()
    wrong, count, known = judged(read_all())
    return end(wrong, "%d places (%d listed)" % (count, known))


if __name__ == "__main__":
    sys.exit(main())
