"""The syntax of Rattle, which is Rust's with clauses, as far as a check needs it: words, brackets, items, arms.

Comments, clauses (`requires`, `ensures`), what is `ghost` and `prove!` are left out. A place is the number of a word,
and what goes from `low` to `high` ends before `high`.
"""
import collections
import functools
import re

WORD = re.compile(r"""
    //[^\n]* | /\*.*?\*/                                               # comments
  | b?r(?P<marks>\#*)".*?"(?P=marks) | b?"(?:\\.|[^"\\])*"              # texts
  | b?'(?:\\(?:u\{[0-9a-fA-F]+\}|x..|.)|[^\\'\n])' | '\w+               # characters, lifetimes
  | \w+ | => | -> | :: | == | != | <= | >= | && | \|\| | \.\.=? | \S
""", re.DOTALL | re.VERBOSE)
CLOSED_BY = {"(": ")", "[": "]", "{": "}"}
CLOSING = tuple(CLOSED_BY.values())
KEYWORDS = set("as break const else for if impl in let loop match move mut ref return static where while".split())
NUMBER = re.compile(r"(0x[0-9a-fA-F_]+|0b[01_]+|[0-9][0-9_]*)(?:[iu](?:8|16|32|64|128|size))?")
GREATEST = {"%s%d" % (sign, bits): (1 << (bits - (sign == "i"))) - 1 for sign in "iu" for bits in (8, 16, 32, 64, 128)}
GREATEST.update(usize=GREATEST["u64"], isize=GREATEST["i64"])
MOST_BITS = 128

# A function, a constant, a `use`, a `type`, an `enum` or a macro: whose it is, where it and its body begin and end, and
# of a function the type of its result, what its `From` converts, and the types of its parameters.
Item = collections.namedtuple("Item", "kind owner name start low high result converted types")
# An arm of a match: pattern, guard (none, where it is the arrow), body, and what is matched.
Arm = collections.namedtuple("Arm", "low guard arrow high of")


def is_name(word):
    return bool(re.fullmatch(r"[^\W\d]\w*", word)) and word not in KEYWORDS


def computed(words):
    """The value of an expression of numbers; None of another one."""
    text, has_number = "", False
    words = list(words)
    while words:
        word, *words = words
        number = NUMBER.fullmatch(word)
        if word in GREATEST and words[:2] == ["::", "MAX"]:
            number, words = NUMBER.fullmatch(str(GREATEST[word])), words[2:]
        if number:
            text, has_number = text + str(int(number[1].replace("_", ""), 0)), True
        elif word == "as" and words:
            words = words[1:]
        elif word in "+-*/%<>|&^()":
            text += "//" if word == "/" else word
        else:
            return None
    text = re.sub(r"<<(\d+)", lambda found: "<<%d" % min(int(found[1]), MOST_BITS), text)
    try:
        return eval(text, {"__builtins__": {}}) if has_number else None  # of digits, signs and brackets alone
    except (SyntaxError, ArithmeticError, ValueError, TypeError):
        return None


class Source:
    """A source: its words, and its items."""

    def __init__(self, path, text):
        self.path, self.rows = path, text.split("\n")
        found, line, last = [], 1, 0
        for match in WORD.finditer(text):
            line, last = line + text.count("\n", last, match.start()), match.start()
            if not match[0].startswith(("//", "/*")):
                found.append((match[0], line))
        self.words, self.numbers, self.clauses = [], [], []
        self.keep(found)
        self.pair_up()
        self.items, self.fields = [], {}
        self.read_items(0, len(self.words), None, None)

    def keep(self, found):
        """Keeps the words that are code; of each clause the place before which it stands."""
        at = 0
        while at < len(found):
            word, after = found[at][0], found[at + 1][0] if at + 1 < len(found) else ""
            end = at + 1
            if word in ("requires", "ensures"):
                end = self.end_of_block(found, at + 1 + (after != "{"))
                self.clauses.append((len(self.words), " ".join(word for word, _ in found[at:end])))
            elif word == "ghost":
                while found[end][0] not in (";", ",", "}"):
                    end = self.end_of_block(found, end)
                end += found[end][0] != "}"
            elif word == "prove" and after == "!":
                end = self.end_of_block(found, at + 2)
            else:
                self.words.append(word)
                self.numbers.append(found[at][1])
            at = end

    @staticmethod
    def end_of_block(found, at):
        """Behind what begins at a word: a block in brackets, or the word."""
        depth = 0
        while at < len(found):
            depth += (found[at][0] in CLOSED_BY) - (found[at][0] in CLOSING)
            at += 1
            if depth <= 0:
                break
        return at

    def pair_up(self):
        """Finds where each bracket is closed, and in which one each word stands (a closing one in its own)."""
        self.pair, self.opener, outer = {}, [], [-1]
        for at, word in enumerate(self.words):
            self.opener.append(outer[-1])
            if word in CLOSED_BY:
                outer.append(at)
            elif word in CLOSING and len(outer) > 1 and CLOSED_BY[self.words[outer[-1]]] == word:
                self.pair[outer.pop()] = at

    def line(self, at):
        """The line that a word stands in."""
        return self.rows[self.numbers[at] - 1].strip()

    def is_angle(self, at):
        """Whether a word opens the brackets of a type's arguments."""
        return self.words[at] == "<" and bool(re.fullmatch("::|impl|[A-Z]|[A-Z].*[a-z].*", self.words[at - 1]))

    def end_of_angle(self, at):
        """The bracket that closes a type's arguments."""
        depth, first = 0, at
        while at < len(self.words) and self.words[at] not in (";", "{", "}", "=>", "&&", "||"):
            depth += (self.words[at] == "<") - (self.words[at] == ">")
            if not depth:
                return at
            at = self.pair.get(at, at) + 1
        return first

    def begin_of_angle(self, at):
        """The bracket that opens the type's arguments that end there; the place itself where none end."""
        depth, last = 0, at
        while at > 0 and self.words[at] not in (";", "{", "}", "=>", "&&", "||"):
            depth += (self.words[at] == ">") - (self.words[at] == "<")
            if not depth:
                return at if self.is_angle(at) else last
            at = (self.opener[at] if self.words[at] in CLOSING else at) - 1
        return last

    def ahead(self, low, high, *wanted):
        """The first place of one of these words, outside of brackets; None where there is none."""
        at = low
        while at < high:
            if self.words[at] in wanted:
                return at
            at = self.end_of_angle(at) if self.is_angle(at) else self.pair.get(at, at)
            at += 1
        return None

    def back(self, at, outer, wanted):
        """The last place of one of these words before another one, in the same brackets; None where there is none."""
        at -= 1
        while at > outer:
            if self.words[at] in wanted:
                return at
            at = self.opener[at] if self.words[at] in CLOSING else at
            at = (self.begin_of_angle(at) if self.words[at] == ">" else at) - 1
        return None

    def split(self, low, high, mark):
        """The parts between marks outside of brackets; no last one that is empty."""
        parts = []
        while low < high:
            end = self.ahead(low, high, mark)
            end = high if end is None else end
            parts.append((low, end))
            low = end + 1
        return parts

    def chain(self, high):
        """Where names, calls, fields and macros begin that hang together and end before a place."""
        at = high - 1
        while at > 0:
            while self.words[at] == "?":
                at -= 1
            while self.words[at] in (")", "]", ">"):
                at = (self.begin_of_angle(at) - 1 if self.words[at] == ">" else self.opener[at]) - 1
                at -= self.words[at] == "!"
            if not is_name(self.words[at]):
                return at + 1
            if self.words[at - 1] not in (".", "::"):
                return at
            at -= 2
        return at

    def leader(self, outer):
        """The word that leads a block in braces, as `match` or `if`, and what stands between; none of another block."""
        if outer not in self.leaders:
            at = self.back(outer, self.opener[outer], {"match", "if", "while", "for", "loop", ";", "{", "}", "=>", ","})
            is_word = at is not None and self.words[at].isalpha()
            self.leaders[outer] = (self.words[at], at + 1, outer) if is_word else ("", 0, 0)
        return self.leaders[outer]

    @functools.cached_property
    def leaders(self):
        return {}

    def arms(self, outer):
        """The arms of the match whose braces open there, up to one that ends without a comma or a brace of its own."""
        low, close = outer + 1, self.pair[outer]
        while low < close:
            arrow = self.ahead(low, close, "=>")
            if arrow is None:
                return
            guard = self.ahead(low, arrow, "if")
            end = self.pair[arrow + 1] + 1 if self.words[arrow + 1] == "{" else arrow + 1
            if end == arrow + 1 or self.words[end] in (".", "?"):
                end = self.ahead(end, close, ",") or close
            if self.ahead(arrow + 1, end, "=>"):
                return
            yield Arm(low, arrow if guard is None else guard, arrow, end, self.leader(outer)[1:])
            low = end + (self.words[end] == ",")

    def is_in_type(self, at):
        """Whether a place is among a type's arguments."""
        outer, depth = self.opener[at], 0
        while at > outer + 1:
            at -= 1
            if self.words[at] in CLOSING:
                at = self.opener[at]
            elif self.words[at] in (";", "=>", "=", "&&", "||"):
                return False
            elif self.words[at] == "<" and not depth:
                return self.is_angle(at)
            depth += (self.words[at] == ">") - (self.words[at] == "<")
        return False

    def head(self, low, high):
        """The name of a type, without its module and its arguments; "" of one that has none."""
        while low < high and (self.words[low] in ("&", "mut", "dyn", "impl") or self.words[low].startswith("'")):
            low += 1
        while low + 2 < high and self.words[low + 1] == "::":
            low += 2
        return self.words[low] if low < high and is_name(self.words[low]) else ""

    def arguments(self, low, high):
        """From where to where the arguments of a type go."""
        begin = next((at for at in range(low, high) if self.words[at] == "<"), None)
        return (begin + 1, self.end_of_angle(begin)) if begin else (high, high)

    def typed(self, low, high):
        """The names and the types of fields or parameters."""
        for low, high in self.split(low, high, ","):
            colon = self.ahead(low, high, ":")
            if colon:
                yield self.words[colon - 1], self.head(colon + 1, high)

    def values(self, low, high):
        """The names that a `let` gives to an expression, and from where to where this goes."""
        for at in range(low, high):
            name = at + 1 + (self.words[at + 1] == "mut")
            equals = self.ahead(name, high, "=", ";") if self.words[at] == "let" else None
            if equals and self.words[equals] == "=" and self.words[name + 1] in ("=", ":"):
                yield self.words[name], equals + 1, self.ahead(equals, high, ";", "else") or high

    def lets(self, low, high):
        """The types of the names that a `let` gives to what a function of the type makes."""
        types = {}
        for name, begin, _ in self.values(low, high):
            is_made = self.words[begin][:1].isupper() and self.words[begin + 1] == "::"
            types[name] = self.words[begin] if is_made and types.get(name) in (None, self.words[begin]) else ""
        return types

    def marks(self, at):
        """The words of the attributes of a variant, and of what it holds."""
        words, before = [], at - 1
        while self.words[before] == "]":
            words += self.words[self.opener[before]:before]
            before = self.opener[before] - 2
        return words + self.words[at + 1:self.pair.get(at + 1, at + 1)]

    def read_items(self, low, high, owner, converted):
        """Notes the items between two places, which are a type's."""
        at = low
        while at < high:
            word = self.words[at]
            if word in ("impl", "trait", "mod"):
                at = self.read_group(at, high, owner)
            elif word == "fn":
                at = self.read_function(at, high, owner, converted)
            elif word in ("const", "static", "type", "use") and self.words[at + 1] not in ("fn", "unsafe"):
                end = self.ahead(at, high, ";")
                begin = at if word == "use" else self.ahead(at, end, "=") or end
                self.note("const" if word == "static" else word, owner, self.words[at + 1], at, begin, end)
                at = end + 1
            elif word in ("struct", "enum", "union"):
                at = self.read_type(at, high)
            elif self.words[at + 1:at + 2] == ["!"] and is_name(word):
                begin = self.ahead(at, high, *CLOSED_BY)
                self.note("macro", owner, word, at, begin, self.pair[begin])
                at = self.pair[begin] + 1
            else:
                at = self.pair.get(at, at) + 1

    def note(self, kind, owner, name, start, low, high, result=(0, 0), converted=None, types=None):
        self.items.append(Item(kind, owner, name, start, low, high, result, converted, types or {}))

    def read_group(self, at, high, owner):
        """Notes the items of an `impl`, a `trait` or a `mod`."""
        begin = self.ahead(at, high, "{", ";")
        if self.words[begin] == "{":
            low = self.end_of_angle(at + 1) + 1 if self.words[at + 1] == "<" else at + 1
            of = self.ahead(low, begin, "for")
            converted = None
            if self.words[at] == "impl":
                is_from = of and self.head(low, of) == "From"
                converted = self.head(*self.arguments(low, of)) if is_from else None
                owner = self.head(of + 1 if of else low, begin)
            elif self.words[at] == "trait":
                owner = self.words[at + 1]
            self.read_items(begin + 1, self.pair[begin], owner, converted)
        return self.pair.get(begin, begin) + 1

    def read_function(self, at, high, owner, converted):
        """Notes a function that has a body."""
        begin = self.end_of_angle(at + 2) + 1 if self.words[at + 2] == "<" else at + 2
        end = self.pair[begin] + 1
        body = self.ahead(end, high, "{", ";")
        result = (end, end)
        if self.words[end] == "->":
            result = (end + 1, self.ahead(end, body, "where") or body)
        if self.words[body] == "{":
            self.note("fn", owner, self.words[at + 1], at, body, self.pair[body], result, converted,
                      dict(self.typed(begin + 1, end - 1)))
        return self.pair.get(body, body) + 1

    def read_type(self, at, high):
        """Notes the fields of a structure, or an enumeration."""
        begin = self.ahead(at, high, "{", ";", "(")
        if self.words[begin] == "{" and self.words[at] == "enum":
            self.note("enum", None, self.words[at + 1], at, begin, self.pair[begin])
        elif self.words[begin] == "{":
            fields = self.typed(begin + 1, self.pair[begin])
            self.fields.update({(self.words[at + 1], name): of for name, of in fields})
        return self.pair.get(begin, begin) + 1
