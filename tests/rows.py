"""Reads the rows of tests/*.toml, runs the program as they say, and compares what came of it (README.md)."""
import os
import re
import tomllib

from lib.run import run_over, without_words
from lib.texts import ONE, TRAFFIC, recording_text

HERE = os.path.dirname(os.path.abspath(__file__))
SECONDS = 240
# The options of each command: those that are always there, with the file of the row that each names (where it isn't
# named otherwise), and those that are there where the row has such a file.
COMMANDS = {
    "replay": (["snapshot", "capture", "replies"], ["settings"]),
    "explain": (["snapshot", "capture", "messages"], ["settings"]),
    "inspect": (["capture"], []),
    "upgrade": (["capture", "output"], []),
    "slim": (["capture", "output"], []),
    "snapshot": (["folder", "output"], []),
    "settings": ([], ["settings"]),
}
# What a command that comes to its end has always written: the end of a file, or of standard output (None).
ENDS = {
    "replay": [("replies", r"(^|\n)stop \d+\n"), (None, r"\nend\n")],
    "explain": [("messages", r"\n"), (None, r"\nend\n")],
    "inspect": [(None, r"\nend\n")],
    "upgrade": [("output", r"\nstop \d+\n")],
    "slim": [("output", r"\nstop \d+\n")],
    "snapshot": [("output", r"\nend \d+\n")],
    "settings": [(None, r"\n.*\n")],
}
KEYS = {"name", "command", "words", "engines", "texts", "files", "pieces", "bytes", "cut", "sizes", "stdin", "each_cut",
        "status", "error", "prints", "lines", "columns", "writes", "messages", "outline", "parts", "absent"}
MARK = re.compile(r"\$\{(?:'([^']*)'|(\w+))(?: \* (\d+))?\}")


def read(path):
    with open(path, "rb") as file:
        return tomllib.load(file)


def merged(below, above):
    """A table with the keys of both; where both have one, the second's, but tables are merged in turn."""
    both = dict(below)
    for key, value in above.items():
        old = both.get(key)
        both[key] = merged(old, value) if isinstance(old, dict) and isinstance(value, dict) else value
    return both


def capture_text(pieces, begin=ONE):
    """The capture of these pieces, each with its tick, its connection and its bytes."""
    records = [(tick, conn, text.encode("latin-1")) for tick, conn, text in pieces]
    return recording_text(records, begin).decode("latin-1")


def cut_text(text, sizes):
    """The pieces of a text that comes on a connection of its own in each of these sizes, each at a tick of its own."""
    cuts = [(conn, text[at : at + size]) for conn, size in enumerate(sizes) for at in range(0, len(text), size)]
    return [(tick, conn, piece) for tick, (conn, piece) in enumerate(cuts)]


def slim_text(messages, length, sizes):
    """The slim text of such pieces of a text of this length with these messages, each with the place after it."""
    pieces, tick = [], 0
    for conn, size in enumerate(sizes):
        pieces += [(tick + (end - 1) // size, conn, block) for end, block in messages]
        tick += -(-length // size)
    return capture_text(pieces, TRAFFIC)


def outline(replies):
    """Of a replies text the lines that tell a reply's number, connection, length and status, and its last line."""
    text = ""
    for line in replies.replace("\r", "").split("\n"):
        if line.startswith(("reply ", "stop ")):
            text += line + ";"
        elif line.startswith("HTTP/1.1 "):
            text += " " + line.removeprefix("HTTP/1.1 ") + ";"
    return text


def column(table, name):
    """The values of a column of a table of decisions, `-` for those that are empty."""
    heading, *rows = [line.split(",") for line in table.split("\n")[:-1]]
    return " ".join(row[heading.index(name)] or "-" for row in rows)


class Row:
    """A row: what is given, and what has to come of it."""

    class Wrong(Exception):
        """What differs."""

    def __init__(self, table, values):
        self.values = merged(table.get("default", {}), values)
        self.name = values["name"]
        unknown = set(self.values) - KEYS
        if unknown:
            raise ValueError("%s: no such key: %s" % (self.name, ", ".join(sorted(unknown))))
        self.texts = merged(read(os.path.join(HERE, "texts.toml")), table.get("texts", {}))
        self.texts.update(self.values.get("texts", {}))

    def text(self, given):
        """A text with its marks filled in: `${NAME}`, `${NAME * 3}`, `${'x' * 3}`."""
        while MARK.search(given):
            given = MARK.sub(lambda at: (self.texts[at[2]] if at[1] is None else at[1]) * int(at[3] or 1), given)
        return given

    def files(self):
        """The files that are there before the run, by their names."""
        files = {name: self.text(text) for name, text in self.values.get("files", {}).items()}
        if "pieces" in self.values:
            pieces = [(tick, conn, self.text(text)) for tick, conn, text in self.values["pieces"]]
            files["capture"] = capture_text(pieces)
        if "bytes" in self.values:
            text = self.text(self.values["bytes"])
            files["capture"] = capture_text([(tick, 0, byte) for tick, byte in enumerate(text)])
        if "cut" in self.values:
            files["capture"] = capture_text(cut_text(self.text(self.values["cut"]), self.values["sizes"]))
        return files

    def words(self, files):
        """The words of a run, without its engine."""
        command = self.values.get("command")
        given = [self.text(word) for word in self.values.get("words", [])]
        if command is None:
            return given
        always, optional = COMMANDS[command]
        options = always + [name for name in optional if name in files]
        named = [word for name in options if "--" + name not in given for word in ("--" + name, name)]
        return [command] + named + given

    def runs(self):
        """The names of a row's runs, and their words: a replay runs on both engines where it names none."""
        words = self.words(self.files())
        if self.values.get("command") != "replay" or "--engine" in words:
            return [(self.name, words)]
        engines = self.values.get("engines", ["plain", "staged"])
        return [("%s[%s]" % (self.name, engine), words + ["--engine", engine]) for engine in engines]

    def try_on(self, program, words):
        """What is wrong with a run; nothing where all is as the row says."""
        files, cuts = self.files(), self.values.get("each_cut")
        if cuts is None:
            return self.compare(*run(program, words, files, self.text(self.values.get("stdin", ""))), self.values)
        wrong = []
        for first, last, wanted in cuts["of"]:
            for length in range(first, last):
                cut = dict(files, **{cuts["file"]: files[cuts["file"]][:length]})
                came = run(program, words, cut, "")
                differences = self.compare(*came, merged(self.values, wanted))
                wrong += ["after %d bytes: %s" % (length, line) for line in differences]
        return wrong

    def compare(self, status, error, printed, files, wanted):
        """What differs between what came of a run and what is wanted."""
        wrong = []

        def see(what, got, want):
            if got != want:
                wrong.append("%s: %r\n  wanted %r" % (what, got, want))

        see("status", status, wanted.get("status", 0))
        line = self.text(wanted["error"]) + "\n" if wanted.get("error") else ""
        # rows compare the words after a fault's line where they have a second line
        see("standard error", error if line.count("\n") > 1 else without_words(error), line)
        if status == 0:
            ends = [(name, files.get(name, "") if name else printed, form)
                    for name, form in ENDS.get(self.values.get("command"), [])]
            wrong += ["%s has no end: %r" % (name or "standard output", text) for name, text, form in ends
                      if not re.search(r"(?:%s)\Z" % form, text)]
        if "prints" in wanted:
            see("standard output", printed, self.text(wanted["prints"]))
        lines = printed.split("\n")
        for line in wanted.get("lines", []):
            if self.text(line) not in lines:
                wrong.append("standard output has no line %r: %r" % (line, printed))
        for name, values in wanted.get("columns", {}).items():
            see(name, column(files["messages"], name), values)
        for name, text in wanted.get("writes", {}).items():
            see(name, files.get(name), self.text(text))
        if "messages" in wanted:
            messages = [(end, self.text(block)) for end, block in wanted["messages"]]
            see("output", files.get("output"), slim_text(messages, len(self.text(wanted["cut"])), wanted["sizes"]))
        replies = files.get("replies", printed)
        if "outline" in wanted:
            see("outline", outline(replies), self.text(wanted["outline"]))
        wrong += ["no part %r: %r" % (part, replies) for part in wanted.get("parts", [])
                  if self.text(part) not in replies]
        wrong += ["there is a file %s" % name for name in wanted.get("absent", []) if name in files]
        return wrong


def run(program, words, files, given):
    """Runs the program in a folder with these files: its status, what it wrote to standard error and output, and the
    files that stand there afterwards. A text's characters are its bytes."""
    files = {name: text.encode("latin-1") for name, text in files.items()}
    status, *texts, after = run_over(program, words, files, seconds=SECONDS, input=given.encode("latin-1"))
    error, printed = (text.decode("latin-1") for text in texts)
    return status, error, printed, {name: data.decode("latin-1") for name, data in after.items() if data is not None}


def spread(values):
    """The rows of a row with its name: where one of its texts is given in several ways, one for each of them."""
    variants = [(values["name"], {})]
    for text, ways in values.pop("each_text", {}).items():
        variants = [("%s-%d" % (name, number), dict(texts, **{text: way}))
                for name, texts in variants for number, way in enumerate(ways, 1)]
    return [merged(values, {"name": name, "texts": texts}) for name, texts in variants]


def read_table(path):
    """The rows of a table, in order; each has a name of its own."""
    table, rows = read(path), []
    for values in table["row"]:
        cases = values.pop("cases", [{}])
        for number, case in enumerate(cases, 1):
            name = values["name"] if cases == [{}] else "%s-%s" % (values["name"], case.get("name", number))
            rows += [Row(table, row) for row in spread(dict(merged(values, case), name=name))]
    if len({row.name for row in rows}) != len(rows):
        raise ValueError("%s: two rows have one name" % path)
    return rows
