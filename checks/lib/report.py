"""What came of a check: its lines, its counts and its status."""


class Report:
    """Prints what came of each run (a quiet one only of those that are wrong), and counts the runs, those that are
    wrong and what wasn't tried."""

    def __init__(self, quiet=False, width=45):
        self.runs, self.wrong, self.untried = 0, 0, 0
        self.quiet, self.width = quiet, width

    def see(self, name, good, got="", shown="as it must be"):
        """Whether the run is good, what came of it, and what is shown of it where it is good."""
        self.runs += 1
        if not good:
            self.tell_wrong("%-*s WRONG: %s" % (self.width, name, got if isinstance(got, str) else repr(got)))
        elif not self.quiet:
            print("%-*s %s" % (self.width, name, shown), flush=True)

    def see_run(self, name, good, got):
        """The same of a run that begins with its status and its line, of which these are shown."""
        line = got[1][:40].decode(errors="replace").partition("\n")[0]
        self.see(name, good, got, "%s %s" % (got[0], line))

    def tell_wrong(self, line):
        """Prints what is wrong."""
        self.wrong += 1
        print(line, flush=True)

    def leave(self, name, why):
        """Says of something that it can't be tried here, and why."""
        self.untried += 1
        print("%-*s not tried: %s" % (self.width, name, why), flush=True)

    def end(self, counts="{runs} runs, {wrong} wrong, {untried} not tried"):
        """Prints the last line, of these counts. The status to end with."""
        print(counts.format(**vars(self)))
        return int(self.wrong > 0)


def end(wrong, counts):
    """Prints what is wrong, and a last line. The status to end with."""
    print("\n".join([*wrong, "%s, %d wrong" % (counts, len(wrong))]))
    return int(bool(wrong))
