"""Reads the words of a tool's command line."""
import argparse
import sys

from . import standard_output, tool_run


class Parser(argparse.ArgumentParser):
    """A parser that says what is wrong in lines as faults are said, and ends with 2 also where they can't be written;
    and for which a help that can't be written is a fault."""

    def __init__(self, **words):
        super().__init__(formatter_class=argparse.RawDescriptionHelpFormatter, **words)

    def error(self, message):
        """Says how a tool is called, and what is wrong of its words; ends it with status 2."""
        for line in (*self.format_usage().splitlines(), "%s: error: %s" % (self.prog, message)):
            tool_run.say(line)
        sys.exit(2)

    def print_help(self, file=None):
        """Writes the help to standard output."""
        standard_output.write(self.format_help())
