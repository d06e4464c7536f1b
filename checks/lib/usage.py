"""The command line of a check: the program, where it runs one, comes first; its help is the script's first text."""
import argparse
import os
import signal


def parser_of(description, runs_program=True):
    """A parser, to which a script adds words of its own."""
    parser = argparse.ArgumentParser(description=description, formatter_class=argparse.RawDescriptionHelpFormatter)
    if runs_program:
        parser.add_argument("program", metavar="PROGRAM", type=os.path.abspath, help="the program haboob")
    return parser


def program_of(description):
    """The path of the program that is the one word on the command line."""
    return parser_of(description).parse_args().program


def with_seeds(parser, count):
    """The same parser with `[COUNT [FIRST]]`, of which this is the count where none is given."""
    parser.add_argument("count", metavar="COUNT", nargs="?", type=int, default=count, help="%d without it" % count)
    parser.add_argument("first", metavar="FIRST", nargs="?", type=int, default=0, help="the first seed; 0 without it")
    return parser


def end_unread():
    """Lets this process end quietly where its reader has ended, as `head` does: for scripts that print lists."""
    signal.signal(signal.SIGPIPE, signal.SIG_DFL)
