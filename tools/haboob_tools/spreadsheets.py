"""Writes tables for spreadsheets, in which no cell is taken for a formula."""
import csv

from . import standard_output

# By which a spreadsheet tells a formula, also by the full-width forms of the four signs, or leaves the cell.
FORMULA_BEGINS = ("=", "+", "-", "@", "\uff1d", "\uff0b", "\uff0d", "\uff20", "\t", "\r")
OTHER_SEPARATORS = frozenset(";\t")  # at which spreadsheets of some countries begin a cell, where no quotes stand


def cell(value):
    """A value as it stands in a table: a text that begins as a formula does gets an apostrophe before it, which a
    spreadsheet takes as the mark of text. Numbers stay."""
    if not isinstance(value, str):
        return value
    return standard_output.printable("'" + value if value.startswith(FORMULA_BEGINS) else value)


def quoting_of(row):
    """Which cells of a row stand between quotes: its texts, where a spreadsheet may else begin a cell within one."""
    has_separator = any(isinstance(value, str) and not OTHER_SEPARATORS.isdisjoint(value) for value in row)
    return csv.QUOTE_NONNUMERIC if has_separator else csv.QUOTE_MINIMAL


def write(file, heading, rows):
    """Writes a table to a file of text as CSV; None is an empty cell."""
    writers = {quoting: csv.writer(file, lineterminator="\n", quoting=quoting)
               for quoting in (csv.QUOTE_NONNUMERIC, csv.QUOTE_MINIMAL)}
    for row in (heading, *rows):
        cells = [cell(value) for value in row]
        writers[quoting_of(cells)].writerow(cells)
