"""Divides the time of a capture into a bounded number of steps, and reads and writes times."""
import argparse
import datetime
import itertools
import re

from .tool_run import Fault

TICKS_IN_SECOND = 1_000_000
MILLISECOND, SECOND, MINUTE, HOUR, DAY = 1_000, TICKS_IN_SECOND, 60_000_000, 3_600_000_000, 86_400_000_000
# The widths of a step in ticks, each a multiple of the one before, so that steps can be joined.
WIDTHS = (
    MILLISECOND, 2 * MILLISECOND, 10 * MILLISECOND, 20 * MILLISECOND, 100 * MILLISECOND, 200 * MILLISECOND, SECOND,
    2 * SECOND, 10 * SECOND, 20 * SECOND, MINUTE, 2 * MINUTE, 10 * MINUTE, 20 * MINUTE, HOUR, 2 * HOUR, 6 * HOUR,
    12 * HOUR, DAY, 7 * DAY, 28 * DAY, 280 * DAY,
)
# The distances of the times below an axis, in seconds.
MARKS = (0.001, 0.002, 0.005, 0.01, 0.02, 0.05, 0.1, 0.2, 0.5, 1, 2, 5, 10, 15, 30, 60, 120, 300, 600, 900, 1800, 3600,
         7200, 10_800, 21_600, 43_200, 86_400, 172_800, 604_800, 2_419_200)
MOST_MARKS = 5
LONG_LABEL = 9  # characters; of longer labels there are fewer
NAMED = (("day", DAY), ("hour", HOUR), ("minute", MINUTE), ("second", SECOND), ("millisecond", MILLISECOND))
UNITS = {"ms": MILLISECOND, "s": SECOND, "": SECOND, "m": MINUTE, "h": HOUR, "d": DAY}
DURATION = re.compile(r"([0-9]{1,9})(?:[.]([0-9]{1,6}))?(ms|s|m|h|d|)")
CLOCK = re.compile(r"([0-9]{1,3}):([0-5][0-9])(?::([0-5][0-9])(?:[.]([0-9]{1,6}))?)?")
SECONDS_IN_DAY = 86_400
LAST_SECOND = 253_402_300_799  # that of the year 9999


class TooMany(Exception):
    """More steps than may be."""


class Steps:
    """The steps of a time, no more than `most` from the first to the last whatever the time: where they would be more,
    they are joined to wider ones. With a width of the caller's they are refused instead."""

    def __init__(self, make, most, width=None):
        self.make, self.most, self.given = make, most, width
        self.width = width or WIDTHS[0]  # ticks
        self.kept = {}  # by their number, from tick 0 on
        self.first = self.last = None  # numbers

    def at(self, tick):
        """The step that a tick lies in."""
        number = tick // self.width
        if number not in self.kept:
            number = self.reach(tick)
            self.kept.setdefault(number, self.make())
        return self.kept[number]

    def reach(self, tick):
        """Makes room for a tick, and returns the number of its step."""
        while True:
            number = tick // self.width
            first = number if self.first is None else min(self.first, number)
            last = number if self.last is None else max(self.last, number)
            if last - first < self.most:
                self.first, self.last = first, last
                return number
            self.widen()

    def widen(self):
        """Joins steps to the next width."""
        if self.given:
            raise TooMany("more than %d steps of %s; take a longer --step, or --from and --to" % (
                self.most, width_in_words(self.given)))
        wider = next((width for width in WIDTHS if width > self.width), 10 * self.width)
        ratio, self.width = wider // self.width, wider
        old, self.kept = self.kept, {}
        for number in sorted(old):
            if number // ratio in self.kept:
                self.kept[number // ratio].join(old[number])
            else:
                self.kept[number // ratio] = old[number]
        self.first, self.last = self.first // ratio, self.last // ratio

    def numbers(self):
        """The numbers from the first to the last."""
        return range(0) if self.first is None else range(self.first, self.last + 1)

    def get(self, number):
        """The step of a number; an empty one where nothing lies in it."""
        return self.kept.get(number) or self.make()


def parts_of(digits):
    """Millionths of the digits after a point."""
    return int((digits or "").ljust(6, "0"))


def width(text):
    """The ticks of a duration of the command line."""
    found = DURATION.fullmatch(text)
    ticks = found and int(found[1]) * UNITS[found[3]] + parts_of(found[2]) * UNITS[found[3]] // 1_000_000
    if not ticks:
        raise argparse.ArgumentTypeError("%r is no time above 0 such as 10, 0.5, 250ms, 5m, 1h" % text)
    return ticks


def moment(text):
    """A time of the command line: ("since", ticks) from the start, ("clock", ticks) of the day or from the start, or
    ("date", ticks since 1970)."""
    found, clock = DURATION.fullmatch(text), CLOCK.fullmatch(text)
    if found and not found[3]:
        return "since", int(found[1]) * SECOND + parts_of(found[2])
    if clock:
        whole = int(clock[1]) * HOUR + int(clock[2]) * MINUTE + int(clock[3] or 0) * SECOND
        return "clock", whole + parts_of(clock[4])
    try:
        time = datetime.datetime.fromisoformat(text.replace("Z", "+00:00"))
    except ValueError:
        raise argparse.ArgumentTypeError("%r is no time such as 90, 9:30 or 2026-11-26T09:30:00" % text) from None
    since = time.replace(tzinfo=time.tzinfo or datetime.timezone.utc) - datetime.datetime(
        1970, 1, 1, tzinfo=datetime.timezone.utc)
    return "date", since // datetime.timedelta(microseconds=1)


def tick_of(time, start):
    """The tick of a `moment` of the command line, of a capture with this start (None where it isn't known).

    A time of day is the first at or after the start.
    """
    kind, ticks = time
    if kind == "since" or (kind == "clock" and start is None):
        return ticks
    if start is None:
        raise Fault("a date for --from or --to needs --capture, which has the start")
    if kind == "date":
        return ticks - start * SECOND
    return (ticks - start % SECONDS_IN_DAY * SECOND) % DAY if ticks < DAY else ticks - start % SECONDS_IN_DAY * SECOND


def width_in_words(ticks):
    """A width in words."""
    for name, unit in NAMED:
        if ticks == unit:
            return "%s %s" % ("an" if name == "hour" else "a", name)
        if ticks % unit == 0:
            return "%d %ss" % (ticks // unit, name)
    return "%g seconds" % (ticks / SECOND)


def marks_between(first, last, most=MOST_MARKS):
    """Times in seconds for an axis between two: multiples of a distance that people count in, no more than a few."""
    distance = next((mark for mark in MARKS if (last - first) / mark <= most), None)
    if distance is None:
        distance = MARKS[-1] * (1 + (last - first) // (most * MARKS[-1]))
    begin = -(-first // distance)
    marks = itertools.takewhile(lambda mark: mark <= last, ((begin + place) * distance for place in itertools.count()))
    return list(marks)


def time_in_words(seconds, span, is_of_day):
    """A time for an axis that spans so many seconds: since 1970, or from a start. A date has a row of its own."""
    whole, ticks = divmod(round(seconds * TICKS_IN_SECOND), TICKS_IN_SECOND)
    fraction = ("%.6f" % (ticks / TICKS_IN_SECOND)).rstrip("0")[1:] if ticks else ""
    hours, rest = divmod(whole % SECONDS_IN_DAY if is_of_day else whole, 3600)
    clock = "%d:%02d" % (hours, rest // 60) + (":%02d%s" % (rest % 60, fraction) if span < 600 or ticks else "")
    if not is_of_day or span <= SECONDS_IN_DAY:
        return clock
    date = datetime.datetime.fromtimestamp(min(whole, LAST_SECOND), datetime.timezone.utc)
    return clock + date.strftime("\n%b %d") if span <= 10 * SECONDS_IN_DAY else date.strftime("%b %d\n%Y")


def labels_between(begin, first, last, is_of_day):
    """Times for an axis between two, in seconds from a begin, and what stands at each."""
    labels = []
    for most in (MOST_MARKS, MOST_MARKS - 2):
        marks = marks_between(begin + first, begin + last, most)
        labels = [time_in_words(mark, last - first, is_of_day) for mark in marks]
        if max(map(len, "\n".join(labels).split("\n"))) <= LONG_LABEL:
            break
    return [mark - begin for mark in marks], labels
