"""What a response takes beside the server's work: the delay of the first route that its request is on, or else that of
the settings (docs/RULES.md, "Service times and admission").

Nothing but Python's own library is used: a worker of a cluster is sent this file.
"""
import functools
import re
import urllib.parse

KEPT = 1_024  # targets whose delays are kept
AUTHORITY = re.compile(b"http://[^/?]+", re.IGNORECASE)
BAD_ESCAPE = re.compile(b"%(?![0-9A-Fa-f]{2})")


def is_segment(data):
    """Whether a decoded segment may be part of a path: UTF-8 without byte 0 and without a slash."""
    try:
        return not {"\0", "/"} & set(data.decode())
    except UnicodeDecodeError:
        return False


def segments_of(target):
    """The segments of the path of a target, decoded and walked; None where it has no path (docs/RULES.md, "Methods and
    targets")."""
    authority = AUTHORITY.match(target)
    path = target[authority.end() if authority else 0:].partition(b"?")[0] or b"/" * bool(authority)
    if b"#" in target or not path.startswith(b"/") or BAD_ESCAPE.search(path):
        return None
    left = []
    for segment in map(urllib.parse.unquote_to_bytes, path[1:].split(b"/")):
        if not is_segment(segment) or (segment == b".." and not left):
            return None
        if segment == b"..":
            left.pop()
        elif segment not in (b"", b"."):
            left.append(segment)
    return left


def segments_of_prefix(prefix):
    """The segments of a route's prefix, which is decoded already, and may end with one more slash."""
    return prefix.encode().removesuffix(b"/").split(b"/")[1:]


class Delays:
    """The delays by the tables of a document of settings; one that the program refuses has no requests."""

    def __init__(self, tables):
        self.default = tables.get("costs", {}).get("delay", 0)
        self.routes = [(segments_of_prefix(str(route.get("prefix"))), route.get("delay", self.default))
                       for route in tables.get("route", [])]
        self.is_one = all(delay == self.default for _, delay in self.routes)
        self.of_route = functools.lru_cache(KEPT)(self._of_route)

    def of(self, target):
        """The delay of the response to a request, in microseconds, by its target in a table of decisions."""
        return self.default if self.is_one else self.of_route(target)

    def _of_route(self, target):
        """The same where it depends on the route. The table has each target whole, and each of its bytes can be read
        out of it (docs/FORMATS.md, "Table of decisions"), so it tells the route."""
        segments = segments_of(urllib.parse.unquote_to_bytes(target))
        if segments is None:
            return self.default
        return next((delay for prefix, delay in self.routes if segments[:len(prefix)] == prefix), self.default)
