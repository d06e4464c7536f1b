"""Documents of settings (docs/FORMATS.md, Settings): reads them, writes them, and names what is wrong in words."""
import collections
import difflib
import json
import re
import tomllib

from .response_delays import segments_of_prefix
from .tool_run import Fault

SIZE_LIMIT = 65_536  # bytes
TIERS = ("policy", "tier1", "tier2", "tier3")  # the tables of the tiers 0 to 3
RATES = ("rate", "rate_min", "rate_max", "up")  # in thousandths a second
FIXED_RATE = "fixed_rate"  # this project's tools' own word: rate, rate_min and rate_max alike
RATES_OF_FIXED = ("rate_min", "rate", "rate_max")
ROUTE, POOL = "route", "pool"  # the names of the lists of routes and of pools
LISTS = (POOL, ROUTE)  # in the order in which a document has them
OF_ROUTE = ("cost", "kib", "delay")  # the keys of a route that are integers
OF_POOL = ("servers",)  # and of a pool
SERVERS = "costs.servers"  # the key that says how many work side by side on what no pool serves
COSTS = ("file", "kib", "error")  # the keys of the table of costs that are a server's work
NAME = re.compile(r"[A-Za-z0-9_-]+")
MARGIN = re.compile(rb"^# margin ([1-9][0-9]?) percent of all costs$", re.MULTILINE)
# The least and the greatest value of the keys for which a tool finds values (docs/FORMATS.md, Settings).
RANGES = {
    "costs.file": (1, 1_000_000), "costs.kib": (0, 1_000_000), "costs.error": (1, 1_000_000),
    "costs.servers": (1, 1_024), "costs.delay": (0, 1_000_000_000),
    "route.cost": (1, 1_000_000_000), "route.kib": (0, 1_000_000), "route.delay": (0, 1_000_000_000),
}

Policy = collections.namedtuple("Policy", "rate rate_min rate_max depth")


def checked(path, name, table):
    """A table of settings, where it holds nothing but integers and lists of integers."""
    if not NAME.fullmatch(name) or type(table) is not dict:
        raise Fault("%s: %s: no table of settings" % (path, name))
    for key, value in table.items():
        values = value if type(value) is list else [value]
        if not NAME.fullmatch(key) or any(type(value) is not int for value in values):
            raise Fault("%s: %s.%s: neither an integer nor a list of integers" % (path, name, key))
    return table


def checked_list(path, name, tables):
    """A list of routes or of pools, where each is a table that holds nothing but integers and texts."""
    if type(tables) is not list or any(type(table) is not dict for table in tables):
        raise Fault("%s: %s: no list of tables" % (path, name))
    for key, value in (entry for table in tables for entry in table.items()):
        if not NAME.fullmatch(key) or type(value) not in (int, str):
            raise Fault("%s: %s.%s: neither an integer nor a text" % (path, name, key))
    return tables


def parsed(text, path):
    """The tables of a document of settings in a text of bytes, which came from this path."""
    if len(text) > SIZE_LIMIT:
        raise Fault("%s: more than %d bytes: no settings" % (path, SIZE_LIMIT))
    try:
        tables = tomllib.loads(text.decode())
    except (ValueError, RecursionError) as error:  # also of bytes that are no UTF-8
        raise Fault("%s: no TOML document: %s" % (path, error)) from None
    return {name: checked_list(path, name, table) if name in LISTS else checked(path, name, table)
            for name, table in tables.items()}


def read(path):
    """The tables of a document of settings; none without one."""
    if path is None:
        return {}
    with open(path, "rb") as file:
        return parsed(file.read(SIZE_LIMIT + 1), path)


def value_text(value):
    """A value as TOML writes it; a text between quotes."""
    return json.dumps(value, ensure_ascii=False).replace("\x7f", "\\u007f") if type(value) is str else str(value)


def margin_line(percent):
    """The line by which a document says how wrong all its costs may be."""
    return "# margin %d percent of all costs\n" % percent


def margin_of(path):
    """The percent of such a line of a document; None without one."""
    with open(path, "rb") as file:
        found = MARGIN.search(file.read(SIZE_LIMIT))
    return found and int(found[1])


def listed_key(key):
    """The list, what tells one of its tables, and the name of a key as route./api.cost or pool.api.servers; None of
    another key."""
    table, _, rest = key.partition(".")
    return (table, *rest.rpartition(".")[::2]) if table in LISTS else None


def is_name(key):
    """Whether a key's values are names, of pools."""
    return key.startswith(ROUTE + ".") and key.endswith("." + POOL)


def routes_of(tables, prefix):
    """The routes of a document with this prefix, which are one at most unless it has one twice."""
    return [route for route in tables.get(ROUTE, [])
            if segments_of_prefix(str(route.get("prefix"))) == segments_of_prefix(prefix)]


def pools_of(tables, name):
    """The pools of a document with this name, which are one at most unless it has one twice."""
    return [pool for pool in tables.get(POOL, []) if pool.get("name") == name]


def with_values(base, keys, values):
    """The tables of a base with values in the place of its own. A pool that no route names any more isn't there."""
    tables = collections.defaultdict(dict, {
        name: [dict(one) for one in table] if name in LISTS else dict(table) for name, table in base.items()})
    for key, value in zip(keys, values):
        table, _, name = key.partition(".")
        if table in LISTS:
            _, which, name = listed_key(key)
            (routes_of if table == ROUTE else pools_of)(tables, which)[0][name] = value
        else:
            names = RATES_OF_FIXED if name == FIXED_RATE else (name,)
            tables[table].update(dict.fromkeys(names, value))
    if POOL in tables:
        before, after = ({route.get(POOL) for route in of.get(ROUTE, [])} for of in (base, tables))
        tables[POOL] = [pool for pool in tables[POOL] if pool.get("name") not in before - after]
    return tables


def with_costs(tables, defaults, percent):
    """The tables with all costs, those of routes too, at so many percent of what is in force."""
    def scaled(key, value):
        value = max(RANGES[key][0], round(value * percent / 100))
        refuse_outside(key, value)
        return value

    costs = {**{key: defaults["costs"][key] for key in COSTS}, **tables.get("costs", {})}
    costs.update((key, scaled("costs." + key, costs[key])) for key in COSTS)
    routes = [{**route, **{key: scaled("route." + key, route[key]) for key in OF_ROUTE[:2] if key in route}}
              for route in tables.get(ROUTE, [])]
    return {**tables, "costs": costs, **({ROUTE: routes} if routes else {})}


def text_of(tables):
    """The tables of a document as TOML: tables and keys by rising names, and then pools and routes in their order."""
    parts = [("[%s]\n" % table, entries) for table, entries in sorted(tables.items()) if table not in LISTS]
    parts += [("[[%s]]\n" % name, one) for name in LISTS for one in tables.get(name, [])]
    return "\n".join(heading + "".join("%s = %s\n" % (key, value_text(value)) for key, value in sorted(entries.items()))
                     for heading, entries in parts)


def keys_of(tables):
    """The keys, as policy.rate, of a document that has all, and those by which a tool sets the rates alike."""
    keys = ["%s.%s" % (table, key) for table, entries in tables.items() for key in entries]
    return keys + ["%s.%s" % (table, FIXED_RATE) for table in TIERS]


def refuse_unknown(key, known, where=""):
    """Refuses a key that isn't known, and names the nearest that is."""
    if key not in known:
        near = difflib.get_close_matches(key, known, 1, 0)
        raise Fault("%s%s: no such key%s" % (where, key, "; the nearest is %s" % near[0] if near else ""))


def refuse_outside(key, value):
    """Refuses a value that the program doesn't take for a key."""
    least, greatest = RANGES[key]
    if not least <= value <= greatest:
        raise Fault("%s would be %.0f, and the program takes %d to %d" % (key, value, least, greatest))


def is_rate(key):
    """Whether a key's values are thousandths a second."""
    return key.partition(".")[2] in (*RATES, FIXED_RATE)


def shown(key, value):
    """A value as people read it: a rate in requests a second."""
    return "%g" % (value / 1000) if is_rate(key) and isinstance(value, int) else str(value)


def titled(key):
    """A key with the unit in which `shown` shows its values."""
    return key + ", requests a second" if is_rate(key) else key


def servers_of(tables):
    """How many servers each pool has by a document's tables, that without a name first: one where they don't say."""
    table, _, name = SERVERS.partition(".")
    return [of.get(name, 1) for of in (tables.get(table, {}), *tables.get(POOL, []))]


def names_of_pools(tables):
    """The pools of a document as its keys begin: costs, and pool.api."""
    return [SERVERS.partition(".")[0], *("%s.%s" % (POOL, pool.get("name")) for pool in tables.get(POOL, []))]


def policy_of(tier, tables, defaults):
    """What of a tier's policy is in force: of a document's tables, and the defaults' for what they leave out.

    A key that a tier's table leaves out has the value of `policy`.
    """
    def value(key):
        for table in (tables.get(TIERS[tier], {}), tables.get("policy", {})):
            if key in table:
                return table[key]
        return defaults["policy"][key]

    return Policy(*map(value, Policy._fields))
