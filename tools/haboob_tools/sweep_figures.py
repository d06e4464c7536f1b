"""The figures of a sweep's combinations: the worst over captures, which are equal, unbeaten, or within limits."""
import collections
import functools
import math

from . import settings_documents

ANY = "any"  # in the place of a key's value where all its values give the same figures
COUNTED = ("admitted", "rejected", "rejected_while_idle", "p50", "p90", "p99", "greatest")
OF_TIER = ("turned_away", "rejected", "rejected_while_idle", "p50", "p90", "p99", "greatest")
LIMITED = (*OF_TIER, "most_inside", "busy_share")
COLUMNS_OF_TIER = ("admitted", *OF_TIER)
COLUMNS_OF_POOL = ("busy_share", "most_waiting", "longest_wait")
OF_POOL = ("busy", "most_waiting", "longest_wait")  # in a result
POOLS = {str(number) for number in range(17)}
IN_RESULT = (*COUNTED, "most_inside", "busy", "span", "asked", "missing")
TIMES = ("p50", "p90", "p99", "greatest")
TICKS_IN_MILLISECOND, TICKS_IN_SECOND = 1000, 1_000_000
DIGITS = {"turned_away": "%.4f", "busy_share": "%.6f"}  # of shares in the table
ENDS = ("lower", "upper")  # of a margin
AT_ENDS = ("turned_away", *TIMES, "busy_share")  # the figures that are told there
BUSY = 0.9  # of the time: a server that is busier has no room
FAR = 1_000_000.0  # the cost of what the program refuses
MOST_COUNTED = 10**18  # beyond what a table of decisions can tell

DEFINITIONS = (
    ("turned away", "the rejected requests, in percent of those that were offered (all but the bypassed ones)"),
    ("p50, p90, p99", "percentiles of the response times of the admitted requests, as in the report"),
    ("greatest", "the longest response time of an admitted request"),
    ("while idle", "the requests that were turned away while a virtual server was idle"),
    ("most inside", "the most requests that were admitted and not yet answered"),
    ("busy", "the part of their time for which the virtual servers worked, from the first request to the end of the "
             "last service"),
    ("unbeaten", "no other combination turns no more away and has no greater p99, with one of both less"),
)


class Combination(collections.namedtuple("Combination", "row values settings results ends", defaults=((),))):
    """A combination that was run: its row in the table from 1, its values, the file of its settings, and what came of
    it for each capture; the same with costs at both ends of a margin, if there is one."""

    @functools.cached_property
    def figures(self):
        """The worst figures over all captures: of these alone its place among others is decided."""
        return worst(self.results)

    @functools.cached_property
    def at_ends(self):
        """The same at both ends of the margin."""
        return [worst(results) for results in self.ends]

    def all_figures(self):
        """All three, or without a margin the first alone."""
        return [self.figures, *self.at_ends]


def is_count(value):
    """Whether a value is a number that a run may have counted, or a time."""
    return type(value) is int and 0 <= value < MOST_COUNTED


def is_result(value):
    """Whether a value is the result of a run."""
    def are_counts(of, names):
        return isinstance(of, dict) and all(of.get(name) is None or is_count(of[name]) for name in names)

    if not isinstance(value, dict) or isinstance(value.get("fault"), str):
        return isinstance(value, dict)
    tiers, pools = value.get("tiers"), value.get("pools", {})
    return (are_counts(value, IN_RESULT) and all(name in value for name in IN_RESULT) and isinstance(tiers, dict)
            and all(is_count(value[name]) for name in (*COUNTED[:3], "busy", "span", "asked", "missing"))
            and all(number in ("0", "1", "2", "3") and are_counts(tier, COUNTED)
                    and all(is_count(tier.get(name)) for name in ("admitted", "rejected"))
                    for number, tier in tiers.items())
            and isinstance(pools, dict) and all(number in POOLS and isinstance(pool, dict) and all(
                is_count(pool.get(name)) for name in OF_POOL) for number, pool in pools.items()))


def share_of(result):
    """The rejected requests in percent of those that were offered; 0 where none was."""
    offered = result["admitted"] + result["rejected"]
    return 100 * result["rejected"] / offered if offered else 0.0


def of_servers(result, tables):
    """A result with the number of servers by the tables of its settings, which its work is shared among, and with its
    pools by their names there; a fault has none."""
    if "fault" in result:
        return result
    servers, names = settings_documents.servers_of(tables), settings_documents.names_of_pools(tables)
    pools = {names[place]: {**result["pools"][str(place)], "servers": servers[place]}
             for place in range(len(names)) if str(place) in result.get("pools", {})}
    return {**result, "servers": sum(servers), "pools": pools}


def busy_share(work, span):
    """The part of a span for which servers worked; None without a span."""
    return work["busy"] / (span * work["servers"]) if span else None


def with_shares(result):
    """The figures of a result, with its shares."""
    tiers = {number: {**tier, "turned_away": share_of(tier)} for number, tier in result["tiers"].items()}
    pools = {name: {**pool, "busy_share": busy_share(pool, result["span"])} for name, pool in result["pools"].items()}
    return {**result, "turned_away": share_of(result), "busy_share": busy_share(result, result["span"]),
            "tiers": tiers, "pools": pools}


def worst_of(figures, names):
    """The worst of each figure: the least admitted, the greatest of the others; None where there is none."""
    of = {name: [one[name] for one in figures if one.get(name) is not None] for name in names}
    return {name: (min if name == "admitted" else max)(values, default=None) for name, values in of.items()}


def worst(results):
    """The worst figures over results of the same settings; the fault where they were refused."""
    fault = next((result["fault"] for result in results if "fault" in result), None)
    if fault is not None:
        return {"fault": fault}
    figures = [with_shares(result) for result in results]
    parts = {part: {name: worst_of([one[part][name] for one in figures if name in one[part]], columns)
                    for name in sorted({name for one in figures for name in one[part]})}
             for part, columns in (("tiers", COLUMNS_OF_TIER), ("pools", COLUMNS_OF_POOL))}
    return {**worst_of(figures, ("admitted", *LIMITED)), **parts}


def joined(combinations, place, count):
    """The combinations, where all the `count` values at a place that give the same figures are one, with ANY."""
    groups = collections.defaultdict(list)
    for combination in combinations:
        groups[combination.values[:place], combination.values[place + 1:]].append(combination)
    rows = []
    for (before, after), group in groups.items():
        is_equal = all((one.results, one.ends) == (group[0].results, group[0].ends) for one in group)
        if 1 < count == len(group) and is_equal:
            group = [group[0]._replace(values=(*before, ANY, *after))]
        rows += group
    return rows


def rows_of(combinations, grid, is_grid):
    """The rows of the table, numbered from 1: equal ones of a grid are joined, in the order of their first."""
    order = {combination.settings: place for place, combination in enumerate(combinations)}
    rows = combinations
    for place, values in enumerate(grid if is_grid else ()):
        rows = joined(rows, place, len(values))
    rows = sorted(rows, key=lambda row: order[row.settings])
    return [row._replace(row=number) for number, row in enumerate(rows, 1)]


def comparable(combinations):
    """Those that were run and had an answer to time."""
    return [combination for combination in combinations if combination.figures.get("p99") is not None]


def unbeaten_of(combinations):
    """Those that no other beats, by rising requests turned away and falling p99. All have the same requests."""
    kept = []

    def figures(combination):
        return combination.figures["turned_away"], combination.figures["p99"]

    for combination in sorted(comparable(combinations), key=figures):
        if not kept or figures(combination) == figures(kept[-1]) or figures(combination)[1] < figures(kept[-1])[1]:
            kept.append(combination)
    return kept


def limited(figures, limit):
    """The figure that a limit is about; None where there is none."""
    of = figures["tiers"].get(limit.tier, {}) if limit.tier else figures
    return of.get(limit.figure)


def is_within(figures, limits):
    """Whether all figures are within their limits."""
    values = [(limited(figures, one), one.most) for one in limits]
    return all(value is not None and value <= most for value, most in values)


def chosen_of(combinations, limits):
    """The combination that turns fewest away within the limits, all over the margin; of equals that with the least p99;
    None of none."""
    fit = [one for one in comparable(combinations)
           if limits and all(is_within(figures, limits) for figures in one.all_figures())]
    return min(fit, key=lambda one: (one.figures["turned_away"], one.figures["p99"], one.row), default=None)


def nearest_in_words(combinations, limits):
    """The least of each figure that has a limit (of those over the margin the greatest), to be told where no
    combination is within all."""
    words = []
    for one in limits:
        values = [[limited(figures, one) for figures in row.all_figures()] for row in comparable(combinations)]
        least = min((max(of) for of in values if None not in of), default=None)
        words.append("nothing was answered" if least is None else "the least %s is %g" % (one.name, least))
    return ": " + ", ".join(words)


def cost(figures, limits):
    """What an optimiser makes small: requests turned away in percent, and beyond 100 by how much limits are passed."""
    if figures.get("p99") is None:
        return FAR
    passed = 0.0
    for one in limits:
        value = limited(figures, one)
        passed += FAR if value is None else math.log(max(value, one.most, 1e-9) / max(one.most, 1e-9))
    return 100 + passed if passed else figures["turned_away"]


def cost_of(combination, limits):
    """The same of a combination, at the dearest over its margin."""
    return max(cost(figures, limits) for figures in combination.all_figures())


def warnings_of(chosen, rate, margin):
    """What is to be known about the chosen combination, of each pool where there are some, at the upper end of a margin
    in percent if there is one, a line each; `rate` is how many requests a second its policies let in as long as the
    load lasts, None where a controller moves that."""
    if chosen is None:
        return []
    at = " at costs %d%% higher" % margin if margin else ""
    figures, results = chosen.all_figures()[-1], [chosen.results, *chosen.ends][-1]
    lines = []
    for name in figures["pools"] or [None]:
        who = "the server of %s" % name if name else "the server"
        busy = (figures["pools"][name] if name else figures)["busy_share"] or 0
        parts = [(result["admitted"], result["pools"].get(name) if name else result) for result in results]
        works = [work["busy"] / (admitted * work["servers"] * TICKS_IN_SECOND)
                 for admitted, work in parts if admitted and work]
        borne = max(works, default=0) * (rate or 0)
        lines += ["WARNING: row %d keeps %s busy for %.0f%% of its time%s: above %.0f%% a little more traffic waits "
                  "ever longer" % (chosen.row, who, 100 * busy, at, 100 * BUSY)] * (busy > BUSY)
        lines += ["WARNING: row %d lets in %g requests a second, %.0f%% of what %s bears%s: above %.0f%% a load that "
                  "lasts waits ever longer" % (
                      chosen.row, rate or 0, 100 * borne, who, at, 100 * BUSY)] * (borne > BUSY)
    return lines


def cells_of(figures, tiers, pools):
    """The cells of a row for figures: those of all, and those of each of several tiers, and of each pool."""
    of_all = [figures.get(name) for name in COUNTED]
    of_parts = [figures.get("tiers", {}).get(tier, {}).get(name) for tier in tiers for name in COLUMNS_OF_TIER]
    of_parts += [rounded(name, figures.get("pools", {}).get(pool, {}).get(name))
                 for pool in pools for name in COLUMNS_OF_POOL]
    share, busy = (rounded(name, figures.get(name)) for name in ("turned_away", "busy_share"))
    return [*of_all, busy], [share, figures.get("most_inside")], of_parts


def rounded(name, value):
    """A figure as the table has it; None where there is none."""
    return DIGITS[name] % value if name in DIGITS and value is not None else value


def several_tiers(combinations):
    """The tiers of which a request was offered, where there are others than 0."""
    tiers = sorted({tier for one in combinations for tier in one.figures.get("tiers", {})})
    return tiers if tiers != ["0"] else []


def pools_in(combinations):
    """The pools, by rising names, that a request was offered to; none where the settings have none."""
    return sorted({pool for one in combinations for pool in one.figures.get("pools", {})})


def table_of(keys, captures, combinations, unbeaten, chosen):
    """The heading and the rows of the table. Of several captures the worst figures come first, then those of each."""
    tiers, pools = several_tiers(combinations), pools_in(combinations)
    ends = ENDS if any(one.ends for one in combinations) else ()
    heading = [*keys, *COUNTED, "busy_share", "unbeaten", "chosen", "turned_away", "most_inside", "row", "capture",
               *("tier%s.%s" % (tier, name) for tier in tiers for name in COLUMNS_OF_TIER),
               *("%s.%s" % (pool, name) for pool in pools for name in COLUMNS_OF_POOL),
               *("%s.%s" % (end, name) for end in ends for name in AT_ENDS), "fault", "settings"]
    rows = []
    for one in combinations:
        for capture, (figures, *at_ends) in parts_of(one, captures):
            first, second, of_parts = cells_of(figures, tiers, pools)
            marks = [int(one in unbeaten), int(chosen is not None and one.row == chosen.row)]
            of_ends = [rounded(name, of.get(name)) for of in at_ends for name in AT_ENDS]
            rows.append([*one.values, *first, *marks, *second, one.row, capture, *of_parts, *of_ends,
                         figures.get("fault"), one.settings])
    return heading, rows


def parts_of(combination, captures):
    """The figures of a combination, also at the ends of its margin, by what they are of: the capture; of several first
    the worst, and then those of each."""
    if len(captures) == 1:
        return [(captures[0], combination.all_figures())]
    each = zip(*([worst([result]) for result in results] for results in (combination.results, *combination.ends)))
    return [("worst", combination.all_figures()), *zip(captures, each)]


def milliseconds(ticks):
    """A time for people."""
    return "-" if ticks is None else "%.3f ms" % (ticks / TICKS_IN_MILLISECOND)


def in_words(name, value):
    """A figure for people, by its name without the tier."""
    if name in TIMES:
        return milliseconds(value)
    return ("%.2f%%" if name == "turned_away" else "%.3f" if name == "busy_share" else "%d") % value


def choice_in_words(combination, limits):
    """What a combination was chosen by: requests turned away, each figure that has a limit, and p99 where none of these
    is a time; with what these are at the ends of its margin, where that differs."""
    def told_of(figure, limit=None):
        value, *at_ends = [in_words(figure, limited(figures, limit) if limit else figures[figure])
                           for figures in combination.all_figures()]
        return value + (" (%s to %s)" % tuple(at_ends) if set(at_ends) - {value} else "")

    told = {one.name: told_of(one.figure, one) for one in limits if one.name != "turned_away"}
    if not any(one.figure in TIMES for one in limits):
        told["p99"] = told_of("p99")
    away = told_of("turned_away").replace("%", "% turned away", 1)
    return ", ".join([away, *("%s %s" % pair for pair in told.items())])
