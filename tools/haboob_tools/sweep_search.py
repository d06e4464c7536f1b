"""Looks for the best of ranges of settings by an optimiser, in a bounded number of runs."""
from . import tool_run

SEED = 1
LEAST_POPULATION = 5  # which SciPy asks for
EACH = 3  # points of a population for each key: in so few runs small populations find more
GENERATIONS = 4  # at least so many, where there are few runs
RECOMBINATION = 0.9  # how likely each value of a point is taken from another


def value_at(place, least, greatest):
    """The integer at a place from 0 to 1 of a range: by equal ratios, or from below 1 by equal steps."""
    if least >= 1:
        value = least * (greatest / least) ** place
    else:
        value = least + (greatest - least) * place
    return min(greatest, max(least, round(value)))


class Seen:
    """The points that were looked at, in their order, and what came of them."""

    def __init__(self, ranges, most, run):
        self.ranges, self.most, self.run = ranges, most, run
        self.combinations = {}

    def take(self, places):
        """Runs those of these places that are new, as far as runs are left; returns the points of all."""
        points = [tuple(value_at(place, *ends) for place, ends in zip(row, self.ranges)) for row in places]
        new = [point for point in dict.fromkeys(points) if point not in self.combinations]
        new = new[:self.most - len(self.combinations)]
        if new:
            self.combinations.update(zip(new, self.run(new)))
        return points

    def is_full(self, *_, **__):
        """Whether no run is left; it is called with what the optimiser has found."""
        return len(self.combinations) >= self.most


def search(ranges, most, run, cost):
    """The combinations of at most so many points of ranges (least, greatest), in the order in which they were tried.

    `run` gives the combinations of points, `cost` what is to be made small of one. The same for the same answers.
    """
    optimize = tool_run.library("scipy.optimize")
    stats = tool_run.library("scipy.stats")
    seen = Seen(ranges, most, run)
    size = max(LEAST_POPULATION, min(EACH * len(ranges), most // GENERATIONS))
    begin = stats.qmc.LatinHypercube(len(ranges), seed=SEED).random(size)

    def costs(_, places):
        points = seen.take(places)
        return [cost(seen.combinations[point]) if point in seen.combinations else float("inf") for point in points]

    optimize.differential_evolution(
        lambda _: 0.0, [(0.0, 1.0)] * len(ranges), init=begin, workers=costs, updating="deferred", seed=SEED,
        recombination=RECOMBINATION, polish=False, tol=0, atol=-1, maxiter=most, callback=seen.is_full)
    return list(seen.combinations.values())
