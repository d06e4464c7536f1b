"""Fits costs, servers and delays to measured times, by simulating first come, first served.

Times are in microseconds, as numpy's arrays of floats. Requests are in groups: group 0 is the rest, on no route, and
the others are routes. The costs are those of the rest for a file, for each KiB of it and for any other answer, and then
of each route for any answer and for each KiB of a file (docs/RULES.md, Service times and admission).
"""
import collections
import heapq

from . import tool_run

numpy = tool_run.library("numpy")
linalg = tool_run.library("scipy.linalg")
optimize = tool_run.library("scipy.optimize")
sparse = tool_run.library("scipy.sparse")

FILE, KIB, ERROR = range(3)
OF_REST, OF_ROUTE = 3, 2  # costs of the rest and of a route
BYTES_IN_KIB = 1024
ENOUGH = 0  # in the place of the number of servers: so many that nobody waits
SERVERS = (1, 2, 4, 8, 16, 32, 64, 128, 256)
NONE, SHARED, EACH = range(3)  # no delay, one for all groups, one for each
MODELS = 2 * len(SERVERS) + 4
MOST_IN_CHOICE = 10_000  # requests by which the number of servers is chosen
MOST_IN_FIT = 40_000, 15_000  # requests of few groups and of many
BLOCK = 1_000  # requests in a row that are taken for a group that the others have few of
ENOUGH_OF_GROUP = 200
LEAST_ALONE, MOST_ALONE = 50, 3_000  # requests of a group by which its costs are estimated at first
LEAST_OF_KIB = 0.1  # of the time of the largest answer, which the cost of its KiB begins with
FEW, MUCH = 0.15, 0.6  # parts of the costs without delays, and of their first estimate, that a delay begins with
SIMPLER = 1.01  # a model with fewer servers, or delays, is taken where its error is at most so many times the least
CLEARLY = 0.002  # relative, and in roots of microseconds, by which an error is less
WRONG = 0.2  # mean difference of roots from which on other ways to wait are looked at
EXACT = 0.02  # mean difference of roots below which no other model is looked at
ROUNDS, LAST_ROUNDS, PIECE_ROUNDS = 12, 40, 5
FEWEST = 0.002  # of the requests that wait: more servers would change nothing
SPARSE = 0.2  # the part of a matrix that isn't 0, up to which it is squared as a sparse one
MANY = 16  # groups are few; of more a fit begins once and no more
FARTHER = 1.2  # numbers of servers are tried until their error is more than so many times the least
GAIN = 5e-4  # relative, of a step after which another is worth while
TURNS = 8  # orders of those that came at the same time that are tried
HOPELESS = 2  # times the least error, of a fit that isn't made better any more
GAIN_OF_TURN = 0.02  # relative, of an order after which another is worth while
LONGEST_STEP = 1.5  # of the logarithm of a value
LEAST = 0.01  # microseconds: no value is lower
WAITED = 0.05  # of the requests of a group others have waited for: of less its delay can't be told from its cost
PIECES = 10
HARDLY = 2  # times as long
APART = 0.8  # times the error, by which it is better to take it that the rest needs none of the servers
SPREAD = 2.26  # times the standard error is the margin: 95 percent by Student's distribution with 9 degrees of freedom

# Requests by rising arrival: when each came, how long it was at the server, what its answer took beside that, its tier
# and whether it needs none of the servers that others wait for; its group, the places of its two costs, and the KiB of
# the file that it got.
Requests = collections.namedtuple("Requests", "arrivals times beside tier direct group first second kib")
# Costs by their places, the delays of the groups, how many servers there are, and the mean difference of the roots of
# predicted and measured times.
Fit = collections.namedtuple("Fit", "costs delays servers error")


def requests_of(arrivals, times, beside, tier, direct, group, is_file, kib):
    """Requests with the places of their costs."""
    first = numpy.where(group > 0, OF_ROUTE * group + 1, numpy.where(is_file, FILE, ERROR))
    second = numpy.where(group > 0, OF_ROUTE * group + 2, KIB)
    return Requests(arrivals, times, beside, tier, direct, group, first, second, kib)


def chosen(requests, which):
    """The requests at some places."""
    return Requests(*(values[which] for values in requests))


def regrouped(requests, group):
    """The same requests in other groups; those of the rest stay of it."""
    places = (numpy.where(group > 0, OF_ROUTE * group + of, before)
              for of, before in ((1, requests.first), (2, requests.second)))
    return requests._replace(group=group, **dict(zip(("first", "second"), places)))


def merged(*parts):
    """Requests of several parts by rising arrival, where they came at the same time those of the first part first; and
    their places in all parts, one after the other."""
    of_all = Requests(*map(numpy.concatenate, zip(*parts)))
    order = numpy.argsort(of_all.arrivals, kind="stable")
    return chosen(of_all, order), order


def services_of(requests, costs):
    """How long the server works on each request."""
    return costs[requests.first] + costs[requests.second] * requests.kib


def begins_of(arrivals, services, servers):
    """When each request is begun by so many servers, first come, first served; and the place of the request whose end
    it waits for, -1 where it waits for none."""
    parents = numpy.full(len(arrivals), -1)
    if servers == ENOUGH:
        return arrivals, parents
    if servers == 1:
        done = numpy.cumsum(services) - services
        begins = done + numpy.maximum.accumulate(arrivals - done)
        waits = numpy.flatnonzero(begins > arrivals + LEAST / 2)
        parents[waits] = waits - 1
        return numpy.maximum(begins, arrivals), parents
    free, begins = [(-numpy.inf, -1)] * servers, []
    for place, (arrival, service) in enumerate(zip(arrivals.tolist(), services.tolist())):
        end, last = free[0]
        if end > arrival:
            arrival, parents[place] = end, last
        begins.append(arrival)
        heapq.heapreplace(free, (arrival + service, place))
    return numpy.array(begins), parents


def begun(requests, services, servers):
    """The same of requests of which some need none of these servers."""
    behind = numpy.flatnonzero(~requests.direct)
    begins, parents = requests.arrivals.copy(), numpy.full(len(services), -1)
    begins[behind], of = begins_of(requests.arrivals[behind], services[behind], servers)
    parents[behind] = numpy.where(of >= 0, behind[of], -1)
    return begins, parents


def predicted(requests, fit):
    """The times at the server that a fit predicts for requests in a replay, where all need a server; with its delays.
    """
    services = services_of(requests, fit.costs)
    begins, _ = begins_of(requests.arrivals, services, fit.servers)
    return begins - requests.arrivals + services + fit.delays[requests.group]


def in_turn(requests, fit):
    """Requests of which those that came at the same time are in the order in which they were begun, by a fit."""
    begun = requests.times - services_of(requests, fit.costs) - fit.delays[requests.group]
    return chosen(requests, numpy.lexsort((begun, requests.arrivals)))


def found_inside(requests):
    """How many requests each found that had come and weren't answered."""
    ended = numpy.searchsorted(numpy.sort(requests.arrivals + requests.times), requests.arrivals, side="right")
    return numpy.maximum(numpy.arange(len(requests.arrivals)) - ended, 0)


def quietest(inside, places, most):
    """At most so many of some places, those that found the fewest inside."""
    return places[numpy.argsort(inside[places], kind="stable")[:most]]


def sampled(requests, most):
    """At most so many requests: the stretch in which most are inside together, and blocks with the groups of which it
    has few. The time between stretches is passed over as one in which nobody comes."""
    count = len(requests.arrivals)
    if count <= most:
        return requests
    is_in = numpy.zeros(count, bool)
    sums = numpy.concatenate(([0], numpy.cumsum(found_inside(requests))))
    half = most // 2
    first = int((sums[half:] - sums[:-half]).argmax())
    is_in[first:first + half] = True
    blocks = numpy.arange(count) // BLOCK
    for group in numpy.argsort(numpy.bincount(requests.group)):
        has = numpy.bincount(blocks, requests.group == group)
        for block in numpy.argsort(-has, kind="stable"):
            if (requests.group[is_in] == group).sum() >= ENOUGH_OF_GROUP or not has[block]:
                break
            is_in[block * BLOCK:(block + 1) * BLOCK] = is_in.sum() + BLOCK <= most
    places = numpy.flatnonzero(is_in)
    taken = chosen(requests, places)
    apart = numpy.flatnonzero(numpy.diff(places) > 1) + 1
    late = taken.arrivals.copy()
    for place in apart:  # nobody of the stretch before is inside any more
        late[place:] += max(0.0, (late[:place] + taken.times[:place]).max() - late[place])
    return taken._replace(arrivals=late)


def least_absolute(work, measured):
    """The costs, none below 0, of which the works differ least from the measured times (least absolute deviations, by
    least squares that are weighted again and again)."""
    weights, costs = numpy.ones(len(measured)), numpy.zeros(work.shape[1])
    for _ in range(LAST_ROUNDS):
        roots = numpy.sqrt(weights)
        costs, _ = optimize.nnls(work * roots[:, None], measured * roots)
        weights = 1 / numpy.maximum(numpy.abs(work @ costs - measured), LEAST)
    return costs


def groups_of(costs):
    """How many groups have these costs."""
    return (len(costs) - OF_REST) // OF_ROUTE + 1


def places_of(group):
    """The places of the costs of a group by their keys in the settings."""
    if not group:
        return {"file": FILE, "kib": KIB, "error": ERROR}
    return {"cost": OF_ROUTE * group + 1, "kib": OF_ROUTE * group + 2}


def fixed_places(group):
    """The places of those of them that aren't of a KiB."""
    return [place for key, place in places_of(group).items() if key != "kib"]


def used_by(requests):
    """The places of the costs that some of the requests need."""
    return numpy.unique(numpy.concatenate((requests.first, requests.second[requests.kib > 0])))


def costs_alone(requests, groups, part=1):
    """The costs of so many groups, of each by its requests that found the fewest inside, a part of them at the most;
    that of a KiB isn't so low that nothing would raise it any more."""
    costs, inside = numpy.zeros(OF_REST + OF_ROUTE * (groups - 1)), found_inside(requests)
    for group in numpy.unique(requests.group):
        places = numpy.flatnonzero(requests.group == group)
        most = min(MOST_ALONE, max(LEAST_ALONE, int(part * len(places))))
        some = chosen(requests, quietest(inside, places, most))
        used = used_by(some)
        costs[used] = least_absolute(work_of(some, used), some.times)
        if some.kib.any():
            kib = places_of(group)["kib"]
            costs[kib] = max(costs[kib], LEAST_OF_KIB * numpy.median(some.times) / some.kib.max())
    return costs


def work_of(requests, columns):
    """The work of requests for the costs at some places, a row for each."""
    work = numpy.zeros((len(requests.kib), int(max(requests.first.max(), requests.second.max())) + 1))
    rows = numpy.arange(len(work))
    work[rows, requests.first] += 1
    work[rows, requests.second] += requests.kib
    return work[:, columns]


def along(parents, work):
    """The sum of the work of each request, of the one that it waits for, of the one that that waits for, and so on."""
    total, waits = work.copy(), numpy.flatnonzero(parents >= 0)
    for row, ahead in zip(waits.tolist(), parents[waits].tolist()):
        total[row] += total[ahead]
    return total


def squared(slopes):
    """The product of a matrix's columns with one another; quick where most of it is 0."""
    if numpy.count_nonzero(slopes) < SPARSE * slopes.size:
        rows = sparse.csr_matrix(slopes)
        return (rows.T @ rows).toarray()
    upper = linalg.blas.dsyrk(1.0, slopes.T)
    return upper + numpy.triu(upper, 1).T


class Model:
    """Predicts times by the logarithms of those costs and delays that are looked for."""

    def __init__(self, requests, grain, fit, delays=NONE, held=(), keep=None):
        """Takes requests, in what steps their times are told, a fit to begin with, which delays are looked for, the
        places of costs that stay as they are, and for how much each request counts."""
        self.requests, self.grain, self.fit, self.keep = requests, grain, fit, keep
        self.free = numpy.setdiff1d(used_by(requests), held)
        self.work = None  # of the free costs
        self.of_group = numpy.zeros(len(fit.delays), int) if delays == SHARED else numpy.arange(len(fit.delays))
        self.count = {NONE: 0, SHARED: 1, EACH: len(fit.delays)}[delays]
        self.near = numpy.sqrt(grain) / 2  # differences of roots below it weigh as squares
        self.roots = numpy.sqrt(requests.times + grain)

    def begin(self):
        """The logarithms of the fit's values."""
        delays = self.fit.delays[:self.count] if self.count != 1 else [self.fit.delays.mean()]
        return numpy.log(numpy.maximum(numpy.concatenate((self.fit.costs[self.free], delays)), LEAST))

    def fit_of(self, values):
        """The fit with these values, with its error, the differences, the times and who waits for whom."""
        costs, delays = self.fit.costs.copy(), self.fit.delays
        costs[self.free] = numpy.exp(values[:len(self.free)])
        if self.count:
            delays = numpy.exp(values[len(self.free):])[self.of_group]
        services = services_of(self.requests, costs)
        begins, parents = begun(self.requests, services, self.fit.servers)
        times = begins - self.requests.arrivals + services + delays[self.requests.group]
        apart = numpy.sqrt(times + self.grain) - self.roots
        error = float(numpy.average(numpy.sqrt(apart**2 + self.near**2) - self.near, weights=self.keep))
        return Fit(costs, delays, self.fit.servers, error), apart, times, parents

    def step(self, values, apart, times, parents):
        """The slopes of the differences by the values, each with its weight: what a step is solved from."""
        self.work = work_of(self.requests, self.free) if self.work is None else self.work
        slopes = along(parents, self.work)
        if self.count:
            rows = numpy.zeros((len(apart), self.count))
            rows[numpy.arange(len(apart)), self.of_group[self.requests.group]] = 1
            slopes = numpy.hstack((slopes, rows))
        slopes *= numpy.exp(values) / (2 * numpy.sqrt(times + self.grain))[:, None]
        weights = (1 if self.keep is None else self.keep) / numpy.sqrt(apart**2 + self.near**2)
        return squared(slopes * numpy.sqrt(weights)[:, None]), slopes.T @ (apart * weights)


def fitted(model, rounds=ROUNDS):
    """The fit of a model, step by step from where it begins (the method of Levenberg and Marquardt)."""
    values, damping = model.begin(), 1e-3
    fit, *state = model.fit_of(values)
    for _ in range(rounds):
        matrix, gradient = model.step(values, *state)
        better = None
        for damping in damping * 8.0 ** numpy.arange(8):
            scale = numpy.diag(matrix) * damping + 1e-9 * (1 + numpy.trace(matrix))
            step = numpy.linalg.solve(matrix + numpy.diag(scale), -gradient)
            tried = numpy.maximum(values + numpy.clip(step, -LONGEST_STEP, LONGEST_STEP), numpy.log(LEAST))
            better = model.fit_of(tried)
            if better[0].error < fit.error:
                break
        else:
            return fit
        is_last = better[0].error > (1 - GAIN) * fit.error
        values, damping = tried, max(damping / 30, 1e-9)
        fit, *state = better
        if is_last:
            return fit
    return fit


def ordered_fit(requests, grain, fit, delays, least=numpy.inf):
    """The fit from one to begin with; and again from there, with those that came at the same time in the order that it
    tells, as long as that makes it better, and it isn't far from the least error."""
    before = numpy.inf
    for _ in range(TURNS):
        fit = fitted(Model(requests, grain, fit, delays))
        if fit.error > min((1 - GAIN_OF_TURN) * before, HOPELESS * least):
            break
        before, requests = fit.error, in_turn(requests, fit)
    return fit


def rest_seems_direct(requests, grain):
    """Whether the rest takes hardly longer while many others are inside."""
    rest = requests.group == 0
    if rest.all() or rest.sum() < ENOUGH_OF_GROUP:
        return False
    inside, times = found_inside(requests)[rest], requests.times[rest]
    many, few = (numpy.median(times[which]) for which in (inside >= numpy.percentile(inside, 90),
                                                          inside <= numpy.median(inside)))
    return bool(many <= HARDLY * few + grain)


def with_delays(fit, part):
    """A fit with a part of its costs as delays."""
    costs = numpy.array([fit.costs[fixed_places(group)].max() for group in range(len(fit.delays))])
    return fit._replace(costs=(1 - part) * fit.costs, delays=part * costs)


def share_of_work(requests, fit):
    """The share of the time in which the servers of a fit would be at work."""
    span = max((requests.arrivals + requests.times).max() - requests.arrivals[0], 1)
    return float(services_of(requests, fit.costs)[~requests.direct].sum() / (span * max(fit.servers, 1)))


def waiting_share(requests, fit):
    """The part of requests that wait for others, by a fit."""
    return (begun(requests, services_of(requests, fit.costs), fit.servers)[1] >= 0).mean()


def all_fits(requests, grain, alone, numbers, note):
    """The fits of rising numbers of servers, without and with delays, the simpler first, each with which delays it has;
    until one without is about exact, or has hardly a request that waits, or they become worse while as many servers
    could do the work by the first estimate. `note` is called after each."""
    groups, fits = groups_of(alone), []
    for servers in numbers:
        for delays in (NONE, EACH):
            starts = [Fit(alone, numpy.zeros(groups), servers, 0.0)]
            if delays:
                starts = [with_delays(fits[-1][0], FEW), with_delays(starts[0], MUCH)][:1 if groups > MANY else 2]
            least = min((fit.error for fit, _ in fits), default=numpy.inf)
            found = min((ordered_fit(requests, grain, start, delays, least) for start in starts),
                        key=lambda fit: fit.error)
            requests = in_turn(requests, found)
            fits.append((found, delays))
            note()
            if delays == NONE and (found.error <= EXACT or waiting_share(requests, found) < FEWEST):
                return fits
        is_farther = min(fit.error for fit, _ in fits[-2:]) > FARTHER * min(fit.error for fit, _ in fits)
        if is_farther and share_of_work(requests, fits[-2][0]._replace(costs=alone)) < 1:
            break
    return fits


def fewest_servers(fits):
    """The smallest number of servers whose error is about the least: without delays, or else with them."""
    most = SIMPLER * min(fit.error for fit, _ in fits) + EXACT / 2
    return min((delays, fit.servers) for fit, delays in fits if fit.error <= most)[1]


def is_clearly_better(requests, grain, one, other):
    """Whether a fit has less error than another, by more than chance in ten pieces of the time tells (Student's t)."""
    losses = [numpy.abs(Model(requests, grain, fit).fit_of(Model(requests, grain, fit).begin())[1])
              for fit in (other, one)]
    before, after = ([piece.mean() for piece in numpy.array_split(loss, PIECES)] for loss in losses)
    less = numpy.subtract(before, after)
    chance = SPREAD * numpy.std(less) / numpy.sqrt(PIECES - 1)
    return less.mean() > max(chance, CLEARLY * numpy.mean(before) + CLEARLY)


def chosen_fit(requests, grain, alone, note):
    """The simplest fit that is about the best, and which delays it has."""
    requests = in_turn(requests, Fit(alone, numpy.zeros(groups_of(alone)), ENOUGH, 0.0))
    fits = all_fits(requests, grain, alone, SERVERS, note)
    servers = fewest_servers(fits)
    if min(fit.error for fit, _ in fits) > EXACT:  # numbers between the powers of two
        between = {servers * part // 4 for part in (3, 6)} - {0, *SERVERS}
        fits += all_fits(requests, grain, alone, sorted(between), note)
        servers = fewest_servers(fits)
    of_these = {delays: fit for fit, delays in fits if fit.servers == servers}
    best, kind = of_these[NONE], NONE
    if EACH in of_these and len(best.delays) > 1:
        of_these[SHARED] = ordered_fit(requests, grain, of_these[EACH], SHARED)
    for delays in (SHARED, EACH):
        if delays in of_these and is_clearly_better(in_turn(requests, of_these[delays]), grain, of_these[delays], best):
            best, kind = of_these[delays], delays
    return best, kind


def refined(requests, grain, fit, delays, held=(), rounds=LAST_ROUNDS):
    """A fit again, on other requests, from where it is."""
    return fitted(Model(requests, grain, fit, delays, held), rounds)


def whole(requests, grain, fit, delays):
    """The same in whole microseconds, as settings have them: the others are fitted again for whole costs of a KiB."""
    held = numpy.array([KIB, *range(OF_REST + 1, len(fit.costs), OF_ROUTE)])
    costs = fit.costs.copy()
    costs[held] = numpy.round(costs[held])
    again = refined(requests, grain, fit._replace(costs=costs), delays, held)
    least = numpy.ones(len(costs))
    least[held] = 0
    return again._replace(costs=numpy.maximum(numpy.round(again.costs), least), delays=numpy.round(again.delays))


def unclear_delays(requests, fit):
    """The groups whose delays can't be told from their costs: hardly a request waited for one of theirs."""
    _, parents = begun(requests, services_of(requests, fit.costs), fit.servers)
    is_of = (requests.group[:, None] == numpy.arange(len(fit.delays))).astype(float)
    waited, counts = along(parents, is_of).sum(0) - is_of.sum(0), is_of.sum(0)
    return [group for group in numpy.flatnonzero(fit.delays) if waited[group] < WAITED * counts[group]]


def needless_kib(requests, fit, margins):
    """The groups whose cost of a KiB may as well be 0."""
    used = used_by(requests)
    places = [(group, places_of(group)["kib"]) for group in range(len(fit.delays))]
    return [group for group, place in places if place in used and margins[place] >= fit.costs[place]]


def without_kib(requests, groups):
    """The same requests, with answers of some groups as if they had no file."""
    return requests._replace(kib=numpy.where(numpy.isin(requests.group, groups), 0.0, requests.kib))


def without_delays(fit, groups):
    """The same with the delays of some groups in their costs."""
    costs, delays = fit.costs.copy(), fit.delays.copy()
    for group in groups:
        costs[fixed_places(group)] += delays[group]
        delays[group] = 0
    return fit._replace(costs=costs, delays=delays)


def margins(requests, grain, fit, delays, unclear, note):
    """By how much each cost, each delay, and as a part of itself the work of all may be wrong: the spread of the fits
    of all but one of ten pieces of the time (the jackknife)."""
    pieces = numpy.arange(len(requests.arrivals)) * PIECES // len(requests.arrivals)
    found = []
    for piece in range(PIECES):
        one = fitted(Model(requests, grain, fit, delays, (), (pieces != piece).astype(float)), PIECE_ROUNDS)
        one = without_delays(one, unclear)
        found.append(numpy.concatenate((one.costs, one.delays, [services_of(requests, one.costs).sum()])))
        note()
    spread = SPREAD * numpy.sqrt((PIECES - 1) * numpy.var(found, axis=0))
    count = len(fit.costs)
    return spread[:count], spread[count:-1], spread[-1] / max(services_of(requests, fit.costs).sum(), 1)


def best_scale(requests, grain, fit):
    """By how many times all costs would have to be higher to fit requests best, from a half to twice."""
    def error(logarithm):
        one = fit._replace(costs=numpy.maximum(fit.costs, LEAST) * numpy.exp(logarithm))
        return Model(requests, grain, one).fit_of(Model(requests, grain, one).begin())[0].error

    found = optimize.minimize_scalar(error, bounds=numpy.log((0.5, 2)), method="bounded", options={"xatol": 1e-3})
    return float(numpy.exp(found.x))
