"""Lines for nginx, HAProxy and Envoy that let in what a policy with a fixed rate lets in (docs/DEPLOY.md)."""

LEAST_FILL = 50  # milliseconds: the shortest time after which Envoy fills its bucket
GREATEST_FILL = 1_000  # milliseconds that are looked at
THOUSANDTHS_IN_FILL = 1_000_000  # a rate in thousandths a second, for so many milliseconds, gives a thousandth part


def nginx_rate(rate):
    """A rate in thousandths a second in nginx's words, and whether it is exactly that."""
    if rate % 1000 == 0:
        return "%dr/s" % (rate // 1000), True
    return "%dr/m" % max(1, rate * 60 // 1000), rate * 60 % 1000 == 0


def nginx(policies):
    """Lines for nginx, for policies by their tiers."""
    alone = len(policies) == 1
    lines = ["# nginx: the zones in http { }, the rest in server { }"]
    for tier, policy in policies.items():
        rate, exact = nginx_rate(policy.rate)
        key = "all" if alone else "$tier%d" % tier  # an empty key would count nobody
        lines.append("limit_req_zone %s zone=tier%d:1m rate=%s;%s" % (
            key, tier, rate, "" if exact else "  # the nearest below"))
    lines += ["limit_req zone=tier%d%s nodelay;" % (tier, " burst=%d" % (policy.depth - 1) if policy.depth > 1 else "")
              for tier, policy in policies.items()]
    lines += ["limit_req_status 503;", "# limit_req_dry_run on;  # only counts in the log whom it would turn away"]
    if not alone:
        lines.append("# $tier<n> is of a map of yours: \"1\" for the requests of the tier, \"\" for all others")
    return lines


def haproxy(policies):
    """Lines for HAProxy, for policies by their tiers."""
    lines = ["# HAProxy: has no bucket; by its sliding window it turns more of a burst away (docs/DEPLOY.md)"]
    for tier, policy in policies.items():
        period = max(1, -(-policy.depth * 1_000_000 // policy.rate))
        lines += ["backend tier%d" % tier,
                  "    stick-table type string len 8 size 1k expire %dms store gpc0,gpc0_rate(%dms)" % (
                      max(60_000, 2 * period), period)]
    lines.append("# in the frontend%s:" % ("" if len(policies) == 1 else ", each tier with a condition of yours"))
    for tier, policy in policies.items():
        lines += ["    http-request track-sc0 str(all) table tier%d" % tier,
                  "    http-request deny deny_status 503 if { sc_gpc0_rate(0) ge %d }" % policy.depth,
                  "    http-request sc-inc-gpc0(0)"]
    return lines


def envoy_fill(rate):
    """Tokens and milliseconds by which Envoy's bucket fills at a rate in thousandths a second, and whether exactly."""
    for milliseconds in range(LEAST_FILL, GREATEST_FILL + 1):
        if rate * milliseconds % THOUSANDTHS_IN_FILL == 0:
            return rate * milliseconds // THOUSANDTHS_IN_FILL, milliseconds, True
    return max(1, rate // 1000), GREATEST_FILL if rate >= 1000 else THOUSANDTHS_IN_FILL // rate, False


def envoy(policies):
    """Lines for Envoy, for policies by their tiers."""
    lines = ["# Envoy: among http_filters, before the router%s" % (
        "" if len(policies) == 1 else "; each tier on routes of its own")]
    for tier, policy in policies.items():
        tokens, milliseconds, exact = envoy_fill(policy.rate)
        kind = "type.googleapis.com/envoy.extensions.filters.http.local_ratelimit.v3.LocalRateLimit"
        lines += ["- name: envoy.filters.http.local_ratelimit", "  typed_config:", '    "@type": ' + kind,
                  "    stat_prefix: tier%d" % tier, "    status: { code: ServiceUnavailable }",
                  "    token_bucket: { max_tokens: %d, tokens_per_fill: %d, fill_interval: %d.%03ds }%s" % (
                      policy.depth, tokens, milliseconds // 1000, milliseconds % 1000,
                      "" if exact else "  # the nearest below"),
                  "    filter_enabled: { default_value: { numerator: 100 } }",
                  "    filter_enforced: { default_value: { numerator: 100 } }"]
    return lines


def lines_of(policies):
    """The lines for the three, for the policies in force by their tiers; first what of a policy they don't have."""
    lines = []
    for tier, policy in policies.items():
        if not policy.rate_min == policy.rate == policy.rate_max:
            lines += ["# tier %d: a controller moves the rate from %g to %g requests a second." % (
                tier, policy.rate_min / 1000, policy.rate_max / 1000),
                "# The lines below have none, and hold the first rate, %g; sweep over fixed_rate for one that does well"
                " alone." % (policy.rate / 1000)]
    return [*lines, *nginx(policies), "", *haproxy(policies), "", *envoy(policies)]
