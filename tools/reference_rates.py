#!/usr/bin/env python3
"""The answer of `yates check-rates CERT MATRICES RATES`, worked out by a program of its own, for comparison with the proved one.

usage: reference_rates.py CERT MATRICES RATES      prints what `yates check-rates CERT MATRICES RATES` has to print, and ends with its status

It follows docs/FORMATS.md (tables, rules, texts) and docs/DEFINITIONS.md (guards), and shares no code with the crates. Where the answer is yes and
there are at most 20,000 sets of so many links, it tries each of them: were a grant not carried by what is left, it would say so and end with 8.
"""
import collections
import itertools
import math
import sys

import reference_check
from reference_update import ends_of, series_of
from reference_witness import table

FIRST = b"yates-rates 1"
LIMIT = 67_108_864
MOST_FAILURES, MOST_RATE, MOST_SETS = 8, 2**32, 20_000

# How many links may fail, for each pair its grant, and for each pair the allocations of its paths.
Rates = collections.namedtuple("Rates", "failures grants allocations")


def spelled(lines, routes):
    """What the lines of a table say as rates of these routes."""
    due = [(b"failures", 1), *((b"", 1 + len(paths)) for paths in routes)]
    for place, ((due_word, count), line) in enumerate(zip(due, [*lines, *[None] * len(due)])):
        if line is None or line[0] != due_word or len(line[1]) != count:
            raise reference_check.ShapeFault(2 + place)
    if len(lines) > len(due):
        raise reference_check.ShapeFault(2 + len(due))
    rows = [numbers for _, numbers in lines]
    return Rates(rows[0][0], [row[0] for row in rows[1:]], [row[1:] for row in rows[1:]])


def first_rate_rule(rates):
    """The failing rule of the least number, at its least place."""
    if rates.failures > MOST_FAILURES:
        return 1, 0
    pairs = enumerate(zip(rates.grants, rates.allocations))
    return next(((2, p) for p, (grant, allocation) in pairs if max([grant, *allocation]) > MOST_RATE), None)


def routes_of(certificate):
    """For each pair the links of its paths."""
    return [[path for _, path in paths] for _, _, paths in certificate["pairs"]]


def paths_on(paths):
    """How many of the paths hold a link, by the link."""
    return collections.Counter(link for path in paths for link in path)


def paths_left(paths, failures):
    """How many of a pair's paths are left at least where so many links fail."""
    return max(0, len(paths) - failures * max(paths_on(paths).values()))


def guard(paths, failures, allocation):
    """The sum of the least allocations, of as many as there are paths left."""
    return sum(sorted(allocation)[: paths_left(paths, failures)])


def sums_on_links(routes, allocations):
    """The sum of the allocations of the paths that hold a link, by the link."""
    sums = collections.Counter()
    for paths, allocation in zip(routes, allocations):
        for path, amount in zip(paths, allocation):
            for link in path:
                sums[link] += amount
    return sums


def first_inequality(certificate, demands, rates):
    """The first of F1, by link, and F2 and F3, by pair, that fails, and where."""
    routes = routes_of(certificate)
    sums, pairs = sums_on_links(routes, rates.allocations), range(len(routes))
    fits = ((1, e, sums[e] <= link[2]) for e, link in enumerate(certificate["links"]))
    guarded = ((2, p, rates.grants[p] <= guard(routes[p], rates.failures, rates.allocations[p])) for p in pairs)
    wanted = ((3, p, rates.grants[p] <= demands[p]) for p in pairs)
    return reference_check.first_fault(itertools.chain(fits, guarded, wanted))


def first_loss(certificate, rates):
    """Links that fail, and a pair whose grant is more than what is left of its allocations; of small files alone."""
    links, routes = len(certificate["links"]), routes_of(certificate)
    failures = min(rates.failures, links)
    if math.factorial(links) // math.factorial(failures) // math.factorial(links - failures) > MOST_SETS:
        return None
    for failed in itertools.combinations(range(links), failures):
        for p, (paths, allocation) in enumerate(zip(routes, rates.allocations)):
            if sum(amount for path, amount in zip(paths, allocation) if not set(failed) & set(path)) < rates.grants[p]:
                return failed, p
    return None


def faults_of_made(certificate, demands, failures, rates):
    """What of rates that `protect` writes for so many failures is not as it promises, beside the three inequalities."""
    routes, faults = routes_of(certificate), [] if rates.failures == failures else [f"failures {rates.failures}"]
    sums, capacities = sums_on_links(routes, rates.allocations), [link[2] for link in certificate["links"]]
    for p, (paths, demand, grant, allocation) in enumerate(zip(routes, demands, rates.grants, rates.allocations)):
        left, amount = paths_left(paths, failures), allocation[0]
        if set(allocation) != {amount}:
            faults.append(f"pair {p} has different allocations")
        elif left == 0:
            faults += [f"pair {p} has no path left, and an allocation or a grant"] if grant or amount else []
        elif grant != min(demand, left * amount):
            faults.append(f"the grant of pair {p} is not the lesser of its demand and {left} times {amount}")
        elif amount > -(-demand // left):
            faults.append(f"pair {p} has more than its demand asks for")
        elif grant < demand and all(sums[link] + count <= capacities[link] for link, count in paths_on(paths).items()):
            faults.append(f"one more on each path of pair {p} fits")
    return faults


def rates_of(name, data, certificate):
    """The rates of a file of this name and these bytes, for the pairs of the certificate."""
    if len(data) > LIMIT:
        raise reference_check.Refused(f"refused: {name}: too long\n", 3)
    try:
        rates = spelled(table(FIRST, data), routes_of(certificate))
    except reference_check.ShapeFault as fault:
        raise reference_check.Refused(f"refused: {name}: shape at line {fault}\n", 3) from fault
    broken = first_rate_rule(rates)
    if broken:
        raise reference_check.Refused(f"refused: {name}: rule G{broken[0]} at {broken[1]}\n", 3)
    return rates


def first_demands(series):
    """The demands of the declared pairs in step 0, or none where there is no step."""
    return [series.demand(0, pair) if series.steps else 0 for pair in series.pairs]


def judged(certificate, demands, rates):
    """The texts for standard output and error, and the status, of rates of the declared pairs."""
    failed = first_inequality(certificate, demands, rates)
    if failed:
        return "no rule F%d place %d\n" % failed, "", 1
    loss = first_loss(certificate, rates)
    if loss:
        return "", f"pair {loss[1]} does not get its grant where the links {list(loss[0])} fail\n", 8
    return f"yes failures {rates.failures}\n", "", 0


def answer(names, bytes_of=reference_check.bytes_of):
    """The texts for standard output and error, and the status, of a certificate, matrices and rates, by their names and bytes."""
    try:
        certificate = reference_check.certificate_of(names[0], bytes_of(names[0]))
        series = series_of(names[1], bytes_of(names[1]), certificate["names"])
        rates = rates_of(names[2], bytes_of(names[2]), certificate)
    except reference_check.Refused as refusal:
        text, status = refusal.args
        return "", text, status
    if ends_of(certificate) != series.pairs:
        return "no pairs\n", "", 1
    return judged(certificate, first_demands(series), rates)


def main(words):
    if len(words) != 3:
        print(__doc__.split("\n\n")[1], file=sys.stderr)
        return 2
    out, err, status = answer(words)
    sys.stdout.write(out)
    sys.stderr.write(err)
    return status


if __name__ == "__main__":
    sys.exit(main(sys.argv[1:]))
