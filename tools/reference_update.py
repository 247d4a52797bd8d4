#!/usr/bin/env python3
"""The plan of an update, worked out by a program of its own, for comparison with the proved one.

usage: reference_update.py OLD NEW MATRICES       prints the plan from the routing of the certificate OLD to that of NEW under
                                                  the matrix of step 0, or why there is none, and ends with status 0 or 1

It follows docs/DEFINITIONS.md and shares no code with the crates. Numbers of steps are tried from 1 on, stage by stage:
where a link holds at most 10 paths every choice of those that have moved, and else the greater weight of each path.
"""
import sys
from itertools import product

import reference_check
from lab.inputs import INPUT_LIMIT, Network, read_matrices

SHARE_UNIT = 1_000_000
MAX_STEPS = 1000
FEW_PATHS = 10


class Path:
    """A path of an update: its pair, the pair's demand, its weights before and after, and its links."""

    def __init__(self, pair, demand, before, after, links):
        self.pair, self.demand, self.before, self.after, self.links = pair, demand, before, after, links

    def weight(self, steps, stage):
        return (steps - stage) * self.before + stage * self.after

    def line(self):
        return " ".join(map(str, [self.pair, self.before, self.after, len(self.links), *self.links]))


def weights_by_links(paths):
    """The weights of a routing's pair by the links of its paths."""
    return {tuple(links): weight for weight, links in paths}


def paths_of(old, new, demands):
    """The paths of either routing, pair by pair, in the order of their lists of links."""
    for pair, (before, after) in enumerate(zip(old["pairs"], new["pairs"])):
        was, will = weights_by_links(before[2]), weights_by_links(after[2])
        for links in sorted(was.keys() | will.keys()):
            yield Path(pair, demands[pair], was.get(links, 0), will.get(links, 0), links)


def greatest_load(paths, steps, stage):
    """The greatest load of paths that hold a link, over all choices of those that have moved in the step after the stage."""
    weights = [(path.demand * path.weight(steps, stage), path.demand * path.weight(steps, stage + 1)) for path in paths]
    if len(weights) <= FEW_PATHS:
        return max(sum(choice) for choice in product(*weights))
    return sum(max(both) for both in weights)


def stages(steps):
    """The stages below this number, the last one first: where one of them fails, it or the first mostly does."""
    return [steps - 1, *range(steps - 1)]


def is_safe_on(paths, capacity, steps):
    return all(greatest_load(paths, steps, stage) <= steps * SHARE_UNIT * capacity for stage in stages(steps))


def least_steps(on_links, capacities):
    """The least number of steps that is safe, or None."""
    links = list(range(len(capacities)))
    for steps in range(1, MAX_STEPS + 1):
        failing = next((link for link in links if not is_safe_on(on_links[link], capacities[link], steps)), None)
        if failing is None:
            return steps
        # The next number is tried on this link first.
        links.remove(failing)
        links.insert(0, failing)
    return None


def plan_text(old, new, demands):
    """The text and the status of a plan, or of the first link that lacks slack."""
    paths = list(paths_of(old, new, demands))
    capacities = [link[2] for link in old["links"]]
    on_links = [[path for path in paths if link in path.links] for link in range(len(capacities))]
    steps = least_steps(on_links, capacities)
    if steps is None:
        link = next(e for e, capacity in enumerate(capacities) if not is_safe_on(on_links[e], capacity, MAX_STEPS))
        return f"no slack at link {link}\n", 1
    lines = ["yates-update 1", f"steps {steps}", f"paths {len(paths)}", *(path.line() for path in paths), "end"]
    return "".join(f"{line}\n" for line in lines), 0


def ends_of(certificate):
    return [(source, target) for source, target, _ in certificate["pairs"]]


def update_text(old, new, pairs, demands):
    """The text and the status of the answer on two certificates, the declared pairs and their demands."""
    if (old["names"], old["links"]) != (new["names"], new["links"]):
        return "no network\n", 1
    if not ends_of(old) == ends_of(new) == pairs:
        return "no pairs\n", 1
    return plan_text(old, new, demands)


def series_of(name, data, names):
    """The series of a matrix file of this name and these bytes, for these nodes."""
    net = Network()
    if len(data) > INPUT_LIMIT:
        raise reference_check.Refused(f"refused: {name}: too long\n", 3)
    for node in names:
        net.number_of(node)
    series, faults = read_matrices(data, net)
    if faults:
        raise reference_check.Refused(f"refused: {name}: {faults[0].reason}\n", 3)
    return series


def answer(names, bytes_of=reference_check.bytes_of):
    """The texts for standard output and error, and the status, of two certificates and a matrix file, by their names and bytes."""
    try:
        old, new = (reference_check.certificate_of(name, bytes_of(name)) for name in names[:2])
        series = series_of(names[2], bytes_of(names[2]), old["names"])
    except reference_check.Refused as refusal:
        text, status = refusal.args
        return "", text, status
    pairs = series.pairs
    demands = [series.demand(0, pair) if series.steps else 0 for pair in pairs]
    text, status = update_text(old, new, pairs, demands)
    return text, "", status


def main(words):
    if len(words) != 3:
        print(__doc__.split("\n\n")[1], file=sys.stderr)
        return 2
    out, err, status = answer(words)
    sys.stdout.write(out)
    sys.stderr.write(err)
    return status


if __name__ == "__main__":
    sys.exit(main(sys.argv[1:]))
