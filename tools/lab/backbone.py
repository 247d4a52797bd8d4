"""The laboratory on the backbone of the examples, 11 nodes and 14 fibres, with its matrices of the gravity model and with others that are drawn."""
import os
import random
from fractions import Fraction

import reference_check
import reference_hose
import reference_rates

from . import program

FOLDER = os.path.join(program.TOP, "examples", "backbone")


def text_of(name):
    with open(os.path.join(FOLDER, name), encoding="utf-8") as file:
        return file.read()


NETWORK, MATRICES = text_of("net.csv"), text_of("tm.csv")
STEPS = 20
SIX_SCHEMES = (
    '{"topology":"t","matrices":"m","schemes":["spf","ecmp","ksp","mcf","racke","smore"],"publish":"racke","k":4,"budget":4,"trees":8,"seed":7}'
)
BEST = '{"topology":"t","matrices":"m","schemes":["mcf"]}'

KEYS = '"k":4,"budget":4,"trees":8,"seed":7'

PUBLISHED_RACKE = f'{{"topology":"t","matrices":"m","publish":"racke",{KEYS}}}'

# A plan, the topology and matrices, the set of the certificate, and the ratio that it had when docs/NEARNESS.md was written.
PUBLISHED = [
    ([plan, NETWORK, MATRICES], of_set, ratio)
    for plan, of_set, ratio in [
        (SIX_SCHEMES, "all", 3_902_787),
        (PUBLISHED_RACKE, "all", 3_902_787),
        (f'{{"topology":"t","matrices":"m","publish":"spf",{KEYS}}}', "all", 9_010_210),
        (f'{{"topology":"t","matrices":"m","publish":"ecmp",{KEYS}}}', "all", 9_010_210),
        (f'{{"topology":"t","matrices":"m","publish":"ksp",{KEYS}}}', "all", 15_518_125),
        (f'{{"topology":"t","matrices":"m","publish":"racke","margin":[2,1],{KEYS}}}', "margin 2 1", 2_793_919),
        (f'{{"topology":"t","matrices":"m","publish":"spf","margin":[2,1],{KEYS}}}', "margin 2 1", 7_417_426),
        (f'{{"topology":"t","matrices":"m","publish":"ksp","margin":[2,1],{KEYS}}}', "margin 2 1", 8_040_836),
        ('{"topology":"t","matrices":"m","publish":"robust","budget":16}', "all", 1_885_416),
        ('{"topology":"t","matrices":"m","publish":"robust","budget":16,"margin":[2,1]}', "margin 2 1", 1_722_831),
        # The default scheme, for the envelope of the matrices.
        (f'{{"topology":"t","matrices":"m","envelope":true,{KEYS}}}', "box", 3_638_794),
    ]
]


def plan_of_seeds(scheme, seed, seeds):
    return f'{{"topology":"t","matrices":"m","publish":"{scheme}","seed":{seed},"seeds":{seeds}}}'


# A plan of several seeds, the topology and matrices, and the plans of these seeds one by one.
SEEDS = [
    ([plan_of_seeds("racke", 2**64 - 2, 4), NETWORK, MATRICES], [plan_of_seeds("racke", seed, 1) for seed in (2**64 - 2, 2**64 - 1, 0, 1)]),
    ([plan_of_seeds("spf", 7, 64), NETWORK, MATRICES], [plan_of_seeds("spf", 7, 1)]),
]

# A plan, the topology and matrices, how many lines the report of 24 steps and six schemes has, and what stands in it.
REPORTED = [([SIX_SCHEMES, NETWORK, MATRICES], 151, "\nsmore,total,")]

# A plan, the topology and matrices, a number of links that may fail, and the least that the grants have to sum to; the demands sum to 170736.
PROTECTED = [([PUBLISHED_RACKE, NETWORK, MATRICES], failures, least) for failures, least in [(0, 170_000), (1, 142_000), (2, 5_000)]]

# The plan, the topology and matrices of a routing, to be bounded for the sums of its first matrix; and the greatest bound that it may have. The exact
# one is 498251.
BOUNDED = [([PUBLISHED_RACKE, NETWORK, MATRICES], 867_370)]


def drawn_matrices():
    """Matrices of all pairs with demands from 0 to 10000."""
    nodes = list(dict.fromkeys(name for row in NETWORK.split("\n")[1:-1] for name in row.split(",")[:2]))
    draw = random.Random(7)
    pairs = [(source, target) for source in nodes for target in nodes if source != target]
    return [{pair: draw.randint(0, 10_000) for pair in pairs} for _ in range(STEPS)]


def matrix_file(matrices):
    rows = [f"{step},{source},{target},{demand}\n" for step, matrix in enumerate(matrices) for (source, target), demand in matrix.items()]
    return "step,source,target,demand\n" + "".join(rows)


def most_used(certificate, matrix):
    """The utilisation of the link that the routing of a certificate uses most for a matrix, in millionths."""
    names = [name.decode() for name in certificate["names"]]
    loads = [0] * len(certificate["links"])
    for source, target, paths in certificate["pairs"]:
        for weight, path in paths:
            for link in path:
                loads[link] += matrix[names[source], names[target]] * weight
    return max(Fraction(load, capacity) for load, (_, _, capacity, _) in zip(loads, certificate["links"]))


def faults_of_drawn(text, matrices, report):
    """What is wrong where the routing of a certificate uses a link more than its ratio times what the best routing of this report does."""
    certificate = reference_check.read(text.encode())
    # The last line is that of the totals.
    best = [int(row.split(",")[8]) for row in report.split("\n")[1:-2]]
    if (len(certificate["pairs"]), len(best)) != (110, STEPS):
        return [f"{len(certificate['pairs'])} pairs and {len(best)} steps"]
    kept = [most_used(certificate, matrix) * 1_000_000 <= certificate["ratio"] * most for matrix, most in zip(matrices, best)]
    return [f"step {step} is above the ratio" for step, is_kept in enumerate(kept) if not is_kept]


def faults_of_rates(text, matrices, failures, rates, least):
    """What is wrong with rates that are written for the routing of a certificate, or that their grants sum to less than this."""
    certificate = reference_check.read(text.encode())
    demands = reference_rates.first_demands(reference_rates.series_of("m", matrices.encode(), certificate["names"]))
    made = reference_rates.rates_of("r", rates.encode(), certificate)
    failed = reference_rates.first_inequality(certificate, demands, made)
    faults = [f"F{failed[0]} fails at {failed[1]}"] if failed else []
    faults += reference_rates.faults_of_made(certificate, demands, failures, made)
    return faults + ([] if sum(made.grants) >= least else [f"the grants sum to {sum(made.grants)}"])


def bounds_of_first(text, matrices):
    """The file of bounds that are the sums of what each node sends and receives in the first matrix."""
    certificate = reference_check.read(text.encode())
    series, nodes = reference_rates.series_of("m", matrices.encode(), certificate["names"]), range(len(certificate["names"]))
    sums = ([sum(series.demand(0, pair) for pair in series.pairs if pair[end] == node) for node in nodes] for end in (0, 1))
    return "yates-bounds 1\n" + "".join(f"{word} {' '.join(map(str, amounts))}\n" for word, amounts in zip(("sent", "received"), sums)) + "end\n"


def faults_of_hose(text, bounds, made):
    """What is wrong with a hose certificate that is written for the routing of a certificate, and its bound."""
    certificate = reference_check.read(text.encode())
    hose = reference_hose.hose_of("h", made.encode(), certificate)
    failed = reference_hose.first_inequality(certificate, hose)
    faults = [f"H{failed[1]} fails on link {failed[0]}"] if failed else []
    return faults + reference_hose.faults_of_made(certificate, reference_hose.bounds_of("b", bounds.encode(), certificate), hose), hose.bound
