"""Networks, matrices, failures and plans that are drawn, as the files of an experiment."""
import json

from .plans import OBLIVIOUS, RECOVERIES, SCHEMES

PLAN, NETWORK, MATRICES, FAILURES, PREDICTIONS = "plan.json", "net.csv", "tm.csv", "cuts.csv", "predicted.csv"
MOST_AMOUNT = 2**32
# How many links a network has at most whose plan may name `robust`, whose sweeps take long on greater ones.
LINKS_OF_ROBUST = 40
HEADERS = {NETWORK: "source,target,capacity,cost\n", MATRICES: "step,source,target,demand\n", FAILURES: "from,to,link\n"}


def topology(draw, nodes, links):
    """Rows of links between drawn nodes, of which some are parallel; and the ends of each."""
    ends, rows = [], []
    for _ in range(links):
        tail, head = draw.choice(ends) if ends and draw.randrange(8) == 0 else draw.sample(range(nodes), 2)
        ends.append((tail, head))
        if draw.randrange(3):
            ends.append((head, tail))
    capacities = draw.choice(((1, 10), (1, 1000), (1000, 100_000), (1, MOST_AMOUNT), (MOST_AMOUNT, MOST_AMOUNT)))
    for tail, head in ends[:links]:
        rows.append(f"n{tail},n{head},{draw.randint(*capacities)},{draw.choice((1, 1, draw.randint(1, 9), 65535))}\n")
    return HEADERS[NETWORK] + "".join(rows), ends[:links]


def matrices(draw, ends, steps, pairs):
    """Rows of demands for drawn steps and pairs of the nodes that have links; and how many steps the series has."""
    nodes = sorted({node for both in ends for node in both})
    chosen = [draw.sample(nodes, 2) for _ in range(pairs)]
    most, rows, last = draw.choice((1, 10, 1000, 1_000_000, MOST_AMOUNT)), [], -1
    for step in range(steps):
        # Some steps are left out.
        for source, target in sorted(set(map(tuple, chosen))) if draw.randrange(5) else ():
            if draw.randrange(6):
                rows.append(f"{step},n{source},n{target},{draw.choice((0, most, draw.randint(0, most), draw.randint(0, most)))}\n")
                last = step
    return HEADERS[MATRICES] + "".join(rows), last + 1


def failures(draw, links, steps):
    """Rows of outages, which may overlap."""
    rows = []
    for _ in range(draw.choice((0, 1, 2, 5)) if steps else 0):
        first, last = sorted((draw.randrange(steps), draw.randrange(steps)))
        rows.append(f"{first},{last},{draw.randrange(links)}\n")
    return HEADERS[FAILURES] + "".join(rows)


def plan(draw, links):
    """A plan for a network of so many links, whose keys may be left out."""
    k, most = draw.randint(1, 8), draw.randint(1, 9)
    schemes, oblivious = ([it for it in names if it != "robust" or links <= LINKS_OF_ROBUST] for names in (SCHEMES, OBLIVIOUS))
    keys = {
        "failures": FAILURES, "predictions": PREDICTIONS, "schemes": draw.sample(schemes, draw.randint(1, 6)), "recovery": draw.choice(RECOVERIES),
        "publish": draw.choice(oblivious),
        "k": k, "budget": draw.choice((k, draw.randint(1, 8), 32)), "trees": draw.randint(1, 8), "seed": draw.randrange(2**64),
        "seeds": draw.choice((1, 1, 2, 3)),
    }
    kept = {key: value for key, value in keys.items() if draw.randrange(4)}
    of_set = draw.choice(({}, {}, {"margin": [most, draw.randint(1, most)]}, {"envelope": True}))
    return json.dumps({"topology": NETWORK, "matrices": MATRICES, **kept, **of_set})


def experiment(draw, nodes, links, steps, pairs):
    """The files of an experiment of such a size at most."""
    net, ends = topology(draw, nodes, links)
    series, count = matrices(draw, ends, steps, pairs)
    predicted, _ = matrices(draw, ends, draw.randint(0, steps + 1), pairs)
    files = {PLAN: plan(draw, len(ends)), NETWORK: net, MATRICES: series, FAILURES: failures(draw, len(ends), count), PREDICTIONS: predicted}
    return {name: text.encode() for name, text in files.items()}
