"""The report of `simulate`, by a second reading of docs/FORMATS.md from the certificate and the files of the plan, and against `run`.

What is published of a scheme whose paths the budget keeps is simulated with the numbers that `run` has for the scheme, and what a budget trims
with those of the file. No row of a matrix of every matrix is above the ratio times what `mcf` needs, as far as `mcf` says what it needs.
"""
import reference_check

from . import steps
from .backbone import MATRICES, NETWORK
from .breakdown_tests import rows_of
from .calls import COLUMNS
from .inputs import read_failures, read_matrices, read_topology
from .plans import read_plan

STEPS = 3
CUTS = "from,to,link\n1,1,0\n1,1,1\n1,2,4\n1,2,5\n"
AMOUNTS = ("offered", "delivered", "lost_full", "lost_failed", "lost_no_path")


def least_way(links, failed, source, target):
    """The least path by (sum of costs, list of links) over links that stand; None where there is none."""
    best, waiting = {}, [(0, (), source)]
    while waiting:
        cost, way, node = min(waiting)
        waiting.remove((cost, way, node))
        if node == target:
            return list(way)
        if node not in best:
            best[node] = way
            waiting += [(cost + it[3], (*way, place), it[1]) for place, it in enumerate(links) if it[0] == node and not failed[place] and it[1] not in best]
    return None


def without_loops(links, source, walk):
    """A walk whose loops are cut: at each node all that lies between the first and the last visit goes."""
    nodes = [source] + [links[it][1] for it in walk]
    kept, place = [], 0
    while place < len(walk):
        place = len(nodes) - 1 - nodes[::-1].index(nodes[place])
        if place < len(walk):
            kept.append(walk[place])
            place += 1
    return kept


def with_whole_weight(paths):
    """Weights scaled to one million in proportion."""
    weights = steps.apportion(steps.SHARE_UNIT, [weight for weight, _ in paths]) if paths else []
    return [(weight, way) for weight, (_, way) in zip(weights, paths)]


def recovered(links, failed, recovery, source, paths):
    """What is left of the paths of a pair."""
    if recovery == "none" or not any(failed):
        return paths
    if recovery != "bypass":
        return with_whole_weight([it for it in paths if not any(failed[link] for link in it[1])])
    merged = {}
    for weight, way in paths:
        ways = [[it] if not failed[it] else least_way(links, failed, *links[it][:2]) for it in way]
        if None not in ways:
            led = tuple(without_loops(links, source, [it for part in ways for it in part]))
            merged[led] = merged.get(led, 0) + weight
    return with_whole_weight([(merged[way], list(way)) for way in sorted(merged)])


def parts_of(cert, demands):
    """The greatest load over capacity by the whole routing, in millionths, rounded up."""
    loads = [0] * len(cert["links"])
    for source, target, paths in cert["pairs"]:
        for weight, way in paths:
            for link in way:
                loads[link] += demands.get((source, target), 0) * weight
    return max(-(-load // link[2]) for load, link in zip(loads, cert["links"]))


def row_of(cert, demands, failed, recovery):
    """The amounts of a step, its peak and its parts."""
    links = cert["links"]
    rates = {(source, target): recovered(links, failed, recovery, source, paths) for source, target, paths in cert["pairs"]}
    carried, results = steps.simulate(rates, demands, [link[2] for link in links], failed)
    peak = max(steps.in_parts(units, link[2]) for units, link in zip(carried, links))
    return [*map(sum, zip(*results.values())), peak, parts_of(cert, demands)]


def report_by(cert, recovery, series, outages):
    """The whole report of a certificate, over these matrices and outages."""
    rows = []
    for step, demands in enumerate(series.steps):
        failed = [any(first <= step <= last and link == it for first, last, link in outages) for it in range(len(cert["links"]))]
        rows.append(row_of(cert, demands, failed, recovery))
    columns = list(zip(*rows)) or [[]] * 7
    total = [sum(it) for it in columns[:5]] + [max(it, default=0) for it in columns[5:]]
    lines = [*enumerate(rows), ("total", total)]
    return COLUMNS + "".join(f"certificate,{step}," + ",".join(map(str, row)) + ",-\n" for step, row in lines)


def report_of(files):
    """The same of the files of a plan, all of which are accepted."""
    plan, _ = read_plan(files["p"].encode())
    net, _ = read_topology(files["t"].encode())
    series, _ = read_matrices(files["m"].encode(), net)
    outages = read_failures(files["f"].encode(), len(net.links), len(series.steps))[0] if plan.failures else []
    return report_by(reference_check.read(files["c"].encode()), plan.recovery, series, outages)


def few_steps():
    """The first steps of the backbone's matrices."""
    header, *rows = MATRICES.split("\n")[:-1]
    return "\n".join([header, *(row for row in rows if int(row.split(",")[0]) < STEPS)]) + "\n"


def files_of(scheme, budget, recovery):
    plan = (
        f'{{"topology":"t","matrices":"m","failures":"f","schemes":["{scheme}","mcf"],"publish":"{scheme}","recovery":"{recovery}",'
        f'"budget":{budget},"k":4,"seed":7}}'
    )
    return {"p": plan, "t": NETWORK, "m": few_steps(), "f": CUTS}


def published(answer, files):
    """The certificate of the plan, and what is wrong where there is none."""
    status, certificate, err = answer(["publish", "p"], files)
    return certificate, [] if (status, err) == (0, "") and certificate.endswith("end\n") else [f"status {status}, {err!r}, {certificate!r}"]


def faults_of_report(answer, files):
    """What is wrong where the report is not that of the second reading."""
    wanted, got = report_of(files), answer(["simulate", "c", "p"], files)
    return [] if got == (0, wanted, "") else [f"want {wanted!r}", f"got  {got!r}"]


def faults_of_ratio(files, report, rows):
    """Lines above the ratio times what `mcf` needs, rounded up: its routing is one of the matrix."""
    ratio = reference_check.read(files["c"].encode())["ratio"]
    needs = {row["step"]: int(row["parts"]) for row in rows if row["scheme"] == "mcf"}
    simulated, faults = rows_of(report, COLUMNS.rstrip("\n"))
    return faults + [f"step {it['step']} is above the ratio" for it in simulated if int(it["parts"]) > -(-ratio * needs[it["step"]] // steps.SHARE_UNIT)]


def faults_of_published(answer, scheme, budget, recovery, is_whole):
    """What is wrong with what is published and simulated; where the budget trims nothing, its numbers are those of `run`."""
    files = files_of(scheme, budget, recovery)
    certificate, faults = published(answer, files)
    if faults:
        return faults
    files["c"] = certificate
    faults = faults_of_report(answer, files)
    if faults:
        return faults
    simulated, run = answer(["simulate", "c", "p"], files)[1], answer(["run", "p"], files)[1]
    rows, wrong = rows_of(run, COLUMNS.rstrip("\n"))
    lines = [line.removeprefix(scheme + ",") for line in run.split("\n") if line.startswith(scheme + ",")]
    own = [line.removeprefix("certificate,") for line in simulated.split("\n")[1:-1]]
    # What is made anew by `run` where a link has failed is not by `simulate`.
    is_same = lines[0] == own[0] if recovery == "reroute" else lines == own
    if is_same != is_whole:
        faults.append(f"the lines are {'others' if is_whole else 'the same'}: {lines!r}, {own!r}")
    faults += faults_of_ratio(files, simulated, rows) if recovery != "reroute" else []
    second = answer(["convert", "c"], files)[1]
    alike = answer(["simulate", "c", "p"], {**files, "c": second})
    return faults + wrong + ([] if alike == (0, simulated, "") else [f"the converted file has {alike!r}"])


# What is published, with which budget and recovery, and whether the budget keeps all paths.
PUBLISHED = [
    ("spf", 4, "none", True),
    ("ecmp", 32, "scale", True),
    ("ksp", 4, "bypass", True),
    ("ksp", 4, "reroute", True),
    ("racke", 32, "bypass", True),
    ("racke", 32, "adapt", True),
    ("racke", 1, "scale", False),
    ("ksp", 2, "none", False),
]


def cases(answer):
    """The name of each case, and what is wrong with it."""
    for scheme, budget, recovery, is_whole in PUBLISHED:
        yield f"published and simulated, {scheme} {budget} {recovery}", faults_of_published(answer, scheme, budget, recovery, is_whole)
