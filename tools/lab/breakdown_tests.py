"""The texts of `links`, `pairs` and `paths` of a step, judged by the line of `run` and by a second reading of the step.

From the paths that `paths` lists, the files of the plan and the rules of a simulated step follow all columns of the other two texts, whichever
scheme made the paths; the sums and the greatest of these columns are those of the line of the report.
"""
import json
import os
import random

from . import drawn_networks, steps
from .backbone import MATRICES, NETWORK
from .inputs import read_failures, read_matrices, read_topology
from .plans import FILES, RECOVERIES, read_plan
from .program import TOP

LINKS = "scheme,link,source,target,capacity,failed,asked,carried,asked_parts,carried_parts"
PAIRS = "scheme,source,target,offered,delivered,lost_full,lost_failed,lost_no_path,paths,cost,least_cost"
PATHS = "scheme,source,target,weight,links"
AMOUNTS = ("offered", "delivered", "lost_full", "lost_failed", "lost_no_path")
EACH_SCHEME = '"schemes":["spf","ecmp","ksp","mcf","racke","smore","valiant","robust"]'
STEPS = 3
# How many drawn networks are tried.
DRAWN = 12


class Inputs:
    """A plan with the network, the declared pairs, the series and the outages of its files, of which a step is looked at."""

    def __init__(self, plan, net, pairs, series, outages, step):
        self.plan, self.net, self.pairs, self.step = plan, net, pairs, step
        self.failed = [any(first <= step <= last and link == it for first, last, link in outages) for it in range(len(net.links))]
        self.demands = {pair: series.demand(step, pair) for pair in pairs}
        self.names = [name.decode() for name in net.names]

    @classmethod
    def of_files(cls, files, step):
        """Those of the texts of a plan, a topology, matrices and failures."""
        plan, _ = read_plan(files["p"].encode())
        net, _ = read_topology(files["t"].encode())
        series, _ = read_matrices(files["m"].encode(), net)
        predictions = read_matrices(files["q"].encode(), net)[0] if plan.predictions else series
        outages = read_failures(files["f"].encode(), len(net.links), len(series.steps))[0] if plan.failures else []
        return cls(plan, net, sorted(series.declared | predictions.declared), series, outages, step)

    def pair_of(self, source, target):
        return self.names.index(source), self.names.index(target)


def rows_of(text, header):
    """The rows of a text below this header, by column, and what is wrong where there is another header."""
    first, *lines = text.split("\n")
    rows = [dict(zip(header.split(","), line.split(","))) for line in lines[:-1]]
    return rows, [] if first == header and lines[-1:] == [""] else [f"the header is {first!r}, and the last line {lines[-1:]}"]


def rates_of(inputs, rows):
    """The paths of each declared pair, from the rows of `paths`."""
    rates = {pair: [] for pair in inputs.pairs}
    for row in rows:
        rates[inputs.pair_of(row["source"], row["target"])].append((int(row["weight"]), [int(it) for it in row["links"].split(" ")]))
    return rates


def faults_of_paths(inputs, rates):
    """What is wrong with the paths themselves: ends, weights, order."""
    faults = []
    for (source, target), paths in rates.items():
        walks = [[source] + [inputs.net.links[link][1] for link in links] for _, links in paths]
        tails = [[inputs.net.links[link][0] for link in links] for _, links in paths]
        if any(walk[:-1] != tail or walk[-1] != target or len(set(walk)) != len(walk) for walk, tail in zip(walks, tails)):
            faults.append(f"a path of {source} to {target} does not lead there, or visits a node twice")
        if paths and sum(weight for weight, _ in paths) != steps.SHARE_UNIT:
            faults.append(f"the weights of {source} to {target} do not sum to one million")
        if [links for _, links in paths] != sorted(links for _, links in paths):
            faults.append(f"the paths of {source} to {target} do not ascend")
    return faults


def link_rows(inputs, scheme, asked, carried):
    """The lines of links that are asked and carry so much."""
    return [
        ",".join([
            scheme, str(link), inputs.names[tail], inputs.names[head], str(capacity), "yes" if inputs.failed[link] else "no",
            str(asked[link]), str(carried[link]), str(steps.in_parts(asked[link], capacity)), str(steps.in_parts(carried[link], capacity)),
        ])
        for link, (tail, head, capacity, *_) in enumerate(inputs.net.links)
    ]


def pair_rows(inputs, scheme, rates, results):
    """The lines of pairs with these paths and results."""
    least = {source: steps.least_costs(inputs.net, source) for source in {pair[0] for pair in rates}}
    lines = []
    for (source, target), paths in rates.items():
        cost = steps.mean_cost(inputs.net, paths) if paths else "-"
        best = least[source][target] * steps.SHARE_UNIT if target in least[source] else "-"
        amounts = ",".join(map(str, results[source, target]))
        lines.append(f"{scheme},{inputs.names[source]},{inputs.names[target]},{amounts},{len(paths)},{cost},{best}")
    return lines


def faults_of_row(row, links, pairs):
    """What of a line of the report the columns of the texts do not add up to."""
    sums = {amount: sum(int(it[amount]) for it in pairs) for amount in AMOUNTS}
    faults = [f"{amount} is {row[amount]}, and its sum {total}" for amount, total in sums.items() if int(row[amount]) != total]
    peak = max((int(it["carried_parts"]) for it in links), default=0)
    return faults + ([] if int(row["peak"]) == peak else [f"the peak is {row['peak']}, and the greatest {peak}"])


def loads_of(inputs, rates):
    """For each link the sum of demand times weight over the paths that hold it, in millionths, and how many paths these are."""
    loads, paths_on = [0] * len(inputs.net.links), [0] * len(inputs.net.links)
    for pair, paths in rates.items():
        for weight, links in paths:
            for link in links:
                loads[link] += inputs.demands[pair] * weight
                paths_on[link] += 1
    return loads, paths_on


def faults_of_loads(inputs, row, loads, paths_on, asked):
    """What is wrong where a link is asked more or less than its load by more than a unit a path, or `parts` is not that of the loads where the
    routing is the one that traffic takes.
    """
    faults = [
        f"link {link} is asked {units}, and its load is {load} millionths"
        for link, (units, load, paths) in enumerate(zip(asked, loads, paths_on)) if abs(units * steps.SHARE_UNIT - load) > paths * steps.SHARE_UNIT
    ]
    parts = max((-(-load // link[2]) for load, link in zip(loads, inputs.net.links)), default=0)
    recovery = inputs.plan.recovery
    is_kept = not any(inputs.failed) or recovery in ("none", "reroute") or (recovery, row["scheme"]) == ("adapt", "smore")
    return faults + ([f"parts is {row['parts']}, and that of the paths {parts}"] if is_kept and int(row["parts"]) != parts else [])


def faults_of_scheme(inputs, scheme, row, texts):
    """What is wrong with the lines of a scheme, whose line of the report this is."""
    links, pairs, paths = texts
    rates = rates_of(inputs, paths)
    asked = steps.asked_units(rates, inputs.demands, len(inputs.net.links))
    carried, results = steps.simulate(rates, inputs.demands, [link[2] for link in inputs.net.links], inputs.failed)
    faults = faults_of_paths(inputs, rates)
    for name, rows, wanted in (("links", links, link_rows(inputs, scheme, asked, carried)), ("pairs", pairs, pair_rows(inputs, scheme, rates, results))):
        got = [",".join(it.values()) for it in rows]
        faults += [f"{name}: want {want!r}, got {line!r}" for want, line in zip(wanted, got) if want != line]
        faults += [] if len(wanted) == len(got) else [f"{name} has {len(got)} lines of {scheme}, and not {len(wanted)}"]
    return faults + faults_of_row(row, links, pairs) + faults_of_loads(inputs, row, *loads_of(inputs, rates), asked)


def faults_of_step(answer, inputs, name):
    """What is wrong with the texts of a step of the plan of this name. `answer` gives status, standard output and standard error of words."""
    said = [answer(words) for words in (["run", name], *([word, name, str(inputs.step)] for word in ("links", "pairs", "paths")))]
    if any((status, err) != (0, "") for status, _, err in said):
        return [f"got  {(status, err)!r}" for status, _, err in said]
    report, *texts = (out for _, out, _ in said)
    faults, tables = [], []
    for text, header in zip(texts, (LINKS, PAIRS, PATHS)):
        rows, wrong = rows_of(text, header)
        faults += wrong
        tables.append(rows)
    lines, _ = rows_of(report, report.split("\n", 1)[0])
    for scheme in dict.fromkeys(inputs.plan.schemes):
        # A scheme that a plan names twice has all its lines twice.
        times = inputs.plan.schemes.count(scheme)
        row = next((it for it in lines if (it["scheme"], it["step"]) == (scheme, str(inputs.step))), None)
        if row is None:
            faults.append(f"step {inputs.step}, {scheme}: the report has no line of it")
            continue
        of_scheme = [[it for it in rows if it["scheme"] == scheme] for rows in tables]
        once = [rows[:len(rows) // times] for rows in of_scheme]
        faults += [f"the lines of {scheme} differ"] if any(one * times != rows for one, rows in zip(once, of_scheme)) else []
        faults += [f"step {inputs.step}, {scheme}: {fault}" for fault in faults_of_scheme(inputs, scheme, row, once)]
    return faults


def faults_of_files(answer, files, step):
    """The same of these files. `answer` is given words and files."""
    return faults_of_step(lambda words: answer(words, files), Inputs.of_files(files, step), "p")


def cut_files(recovery):
    """The first steps of the backbone, with two fibres that are cut in some of them."""
    plan = f'{{"topology":"t","matrices":"m","failures":"f",{EACH_SCHEME},"recovery":"{recovery}","seed":7}}'
    header, *rows = MATRICES.split("\n")[:-1]
    first = "\n".join([header, *(row for row in rows if int(row.split(",")[0]) < STEPS)]) + "\n"
    return {"p": plan, "t": NETWORK, "m": first, "f": "from,to,link\n1,1,0\n1,1,1\n1,2,4\n1,2,5\n"}


def files_by_letter(plan, text_of):
    """The files of a plan by the names of this table, p, t, m, f and q, where `text_of` gives the text of a file that the plan names."""
    letters = dict(zip(FILES, "tmfq"))
    named = {letters[key]: text_of(plan[key]) for key in FILES if key in plan}
    return {"p": json.dumps({**plan, **{key: letters[key] for key in FILES if key in plan}}), **named}


def example_files(folder, name):
    """The files of a plan of the examples."""

    def text_of(path):
        with open(os.path.join(TOP, "examples", folder, path), encoding="utf-8") as file:
            return file.read()

    return files_by_letter(json.loads(text_of(name)), text_of)


def drawn_files(number):
    """The files of a small experiment that is drawn from this number."""
    draw = random.Random(f"steps {number}")
    files = {name: text.decode() for name, text in drawn_networks.experiment(draw, draw.randint(3, 6), draw.randint(6, 12), STEPS, 6).items()}
    return files_by_letter(json.loads(files[drawn_networks.PLAN]), files.get)


def step_count(files):
    """How many steps the series of these files has."""
    net, _ = read_topology(files["t"].encode())
    return len(read_matrices(files["m"].encode(), net)[0].steps)


# What is tried, the files of a plan, and the steps that are looked at at most.
CASES = [
    *((f"steps of the backbone, {recovery}", cut_files(recovery), STEPS) for recovery in RECOVERIES),
    *((f"steps of the cuts, {recovery}", example_files("cuts", f"{recovery}.json"), 2) for recovery in RECOVERIES),
    *((f"steps of a drawn network, {number}", drawn_files(number), STEPS) for number in range(DRAWN)),
]


def cases(answer):
    """The name of each case, and what is wrong with it."""
    for name, files, most in CASES:
        yield name, [fault for step in range(min(most, step_count(files))) for fault in faults_of_files(answer, files, step)]
