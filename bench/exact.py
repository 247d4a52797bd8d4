"""Exact values to hold the program's numbers against: linear programs solved by glpsol, or values recorded of them.

A question is a tuple of plain numbers. Its key is a digest of them, so that a recorded value answers that question alone:
where a network, a matrix or a routing changes, its recorded values are no longer found.
"""
import csv
import hashlib
import os
import shutil
import subprocess
import tempfile

RECORD = os.path.join(os.path.dirname(os.path.abspath(__file__)), "data", "nearness", "exact.csv")
HEADER = ["network", "value", "key", "exact"]
MILLION = 1_000_000


class Unsolved(Exception):
    """glpsol gave no optimum."""


def oblivious_ratio(links, pairs, margin):
    """The least ratio that is true of a routing. `links` are (tail, head, capacity), `pairs` (source, target, paths) with
    paths (weight, links), and `margin` is None or (num, den, base).
    """
    return ("ratio", links, pairs, margin)


def least_utilisation(links, demands):
    """The least, over all routings, of the greatest utilisation of a link, in millionths. `demands` are (source, target,
    demand), each with a demand.
    """
    return ("utilisation", links, demands)


def least_utilisation_on(links, demands, paths):
    """The same over all splits of each demand over its own paths, which are lists of links."""
    return ("utilisation on paths", links, demands, paths)


def least_ratio(links, pairs):
    """The least ratio for all matrices that any routing of these pairs (source, target) has. `glpsol` does not solve its linear program in time
    but for the smallest networks, so that its values are recorded ones.
    """
    return ("least ratio", links, pairs)


def key(question):
    return hashlib.sha256(repr(question).encode()).hexdigest()[:16]


class Record:
    """The recorded values, by network and by what they are of."""

    def __init__(self):
        with open(RECORD, encoding="ascii", newline="") as file:
            rows = list(csv.reader(file))[1:]
        self.rows = {(network, value): (of, float(exact)) for network, value, of, exact in rows}
        self.by_key = dict(self.rows.values())

    def add(self, network, value, question, exact):
        self.rows[network, value] = (key(question), exact)

    def write(self):
        with open(RECORD, "w", encoding="ascii", newline="") as file:
            out = csv.writer(file, lineterminator="\n")
            out.writerow(HEADER)
            out.writerows([*names, of, f"{exact:.9g}"] for names, (of, exact) in self.rows.items())


def has_solver():
    return shutil.which("glpsol") is not None


def solve(question):
    """The answer, by one linear program, or by one for each link that carries something."""
    kind, links, *rest = question
    if kind == "ratio":
        pairs, margin = rest
        shares = shares_of(links, pairs)
        return max((ratio_of_link(links, pairs, margin, link, shares[link]) for link in range(len(links)) if shares[link]), default=0.0)
    if kind == "utilisation":
        return utilisation(links, rest[0])
    return utilisation_on(links, *rest)


def shares_of(links, pairs):
    """For each link, by the number of a pair, what fraction of the pair's demand the routing puts there."""
    shares = [{} for _ in links]
    for number, (_, _, paths) in enumerate(pairs):
        for weight, path in paths:
            for link in path:
                shares[link][number] = shares[link].get(number, 0) + weight / MILLION
    return shares


class LinearProgram:
    """A linear program: variables of at least 0, rows of terms with a bound below or above, and a sum to be maximised."""

    def __init__(self):
        self.sum, self.rows = {}, []

    def at_least(self, terms, bound):
        self.rows.append((terms, ">=", bound))

    def at_most(self, terms, bound):
        self.rows.append((terms, "<=", bound))

    def text(self):
        def line(terms):
            return "\n".join(f" {factor:+.15g} {name}" for name, factor in terms.items())

        rows = (f" r{number}:\n{line(terms)} {sign} {bound:.15g}\n" for number, (terms, sign, bound) in enumerate(self.rows) if terms)
        return f"Maximize\n total:\n{line(self.sum)}\nSubject To\n{''.join(rows)}End\n"

    def greatest(self):
        with tempfile.TemporaryDirectory() as folder:
            stated, solved = os.path.join(folder, "program"), os.path.join(folder, "solution")
            with open(stated, "w", encoding="ascii") as file:
                file.write(self.text())
            ran = subprocess.run(["glpsol", "--lp", stated, "-o", solved], stdout=subprocess.PIPE, stderr=subprocess.STDOUT, check=False)
            if ran.returncode:
                raise Unsolved(ran.stdout.decode("ascii", "replace"))
            with open(solved, encoding="ascii") as file:
                words = dict(line.split(":", 1) for line in file if line.startswith(("Status:", "Objective:")))
        if words["Status"].strip() != "OPTIMAL":
            raise Unsolved(words["Status"].strip())
        return float(words["Objective"].split("=")[1].split()[0])


def route(program, links, demands):
    """Says that there are flows of these demands within the capacities. `demands` has, by source and then by target, the
    terms that a demand is the sum of. Capacities are taken over the greatest, so that numbers stay near 1.
    """
    greatest = max(capacity for _, _, capacity in links)
    nodes = range(1 + max(max(tail, head) for tail, head, _ in links))
    for source, targets in demands.items():
        for node in nodes:
            if node != source:
                terms = {f"f{source}_{link}": -1 for link, (tail, head, _) in enumerate(links) if tail == node and head != source}
                terms.update((f"f{source}_{link}", 1) for link, (_, head, _) in enumerate(links) if head == node)
                terms.update((name, -factor) for name, factor in targets.get(node, {}).items())
                program.at_least(terms, 0)
    for link, (_, head, capacity) in enumerate(links):
        program.at_most({f"f{source}_{link}": 1 for source in demands if head != source}, capacity / greatest)


def ratio_of_link(links, pairs, margin, link, shares):
    """The greatest utilisation of the link by the routing, over all matrices of the set that fit into the capacities.

    A demand is the variable d of its pair; with a margin it is x times its least amount and d above that. Demands that
    the link does not see are none, or the least amounts.
    """
    program = LinearProgram()
    greatest = max(capacity for _, _, capacity in links)
    by_capacity = greatest / links[link][2]
    demands = {}
    num, den, base = margin or (1, 1, [1] * len(pairs))
    unit = max(base) or 1
    for number, (source, target, _) in enumerate(pairs):
        share = shares.get(number, 0) * by_capacity
        if not base[number] or not (share or margin):
            continue
        terms = demands.setdefault(source, {}).setdefault(target, {})
        least, most = base[number] / unit * den / num, base[number] / unit * num / den
        if share:
            terms[f"d{number}"] = 1
            program.sum[f"d{number}"] = share
        if margin:
            terms["x"] = least
            program.sum["x"] = program.sum.get("x", 0) + share * least
        if share and margin:
            program.at_most({f"d{number}": 1, "x": least - most}, 0)
    if not program.sum:
        return 0.0
    route(program, links, demands)
    return program.greatest()


def scaled(links, demands):
    """The greatest of demands and of capacities, and how many millionths a utilisation of 1 is by numbers taken over them."""
    amount, capacity = max(demand for _, _, demand in demands), max(capacity for _, _, capacity in links)
    return amount, capacity, MILLION * amount / capacity


def utilisation_program(links, demands):
    """The program of the greatest x for which x times the demands fit into the capacities, with a flow for each source and link."""
    amount, _, _ = scaled(links, demands)
    program, routed = LinearProgram(), {}
    program.sum["x"] = 1
    for source, target, demand in demands:
        routed.setdefault(source, {})[target] = {"x": demand / amount}
    route(program, links, routed)
    return program


def least_of(links, demands, greatest):
    """The least utilisation, in millionths, where this is the value of its program."""
    return scaled(links, demands)[2] / greatest


def utilisation(links, demands):
    return least_of(links, demands, utilisation_program(links, demands).greatest())


def utilisation_on(links, demands, paths):
    amount, capacity, unit = scaled(links, demands)
    program, carried = LinearProgram(), [{} for _ in links]
    program.sum["x"] = 1
    for number, (_, _, demand) in enumerate(demands):
        names = [f"p{number}_{place}" for place in range(len(paths[number]))]
        program.at_least({**{name: 1 for name in names}, "x": -demand / amount}, 0)
        for name, path in zip(names, paths[number]):
            for link in path:
                carried[link][name] = 1
    for (_, _, room), terms in zip(links, carried):
        program.at_most(terms, room / capacity)
    return unit / program.greatest()
