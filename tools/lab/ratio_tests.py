"""Small networks: what is published of them is accepted, is the same in each run, and has a ratio no greater than that which sixteen
rounds and the polish gave before weights were searched for. And what `mcf` and `smore` report of two parallel links."""
import csv
import io
import json
import os
import tempfile

from . import program

SCHEMES = ("spf", "ecmp", "ksp", "racke")
SETS = {"all": {}, "margin 1 1": {"margin": [1, 1]}, "margin 2 1": {"margin": [2, 1]}}
KEYS = {"topology": "net.csv", "matrices": "tm.csv", "k": 4, "budget": 4, "trees": 8, "seed": 7}
THREE_NODES = ["a,c,10,1", "b,c,10,1", "a,b,10,1", "b,a,10,1"]
PARALLEL_LINKS = ["a,b,10,1", "a,b,30,1"]
DIAMOND = ["a,b,10,1", "b,d,10,1", "a,c,20,1", "c,d,20,1", "d,a,10,5", "b,c,7,1"]
WIDE = [4294967297000000, 2147483648500000, 2147483648500000, 1000001]
# By network: its links, the rows of its matrices, and for each set the greatest ratio of each of these schemes.
NETWORKS = {
    "three nodes": (THREE_NODES, ["0,a,c,10", "0,b,c,10"], [
        [2000200, 2000200, 1052429, 1315536], [1000100, 1000100, 1136864, 1421080], [1824074, 1824074, 1052429, 1315536]]),
    "capacities of 1 and 2^32": (["a,b,1,1", "a,b,4294967296,1"], ["0,a,b,40"], [WIDE, WIDE, WIDE]),
    "parallel links": (PARALLEL_LINKS, ["0,a,b,40"], [
        [4000000, 2000000, 2000000, 1500000], [4000000, 2000000, 2000000, 1500001], [4000000, 2000000, 2000000, 1500001]]),
    "a base with a zero": (THREE_NODES, ["0,a,c,10", "0,b,c,0", "1,b,c,3"], [
        [2057555, 2057555, 1052429, 1315536], [2057555, 2057555, 1038321, 1297901], [2057555, 2057555, 1038321, 1297901]]),
    "a base of zeros": (THREE_NODES, ["0,a,c,0", "0,b,c,0", "1,b,c,3"], [
        [2057555, 2057555, 1052429, 1315536], [3, 3, 3, 3], [3, 3, 3, 3]]),
    "one pair": (THREE_NODES, ["0,a,c,10"], [
        [2057555, 2057555, 1028778, 1285972], [2057555, 2057555, 1028778, 1285972], [2057555, 2057555, 1028778, 1285972]]),
    "no pair": (PARALLEL_LINKS, [], [[0, 0, 0, 0], [0, 0, 0, 0], [0, 0, 0, 0]]),
    "equal costs": (DIAMOND, ["0,a,d,10", "0,d,a,4", "0,b,d,3", "0,a,b,5"], [
        [3598069, 2765226, 2536273, 1562915], [3161764, 2075475, 2465678, 1281326], [3479050, 2602960, 2499292, 1471269]]),
}


def write(folder, links, demands, **keys):
    """The topology, the matrices and the plan of these rows and keys, in the folder."""
    texts = {
        "net.csv": "\n".join(["source,target,capacity,cost", *links, ""]),
        "tm.csv": "\n".join(["step,source,target,demand", *demands, ""]),
        "plan.json": json.dumps({**KEYS, **keys}),
    }
    for name, text in texts.items():
        with open(os.path.join(folder, name), "w", encoding="ascii") as file:
            file.write(text)


def published_faults(folder, most):
    """What is wrong with what the plan in the folder publishes, whose ratio is at most so much."""
    first, second = (program.answer(["publish", "plan.json"], folder) for _ in range(2))
    if first.status != 0:
        return [f"status {first.status}: {first.err}"]
    with open(os.path.join(folder, "certificate"), "wb") as file:
        file.write(first.out)
    said = program.answer(["check", "certificate", "net.csv"], folder).out.decode().split()
    faults = [] if first.out == second.out else ["two runs write other bytes"]
    if said[:2] != ["yes", "ratio"]:
        return faults + [" ".join(said)]
    return faults + ([] if int(said[2]) <= most else [f"ratio {said[2]}, at most {most}"])


def ratios(network, name):
    """What is wrong with the certificates of a network over one of the sets."""
    links, demands, bounds = NETWORKS[network]
    faults = []
    for scheme, most in zip(SCHEMES, bounds[list(SETS).index(name)]):
        with tempfile.TemporaryDirectory() as folder:
            write(folder, links, demands, publish=scheme, **SETS[name])
            faults += [f"{scheme}: {it}" for it in published_faults(folder, most)]
    return faults


def rates(demand, least, most, low):
    """What is wrong with the reports of one demand on two parallel links: `parts` lies between the two, and `low` is this."""
    with tempfile.TemporaryDirectory() as folder:
        write(folder, PARALLEL_LINKS, [f"0,a,b,{demand}"], schemes=["mcf", "smore"])
        report = program.answer(["run", "plan.json"], folder).out.decode()
    rows = [row for row in csv.DictReader(io.StringIO(report)) if row["step"] == "0"]
    wrong = [row for row in rows if not least <= int(row["parts"]) <= most or int(row["low"]) != low]
    return [f"{len(rows)} rows"] * (len(rows) != 2) + [str(row) for row in wrong]


CASES = [
    *((f"{network}, {name}", lambda network=network, name=name: ratios(network, name)) for network in NETWORKS for name in SETS),
    ("two parallel links are filled evenly", lambda: rates(40, 1000000, 1000300, 1000000)),
    ("no demand", lambda: rates(0, 0, 0, 0)),
]
