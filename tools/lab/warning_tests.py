"""What tools/explain warns of, and what it does not: plans over six equal ways from one node to another, and reports."""
import itertools
import json
import os
import tempfile

from . import program
from .inputs import read_matrices, read_topology
from .path_warnings import counts_in, ecmp_counts, path_warnings, valiant_counts
from .plans import read_plan
from .warnings import report_warnings, warnings

WAYS = 6
STAR = "source,target,capacity,cost\n" + "".join(f"s,m{it},1000,1\nm{it},s,1000,1\nm{it},t,1000,1\nt,m{it},1000,1\n" for it in range(WAYS))
DEMANDS = "step,source,target,demand\n0,s,t,4800\n0,t,s,1200\n"
COLUMNS = "scheme,step,offered,delivered,lost_full,lost_failed,lost_no_path,peak,parts,low\n"


def plan_of(**members):
    return read_plan(json.dumps({"topology": "net.csv", "matrices": "tm.csv", **members}).encode())[0]


def files_of(net=STAR, demands=DEMANDS):
    made = read_topology(net.encode())[0]
    return made, read_matrices(demands.encode(), made)[0]


def differences(got, *wanted):
    """What is wrong with warnings of which each has one of these words, in order."""
    if len(got) != len(wanted):
        return [f"{len(got)} warnings in place of {len(wanted)}: {got}"]
    return [f"{it!r} is not in {line!r}" for it, line in zip(wanted, got) if it not in line]


def units():
    """Demands of few units, of many, and such as cannot be made finer."""
    faults = []
    rows = [(4800, 1000, []), (999, 1000, ["the median of the demands above 0 is 999"]), (1000, 1000, []), (7, 4_294_967_296, []), (7, 42_949_672, ["times 100 fit"]), (1, 100, ["times 1000 fit"])]
    for demand, capacity, wanted in rows:
        net, series = files_of(STAR.replace(",1000,", f",{capacity},"), f"step,source,target,demand\n0,s,t,{demand}\n1,s,t,{demand}\n1,t,s,0\n")
        got = [it for it in warnings(plan_of(), net, series, []) if "median" in it]
        faults += [f"demands of {demand}: {it}" for it in differences(got, *wanted)]
    return faults


def seeds():
    """One seed, several of a scheme that is reported or is not, and several of one that draws nothing."""
    net, series = files_of()
    rows = [
        ({"seed": 7}, []), ({"seed": 7, "seeds": 8}, ["the best of 8 seeds (the key seeds), and run reports racke of the first of them, 7, alone"]),
        ({"schemes": ["smore"], "seeds": 8}, []), ({"publish": "ksp", "seeds": 2}, ["the key seeds is 2, and ksp draws nothing"]),
    ]
    return [it for members, wanted in rows for it in differences(warnings(plan_of(**members), net, series, []), *wanted)]


def ways_of_ecmp():
    """The equal ways of a scheme that is published with a smaller budget, or one that is not."""
    net, series = files_of()
    said = "keeps the 4 heaviest paths of a pair (the key budget), and ecmp has more for 2 of 2 pairs, up to 6"
    faults = differences(path_warnings(plan_of(publish="ecmp"), net, series, None), said)
    faults += differences(path_warnings(plan_of(publish="ecmp", budget=5), net, series, None), "a budget of 6 keeps all")
    for members in ({"publish": "ecmp", "budget": 6}, {"publish": "spf"}, {"publish": "ksp"}, {"publish": "ksp", "k": 32}, {"trees": 4}, {"publish": "robust"}, {"schemes": ["spf"]}):
        faults += differences(path_warnings(plan_of(**members), net, series, None))
    return faults


def ways_of_valiant():
    """The detours of a scheme that is published with a smaller budget: one for each node between, loops cut; and a pair without a path."""
    net, series = files_of()
    said = "keeps the 4 heaviest paths of a pair (the key budget), and valiant has more for 2 of 2 pairs, up to 6"
    faults = differences(path_warnings(plan_of(publish="valiant"), net, series, None), said)
    faults += differences(path_warnings(plan_of(publish="valiant", budget=6), net, series, None))
    wide, declared = files_of("source,target,capacity,cost\n" + "".join(f"s,m{it},1,1\nm{it},t,1,1\n" for it in range(40)), "step,source,target,demand\n0,s,t,1\n0,t,s,1\n")
    said = "valiant has more for 1 of 2 pairs, up to 40: what is published is another routing than the one that run reports; the greatest budget is 32"
    return faults + differences(path_warnings(plan_of(publish="valiant", budget=32), wide, declared, None), said)


def ways_in_certificates():
    """Where the program tells the paths, and where it makes no certificate, or none in time."""
    net, series = files_of()
    told = b"yates-ratio 1\nnodes 2\npairs\nb\nlinks 1\n0 1 1 1\npairs 2\n0 1 5\n1 1 0\n1 1 0\n1 1 0\n1 1 0\n1 1 0\n1 0 1\n1 1 0\nset all\n"
    faults = differences(path_warnings(plan_of(), net, series, lambda _: told), "racke has more for 1 of 2 pairs, up to 5")
    faults += differences(path_warnings(plan_of(publish="ksp", k=9), net, series, lambda _: None), "ksp may have 9 paths for a pair, and publish keeps 4")
    return faults + differences(path_warnings(plan_of(), net, series, lambda _: b""))


def few_paths_of_smore():
    rows = "mcf,0,1,1,0,0,0,1,300,200\nmcf,1,1,1,0,0,0,1,300,200\nmcf,total,2,2,0,0,0,1,300,-\nsmore,0,1,1,0,0,0,1,401,201\nsmore,1,1,1,0,0,0,1,900,201\nsmore,total,2,2,0,0,0,1,900,-\n"
    faults = differences(report_warnings(plan_of(), (COLUMNS + rows).encode()), "in 2 steps: in step 1 its parts is 900, and the low of mcf 200")
    faults += differences(report_warnings(plan_of(), (COLUMNS + rows.replace("401", "400").replace("900", "400")).encode()))
    for recovery, said in (("adapt", "in 1 step: in step 0 its parts is 401, and the low of mcf 200"), ("scale", "in 2 steps: in step 1 its parts is 900")):
        faults += differences(report_warnings(plan_of(recovery=recovery), (COLUMNS + rows).encode(), [(1, 1, 0)]), said)
    return faults + differences(report_warnings(plan_of(), b"")) + differences(report_warnings(plan_of(), (COLUMNS + rows[:rows.index("smore")]).encode()))


def answer(words, members):
    """What the program answers on the plan of these members, over the six ways."""
    with tempfile.TemporaryDirectory() as folder:
        for name, text in (("net.csv", STAR), ("tm.csv", DEMANDS), ("plan.json", json.dumps({"topology": "net.csv", "matrices": "tm.csv", **members}))):
            with open(os.path.join(folder, name), "w", encoding="utf-8") as file:
                file.write(text)
        return program.answer([*words, "plan.json"], folder)


def counts_of_program():
    """The paths of `ecmp` and `valiant` are as many as the program publishes, on networks of one cost."""
    faults = []
    for name, scheme in itertools.product(("abilene", "backbone"), ("ecmp", "valiant")):
        folder = os.path.join(program.TOP, "examples", name)
        with open(os.path.join(folder, "net.csv"), "rb") as file:
            rows = [line.rsplit(",", 1)[0] for line in file.read().decode().split("\n")[1:] if line]
        with open(os.path.join(folder, "tm.csv"), encoding="utf-8") as file:
            demands = file.read()
        topology = "source,target,capacity,cost\n" + "".join(f"{row},1\n" for row in rows)
        net, series = files_of(topology, demands)
        with tempfile.TemporaryDirectory() as place:
            for file_name, text in (("n", topology), ("m", demands), ("p", f'{{"topology":"n","matrices":"m","publish":"{scheme}","budget":32}}')):
                with open(os.path.join(place, file_name), "w", encoding="utf-8") as file:
                    file.write(text)
            published = counts_in(program.answer(["publish", "p"], place).out)
        counts = ecmp_counts(net, series.pairs, 0) if scheme == "ecmp" else valiant_counts(net, series.pairs)
        if counts != published:
            faults.append(f"{scheme} on {name}: {counts} in place of {published}")
    return faults


def warnings_of_program():
    """What the program's own paths and reports lead to."""
    net, series = files_of()

    def publish(name):
        with open(name, encoding="utf-8") as file:
            return answer(["publish"], json.load(file)).out

    faults = differences(path_warnings(plan_of(publish="ksp", k=5), net, series, publish), "ksp has more for 2 of 2 pairs, up to 5")
    few = {"schemes": ["mcf", "smore"], "trees": 1, "budget": 1}
    return faults + differences(report_warnings(plan_of(**few), answer(["run"], few).out), "smore asks of its most used link more than twice")


CASES = [
    ("coarse units", units),
    ("several seeds", seeds),
    ("paths of ecmp beyond the budget", ways_of_ecmp),
    ("paths of valiant beyond the budget", ways_of_valiant),
    ("paths of a certificate beyond the budget", ways_in_certificates),
    ("few paths of smore", few_paths_of_smore),
]
CASES_OF_PROGRAM = [("as many paths of ecmp and valiant as are published", counts_of_program), ("paths and reports of the program", warnings_of_program)]
