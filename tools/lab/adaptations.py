"""Plans with the recovery `adapt`: what calls answer, by hand, and the rates of `smore` by a second reading of its fixed paths.

The files of a row are a plan, a topology, matrices and failures, and rows are those of `calls`.
"""
from . import steps
from .breakdown_tests import Inputs, PATHS, cut_files, loads_of, rates_of, rows_of
from .breakdowns import BOTH_PATHS, BY_LINKS, BY_PAIRS, BY_PATHS, IDLE, plan
from .calls import COLUMNS, FAILURE, THERE_AND_BACK, TWELVE, WAYS

BUDGET = 4
ADAPT, ADAPT_SMORE = plan("adapt"), plan("adapt", '["smore"]')
# Two parallel links from s to t, and one from s to x.
PARALLEL_LINKS = "source,target,capacity,cost\ns,t,10,1\ns,t,30,1\ns,x,10,1\n"
TO_BOTH = "step,source,target,demand\n0,s,t,12\n0,s,x,3\n1,s,t,12\n1,s,x,3\n2,s,t,12\n"
# One of the links from s to t fails in the first step, and both in the others.
ONE_AND_BOTH = "from,to,link\n0,2,1\n1,2,0\n"
SMORE_FILES = [ADAPT_SMORE, PARALLEL_LINKS, TO_BOTH, ONE_AND_BOTH]

REPORTS = [
    # Of a scheme with one routing for all matrices it is as `scale`.
    (
        [ADAPT, WAYS, TWELVE, FAILURE], 0,
        COLUMNS + "ksp,0,12,12,0,0,0,600000,600000,-\nksp,1,12,10,2,0,0,1000000,600000,-\nksp,total,24,22,2,0,0,1000000,600000,-\n",
    ),
    # Of `smore` the link that is left takes all, and there is no other split, so that `low` is the same. Where no link is left, `parts` and `low`
    # are those of the pair that keeps a path, and 0 where it sends nothing.
    (
        SMORE_FILES, 0,
        COLUMNS + "smore,0,15,13,2,0,0,1000000,1200000,1200000\nsmore,1,15,3,0,0,12,300000,300000,300000\nsmore,2,12,0,0,0,12,0,0,0\n"
        "smore,total,42,16,2,0,24,1000000,1200000,-\n",
    ),
]
LINKS = [
    (
        [ADAPT, WAYS, TWELVE, FAILURE], 0,
        BY_LINKS + "ksp,0,s,t,10,no,12,10,1200000,1000000\nksp,1,s,x,10,yes,0,0,0,0\nksp,2,x,t,10,no,0,0,0,0\n" + IDLE,
    ),
    (SMORE_FILES, 0, BY_LINKS + "smore,0,s,t,10,yes,0,0,0,0\nsmore,1,s,t,30,yes,0,0,0,0\nsmore,2,s,x,10,no,3,3,300000,300000\n"),
]
PAIRS = [
    ([ADAPT, WAYS, THERE_AND_BACK, BOTH_PATHS], 0, BY_PAIRS + "ksp,s,t,12,0,0,0,12,0,-,1000000\nksp,t,s,5,0,0,0,5,0,-,-\n"),
    (SMORE_FILES, 0, BY_PAIRS + "smore,s,t,12,10,2,0,0,1,1000000,1000000\nsmore,s,x,3,3,0,0,0,1,1000000,1000000\n"),
]
PATHS_LEFT = [
    ([ADAPT, WAYS, TWELVE, FAILURE], 0, BY_PATHS + "ksp,s,t,1000000,0\n"),
    (SMORE_FILES, 0, BY_PATHS + "smore,s,x,1000000,2\n"),
]

# What is tried, the words, the names of the files, and the rows, as in `calls`.
TABLES = [
    ("reports of adapt", ["run", "p"], "ptmf", REPORTS),
    ("links of adapt", ["links", "p", "1"], "ptmf", LINKS),
    ("pairs of adapt", ["pairs", "p", "0"], "ptmf", PAIRS),
    ("paths of adapt", ["paths", "p", "1"], "ptmf", PATHS_LEFT),
]


def lines_of(text, scheme, but=False):
    """The lines of a text that are of the scheme, or those that are not."""
    return [line for line in text.split("\n")[1:-1] if (line.split(",")[0] == scheme) != but]


def heaviest(paths):
    """The heaviest paths of a pair, as `smore` fixes them: of equal weights the first ones, in their order."""
    kept = sorted(sorted(range(len(paths)), key=lambda place: (-paths[place][0], place))[:BUDGET])
    weights = steps.apportion(steps.SHARE_UNIT, [paths[place][0] for place in kept])
    return list(zip(weights, (paths[place][1] for place in kept)))


def standing(inputs, paths):
    """Those of the paths that hold no failed link, with weights that are scaled to one million."""
    left = [path for path in paths if not any(inputs.failed[link] for link in path[1])]
    return list(zip(steps.apportion(steps.SHARE_UNIT, [weight for weight, _ in left]), (links for _, links in left))) if left else []


def utilisation(inputs, rates):
    """The greatest load over the capacity, in millionths, rounded up."""
    loads, _ = loads_of(inputs, rates)
    return max(-(-load // link[2]) for load, link in zip(loads, inputs.net.links))


def faults_of_rates(inputs, left, rates, row):
    """What is wrong with the rates of `smore` over the paths that are left of each pair, whose line of the report this is."""
    faults = []
    for pair, paths in rates.items():
        if not {tuple(links) for _, links in paths} <= {tuple(links) for _, links in left[pair]}:
            faults.append(f"{pair} takes a path that is not left")
        if bool(paths) != bool(left[pair]):
            faults.append(f"{pair} has {len(paths)} paths, and {len(left[pair])} are left")
    parts, scaled = int(row["parts"]), utilisation(inputs, left)
    faults += [] if parts == utilisation(inputs, rates) else [f"parts is {parts}, and that of the rates {utilisation(inputs, rates)}"]
    faults += [] if parts <= scaled else [f"parts is {parts}, and that of the fixed rates, scaled, {scaled}"]
    faults += [] if int(row["low"]) <= parts else [f"low is {row['low']}, and parts {parts}"]
    lost = sum(inputs.demands[pair] for pair in rates if not left[pair])
    return faults + ([] if int(row["lost_no_path"]) == lost else [f"lost_no_path is {row['lost_no_path']}, and {lost} have no path left"])


def faults_of_step(answer, step):
    """What is wrong with the rates of a step of the backbone. The fixed paths are the heaviest of `racke` before the cut."""
    told = {recovery: cut_files(recovery) for recovery in ("none", "scale", "adapt")}
    runs = {recovery: answer(["run", "p"], files)[1] for recovery, files in told.items()}
    texts = {recovery: answer(["paths", "p", str(step)], files)[1] for recovery, files in told.items()}
    faults = [] if lines_of(runs["adapt"], "smore", True) == lines_of(runs["scale"], "smore", True) else ["another scheme's rows are not those of scale"]
    inputs = Inputs.of_files(told["adapt"], step)
    tables = {recovery: rows_of(text, PATHS)[0] for recovery, text in texts.items()}
    before = rates_of(inputs, [row for row in tables["none"] if row["scheme"] == "racke"])
    rates = rates_of(inputs, [row for row in tables["adapt"] if row["scheme"] == "smore"])
    left = {pair: standing(inputs, heaviest(paths)) for pair, paths in before.items()}
    rows, _ = rows_of(runs["adapt"], runs["adapt"].split("\n", 1)[0])
    row = next((it for it in rows if (it["scheme"], it["step"]) == ("smore", str(step))), None)
    if row is None:
        return faults + [f"the report has no line of smore for step {step}"]
    if not any(inputs.failed):
        same = [lines_of(runs[recovery], "smore")[step] for recovery in ("none", "adapt")]
        faults += [] if same[0] == same[1] else ["a step without a failed link is not that of none"]
    return faults + faults_of_rates(inputs, left, rates, row)


def cases(answer):
    """The name of each case, and what is wrong with it."""
    for step in range(3):
        yield f"rates anew over the paths that stand, step {step}", faults_of_step(answer, step)
