"""Calls of `simulate`: the files that they are given, and what they have to answer. The texts are computed by hand.

The files are a certificate, a plan, a topology, matrices, predictions and failures, and rows are those of `calls`.
"""
from .certificates import (
    PARALLEL_LIGHT, PARALLEL_WHOLE, PARALLEL_WITHOUT_SECOND, SMALLEST, SMALLEST_IN_SECOND, SMALLEST_WITH_LESS, SMALL_BOX, UNENDED,
)

COLUMNS = "scheme,step,offered,delivered,lost_full,lost_failed,lost_no_path,peak,parts,low\n"
HEADER, DEMANDS = "source,target,capacity,cost\n", "step,source,target,demand\n"
LINK, BOTH = HEADER + "a,b,10,1\n", HEADER + "a,b,10,1\na,b,30,1\n"
FIVE = DEMANDS + "0,a,b,5\n"

PLAN = '{"topology":"t","matrices":"m","schemes":["mcf","spf"],"publish":"ecmp","k":32,"budget":1}'


def plan(recovery, more=""):
    return f'{{"topology":"t","matrices":"m","failures":"f","recovery":"{recovery}"{more}}}'


KEEP, SCALE, BYPASS, REROUTE, ADAPT = map(plan, ("none", "scale", "bypass", "reroute", "adapt"))
FORECAST = '{"topology":"t","matrices":"m","predictions":"q","failures":"f"}'

# Three nodes in a row, and a pair over both links beside one over the first.
ROW = (
    "yates-ratio 1\nnodes 3\na\nb\nc\nlinks 2\n0 1 10 1\n1 2 10 1\npairs 2\n0 1 1\n1000000 1 0\n0 2 1\n1000000 2 0 1\nset all\nratio 0\n"
    "blocks 0\nend\n"
)
ROW_LINKS = HEADER + "a,b,10,1\nb,c,10,1\n"
# Weights that are no thirds: 20 over the first link, and 80 over the second, which has room for 30.
UNEVEN = (
    "yates-ratio 1\nnodes 2\na\nb\nlinks 2\n0 1 10 1\n0 1 30 1\npairs 1\n0 1 2\n200000 1 0\n800000 1 1\nset all\nratio 5000000\nblocks 0\nend\n"
)
FAILURE = "from,to,link\n1,1,1\n"
TWICE_FORTY = DEMANDS + "0,a,b,40\n1,a,b,40\n"


def rows(*lines):
    return COLUMNS + "".join(f"certificate,{line}\n" for line in lines)


SMALL_REPORT = rows("0,5,5,0,0,0,500000,500000,-", "total,5,5,0,0,0,500000,500000,-")

SIMULATED = [
    # Both formats, whatever set they have, and whether or not their inequalities hold; the plan's schemes and numbers play no part.
    *[([it, PLAN, LINK, FIVE], 0, SMALL_REPORT) for it in (SMALLEST, SMALLEST_IN_SECOND, SMALLEST_WITH_LESS, SMALL_BOX)],
    ([PARALLEL_WITHOUT_SECOND, PLAN, BOTH, FIVE], 0, rows("0,5,5,0,0,0,300000,250000,-", "total,5,5,0,0,0,300000,250000,-")),
    # By the weights of the file, and not by those of a scheme: 8 and 32 of 40.
    (
        [UNEVEN, KEEP, BOTH, TWICE_FORTY, FAILURE], 0,
        rows("0,40,38,2,0,0,1000000,1066667,-", "1,40,8,0,32,0,800000,1066667,-", "total,80,46,2,32,0,1000000,1066667,-"),
    ),
    # What is left is scaled; the utilisation is that of the whole routing.
    *[
        (
            [UNEVEN, it, BOTH, TWICE_FORTY, FAILURE], 0,
            rows("0,40,38,2,0,0,1000000,1066667,-", "1,40,10,30,0,0,1000000,1066667,-", "total,80,48,32,0,0,1000000,1066667,-"),
        )
        for it in (SCALE, BYPASS, REROUTE, ADAPT)
    ],
    # No path is left of a pair, and the routing is not made anew.
    *[
        ([SMALLEST, it, LINK, FIVE, "from,to,link\n0,0,0\n"], 0, rows("0,5,0,0,0,5,0,500000,-", "total,5,0,0,0,5,0,500000,-"))
        for it in (SCALE, BYPASS, REROUTE, ADAPT)
    ],
    ([SMALLEST, KEEP, LINK, FIVE, "from,to,link\n0,0,0\n"], 0, rows("0,5,0,0,5,0,0,500000,-", "total,5,0,0,5,0,0,500000,-")),
    # A pair without a row demands nothing, and so does one in a step without its row.
    ([ROW, PLAN, ROW_LINKS, DEMANDS + "0,a,c,5\n"], 0, rows("0,5,5,0,0,0,500000,500000,-", "total,5,5,0,0,0,500000,500000,-")),
    (
        [ROW, PLAN, ROW_LINKS, DEMANDS + "0,a,c,5\n2,a,b,8\n2,a,c,4\n"], 0,
        rows(
            "0,5,5,0,0,0,500000,500000,-", "1,0,0,0,0,0,0,0,-", "2,12,10,2,0,0,1000000,1200000,-", "total,17,15,2,0,0,1000000,1200000,-",
        ),
    ),
    # No step.
    ([ROW, PLAN, ROW_LINKS, DEMANDS], 0, rows("total,0,0,0,0,0,0,0,-")),
]

FORECASTS = [
    # Predictions change nothing, whichever pairs they have, also such as the certificate does not have.
    *[([SMALLEST, FORECAST, LINK, FIVE, q, "from,to,link\n"], 0, SMALL_REPORT) for q in (DEMANDS + "0,a,b,9\n3,b,a,1\n", DEMANDS)],
    ([SMALLEST, FORECAST, LINK, FIVE, "x\n"], 3, "refused: q: header\n"),
    ([SMALLEST, FORECAST, LINK, FIVE, DEMANDS + "0,a,x,1\n"], 3, "refused: q: unknown node at row 1\n"),
    # They are read after the matrices and before the failures.
    ([SMALLEST, FORECAST, LINK, DEMANDS + "0,b,a,5\n"], 3, "refused: m: no route at row 1\n"),
    ([SMALLEST, FORECAST, LINK, FIVE, DEMANDS, "x\n"], 3, "refused: f: header\n"),
    ([SMALLEST, FORECAST, LINK, FIVE], 4, "fault: read\n"),
]

REFUSED = [
    # The certificate first, whose blocks are judged for form.
    ([PARALLEL_LIGHT], 3, "refused: c: rule V6 at 0\n"),
    ([UNENDED], 3, "refused: c: shape at line 16\n"),
    ([SMALLEST[:-20]], 3, f"refused: c: shape at line {SMALLEST[:-20].count(chr(10)) + 1}\n"),
    # Then the plan.
    ([SMALLEST, "{}"], 3, "refused: p: missing topology\n"),
    ([SMALLEST, "{"], 3, "refused: p: not json\n"),
    ([SMALLEST], 4, "fault: read\n"),
    # Then the topology, with its own faults before those of another network: capacity, cost, name, order, more.
    ([SMALLEST, PLAN, HEADER], 3, "refused: t: empty\n"),
    ([SMALLEST, PLAN, HEADER + "a,b,11,1\nb,b,1,1\n"], 3, "refused: t: self link at row 2\n"),
    *[
        ([SMALLEST, PLAN, HEADER + it], 3, "refused: t: not the network\n")
        for it in ("a,b,11,1\n", "a,b,10,2\n", "a,c,10,1\n", "b,a,10,1\n", "a,b,10,1\nb,a,10,1\n")
    ],
    ([PARALLEL_WHOLE, PLAN, HEADER + "a,b,30,1\na,b,10,1\n"], 3, "refused: t: not the network\n"),
    ([SMALLEST, PLAN], 4, "fault: read\n"),
    # Then the matrices: the first row of a pair that the certificate does not have, after all other faults.
    ([SMALLEST, PLAN, LINK, DEMANDS + "0,b,a,5\n"], 3, "refused: m: no route at row 1\n"),
    ([ROW, PLAN, ROW_LINKS, DEMANDS + "0,a,b,1\n0,b,c,0\n1,c,a,1\n"], 3, "refused: m: no route at row 2\n"),
    ([ROW, PLAN, ROW_LINKS, DEMANDS + "0,a,b,1\n0,b,c,0\n0,a,b,1\n"], 3, "refused: m: repeated at row 3\n"),
    ([ROW, PLAN, ROW_LINKS, DEMANDS + "0,a,b,1\n0,b,c,0\n1,a,x,1\n"], 3, "refused: m: unknown node at row 3\n"),
    ([SMALLEST, PLAN, LINK, LINK], 3, "refused: m: header\n"),
    ([SMALLEST, PLAN, LINK], 4, "fault: read\n"),
    # Then the failures.
    ([SMALLEST, KEEP, LINK, FIVE, "from,to,link\n0,0,1\n"], 3, "refused: f: no such link at row 1\n"),
    ([SMALLEST, KEEP, LINK, FIVE, "from,to,link\n0,1,0\n"], 3, "refused: f: interval at row 1\n"),
    ([SMALLEST, KEEP, LINK, FIVE], 4, "fault: read\n"),
]

# What is tried, the words, the names of the files, and the rows, as in `calls`.
TABLES = [
    ("simulated certificates", ["simulate", "c", "p"], "cptmf", SIMULATED),
    ("simulated certificates, with predictions", ["simulate", "c", "p"], "cptmqf", FORECASTS),
    ("refusals of simulate", ["simulate", "c", "p"], "cptmf", REFUSED),
]

# Words that are no form of a command.
NO_FORMS = [["simulate"], ["simulate", "c"], ["simulate", "c", "p", "p"], ["Simulate", "c", "p"], ["simulated", "c", "p"], ["simulate ", "c", "p"]]
