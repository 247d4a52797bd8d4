"""Plans with predictions: what calls answer, by hand, and what schemes are given, by the paths that they take.

The files of a row are a plan, a topology, matrices, predictions and failures, and rows are those of `calls`.
"""
from .backbone import NETWORK
from .breakdown_tests import EACH_SCHEME, Inputs, faults_of_step
from .breakdowns import BY_PAIRS, BY_PATHS, WAYS
from .calls import COLUMNS, FAILURE, FIVE_AND_NINE, LINE, LINK, TWELVE

DEMANDS = "step,source,target,demand\n"
# What is predicted: more than is sent; a pair that is not sent; nothing; and one step of two.
MORE, OTHER, NOTHING, ONE_STEP = DEMANDS + "0,a,b,9\n1,a,b,1\n", DEMANDS + "0,a,c,7\n", DEMANDS, DEMANDS + "0,s,t,3\n"


def plan(schemes, more=""):
    return f'{{"topology":"t","matrices":"m","predictions":"q","schemes":{schemes}{more}}}'


SPF, MCF, PUBLISHED = plan('["spf"]'), plan('["mcf"]'), plan('["spf"]', ',"publish":"spf"')
ENVELOPE, WITH_FAILURES = plan('["spf"]', ',"publish":"spf","envelope":true'), plan('["spf"]', ',"failures":"f"')
# A demand from a to b.
FIVE = DEMANDS + "0,a,b,5\n"

REPORTS = [
    # An oblivious scheme has the rows that it has without predictions.
    *[([SPF, LINK, FIVE, q], 0, COLUMNS + "spf,0,5,5,0,0,0,500000,500000,-\nspf,total,5,5,0,0,0,500000,500000,-\n") for q in (MORE, NOTHING)],
    # A bound for the predictions bounds nothing of what is sent, and `parts` is of what is sent.
    ([MCF, LINK, FIVE, MORE], 0, COLUMNS + "mcf,0,5,5,0,0,0,500000,500000,-\nmcf,total,5,5,0,0,0,500000,500000,-\n"),
    ([MCF, LINK, FIVE, FIVE], 0, COLUMNS + "mcf,0,5,5,0,0,0,500000,500000,-\nmcf,total,5,5,0,0,0,500000,500000,-\n"),
    # A pair that is predicted alone is declared and sends nothing; there are as many rows as steps that are sent.
    ([SPF, LINE, FIVE, OTHER + "5,a,b,1\n"], 0, COLUMNS + "spf,0,5,5,0,0,0,500000,500000,-\nspf,total,5,5,0,0,0,500000,500000,-\n"),
    ([SPF, LINE, NOTHING, OTHER], 0, COLUMNS + "spf,total,0,0,0,0,0,0,0,-\n"),
    # The second step has no predictions.
    (
        [WITH_FAILURES, WAYS, TWELVE, ONE_STEP, FAILURE], 0,
        COLUMNS + "spf,0,12,10,2,0,0,1000000,1200000,-\nspf,1,12,10,2,0,0,1000000,1200000,-\nspf,total,24,20,4,0,0,1000000,1200000,-\n",
    ),
    # They are read after the matrices and before the failures, with the same refusals under their own name.
    ([SPF, LINK, "x\n"], 3, "refused: m: header\n"),
    ([SPF, LINK, FIVE, "x\n"], 3, "refused: q: header\n"),
    ([SPF, LINK, FIVE, DEMANDS + "0,a,c,1\n"], 3, "refused: q: unknown node at row 1\n"),
    ([SPF, LINK, FIVE, DEMANDS + "1024,a,b,1\n"], 3, "refused: q: too many steps at row 1\n"),
    ([WITH_FAILURES, WAYS, TWELVE, ONE_STEP, "x\n"], 3, "refused: f: header\n"),
    ([WITH_FAILURES, WAYS, TWELVE, "x\n"], 3, "refused: q: header\n"),
    # Intervals are those of the steps that are sent.
    ([WITH_FAILURES, WAYS, TWELVE, ONE_STEP + "7,s,t,1\n", "from,to,link\n0,7,0\n"], 3, "refused: f: interval at row 1\n"),
    ([SPF, LINK, FIVE], 4, "fault: read\n"),
    (['{"topology":"t","matrices":"m","predictions":""}'], 3, "refused: p: range of predictions\n"),
    (['{"topology":"t","matrices":"m","failures":1,"predictions":""}'], 3, "refused: p: kind of failures\n"),
    (['{"topology":"t","matrices":"m","predictions":["q"],"k":0}'], 3, "refused: p: kind of predictions\n"),
]

CERTIFICATES = [
    ([PUBLISHED, LINE, FIVE, OTHER], 0, "\npairs 2\n0 1 1\n1000000 1 0\n0 2 1\n1000000 2 0 1\nset all\n"),
    ([ENVELOPE, LINE, FIVE_AND_NINE, OTHER], 0, "\npairs 2\n0 1 1\n1000000 1 0\n0 2 1\n1000000 2 0 1\nset box\nlower 5 0\nupper 9 0\nratio "),
    ([PUBLISHED, LINE, FIVE, DEMANDS + "0,c,a,1\n"], 7, "no path: c a\n"),
    ([PUBLISHED, LINE, FIVE, "x\n"], 3, "refused: q: header\n"),
    ([PUBLISHED, LINE, FIVE], 4, "fault: read\n"),
]

PAIRS = [([SPF, LINE, FIVE, OTHER], 0, BY_PAIRS + "spf,a,b,5,5,0,0,0,1,1000000,1000000\nspf,a,c,0,0,0,0,0,1,2000000,2000000\n")]
PATHS = [
    ([SPF, LINE, FIVE, OTHER], 0, BY_PATHS + "spf,a,b,1000000,0\nspf,a,c,1000000,0 1\n"),
]
# A step that is not sent is none, whatever is predicted for it, and so the predictions are not read.
NO_STEP = [([SPF, LINK, FIVE], 3, "refused: m: no step 1\n")]

# What is tried, the words, the names of the files, and the rows, as in `calls`.
TABLES = [
    ("reports with predictions", ["run", "p"], "ptmqf", REPORTS),
    ("certificates with predictions", ["publish", "p"], "ptmq", CERTIFICATES),
    ("pairs with predictions", ["pairs", "p", "0"], "ptmq", PAIRS),
    ("paths with predictions", ["paths", "p", "0"], "ptmq", PATHS),
    ("a step that is not sent, with predictions", ["links", "p", "1"], "ptm", NO_STEP),
]


def matrices_of(demands, step):
    """A matrix file with one step of demands between nodes of the backbone."""
    return DEMANDS + "".join(f"{step},{source},{target},{demand}\n" for (source, target), demand in demands.items())


def two_matrices():
    """Two matrices of all pairs of the backbone, of which one is high where the other is low."""
    nodes = list(dict.fromkeys(name for row in NETWORK.split("\n")[1:-1] for name in row.split(",")[:2]))
    pairs = [(source, target) for source in nodes for target in nodes if source != target]
    return [{pair: 10 + 990 * (place % 3 == which) for place, pair in enumerate(pairs)} for which in (0, 1)]


def faults_of_given(answer, recovery):
    """What is wrong where the paths are not those that the predictions have as matrices, or a text of the step is not that of these paths."""
    sent, predicted = (matrices_of(it, 0) for it in two_matrices())
    plans = [f'{{"topology":"t","matrices":"m",{key}"failures":"f",{EACH_SCHEME},"recovery":"{recovery}","seed":3}}' for key in ('"predictions":"q",', "")]
    common = {"t": NETWORK, "f": "from,to,link\n0,0,2\n0,0,3\n"}
    files = {"p": plans[0], **common, "m": sent, "q": predicted}
    with_predictions = answer(["paths", "p", "0"], files)
    as_matrices = answer(["paths", "p", "0"], {"p": plans[1], **common, "m": predicted})
    faults = [] if with_predictions == as_matrices and with_predictions[0] == 0 else ["the paths are not those of the predictions"]
    return faults + faults_of_step(lambda words: answer(words, files), Inputs.of_files(files, 0), "p")


def cases(answer):
    """The name of each case, and what is wrong with it."""
    for recovery in ("none", "reroute", "adapt"):
        yield f"schemes are given the predictions, {recovery}", faults_of_given(answer, recovery)
