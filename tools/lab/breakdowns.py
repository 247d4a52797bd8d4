"""Calls of `links`, `pairs` and `paths`: the files that they are given, and what they have to answer. The texts are computed by hand.

The files are a plan, a topology, matrices and failures, and rows are those of `calls`.
"""

BY_LINKS = "scheme,link,source,target,capacity,failed,asked,carried,asked_parts,carried_parts\n"
BY_PAIRS = "scheme,source,target,offered,delivered,lost_full,lost_failed,lost_no_path,paths,cost,least_cost\n"
BY_PATHS = "scheme,source,target,weight,links\n"

# A link from s to t, a way over x, and a way of three links over y and x.
WAYS = "source,target,capacity,cost\ns,t,10,1\ns,x,10,1\nx,t,10,1\ns,y,3,3\ny,x,3,3\n"
# A demand of 12 from s to t in two steps; and demands from s to t and back, of which the second has no path.
TWELVE = "step,source,target,demand\n0,s,t,12\n1,s,t,12\n"
THERE_AND_BACK = "step,source,target,demand\n0,s,t,12\n0,t,s,5\n"
# The link from s to x fails in the second step.
FAILURE = "from,to,link\n1,1,1\n"
BOTH_PATHS = "from,to,link\n0,0,0\n0,0,1\n"


def plan(recovery, schemes='["ksp"]'):
    return f'{{"topology":"t","matrices":"m","failures":"f","schemes":{schemes},"k":2,"recovery":"{recovery}"}}'


KEEP, SCALE, BYPASS, REROUTE = map(plan, ("none", "scale", "bypass", "reroute"))
TWO_SCHEMES = plan("none", '["spf","ksp"]')
ALONE = '{"topology":"t","matrices":"m","schemes":["spf"]}'
EACH_TO_EACH = "source,target,capacity,cost\na,b,10,1\na,c,10,1\nb,a,10,1\nb,c,10,1\nc,a,10,1\nc,b,10,1\n"
VALIANT = '{"topology":"t","matrices":"m","schemes":["valiant"]}'
ROBUST = '{"topology":"t","matrices":"m","schemes":["robust"],"budget":32}'
LINK = "source,target,capacity,cost\na,b,10,1\n"
FIVE = "step,source,target,demand\n0,a,b,5\n"

# Half of the demand goes over the straight link, and half over x. Two links of the way over y carry none.
IDLE = "ksp,3,s,y,3,no,0,0,0,0\nksp,4,y,x,3,no,0,0,0,0\n"
HALVES = "ksp,0,s,t,10,no,6,6,600000,600000\nksp,1,s,x,10,no,6,6,600000,600000\nksp,2,x,t,10,no,6,6,600000,600000\n" + IDLE
# Round the failed link the way over y is asked 6, of which its first link carries 3.
ROUND = (
    "ksp,0,s,t,10,no,6,6,600000,600000\nksp,1,s,x,10,yes,0,0,0,0\nksp,2,x,t,10,no,6,3,600000,300000\n"
    "ksp,3,s,y,3,no,6,3,2000000,1000000\nksp,4,y,x,3,no,6,3,2000000,1000000\n"
)

LINKS_AT_0 = [
    ([KEEP, WAYS, TWELVE, FAILURE], 0, BY_LINKS + HALVES),
    ([REROUTE, WAYS, TWELVE, FAILURE], 0, BY_LINKS + HALVES),
    # A line for each link of each scheme, in the plan's order: the least path alone is full.
    (
        [TWO_SCHEMES, WAYS, TWELVE, FAILURE], 0,
        BY_LINKS + "spf,0,s,t,10,no,12,10,1200000,1000000\nspf,1,s,x,10,no,0,0,0,0\nspf,2,x,t,10,no,0,0,0,0\nspf,3,s,y,3,no,0,0,0,0\n"
        "spf,4,y,x,3,no,0,0,0,0\n" + HALVES,
    ),
    # Both paths have failed and are dropped, so nothing is asked.
    (
        [SCALE, WAYS, THERE_AND_BACK, BOTH_PATHS], 0,
        BY_LINKS + "ksp,0,s,t,10,yes,0,0,0,0\nksp,1,s,x,10,yes,0,0,0,0\nksp,2,x,t,10,no,0,0,0,0\n" + IDLE,
    ),
    # Rounded up, and whole units: of 5 a path gets 3 and the other 2.
    ([ALONE, "source,target,capacity,cost\na,b,3,1\n", "step,source,target,demand\n0,a,b,1\n"], 0, BY_LINKS + "spf,0,a,b,3,no,1,1,333334,333334\n"),
    (
        [VALIANT, EACH_TO_EACH, FIVE], 0,
        BY_LINKS + "valiant,0,a,b,10,no,3,3,300000,300000\nvaliant,1,a,c,10,no,2,2,200000,200000\nvaliant,2,b,a,10,no,0,0,0,0\n"
        "valiant,3,b,c,10,no,0,0,0,0\nvaliant,4,c,a,10,no,0,0,0,0\nvaliant,5,c,b,10,no,2,2,200000,200000\n",
    ),
    ([ROBUST, LINK, FIVE], 0, BY_LINKS + "robust,0,a,b,10,no,5,5,500000,500000\n"),
]

LINKS_AT_1 = [
    # What asks the failed link is lost there, and the link after it carries none of it.
    (
        [KEEP, WAYS, TWELVE, FAILURE], 0,
        BY_LINKS + "ksp,0,s,t,10,no,6,6,600000,600000\nksp,1,s,x,10,yes,6,0,600000,0\nksp,2,x,t,10,no,6,0,600000,0\n" + IDLE,
    ),
    # The path that stands is asked all, more than it has.
    (
        [SCALE, WAYS, TWELVE, FAILURE], 0,
        BY_LINKS + "ksp,0,s,t,10,no,12,10,1200000,1000000\nksp,1,s,x,10,yes,0,0,0,0\nksp,2,x,t,10,no,0,0,0,0\n" + IDLE,
    ),
    ([BYPASS, WAYS, TWELVE, FAILURE], 0, BY_LINKS + ROUND),
    ([REROUTE, WAYS, TWELVE, FAILURE], 0, BY_LINKS + ROUND),
]

PAIRS_AT_0 = [
    ([KEEP, WAYS, TWELVE, FAILURE], 0, BY_PAIRS + "ksp,s,t,12,12,0,0,0,2,1500000,1000000\n"),
    # No links lead back from t.
    (
        [KEEP, WAYS, THERE_AND_BACK, "from,to,link\n0,0,4\n"], 0,
        BY_PAIRS + "ksp,s,t,12,12,0,0,0,2,1500000,1000000\nksp,t,s,5,0,0,0,5,0,-,-\n",
    ),
    # A pair whose paths have failed has none, but a least cost on the whole network.
    ([SCALE, WAYS, THERE_AND_BACK, BOTH_PATHS], 0, BY_PAIRS + "ksp,s,t,12,0,0,0,12,0,-,1000000\nksp,t,s,5,0,0,0,5,0,-,-\n"),
    ([VALIANT, EACH_TO_EACH, FIVE], 0, BY_PAIRS + "valiant,a,b,5,5,0,0,0,2,1333333,1000000\n"),
    ([ROBUST, LINK, FIVE], 0, BY_PAIRS + "robust,a,b,5,5,0,0,0,1,1000000,1000000\n"),
]

PAIRS_AT_1 = [
    ([KEEP, WAYS, TWELVE, FAILURE], 0, BY_PAIRS + "ksp,s,t,12,6,0,6,0,2,1500000,1000000\n"),
    ([SCALE, WAYS, TWELVE, FAILURE], 0, BY_PAIRS + "ksp,s,t,12,10,2,0,0,1,1000000,1000000\n"),
    # The way over y and x costs 7.
    ([BYPASS, WAYS, TWELVE, FAILURE], 0, BY_PAIRS + "ksp,s,t,12,9,3,0,0,2,4000000,1000000\n"),
    ([REROUTE, WAYS, TWELVE, FAILURE], 0, BY_PAIRS + "ksp,s,t,12,9,3,0,0,2,4000000,1000000\n"),
    ([TWO_SCHEMES, WAYS, TWELVE, FAILURE], 0, BY_PAIRS + "spf,s,t,12,10,2,0,0,1,1000000,1000000\nksp,s,t,12,6,0,6,0,2,1500000,1000000\n"),
]

PATHS_AT_0 = [
    ([KEEP, WAYS, TWELVE, FAILURE], 0, BY_PATHS + "ksp,s,t,500000,0\nksp,s,t,500000,1 2\n"),
    ([VALIANT, EACH_TO_EACH, FIVE], 0, BY_PATHS + "valiant,a,b,666667,0\nvaliant,a,b,333333,1 5\n"),
    ([ROBUST, LINK, FIVE], 0, BY_PATHS + "robust,a,b,1000000,0\n"),
    # A pair without a path has no line.
    ([SCALE, WAYS, THERE_AND_BACK, BOTH_PATHS], 0, BY_PATHS),
]

PATHS_AT_1 = [
    # A path with a failed link stays where nothing is done about it.
    ([KEEP, WAYS, TWELVE, FAILURE], 0, BY_PATHS + "ksp,s,t,500000,0\nksp,s,t,500000,1 2\n"),
    ([SCALE, WAYS, TWELVE, FAILURE], 0, BY_PATHS + "ksp,s,t,1000000,0\n"),
    ([BYPASS, WAYS, TWELVE, FAILURE], 0, BY_PATHS + "ksp,s,t,500000,0\nksp,s,t,500000,3 4 2\n"),
    # By the numbers that the links have in the topology, not in the network that is left.
    ([REROUTE, WAYS, TWELVE, FAILURE], 0, BY_PATHS + "ksp,s,t,500000,0\nksp,s,t,500000,3 4 2\n"),
]

# A step that the series does not have, after all other faults of the matrices and before the failures are read.
REFUSED_AT_2 = [
    ([KEEP, WAYS, TWELVE], 3, "refused: m: no step 2\n"),
    ([KEEP, WAYS, "step,source,target,demand\n"], 3, "refused: m: no step 2\n"),
    ([KEEP, WAYS, TWELVE + "0,s,t,1\n"], 3, "refused: m: order at row 3\n"),
    ([KEEP, WAYS, WAYS], 3, "refused: m: header\n"),
    ([KEEP, "source,target,capacity,cost\n"], 3, "refused: t: empty\n"),
    (["{}"], 3, "refused: p: missing topology\n"),
    # A step without a row is one of the series, where a later one has rows.
    ([ALONE, WAYS, TWELVE + "3,s,t,1\n"], 0, BY_PATHS + "spf,s,t,1000000,0\n"),
    ([KEEP, WAYS, TWELVE + "2,s,t,1\n", "from,to\n"], 3, "refused: f: header\n"),
    ([KEEP, WAYS, TWELVE + "2,s,t,1\n"], 4, "fault: read\n"),
    ([KEEP, WAYS, None], 4, "fault: read\n"),
    ([None, WAYS, TWELVE, FAILURE], 4, "fault: read\n"),
]

# The greatest step of all.
REFUSED_AT_1023 = [([ALONE, WAYS, TWELVE], 3, "refused: m: no step 1023\n")]

# What is tried, the words, the names of the files, and the rows, as in `calls`.
TABLES = [
    ("links of step 0", ["links", "p", "0"], "ptmf", LINKS_AT_0),
    ("links of step 1", ["links", "p", "1"], "ptmf", LINKS_AT_1),
    ("pairs of step 0", ["pairs", "p", "0"], "ptmf", PAIRS_AT_0),
    ("pairs of step 1", ["pairs", "p", "1"], "ptmf", PAIRS_AT_1),
    ("paths of step 0", ["paths", "p", "0"], "ptmf", PATHS_AT_0),
    ("paths of step 1", ["paths", "p", "1"], "ptmf", PATHS_AT_1),
    ("refusals of paths", ["paths", "p", "2"], "ptmf", REFUSED_AT_2),
    ("refusals of links", ["links", "p", "1023"], "ptmf", REFUSED_AT_1023),
    ("refusals of pairs", ["pairs", "p", "1023"], "ptmf", REFUSED_AT_1023),
]

# Words that are no form of a command.
NO_FORMS = [
    ["links"],
    ["links", "p"],
    ["links", "p", "0", "0"],
    ["Links", "p", "0"],
    ["link", "p", "0"],
    ["pairs", "p", "00"],
    ["pairs", "p", "01"],
    ["pairs", "p", "+1"],
    ["paths", "p", "-1"],
    ["paths", "p", "1024"],
    ["paths", "p", ""],
    ["paths", "p", "total"],
]
