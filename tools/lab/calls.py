"""Tables of calls of the program: the files that it is given, and what it has to answer.

A row is (the texts of the files in the order in which they are read, the status, the text). A file that is None is not there. The text is
all that is written: to the standard output at 0 and 1, else to the standard error. Where a certificate is published it is a text that stands
in it. `TABLES` says by what words each table is called, and how its files are named.
"""

import os

from .certificates import (
    BLOCK_OF_NO_LINK, CUT, LEADING_ZERO, LONG_PATH_IN_SECOND, MANY_BLOCKS, MANY_BLOCKS_IN_SECOND, MANY_LINKS_IN_SECOND, MANY_NODES,
    MANY_NODES_IN_SECOND, MANY_PAIRS, MANY_PAIRS_IN_SECOND, MANY_PATHS, NO_CAPACITY, PAIR_OF_ONE_NODE, PARALLEL_LIGHT, PARALLEL_TWO_FAULTS,
    PARALLEL_WHOLE, PARALLEL_WITHOUT_FIRST, PARALLEL_WITHOUT_SECOND, PARALLEL_WITH_LESS_AND_MORE, PATHS_OUT_OF_ORDER, SMALLEST,
    SMALLEST_IN_SECOND, SMALLEST_WITH_LESS, SMALLEST_WITH_LESS_IN_SECOND, SMALL_BOX, SPACE_AFTER_FORMAT, THIRD_FORMAT, TRIANGLE_BOX_IN_FIRST,
    TRIANGLE_DOUBLE_BOX, TRIANGLE_DOUBLE_BOX_WITH_LESS, TRIANGLE_EMPTY_BOX, TRIANGLE_FOR_ALL, TRIANGLE_FOR_ALL_WITH_LESS, TRIANGLE_FOR_BOX,
    TRIANGLE_FOR_MARGIN, TRIANGLE_MARGIN_IN_SECOND, TRIANGLE_SMALL_MARGIN, TRIANGLE_TWICE_A_NODE, TRIANGLE_WIDE_BOX,
    TRIANGLE_WITHOUT_FIRST_WITH_LESS, TRIANGLE_WITHOUT_MINUS, TRIANGLE_WITH_IDLE_BLOCKS, TWICE_A_NAME, UNENDED, UNREACHED_HIGH,
    UNREACHED_TOO_LOW, WIDE_NODES, WIDE_RATIO, WIDE_WEIGHT, ZERO_BEFORE_FORMAT,
)
from .hoses import (
    BOUNDED, BOUNDED_IN_PART, CUT_HOSES, HOSES, NO_FORMS as NO_HOSE_FORMS, TWICE as HOSES_TWICE, block as hose_block, bounds as hose_bounds, hose,
)
from .prices import BOUNDS, REPRICED
from .tightened import NOT_TIGHTENED
from .program import TOP
from .rates import CUT_RATES, NO_FORMS as NO_RATE_FORMS, PROTECTIONS, RATES, TWICE as RATES_TWICE, made as made_rates, rates, yes as rates_survive
from .updates import TWICE as UPDATE_TWICE, UPDATES, plan as update_plan
from .witnesses import ATTACKED, ATTACKS, CHALLENGED, CHALLENGES, CUT_WITNESSES, TWICE as WITNESS_TWICE, WITNESSES, witness

YES = "yes ratio 1000000 set all\n"
YES_TWICE = "yes ratio 2000000 set all\n"
YES_MARGIN = "yes ratio 1000000 set margin 1 1\n"
OVER_CAPACITY = "no link 0 rule I4 place 0\n"
NO_NETWORK = "no network\n"
YES_BOX = "yes ratio 1000000 set box\n"

# A certificate, and the status and text that it leaves.
CERTIFICATES = [
    ([SMALLEST], 0, YES),
    ([SMALLEST_WITH_LESS], 1, OVER_CAPACITY),
    ([PARALLEL_WHOLE], 0, YES_TWICE),
    ([PARALLEL_WITHOUT_SECOND], 1, "no link 1 rule I2 place 0\n"),
    ([PARALLEL_WITHOUT_FIRST], 1, "no link 0 rule I2 place 0\n"),
    ([TRIANGLE_FOR_ALL], 0, YES_TWICE),
    ([TRIANGLE_WITH_IDLE_BLOCKS], 0, YES_TWICE),
    ([TRIANGLE_FOR_ALL_WITH_LESS], 1, OVER_CAPACITY),
    # A block that is left out fails before a ratio that is too low.
    ([TRIANGLE_WITHOUT_FIRST_WITH_LESS], 1, "no link 0 rule I2 place 0\n"),
    ([TRIANGLE_FOR_MARGIN], 0, YES_MARGIN),
    ([TRIANGLE_WITHOUT_MINUS], 1, "no link 0 rule I3 place 0\n"),
    # A node out of reach has a potential too.
    ([UNREACHED_TOO_LOW], 1, "no link 0 rule I1 place 2\n"),
    ([UNREACHED_HIGH], 0, YES),
    ([TWICE_A_NAME], 3, "refused: c: rule V1 at 1\n"),
    ([NO_CAPACITY], 3, "refused: c: rule V2 at 0\n"),
    ([PAIR_OF_ONE_NODE], 3, "refused: c: rule V3 at 0\n"),
    ([TRIANGLE_TWICE_A_NODE], 3, "refused: c: rule V4 at 0\n"),
    ([PATHS_OUT_OF_ORDER], 3, "refused: c: rule V5 at 0\n"),
    ([PARALLEL_LIGHT], 3, "refused: c: rule V6 at 0\n"),
    ([TRIANGLE_SMALL_MARGIN], 3, "refused: c: rule V7 at 0\n"),
    ([WIDE_RATIO], 3, "refused: c: rule V8 at 0\n"),
    ([BLOCK_OF_NO_LINK], 3, "refused: c: rule V8 at 1\n"),
    ([WIDE_WEIGHT], 3, "refused: c: rule V9 at 0\n"),
    # The least number of a rule is told, of all blocks; and a fault of shape before a no.
    ([PARALLEL_TWO_FAULTS], 3, "refused: c: rule V8 at 2\n"),
    ([PARALLEL_WITH_LESS_AND_MORE], 3, "refused: c: shape at line 22\n"),
    ([LEADING_ZERO], 3, "refused: c: shape at line 11\n"),
    ([UNENDED], 3, "refused: c: shape at line 16\n"),
    ([SMALLEST + "x"], 3, "refused: c: shape at line 17\n"),
    ([""], 3, "refused: c: shape at line 1\n"),
    ([CUT], 3, "refused: c: shape at line 16\n"),
    ([MANY_NODES], 3, "refused: c: shape at line 2\n"),
    ([WIDE_NODES], 3, "refused: c: shape at line 2\n"),
    ([MANY_PAIRS], 3, "refused: c: shape at line 7\n"),
    ([MANY_PATHS], 3, "refused: c: shape at line 8\n"),
    ([MANY_BLOCKS], 3, "refused: c: shape at line 16\n"),
]

# The header of a topology, and the row of the link of the smallest certificate.
HEADER = "source,target,capacity,cost\n"
ROW = "a,b,10,1\n"

# A certificate and a topology, and the status and text that they leave.
NETWORKS = [
    ([SMALLEST, HEADER + ROW], 0, YES),
    ([SMALLEST, HEADER + "a,b,11,1\n"], 1, NO_NETWORK),
    ([SMALLEST, HEADER + "a,c,10,1\n"], 1, NO_NETWORK),
    ([SMALLEST_WITH_LESS, HEADER + ROW], 1, OVER_CAPACITY),
    # The network stands before the inequalities.
    ([SMALLEST_WITH_LESS, HEADER + "a,b,11,1\n"], 1, NO_NETWORK),
    ([SMALLEST, "source,target,capacity\n"], 3, "refused: t: header\n"),
    ([SMALLEST, HEADER + ROW + "a,b,10\n"], 3, "refused: t: fields at row 2\n"),
    ([SMALLEST, HEADER + "a,b c,10,1\n"], 3, "refused: t: name at row 1\n"),
    ([SMALLEST, HEADER + "a,b,0,1\n"], 3, "refused: t: number at row 1\n"),
    ([SMALLEST, HEADER + ROW + "b,b,10,1\n"], 3, "refused: t: self link at row 2\n"),
    # A link more than a topology may have.
    ([SMALLEST, HEADER + ROW * 1025], 3, "refused: t: too many at row 1025\n"),
    ([SMALLEST, HEADER], 3, "refused: t: empty\n"),
    ([SMALLEST], 4, "fault: read\n"),
    # A certificate that is refused needs no topology.
    ([""], 3, "refused: c: shape at line 1\n"),
]

# One file for both words is read twice, and is no topology.
TWICE = [([SMALLEST], 3, "refused: c: header\n")]

# A certificate of the second format, or what looks like one, and the status and text that it leaves.
SECOND_FORMAT = [
    ([SMALLEST_IN_SECOND], 0, "yes ratio 1000000 set all\n"),
    ([SMALL_BOX], 0, YES_BOX),
    ([TRIANGLE_FOR_BOX], 0, YES_BOX),
    ([TRIANGLE_WIDE_BOX], 1, "no link 0 rule I3 place 0\n"),
    ([TRIANGLE_DOUBLE_BOX], 0, "yes ratio 1333334 set box\n"),
    ([TRIANGLE_DOUBLE_BOX_WITH_LESS], 1, OVER_CAPACITY),
    ([SMALLEST_WITH_LESS_IN_SECOND], 1, "no link 0 rule I4 place 0\n"),
    ([THIRD_FORMAT], 3, "refused: c: shape at line 1\n"),
    ([ZERO_BEFORE_FORMAT], 3, "refused: c: shape at line 1\n"),
    ([SPACE_AFTER_FORMAT], 3, "refused: c: shape at line 1\n"),
    ([MANY_NODES_IN_SECOND], 3, "refused: c: shape at line 2\n"),
    ([MANY_LINKS_IN_SECOND], 3, "refused: c: shape at line 5\n"),
    ([MANY_PAIRS_IN_SECOND], 3, "refused: c: shape at line 7\n"),
    ([LONG_PATH_IN_SECOND], 3, "refused: c: shape at line 9\n"),
    ([MANY_BLOCKS_IN_SECOND], 3, "refused: c: shape at line 12\n"),
    # A margin stands in the first format alone, and a box in the second.
    ([TRIANGLE_MARGIN_IN_SECOND], 3, "refused: c: shape at line 16\n"),
    ([TRIANGLE_BOX_IN_FIRST], 3, "refused: c: shape at line 16\n"),
]

# Each cut of a file is refused at its last line.
CUT_FILES = [([SMALL_BOX[:count]], 3, f"refused: c: shape at line {SMALL_BOX[:count].count(chr(10)) + 1}\n") for count in range(len(SMALL_BOX))]

# A certificate, and the file into which it is converted.
CONVERSIONS = [
    ([SMALLEST], 0, SMALLEST_IN_SECOND),
    ([SMALLEST_IN_SECOND], 0, SMALLEST_IN_SECOND),
    ([TRIANGLE_FOR_MARGIN], 0, TRIANGLE_FOR_BOX),
    ([TRIANGLE_FOR_BOX], 0, TRIANGLE_FOR_BOX),
    # An inequality of it fails.
    ([SMALLEST_WITH_LESS], 0, SMALLEST_WITH_LESS_IN_SECOND),
]

# A file that `convert`, `attack`, `challenge` and `bounds` refuse as `check` does, and the line.
UNCONVERTED = [
    ([TWICE_A_NAME], 3, "refused: c: rule V1 at 1\n"),
    ([TRIANGLE_SMALL_MARGIN], 3, "refused: c: rule V7 at 0\n"),
    ([TRIANGLE_EMPTY_BOX], 3, "refused: c: rule V7 at 1\n"),
    ([UNENDED], 3, "refused: c: shape at line 16\n"),
    ([], 4, "fault: read\n"),
]

SPF = '{"topology":"t","matrices":"m","publish":"spf"}'
# All multiples of the matrix of step 0.
MARGIN_OF_ONE = '{"topology":"t","matrices":"m","publish":"spf","margin":[1,1]}'
# Those within a factor of 2 around it.
MARGIN = '{"topology":"t","matrices":"m","publish":"spf","margin":[2,1]}'
# The envelope of the steps.
ENVELOPE = '{"topology":"t","matrices":"m","publish":"spf","envelope":true}'
# A link from a to b.
LINK = "source,target,capacity,cost\na,b,10,1\n"
# A demand from a to b.
TEN = "step,source,target,demand\n0,a,b,10\n"
# Two demands from a to b, one after the other.
FIVE_AND_NINE = "step,source,target,demand\n0,a,b,5\n1,a,b,9\n"
# Links from a to b and from b to c.
LINE = "source,target,capacity,cost\na,b,10,1\nb,c,10,1\n"
# Links from a and from b to c, and both ways between a and b.
TRIANGLE_NET = "source,target,capacity,cost\na,c,10,1\nb,c,10,1\na,b,10,1\nb,a,10,1\n"
# A demand from a to b.
DEMAND = "step,source,target,demand\n0,a,b,1\n"
# Links between two nodes, one each way.
BOTH_WAYS = "source,target,capacity,cost\na,b,10,1\nb,a,10,1\n"
# Demands from a and from b to c, of which the first is less at step 1.
TO_C = "step,source,target,demand\n0,a,c,10\n0,b,c,10\n1,a,c,7\n"
# The same without step 1.
TENS = "step,source,target,demand\n0,a,c,10\n0,b,c,10\n"
# A link from each of three nodes to each.
EACH_TO_EACH = "source,target,capacity,cost\na,b,10,1\na,c,10,1\nb,a,10,1\nb,c,10,1\nc,a,10,1\nc,b,10,1\n"
# Demands from a to b and back.
EXCHANGE = "step,source,target,demand\n0,a,b,1\n0,b,a,1\n"

# A plan, a topology and matrices, and a text in the certificate.
PUBLISHED = [
    # The cheaper of two parallel links carries all, and a rival has the capacity of both.
    ([SPF, "source,target,capacity,cost\na,b,4294967296,2\na,b,1,1\n", DEMAND], 0, "\nset all\nratio 4294967297000000\nblocks 1\n"),
    ([SPF, LINE, "step,source,target,demand\n"], 0, "\npairs 0\nset all\nratio 0\nblocks 0\nend\n"),
    (['{"topology":"t","matrices":"m","publish":"ksp","k":2}', "source,target,capacity,cost\na,b,10,1\na,b,30,1\n", DEMAND], 0, "\nratio 2000000\n"),
    (
        ['{"topology":"t","matrices":"m","publish":"ecmp"}', "source,target,capacity,cost\na,b,10,1\na,b,30,1\n", DEMAND], 0,
        "\n0 1 2\n500000 1 0\n500000 1 1\nset all\nratio 2000000\n",
    ),
    # Over each of three nodes, and the heaviest of these paths alone.
    (['{"topology":"t","matrices":"m","publish":"valiant","budget":32}', EACH_TO_EACH, DEMAND], 0, "\npairs 1\n0 1 2\n666667 1 0\n333333 2 1 5\nset all\n"),
    (['{"topology":"t","matrices":"m","publish":"valiant","budget":1}', EACH_TO_EACH, DEMAND], 0, "\npairs 1\n0 1 1\n1000000 1 0\nset all\n"),
    # One path alone, at most as many as the budget, and a pair that may take either of two ways.
    (['{"topology":"t","matrices":"m","publish":"robust"}', LINK, DEMAND], 0, "\npairs 1\n0 1 1\n1000000 1 0\nset all\nratio 1000000\n"),
    (['{"topology":"t","matrices":"m","publish":"robust","budget":1}', EACH_TO_EACH, DEMAND], 0, "\npairs 1\n0 1 1\n1000000 "),
    (['{"topology":"t","matrices":"m","publish":"robust","budget":32}', EACH_TO_EACH, DEMAND], 0, "\npairs 1\n0 1 2\n"),
    # Pairs that share no link, a margin, an envelope, and no pair.
    (
        ['{"topology":"t","matrices":"m","publish":"robust"}', "source,target,capacity,cost\na,b,10,1\nc,d,30,1\n", "step,source,target,demand\n0,a,b,1\n0,c,d,1\n"], 0,
        "\n0 1 1\n1000000 1 0\n2 3 1\n1000000 1 1\nset all\nratio 100000",
    ),
    (['{"topology":"t","matrices":"m","publish":"robust","margin":[2,1]}', LINK, FIVE_AND_NINE], 0, "\n0 1 1\n1000000 1 0\nset margin 2 1\nbase 5\nratio 1000000\n"),
    (['{"topology":"t","matrices":"m","publish":"robust","envelope":true}', LINK, FIVE_AND_NINE], 0, "\nset box\nlower 5\nupper 9\nratio 1000000\n"),
    (['{"topology":"t","matrices":"m","publish":"robust"}', LINE, "step,source,target,demand\n"], 0, "\npairs 0\nset all\nratio 0\nblocks 0\nend\n"),
    # The trees of the default scheme have one path for each pair.
    (['{"topology":"t","matrices":"m"}', BOTH_WAYS, EXCHANGE], 0, "\n0 1 1\n1000000 1 0\n1 0 1\n1000000 1 1\nset all\nratio "),
    ([MARGIN_OF_ONE, TRIANGLE_NET, TO_C], 0, "\nset margin 1 1\nbase 10 10\nratio "),
    # Nothing is asked for at step 0, so b is as great as it may be.
    (
        [MARGIN_OF_ONE,
         "source,target,capacity,cost\na,b,10,1\n",
         "step,source,target,demand\n1,a,b,5\n"], 0,
        "\nset margin 1 1\nbase 0\nratio 1\nblocks 1\n0 1000000 68719476736 1\n",
    ),
    (
        [ENVELOPE, LINK, FIVE_AND_NINE], 0,
        "yates-ratio 2\nnodes 2\na\nb\nlinks 1\n0 1 10 1\npairs 1\n0 1 1\n1000000 1 0\nset box\nlower 5\nupper 9\nratio 1000000\nblocks 1\n",
    ),
    # A pair without a row in a step has no demand there.
    ([ENVELOPE, LINE, "step,source,target,demand\n0,a,b,5\n1,b,c,3\n1,a,b,4\n2,a,b,7\n"], 0, "\nset box\nlower 4 0\nupper 7 3\nratio "),
    ([ENVELOPE, LINE, "step,source,target,demand\n"], 0, "\npairs 0\nset box\nlower\nupper\nratio 0\nblocks 0\nend\n"),
    (
        ['{"topology":"t","matrices":"m","publish":"spf","margin":[2,1],"envelope":false}', LINK, FIVE_AND_NINE], 0,
        "yates-ratio 1\nnodes 2\na\nb\nlinks 1\n0 1 10 1\npairs 1\n0 1 1\n1000000 1 0\nset margin 2 1\nbase 5\nratio 1000000\nblocks 1\n",
    ),
]

# A plan, a topology and matrices, and the status and text that they leave.
UNPUBLISHED = [
    # Pairs ascend by their nodes, whatever the order of the rows is.
    ([SPF, LINE, "step,source,target,demand\n0,a,b,1\n0,a,c,1\n0,c,a,1\n"], 7, "no path: c a\n"),
    ([SPF, LINE, "step,source,target,demand\n0,c,a,1\n0,b,a,1\n"], 7, "no path: b a\n"),
    # So they are whichever scheme is published.
    *[([SPF.replace("spf", scheme), LINE, DEMAND + "0,c,a,1\n0,b,a,1\n"], 7, "no path: b a\n") for scheme in ("ecmp", "ksp", "racke", "robust")],
    (
        ['{"topology":"t","matrices":"m","publish":"valiant"}', "source,target,capacity,cost\na,b,10,1\nb,a,10,1\nc,b,10,1\n",
         "step,source,target,demand\n0,a,c,1\n"], 7, "no path: a c\n",
    ),
    # A plan that is refused needs no topology, and a topology that is refused no matrices.
    (["{}"], 3, "refused: p: missing topology\n"),
    (['{"topology":"t"}'], 3, "refused: p: missing matrices\n"),
    (["[]"], 3, "refused: p: kind of plan\n"),
    (["{"], 3, "refused: p: not json\n"),
    (['{"a":1}'], 3, "refused: p: unknown key\n"),
    (['{"topology":"","matrices":"m"}'], 3, "refused: p: range of topology\n"),
    (['{"topology":"t","matrices":"m","k":"4"}'], 3, "refused: p: kind of k\n"),
    (['{"topology":"t","matrices":"m","k":0}'], 3, "refused: p: range of k\n"),
    (['{"topology":"t","matrices":"m","recovery":"hope"}'], 3, "refused: p: range of recovery\n"),
    (['{"topology":"t","matrices":"m","schemes":["spf","best"]}'], 3, "refused: p: scheme name of schemes\n"),
    (['{"topology":"t","matrices":"m","publish":"smore"}'], 3, "refused: p: scheme name of publish\n"),
    (['{"topology":"t","matrices":"m","publish":"Valiant"}'], 3, "refused: p: scheme name of publish\n"),
    (['{"topology":"t","matrices":"m","margin":[2,1],"envelope":true}'], 3, "refused: p: range of envelope\n"),
    (['{"topology":"t","matrices":"m","margin":[2,1],"envelope":1}'], 3, "refused: p: kind of envelope\n"),
    ([SPF, "source,target,capacity,cost\n"], 3, "refused: t: empty\n"),
    ([SPF, LINE, LINE], 3, "refused: m: header\n"),
    ([SPF, LINE, DEMAND + "0,a,b\n"], 3, "refused: m: fields at row 2\n"),
    # Matrices are refused before a pair without a path is named.
    ([SPF, LINE, "step,source,target,demand\n0,c,a,1\n0,a,z,1\n"], 3, "refused: m: unknown node at row 2\n"),
    ([SPF, LINE, DEMAND + "0,b,c,-1\n"], 3, "refused: m: number at row 2\n"),
    ([SPF, LINE, "step,source,target,demand\n1,a,b,1\n0,b,c,1\n"], 3, "refused: m: order at row 2\n"),
    ([SPF, LINE, DEMAND + "0,a,b,2\n"], 3, "refused: m: repeated at row 2\n"),
    ([SPF, LINE, DEMAND + "0,c,c,1\n"], 3, "refused: m: self pair at row 2\n"),
    ([SPF, LINE, DEMAND + "1024,a,b,1\n"], 3, "refused: m: too many steps at row 2\n"),
    ([None, LINE, DEMAND], 4, "fault: read\n"),
    ([SPF, None, DEMAND], 4, "fault: read\n"),
    ([SPF, LINE], 4, "fault: read\n"),
]

COMPARED = '{"topology":"t","matrices":"m","failures":"f","schemes":["spf"]}'
# A link from s to t, a way over x, and a way of three links over y and x.
WAYS = "source,target,capacity,cost\ns,t,10,1\ns,x,10,1\nx,t,10,1\ns,y,3,3\ny,x,3,3\n"
# A demand of 12 from s to t in two steps.
TWELVE = "step,source,target,demand\n0,s,t,12\n1,s,t,12\n"
# Demands from s to t and back.
THERE_AND_BACK = "step,source,target,demand\n0,s,t,12\n0,t,s,5\n"
# The link from s to x fails in the second step.
FAILURE = "from,to,link\n1,1,1\n"
KEEP = '{"topology":"t","matrices":"m","failures":"f","schemes":["ksp"],"k":2,"recovery":"none"}'
SCALE = '{"topology":"t","matrices":"m","failures":"f","schemes":["ksp"],"k":2,"recovery":"scale"}'
BYPASS = '{"topology":"t","matrices":"m","failures":"f","schemes":["ksp"],"k":2,"recovery":"bypass"}'
REROUTE = '{"topology":"t","matrices":"m","failures":"f","schemes":["ksp"],"k":2,"recovery":"reroute"}'
COLUMNS = "scheme,step,offered,delivered,lost_full,lost_failed,lost_no_path,peak,parts,low\n"

# A plan, a topology, matrices and failures, and the report.
REPORTS = [
    (
        [KEEP, WAYS, TWELVE, FAILURE], 0,
        COLUMNS + "ksp,0,12,12,0,0,0,600000,600000,-\nksp,1,12,6,0,6,0,600000,600000,-\nksp,total,24,18,0,6,0,600000,600000,-\n",
    ),
    (
        [SCALE, WAYS, TWELVE, FAILURE], 0,
        COLUMNS + "ksp,0,12,12,0,0,0,600000,600000,-\nksp,1,12,10,2,0,0,1000000,600000,-\nksp,total,24,22,2,0,0,1000000,600000,-\n",
    ),
    (
        [BYPASS, WAYS, TWELVE, FAILURE], 0,
        COLUMNS + "ksp,0,12,12,0,0,0,600000,600000,-\nksp,1,12,9,3,0,0,1000000,600000,-\nksp,total,24,21,3,0,0,1000000,600000,-\n",
    ),
    (
        [REROUTE, WAYS, TWELVE, FAILURE], 0,
        COLUMNS + "ksp,0,12,12,0,0,0,600000,600000,-\nksp,1,12,9,3,0,0,1000000,2000000,-\nksp,total,24,21,3,0,0,1000000,2000000,-\n",
    ),
    # Both links from s that the paths use have failed.
    (
        [SCALE, WAYS, TWELVE, "from,to,link\n1,1,1\n1,1,0\n"], 0,
        COLUMNS + "ksp,0,12,12,0,0,0,600000,600000,-\nksp,1,12,0,0,0,12,0,600000,-\nksp,total,24,12,0,0,12,600000,600000,-\n",
    ),
    # No link leads back from t; both paths of the pair have failed; and no path is left, so none is routed.
    ([KEEP, WAYS, THERE_AND_BACK, "from,to,link\n0,0,4\n"], 0, COLUMNS + "ksp,0,17,12,0,0,5,600000,600000,-\nksp,total,17,12,0,0,5,600000,600000,-\n"),
    ([SCALE, WAYS, THERE_AND_BACK, "from,to,link\n0,0,0\n0,0,1\n"], 0, COLUMNS + "ksp,0,17,0,0,0,17,0,600000,-\nksp,total,17,0,0,0,17,0,600000,-\n"),
    ([REROUTE, WAYS, THERE_AND_BACK, "from,to,link\n0,0,0\n0,0,2\n"], 0, COLUMNS + "ksp,0,17,0,0,0,17,0,0,-\nksp,total,17,0,0,0,17,0,0,-\n"),
    (
        ['{"topology":"t","matrices":"m","schemes":["valiant"]}', EACH_TO_EACH, "step,source,target,demand\n0,a,b,5\n"], 0,
        COLUMNS + "valiant,0,5,5,0,0,0,300000,333334,-\nvaliant,total,5,5,0,0,0,300000,333334,-\n",
    ),
    # Where each pair has one path the sweeps have no choice, whatever the budget is.
    (
        ['{"topology":"t","matrices":"m","schemes":["robust"],"budget":32}', LINE, "step,source,target,demand\n0,a,c,5\n0,b,c,2\n"], 0,
        COLUMNS + "robust,0,7,7,0,0,0,700000,700000,-\nrobust,total,7,7,0,0,0,700000,700000,-\n",
    ),
    # Traffic without a path is lost, and needs no failure file.
    (
        ['{"topology":"t","matrices":"m","schemes":["spf"]}',
         "source,target,capacity,cost\na,b,10,1\nb,c,10,1\n",
         "step,source,target,demand\n0,a,b,1\n0,a,c,1\n0,c,a,1\n"], 0,
        COLUMNS + "spf,0,3,2,0,0,1,200000,200000,-\nspf,total,3,2,0,0,1,200000,200000,-\n",
    ),
]

# A plan of every scheme, a topology and matrices, the first lines of the report, and what stands in the others. Lengths of 1 show that every
# routing has the utilisation 1 or more, and no bound is greater.
EVERY_SCHEME = [
    (
        ['{"topology":"t","matrices":"m","trees":8}', "source,target,capacity,cost\na,b,10,1\na,b,30,1\n", "step,source,target,demand\n0,a,b,40\n"],
        COLUMNS + "spf,0,40,10,30,0,0,1000000,4000000,-\nspf,total,40,10,30,0,0,1000000,4000000,-\n"
        "ecmp,0,40,30,10,0,0,1000000,2000000,-\necmp,total,40,30,10,0,0,1000000,2000000,-\n"
        "ksp,0,40,30,10,0,0,1000000,2000000,-\nksp,total,40,30,10,0,0,1000000,2000000,-\n",
        ["-\nmcf,0,40,", ",1000000\nmcf,total,40,", "-\nracke,0,40,", "-\nracke,total,40,", "-\nsmore,0,40,", ",1000000\nsmore,total,40,"],
    ),
]

# A plan, a topology, matrices and failures, and the status and text that they leave.
UNREPORTED = [
    ([COMPARED, WAYS, TWELVE, "from,to\n"], 3, "refused: f: header\n"),
    ([COMPARED, WAYS, TWELVE, FAILURE + "1,1\n"], 3, "refused: f: fields at row 2\n"),
    ([COMPARED, WAYS, TWELVE, "from,to,link\n1,1,a\n"], 3, "refused: f: number at row 1\n"),
    ([COMPARED, WAYS, TWELVE, "from,to,link\n0,1,5\n"], 3, "refused: f: no such link at row 1\n"),
    ([COMPARED, WAYS, TWELVE, "from,to,link\n1,0,1\n"], 3, "refused: f: interval at row 1\n"),
    # There are two steps.
    ([COMPARED, WAYS, TWELVE, "from,to,link\n0,1,4\n1,2,1\n"], 3, "refused: f: interval at row 2\n"),
    # A plan that is refused needs no topology, a topology no matrices, and matrices no failures.
    (["{}"], 3, "refused: p: missing topology\n"),
    ([COMPARED, "source,target,capacity,cost\n"], 3, "refused: t: empty\n"),
    ([COMPARED, WAYS, WAYS], 3, "refused: m: header\n"),
    ([None, WAYS, TWELVE, FAILURE], 4, "fault: read\n"),
    ([COMPARED, None, TWELVE, FAILURE], 4, "fault: read\n"),
    ([COMPARED, WAYS, None, FAILURE], 4, "fault: read\n"),
    ([COMPARED, WAYS, TWELVE], 4, "fault: read\n"),
]

# A plan, a topology and matrices, the set of the certificate, how many links carry traffic and so have a block, the ratio of the routing, and
# the greatest ratio that its certificate may have.
RATIOS = [
    # The starting weights give 4000000, and rounds and polish alone 2057555.
    ([SPF, TRIANGLE_NET, TO_C], "all", 2, 2000000, 2000200),
    # The starting weights give 2000000, and rounds and polish alone 1064778.
    ([MARGIN_OF_ONE, TRIANGLE_NET, TO_C], "margin 1 1", 2, 1000000, 1000100),
    # The trees of the default scheme have one path for each pair.
    (['{"topology":"t","matrices":"m"}', BOTH_WAYS, EXCHANGE], "all", 2, 1000000, 1000100),
]



def example(name):
    """A file of the example of the backbone."""
    with open(os.path.join(TOP, "examples", "backbone", name), encoding="ascii") as file:
        return file.read()


# A plan, a topology and matrices, and how many links carry traffic. Where nothing is demanded the greatest b serves, and no weight need be fine.
POLISHED = [
    ([SPF, TRIANGLE_NET, TENS], 2),
    ([MARGIN_OF_ONE, TRIANGLE_NET, TENS], 2),
    ([SPF, "source,target,capacity,cost\na,b,10,1\na,b,30,1\n", TEN], 1),
    ([SPF, "source,target,capacity,cost\na,b,4294967296,1\na,b,1,1\n", TEN], 1),
    ([MARGIN, LINK, "step,source,target,demand\n0,a,b,0\n"], 1),
    ([SPF, TRIANGLE_NET, "step,source,target,demand\n"], 0),
    ([SPF, example("net.csv"), example("tm.csv")], 28),
    ([MARGIN, example("net.csv"), example("tm.csv")], 28),
]

# The plan of a margin, a topology and matrices, and the plan of their envelope, which is the box of the margin.
MARGINS = [([MARGIN_OF_ONE, TRIANGLE_NET, TENS], ENVELOPE)]

# Words that are no form of a command. Bytes that are no text are none either.
NO_FORMS = [
    [],
    [b"\xff"],
    ["check", b"\xff"],
    ["check"],
    ["Check", "c"],
    ["check", "c", "t", "t"],
    ["attack"],
    ["attack", "c", "c"],
    ["challenge"],
    ["challenge", "c", "c"],
    ["check-witness", "c"],
    ["check-witness", "c", "w", "w"],
    ["check_witness", "c", "w"],
    ["convert"],
    ["convert", "c", "c"],
    ["tighten"],
    ["tighten", "c", "c"],
    ["publish"],
    ["run", "p", "p"],
    ["yates", "check", "c"],
    ["gen"],
    ["gen", "12"],
    ["gen", "1", "5"],
    ["gen", "65", "0"],
    ["gen", "012", "7"],
    ["gen", "12", "07"],
    ["gen", "12", "+7"],
    ["gen", "12", ""],
    ["gen", "12", "18446744073709551616"],
    ["gen", "12", "7", "7"],
    ["check", "2", "0", "0"],
    ["update", "o", "n"],
    ["update", "o", "n", "m", "m"],
    ["Update", "o", "n", "m"],
    *NO_RATE_FORMS,
    *NO_HOSE_FORMS,
]

# Words with a number of nodes and a seed, and what stands before and after the ratio. The numbers are those of another program that draws,
# publishes and simulates the same; the ratio is left out, since a better certificate lowers it.
SUMMARIES = [
    (["gen", "2", "0"], "nodes 2\nlinks 4\npairs 2\nratio ", "\nanswer yes\noffered 13756\ndelivered 13756\n"),
    (["gen", "3", "1"], "nodes 3\nlinks 6\npairs 6\nratio ", "\nanswer yes\noffered 20018\ndelivered 19454\n"),
    (["gen", "4", "5"], "nodes 4\nlinks 12\npairs 12\nratio ", "\nanswer yes\noffered 86930\ndelivered 59776\n"),
    (["gen", "12", "7"], "nodes 12\nlinks 36\npairs 132\nratio ", "\nanswer yes\noffered 719650\ndelivered 210897\n"),
    (
        ["gen", "64", "18446744073709551615"],
        "nodes 64\nlinks 192\npairs 4032\nratio ",
        "\nanswer yes\noffered 31791862\ndelivered 362328\n",
    ),
]

# It is drawn twice, and is the same.
DRAWN_AGAIN = ["gen", "12", "7"]


def chain_net(nodes):
    """The topology of a chain: a link from each node to the next."""
    return HEADER + "".join(f"n{node},n{node + 1},10,1\n" for node in range(nodes - 1))


def chain_certificate(ratio):
    """A certificate of this ratio for every matrix on a chain of 65 nodes, with one pair from end to end and a block for each link."""
    links = range(64)
    path = "".join(f" {link}" for link in links)
    # Weight 1 of each link, and so the distances from the first node.
    block = " 1000000 64 1\n" + " ".join("1" for _ in links) + "\n0" + path + " 64\n"
    return (
        "yates-ratio 2\nnodes 65\n" + "".join(f"n{node}\n" for node in range(65))
        + "links 64\n" + "".join(f"{link} {link + 1} 10 1\n" for link in links)
        + f"pairs 1\n0 64 1\n1000000 64{path}\nset all\nratio {ratio}\nblocks 64\n" + "".join(f"{link}{block}" for link in links) + "end\n"
    )


# A chain of 65 nodes: one node more than the first format has room for.
CHAINS = [
    ([chain_certificate(1000000)], 0, YES),
    ([chain_certificate(999999)], 1, OVER_CAPACITY),
]
CHAIN_WITNESS = witness(1000000, "1 1", 1000000, "1", "1000000 64" + "".join(f" {link}" for link in range(64)))
CHAIN_WITNESSES = [([chain_certificate(1000000), CHAIN_WITNESS], 0, "yes bound 1000000\n")]
CHAIN_ATTACKS = [([chain_certificate(1000000)], 0, CHAIN_WITNESS)]

# A chain's certificate twice: its path fills each link before and after, and asks for no room.
CHAIN_UPDATES = [
    (
        [chain_certificate(1000000), chain_certificate(1000000), "step,source,target,demand\n0,n0,n64,10\n"],
        *update_plan(1, "0 1000000 1000000 64" + "".join(f" {link}" for link in range(64))),
    ),
]

# The rates of its one pair, whose path is lost with any link.
TO_END = "step,source,target,demand\n0,n0,n64,7\n"
CHAIN_RATES = [
    ([chain_certificate(1000000), TO_END, rates(0, "7 7")], *rates_survive(0)),
    ([chain_certificate(1000000), TO_END, rates(1, "1 7")], 1, "no rule F2 place 0\n"),
    ([chain_certificate(1000000), TO_END, rates(0, "0 11")], 1, "no rule F1 place 0\n"),
]
CHAIN_PROTECTIONS = {0: [([chain_certificate(1000000), TO_END], *made_rates(0, "7 7"))], 1: [([chain_certificate(1000000), TO_END], *made_rates(1, "0 0"))]}

# What the first node of the chain sends, and the last one receives, and the hose certificate that is written where the first is less.
CHAIN_SENT, CHAIN_RECEIVED, NO_NUMBERS = "5" + " 0" * 64, "0 " * 64 + "6", "0" + " 0" * 64
CHAIN_HOSE = hose(CHAIN_SENT, CHAIN_RECEIVED, 500000, *(hose_block(link, "1000000" + " 0" * 64, NO_NUMBERS) for link in range(64)))
CHAIN_HOSES = [
    ([chain_certificate(1000000), CHAIN_HOSE], 0, "yes bound 500000\n"),
    ([chain_certificate(1000000), CHAIN_HOSE.replace("bound 500000", "bound 499999")], 1, "no link 0 rule H2 place 0\n"),
]
CHAIN_BOUNDED = [([chain_certificate(1000000), hose_bounds(CHAIN_SENT, CHAIN_RECEIVED)], 0, CHAIN_HOSE)]
CHAIN_BOUNDED_IN_PART = [([chain_certificate(1000000), hose_bounds(CHAIN_SENT, "0 " * 64 + "5")], "\nbound 500000\nblocks 64\nlink 0\n")]

# One unit from the first node of the chain to the last one, and to the one before it.
TO_LAST = "step,source,target,demand\n0,n0,n64,1\n"
TO_LAST_OF_SHORT = "step,source,target,demand\n0,n0,n63,1\n"

# A plan, a topology and matrices, how the certificate begins, what stands in it, and what `check` says.
PUBLISHED_CHAINS = [
    ([SPF, chain_net(65), TO_LAST], "yates-ratio 2\nnodes 65\n", "\nset all\nratio 1000000\n", YES),
    ([MARGIN, chain_net(65), TO_LAST], "yates-ratio 2\nnodes 65\n", "\nset box\nlower 1\nupper 4\nratio 1000000\n", YES_BOX),
    ([SPF, chain_net(64), TO_LAST_OF_SHORT], "yates-ratio 1\nnodes 64\n", "\nset all\nratio 1000000\n", YES),
    (
        [MARGIN, chain_net(64), TO_LAST_OF_SHORT], "yates-ratio 1\nnodes 64\n", "\nset margin 2 1\nbase 1\nratio 1000000\n",
        "yes ratio 1000000 set margin 2 1\n",
    ),
]

# Every scheme runs on it: a plan, a topology and matrices, the number of lines of the report, and a text in it.
REPORTED_CHAINS = [([SPF, chain_net(65), TO_LAST], 13, "\nspf,0,1,1,0,0,0,100000,100000,-\n")]

# What is tried, the words, the names of the files, and the rows.
TABLES = [
    ("certificates", ["check", "c"], "c", CERTIFICATES),
    ("networks", ["check", "c", "t"], "ct", NETWORKS),
    ("a file twice", ["check", "c", "c"], "c", TWICE),
    ("certificates of the second format", ["check", "c"], "c", SECOND_FORMAT),
    ("cut files", ["check", "c"], "c", CUT_FILES),
    ("chains", ["check", "c"], "c", CHAINS),
    ("witnesses", ["check-witness", "c", "w"], "cw", WITNESSES),
    ("witnesses of chains", ["check-witness", "c", "w"], "cw", CHAIN_WITNESSES),
    ("cut witnesses", ["check-witness", "c", "w"], "cw", CUT_WITNESSES),
    ("attacks", ["attack", "c"], "c", ATTACKS),
    ("attacks of chains", ["attack", "c"], "c", CHAIN_ATTACKS),
    ("witnesses of attacks", ["check-witness", "c", "w"], "cw", ATTACKED),
    ("refusals of attack", ["attack", "c"], "c", UNCONVERTED),
    ("challenges", ["challenge", "c"], "c", CHALLENGES),
    ("challenges of chains", ["challenge", "c"], "c", CHAIN_ATTACKS),
    ("witnesses of challenges", ["check-witness", "c", "w"], "cw", CHALLENGED),
    ("refusals of challenge", ["challenge", "c"], "c", UNCONVERTED),
    ("a file twice, as a witness", ["check-witness", "c", "c"], "c", WITNESS_TWICE),
    ("updates", ["update", "o", "n", "m"], "onm", UPDATES),
    ("updates of chains", ["update", "o", "n", "m"], "onm", CHAIN_UPDATES),
    ("a file twice, as an update", ["update", "o", "o", "m"], "om", UPDATE_TWICE),
    ("rates", ["check-rates", "c", "m", "r"], "cmr", RATES),
    ("rates of chains", ["check-rates", "c", "m", "r"], "cmr", CHAIN_RATES),
    ("cut rates", ["check-rates", "c", "m", "r"], "cmr", CUT_RATES),
    ("a file twice, as rates", ["check-rates", "c", "c", "c"], "c", RATES_TWICE),
    *((f"rates for {failures} failures", ["protect", "c", "m", str(failures)], "cm", rows) for failures, rows in PROTECTIONS.items()),
    *((f"rates of chains for {failures} failures", ["protect", "c", "m", str(failures)], "cm", rows) for failures, rows in CHAIN_PROTECTIONS.items()),
    ("hose certificates", ["check-hose", "c", "h"], "ch", HOSES),
    ("hose certificates of chains", ["check-hose", "c", "h"], "ch", CHAIN_HOSES),
    ("cut hose certificates", ["check-hose", "c", "h"], "ch", CUT_HOSES),
    ("a file twice, as a hose certificate", ["check-hose", "c", "c"], "c", HOSES_TWICE),
    ("bounds", ["hose", "c", "h"], "ch", BOUNDED),
    ("bounds of chains", ["hose", "c", "h"], "ch", CHAIN_BOUNDED),
    ("certificates that are not converted", ["check", "c"], "c", UNCONVERTED),
    ("refusals of convert", ["convert", "c"], "c", UNCONVERTED),
    ("conversions", ["convert", "c"], "c", CONVERSIONS),
    ("needs of links", ["bounds", "c"], "c", BOUNDS),
    ("refusals of bounds", ["bounds", "c"], "c", UNCONVERTED),
    ("certificates on other capacities", ["reprice", "c", "t"], "ct", REPRICED),
    ("a file twice, as its capacities", ["reprice", "c", "c"], "c", TWICE),
    ("certificates that are not tightened", ["tighten", "c"], "c", NOT_TIGHTENED),
    ("refusals of tighten", ["tighten", "c"], "c", UNCONVERTED),
    ("published certificates", ["publish", "p"], "ptm", PUBLISHED),
    ("refusals of publish", ["publish", "p"], "ptm", UNPUBLISHED),
    ("reports", ["run", "p"], "ptmf", REPORTS),
    ("refusals of run", ["run", "p"], "ptmf", UNREPORTED),
]
