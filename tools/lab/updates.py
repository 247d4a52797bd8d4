"""Updates from one routing to another: certificates, matrices beside them, and what is answered of each; and the files of this table."""

from .certificates import FIRST, NO_CAPACITY, SECOND, SMALLEST

CLAIM = "set all\nratio 0\nblocks 0\nend\n"
TM = "step,source,target,demand\n"
# Two pairs change sides: the one goes from the fifth link to the sixth, and the other back.
LEFT, RIGHT = "pairs 2\n0 4 1\n1000000 2 0 4\n1 4 1\n1000000 2 3 5\n", "pairs 2\n0 4 1\n1000000 2 1 5\n1 4 1\n1000000 2 2 4\n"
# The second pair is left out.
RIGHT_OF_FIRST = "pairs 1\n0 4 1\n1000000 2 1 5\n"
# Two links from a to b, and the routings of one pair over them.
TENS, TEN_AND_TWENTY, OTHER_COST = (f"nodes 2\na\nb\nlinks 2\n0 1 10 1\n0 1 {it}\n" for it in ("10 1", "20 1", "10 2"))
OTHER_NAME = TENS.replace("\nb\n", "\nc\n")
ON_FIRST, ON_SECOND = "pairs 1\n0 1 1\n1000000 1 0\n", "pairs 1\n0 1 1\n1000000 1 1\n"
HALVES, NO_PAIRS = "pairs 1\n0 1 2\n500000 1 0\n500000 1 1\n", "pairs 0\n"
NO_NETWORK, DIFFERENT_PAIRS = (1, "no network\n"), (1, "no pairs\n")


def certificate(network, pairs, first=FIRST, claim=CLAIM):
    """A certificate that claims nothing, or this."""
    return first + network + pairs + claim


def sides(ends, others=100):
    """The network of the two pairs that change sides: the capacity of the last two links, and that of the first four."""
    rows = "".join(f"{tail} {head} {others} 1\n" for tail, head in ((0, 2), (0, 3), (1, 2), (1, 3)))
    return f"nodes 5\na\nb\nm\nn\nc\nlinks 6\n{rows}2 4 {ends} 1\n3 4 {ends} 1\n"


def plan(steps, *paths):
    """The answer that is a plan."""
    lines = ["yates-update 1", f"steps {steps}", f"paths {len(paths)}", *paths, "end"]
    return 0, "".join(f"{line}\n" for line in lines)


def no_slack(link):
    return 1, f"no slack at link {link}\n"


def refused(name, reason):
    return 3, f"refused: {name}: {reason}\n"


def demands(demand, step=0):
    """The matrices of the two pairs that change sides."""
    return f"{TM}{step},a,c,{demand}\n{step},b,c,{demand}\n"


def changed_sides(steps):
    """The answer of so many steps, or the fifth link."""
    return plan(steps, "0 1000000 0 2 0 4", "0 0 1000000 2 1 5", "1 0 1000000 2 2 4", "1 1000000 0 2 3 5") if steps else no_slack(4)


# The capacity of the last two links and that of the others, the demand of each pair, and the least number of steps, if there is one.
SIDES = [
    (10, 100, 8, 4), (16, 100, 8, 1), (12, 100, 8, 2), (15, 100, 10, 2), (10, 100, 9, 9), (11, 100, 10, 10), (1001, 9000, 1000, 1000),
    (1002, 9000, 1001, None), (10, 100, 10, None), (10, 100, 0, 1),
]
BEFORE, AFTER = certificate(sides(10), LEFT), certificate(sides(10), RIGHT)
# The same routing in the second format, and with a box.
AFTER_IN_SECOND = certificate(sides(10), RIGHT, SECOND)
AFTER_FOR_BOX = certificate(sides(10), RIGHT, SECOND, "set box\nlower 1 1\nupper 8 9\nratio 0\nblocks 0\nend\n")
# Networks and pairs of two certificates of one pair, the rows of the matrices, and the answer.
OF_TWO_LINKS = [
    # The first stage is too much for link 1, and the last for link 0.
    ((TENS, ON_SECOND), (TENS, ON_FIRST), "0,a,b,12\n", no_slack(0)),
    ((TENS, ON_SECOND), (TENS, ON_FIRST), "0,a,b,10\n", plan(1, "0 0 1000000 1 0", "0 1000000 0 1 1")),
    ((TENS, ON_FIRST), (TENS, ON_FIRST), "0,a,b,10\n", plan(1, "0 1000000 1000000 1 0")),
    # A path of both.
    ((TEN_AND_TWENTY, HALVES), (TEN_AND_TWENTY, ON_SECOND), "0,a,b,12\n", plan(1, "0 500000 0 1 0", "0 500000 1000000 1 1")),
    # Rows of step 1 alone leave no demand in step 0.
    ((TENS, ON_SECOND), (TENS, ON_FIRST), "1,a,b,12\n", plan(1, "0 0 1000000 1 0", "0 1000000 0 1 1")),
    ((TENS, NO_PAIRS), (TENS, NO_PAIRS), "", plan(1)),
    ((TENS, ON_FIRST), (OTHER_COST, ON_FIRST), "0,a,b,10\n", NO_NETWORK),
    ((TENS, ON_FIRST), (OTHER_NAME, ON_FIRST), "0,a,b,10\n", NO_NETWORK),
    ((TENS, ON_FIRST), (TENS, NO_PAIRS), "0,a,b,10\n", DIFFERENT_PAIRS),
    ((TENS, NO_PAIRS), (TENS, ON_FIRST), "", DIFFERENT_PAIRS),
    ((TENS, ON_FIRST), (TENS, ON_FIRST), "", DIFFERENT_PAIRS),
    # A pair of a later step is declared too.
    ((TENS, ON_FIRST), (TENS, ON_FIRST), "0,a,b,10\n1,b,a,1\n", DIFFERENT_PAIRS),
    # The network stands before the pairs.
    ((TENS, ON_FIRST), (OTHER_COST, NO_PAIRS), "", NO_NETWORK),
    # The matrices are read against the network of the older certificate, and refused before networks are compared.
    ((TENS, ON_FIRST), (OTHER_NAME, ON_FIRST), "0,a,c,10\n", refused("m", "unknown node at row 1")),
]

# The files of an update, and the status and text that they leave.
UPDATES = [
    *(
        ([certificate(sides(ends, others), LEFT), certificate(sides(ends, others), RIGHT), demands(demand)], *changed_sides(steps))
        for ends, others, demand, steps in SIDES
    ),
    ([BEFORE, AFTER, demands(8, 1)], *changed_sides(1)),
    ([BEFORE, AFTER_IN_SECOND, demands(8)], *changed_sides(4)),
    ([BEFORE, AFTER_FOR_BOX, demands(8)], *changed_sides(4)),
    ([certificate(sides(10), LEFT, SECOND), AFTER, demands(8)], *changed_sides(4)),
    ([BEFORE, BEFORE, demands(10)], *plan(1, "0 1000000 1000000 2 0 4", "1 1000000 1000000 2 3 5")),
    ([BEFORE, certificate(sides(10), RIGHT_OF_FIRST), demands(8)], *DIFFERENT_PAIRS),
    ([BEFORE, AFTER, TM + "0,a,c,8\n"], *DIFFERENT_PAIRS),
    ([BEFORE, certificate(sides(11), RIGHT), demands(8)], *NO_NETWORK),
    *(([certificate(*old), certificate(*new), TM + rows], *said) for old, new, rows, said in OF_TWO_LINKS),
    # A file that is refused stands before the lines of networks and pairs, and after it no file is read.
    ([BEFORE, FIRST], *refused("n", "shape at line 2")),
    ([BEFORE, NO_CAPACITY], *refused("n", "rule V2 at 0")),
    ([BEFORE, SMALLEST, "step,source,target\n0,a,c\n"], *refused("m", "header")),
    ([BEFORE, SMALLEST, demands("x")], *refused("m", "number at row 1")),
    ([NO_CAPACITY], *refused("o", "rule V2 at 0")),
    ([""], *refused("o", "shape at line 1")),
    ([None, AFTER, demands(8)], 4, "fault: read\n"),
    ([BEFORE, None, demands(8)], 4, "fault: read\n"),
    ([BEFORE, AFTER], 4, "fault: read\n"),
]

# One file for both certificates is read twice.
TWICE = [([BEFORE, demands(10)], *plan(1, "0 1000000 1000000 2 0 4", "1 1000000 1000000 2 3 5"))]

# Files of updates that are accepted, whatever the answer is.
SAMPLES = [tuple(text.encode() for text in texts) for texts, status, _ in UPDATES if status <= 1]
