"""Rates that survive failed links: certificates, matrices and rates beside them, and what is said of each; and the rates that are made."""

from .certificates import FIRST, NO_CAPACITY, PARALLEL_WHOLE, SECOND, SMALLEST, SMALLEST_WITH_LESS

TM = "step,source,target,demand\n"
CLAIM = "set all\nratio 0\nblocks 0\nend\n"
NO_PAIRS = FIRST + "nodes 2\na\nb\nlinks 1\n0 1 10 1\npairs 0\n" + CLAIM
# Two parallel links of the capacities 10 and 30, with halves on each, in the second format too.
PARALLEL_IN_SECOND = SECOND + PARALLEL_WHOLE.removeprefix(FIRST)
# Three parallel links of capacity 30.
THREE = (
    FIRST + "nodes 2\na\nb\nlinks 3\n" + "0 1 30 1\n" * 3 + "pairs 1\n0 1 3\n333333 1 0\n333333 1 1\n333334 1 2\n" + CLAIM
)
# A link from a to b that both paths hold, and two parallel links of capacity 5 from b to c.
ONE_IN_FRONT = FIRST + "nodes 3\na\nb\nc\nlinks 3\n0 1 10 1\n1 2 5 1\n1 2 5 1\npairs 1\n0 2 2\n500000 2 0 1\n500000 2 0 2\n" + CLAIM
# A pair of three paths of which two hold one link, and a pair of one path, which holds it too.
SHARED = (
    FIRST + "nodes 4\na\nb\nc\nd\nlinks 5\n0 1 12 1\n1 3 9 1\n1 2 9 1\n2 3 9 1\n0 3 4 1\n"
    + "pairs 2\n0 1 1\n1000000 1 0\n0 3 3\n250000 2 0 1\n250000 3 0 2 3\n500000 1 4\n" + CLAIM
)


def tm(demand, step=0, target="b"):
    """A matrix file with one row."""
    return f"{TM}{step},a,{target},{demand}\n"


def rates(failures, *lines):
    """The file of rates, of the texts of its lines."""
    return "".join(f"{line}\n" for line in ["yates-rates 1", f"failures {failures}", *lines, "end"])


def refused(reason):
    return 3, f"refused: r: {reason}\n"


def yes(failures):
    return 0, f"yes failures {failures}\n"


def no(rule, place):
    return 1, f"no rule F{rule} place {place}\n"


OF_PARALLEL = rates(1, "10 10 10")
OTHER_PAIRS = 1, "no pairs\n"

# What stands in place of `failures 1` and of `10 10 10` in the rates of the parallel links, whose demand is 40, and what is said of it.
CHANGED = [
    ("failures 1", "10 10 10", yes(1)),
    ("failures 1", "10 10 30", yes(1)),
    ("failures 1", "0 0 0", yes(1)),
    ("failures 0", "10 10 10", yes(0)),
    ("failures 0", "20 10 10", yes(0)),
    ("failures 8", "0 10 30", yes(8)),
    ("failures 1", "11 10 10", no(2, 0)),
    ("failures 2", "10 10 10", no(2, 0)),
    ("failures 0", "21 10 10", no(2, 0)),
    # The least allocations are counted, wherever they stand.
    ("failures 1", "10 10 0", no(2, 0)),
    ("failures 1", "1 0 10", no(2, 0)),
    ("failures 1", "10 11 10", no(1, 0)),
    ("failures 1", "10 10 31", no(1, 1)),
    ("failures 1", "4294967296 4294967296 4294967296", no(1, 0)),
    # The links stand before the grants, and the guards before the demands.
    ("failures 1", "11 11 10", no(1, 0)),
    ("failures 0", "41 10 30", no(2, 0)),
    ("failures 9", "10 10 10", refused("rule G1 at 0")),
    ("failures 9", "10 10 4294967297", refused("rule G1 at 0")),
    ("failures 4294967295", "10 10 10", refused("rule G1 at 0")),
    ("failures 4294967296", "10 10 10", refused("rule G1 at 0")),
    ("failures 4294967297", "10 10 10", refused("rule G1 at 0")),
    ("failures 18446744073709551615", "10 10 10", refused("rule G1 at 0")),
    ("failures 1", "10 10 4294967297", refused("rule G2 at 0")),
    ("failures 1", "4294967297 10 10", refused("rule G2 at 0")),
    ("failures", "10 10 10", refused("shape at line 2")),
    ("failures 1 1", "10 10 10", refused("shape at line 2")),
    ("failures 01", "10 10 10", refused("shape at line 2")),
    ("failures 18446744073709551616", "10 10 10", refused("shape at line 2")),
    ("failure 1", "10 10 10", refused("shape at line 2")),
    ("failures 1", "10 10", refused("shape at line 3")),
    ("failures 1", "10 10 10 10", refused("shape at line 3")),
    ("failures 1", "10  10 10", refused("shape at line 3")),
    ("failures 1", "010 10 10", refused("shape at line 3")),
    ("failures 1", "grant 10 10 10", refused("shape at line 3")),
    ("failures 1", "10 10 10\n10 10 10", refused("shape at line 4")),
    ("failures 1", "10 10 10\nend", refused("shape at line 5")),
    # A fault of the table, wherever it stands, comes before a line that is not due.
    ("failures", "10 10 10\nend", refused("shape at line 5")),
]


def changed(failures, line):
    return OF_PARALLEL.replace("failures 1", failures).replace("10 10 10", line)


# A certificate, matrices and rates, and the status and text that they leave.
RATES = [
    *(([PARALLEL_WHOLE, tm(40), changed(failures, line)], *said) for failures, line, said in CHANGED),
    ([PARALLEL_IN_SECOND, tm(40), OF_PARALLEL], *yes(1)),
    ([PARALLEL_IN_SECOND, tm(40), rates(1, "11 10 10")], *no(2, 0)),
    ([PARALLEL_WHOLE, tm(40), OF_PARALLEL.replace("failures 1\n10 10 10\n", "failures 1\n")], *refused("shape at line 3")),
    ([PARALLEL_WHOLE, tm(40), OF_PARALLEL.replace("rates 1", "rates 2")], *refused("shape at line 1")),
    ([PARALLEL_WHOLE, tm(40), ""], *refused("shape at line 1")),
    ([PARALLEL_WHOLE, tm(40), "yates-rates 1\nend\n"], *refused("shape at line 2")),
    # The demand is that of step 0, and none where there is no step.
    ([PARALLEL_WHOLE, tm(10), OF_PARALLEL], *yes(1)),
    ([PARALLEL_WHOLE, tm(5), OF_PARALLEL], *no(3, 0)),
    ([PARALLEL_WHOLE, tm(40, step=1), OF_PARALLEL], *no(3, 0)),
    ([PARALLEL_WHOLE, tm(40, step=1), rates(1, "0 10 10")], *yes(1)),
    # One link holds both paths.
    ([ONE_IN_FRONT, tm(10, target="c"), rates(1, "1 5 5")], *no(2, 0)),
    ([ONE_IN_FRONT, tm(10, target="c"), rates(1, "0 5 5")], *yes(1)),
    ([ONE_IN_FRONT, tm(10, target="c"), rates(0, "10 5 5")], *yes(0)),
    *(
        ([THREE, tm(90), rates(failures, f"{grant} 30 5 7")], *said)
        for failures, grant, said in [
            (0, 42, yes(0)), (0, 43, no(2, 0)), (1, 12, yes(1)), (1, 13, no(2, 0)), (2, 5, yes(2)), (2, 6, no(2, 0)), (3, 0, yes(3)), (3, 1, no(2, 0)),
        ]
    ),
    # Of the second pair one path is left where a link fails that two of its three hold.
    ([SHARED, f"{TM}0,a,b,5\n0,a,d,9\n", rates(1, "0 4", "4 4 4 4")], *yes(1)),
    ([SHARED, f"{TM}0,a,b,5\n0,a,d,9\n", rates(1, "0 4", "3 3 4 4")], *yes(1)),
    ([SHARED, f"{TM}0,a,b,5\n0,a,d,9\n", rates(1, "0 4", "4 3 4 4")], *no(2, 1)),
    ([SHARED, f"{TM}0,a,b,5\n0,a,d,9\n", rates(1, "0 5", "4 4 4 4")], *no(1, 0)),
    ([SHARED, f"{TM}0,a,b,5\n0,a,d,9\n", rates(0, "5 6", "9 3 3 4")], *yes(0)),
    ([SHARED, f"{TM}0,a,b,5\n0,a,d,9\n", rates(0, "5 6", "10 3 3 4")], *no(3, 1)),
    # The pair with the least number is told.
    ([SHARED, f"{TM}0,a,b,5\n0,a,d,9\n", rates(1, "1 4", "5 4 4 4")], *no(2, 0)),
    ([NO_PAIRS, TM, rates(1)], *yes(1)),
    ([NO_PAIRS, TM, rates(1, "0")], *refused("shape at line 3")),
    # The inequalities of the certificate are not tried.
    ([SMALLEST_WITH_LESS, tm(7), rates(0, "7 7")], *yes(0)),
    # The declared pairs are others, which is said of rates that are not refused.
    ([PARALLEL_WHOLE, TM, OF_PARALLEL], *OTHER_PAIRS),
    ([PARALLEL_WHOLE, f"{tm(40)}0,b,a,1\n", OF_PARALLEL], *OTHER_PAIRS),
    ([ONE_IN_FRONT, f"{TM}0,b,c,1\n", rates(1, "0 5 5")], *OTHER_PAIRS),
    ([NO_PAIRS, tm(1), rates(1)], *OTHER_PAIRS),
    ([PARALLEL_WHOLE, TM, rates(1, "50 50 50")], *OTHER_PAIRS),
    ([PARALLEL_WHOLE, TM, OF_PARALLEL[:-4]], *refused("shape at line 4")),
    ([PARALLEL_WHOLE, TM, rates(9, "10 10 10")], *refused("rule G1 at 0")),
    # A file that is refused stands before those behind it.
    ([""], 3, "refused: c: shape at line 1\n"),
    ([NO_CAPACITY], 3, "refused: c: rule V2 at 0\n"),
    ([SMALLEST, ""], 3, "refused: m: header\n"),
    ([SMALLEST, tm(4294967297)], 3, "refused: m: number at row 1\n"),
    ([SMALLEST, tm(1, target="c")], 3, "refused: m: unknown node at row 1\n"),
    ([SMALLEST], 4, "fault: read\n"),
    ([SMALLEST, tm(1)], 4, "fault: read\n"),
    ([None, tm(1), OF_PARALLEL], 4, "fault: read\n"),
]

# Each cut of rates is refused at its last line.
CUT_RATES = [
    ([PARALLEL_WHOLE, tm(40), OF_PARALLEL[:count]], *refused(f"shape at line {OF_PARALLEL[:count].count(chr(10)) + 1}")) for count in range(len(OF_PARALLEL))
]

# One file for all words is read three times, and is no matrix file.
TWICE = [([SMALLEST], 3, "refused: c: header\n")]


def made(failures, *lines):
    return 0, rates(failures, *lines)


# For a number of failures: a certificate and matrices, and the status and text that they leave.
PROTECTIONS = {
    0: [
        ([PARALLEL_WHOLE, tm(40)], *made(0, "20 10 10")),
        ([THREE, tm(90)], *made(0, "90 30 30 30")),
        ([ONE_IN_FRONT, tm(10, target="c")], *made(0, "10 5 5")),
        ([SMALLEST_WITH_LESS, tm(7)], *made(0, "7 7")),
        ([NO_PAIRS, TM], *made(0)),
    ],
    1: [
        ([PARALLEL_WHOLE, tm(40)], *made(1, "10 10 10")),
        ([PARALLEL_IN_SECOND, tm(40)], *made(1, "10 10 10")),
        ([PARALLEL_WHOLE, tm(5)], *made(1, "5 5 5")),
        ([PARALLEL_WHOLE, tm(40, step=1)], *made(1, "0 0 0")),
        ([PARALLEL_WHOLE, f"{tm(40, step=0)}1,a,b,5\n"], *made(1, "10 10 10")),
        ([THREE, tm(90)], *made(1, "60 30 30 30")),
        ([THREE, tm(45)], *made(1, "45 23 23 23")),
        ([THREE, tm(44)], *made(1, "44 22 22 22")),
        ([ONE_IN_FRONT, tm(10, target="c")], *made(1, "0 0 0")),
        ([SMALLEST_WITH_LESS, tm(7)], *made(1, "0 0")),
        ([NO_PAIRS, TM], *made(1)),
        ([PARALLEL_WHOLE, TM], *OTHER_PAIRS),
        ([NO_PAIRS, tm(1)], *OTHER_PAIRS),
        ([PARALLEL_WHOLE, f"{tm(40)}0,b,a,1\n"], *OTHER_PAIRS),
        ([""], 3, "refused: c: shape at line 1\n"),
        ([NO_CAPACITY], 3, "refused: c: rule V2 at 0\n"),
        ([SMALLEST, ""], 3, "refused: m: header\n"),
        ([SMALLEST, tm(4294967297)], 3, "refused: m: number at row 1\n"),
        ([SMALLEST], 4, "fault: read\n"),
        ([None, tm(1)], 4, "fault: read\n"),
    ],
    2: [([PARALLEL_WHOLE, tm(40)], *made(2, "0 0 0")), ([THREE, tm(90)], *made(2, "30 30 30 30"))],
    3: [([THREE, tm(90)], *made(3, "0 0 0 0"))],
    8: [([PARALLEL_WHOLE, tm(40)], *made(8, "0 0 0"))],
}

# Words that are no form of either command.
NO_FORMS = [
    ["protect", "c", "m"],
    ["protect", "c", "m", ""],
    ["protect", "c", "m", "9"],
    ["protect", "c", "m", "01"],
    ["protect", "c", "m", "+1"],
    ["protect", "c", "m", "1 "],
    ["protect", "c", "m", "18446744073709551616"],
    ["protect", "c", "m", "1", "1"],
    ["check-rates", "c", "m"],
    ["check-rates", "c", "m", "r", "r"],
    ["check_rates", "c", "m", "r"],
]

# Certificates, matrices and rates that are accepted, whatever the answer is.
SAMPLES = [tuple(text.encode() for text in texts) for texts, status, _ in RATES if status <= 1]
