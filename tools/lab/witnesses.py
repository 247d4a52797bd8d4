"""Witnesses against smaller ratios: certificates, witnesses beside them, what is said of each, and the witnesses that are sought of certificates."""

from .certificates import (
    FIRST, NO_CAPACITY, PARALLEL_WHOLE, SECOND, SMALLEST, SMALLEST_IN_SECOND, SMALLEST_WITH_LESS, TRIANGLE, TRIANGLE_DOUBLE, TRIANGLE_DOUBLE_BOX,
    TRIANGLE_FOR_ALL, TRIANGLE_FOR_BOX, TRIANGLE_FOR_MARGIN,
)

NO_PAIRS_HEAD = "nodes 2\na\nb\nlinks 1\n0 1 10 1\npairs 0\n"
NO_PAIRS = FIRST + NO_PAIRS_HEAD + "set all\nratio 0\nblocks 0\nend\n"
NO_PAIRS_FOR_MARGIN = FIRST + NO_PAIRS_HEAD + "set margin 1 1\nbase\nratio 0\nblocks 0\nend\n"
# Bounds above the greatest demand of a witness. Its inequalities are not tried.
TRIANGLE_GREAT_BOX = SECOND + TRIANGLE + "set box\nlower 5000000000 5000000000\nupper 5000000000 6000000000\nratio 1333334\n" + TRIANGLE_DOUBLE

# Matrices within 3 / 2 around a base, the box of their bounds, and a base without demands. Their inequalities are not tried.
TRIANGLE_FOR_WIDER_MARGIN = TRIANGLE_FOR_MARGIN.replace("set margin 1 1", "set margin 3 2")
TRIANGLE_WIDER_MARGIN_AS_BOX = TRIANGLE_FOR_WIDER_MARGIN.replace(FIRST, SECOND).replace("set margin 3 2\nbase 10 10", "set box\nlower 40 40\nupper 90 90")
TRIANGLE_FOR_NO_DEMAND = TRIANGLE_FOR_WIDER_MARGIN.replace("base 10 10", "base 0 0")

def witness(bound, scale, demand, *rows):
    """The file of a witness, of these texts of its lines; a line that is None is left out."""
    lines = [f"bound {bound}", f"scale {scale}", f"demand {demand}".rstrip(), *rows, "end"]
    return "".join(f"{line}\n" for line in ["yates-witness 1", *lines])


OF_SMALLEST = witness(1000000, "1 1", 1000000, "1", "1000000 1 0")
OF_PARALLEL = witness(2000000, "1 1", 40, "2", "250000 1 0", "750000 1 1")
# The paths of the triangle's certificate, and those of a rival that divides the first demand.
OWN = ("1", "1000000 1 0", "1", "1000000 1 1")
DIVIDED = ("2", "500000 1 0", "500000 2 2 1", "0")
DIVIDED_FOR_BOX = ("2", "750000 1 0", "250000 2 2 1", "1", "1000000 1 1")


def changed(*pairs):
    """The witness of the parallel links with these texts, each of which stands in it once, in place of others."""
    text = OF_PARALLEL
    for old, new in pairs:
        assert text.count(old) == 1, (text, old)
        text = text.replace(old, new)
    return text


def refused(reason):
    return 3, f"refused: w: {reason}\n"


def yes(bound):
    return 0, f"yes bound {bound}\n"


def no(rule, place):
    return 1, f"no rule J{rule} place {place}\n"


LONG_PATH = " ".join(["1"] * 127)
# A change of the witness of the parallel links, and what is said of it.
CHANGED = [
    ([("bound 2000000", "bound 2000001")], no(2, 0)),
    ([("demand 40", "demand 0")], no(2, 0)),
    ([("750000", "750001")], refused("rule U6 at 0")),
    ([("250000", "0"), ("750000", "1000000")], refused("rule U6 at 0")),
    ([("250000 1 0\n750000 1 1", "750000 1 1\n250000 1 0")], refused("rule U5 at 0")),
    ([("750000 1 1", "750000 1 2")], refused("rule U5 at 0")),
    ([("750000 1 1", "750000 1 4294967297")], refused("rule U5 at 0")),
    ([("750000 1 1", f"750000 127 {LONG_PATH}")], refused("rule U5 at 0")),
    ([("\n2\n250000 1 0\n750000 1 1", "\n0")], refused("rule U4 at 0")),
    ([("demand 40", "demand 4294967297")], refused("rule U3 at 0")),
    ([("scale 1 1", "scale 1 0")], refused("rule U2 at 0")),
    ([("scale 1 1", "scale 68719476737 1")], refused("rule U2 at 0")),
    ([("bound 2000000", "bound 10000000000000000000")], refused("rule U1 at 0")),
    # The least number of a rule is told.
    ([("bound 2000000", "bound 10000000000000000000"), ("scale 1 1", "scale 1 0")], refused("rule U1 at 0")),
    ([("bound 2000000", "bound 18446744073709551616")], refused("shape at line 2")),
    ([("bound 2000000", "bound 02000000")], refused("shape at line 2")),
    ([("bound 2000000\n", "")], refused("shape at line 2")),
    ([("demand 40", "demand 40 1")], refused("shape at line 4")),
    ([("demand 40", "demand")], refused("shape at line 4")),
    ([("demand 40", "demand  40")], refused("shape at line 4")),
    ([("demand 40", "demand 40 ")], refused("shape at line 4")),
    ([("demand 40", "Demand 40")], refused("shape at line 4")),
    ([("demand 40", "demands 40")], refused("shape at line 4")),
    ([("\n2\n", "\n33\n")], refused("shape at line 5")),
    ([("750000 1 1", "750000 2 1")], refused("shape at line 7")),
    ([("750000 1 1", "750000 0")], refused("shape at line 7")),
    ([("\n2\n", "\n1\n")], refused("shape at line 7")),
    ([("750000 1 1", f"750000 128 {LONG_PATH} 1")], refused("shape at line 7")),
    ([("end\n", "")], refused("shape at line 8")),
    ([("end\n", "end")], refused("shape at line 8")),
    ([("end\n", "ends\nend\n")], refused("shape at line 8")),
    ([("\n2\n", "\n3\n")], refused("shape at line 8")),
    ([("end\n", "end\nx")], refused("shape at line 9")),
    ([("end\n", "end\nend\n")], refused("shape at line 9")),
    # A fault of the table, wherever it stands, comes before a line that is not due.
    ([("demand 40", "demand 40 1"), ("end\n", "end\nx")], refused("shape at line 9")),
    ([("yates-witness 1", "yates-witness 2")], refused("shape at line 1")),
]

# A certificate of the triangle, a witness of bound, scale, demand and paths, and what is said of it.
OF_TRIANGLE = [
    (TRIANGLE_FOR_ALL, (2000000, "1 1", "10 0", *DIVIDED), yes(2000000)),
    (TRIANGLE_FOR_ALL, (2000000, "1 1", "10 1", *DIVIDED), refused("rule U4 at 1")),
    (TRIANGLE_FOR_MARGIN, (2000000, "1 1", "10 0", *DIVIDED), no(1, 1)),
    (TRIANGLE_FOR_MARGIN, (1000000, "1 1", "10 10", *OWN), yes(1000000)),
    (TRIANGLE_FOR_MARGIN, (1000000, "3 2", "15 15", *OWN), yes(1000000)),
    (TRIANGLE_FOR_MARGIN, (1000000, "3 2", "15 16", *OWN), no(1, 1)),
    # A margin stands as its box, and the same file is answered alike of both.
    (TRIANGLE_FOR_BOX, (1000000, "3 2", "15 15", *OWN), yes(1000000)),
    (TRIANGLE_FOR_MARGIN, (0, "0 1", "0 0", "0", "0"), yes(0)),
    (TRIANGLE_FOR_MARGIN, (0, "1 1", "0 0", "0", "0"), no(1, 0)),
    (TRIANGLE_DOUBLE_BOX, (1333334, "1 1", "20 10", *DIVIDED_FOR_BOX), yes(1333334)),
    (TRIANGLE_DOUBLE_BOX, (1333334, "2 1", "40 20", *DIVIDED_FOR_BOX), yes(1333334)),
    (TRIANGLE_DOUBLE_BOX, (1333334, "1 2", "10 5", *DIVIDED_FOR_BOX), yes(1333334)),
    (TRIANGLE_DOUBLE_BOX, (1333335, "1 1", "20 10", *DIVIDED_FOR_BOX), no(2, 0)),
    (TRIANGLE_DOUBLE_BOX, (1333334, "1 1", "30 10", *DIVIDED_FOR_BOX), no(1, 0)),
    (TRIANGLE_DOUBLE_BOX, (1333334, "1 1", "10 9", *DIVIDED_FOR_BOX), no(1, 1)),
    (TRIANGLE_GREAT_BOX, (1000000, "1 2", "2500000000 2500000000", *OWN), yes(1000000)),
    # What is written of a margin is answered alike beside the certificate that is made of it.
    (TRIANGLE_FOR_WIDER_MARGIN, (1000000, "1 4", "10 10", *OWN), yes(1000000)),
    (TRIANGLE_WIDER_MARGIN_AS_BOX, (1000000, "1 4", "10 10", *OWN), yes(1000000)),
    (TRIANGLE_WIDER_MARGIN_AS_BOX, (1000000, "1 1", "10 10", *OWN), no(1, 0)),
]

# A certificate and a witness, and the status and text that they leave.
WITNESSES = [
    ([SMALLEST, OF_SMALLEST], *yes(1000000)),
    ([SMALLEST, OF_SMALLEST.replace("bound 1000000", "bound 1000001")], *no(2, 0)),
    ([SMALLEST_IN_SECOND, OF_SMALLEST], *yes(1000000)),
    # The inequalities of the certificate are not tried.
    ([SMALLEST_WITH_LESS, OF_SMALLEST], *yes(1000000)),
    ([NO_PAIRS, witness(0, "1 1", "")], *yes(0)),
    ([NO_PAIRS_FOR_MARGIN, witness(0, "0 1", "")], *yes(0)),
    ([PARALLEL_WHOLE, OF_PARALLEL], *yes(2000000)),
    *(([PARALLEL_WHOLE, changed(*pairs)], *said) for pairs, said in CHANGED),
    ([PARALLEL_WHOLE, ""], *refused("shape at line 1")),
    ([PARALLEL_WHOLE, "yates-witness 1\nend\n"], *refused("shape at line 2")),
    *(([certificate, witness(*parts)], *said) for certificate, parts, said in OF_TRIANGLE),
    # A certificate that is refused needs no witness.
    ([""], 3, "refused: c: shape at line 1\n"),
    ([NO_CAPACITY], 3, "refused: c: rule V2 at 0\n"),
    ([SMALLEST], 4, "fault: read\n"),
    ([None, OF_SMALLEST], 4, "fault: read\n"),
]

# A certificate, and the witness that is written of it.
ATTACKS = [
    ([SMALLEST], 0, OF_SMALLEST),
    ([SMALLEST_IN_SECOND], 0, OF_SMALLEST),
    ([SMALLEST_WITH_LESS], 0, OF_SMALLEST),
    ([NO_PAIRS], 0, witness(0, "1 1", "")),
    ([NO_PAIRS_FOR_MARGIN], 0, witness(0, "0 1", "")),
    ([TRIANGLE_FOR_MARGIN], 0, witness(1000000, "1 1", "10 10", *OWN)),
    ([TRIANGLE_FOR_WIDER_MARGIN], 0, witness(1000000, "1 4", "10 10", *OWN)),
    ([TRIANGLE_FOR_NO_DEMAND], 0, witness(0, "0 1", "0 0", "0", "0")),
    # Its least matrix shows what its greatest does.
    ([TRIANGLE_DOUBLE_BOX], 0, witness(1000000, "1 1", "10 10", *OWN)),
    # Both bounds have numbers that no demand of a witness has.
    ([TRIANGLE_GREAT_BOX], 0, witness(0, "0 1", "0 0", "0", "0")),
]

# And what is said of it.
ATTACKED = [([certificate, made], *yes(made.split()[3])) for (certificate,), _, made in ATTACKS]

# A certificate, and the witness that `challenge` writes of it: that of `attack` where nothing shows more.
CHALLENGES = [
    *ATTACKS[:6],
    ATTACKS[7],
    # The one matrix of the box at half of its demands.
    ([TRIANGLE_GREAT_BOX], 0, witness(1000000, "1 2", "2500000000 2500000000", *OWN)),
]
CHALLENGED = [([certificate, made], *yes(made.split()[3])) for (certificate,), _, made in CHALLENGES]

# A certificate whose worst matrix is at a corner of its set, and the least ratio that is true of it: 18 / 13, where one demand is 9 and the other 4,
# and 4 / 3, where one is twice the other. The links that leave the node share the demands evenly.
CHALLENGED_NEAR = [([TRIANGLE_FOR_WIDER_MARGIN], 1384616), ([TRIANGLE_DOUBLE_BOX], 1333334)]

# Each cut of a witness is refused at its last line.
CUT_WITNESSES = [
    ([PARALLEL_WHOLE, OF_PARALLEL[:count]], *refused(f"shape at line {OF_PARALLEL[:count].count(chr(10)) + 1}")) for count in range(len(OF_PARALLEL))
]

# One file for both words is read twice, and is no witness.
TWICE = [([SMALLEST], 3, "refused: c: shape at line 1\n")]

# Certificates and witnesses that are accepted, whatever the answer is.
SAMPLES = [(texts[0].encode(), texts[1].encode()) for texts, status, _ in WITNESSES if status <= 1]
