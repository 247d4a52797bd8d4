"""What tools/inside says of matrices, by hand and beside a search; what reference_check.py says of topologies and sets."""
import random
import tempfile
from fractions import Fraction

from .certificates import (
    SMALLEST, SMALLEST_WITH_LESS, TRIANGLE_DOUBLE_BOX, TRIANGLE_EMPTY_BOX, TRIANGLE_FOR_ALL, TRIANGLE_FOR_MARGIN, UNENDED,
)
from .folders import write_files

HEADER = "step,inside,least,greatest,source,target,demand,from,to\n"
TM = "step,source,target,demand\n"
BEYOND = TRIANGLE_FOR_MARGIN.replace("margin 1 1", "margin 3 2").replace("base 10 10", "base 10 0")
# A certificate, the rows of matrices, what is printed below the header, and the status.
INSIDE = [
    (TRIANGLE_DOUBLE_BOX, "0,a,c,10\n0,b,c,20\n1,a,c,7\n1,b,c,9\n3,a,c,0\n", "0,yes,1,1,-,-,-,-,-\n1,yes,9/20,7/10,-,-,-,-,-\n2,yes,0,0,-,-,-,-,-\n3,yes,0,0,-,-,-,-,-\n", 0),
    (TRIANGLE_DOUBLE_BOX, "0,a,c,10\n0,b,c,21\n1,a,c,11\n1,b,c,5\n2,b,c,1\n", "0,no,-,-,b,c,21,5,20\n1,no,-,-,b,c,5,6,22\n2,no,-,-,b,c,1,0,0\n", 1),
    (TRIANGLE_DOUBLE_BOX, "0,a,b,0\n1,a,b,1\n", "0,yes,0,0,-,-,-,-,-\n1,no,-,-,a,b,1,0,0\n", 1),
    (TRIANGLE_DOUBLE_BOX.replace("lower 10 10", "lower 0 0"), "0,a,c,3\n0,b,c,50\n", "0,yes,5/2,-,-,-,-,-,-\n", 0),
    (TRIANGLE_FOR_MARGIN, "0,a,c,40\n0,b,c,40\n1,a,c,40\n1,b,c,41\n", "0,yes,4,4,-,-,-,-,-\n1,no,-,-,b,c,41,40,40\n", 1),
    (BEYOND, "0,a,c,10\n1,b,c,1\n", "0,yes,2/3,3/2,-,-,-,-,-\n1,no,-,-,b,c,1,0,0\n", 1),
    (TRIANGLE_FOR_ALL, "0,a,c,10\n1,a,c,4294967296\n1,b,c,1\n2,c,a,7\n", "0,yes,-,-,-,-,-,-,-\n1,yes,-,-,-,-,-,-,-\n2,no,-,-,c,a,7,0,0\n", 1),
    (TRIANGLE_FOR_ALL, "", "", 0),
]
REFUSED = [
    ("x\n", "", "refused: c: shape at line 1\n"),
    (TRIANGLE_EMPTY_BOX, "", "refused: c: rule V7 at 1\n"),
    (TRIANGLE_FOR_ALL, "0,a,z,1\n", "refused: tm.csv: unknown node at row 1 (against the nodes of the certificate)\n"),
]
NET = "source,target,capacity,cost\n"
SET = "yes ratio 1333334 set box\nset: each demand between its lower and its upper bound, up to one factor that all demands have in common; pairs that are not declared (4 of 6) have none\n"
SET_OF_BOX = f"{SET}set: 2 pairs are free between two bounds, 0 are fixed, and 0 have no demand\nset: the widest is pair 0 (a to c), from 10 to 20, which is 2 times as much\nsource,target,lower,upper\na,c,10,20\nb,c,10,20\n"
# A certificate, a topology or none, what the checker prints to either stream, and its status; with --set where the text has lines of a set.
CHECKED = [
    (SMALLEST, NET + "a,b,10,1\n", "yes ratio 1000000 set all\n", 0),
    (SMALLEST, NET + "a,b,10,2\n", "no network\n", 1),
    (SMALLEST, NET + "b,a,10,1\n", "no network\n", 1),
    (SMALLEST, NET + "a,b,10,1\na,b,10,1\n", "no network\n", 1),
    (SMALLEST_WITH_LESS, NET + "a,b,11,1\n", "no network\n", 1),
    (SMALLEST_WITH_LESS, NET + "a,b,10,1\n", "no link 0 rule I4 place 0\n", 1),
    (SMALLEST, NET + "a,b,0,1\n", "refused: net.csv: number at row 1\n", 3),
    (SMALLEST, NET, "refused: net.csv: empty\n", 3),
    (SMALLEST, None, "fault: read\n", 4),
    (UNENDED, None, "refused: c: shape at line 16\n", 3),
    (TRIANGLE_DOUBLE_BOX, NET + "a,c,10,1\nb,c,10,1\na,b,10,1\nb,a,10,1\n", "no network\n", 1),
]
SETS = [
    (TRIANGLE_DOUBLE_BOX, SET_OF_BOX, 0),
    (SMALLEST, "yes ratio 1000000 set all\nset: each matrix of demands of the 1 declared pair; pairs that are not declared (1 of 2) have none\nsource,target,lower,upper\na,b,0,-\n", 0),
    (SMALLEST_WITH_LESS, "no link 0 rule I4 place 0\n", 1),
]


def cases(load, call):
    """Each case by its name, with what is wrong: `load` gives a tool, `call` what its `main` writes in a folder, and its status."""
    inside, checker = load("inside"), load("reference_check.py")
    for place, (certificate, rows, said, status) in enumerate(INSIDE):
        yield f"inside, row {place}", differences(call, inside, {"c": certificate, "tm.csv": TM + rows}, ["c", "tm.csv"], (HEADER + said, status))
    for place, (certificate, rows, said) in enumerate(REFUSED):
        yield f"inside, refusal {place}", differences(call, inside, {"c": certificate, "tm.csv": TM + rows}, ["c", "tm.csv"], (said, 3))
    yield "inside: a search", search(inside)
    for place, (certificate, topology, said, status) in enumerate(CHECKED):
        yield f"reference_check.py with a topology, row {place}", differences(call, checker, {"c": certificate, "net.csv": topology}, ["c", "net.csv"], (said, status))
    for place, (certificate, said, status) in enumerate(SETS):
        yield f"reference_check.py --set, row {place}", differences(call, checker, {"c": certificate}, ["--set", "c"], (said, status))


def differences(call, tool, files, words, wanted):
    with tempfile.TemporaryDirectory() as folder:
        write_files(folder, files)
        got = call(tool, words, folder)
    return [] if got == wanted else [f"want {wanted!r}", f"got  {got!r}"]


def search(tool):
    """Of matrices that are drawn, the factors are the ends of those that hold among all that can be an end."""
    faults, draw = [], random.Random(7)
    for _ in range(2000):
        pairs = [(0, target) for target in range(1, draw.randrange(2, 5))]
        bounds = {pair: tuple(sorted(draw.randrange(4) for _ in "lu")) for pair in pairs}
        demands = {pair: draw.randrange(5) for pair in pairs}
        ends = {Fraction(0)} | {Fraction(demands[pair], it) for pair in pairs for it in bounds[pair] if it}
        holding = [it for it in ends if all(it * bounds[pair][0] <= demands[pair] <= it * bounds[pair][1] for pair in pairs)]
        least, greatest, outside = tool.place_of(demands, bounds)
        has_end = any(low for low, _ in bounds.values())
        got = None if outside else (Fraction(*least), Fraction(*greatest) if greatest else None)
        wanted = (min(holding), max(holding) if has_end else None) if holding else None
        if got != wanted:
            faults.append(f"{bounds}, {demands}: want {wanted}, got {got}")
    return faults
