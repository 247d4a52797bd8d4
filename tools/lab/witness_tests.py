"""What tools/reference_witness.py says of witnesses: the rows that the gate runs the program on, and drawn ones beside fractions."""
import collections
import random
from fractions import Fraction

from .calls import CHAIN_WITNESSES
from .drawn_witnesses import files_of
from .inside_tests import differences
from .witnesses import CUT_WITNESSES, WITNESSES

NAMES = ["c", "w"]


def cases(load, call):
    """Each case by its name, with what is wrong."""
    tool = load("reference_witness.py")
    for name, rows in (("rows", WITNESSES), ("cuts", CUT_WITNESSES), ("chains", CHAIN_WITNESSES)):
        faults = []
        for place, (texts, status, said) in enumerate(rows):
            faults += [f"row {place}: {it}" for it in differences(call, tool, dict(zip(NAMES, texts)), NAMES, (said, status))]
        yield f"reference_witness.py, {name}", faults
    yield "reference_witness.py: other words", [] if [call(tool, words, ".")[1] for words in ([], ["c"], ["c", "w", "w"])] == [2, 2, 2] else ["another status"]
    yield "reference_witness.py: a search", search(tool)


def search(tool):
    """Of witnesses that are drawn the answer is that of fractions, and there are some of each status."""
    faults, draw, statuses = [], random.Random(11), collections.Counter()
    for number in range(400):
        data, text = files_of(draw, 11, number)
        out, _, status = tool.check_witness("c", data, "w", lambda text=text: text)
        statuses[status] += 1
        if status <= 1:
            certificate = tool.read(data)
            wanted = answer(tool, certificate, tool.spelled(tool.table(tool.FIRST, text), len(certificate["pairs"])))
            faults += [] if out == wanted else [f"witness {number}: want {wanted!r}, got {out!r}"]
    return faults + ([] if min(statuses[it] for it in (0, 1, 3)) >= 20 else [f"few of some status: {statuses}"])


def answer(tool, certificate, witness):
    """The line of a witness that keeps its rules."""
    if certificate["set"]:
        factor = Fraction(witness["x"], witness["y"])
        between = [factor * low <= demand <= factor * high for low, demand, high in zip(*order(tool.bounds(certificate), witness["demand"]))]
        if not all(between):
            return f"no rule J1 place {between.index(False)}\n"
    own, rival = (utilisation(certificate, witness["demand"], routes) for routes in ([paths for *_, paths in certificate["pairs"]], witness["rival"]))
    return f"yes bound {witness['bound']}\n" if not witness["bound"] or rival and witness["bound"] < 1_000_000 * own / rival + 1 else "no rule J2 place 0\n"


def order(bounds, demands):
    return bounds[0], demands, bounds[1]


def utilisation(certificate, demands, routes):
    """The greatest load over capacity of a link."""
    loads = collections.Counter()
    for demand, paths in zip(demands, routes):
        for weight, path in paths:
            for link in path:
                loads[link] += demand * weight
    return max(Fraction(loads[place], link[2]) for place, link in enumerate(certificate["links"]))
