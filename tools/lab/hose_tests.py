"""What tools/reference_hose.py says of hose certificates: the rows that the gate runs the program on, and drawn ones beside matrices of the hose."""
import collections
import itertools
import random

import reference_check

from .calls import CHAIN_BOUNDED, CHAIN_HOSES
from .drawn_hoses import NAMES, case, least_bound, matrix_within, most_used
from .hoses import BOUNDED, CUT_HOSES, HOSES, PARALLEL_WHOLE, TRIANGLE_FOR_ALL, TWICE, block, bounds, hose
from .inside_tests import differences

# Hose certificates that are answered yes and are not as `hose` makes them, and why.
WRONG = [
    (PARALLEL_WHOLE, bounds("40 0", "0 9"), hose("40 0", "0 10", 500000, *(block(e, "0 0", "0 500000") for e in (0, 1))), ["another hose"]),
    (PARALLEL_WHOLE, bounds("40 0", "0 10"), hose("40 0", "0 10", 500001, *(block(e, "0 0", "0 500000") for e in (0, 1))), ["the least bound is 500000"]),
    (
        PARALLEL_WHOLE, bounds("40 0", "0 10"), hose("40 0", "0 10", 500003, block(0, "1 0", "0 499999"), block(1, "0 0", "0 500000")),
        ["link 0 is covered for less by its tails or its heads alone", "no matrix within the hose puts on link 0 what its numbers come to"],
    ),
    (
        PARALLEL_WHOLE, bounds("40 0", "0 10"), hose("40 0", "0 10", 500000, block(0, "0 0", "0 500000"), block(1, "0 0", "1 500001")),
        [
            "head 0 of link 1 can be lowered", "head 1 of link 1 can be lowered", "link 1 is covered for less by its tails or its heads alone",
            "no matrix within the hose puts on link 1 what its numbers come to",
        ],
    ),
    (
        TRIANGLE_FOR_ALL, bounds("0 10 0", "0 0 10"),
        hose("0 10 0", "0 0 10", 1000000, block(0, "1000000 0 0", "0 0 0"), block(1, "0 1000000 0", "0 0 0"), block(2, "0 0 0", "0 0 0")),
        ["link 2 has a block and no share"],
    ),
]


def cases(load, call):
    """Each case by its name, with what is wrong."""
    tool = load("reference_hose.py")
    for name, names, rows in (("rows", NAMES, HOSES), ("cuts", NAMES, CUT_HOSES), ("chains", NAMES, CHAIN_HOSES), ("a file twice", "c", TWICE)):
        faults = []
        for place, (texts, status, said) in enumerate(rows):
            words = list(NAMES) if len(names) == 2 else ["c", "c"]
            faults += [f"row {place}: {it}" for it in differences(call, tool, dict(zip(names, texts)), words, (said, status))]
        yield f"reference_hose.py, {name}", faults
    yield "reference_hose.py: other words", [] if [call(tool, words, ".")[1] for words in ([], ["c"], ["c", "h", "h"])] == [2, 2, 2] else ["another status"]
    made = [(*texts, said) for texts, status, said in BOUNDED + CHAIN_BOUNDED if status == 0]
    yield "reference_hose.py: hose certificates that are made", [f"{texts}: {it}" for *texts, said in made for it in faults_of_row(tool, texts, said, [])]
    yield "reference_hose.py: hose certificates that are not made so", [it for certificate, file, said, faults in WRONG for it in faults_of_row(tool, (certificate, file), said, faults)]
    yield "reference_hose.py: bounds", bounds_that_are_refused(tool)
    yield "reference_hose.py: a search", search(tool)
    yield "drawn hose certificates", drawn(tool)


def faults_of_row(tool, texts, said, wanted):
    """What is wrong where a hose certificate of bounds is answered no, or has other faults than these."""
    certificate = reference_check.certificate_of("c", texts[0].encode())
    made = tool.hose_of("h", said.encode(), certificate)
    failed, faults = tool.first_inequality(certificate, made), tool.faults_of_made(certificate, tool.bounds_of("b", texts[1].encode(), certificate), made)
    return ([f"{failed} fails"] if failed else []) + ([] if faults == wanted else [f"want {wanted}, got {faults}"])


def bounds_that_are_refused(tool):
    faults = []
    for texts, status, said in BOUNDED:
        if status == 3 and len(texts) == 2:
            try:
                tool.bounds_of("h", texts[1].encode(), reference_check.certificate_of("c", texts[0].encode()))
                faults.append(f"{texts[1]!r} is not refused")
            except reference_check.Refused as refusal:
                faults += [] if refusal.args == (said, status) else [f"want {said!r}, got {refusal.args}"]
    return faults


def search(tool):
    """Of small hoses the greatest load of a matrix is what the least cover comes to, as linear programs say."""
    faults, draw = [], random.Random(23)
    fours = list(itertools.product(range(4), repeat=4))
    for number in range(60):
        # Shares from a to c, from a to d, from b to c and from b to d.
        shares, (a, b, c, d) = [draw.randint(1, 3) for _ in fours[0]], (draw.randint(0, 3) for _ in "abcd")
        within = [it for it in fours if it[0] + it[1] <= a and it[2] + it[3] <= b and it[0] + it[2] <= c and it[1] + it[3] <= d]
        most = max(sum(demand * share for demand, share in zip(matrix, shares)) for matrix in within)
        covers = [it for it in fours if all(share <= it[place // 2] + it[2 + place % 2] for place, share in enumerate(shares))]
        least = min(tool.sum_of(tool.Hose([a, b, 0, 0], [0, 0, c, d], 0, []), [*it[:2], 0, 0], [0, 0, *it[2:]]) for it in covers)
        faults += [] if most == least else [f"case {number}: the greatest load is {most}, and the least cover {least}"]
    return faults


def drawn(tool):
    """Of what is drawn there are some of each kind of answer, and a yes bounds the matrices that are drawn within its hose."""
    kinds, faults, draw = collections.Counter(), [], random.Random(29)
    for number in range(400):
        files = case(19, number)
        out, err, status = tool.answer(NAMES, files.__getitem__)
        kinds[status if status == 0 else out.partition(" place")[0].partition(" rule ")[2] if status == 1 else err.split()[2]] += 1
        if status == 0:
            certificate = reference_check.read(files["c"])
            made = tool.hose_of("h", files["h"], certificate)
            used = most_used(certificate, matrix_within(draw, certificate, made))
            faults += [f"case {number}: {used} is above {made.bound}"] if used > made.bound else []
            faults += [f"case {number}: the least bound is above {made.bound}"] if least_bound(certificate, made) > made.bound else []
    return faults + [f"no answer {it!r}: {kinds}" for it in (0, "H1", "H2", "shape", "rule") if not kinds[it]]
