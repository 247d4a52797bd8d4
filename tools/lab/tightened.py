"""Whether a certificate is what `tighten` may make of another one, by the second checker and an own reckoning of best blocks; and rows of
`tighten`.
"""
import reference_check

from . import polish
from .certificates import (
    PARALLEL_WHOLE, PARALLEL_WITHOUT_SECOND, SMALLEST, SMALLEST_IN_SECOND, SMALLEST_WITH_LESS, SMALLEST_WITH_LESS_IN_SECOND, SMALL_BOX, TRIANGLE_DOUBLE_BOX,
    TRIANGLE_FOR_ALL, TRIANGLE_FOR_ALL_WITH_LESS, TRIANGLE_FOR_BOX, TRIANGLE_FOR_MARGIN, TRIANGLE_OF_FIRST_ROUND, TRIANGLE_WITHOUT_MINUS, UNREACHED_HIGH,
    UNREACHED_TOO_LOW,
)
from .prices import COSTLY, COSTLY_AND_STEEP, FOR_BOX, FOR_MARGIN, IDLE_BLOCK, NO_PAIRS, THIRD, WITHOUT_MINUS

# A certificate, and the greatest ratio that the tightened one may have. No smaller one is true of most of these routings.
TIGHTENED = [
    (SMALLEST, 1000000),
    (SMALLEST_IN_SECOND, 1000000),
    (SMALL_BOX, 1000000),
    (NO_PAIRS, 0),
    (UNREACHED_HIGH, 1000000),
    (PARALLEL_WHOLE, 2000000),
    # A ratio that is too low is mended.
    (SMALLEST_WITH_LESS, 1000000),
    (SMALLEST_WITH_LESS_IN_SECOND, 1000000),
    (TRIANGLE_FOR_ALL_WITH_LESS, 2000000),
    # A and B that could be nearer, or are as great as they may be.
    (THIRD, 1000000),
    (COSTLY, 1000000),
    # The block of a link without a share is left out.
    (IDLE_BLOCK, 2000000),
    # With weights of 0, by which no other block needs less.
    (TRIANGLE_FOR_ALL, 2000000),
    (TRIANGLE_FOR_MARGIN, 1000000),
    (TRIANGLE_FOR_BOX, 1000000),
    (TRIANGLE_DOUBLE_BOX, 1333334),
    (FOR_MARGIN, 1000000),
    (FOR_BOX, 1000000),
    # Made by one round.
    (TRIANGLE_OF_FIRST_ROUND, 2000200),
]

# A certificate of which one of the first three inequalities fails, and the status and line.
NOT_TIGHTENED = [
    ([PARALLEL_WITHOUT_SECOND], 1, "no link 1 rule I2 place 0\n"),
    ([PARALLEL_WITHOUT_SECOND.replace("ratio 2000000", "ratio 1")], 1, "no link 1 rule I2 place 0\n"),
    ([TRIANGLE_WITHOUT_MINUS], 1, "no link 0 rule I3 place 0\n"),
    ([WITHOUT_MINUS], 1, "no link 0 rule I3 place 0\n"),
    ([UNREACHED_TOO_LOW], 1, "no link 0 rule I1 place 2\n"),
    ([COSTLY_AND_STEEP], 1, "no link 0 rule I1 place 1\n"),
]

# Of a file all that stands before the line of its ratio.
RATIO = b"\nratio "


def shared_links(cert):
    """The links over which some pair sends."""
    return [e for e, shares in enumerate(reference_check.shares_of(cert)) if shares]


def faults_of_needs(old, new):
    """What is wrong with the blocks of the new certificate, and with its ratio."""
    given = {block["link"]: reference_check.need(old, block) for block in old["blocks"]}
    needs = {block["link"]: reference_check.need(new, block) for block in new["blocks"]}
    faults = [] if list(needs) == shared_links(new) else ["the blocks are not those of the links with a share"]
    faults += [f"link {e} needs {need} in place of {given[e]}" for e, need in needs.items() if need > given.get(e, need)]
    return faults + ([] if new["ratio"] == max(needs.values(), default=0) else ["the ratio is not what the blocks need"])


def faults_of_polish(made):
    """What of the new blocks is not polished: the rounds of each link, and the changes of the one that needs most."""
    needs = [reference_check.need(made.cert, block) for block in made.blocks]
    faults = [fault for block, need in zip(made.blocks, needs) for fault in polish.faults_of_rounds(made, block, need)]
    if needs:
        most = needs.index(max(needs))
        faults += polish.faults_of_changes(made, made.blocks[most], needs[most])
    return faults


def faults_of(old_data, new_data):
    """What is wrong with the file that `tighten` made of a certificate that is not refused."""
    if old_data.partition(RATIO)[0] != new_data.partition(RATIO)[0]:
        return ["another head"]
    answer = reference_check.check_bytes("c", new_data)
    if answer[2] != 0:
        return [f"its check answers {answer}"]
    old, made = reference_check.read(old_data), polish.Made(new_data)
    return faults_of_needs(old, made.cert) + faults_of_polish(made)
