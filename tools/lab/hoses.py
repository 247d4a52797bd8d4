"""Bounds on what nodes send and receive: certificates, hose certificates beside them, what is said of each; and those that are made of bounds."""

from .certificates import FIRST, NO_CAPACITY, PARALLEL_WHOLE, SECOND, SMALLEST, SMALLEST_WITH_LESS, TRIANGLE_FOR_ALL
from .rates import NO_PAIRS

# Two parallel links of the capacities 10 and 30, with halves on each, in the second format too.
PARALLEL_IN_SECOND = SECOND + PARALLEL_WHOLE.removeprefix(FIRST)


def bounds(sent, received):
    """The file of bounds, of the texts of their numbers."""
    return f"yates-bounds 1\nsent {sent}\nreceived {received}\nend\n"


def block(link, tails, heads):
    return f"link {link}\ntails {tails}\nheads {heads}\n"


def hose(sent, received, bound, *blocks):
    """The file of a hose certificate, of the texts of its numbers and of its blocks."""
    return f"yates-hose 1\nsent {sent}\nreceived {received}\nbound {bound}\nblocks {len(blocks)}\n{''.join(blocks)}end\n"


def refused(reason):
    return 3, f"refused: h: {reason}\n"


def yes(bound):
    return 0, f"yes bound {bound}\n"


def no(link, rule, place):
    return 1, f"no link {link} rule H{rule} place {place}\n"


BY_HEADS = block(0, "0 0", "0 500000"), block(1, "0 0", "0 500000")
OF_PARALLEL = hose("40 0", "0 10", 500000, *BY_HEADS)
# Nobody sends more than 40, and nobody receives more.
OF_FORTY = hose("40 0", "0 40", 2000000, *BY_HEADS)
# The two blocks, one after the other.
FIRST_BLOCK, SECOND_BLOCK = BY_HEADS
BOTH = FIRST_BLOCK + SECOND_BLOCK

# Texts that stand in the hose certificate of the parallel links, what stands in place of each, and what is said of it.
CHANGED = [
    ([], yes(500000)),
    ([("sent 40 0", "sent 4294967296 0")], yes(500000)),
    ([("bound 500000", "bound 9999999999999999999")], yes(9999999999999999999)),
    ([("bound 500000", "bound 500001")], yes(500001)),
    ([("bound 500000", "bound 499999")], no(0, 2, 0)),
    ([("received 0 10", "received 0 20")], no(0, 2, 0)),
    ([(SECOND_BLOCK, block(1, "1000000 1000000", "0 500000"))], no(1, 2, 0)),
    ([(FIRST_BLOCK, block(0, "0 0", "0 499999"))], no(0, 1, 0)),
    ([("blocks 2", "blocks 1"), (BOTH, SECOND_BLOCK)], no(0, 1, 0)),
    ([("blocks 2", "blocks 0"), (BOTH, "")], no(0, 1, 0)),
    ([("blocks 2", "blocks 1"), (BOTH, FIRST_BLOCK)], no(1, 1, 0)),
    # The pairs of a link stand before its bound, and a link before those behind it.
    ([(FIRST_BLOCK, block(0, "0 0", "0 499999")), ("bound 500000", "bound 1")], no(0, 1, 0)),
    ([(SECOND_BLOCK, block(1, "0 0", "0 499999")), ("bound 500000", "bound 1")], no(0, 2, 0)),
    # The share is covered by the number of the source and that of the destination.
    ([(FIRST_BLOCK, block(0, "1 0", "0 499999"))], no(0, 2, 0)),
    ([(FIRST_BLOCK, block(0, "1 0", "0 499999")), ("bound 500000", "bound 500003")], yes(500003)),
    ([(FIRST_BLOCK, block(0, "0 500000", "500000 0"))], no(0, 1, 0)),
    ([("sent 40 0", "sent 4294967297 0")], refused("rule K1 at 0")),
    ([("sent 40 0", "sent 40 4294967297")], refused("rule K1 at 1")),
    ([("received 0 10", "received 4294967297 10")], refused("rule K1 at 2")),
    ([("received 0 10", "received 0 4294967297")], refused("rule K1 at 3")),
    ([("bound 500000", "bound 10000000000000000000")], refused("rule K2 at 0")),
    ([("link 1", "link 0")], refused("rule K3 at 1")),
    ([("link 1", "link 2")], refused("rule K3 at 1")),
    ([("link 1", "link 4294967297")], refused("rule K3 at 1")),
    ([("link 0", "link 2")], refused("rule K3 at 0")),
    ([(SECOND_BLOCK, block(1, "0 1000001", "0 500000"))], refused("rule K4 at 1")),
    ([(SECOND_BLOCK, block(1, "0 0", "0 1000001"))], refused("rule K4 at 1")),
    # The least number of a rule is told.
    ([(SECOND_BLOCK, block(1, "0 1000001", "0 500000")), ("received 0 10", "received 4294967297 10")], refused("rule K1 at 2")),
    ([("link 1", "link 2"), (FIRST_BLOCK, block(0, "0 1000001", "0 500000"))], refused("rule K3 at 1")),
    ([("yates-hose 1", "yates-hose 2")], refused("shape at line 1")),
    ([("yates-hose 1", "yates-bounds 1")], refused("shape at line 1")),
    ([("sent 40 0", "sent 40")], refused("shape at line 2")),
    ([("sent 40 0", "sent 40 0 0")], refused("shape at line 2")),
    ([("sent 40 0", "sent 040 0")], refused("shape at line 2")),
    ([("received 0 10", "receives 0 10")], refused("shape at line 3")),
    ([("bound 500000", "bound 18446744073709551616")], refused("shape at line 4")),
    ([("blocks 2", "blocks 1025")], refused("shape at line 5")),
    ([("blocks 2", "blocks")], refused("shape at line 5")),
    ([("link 0\ntails 0 0\nheads 0 500000", "link 0\nheads 0 500000\ntails 0 0")], refused("shape at line 7")),
    ([("blocks 2", "blocks 1")], refused("shape at line 9")),
    ([("blocks 2", "blocks 3")], refused("shape at line 12")),
    ([("blocks 2", "blocks 1024")], refused("shape at line 12")),
    ([("\nend\n", "\n")], refused("shape at line 12")),
    ([("\nend\n", "\nend\nx")], refused("shape at line 13")),
    # A fault of the table, wherever it stands, comes before a line that is not due.
    ([("sent 40 0", "sent 40"), ("\nend\n", "\nend\nx")], refused("shape at line 13")),
]


def changed(pairs):
    """The hose certificate of the parallel links with these texts in place of others."""
    text = OF_PARALLEL
    for old, new in pairs:
        assert old in text, (text, old)
        text = text.replace(old, new, 1)
    return text


# A certificate and a hose certificate, and the status and text that they leave.
HOSES = [
    *(([PARALLEL_WHOLE, changed(pairs)], *said) for pairs, said in CHANGED),
    ([PARALLEL_IN_SECOND, OF_PARALLEL], *yes(500000)),
    ([PARALLEL_WHOLE, OF_FORTY], *yes(2000000)),
    ([PARALLEL_WHOLE, OF_FORTY.replace("bound 2000000", "bound 1999999")], *no(0, 2, 0)),
    ([NO_PAIRS, hose("1 1", "1 1", 0)], *yes(0)),
    ([NO_PAIRS, hose("1 1", "1 1", 0, block(0, "0 0", "0 0"))], *yes(0)),
    ([NO_PAIRS, hose("1 1", "1 1", 0, block(0, "1 0", "0 0"))], *no(0, 2, 0)),
    # Two pairs to one destination, each on a link of its own.
    ([TRIANGLE_FOR_ALL, hose("5 10 0", "0 0 10", 1000000, block(0, "1000000 0 0", "0 0 0"), block(1, "0 1000000 0", "0 0 0"))], *yes(1000000)),
    ([TRIANGLE_FOR_ALL, hose("5 10 0", "0 0 10", 1000000, block(0, "0 1000000 0", "0 0 0"), block(1, "0 1000000 0", "0 0 0"))], *no(0, 1, 0)),
    ([TRIANGLE_FOR_ALL, hose("5 10 0", "0 0 10", 1000000, block(0, "1000000 0 0", "0 0 0"), block(1, "1000000 0 0", "0 0 0"))], *no(1, 1, 1)),
    # The inequalities of the certificate are not tried.
    ([SMALLEST_WITH_LESS, hose("7 0", "0 9", 700000, block(0, "1000000 0", "0 0"))], *yes(700000)),
    ([PARALLEL_WHOLE, ""], *refused("shape at line 1")),
    ([PARALLEL_WHOLE, "yates-hose 1\nend\n"], *refused("shape at line 2")),
    ([PARALLEL_WHOLE, hose("40", "0", 500000)], *refused("shape at line 2")),
    # A certificate that is refused needs no hose certificate.
    ([""], 3, "refused: c: shape at line 1\n"),
    ([NO_CAPACITY], 3, "refused: c: rule V2 at 0\n"),
    ([SMALLEST], 4, "fault: read\n"),
    ([None, OF_PARALLEL], 4, "fault: read\n"),
]

# Each cut of a hose certificate is refused at its last line.
CUT_HOSES = [([PARALLEL_WHOLE, OF_PARALLEL[:count]], *refused(f"shape at line {OF_PARALLEL[:count].count(chr(10)) + 1}")) for count in range(len(OF_PARALLEL))]

# One file for both words is read twice, and is no hose certificate.
TWICE = [([SMALLEST], 3, "refused: c: shape at line 1\n")]

# A certificate and bounds, and the hose certificate that is written, where it is the only one, or why the bounds are refused.
BOUNDED = [
    ([PARALLEL_WHOLE, bounds("40 0", "0 10")], 0, OF_PARALLEL),
    ([PARALLEL_IN_SECOND, bounds("40 0", "0 10")], 0, OF_PARALLEL),
    ([PARALLEL_WHOLE, bounds("10 0", "0 40")], 0, hose("10 0", "0 40", 500000, block(0, "500000 0", "0 0"), block(1, "500000 0", "0 0"))),
    ([NO_PAIRS, bounds("1 1", "1 1")], 0, hose("1 1", "1 1", 0)),
    ([SMALLEST_WITH_LESS, bounds("7 0", "0 9")], 0, hose("7 0", "0 9", 700000, block(0, "1000000 0", "0 0"))),
    ([PARALLEL_WHOLE, bounds("40 0 0", "0 10")], *refused("shape at line 2")),
    ([PARALLEL_WHOLE, "yates-bounds 1\nreceived 0 10\nsent 40 0\nend\n"], *refused("shape at line 2")),
    ([PARALLEL_WHOLE, bounds("40 0", "0 10").replace("end\n", "bound 1\nend\n")], *refused("shape at line 4")),
    ([PARALLEL_WHOLE, OF_PARALLEL], *refused("shape at line 1")),
    ([PARALLEL_WHOLE, bounds("40 0", "0 4294967297")], *refused("rule K1 at 3")),
    ([PARALLEL_WHOLE, bounds("4294967297 0", "0 10")], *refused("rule K1 at 0")),
    ([""], 3, "refused: c: shape at line 1\n"),
    ([NO_CAPACITY], 3, "refused: c: rule V2 at 0\n"),
    ([SMALLEST], 4, "fault: read\n"),
    ([None, bounds("1 1", "1 1")], 4, "fault: read\n"),
]

# A certificate and bounds for which several hose certificates may be written, and what stands in each.
BOUNDED_IN_PART = [
    ([PARALLEL_WHOLE, bounds("40 0", "0 40")], "\nbound 2000000\nblocks 2\nlink 0\n"),
    ([PARALLEL_WHOLE, bounds("0 0", "0 0")], "\nbound 0\nblocks 2\nlink 0\n"),
    ([TRIANGLE_FOR_ALL, bounds("5 10 0", "0 0 10")], "\nbound 1000000\nblocks 2\nlink 0\ntails 1000000 0 0\nheads 0 0 0\nlink 1\n"),
]

# Words that are no form of either command.
NO_FORMS = [["hose"], ["hose", "c"], ["hose", "c", "b", "b"], ["check-hose", "c"], ["check-hose", "c", "h", "x"], ["check_hose", "c", "h"], ["Hose", "c", "b"]]

# Certificates and hose certificates that are accepted, whatever the answer is.
SAMPLES = [tuple(text.encode() for text in texts) for texts, status, _ in HOSES if status <= 1]
