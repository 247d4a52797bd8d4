"""Rows of `bounds` and `reprice`: certificates and topologies, and what the calls have to answer, worked out by hand."""

from .certificates import (
    PARALLEL_WHOLE, PARALLEL_WITHOUT_FIRST, PARALLEL_WITHOUT_SECOND, SMALLEST, SMALLEST_HEAD, SMALLEST_IN_SECOND, SMALLEST_WITH_LESS, SMALL_BOX,
    TRIANGLE_DOUBLE_BOX, TRIANGLE_DOUBLE_BOX_WITH_LESS, TRIANGLE_FOR_ALL, TRIANGLE_FOR_ALL_WITH_LESS, TRIANGLE_FOR_BOX, TRIANGLE_FOR_MARGIN,
    TRIANGLE_WITHOUT_MINUS, TRIANGLE_WITH_IDLE_BLOCKS, UNREACHED_HIGH, UNREACHED_TOO_LOW,
)

TABLE = "link,source,target,capacity,need\n"
NET = "source,target,capacity,cost\n"

# A block whose numbers are as great as they may be: its need is 2^64 for any capacity, and no ratio pays for it.
COSTLY = SMALLEST_HEAD + "ratio 1000000\nblocks 1\n0 68719476736 1 1\n268435456\n0 0 1\nend\n"

# The same, of which I1 fails as well.
COSTLY_AND_STEEP = SMALLEST_HEAD + "ratio 1000000\nblocks 1\n0 68719476736 1 1\n268435456\n0 0 268435457\nend\n"

# No pair, and so no link with a share.
NO_PAIRS = "yates-ratio 1\nnodes 2\na\nb\nlinks 1\n0 1 10 1\npairs 0\nset all\nratio 7\nblocks 0\nend\n"

# Four thirds: needs are rounded up.
THIRD = SMALLEST.replace("0 1000000 1 1\n1\n0 0 1\n", "0 1000000 3 1\n4\n0 0 4\n")

# Nodes a and b send to c, each over its own link, with the nodes in the order in which a topology numbers them: a, c and b.
STRAIGHT = "nodes 3\na\nc\nb\nlinks 4\n0 1 10 1\n2 1 10 1\n0 2 10 1\n2 0 10 1\npairs 2\n0 1 1\n1000000 1 0\n2 1 1\n1000000 1 1\n"
FOR_ALL = "yates-ratio 1\n" + STRAIGHT + (
    "set all\nratio 2000000\nblocks 2\n0 1000000 1 1\n1 1 0 0\n0 0 1 0\n1 1000000 1 1\n1 1 0 0\n2 0 1 0\nend\n"
)
EQUAL_BLOCKS = (
    "blocks 2\n0 500000 1 2\n1 1 0 0\n0 0 1 0\n2 0 1 0\nplus 1 0\nminus 0 1\n1 500000 1 2\n1 1 0 0\n0 0 1 0\n2 0 1 0\nplus 0 1\nminus 1 0\nend\n"
)
FOR_MARGIN = "yates-ratio 1\n" + STRAIGHT + "set margin 1 1\nbase 10 10\nratio 1000000\n" + EQUAL_BLOCKS
FOR_BOX = "yates-ratio 2\n" + STRAIGHT + "set box\nlower 10 10\nupper 10 10\nratio 1000000\n" + EQUAL_BLOCKS
WITHOUT_MINUS = FOR_MARGIN.replace("minus 0 1", "minus 0 0")

# A block of a link without a share that needs more than the others.
IDLE_BLOCK = FOR_ALL.replace("blocks 2", "blocks 3").replace("end\n", "2 7000000 1 0\n1 0 1 0\nend\n")

# A certificate, and the status and table, or line, that it leaves.
BOUNDS = [
    ([SMALLEST], 0, TABLE + "0,a,b,10,1000000\n"),
    ([SMALLEST_IN_SECOND], 0, TABLE + "0,a,b,10,1000000\n"),
    ([SMALL_BOX], 0, TABLE + "0,a,b,10,1000000\n"),
    # The ratio of the file plays no part.
    ([SMALLEST_WITH_LESS], 0, TABLE + "0,a,b,10,1000000\n"),
    ([TRIANGLE_FOR_ALL_WITH_LESS], 0, TABLE + "0,a,c,10,2000000\n1,b,c,10,2000000\n"),
    ([TRIANGLE_DOUBLE_BOX_WITH_LESS], 0, TABLE + "0,a,c,10,1333334\n1,b,c,10,1333334\n"),
    # The need of a link is that of its capacity.
    ([PARALLEL_WHOLE], 0, TABLE + "0,a,b,10,2000000\n1,a,b,30,666667\n"),
    ([TRIANGLE_FOR_ALL], 0, TABLE + "0,a,c,10,2000000\n1,b,c,10,2000000\n"),
    ([TRIANGLE_FOR_MARGIN], 0, TABLE + "0,a,c,10,1000000\n1,b,c,10,1000000\n"),
    ([TRIANGLE_FOR_BOX], 0, TABLE + "0,a,c,10,1000000\n1,b,c,10,1000000\n"),
    ([TRIANGLE_DOUBLE_BOX], 0, TABLE + "0,a,c,10,1333334\n1,b,c,10,1333334\n"),
    # A block of a link without a share has no row.
    ([TRIANGLE_WITH_IDLE_BLOCKS], 0, TABLE + "0,a,c,10,2000000\n1,b,c,10,2000000\n"),
    ([IDLE_BLOCK], 0, TABLE + "0,a,c,10,2000000\n1,b,c,10,2000000\n"),
    ([UNREACHED_HIGH], 0, TABLE + "0,a,b,10,1000000\n"),
    ([NO_PAIRS], 0, TABLE),
    ([THIRD], 0, TABLE + "0,a,b,10,1333334\n"),
    # A need that no ratio of a file can be.
    ([COSTLY], 0, TABLE + "0,a,b,10,18446744073709551616\n"),
    ([PARALLEL_WITHOUT_FIRST], 1, "no link 0 rule I2 place 0\n"),
    ([PARALLEL_WITHOUT_SECOND], 1, "no link 1 rule I2 place 0\n"),
    ([TRIANGLE_WITHOUT_MINUS], 1, "no link 0 rule I3 place 0\n"),
    ([UNREACHED_TOO_LOW], 1, "no link 0 rule I1 place 2\n"),
    # The second of two blocks fails; and both do, of which the first is named.
    ([FOR_MARGIN.replace("minus 1 0", "minus 0 0")], 1, "no link 1 rule I3 place 0\n"),
    ([WITHOUT_MINUS.replace("minus 1 0", "minus 0 0")], 1, "no link 0 rule I3 place 0\n"),
    # A link whose ratio is too low stands before one without a block, which is what fails here.
    ([PARALLEL_WITHOUT_SECOND.replace("ratio 2000000", "ratio 1")], 1, "no link 1 rule I2 place 0\n"),
]

ROW = "a,b,10,1\n"


def on_capacities(certificate, links, ratio):
    """The certificate with other lines of links and another ratio."""
    lines = certificate.split("\n")
    at = next(place for place, line in enumerate(lines) if line.startswith("links "))
    lines[at + 1:at + 1 + len(links)] = links
    return "\n".join(f"ratio {ratio}" if line.startswith("ratio ") else line for line in lines)


# With a link from a to c that is twice as wide, as a topology and as lines of a certificate.
TRIANGLE_ROWS = "a,c,10,1\nb,c,10,1\na,b,10,1\nb,a,10,1\n"
WIDE = NET + "a,c,20,1\nb,c,10,1\na,b,10,1\nb,a,10,9\n"
WIDE_LINKS = ["0 1 20 1", "2 1 10 1", "0 2 10 1", "2 0 10 9"]

# A certificate and a topology, and the status and text that they leave.
REPRICED = [
    ([SMALLEST, NET + ROW], 0, SMALLEST),
    # A ratio that is too low is mended, and one that is too high lowered.
    ([SMALLEST_WITH_LESS, NET + ROW], 0, SMALLEST),
    ([SMALLEST.replace("ratio 1000000", "ratio 1000001"), NET + ROW], 0, SMALLEST),
    # With one way to go the need is that of any capacity.
    ([SMALLEST, NET + "a,b,4294967296,65535\n"], 0, on_capacities(SMALLEST, ["0 1 4294967296 65535"], 1000000)),
    ([SMALLEST_IN_SECOND, NET + "a,b,3,2\n"], 0, on_capacities(SMALLEST_IN_SECOND, ["0 1 3 2"], 1000000)),
    ([PARALLEL_WHOLE, NET + "a,b,20,7\na,b,20,1\n"], 0, on_capacities(PARALLEL_WHOLE, ["0 1 20 7", "0 1 20 1"], 1000000)),
    ([PARALLEL_WHOLE, NET + "a,b,10,1\na,b,30,1\n"], 0, PARALLEL_WHOLE),
    ([FOR_ALL, WIDE], 0, on_capacities(FOR_ALL, WIDE_LINKS, 3000000)),
    # A margin's base and a box's bounds stay.
    ([FOR_MARGIN, WIDE], 0, on_capacities(FOR_MARGIN, WIDE_LINKS, 1500000)),
    ([FOR_BOX, WIDE], 0, on_capacities(FOR_BOX, WIDE_LINKS, 1500000)),
    # A block of a link without a share counts too.
    ([IDLE_BLOCK, NET + TRIANGLE_ROWS], 0, IDLE_BLOCK.replace("ratio 2000000", "ratio 14000000")),
    ([NO_PAIRS, NET + "a,b,11,1\n"], 0, on_capacities(NO_PAIRS, ["0 1 11 1"], 0)),
    ([PARALLEL_WITHOUT_SECOND, NET + "a,b,20,7\na,b,20,1\n"], 1, "no link 1 rule I2 place 0\n"),
    ([WITHOUT_MINUS, WIDE], 1, "no link 0 rule I3 place 0\n"),
    ([UNREACHED_TOO_LOW, NET + "a,b,1,1\nz,b,1,1\n"], 1, "no link 0 rule I1 place 2\n"),
    # Other names, another end, another order, a link less and one more.
    ([SMALLEST, NET + "a,c,10,1\n"], 3, "refused: t: not the links\n"),
    ([SMALLEST, NET + "b,a,10,1\n"], 3, "refused: t: not the links\n"),
    ([FOR_ALL, NET + "b,c,10,1\na,c,10,1\na,b,10,1\nb,a,10,1\n"], 3, "refused: t: not the links\n"),
    ([FOR_ALL, NET + "a,c,10,1\nb,c,10,1\nb,a,10,1\na,b,10,1\n"], 3, "refused: t: not the links\n"),
    ([FOR_ALL, NET + "a,c,10,1\nb,c,10,1\na,b,10,1\n"], 3, "refused: t: not the links\n"),
    ([SMALLEST, NET + ROW + ROW], 3, "refused: t: not the links\n"),
    # Nodes in another order than that in which the rows name them.
    ([TRIANGLE_FOR_ALL, NET + TRIANGLE_ROWS], 3, "refused: t: not the links\n"),
    # The links stand before the inequalities, and so does the ratio.
    ([PARALLEL_WITHOUT_SECOND, NET + ROW], 3, "refused: t: not the links\n"),
    ([COSTLY, NET + ROW], 3, "refused: t: ratio too great\n"),
    ([COSTLY_AND_STEEP, NET + ROW], 3, "refused: t: ratio too great\n"),
    ([SMALLEST, "source,target,capacity\n"], 3, "refused: t: header\n"),
    ([SMALLEST, NET + "a,b,0,1\n"], 3, "refused: t: number at row 1\n"),
    ([SMALLEST, NET], 3, "refused: t: empty\n"),
    ([SMALLEST], 4, "fault: read\n"),
    # A certificate that is refused needs no topology.
    ([""], 3, "refused: c: shape at line 1\n"),
]
