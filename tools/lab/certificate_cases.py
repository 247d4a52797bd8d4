"""The table of certificates for `tools/explain`: the words of the call, the files that differ from FILES, the first line, and words that it must say."""
from .cases import FIBRES, NET
from .certificates import (
    BLOCK_OF_NO_LINK, CUT, FIRST, LEADING_ZERO, PARALLEL_LIGHT, PARALLEL_TWO_FAULTS, PARALLEL_WHOLE, PARALLEL_WITHOUT_SECOND, PATHS_OUT_OF_ORDER, SECOND,
    SMALL_BOX, SMALLEST, SMALLEST_WITH_LESS, TRIANGLE, TRIANGLE_DOUBLE_BOX, TRIANGLE_EMPTY_BOX, TRIANGLE_FOR_ALL, TRIANGLE_FOR_MARGIN,
    TRIANGLE_SMALL_MARGIN, TRIANGLE_TWICE_A_NODE, TRIANGLE_WIDE_BOX, TRIANGLE_WITHOUT_MINUS, TWICE_A_NAME, UNENDED, WIDE_RATIO, WIDE_WEIGHT,
)

FILES = {"c": SMALLEST, "t": NET + "a,b,10,1\n"}
TRIANGLE_NET = NET + "a,c,10,1\nb,c,10,1\na,b,10,1\nb,a,10,1\n"
# Three nodes with a box in which one pair begins at 0, one is fixed, and one block more than that of a pair.
BOX_FROM_ZERO = SECOND + TRIANGLE + "set box\nlower 0 10\nupper 7 10\nratio 0\nblocks 0\nend\n"
# The margin's base of one pair is 0, and its block is for the base of the other.
MARGIN_OF_ONE = SMALLEST.replace("set all", "set margin 2 1\nbase 0").replace("0 0 1\nend", "0 0 1\nplus 0\nminus 0\nend")


def changed(piece, other, text=SMALLEST):
    return {"c": text.replace(piece, other, 1)}


CLAIMS = [
    ("one link", ["c"], {}, "yes ratio 1000000 set all", ["2 nodes, 1 links, 1 pairs, 1 paths, in the first format", "at most 1 times", "not declared (1 of 2) have none"]),
    ("a certificate given as plan", ["c"], {}, "yes ratio 1000000 set all", ["run and publish read a plan"]),
    ("all matrices", ["c"], {"c": TRIANGLE_FOR_ALL}, "yes ratio 2000000 set all", ["each matrix of demands of the 2 declared pairs", "at most 2 times"]),
    ("a margin", ["c"], {"c": TRIANGLE_FOR_MARGIN}, "yes ratio 1000000 set margin 1 1", ["each demand is its base", "2 pairs have a base above 0"]),
    ("a margin without demand", ["c"], {"c": MARGIN_OF_ONE}, "yes ratio 1000000 set margin 2 1", ["from 1/2 to 2/1 of its base", "1 has none and so no demand"]),
    ("a box", ["c"], {"c": TRIANGLE_DOUBLE_BOX}, "yes ratio 1333334 set box", ["at most 1.333334 times", "2 pairs are free", "pair 0 (a to c), from 10 to 20, which is 2 times"]),
    ("a box of one pair", ["c"], {"c": SMALL_BOX}, "yes ratio 1000000 set box", ["1 pair is free", "from 3 to 5, which is 1.666667 times"]),
    ("no pair", ["c"], {"c": FIRST + "nodes 2\na\nb\nlinks 1\n0 1 10 1\npairs 0\nset all\nratio 0\nblocks 0\nend\n"}, "yes ratio 0 set all", ["no pair is declared"]),
    ("the same network", ["c", "t"], {}, "yes ratio 1000000 set all", ["at most 1 times"]),
]

FAILURES = [
    ("a ratio that is too low", ["c"], {"c": SMALLEST_WITH_LESS}, "no link 0 rule I4 place 0",
     ["link 0 (a to b), of capacity 10", "10000000000000 is above 9999990000000", "the least ratio that this block proves is 1000000, and the file claims 999999"]),
    ("no block", ["c"], {"c": PARALLEL_WITHOUT_SECOND}, "no link 1 rule I2 place 0", ["pair 0 (a to b)", "500000 is above 0", "has no block of this link"]),
    ("a share that is not covered", ["c"], changed("0 1000000 1 1", "0 999999 1 1"), "no link 0 rule I2 place 0", ["1000000 is above 999999", "potential 1, A 999999 and B 1"]),
    ("a potential that rises too much", ["c"], changed("0 0 1\nend", "0 0 2\nend"), "no link 0 rule I1 place 1", ["source a rises over link 0 (a to b)", "2 is above 1", "0 at a and 2 at b"]),
    ("a potential at the source", ["c"], changed("0 0 1\nend", "0 1 1\nend"), "no link 0 rule I1 place 0", ["of source a at itself is 0", "1 is above 0"]),
    ("plus and no minus", ["c"], {"c": TRIANGLE_WITHOUT_MINUS}, "no link 0 rule I3 place 0", ["what plus adds is taken back by minus", "10 is above 0"]),
    ("a box that is too wide", ["c"], {"c": TRIANGLE_WIDE_BOX}, "no link 0 rule I3 place 0", ["20 is above 10"]),
    ("a box without blocks", ["c"], {"c": BOX_FROM_ZERO}, "no link 0 rule I2 place 0", ["pair 0 (a to c)", "no block of this link"]),
]

NETWORKS = [
    ("another capacity", ["c", "t"], {"t": NET + "a,b,11,1\n"}, "no network", ["link 0 (a to b) has the capacity 10 in the certificate, and 11 in the topology, by its row 1", "other capacities or costs"]),
    ("another cost", ["c", "t"], {"t": NET + "a,b,10,2\n"}, "no network", ["has the cost 1 in the certificate, and 2 in the topology"]),
    ("another node", ["c", "t"], {"t": NET + "a,c,10,1\n"}, "no network", ["node 1 is b in the certificate, and c in the topology"]),
    ("a node more", ["c", "t"], {"t": NET + "a,b,10,1\nb,d,10,1\n"}, "no network", ["has 2 nodes, and the topology 3: d stands in one alone"]),
    ("a link more", ["c", "t"], {"t": NET + "a,b,10,1\nb,a,10,1\n"}, "no network", ["has 1 links, and the topology 2"]),
    ("rows in another order", ["c", "t"], {"c": TRIANGLE_FOR_ALL, "t": NET + "a,c,10,1\nb,c,10,1\nb,a,10,1\na,b,10,1\n"}, "no network",
     ["node 1 is b in the certificate, and c in the topology", "rows in another order"]),
    ("parallel links in another order", ["c", "t"], {"c": PARALLEL_WHOLE, "t": NET + "a,b,30,1\na,b,10,1\n"}, "no network", ["the capacity 10 in the certificate, and 30", "rows in another order"]),
    ("a link the other way round", ["c", "t"], {"c": changed("0 1 10 1", "1 0 10 1", SMALLEST.replace("0 1 1\n1000000", "1 0 1\n1000000"))["c"]}, "no network", ["link 0 (b to a)", "leads from a to b in the topology"]),
    ("a topology that is refused", ["c", "t"], {"t": NET + "a,b,10G,1\n"}, "refused: t: number at row 1", ["has a unit"]),
    ("matrices as topology", ["c", "t"], {"t": "step,source,target,demand\n0,a,b,7\n"}, "refused: t: header", ["this is a matrix file, given as topology"]),
    ("no topology", ["c", "u"], {}, "fault: read", ["that folder has c, t"]),
    ("certificate and topology exchanged", ["t", "c"], {}, "refused: t: shape at line 1", ["this is a topology, and no certificate"]),
    ("a certificate twice", ["c", "c"], {}, "refused: c: header", ["this is a certificate"]),
    ("a plan as certificate", ["p", "t"], {"p": '{"topology":"t","matrices":"m"}'}, "refused: p: shape at line 1", ["this is JSON"]),
    ("no certificate", ["d", "t"], {}, "fault: read", ["d, looked for as"]),
]

RULES = [
    ("a name twice", ["c"], {"c": TWICE_A_NAME}, "refused: c: rule V1 at 1", ["line:  4: a", "node 1 has the name a, and so has node 0"]),
    ("no capacity", ["c"], changed("0 1 10 1", "0 1 0 1"), "refused: c: rule V2 at 0", ["line:  6: 0 1 0 1", "the capacity of link 0 (a to b) is 0"]),
    ("a cost of 65536", ["c"], changed("0 1 10 1", "0 1 10 65536"), "refused: c: rule V2 at 0", ["the cost of link 0 (a to b) is 65536"]),
    ("a link to no node", ["c"], changed("0 1 10 1", "0 2 10 1"), "refused: c: rule V2 at 0", ["a to node 2, which there is not"]),
    ("a pair of one node", ["c"], changed("\n0 1 1\n", "\n0 0 1\n"), "refused: c: rule V3 at 0", ["line:  8: 0 0 1", "pair 0 (a to a) is of one node"]),
    ("a pair twice", ["c"], changed("pairs 1\n0 1 1\n1000000 1 0\n", "pairs 2\n0 1 1\n1000000 1 0\n0 1 1\n1000000 1 0\n"), "refused: c: rule V3 at 1", ["line:  10:", "stands twice"]),
    ("a path over another link", ["c"], changed("1000000 1 0", "1000000 1 1"), "refused: c: rule V4 at 0", ["line:  9: 1000000 1 1", "has link 1, which there is not"]),
    ("a node twice", ["c"], {"c": TRIANGLE_TWICE_A_NODE}, "refused: c: rule V4 at 0", ["comes to a a second time, by link 3 (b to a)"]),
    ("a path that ends too early", ["c"], changed("1000000 1 0", "1000000 1 2", TRIANGLE_FOR_ALL), "refused: c: rule V4 at 0", ["path 0 of pair 0 (a to c) ends at b"]),
    ("a path that begins elsewhere", ["c"], changed("1000000 1 0", "1000000 1 1", TRIANGLE_FOR_ALL), "refused: c: rule V4 at 0", ["goes on with link 1 (b to c), and has come to a"]),
    ("paths out of order", ["c"], {"c": PATHS_OUT_OF_ORDER}, "refused: c: rule V5 at 0", ["path 1 of pair 0 (a to b) stands after a path that is above it"]),
    ("weights below a million", ["c"], {"c": PARALLEL_LIGHT}, "refused: c: rule V6 at 0", ["have the sum 999999"]),
    ("a weight of 0", ["c"], changed("1000000 1 0", "0 1 0"), "refused: c: rule V6 at 0", ["path 0 of pair 0 (a to b) has a weight of 0"]),
    ("a margin below 1", ["c"], {"c": TRIANGLE_SMALL_MARGIN}, "refused: c: rule V7 at 0", ["this has 1 and 2"]),
    ("a base above the greatest", ["c"], changed("base 10 10", "base 10 4294967297", TRIANGLE_FOR_MARGIN), "refused: c: rule V7 at 2", ["line:  17:", "the base of pair 1 (b to c) is 4294967297"]),
    ("an empty box", ["c"], {"c": TRIANGLE_EMPTY_BOX}, "refused: c: rule V7 at 1", ["the lower demand, 11, is above the upper one, 10"]),
    ("an upper demand above the greatest", ["c"], changed("upper 5", "upper 4503599627370497", SMALL_BOX), "refused: c: rule V7 at 1", ["line:  12:", "is 4503599627370497"]),
    ("a ratio above the greatest", ["c"], {"c": WIDE_RATIO}, "refused: c: rule V8 at 0", ["the ratio is 10000000000000000000"]),
    ("a block of no link", ["c"], {"c": BLOCK_OF_NO_LINK}, "refused: c: rule V8 at 1", ["line:  13:", "block 0 is of link 1, which there is not"]),
    ("B of 0", ["c"], changed("0 1000000 1 1", "0 1000000 0 1"), "refused: c: rule V8 at 1", ["B of block 0 is 0"]),
    ("two blocks of a link", ["c"], {"c": PARALLEL_TWO_FAULTS}, "refused: c: rule V8 at 2", ["block 1 is of link 0 (a to b), after one of link 0"]),
    ("a weight of a link above the greatest", ["c"], {"c": WIDE_WEIGHT}, "refused: c: rule V9 at 0", ["line:  14: 268435457", "for link 0 (a to b)"]),
    ("a row of no node", ["c"], changed("0 0 1\nend", "2 0 1\nend"), "refused: c: rule V9 at 0", ["line:  15: 2 0 1", "node 2, which there is not"]),
    ("a potential above the greatest", ["c"], changed("0 0 1\nend", "0 0 68719476737\nend"), "refused: c: rule V9 at 0", ["the potential 68719476737 in the row of a"]),
    ("a minus above the greatest", ["c"], changed("minus 0", "minus 68719476737", SMALL_BOX), "refused: c: rule V9 at 0", ["the minus 68719476737 for pair 0 (a to b)"]),
]

SHAPES = [
    ("a byte order mark", ["c"], {"c": b"\xef\xbb\xbf" + SMALLEST.encode()}, "refused: c: shape at line 1", ["byte order mark", "bytes: ef bb bf"]),
    ("UTF-16", ["c"], {"c": SMALLEST.encode("utf-16")}, "refused: c: shape at line 1", ["UTF-16, as PowerShell writes"]),
    ("CRLF", ["c"], {"c": SMALLEST.replace("\n", "\r\n")}, "refused: c: shape at line 1", ["CR LF", "tr -d"]),
    ("no last line's end", ["c"], {"c": UNENDED}, "refused: c: shape at line 16", ["here:  end", "not ended by a line feed"]),
    ("a file that was cut at a line", ["c"], {"c": CUT}, "refused: c: shape at line 16", ["ends after line 15", "the disk was full"]),
    ("a file that was cut within a line", ["c"], {"c": SMALLEST[:-8]}, "refused: c: shape at line 15", ["ends within line 15", "here:  row 0 of block 0"]),
    ("two files in one", ["c"], {"c": SMALLEST + SMALLEST}, "refused: c: shape at line 17", ["something stands behind the line end"]),
    ("an empty line at the end", ["c"], {"c": SMALLEST + "\n"}, "refused: c: shape at line 17", ["an empty line"]),
    ("a third format", ["c"], changed("yates-ratio 1", "yates-ratio 3"), "refused: c: shape at line 1", ["yates-ratio 1 or yates-ratio 2", "3 is not from 1 to 2"]),
    ("a capital", ["c", "t"], changed("yates-ratio", "Yates-ratio"), "refused: c: shape at line 1", ["the first word is Yates-ratio"]),
    ("a leading zero", ["c"], {"c": LEADING_ZERO}, "refused: c: shape at line 11", ["01000000 has a leading zero"]),
    ("decimals", ["c"], changed("ratio 1000000", "ratio 1.0"), "refused: c: shape at line 11", ["1.0 is no number"]),
    ("a thousands mark", ["c"], changed("ratio 1000000", "ratio 1,000,000"), "refused: c: shape at line 11", ["1,000,000 is no number"]),
    ("a blank at the end of a line", ["c"], changed("0 1 10 1", "0 1 10 1 "), "refused: c: shape at line 6", ["by one blank"]),
    ("a tab", ["c"], changed("0 1 10 1", "0\t1 10 1"), "refused: c: shape at line 6", ["by one blank"]),
    ("a comment", ["c"], changed("links 1\n", "# the links\nlinks 1\n"), "refused: c: shape at line 5", ["is a comment"]),
    ("a name with an umlaut", ["c"], changed("\nb\n", "\nZürich\n"), "refused: c: shape at line 4", ["the name of node 1", "none of the format"]),
    ("65 nodes in the first format", ["c"], changed("nodes 2", "nodes 65"), "refused: c: shape at line 2", ["65 is not from 2 to 64"]),
    ("a box in the first format", ["c"], changed("set all", "set box"), "refused: c: shape at line 10", ["the first format has margins"]),
    ("a margin of one number", ["c"], changed("set all", "set margin 2"), "refused: c: shape at line 10", ["1 number in place of 2"]),
    ("a set of none", ["c"], changed("set all", "set none"), "refused: c: shape at line 10", ["none is no set"]),
    ("a margin without base", ["c"], changed("set all", "set margin 2 1"), "refused: c: shape at line 11", ["here:  base and 1 number, one for each pair", "first word is ratio"]),
    ("a block too many", ["c"], changed("blocks 1", "blocks 0"), "refused: c: shape at line 13", ["here:  end", "a count above is too small"]),
    ("a block too few", ["c"], changed("blocks 1", "blocks 2"), "refused: c: shape at line 16", ["here:  block 1: LINK A B ROWS", "a count above is too great"]),
    ("a node too few", ["c"], changed("nodes 2\na\n", "nodes 2\n"), "refused: c: shape at line 4", ["here:  the name of node 1", "links 1 is no name"]),
    ("a link's number too few", ["c"], changed("0 1 10 1", "0 1 10"), "refused: c: shape at line 6", ["TAIL HEAD CAPACITY COST", "3 numbers in place of 4"]),
    ("a path of another length", ["c"], changed("1000000 1 0", "1000000 2 0"), "refused: c: shape at line 9", ["L is 2, and 1 link"]),
    ("a weight of a link too many", ["c"], changed("\n1\n", "\n1 1\n"), "refused: c: shape at line 14", ["the weights of block 0", "2 numbers in place of 1"]),
    ("20 digits", ["c"], changed("ratio 1000000", "ratio 18446744073709551616"), "refused: c: shape at line 11", ["is above 18446744073709551615"]),
    ("5000 digits in a certificate", ["c"], changed("ratio 1000000", "ratio " + "9" * 5000), "refused: c: shape at line 11", ["is above 18446744073709551615"]),
    ("a compressed certificate", ["c", "t"], {"c": b"\x1f\x8b\x08\x00abc"}, "refused: c: shape at line 1", ["the file is compressed"]),
    ("an empty certificate", ["c", "t"], {"c": ""}, "refused: c: shape at line 1", ["the file is empty"]),
    ("the answer in place of the certificate", ["c", "t"], {"c": "yes ratio 1000000 set all\n"}, "refused: c: shape at line 1", ["this is the answer of check"]),
    ("the program's refusal in the file", ["c", "t"], {"c": "refused: plan.json: not json\n"}, "refused: c: shape at line 1", ["this is a message of the program"]),
    ("the network of fibres as certificate", ["c", "t"], {"c": NET + FIBRES}, "refused: c: shape at line 1", ["this is a topology, and no certificate"]),
]

CERTIFICATE_CASES = CLAIMS + FAILURES + NETWORKS + RULES + SHAPES
